/* An opening by hand, on SQLite: reads each row of a desk's file, and checks what the desk checks of it.
 *
 * `bench/finished.py` times it beside the program. It reads the rows of the eight tables in the order of their keys, all columns, also the
 * bytes of CSR and certificate, which the desk does not copy. It ends with 1 at the first row that no book has: values of another kind, texts
 * that are not UTF-8, numbers and moments out of their limits, keys, contacts, names and problems of another form, tokens and thumbprints of
 * another length, unknown words, numbers that do not rise, references to no row. It does not audit the file before, as the desk's engine does.
 *
 *     opening FILE
 */
#include <sqlite3.h>
#include <stdbool.h>
#include <stdint.h>
#include <stdio.h>
#include <stdlib.h>
#include <string.h>

static const int64_t LAST_MOMENT = 250000000000, LONGEST_LIFE = 315360000, LAST_END = 250000000000 + 315360000, LAST_NUMBER = (int64_t)1 << 62;

static sqlite3 *database;
/* The statement whose rows are read. */
static sqlite3_stmt *rows;

static void fail(const char *what)
{
    fprintf(stderr, "opening.c: %s\n", what);
    exit(1);
}

static void ask(bool holds)
{
    if (!holds)
        fail("no book has these rows");
}

/* ---- texts */

typedef struct {
    const char *at;
    size_t length;
} Slice;

static bool is(Slice text, const char *string)
{
    return text.length == strlen(string) && memcmp(text.at, string, text.length) == 0;
}

/* Whether the text begins so, and then what stands behind. */
static bool skip(Slice *text, const char *string)
{
    size_t length = strlen(string);
    if (text->length < length || memcmp(text->at, string, length) != 0)
        return false;
    text->at += length;
    text->length -= length;
    return true;
}

/* The bytes of the character that begins here, or 0. */
static size_t character(const uint8_t *at, size_t left)
{
    static const uint32_t LEAST[] = {0, 0, 0x80, 0x800, 0x10000};
    size_t length = at[0] < 0x80 ? 1 : at[0] < 0xc2 ? 0 : at[0] < 0xe0 ? 2 : at[0] < 0xf0 ? 3 : at[0] < 0xf5 ? 4 : 0;
    if (length < 2 || left < length)
        return length == 1 ? 1 : 0;
    uint32_t code = at[0] & (0x7f >> length);
    for (size_t i = 1; i < length; i++) {
        if ((at[i] & 0xc0) != 0x80)
            return 0;
        code = code << 6 | (at[i] & 0x3f);
    }
    return code < LEAST[length] || code > 0x10ffff || (code >= 0xd800 && code < 0xe000) ? 0 : length;
}

static bool is_utf8(Slice text)
{
    const uint8_t *bytes = (const uint8_t *)text.at;
    for (size_t i = 0, length; i < text.length; i += length) {
        uint64_t eight;
        length = 8;
        if (text.length - i >= 8 && (memcpy(&eight, bytes + i, 8), (eight & 0x8080808080808080u) == 0))
            continue;
        length = character(bytes + i, text.length - i);
        if (length == 0)
            return false;
    }
    return true;
}

static bool is_among(Slice text, const char *const *words)
{
    for (; *words; words++)
        if (is(text, *words))
            return true;
    return false;
}

/* ---- compact JSON */

static bool is_one_of(char c, const char *string)
{
    return c && strchr(string, c);
}

/* The bytes of the character that begins here, as a compact JSON string spells it, or 0. */
static size_t spelled(Slice text)
{
    if (*text.at != '\\')
        return (uint8_t)*text.at >= 32;
    if (text.length > 1 && is_one_of(text.at[1], "\"\\bfnrt"))
        return 2;
    if (text.length > 5 && memcmp(text.at, "\\u000", 5) == 0)
        return is_one_of(text.at[5], "01234567bef") ? 6 : 0;
    return text.length > 5 && memcmp(text.at, "\\u001", 5) == 0 && is_one_of(text.at[5], "0123456789abcdef") ? 6 : 0;
}

/* Whether a compact JSON string stands first, and then what stands behind, and the string between its marks. */
static bool skip_string(Slice *text, Slice *string)
{
    if (!skip(text, "\""))
        return false;
    *string = *text;
    while (text->length && *text->at != '"') {
        size_t length = spelled(*text);
        if (length == 0)
            return false;
        text->at += length;
        text->length -= length;
    }
    string->length = (size_t)(text->at - string->at);
    return skip(text, "\"");
}

static bool are_contacts(Slice text)
{
    Slice contact;
    if (is(text, "[]"))
        return true;
    if (!skip(&text, "[") || !skip_string(&text, &contact))
        return false;
    while (skip(&text, ","))
        if (!skip_string(&text, &contact))
            return false;
    return is(text, "]");
}

static bool is_problem(Slice text)
{
    static const char *const TYPES[] = {"badCSR", "serverInternal", NULL};
    Slice detail, type;
    return skip(&text, "{\"detail\":") && skip_string(&text, &detail) && skip(&text, ",\"type\":") && skip_string(&text, &type) && is(text, "}") &&
           is_among(type, TYPES);
}

/* ---- keys and names */

/* Whether a number in base64url stands first, with the mark behind it, and then what stands behind. */
static bool skip_number(Slice *text)
{
    size_t i = 0;
    for (; i < text->length && text->at[i] != '"'; i++) {
        char c = text->at[i];
        if (!((c >= '0' && c <= '9') || (c >= 'A' && c <= 'Z') || (c >= 'a' && c <= 'z') || c == '-' || c == '_'))
            return false;
    }
    if (i == text->length || i < 1 || i > 4096)
        return false;
    text->at += i + 1;
    text->length -= i + 1;
    return true;
}

static bool is_key(Slice text)
{
    static const char *const SHAPES[][2] = {{"{\"crv\":\"P-256\",\"kty\":\"EC\",\"x\":\"", ",\"y\":\""},
                                            {"{\"crv\":\"P-384\",\"kty\":\"EC\",\"x\":\"", ",\"y\":\""},
                                            {"{\"crv\":\"P-521\",\"kty\":\"EC\",\"x\":\"", ",\"y\":\""},
                                            {"{\"e\":\"", ",\"kty\":\"RSA\",\"n\":\""},
                                            {"{\"crv\":\"Ed25519\",\"kty\":\"OKP\",\"x\":\"", NULL}};
    for (size_t i = 0; i < sizeof SHAPES / sizeof *SHAPES; i++)
        if (skip(&text, SHAPES[i][0]))
            return skip_number(&text) && (!SHAPES[i][1] || (skip(&text, SHAPES[i][1]) && skip_number(&text))) && is(text, "}");
    return false;
}

/* Whether the bytes up to the next full stop, or the end, are a label, and how many; whether all are digits. */
static bool is_label(const char *at, size_t left, size_t *length, bool *has_only_digits)
{
    size_t i = 0;
    *has_only_digits = true;
    for (; i < left && at[i] != '.'; i++) {
        bool is_digit = at[i] >= '0' && at[i] <= '9';
        if (!is_digit && !(at[i] >= 'a' && at[i] <= 'z') && at[i] != '-')
            return false;
        *has_only_digits = *has_only_digits && is_digit;
    }
    *length = i;
    return i >= 1 && i <= 63 && at[0] != '-' && at[i - 1] != '-';
}

static bool is_name(Slice text)
{
    size_t labels = 0, length;
    bool has_only_digits;
    if (text.length > 253)
        return false;
    for (size_t i = 0; i <= text.length; i += length + 1, labels++)
        if (!is_label(text.at + i, text.length - i, &length, &has_only_digits))
            return false;
    return labels >= 2 && !has_only_digits;
}

static bool is_base(Slice text)
{
    Slice rest = text;
    if (text.length < 8 || text.length > 256 || text.at[text.length - 1] == '/' || !(skip(&rest, "http://") || skip(&rest, "https://")))
        return false;
    for (size_t i = 0; i < text.length; i++)
        if (text.at[i] < 33 || text.at[i] > 126 || strchr("\"<>\\", text.at[i]))
            return false;
    return true;
}

/* ---- the values of a row */

static bool is_null(int column)
{
    return sqlite3_column_type(rows, column) == SQLITE_NULL;
}

static int64_t number_at(int column, int64_t least, int64_t most)
{
    ask(sqlite3_column_type(rows, column) == SQLITE_INTEGER);
    int64_t number = sqlite3_column_int64(rows, column);
    ask(least <= number && number <= most);
    return number;
}

static Slice text_at(int column)
{
    ask(sqlite3_column_type(rows, column) == SQLITE_TEXT);
    Slice text = {(const char *)sqlite3_column_text(rows, column), (size_t)sqlite3_column_bytes(rows, column)};
    ask(is_utf8(text));
    return text;
}

static void see_word(int column, const char *const *words)
{
    ask(is_among(text_at(column), words));
}

static void see_bytes(int column, int length)
{
    ask(sqlite3_column_type(rows, column) == SQLITE_BLOB && sqlite3_column_blob(rows, column) && sqlite3_column_bytes(rows, column) == length);
}

/* A moment in one column where there is one in the other, and none where that is NULL, too. */
static bool is_dated(int date, int column)
{
    ask(is_null(date) == is_null(column));
    if (is_null(date))
        return false;
    number_at(date, 0, LAST_MOMENT);
    return true;
}

static void see_dated_word(int date, int column, const char *const *words)
{
    if (is_dated(date, column))
        see_word(column, words);
}

static void see_dated_bytes(int date, int column)
{
    if (!is_dated(date, column))
        return;
    ask(sqlite3_column_type(rows, column) == SQLITE_BLOB && (sqlite3_column_blob(rows, column) || sqlite3_column_bytes(rows, column) == 0));
}

/* ---- numbers of rows */

typedef struct {
    int64_t *items;
    size_t count, room;
} Numbers;

static void push(Numbers *numbers, int64_t number)
{
    if (numbers->count == numbers->room) {
        numbers->room = numbers->room ? 2 * numbers->room : 64;
        numbers->items = realloc(numbers->items, numbers->room * sizeof *numbers->items);
        if (!numbers->items)
            fail("out of memory");
    }
    numbers->items[numbers->count++] = number;
}

static void see_among(const Numbers *numbers, int64_t number)
{
    size_t low = 0, high = numbers->count;
    while (low < high) {
        size_t middle = low + (high - low) / 2;
        if (numbers->items[middle] < number)
            low = middle + 1;
        else
            high = middle;
    }
    ask(low < numbers->count && numbers->items[low] == number);
}

/* The number in the first column, above that of the row before, and at most the last one given. */
static int64_t next_number(int64_t *top, int64_t last)
{
    int64_t number = number_at(0, 1, last);
    ask(number > *top);
    return *top = number;
}

/* ---- the tables */

static struct {
    int64_t nonces, accounts, orders, authzs, challs;
} last;

static Numbers accounts, orders, authorizations, answered;

static const char *const ENDINGS[] = {"deactivated", "revoked", NULL};

/* Calls this with each row of a query. */
static void each_row(const char *text, void (*see)(void))
{
    int code;
    if (sqlite3_prepare_v2(database, text, -1, &rows, NULL) != SQLITE_OK)
        fail(sqlite3_errmsg(database));
    while ((code = sqlite3_step(rows)) == SQLITE_ROW)
        see();
    if (code != SQLITE_DONE)
        fail(sqlite3_errmsg(database));
    sqlite3_finalize(rows);
}

static void see_meta(void)
{
    static bool is_second;
    ask(!is_second);
    is_second = true;
    number_at(0, 1, 1);
    number_at(1, 2, 2);
    ask(is_base(text_at(2)));
    for (int i = 3; i < 6; i++)
        number_at(i, 1, LONGEST_LIFE);
    number_at(6, 0, LAST_MOMENT);
    int64_t *counters[] = {&last.nonces, &last.accounts, &last.orders, &last.authzs, &last.challs};
    for (int i = 0; i < 5; i++)
        *counters[i] = number_at(7 + i, 0, LAST_NUMBER);
}

static void see_nonce(void)
{
    static int64_t top;
    next_number(&top, last.nonces);
    see_bytes(1, 16);
    number_at(2, 0, LAST_MOMENT);
}

static char **keys;

static int by_text(const void *one, const void *other)
{
    return strcmp(*(char *const *)one, *(char *const *)other);
}

static void see_account(void)
{
    static const char *const STATUSES[] = {"valid", "deactivated", "revoked", NULL};
    static int64_t top;
    static size_t room;
    push(&accounts, next_number(&top, last.accounts));
    Slice key = text_at(1);
    ask(is_key(key) && are_contacts(text_at(2)));
    number_at(3, 0, LAST_MOMENT);
    see_dated_word(4, 5, ENDINGS);
    see_word(6, STATUSES);
    if (accounts.count > room)
        keys = realloc(keys, (room = 2 * accounts.count) * sizeof *keys);
    if (!keys || !(keys[accounts.count - 1] = strndup(key.at, key.length)))
        fail("out of memory");
}

static void see_keys(void)
{
    qsort(keys, accounts.count, sizeof *keys, by_text);
    for (size_t i = 1; i < accounts.count; i++)
        ask(strcmp(keys[i - 1], keys[i]) < 0);
}

static void see_order(void)
{
    static const char *const STATUSES[] = {"pending", "ready", "processing", "valid", "invalid", NULL};
    static int64_t top;
    push(&orders, next_number(&top, last.orders));
    see_among(&accounts, number_at(1, 1, LAST_NUMBER));
    number_at(2, 0, LAST_MOMENT);
    number_at(3, 0, LAST_END);
    see_dated_bytes(4, 5);
    see_dated_bytes(6, 7);
    if (is_dated(8, 9))
        ask(is_problem(text_at(9)));
    see_word(10, STATUSES);
}

static void see_authorization(void)
{
    static const char *const STATUSES[] = {"pending", "valid", "invalid", "deactivated", "expired", "revoked", NULL};
    static const char *const ENDS[] = {"invalid", "deactivated", "revoked", NULL};
    static int64_t top;
    push(&authorizations, next_number(&top, last.authzs));
    see_among(&accounts, number_at(1, 1, LAST_NUMBER));
    ask(is_name(text_at(2)));
    number_at(3, 0, 1);
    number_at(4, 0, LAST_MOMENT);
    number_at(5, 0, LAST_END);
    see_dated_word(6, 7, ENDS);
    see_word(8, STATUSES);
}

static void see_listed(void)
{
    static int64_t order, place;
    int64_t next = number_at(0, 1, LAST_NUMBER), at = number_at(1, 1, INT64_MAX);
    ask(next > order || (next == order && at > place));
    order = next;
    place = at;
    see_among(&orders, order);
    see_among(&authorizations, number_at(2, 1, LAST_NUMBER));
}

static void see_challenge(void)
{
    static const char *const KINDS[] = {"http-01", "dns-01", NULL}, *const OUTCOMES[] = {"good", "incorrectResponse", "connection", "dns", NULL};
    static const char *const STATUSES[] = {"pending", "processing", "valid", "invalid", NULL};
    static int64_t top;
    next_number(&top, last.challs);
    see_among(&authorizations, number_at(1, 1, LAST_NUMBER));
    see_word(2, KINDS);
    see_bytes(3, 16);
    if (!is_null(4)) {
        number_at(4, 0, LAST_MOMENT);
        push(&answered, top);
    }
    see_dated_word(5, 6, OUTCOMES);
    see_word(7, STATUSES);
}

static size_t keys_seen;

static void see_key(void)
{
    ask(keys_seen < answered.count && number_at(0, 1, LAST_NUMBER) == answered.items[keys_seen++]);
    see_bytes(1, 32);
}

/* ---- the file */

static void see_tables(void)
{
    each_row("SELECT id, format, base, nonce_life, order_life, authz_life, clock, nonces, accounts, orders, authzs, challs FROM meta ORDER BY id", see_meta);
    each_row("SELECT serial, random, issued FROM nonce ORDER BY serial", see_nonce);
    each_row("SELECT num, jwk, contacts, opened, ended, end_kind, status FROM account ORDER BY num", see_account);
    see_keys();
    each_row("SELECT num, account, made, expires, finalized, csr, certified, cert, failed, problem, status FROM ord ORDER BY num", see_order);
    each_row("SELECT num, account, name, wildcard, made, expires, ended, end_kind, status FROM authz ORDER BY num", see_authorization);
    each_row("SELECT ord, place, authz FROM ord_authz ORDER BY ord, place", see_listed);
    each_row("SELECT num, authz, kind, token, answered, reported, outcome, status FROM chall ORDER BY num", see_challenge);
    each_row("SELECT chall, thumb FROM chall_key ORDER BY chall", see_key);
    ask(keys_seen == answered.count);
}

int main(int argc, char **argv)
{
    if (argc != 2 || sqlite3_open_v2(argv[1], &database, SQLITE_OPEN_READWRITE, NULL) != SQLITE_OK)
        fail("usage: opening FILE");
    see_tables();
    return sqlite3_close(database) == SQLITE_OK ? 0 : 1;
}
