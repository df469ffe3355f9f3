/* The transactions of the desk by hand, on SQLite: a line of a batch in, a reply line out.
 *
 * `make bench` times it against the program. It reads the same lines, makes the same writes of rows in one transaction a
 * call, and writes the same replies for the calls that the bench makes. It remembers nothing from one call to the next: it
 * looks up what a call needs of the desk's own row, the nonce and what has ended, which the program remembers. For other
 * requests it is no desk: it looks at names, contacts and keys only as far as the bench needs it.
 *
 *     desk FILE < calls > replies
 */
#include <sqlite3.h>
#include <stdbool.h>
#include <stdint.h>
#include <stdio.h>
#include <stdlib.h>
#include <string.h>
#include <time.h>

enum { LINE_BYTES = 1 << 19, NAMES = 50 };

static void fail(const char *what)
{
    fprintf(stderr, "desk.c: %s\n", what);
    exit(1);
}

/* ---- texts */

/* A piece of a text. */
typedef struct {
    const char *at;
    size_t length;
} Slice;

/* A text that grows up to the bytes of a line. */
typedef struct {
    char bytes[LINE_BYTES];
    size_t length;
} Text;

static void put_bytes(Text *text, const char *bytes, size_t length)
{
    if (text->length + length >= sizeof text->bytes)
        fail("a text is too long");
    memcpy(text->bytes + text->length, bytes, length);
    text->length += length;
    text->bytes[text->length] = 0;
}

static void put(Text *text, const char *string)
{
    put_bytes(text, string, strlen(string));
}

static void put_number(Text *text, int64_t number)
{
    char digits[24];
    snprintf(digits, sizeof digits, "%lld", (long long)number);
    put(text, digits);
}

static void clear(Text *text)
{
    text->length = 0;
    text->bytes[0] = 0;
}

static Slice slice_of(const Text *text)
{
    return (Slice){text->bytes, text->length};
}

static bool is(Slice slice, const char *string)
{
    return slice.length == strlen(string) && memcmp(slice.at, string, slice.length) == 0;
}

/* ---- base64url, hexadecimal digits, SHA-256 */

static const char ALPHABET[] = "ABCDEFGHIJKLMNOPQRSTUVWXYZabcdefghijklmnopqrstuvwxyz0123456789-_";

static void put_base64url(Text *text, const uint8_t *bytes, size_t length)
{
    char four[4];
    for (size_t i = 0; i < length; i += 3) {
        size_t left = length - i;
        uint32_t group = (uint32_t)bytes[i] << 16;
        if (left > 1)
            group |= (uint32_t)bytes[i + 1] << 8;
        if (left > 2)
            group |= bytes[i + 2];
        for (int j = 0; j < 4; j++)
            four[j] = ALPHABET[group >> (18 - 6 * j) & 63];
        put_bytes(text, four, left > 2 ? 4 : left + 1);
    }
}

/* The bytes of a base64url text, or -1. */
static long read_base64url(Slice text, uint8_t *bytes)
{
    uint32_t group = 0;
    long count = 0;
    for (size_t i = 0; i < text.length; i++) {
        const char *found = memchr(ALPHABET, text.at[i], 64);
        if (!found)
            return -1;
        group = group << 6 | (uint32_t)(found - ALPHABET);
        if (i % 4)
            bytes[count++] = (uint8_t)(group >> (6 - 2 * (i % 4)));
    }
    return text.length % 4 == 1 ? -1 : count;
}

static int digit_of(char c)
{
    return c >= '0' && c <= '9'   ? c - '0'
           : c >= 'a' && c <= 'f' ? c - 'a' + 10
           : c >= 'A' && c <= 'F' ? c - 'A' + 10
                                  : -1;
}

static void read_digits(Slice text, uint8_t *bytes, size_t room)
{
    for (size_t i = 0; i + 1 < text.length && i / 2 < room; i += 2)
        bytes[i / 2] = (uint8_t)(digit_of(text.at[i]) << 4 | digit_of(text.at[i + 1]));
}

static const uint32_t ROUNDS[64] = {
    0x428a2f98, 0x71374491, 0xb5c0fbcf, 0xe9b5dba5, 0x3956c25b, 0x59f111f1, 0x923f82a4, 0xab1c5ed5,
    0xd807aa98, 0x12835b01, 0x243185be, 0x550c7dc3, 0x72be5d74, 0x80deb1fe, 0x9bdc06a7, 0xc19bf174,
    0xe49b69c1, 0xefbe4786, 0x0fc19dc6, 0x240ca1cc, 0x2de92c6f, 0x4a7484aa, 0x5cb0a9dc, 0x76f988da,
    0x983e5152, 0xa831c66d, 0xb00327c8, 0xbf597fc7, 0xc6e00bf3, 0xd5a79147, 0x06ca6351, 0x14292967,
    0x27b70a85, 0x2e1b2138, 0x4d2c6dfc, 0x53380d13, 0x650a7354, 0x766a0abb, 0x81c2c92e, 0x92722c85,
    0xa2bfe8a1, 0xa81a664b, 0xc24b8b70, 0xc76c51a3, 0xd192e819, 0xd6990624, 0xf40e3585, 0x106aa070,
    0x19a4c116, 0x1e376c08, 0x2748774c, 0x34b0bcb5, 0x391c0cb3, 0x4ed8aa4a, 0x5b9cca4f, 0x682e6ff3,
    0x748f82ee, 0x78a5636f, 0x84c87814, 0x8cc70208, 0x90befffa, 0xa4506ceb, 0xbef9a3f7, 0xc67178f2,
};

static uint32_t rotated(uint32_t word, int bits)
{
    return word >> bits | word << (32 - bits);
}

static void add_block(uint32_t state[8], const uint8_t block[64])
{
    uint32_t w[64], s[8];
    for (int i = 0; i < 16; i++)
        w[i] = (uint32_t)block[4 * i] << 24 | (uint32_t)block[4 * i + 1] << 16 | (uint32_t)block[4 * i + 2] << 8 |
               block[4 * i + 3];
    for (int i = 16; i < 64; i++) {
        uint32_t a = rotated(w[i - 15], 7) ^ rotated(w[i - 15], 18) ^ w[i - 15] >> 3;
        uint32_t b = rotated(w[i - 2], 17) ^ rotated(w[i - 2], 19) ^ w[i - 2] >> 10;
        w[i] = w[i - 16] + a + w[i - 7] + b;
    }
    memcpy(s, state, sizeof s);
    for (int i = 0; i < 64; i++) {
        uint32_t e = rotated(s[4], 6) ^ rotated(s[4], 11) ^ rotated(s[4], 25);
        uint32_t a = rotated(s[0], 2) ^ rotated(s[0], 13) ^ rotated(s[0], 22);
        uint32_t first = s[7] + e + ((s[4] & s[5]) ^ (~s[4] & s[6])) + ROUNDS[i] + w[i];
        uint32_t second = a + ((s[0] & s[1]) ^ (s[0] & s[2]) ^ (s[1] & s[2]));
        memmove(s + 1, s, 7 * sizeof *s);
        s[4] += first;
        s[0] = first + second;
    }
    for (int i = 0; i < 8; i++)
        state[i] += s[i];
}

static void sha256(Slice text, uint8_t digest[32])
{
    uint32_t state[8] = {0x6a09e667, 0xbb67ae85, 0x3c6ef372, 0xa54ff53a,
                         0x510e527f, 0x9b05688c, 0x1f83d9ab, 0x5be0cd19};
    uint8_t last[128] = {0};
    size_t whole = text.length / 64 * 64, rest = text.length - whole, padded = rest < 56 ? 64 : 128;
    for (size_t i = 0; i < whole; i += 64)
        add_block(state, (const uint8_t *)text.at + i);
    memcpy(last, text.at + whole, rest);
    last[rest] = 0x80;
    for (int i = 0; i < 8; i++)
        last[padded - 1 - i] = (uint8_t)((uint64_t)text.length * 8 >> 8 * i);
    for (size_t i = 0; i < padded; i += 64)
        add_block(state, last + i);
    for (int i = 0; i < 32; i++)
        digest[i] = (uint8_t)(state[i / 4] >> (24 - 8 * (i % 4)));
}

/* ---- JSON */

static const char *skip_blanks(const char *at)
{
    return at + strspn(at, " \t\r\n");
}

static const char *skip_string(const char *at)
{
    for (at++; *at && *at != '"'; at++)
        if (*at == '\\' && at[1])
            at++;
    return *at ? at + 1 : at;
}

/* The end of the value that begins here. */
static const char *skip_value(const char *at)
{
    if (*at == '"')
        return skip_string(at);
    if (*at != '{' && *at != '[')
        return at + strcspn(at, ",]} \t\r\n");
    int depth = 0;
    while (*at) {
        if (*at == '"') {
            at = skip_string(at);
            continue;
        }
        depth += *at == '{' || *at == '[' ? 1 : *at == '}' || *at == ']' ? -1 : 0;
        at++;
        if (depth == 0)
            return at;
    }
    return at;
}

/* The value of an object's member, as it is written; of no length where there is none. */
static Slice member(Slice object, const char *name)
{
    const char *at = skip_blanks(object.at);
    if (*at != '{')
        return (Slice){at, 0};
    for (at = skip_blanks(at + 1); *at == '"'; at = skip_blanks(at + 1)) {
        const char *end = skip_string(at);
        Slice key = {at + 1, (size_t)(end - at) - 2};
        const char *value = skip_blanks(skip_blanks(end) + 1);
        at = skip_value(value);
        if (is(key, name))
            return (Slice){value, (size_t)(at - value)};
        at = skip_blanks(at);
        if (*at != ',')
            break;
    }
    return (Slice){at, 0};
}

/* Appends a character in UTF-8. */
static void put_character(Text *text, uint32_t c)
{
    char bytes[4];
    if (c < 0x80) {
        bytes[0] = (char)c;
        put_bytes(text, bytes, 1);
    } else if (c < 0x800) {
        bytes[0] = (char)(0xc0 | c >> 6);
        bytes[1] = (char)(0x80 | (c & 63));
        put_bytes(text, bytes, 2);
    } else {
        bytes[0] = (char)(0xe0 | c >> 12);
        bytes[1] = (char)(0x80 | (c >> 6 & 63));
        bytes[2] = (char)(0x80 | (c & 63));
        put_bytes(text, bytes, 3);
    }
}

/* The text of a JSON string. */
static void put_string(Text *text, Slice string)
{
    static const char ESCAPES[] = "\"\\/bfnrt", MEANT[] = "\"\\/\b\f\n\r\t";
    const char *end = string.at + string.length - 1;
    for (const char *at = string.at + 1; at < end;) {
        size_t plain = 0;
        while (at + plain < end && at[plain] != '\\')
            plain++;
        put_bytes(text, at, plain);
        at += plain;
        if (at >= end)
            break;
        const char *found = strchr(ESCAPES, at[1]);
        if (found) {
            put_bytes(text, MEANT + (found - ESCAPES), 1);
            at += 2;
        } else {
            uint32_t c = 0;
            for (int i = 2; i < 6; i++)
                c = c << 4 | (uint32_t)digit_of(at[i]);
            put_character(text, c);
            at += 6;
        }
    }
}

/* ---- statements */

typedef enum {
    BEGIN, COMMIT, META, PUT_META,
    NONCE, PUT_NONCE, DROP_NONCE, DROP_NONCES,
    ACCOUNT, ACCOUNT_BY_KEY, PUT_ACCOUNT, PUT_CONTACTS, PUT_KEY, END_ACCOUNT,
    ORDER, ORDERS_OF, ORDERS_PAST, PUT_ORDER, FINALIZE, CERTIFY, FALL, MAKE_READY, ORDER_WORK,
    LISTED, LISTING, PUT_LISTED,
    AUTHORIZATION, AUTHORIZATIONS_OF, AUTHORIZATIONS_PAST, SERVING, PUT_AUTHORIZATION, PUT_STATUS, END_AUTHORIZATION,
    CHALLENGE, CHALLENGES_OF, PUT_CHALLENGE, ANSWER, ANSWER_KEY, PUT_ANSWER_KEY, REPORT, CHALLENGE_WORK,
    STATEMENTS
} Name;

static const char *const TEXTS[STATEMENTS] = {
    [BEGIN] = "BEGIN IMMEDIATE",
    [COMMIT] = "COMMIT",
    [META] =
        "SELECT base, nonce_life, order_life, authz_life, clock, nonces, accounts, orders, authzs, challs FROM meta",
    [PUT_META] = "UPDATE meta SET clock = ?1, nonces = ?2, accounts = ?3, orders = ?4, authzs = ?5, challs = ?6",
    [NONCE] = "SELECT random, issued FROM nonce WHERE serial = ?1",
    [PUT_NONCE] = "INSERT INTO nonce (serial, random, issued) VALUES (?1, ?2, ?3)",
    [DROP_NONCE] = "DELETE FROM nonce WHERE serial = ?1",
    [DROP_NONCES] = "DELETE FROM nonce WHERE issued < ?1",
    [ACCOUNT] = "SELECT num, jwk, contacts, status FROM account WHERE num = ?1",
    [ACCOUNT_BY_KEY] = "SELECT num, jwk, contacts, status FROM account WHERE jwk = ?1",
    [PUT_ACCOUNT] = "INSERT INTO account (num, jwk, contacts, opened, status) VALUES (?1, ?2, ?3, ?4, 'valid')",
    [PUT_CONTACTS] = "UPDATE account SET contacts = ?2 WHERE num = ?1",
    [PUT_KEY] = "UPDATE account SET jwk = ?2 WHERE num = ?1",
    [END_ACCOUNT] = "UPDATE account SET ended = ?2, end_kind = 'deactivated', status = 'deactivated' WHERE num = ?1",
    [ORDER] = "SELECT account, expires, status, csr, cert FROM ord WHERE num = ?1",
    [ORDERS_OF] = "SELECT num, status FROM ord WHERE account = ?1 ORDER BY num",
    [ORDERS_PAST] = "SELECT num FROM ord WHERE status = ?1 AND expires < ?2",
    [PUT_ORDER] = "INSERT INTO ord (num, account, made, expires, status) VALUES (?1, ?2, ?3, ?4, 'pending')",
    [FINALIZE] = "UPDATE ord SET finalized = ?2, csr = ?3, status = 'processing' WHERE num = ?1",
    [CERTIFY] = "UPDATE ord SET certified = ?2, cert = ?3, status = 'valid' WHERE num = ?1",
    [FALL] = "UPDATE ord SET status = 'invalid' WHERE num = ?1 AND status IN ('pending', 'ready', 'processing')",
    [MAKE_READY] =
        "UPDATE ord SET status = 'ready' WHERE num = ?1 AND status = 'pending' AND NOT EXISTS (SELECT 1 FROM "
        "ord_authz JOIN authz ON authz.num = ord_authz.authz WHERE ord_authz.ord = ?1 AND authz.status <> 'valid')",
    [ORDER_WORK] = "SELECT num, csr FROM ord WHERE status = 'processing' ORDER BY num",
    [LISTED] = "SELECT authz.num, authz.name, authz.wildcard FROM ord_authz JOIN authz ON authz.num = ord_authz.authz "
               "WHERE ord_authz.ord = ?1 ORDER BY ord_authz.place",
    [LISTING] = "SELECT ord FROM ord_authz WHERE authz = ?1",
    [PUT_LISTED] = "INSERT INTO ord_authz (ord, place, authz) VALUES (?1, ?2, ?3)",
    [AUTHORIZATION] = "SELECT account, name, wildcard, expires, status FROM authz WHERE num = ?1",
    [AUTHORIZATIONS_OF] = "SELECT num FROM authz WHERE account = ?1 AND status IN ('pending', 'valid')",
    [AUTHORIZATIONS_PAST] = "SELECT num FROM authz WHERE status = ?1 AND expires < ?2",
    [SERVING] = "SELECT num FROM authz WHERE account = ?1 AND name = ?2 AND wildcard = ?3 AND status = 'valid' AND "
                "expires >= ?4 ORDER BY num LIMIT 1",
    [PUT_AUTHORIZATION] = "INSERT INTO authz (num, account, name, wildcard, made, expires, status) "
                          "VALUES (?1, ?2, ?3, ?4, ?5, ?6, 'pending')",
    [PUT_STATUS] = "UPDATE authz SET status = ?2 WHERE num = ?1",
    [END_AUTHORIZATION] = "UPDATE authz SET ended = ?2, end_kind = ?3, status = ?3 WHERE num = ?1",
    [CHALLENGE] = "SELECT num, kind, token, reported, outcome, status, authz FROM chall WHERE num = ?1",
    [CHALLENGES_OF] =
        "SELECT num, kind, token, reported, outcome, status, authz FROM chall WHERE authz = ?1 ORDER BY num",
    [PUT_CHALLENGE] = "INSERT INTO chall (num, authz, kind, token, status) VALUES (?1, ?2, ?3, ?4, 'pending')",
    [ANSWER] = "UPDATE chall SET answered = ?2, status = 'processing' WHERE num = ?1",
    [ANSWER_KEY] = "SELECT thumb FROM chall_key WHERE chall = ?1",
    [PUT_ANSWER_KEY] = "INSERT INTO chall_key (chall, thumb) VALUES (?1, ?2)",
    [REPORT] = "UPDATE chall SET reported = ?2, outcome = ?3, status = ?4 WHERE num = ?1",
    [CHALLENGE_WORK] =
        "SELECT chall.num, chall.kind, chall.token, authz.name, chall_key.thumb FROM chall JOIN authz ON authz.num "
        "= chall.authz JOIN chall_key ON chall_key.chall = chall.num WHERE chall.status = 'processing' AND "
        "authz.status = 'pending' ORDER BY chall.num",
};

static sqlite3 *database;
static sqlite3_stmt *statements[STATEMENTS];

static void open_database(const char *path)
{
    static const char *const SETTINGS =
        "PRAGMA journal_mode = WAL; PRAGMA synchronous = FULL; PRAGMA foreign_keys = ON;"
        "PRAGMA wal_autocheckpoint = 1000; PRAGMA cache_size = 2000;"
        "PRAGMA locking_mode = EXCLUSIVE";
    if (sqlite3_open_v2(path, &database, SQLITE_OPEN_READWRITE, NULL) != SQLITE_OK)
        fail("the file is not opened");
    if (sqlite3_exec(database, SETTINGS, NULL, NULL, NULL) != SQLITE_OK)
        fail(sqlite3_errmsg(database));
    for (int i = 0; i < STATEMENTS; i++)
        if (sqlite3_prepare_v3(database, TEXTS[i], -1, SQLITE_PREPARE_PERSISTENT, &statements[i], NULL) != SQLITE_OK)
            fail(sqlite3_errmsg(database));
}

static sqlite3_stmt *start(Name name)
{
    sqlite3_reset(statements[name]);
    return statements[name];
}

/* Whether there is a further row. */
static bool next(Name name)
{
    int code = sqlite3_step(statements[name]);
    if (code == SQLITE_ROW)
        return true;
    sqlite3_reset(statements[name]);
    if (code != SQLITE_DONE)
        fail(sqlite3_errmsg(database));
    return false;
}

static void set(Name name, int place, int64_t number)
{
    sqlite3_bind_int64(statements[name], place, number);
}

static void set_text(Name name, int place, Slice text)
{
    sqlite3_bind_text(statements[name], place, text.at, (int)text.length, SQLITE_TRANSIENT);
}

static void set_bytes(Name name, int place, const void *bytes, size_t length)
{
    sqlite3_bind_blob(statements[name], place, bytes, (int)length, SQLITE_TRANSIENT);
}

static void perform(Name name)
{
    while (next(name))
        ;
}

/* Performs a statement of some numbers. */
static void perform_with(Name name, int64_t first, int64_t second)
{
    start(name);
    set(name, 1, first);
    if (sqlite3_bind_parameter_count(statements[name]) > 1)
        set(name, 2, second);
    perform(name);
}

/* Whether there is a row with this number. */
static bool find(Name name, int64_t number)
{
    start(name);
    set(name, 1, number);
    return next(name);
}

static int64_t number_at(Name name, int column)
{
    return sqlite3_column_int64(statements[name], column);
}

static Slice text_at(Name name, int column)
{
    const char *text = (const char *)sqlite3_column_text(statements[name], column);
    return (Slice){text ? text : "", (size_t)sqlite3_column_bytes(statements[name], column)};
}

/* The numbers in the first column. */
typedef struct {
    int64_t *items;
    size_t count;
} Numbers;

static Numbers numbers(Name name)
{
    static int64_t *items;
    static size_t room;
    size_t count = 0;
    while (next(name)) {
        if (count == room) {
            room = room ? 2 * room : 64;
            items = realloc(items, room * sizeof *items);
            if (!items)
                fail("out of memory");
        }
        items[count++] = number_at(name, 0);
    }
    return (Numbers){items, count};
}

/* ---- the desk's own row, and the call */

static struct {
    char base[257];
    int64_t nonce_life, order_life, authz_life, clock, nonces, accounts, orders, authzs, challs;
} meta;

static struct {
    int64_t at;
    bool records;
    uint8_t random[4096];
    Text body, jwk, payload;
    int64_t account;
    char account_status[16];
    Text contacts;
} call;

static struct {
    int status;
    Text location, nonce, document;
} reply;

static void read_meta(void)
{
    start(META);
    if (!next(META))
        fail("there is no meta row");
    Slice base = text_at(META, 0);
    snprintf(meta.base, sizeof meta.base, "%.*s", (int)base.length, base.at);
    int64_t *columns[] = {&meta.nonce_life, &meta.order_life, &meta.authz_life, &meta.clock, &meta.nonces,
                          &meta.accounts,   &meta.orders,     &meta.authzs,     &meta.challs};
    for (int i = 0; i < 9; i++)
        *columns[i] = number_at(META, i + 1);
    sqlite3_reset(statements[META]);
}

/* The transaction of a call begins with its first write. */
static void begin(void)
{
    if (call.records)
        return;
    call.records = true;
    start(BEGIN);
    perform(BEGIN);
}

static void commit(void)
{
    if (!call.records)
        return;
    int64_t columns[] = {call.at, meta.nonces, meta.accounts, meta.orders, meta.authzs, meta.challs};
    start(PUT_META);
    for (int i = 0; i < 6; i++)
        set(PUT_META, i + 1, columns[i]);
    perform(PUT_META);
    start(COMMIT);
    perform(COMMIT);
}

/* Orders that list an authorization which is valid no more are invalid. */
static void fall(int64_t authorization)
{
    start(LISTING);
    set(LISTING, 1, authorization);
    Numbers orders = numbers(LISTING);
    for (size_t i = 0; i < orders.count; i++)
        perform_with(FALL, orders.items[i], 0);
}

/* What is past its end at the moment of the call. */
static void sweep(void)
{
    static const char *const ORDERS[] = {"pending", "ready", "processing"};
    static const char *const AUTHORIZATIONS[] = {"pending", "valid"};
    begin();
    perform_with(DROP_NONCES, call.at - meta.nonce_life, 0);
    for (int i = 0; i < 3; i++) {
        start(ORDERS_PAST);
        set_text(ORDERS_PAST, 1, (Slice){ORDERS[i], strlen(ORDERS[i])});
        set(ORDERS_PAST, 2, call.at);
        Numbers past = numbers(ORDERS_PAST);
        for (size_t j = 0; j < past.count; j++)
            perform_with(FALL, past.items[j], 0);
    }
    for (int i = 0; i < 2; i++) {
        start(AUTHORIZATIONS_PAST);
        set_text(AUTHORIZATIONS_PAST, 1, (Slice){AUTHORIZATIONS[i], strlen(AUTHORIZATIONS[i])});
        set(AUTHORIZATIONS_PAST, 2, call.at);
        while (next(AUTHORIZATIONS_PAST))
            fail("the bench ends no authorization by time");
    }
}

/* ---- replies */

static void refuse(int status, const char *type, const char *detail)
{
    reply.status = status;
    clear(&reply.document);
    put(&reply.document, "{\"detail\":\"");
    put(&reply.document, detail);
    put(&reply.document, "\",\"status\":");
    put_number(&reply.document, status);
    put(&reply.document, ",\"type\":\"urn:ietf:params:acme:error:");
    put(&reply.document, type);
    put(&reply.document, "\"}");
}

static void refuse_missing(void)
{
    refuse(404, "malformed", "there is nothing here");
}

static void refuse_report(void)
{
    refuse(409, "malformed", "the report does not fit the records");
}

static void put_url(Text *text, const char *path, int64_t number)
{
    put(text, meta.base);
    put(text, path);
    put_number(text, number);
}

static void put_moment(Text *text, int64_t moment)
{
    char digits[32];
    struct tm civil;
    time_t seconds = (time_t)moment;
    gmtime_r(&seconds, &civil);
    strftime(digits, sizeof digits, "%Y-%m-%dT%H:%M:%SZ", &civil);
    put(text, digits);
}

static void put_slice(Text *text, Slice slice)
{
    put_bytes(text, slice.at, slice.length);
}

static void show_account(int64_t number, Slice contacts, const char *status)
{
    Text *d = &reply.document;
    put(d, "{\"contact\":");
    put_slice(d, contacts);
    put(d, ",\"orders\":\"");
    put_url(d, "/account/", number);
    put(d, "/orders\",\"status\":\"");
    put(d, status);
    put(d, "\"}");
}

/* The members of an order's document that its authorizations give. */
static void show_order(int64_t number)
{
    static Text identifiers;
    Text *d = &reply.document;
    clear(&identifiers);
    put(d, "{\"authorizations\":[");
    start(LISTED);
    set(LISTED, 1, number);
    for (bool first = true; next(LISTED); first = false) {
        put(d, first ? "\"" : ",\"");
        put_url(d, "/authz/", number_at(LISTED, 0));
        put(d, "\"");
        put(&identifiers, first ? "{\"type\":\"dns\",\"value\":\"" : ",{\"type\":\"dns\",\"value\":\"");
        put(&identifiers, number_at(LISTED, 2) ? "*." : "");
        put_slice(&identifiers, text_at(LISTED, 1));
        put(&identifiers, "\"}");
    }
    if (!find(ORDER, number))
        fail("an order is missing");
    put(d, "]");
    if (is(text_at(ORDER, 2), "valid")) {
        put(d, ",\"certificate\":\"");
        put_url(d, "/cert/", number);
        put(d, "\"");
    }
    put(d, ",\"expires\":\"");
    put_moment(d, number_at(ORDER, 1));
    put(d, "\",\"finalize\":\"");
    put_url(d, "/order/", number);
    put(d, "/finalize\",\"identifiers\":[");
    put_slice(d, slice_of(&identifiers));
    put(d, "],\"status\":\"");
    put_slice(d, text_at(ORDER, 2));
    put(d, "\"}");
    sqlite3_reset(statements[ORDER]);
}

/* The challenge in a row of this statement. */
static void show_challenge(Name name)
{
    Text *d = &reply.document;
    Slice status = text_at(name, 5), outcome = text_at(name, 4);
    put(d, "{");
    if (is(status, "invalid")) {
        bool differs = is(outcome, "incorrectResponse"), dns = is(outcome, "dns");
        put(d, "\"error\":{\"detail\":\"");
        put(d, differs ? "the response did not match"
               : dns   ? "the validator found no records"
                       : "the validator could not connect");
        put(d, differs ? "\",\"status\":403" : "\",\"status\":400");
        put(d, ",\"type\":\"urn:ietf:params:acme:error:");
        put_slice(d, outcome);
        put(d, "\"},");
    }
    put(d, "\"status\":\"");
    put_slice(d, status);
    put(d, "\",\"token\":\"");
    put_base64url(d, sqlite3_column_blob(statements[name], 2), 16);
    put(d, "\",\"type\":\"");
    put_slice(d, text_at(name, 1));
    put(d, "\",\"url\":\"");
    put_url(d, "/chall/", number_at(name, 0));
    put(d, "\"");
    if (is(status, "valid")) {
        put(d, ",\"validated\":\"");
        put_moment(d, number_at(name, 3));
        put(d, "\"");
    }
    put(d, "}");
}

static void show_authorization(int64_t number)
{
    Text *d = &reply.document;
    bool is_reported = false;
    start(CHALLENGES_OF);
    set(CHALLENGES_OF, 1, number);
    while (next(CHALLENGES_OF))
        is_reported |= sqlite3_column_type(statements[CHALLENGES_OF], 3) != SQLITE_NULL;
    put(d, "{\"challenges\":[");
    start(CHALLENGES_OF);
    for (bool first = true; next(CHALLENGES_OF);) {
        if (is_reported && sqlite3_column_type(statements[CHALLENGES_OF], 3) == SQLITE_NULL)
            continue;
        put(d, first ? "" : ",");
        show_challenge(CHALLENGES_OF);
        first = false;
    }
    if (!find(AUTHORIZATION, number))
        fail("an authorization is missing");
    put(d, "],\"expires\":\"");
    put_moment(d, number_at(AUTHORIZATION, 3));
    put(d, "\",\"identifier\":{\"type\":\"dns\",\"value\":\"");
    put_slice(d, text_at(AUTHORIZATION, 1));
    put(d, "\"},\"status\":\"");
    put_slice(d, text_at(AUTHORIZATION, 4));
    put(d, number_at(AUTHORIZATION, 2) ? "\",\"wildcard\":true}" : "\"}");
    sqlite3_reset(statements[AUTHORIZATION]);
}

/* The key authorization of a token and the thumbprint of a key. */
static void put_key_authorization(Text *text, const uint8_t token[16], const uint8_t thumb[32])
{
    put_base64url(text, token, 16);
    put(text, ".");
    put_base64url(text, thumb, 32);
}

/* What the validator has to find. */
static void put_expected(Text *text, bool is_dns, const uint8_t token[16], const uint8_t thumb[32])
{
    if (!is_dns) {
        put_key_authorization(text, token, thumb);
        return;
    }
    static Text authorization;
    uint8_t digest[32];
    clear(&authorization);
    put_key_authorization(&authorization, token, thumb);
    sha256(slice_of(&authorization), digest);
    put_base64url(text, digest, 32);
}

/* ---- nonces and keys */

static void issue(void)
{
    uint8_t bytes[24];
    begin();
    meta.nonces++;
    for (int i = 0; i < 8; i++)
        bytes[i] = (uint8_t)((uint64_t)meta.nonces >> (56 - 8 * i));
    memcpy(bytes + 8, call.random, 16);
    start(PUT_NONCE);
    set(PUT_NONCE, 1, meta.nonces);
    set_bytes(PUT_NONCE, 2, call.random, 16);
    set(PUT_NONCE, 3, call.at);
    perform(PUT_NONCE);
    put_base64url(&reply.nonce, bytes, 24);
}

/* Spends a nonce, where it is open. */
static bool spend(Slice text)
{
    uint8_t bytes[48];
    if (text.length != 32 || read_base64url(text, bytes) != 24)
        return false;
    int64_t serial = 0;
    for (int i = 0; i < 8; i++)
        serial = serial << 8 | bytes[i];
    if (!find(NONCE, serial))
        return false;
    bool is_open = memcmp(sqlite3_column_blob(statements[NONCE], 0), bytes + 8, 16) == 0 &&
                   call.at <= number_at(NONCE, 1) + meta.nonce_life;
    sqlite3_reset(statements[NONCE]);
    if (is_open) {
        begin();
        perform_with(DROP_NONCE, serial, 0);
    }
    return is_open;
}

/* The canonical text of an EC key. */
static void read_key(Text *text, Slice jwk)
{
    static const char *const NAMES_OF_EC[] = {"crv", "kty", "x", "y"};
    clear(text);
    for (int i = 0; i < 4; i++) {
        put(text, i ? ",\"" : "{\"");
        put(text, NAMES_OF_EC[i]);
        put(text, "\":");
        put_slice(text, member(jwk, NAMES_OF_EC[i]));
    }
    put(text, "}");
}

/* Whether a key has an account, whose row is then read. */
static bool find_owner(const Text *jwk)
{
    start(ACCOUNT_BY_KEY);
    set_text(ACCOUNT_BY_KEY, 1, slice_of(jwk));
    return next(ACCOUNT_BY_KEY);
}

/* Whether the request's key has an account, which is then the call's. */
static bool find_account(void)
{
    if (!find_owner(&call.jwk))
        return false;
    Slice status = text_at(ACCOUNT_BY_KEY, 3);
    call.account = number_at(ACCOUNT_BY_KEY, 0);
    snprintf(call.account_status, sizeof call.account_status, "%.*s", (int)status.length, status.at);
    clear(&call.contacts);
    put_slice(&call.contacts, text_at(ACCOUNT_BY_KEY, 2));
    sqlite3_reset(statements[ACCOUNT_BY_KEY]);
    return true;
}

/* ---- signed requests */

static void new_account(bool is_known)
{
    Slice contact = member(slice_of(&call.payload), "contact");
    if (is_known) {
        reply.status = 200;
    } else {
        meta.accounts++;
        call.account = meta.accounts;
        clear(&call.contacts);
        put_slice(&call.contacts, contact.length ? contact : (Slice){"[]", 2});
        start(PUT_ACCOUNT);
        set(PUT_ACCOUNT, 1, call.account);
        set_text(PUT_ACCOUNT, 2, slice_of(&call.jwk));
        set_text(PUT_ACCOUNT, 3, slice_of(&call.contacts));
        set(PUT_ACCOUNT, 4, call.at);
        perform(PUT_ACCOUNT);
        reply.status = 201;
    }
    put_url(&reply.location, "/account/", call.account);
    show_account(call.account, slice_of(&call.contacts), "valid");
}

/* Gives the account another key, where no account has it. */
static void key_change(void)
{
    static Text jwk, account, url;
    Slice payload = slice_of(&call.payload);
    clear(&account);
    clear(&url);
    put_string(&account, member(payload, "account"));
    put_url(&url, "/account/", call.account);
    read_key(&jwk, member(payload, "oldKey"));
    if (!is(slice_of(&account), url.bytes) || !is(slice_of(&jwk), call.jwk.bytes)) {
        refuse(400, "malformed", "the request is not well formed");
        return;
    }
    read_key(&jwk, member(payload, "newKey"));
    if (find_owner(&jwk)) {
        put_url(&reply.location, "/account/", number_at(ACCOUNT_BY_KEY, 0));
        sqlite3_reset(statements[ACCOUNT_BY_KEY]);
        refuse(409, "malformed", "the key has an account");
        return;
    }
    start(PUT_KEY);
    set(PUT_KEY, 1, call.account);
    set_text(PUT_KEY, 2, slice_of(&jwk));
    perform(PUT_KEY);
    show_account(call.account, slice_of(&call.contacts), "valid");
}

static void put_challenge(const char *kind)
{
    meta.challs++;
    start(PUT_CHALLENGE);
    set(PUT_CHALLENGE, 1, meta.challs);
    set(PUT_CHALLENGE, 2, meta.authzs);
    set_text(PUT_CHALLENGE, 3, (Slice){kind, strlen(kind)});
    set_bytes(PUT_CHALLENGE, 4, call.random + 16, 16);
    perform(PUT_CHALLENGE);
}

/* The authorization that a name uses again, or 0. */
static int64_t serving(Slice base, bool is_wildcard)
{
    start(SERVING);
    set(SERVING, 1, call.account);
    set_text(SERVING, 2, base);
    set(SERVING, 3, is_wildcard);
    set(SERVING, 4, call.at + meta.order_life);
    int64_t found = next(SERVING) ? number_at(SERVING, 0) : 0;
    sqlite3_reset(statements[SERVING]);
    return found;
}

/* A new authorization of a name, with its challenges. */
static int64_t put_authorization(Slice base, bool is_wildcard)
{
    meta.authzs++;
    start(PUT_AUTHORIZATION);
    set(PUT_AUTHORIZATION, 1, meta.authzs);
    set(PUT_AUTHORIZATION, 2, call.account);
    set_text(PUT_AUTHORIZATION, 3, base);
    set(PUT_AUTHORIZATION, 4, is_wildcard);
    set(PUT_AUTHORIZATION, 5, call.at);
    set(PUT_AUTHORIZATION, 6, call.at + meta.authz_life);
    perform(PUT_AUTHORIZATION);
    if (!is_wildcard)
        put_challenge("http-01");
    put_challenge("dns-01");
    return meta.authzs;
}

/* The authorization of one name, at its place in the order; whether it is used again. */
static bool put_name(Slice name, int64_t place)
{
    bool is_wildcard = name.length > 2 && memcmp(name.at, "*.", 2) == 0;
    Slice base = is_wildcard ? (Slice){name.at + 2, name.length - 2} : name;
    int64_t found = serving(base, is_wildcard), listed = found ? found : put_authorization(base, is_wildcard);
    start(PUT_LISTED);
    set(PUT_LISTED, 1, meta.orders);
    set(PUT_LISTED, 2, place);
    set(PUT_LISTED, 3, listed);
    perform(PUT_LISTED);
    return found != 0;
}

/* Reads the different names of a list of identifiers, in lower case. */
static int read_names(Slice list, Text *texts, Slice names[NAMES])
{
    int count = 0;
    const char *at = skip_blanks(list.at + 1);
    while (*at == '{' && count < NAMES) {
        const char *end = skip_value(at);
        size_t from = texts->length;
        put_string(texts, member((Slice){at, (size_t)(end - at)}, "value"));
        for (size_t i = from; i < texts->length; i++)
            if (texts->bytes[i] >= 'A' && texts->bytes[i] <= 'Z')
                texts->bytes[i] += 'a' - 'A';
        names[count] = (Slice){texts->bytes + from, texts->length - from};
        bool is_new = true;
        for (int i = 0; i < count; i++)
            is_new &=
                names[i].length != names[count].length || memcmp(names[i].at, names[count].at, names[i].length) != 0;
        count += is_new;
        at = skip_blanks(end);
        at = skip_blanks(*at == ',' ? at + 1 : at);
    }
    return count;
}

static void new_order(void)
{
    static Text texts;
    Slice names[NAMES];
    clear(&texts);
    int count = read_names(member(slice_of(&call.payload), "identifiers"), &texts, names);
    meta.orders++;
    start(PUT_ORDER);
    set(PUT_ORDER, 1, meta.orders);
    set(PUT_ORDER, 2, call.account);
    set(PUT_ORDER, 3, call.at);
    set(PUT_ORDER, 4, call.at + meta.order_life);
    perform(PUT_ORDER);
    bool is_ready = true;
    for (int i = 0; i < count; i++)
        is_ready &= put_name(names[i], i + 1);
    if (is_ready)
        perform_with(MAKE_READY, meta.orders, 0);
    reply.status = 201;
    put_url(&reply.location, "/order/", meta.orders);
    show_order(meta.orders);
}

static void end_authorization(int64_t number)
{
    start(END_AUTHORIZATION);
    set(END_AUTHORIZATION, 1, number);
    set(END_AUTHORIZATION, 2, call.at);
    set_text(END_AUTHORIZATION, 3, (Slice){"deactivated", 11});
    perform(END_AUTHORIZATION);
    fall(number);
}

/* Ends an account with its authorizations, and the orders that list them. */
static void end_account(void)
{
    perform_with(END_ACCOUNT, call.account, call.at);
    start(AUTHORIZATIONS_OF);
    set(AUTHORIZATIONS_OF, 1, call.account);
    Numbers ended = numbers(AUTHORIZATIONS_OF);
    int64_t *copy = malloc((ended.count + 1) * sizeof *copy);
    if (!copy)
        fail("out of memory");
    if (ended.count)
        memcpy(copy, ended.items, ended.count * sizeof *copy);
    for (size_t i = 0; i < ended.count; i++)
        end_authorization(copy[i]);
    free(copy);
    strcpy(call.account_status, "deactivated");
}

static void account(void)
{
    if (call.payload.length) {
        Slice contact = member(slice_of(&call.payload), "contact");
        if (is(member(slice_of(&call.payload), "status"), "\"deactivated\"")) {
            end_account();
        } else if (contact.length) {
            clear(&call.contacts);
            put_slice(&call.contacts, contact);
            start(PUT_CONTACTS);
            set(PUT_CONTACTS, 1, call.account);
            set_text(PUT_CONTACTS, 2, contact);
            perform(PUT_CONTACTS);
        }
    }
    show_account(call.account, slice_of(&call.contacts), call.account_status);
}

static void orders_list(void)
{
    Text *d = &reply.document;
    put(d, "{\"orders\":[");
    start(ORDERS_OF);
    set(ORDERS_OF, 1, call.account);
    for (bool first = true; next(ORDERS_OF);) {
        if (is(text_at(ORDERS_OF, 1), "invalid"))
            continue;
        put(d, first ? "\"" : ",\"");
        put_url(d, "/order/", number_at(ORDERS_OF, 0));
        put(d, "\"");
        first = false;
    }
    put(d, "]}");
}

static void finalize(int64_t number, bool is_ready)
{
    static Text csr;
    static uint8_t bytes[LINE_BYTES];
    if (!is_ready) {
        refuse(403, "orderNotReady", "the order is not ready");
        return;
    }
    clear(&csr);
    put_string(&csr, member(slice_of(&call.payload), "csr"));
    long length = read_base64url(slice_of(&csr), bytes);
    if (length < 1 || length > 8192) {
        refuse(400, "badCSR", "the CSR is not accepted");
        return;
    }
    start(FINALIZE);
    set(FINALIZE, 1, number);
    set(FINALIZE, 2, call.at);
    set_bytes(FINALIZE, 3, bytes, (size_t)length);
    perform(FINALIZE);
    put_url(&reply.location, "/order/", number);
    show_order(number);
}

static void put_hexadecimal(Text *text, const uint8_t *bytes, size_t length)
{
    static const char DIGITS[] = "0123456789abcdef";
    for (size_t i = 0; i < length; i++) {
        char two[2] = {DIGITS[bytes[i] >> 4], DIGITS[bytes[i] & 15]};
        put_bytes(text, two, 2);
    }
}

/* A request to an order of the account: the order, its finalization, or its certificate. */
static void order(int64_t number, char what)
{
    if (!find(ORDER, number) || number_at(ORDER, 0) != call.account) {
        sqlite3_reset(statements[ORDER]);
        refuse_missing();
        return;
    }
    Slice status = text_at(ORDER, 2);
    bool is_ready = is(status, "ready"), is_valid = is(status, "valid");
    if (what == 'c' && is_valid) {
        put(&reply.document, "hex:");
        put_hexadecimal(&reply.document, sqlite3_column_blob(statements[ORDER], 4),
                        (size_t)sqlite3_column_bytes(statements[ORDER], 4));
    }
    sqlite3_reset(statements[ORDER]);
    if (what == 'f')
        finalize(number, is_ready);
    else if (what == 'o')
        show_order(number);
    else if (!is_valid)
        refuse_missing();
}

static void authorization(int64_t number)
{
    if (!find(AUTHORIZATION, number) || number_at(AUTHORIZATION, 0) != call.account) {
        sqlite3_reset(statements[AUTHORIZATION]);
        refuse_missing();
        return;
    }
    Slice status = text_at(AUTHORIZATION, 4);
    bool is_live = is(status, "pending") || is(status, "valid");
    sqlite3_reset(statements[AUTHORIZATION]);
    if (call.payload.length && is_live)
        end_authorization(number);
    show_authorization(number);
}

static void challenge(int64_t number)
{
    if (!find(CHALLENGE, number)) {
        refuse_missing();
        return;
    }
    bool is_pending = is(text_at(CHALLENGE, 5), "pending");
    bool is_owned = find(AUTHORIZATION, number_at(CHALLENGE, 6)) && number_at(AUTHORIZATION, 0) == call.account;
    bool answers = is_owned && is_pending && is(text_at(AUTHORIZATION, 4), "pending") && call.payload.length;
    sqlite3_reset(statements[CHALLENGE]);
    sqlite3_reset(statements[AUTHORIZATION]);
    if (!is_owned) {
        refuse_missing();
        return;
    }
    if (answers) {
        uint8_t thumb[32];
        perform_with(ANSWER, number, call.at);
        sha256(slice_of(&call.jwk), thumb);
        start(PUT_ANSWER_KEY);
        set(PUT_ANSWER_KEY, 1, number);
        set_bytes(PUT_ANSWER_KEY, 2, thumb, sizeof thumb);
        perform(PUT_ANSWER_KEY);
    }
    if (find(CHALLENGE, number))
        show_challenge(CHALLENGE);
    sqlite3_reset(statements[CHALLENGE]);
}

/* The number after the beginning of a path, with what follows it; 0 where there is none. */
static int64_t number_in(Slice path, const char *beginning, Slice *rest)
{
    size_t length = strlen(beginning), at = length;
    int64_t number = 0;
    if (path.length <= length || memcmp(path.at, beginning, length) != 0 || path.at[length] == '0')
        return 0;
    for (; at < path.length && path.at[at] >= '0' && path.at[at] <= '9' && number <= INT64_MAX / 20; at++)
        number = 10 * number + (path.at[at] - '0');
    *rest = (Slice){path.at + at, path.length - at};
    return number;
}

static bool is_signed_path(Slice path)
{
    static const char *const PATHS[] = {"/account/", "/order/", "/cert/", "/authz/", "/chall/"};
    Slice rest;
    for (int i = 0; i < 5; i++)
        if (number_in(path, PATHS[i], &rest))
            return true;
    return is(path, "/new-account") || is(path, "/new-order") || is(path, "/key-change");
}

static void serve_account(Slice path)
{
    int64_t number;
    Slice rest;
    if (is(path, "/new-order"))
        new_order();
    else if (is(path, "/key-change"))
        key_change();
    else if ((number = number_in(path, "/account/", &rest)))
        number != call.account ? refuse_missing() : rest.length ? orders_list() : account();
    else if ((number = number_in(path, "/order/", &rest)))
        order(number, rest.length ? 'f' : 'o');
    else if ((number = number_in(path, "/cert/", &rest)))
        order(number, 'c');
    else if ((number = number_in(path, "/authz/", &rest)))
        authorization(number);
    else if ((number = number_in(path, "/chall/", &rest)))
        challenge(number);
}

static void serve_signed(Slice path)
{
    static Text nonce;
    Slice body = slice_of(&call.body);
    clear(&nonce);
    clear(&call.payload);
    put_string(&nonce, member(body, "nonce"));
    put_string(&call.payload, member(body, "payload"));
    read_key(&call.jwk, member(body, "jwk"));
    sweep();
    bool is_open = spend(slice_of(&nonce));
    issue();
    reply.status = 200;
    if (!is_open) {
        refuse(400, "badNonce", "the nonce is not open");
        return;
    }
    bool is_known = find_account(), is_new = is(path, "/new-account");
    if (!is_known && !is_new)
        refuse(400, "accountDoesNotExist", "no account has this key");
    else if (is_known && strcmp(call.account_status, "valid") != 0)
        refuse(401, "unauthorized", "the account is not valid");
    else if (is_new)
        new_account(is_known);
    else
        serve_account(path);
}

/* ---- the offices */

/* Whether the finding in the body is what the challenge in the row asks for, by the key that was answered with. */
static bool is_found(bool is_dns, const uint8_t thumb[32])
{
    static Text found, expected;
    static uint8_t bytes[LINE_BYTES];
    clear(&expected);
    put_expected(&expected, is_dns, sqlite3_column_blob(statements[CHALLENGE], 2), thumb);
    Slice records = member(slice_of(&call.body), "records");
    if (is_dns) {
        for (const char *at = skip_blanks(records.at + 1); records.length && *at == '"';
             at = skip_blanks(*at == ',' ? at + 1 : at)) {
            const char *end = skip_string(at);
            if (is((Slice){at + 1, (size_t)(end - at) - 2}, expected.bytes))
                return true;
            at = skip_blanks(end);
        }
        return false;
    }
    clear(&found);
    put_string(&found, member(slice_of(&call.body), "body"));
    long length = read_base64url(slice_of(&found), bytes);
    while (length > 0 && strchr(" \t\r\n", bytes[length - 1]))
        length--;
    return is((Slice){(const char *)bytes, length < 0 ? 0 : (size_t)length}, expected.bytes);
}

static void take_report(int64_t number, int64_t owner, const char *outcome)
{
    bool is_good = strcmp(outcome, "good") == 0;
    Slice status = is_good ? (Slice){"valid", 5} : (Slice){"invalid", 7};
    sweep();
    start(REPORT);
    set(REPORT, 1, number);
    set(REPORT, 2, call.at);
    set_text(REPORT, 3, (Slice){outcome, strlen(outcome)});
    set_text(REPORT, 4, status);
    perform(REPORT);
    start(PUT_STATUS);
    set(PUT_STATUS, 1, owner);
    set_text(PUT_STATUS, 2, status);
    perform(PUT_STATUS);
    if (!is_good) {
        fall(owner);
        return;
    }
    start(LISTING);
    set(LISTING, 1, owner);
    Numbers orders = numbers(LISTING);
    for (size_t i = 0; i < orders.count; i++)
        perform_with(MAKE_READY, orders.items[i], 0);
}

static void report(int64_t number)
{
    if (!find(CHALLENGE, number)) {
        refuse_missing();
        return;
    }
    int64_t owner = number_at(CHALLENGE, 6);
    bool is_dns = is(text_at(CHALLENGE, 1), "dns-01"), is_tried = is(text_at(CHALLENGE, 5), "processing");
    Slice error = member(slice_of(&call.body), "error");
    if (!find(AUTHORIZATION, owner))
        fail("an authorization is missing");
    const uint8_t *thumb = find(ANSWER_KEY, number) ? sqlite3_column_blob(statements[ANSWER_KEY], 0) : NULL;
    const char *outcome = is(error, "\"connection\"")        ? "connection"
                          : is(error, "\"dns\"")             ? "dns"
                          : thumb && is_found(is_dns, thumb) ? "good"
                                                             : "incorrectResponse";
    bool is_repeated = is(text_at(CHALLENGE, 4), outcome);
    bool fits = is_tried && is(text_at(AUTHORIZATION, 4), "pending");
    sqlite3_reset(statements[CHALLENGE]);
    sqlite3_reset(statements[AUTHORIZATION]);
    sqlite3_reset(statements[ANSWER_KEY]);
    if (!is_repeated && !fits) {
        refuse_report();
        return;
    }
    if (!is_repeated)
        take_report(number, owner, outcome);
    if (find(CHALLENGE, number))
        show_challenge(CHALLENGE);
    sqlite3_reset(statements[CHALLENGE]);
}

static void certify(int64_t number)
{
    if (!find(ORDER, number)) {
        refuse_missing();
        return;
    }
    bool is_processing = is(text_at(ORDER, 2), "processing");
    sqlite3_reset(statements[ORDER]);
    if (!is_processing) {
        refuse_report();
        return;
    }
    sweep();
    start(CERTIFY);
    set(CERTIFY, 1, number);
    set(CERTIFY, 2, call.at);
    set_bytes(CERTIFY, 3, call.body.bytes, call.body.length);
    perform(CERTIFY);
    show_order(number);
}

static void challenge_work(void)
{
    Text *d = &reply.document;
    put(d, "{\"challenges\":[");
    start(CHALLENGE_WORK);
    for (bool first = true; next(CHALLENGE_WORK); first = false) {
        const uint8_t *token = sqlite3_column_blob(statements[CHALLENGE_WORK], 2);
        put(d, first ? "{\"challenge\":" : ",{\"challenge\":");
        put_number(d, number_at(CHALLENGE_WORK, 0));
        put(d, ",\"expected\":\"");
        const uint8_t *thumb = sqlite3_column_blob(statements[CHALLENGE_WORK], 4);
        put_expected(d, is(text_at(CHALLENGE_WORK, 1), "dns-01"), token, thumb);
        put(d, "\",\"name\":\"");
        put_slice(d, text_at(CHALLENGE_WORK, 3));
        put(d, "\",\"token\":\"");
        put_base64url(d, token, 16);
        put(d, "\",\"type\":\"");
        put_slice(d, text_at(CHALLENGE_WORK, 1));
        put(d, "\"}");
    }
    put(d, "]}");
}

static void order_work(void)
{
    Text *d = &reply.document;
    put(d, "{\"orders\":[");
    start(ORDER_WORK);
    for (bool first = true; next(ORDER_WORK); first = false) {
        put(d, first ? "{\"csr\":\"" : ",{\"csr\":\"");
        put_base64url(d, sqlite3_column_blob(statements[ORDER_WORK], 1),
                      (size_t)sqlite3_column_bytes(statements[ORDER_WORK], 1));
        put(d, "\",\"names\":[");
        start(LISTED);
        set(LISTED, 1, number_at(ORDER_WORK, 0));
        for (bool first_name = true; next(LISTED); first_name = false) {
            put(d, first_name ? "\"" : ",\"");
            put(d, number_at(LISTED, 2) ? "*." : "");
            put_slice(d, text_at(LISTED, 1));
            put(d, "\"");
        }
        put(d, "],\"order\":");
        put_number(d, number_at(ORDER_WORK, 0));
        put(d, "}");
    }
    put(d, "]}");
}

static void directory(void)
{
    static const char *const MEMBERS[][2] = {{"{\"keyChange\":\"", "/key-change\""},
                                             {",\"newAccount\":\"", "/new-account\""},
                                             {",\"newNonce\":\"", "/new-nonce\""},
                                             {",\"newOrder\":\"", "/new-order\"}"}};
    for (int i = 0; i < 4; i++) {
        put(&reply.document, MEMBERS[i][0]);
        put(&reply.document, meta.base);
        put(&reply.document, MEMBERS[i][1]);
    }
}

static void key_of(int64_t number)
{
    if (!find(ACCOUNT, number)) {
        refuse_missing();
        return;
    }
    put_slice(&reply.document, text_at(ACCOUNT, 1));
    sqlite3_reset(statements[ACCOUNT]);
}

/* ---- lines */

static void serve(Slice path)
{
    int64_t number;
    Slice rest;
    reply.status = 200;
    if (is_signed_path(path))
        serve_signed(path);
    else if (is(path, "/new-nonce")) {
        sweep();
        issue();
        reply.status = 204;
    } else if (is(path, "/directory"))
        directory();
    else if (is(path, "/office/challenges"))
        challenge_work();
    else if (is(path, "/office/orders"))
        order_work();
    else if ((number = number_in(path, "/office/key/", &rest)))
        key_of(number);
    else if ((number = number_in(path, "/office/report/", &rest)))
        report(number);
    else if ((number = number_in(path, "/office/certify/", &rest)))
        certify(number);
    else
        refuse_missing();
}

static void write_field(const Text *text, char end)
{
    if (text->length)
        fwrite(text->bytes, 1, text->length, stdout);
    else
        putchar('-');
    putchar(end);
}

static void answer(Slice line)
{
    static Text path, digits;
    clear(&path);
    clear(&digits);
    clear(&call.body);
    clear(&reply.location);
    clear(&reply.nonce);
    clear(&reply.document);
    put_string(&path, member(line, "path"));
    put_string(&digits, member(line, "random"));
    put_string(&call.body, member(line, "body"));
    read_digits(slice_of(&digits), call.random, sizeof call.random);
    call.records = false;
    read_meta();
    call.at = strtoll(member(line, "at").at, NULL, 10);
    if (call.at < meta.clock)
        call.at = meta.clock;
    serve(slice_of(&path));
    commit();
    printf("%d ", reply.status);
    write_field(&reply.location, ' ');
    write_field(&reply.nonce, ' ');
    write_field(&reply.document, '\n');
    fflush(stdout);
}

int main(int argc, char **argv)
{
    char *line = NULL;
    size_t room = 0;
    ssize_t length;
    if (argc != 2)
        fail("usage: desk FILE");
    open_database(argv[1]);
    while ((length = getline(&line, &room, stdin)) > 0)
        answer((Slice){line, (size_t)length});
    free(line);
    for (int i = 0; i < STATEMENTS; i++)
        sqlite3_finalize(statements[i]);
    return sqlite3_close(database) == SQLITE_OK ? 0 : 1;
}
