-- A desk of format 1, written by the specification's tables, section 13, and by no desk.
CREATE TABLE meta (
    id INTEGER PRIMARY KEY, format INTEGER NOT NULL, base TEXT NOT NULL, nonce_life INTEGER NOT NULL, order_life INTEGER NOT NULL,
    authz_life INTEGER NOT NULL, clock INTEGER NOT NULL, nonces INTEGER NOT NULL, accounts INTEGER NOT NULL, orders INTEGER NOT NULL,
    authzs INTEGER NOT NULL, challs INTEGER NOT NULL
) STRICT;
CREATE TABLE nonce (serial INTEGER PRIMARY KEY, random BLOB NOT NULL, issued INTEGER NOT NULL) STRICT;
CREATE TABLE account (
    num INTEGER PRIMARY KEY, jwk TEXT NOT NULL UNIQUE, contacts TEXT NOT NULL, opened INTEGER NOT NULL, ended INTEGER, end_kind TEXT,
    status TEXT NOT NULL
) STRICT;
CREATE TABLE ord (
    num INTEGER PRIMARY KEY, account INTEGER NOT NULL REFERENCES account (num), made INTEGER NOT NULL, expires INTEGER NOT NULL,
    finalized INTEGER, csr BLOB, certified INTEGER, cert BLOB, failed INTEGER, problem TEXT, status TEXT NOT NULL
) STRICT;
CREATE TABLE authz (
    num INTEGER PRIMARY KEY, account INTEGER NOT NULL REFERENCES account (num), name TEXT NOT NULL, wildcard INTEGER NOT NULL,
    made INTEGER NOT NULL, expires INTEGER NOT NULL, ended INTEGER, end_kind TEXT, status TEXT NOT NULL
) STRICT;
CREATE TABLE ord_authz (
    ord INTEGER NOT NULL REFERENCES ord (num), place INTEGER NOT NULL, authz INTEGER NOT NULL REFERENCES authz (num),
    PRIMARY KEY (ord, place)
) STRICT;
CREATE TABLE chall (
    num INTEGER PRIMARY KEY, authz INTEGER NOT NULL REFERENCES authz (num), kind TEXT NOT NULL, token BLOB NOT NULL, answered INTEGER,
    reported INTEGER, outcome TEXT, status TEXT NOT NULL
) STRICT;
CREATE INDEX nonce_issued ON nonce (issued);
CREATE INDEX ord_account ON ord (account);
CREATE INDEX ord_status_expires ON ord (status, expires);
CREATE INDEX authz_account_name ON authz (account, name);
CREATE INDEX authz_status_expires ON authz (status, expires);
CREATE INDEX ord_authz_authz ON ord_authz (authz);
CREATE INDEX chall_authz ON chall (authz);
CREATE INDEX chall_status ON chall (status);
INSERT INTO meta VALUES
    (1, 1, 'https://ca.example', 3600, 604800, 2592000, 2592101, 17, 3, 4, 6, 11);
INSERT INTO nonce VALUES
    (17, x'00000000000000000000000000000000', 2592101);
INSERT INTO account VALUES
    (1, '{"crv":"P-256","kty":"EC","x":"AQ","y":"Ag"}', '["mailto:a@b.example"]', 0, NULL, NULL, 'valid'),
    (2, '{"e":"AQAB","kty":"RSA","n":"AQ"}', '[]', 0, NULL, NULL, 'valid'),
    (3, '{"crv":"P-256","kty":"EC","x":"Aw","y":"Ag"}', '["mailto:c@d.example","mailto:e@f.example"]', 2592001, 2592001, 'deactivated', 'deactivated');
INSERT INTO ord VALUES
    (1, 1, 0, 604800, NULL, NULL, NULL, NULL, NULL, NULL, 'invalid'),
    (2, 2, 0, 604800, 0, x'010203', 0, x'70656d', NULL, NULL, 'valid'),
    (3, 3, 2592001, 3196801, NULL, NULL, NULL, NULL, NULL, NULL, 'invalid'),
    (4, 2, 2592101, 3196901, NULL, NULL, NULL, NULL, NULL, NULL, 'invalid');
INSERT INTO authz VALUES
    (1, 1, 'a.example', 0, 0, 2592000, NULL, NULL, 'expired'),
    (2, 1, 'a.example', 1, 0, 2592000, NULL, NULL, 'expired'),
    (3, 2, 'b.example', 0, 0, 2592000, NULL, NULL, 'expired'),
    (4, 3, 'c.example', 0, 2592001, 5184001, 2592001, 'deactivated', 'deactivated'),
    (5, 2, 'd.example', 0, 2592101, 5184101, NULL, NULL, 'pending'),
    (6, 2, 'e.example', 0, 2592101, 5184101, 2592101, 'invalid', 'invalid');
INSERT INTO ord_authz VALUES
    (1, 1, 1),
    (1, 2, 2),
    (2, 1, 3),
    (3, 1, 4),
    (4, 1, 5),
    (4, 2, 6);
INSERT INTO chall VALUES
    (1, 1, 'http-01', x'00000000000000000000000000000000', 0, NULL, NULL, 'processing'),
    (2, 1, 'dns-01', x'00000000000000000000000000000000', NULL, NULL, NULL, 'pending'),
    (3, 2, 'dns-01', x'00000000000000000000000000000000', 0, 0, 'good', 'valid'),
    (4, 3, 'http-01', x'00000000000000000000000000000000', NULL, NULL, NULL, 'pending'),
    (5, 3, 'dns-01', x'00000000000000000000000000000000', 0, 0, 'good', 'valid'),
    (6, 4, 'http-01', x'00000000000000000000000000000000', 2592001, NULL, NULL, 'processing'),
    (7, 4, 'dns-01', x'00000000000000000000000000000000', NULL, NULL, NULL, 'pending'),
    (8, 5, 'http-01', x'00000000000000000000000000000000', 2592101, NULL, NULL, 'processing'),
    (9, 5, 'dns-01', x'00000000000000000000000000000000', NULL, NULL, NULL, 'pending'),
    (10, 6, 'http-01', x'00000000000000000000000000000000', NULL, NULL, NULL, 'pending'),
    (11, 6, 'dns-01', x'00000000000000000000000000000000', 2592101, 2592101, 'connection', 'invalid');
