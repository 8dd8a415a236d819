/* Opens PKCS#12 stores (RFC 7292) and seals their private keys under a new password, as PEM text; changes their passwords and
 * algorithms; and makes stores of PEM texts. For C99 and later, and C++.
 *
 * What each call returns is proved, from the grammar of the store down to the ciphers. The proofs assume of the caller:
 *   - each pointer to octets is valid for its length, aligned for its type, and not NULL, even where the length is 0;
 *   - memory that a call writes (output, needed) overlaps nothing else that the call is given, and no other thread touches
 *     any of it during the call;
 *   - malloc, realloc and free are one allocator, which aligns a block to each power of two up to 16 that divides its size;
 *   - no call is made in a signal handler, or in the forked child of a process with threads.
 * The calls keep nothing between them, and may be made in any number of threads at once.
 *
 * What may change: a later version of the interface may add calls, and numbers of refusals from 30 to 99, so treat every
 * number other than PKCS12_DONE as a refusal. No call, number or argument of this header changes its meaning or goes away
 * as long as the name of the shared library, libpkcs12.so.1, stays. The octets of the text may change only where the
 * header says so.
 */
#ifndef PKCS12_H
#define PKCS12_H

#include <stddef.h>
#include <stdint.h>

#ifdef __cplusplus
extern "C" {
#endif

/* The version of this interface: it rises with each call that is added. */
#define PKCS12_VERSION 3

/* The version of the interface that the library has: the header's calls are there where this is at least PKCS12_VERSION. */
uint32_t pkcs12_version(void);

/* What the calls return: the numbers below 30 are those with which the command pkcs12 ends. From PKCS12_MALFORMED to
 * PKCS12_TOO_LONG they are those of the store, and only the first cause is returned. pkcs12_create_pem alone returns
 * PKCS12_PASSWORD_MISSING and those from PKCS12_PEM to PKCS12_NAME. */
enum {
    PKCS12_DONE = 0,                   /* done */
    PKCS12_ROUNDS = 2,                 /* the rounds are not 1 to 100,000,000 */
    PKCS12_MEMORY = 7,                 /* out of memory */
    PKCS12_PASSWORD_MISSING = 8,       /* the private key is encrypted, and no password is given */
    PKCS12_MALFORMED = 10,             /* no PKCS#12 store in DER */
    PKCS12_UNSUPPORTED = 11,           /* something is of a kind, or under an algorithm, that is not opened */
    PKCS12_MAC_MISSING = 12,           /* no MAC, so a change to the store would go unnoticed */
    PKCS12_MAC_UNSUPPORTED = 13,       /* the MAC is made neither with SHA-1 nor with SHA-256 */
    PKCS12_ZERO_ITERATIONS = 14,       /* the store asks for zero iterations */
    PKCS12_WORK_LIMIT = 15,            /* opening takes more steps than the limit */
    PKCS12_MAC_MISMATCH = 16,          /* the password is wrong, or the store was changed */
    PKCS12_CONTENT_MALFORMED = 17,     /* the MAC agrees, but the contents are damaged */
    PKCS12_DECRYPT_FAILED = 18,        /* the password agrees with the MAC, but a part does not decrypt with it */
    PKCS12_KEY_MALFORMED = 19,         /* a private key opens, but is not a PKCS#8 key */
    PKCS12_RANDOM_SHORT = 20,          /* too few random octets */
    PKCS12_TOO_LONG = 21,              /* the store has more than 16,777,215 octets */
    PKCS12_PASSWORD = 22,              /* a password is not UTF-8, or is too long */
    PKCS12_PEM = 30,                   /* a PEM text has a block that is not whole, or no Base64 */
    PKCS12_KEY_MISSING = 31,           /* the PEM text has no private key */
    PKCS12_MANY_KEYS = 32,             /* the PEM text has more than one private key */
    PKCS12_KEY_FORM = 33,              /* the private key is not what its label names */
    PKCS12_KEY_PASSWORD = 34,          /* the private key does not open under its password */
    PKCS12_CERTIFICATE_MISSING = 35,   /* the PEM text has no certificate */
    PKCS12_CERTIFICATE_MALFORMED = 36, /* what the PEM text has as a certificate is no X.509 certificate */
    PKCS12_OTHER_KEY = 37,             /* each certificate is that of another private key */
    PKCS12_NAME = 38,                  /* the friendly name is not UTF-8 */
    PKCS12_ROOM = 100                  /* the output is too short */
};

/* What a number means, in English and for a message, also for one that this header does not have. It is C in this header, as the
 * calls in one step are, and no part of what is proved. */
static inline const char *pkcs12_strerror(uint32_t number)
{
    switch (number) {
    case PKCS12_DONE: return "done";
    case PKCS12_ROUNDS: return "the rounds are not 1 to 100,000,000";
    case PKCS12_MEMORY: return "out of memory";
    case PKCS12_PASSWORD_MISSING: return "the private key is encrypted, and no password is given";
    case PKCS12_MALFORMED: return "no PKCS#12 store in DER";
    case PKCS12_UNSUPPORTED: return "something is of a kind, or under an algorithm, that is not opened";
    case PKCS12_MAC_MISSING: return "no MAC, so a change to the store would go unnoticed";
    case PKCS12_MAC_UNSUPPORTED: return "the MAC is made neither with SHA-1 nor with SHA-256";
    case PKCS12_ZERO_ITERATIONS: return "the store asks for zero iterations";
    case PKCS12_WORK_LIMIT: return "opening takes more steps than the limit";
    case PKCS12_MAC_MISMATCH: return "the password is wrong, or the store was changed";
    case PKCS12_CONTENT_MALFORMED: return "the MAC agrees, but the contents are damaged";
    case PKCS12_DECRYPT_FAILED: return "the password agrees with the MAC, but a part does not decrypt with it";
    case PKCS12_KEY_MALFORMED: return "a private key opens, but is not a PKCS#8 key";
    case PKCS12_RANDOM_SHORT: return "too few random octets";
    case PKCS12_TOO_LONG: return "the store has more than 16,777,215 octets";
    case PKCS12_PASSWORD: return "a password is not UTF-8, or is too long";
    case PKCS12_PEM: return "a PEM text has a block that is not whole, or no Base64";
    case PKCS12_KEY_MISSING: return "the PEM text has no private key";
    case PKCS12_MANY_KEYS: return "the PEM text has more than one private key";
    case PKCS12_KEY_FORM: return "the private key is not what its label names";
    case PKCS12_KEY_PASSWORD: return "the private key does not open under its password";
    case PKCS12_CERTIFICATE_MISSING: return "the PEM text has no certificate";
    case PKCS12_CERTIFICATE_MALFORMED: return "what the PEM text has as a certificate is no X.509 certificate";
    case PKCS12_OTHER_KEY: return "each certificate is that of another private key";
    case PKCS12_NAME: return "the friendly name is not UTF-8";
    case PKCS12_ROOM: return "the output is too short";
    default: return "a refusal that this version of the header does not know";
    }
}

/* The most octets of a store. */
#define PKCS12_STORE_MAX 16777215

/* The room that is always enough for the text of a store of so many octets, for pkcs12_transfer_pem and pkcs12_open_pem: five
 * times as many octets, and 5 * PKCS12_STORE_MAX for more than a store may have. */
size_t pkcs12_room(size_t store_len);

/* Opens the store, and writes a CERTIFICATE for each X.509 certificate, then an ENCRYPTED PRIVATE KEY for each encrypted
 * private key, both in store order, as one PEM text (RFC 7468) with no NUL after it. Other kinds of bags, such as private
 * keys that are not encrypted, are left out.
 *
 *   password      that of the store, in UTF-8
 *   new_password  any octets; the keys are sealed by PBES2: PBKDF2 with HMAC-SHA-256, and AES-256-CBC (RFC 8018)
 *   rounds        of PBKDF2 for each key, 1 to 100,000,000
 *   limit         the most steps that opening may take; a step is one hash of the derivation of RFC 7292, or one HMAC of
 *                 PBKDF2
 *   random        32 octets for each key, in order; give the octets of a generator that is made for secrets, and never
 *                 the same octets twice
 *   output        where the text goes; its other octets stay as they are
 *   needed        the number of octets of the text on PKCS12_DONE and PKCS12_ROOM, and else 0
 *
 * Nothing is written to the output but on PKCS12_DONE. *needed is at most pkcs12_room(store_len), so an output of so many
 * octets is always enough: PKCS12_ROOM is then never returned. With less room, call again after PKCS12_ROOM with *needed
 * octets: a call with the same arguments gives the same text. As many random octets as the store has are always enough
 * too: PKCS12_RANDOM_SHORT is then never returned.
 *
 * `limit` bounds opening alone. Sealing takes `rounds` for each private key, and a store of 16 MB may have 60,000 of them: for
 * a store of others give random octets for as many keys as you mean to seal, and PKCS12_RANDOM_SHORT is returned for more,
 * before a key is derived. */
uint32_t pkcs12_transfer_pem(
    const uint8_t *store, size_t store_len,
    const uint8_t *password, size_t password_len,
    const uint8_t *new_password, size_t new_password_len,
    uint32_t rounds, uint64_t limit,
    const uint8_t *random, size_t random_len,
    uint8_t *output, size_t output_len, size_t *needed);

/* Opens the store, and writes a CERTIFICATE for each X.509 certificate, then a PRIVATE KEY, which is not sealed, for each
 * encrypted private key, both in store order. The rest is as above, pkcs12_room too. The memory that the call took for keys
 * is freed and not overwritten. */
uint32_t pkcs12_open_pem(
    const uint8_t *store, size_t store_len,
    const uint8_t *password, size_t password_len,
    uint64_t limit,
    uint8_t *output, size_t output_len, size_t *needed);

/* Opens the store, and writes the table of what it holds: a line for each X.509 certificate, then a line for each encrypted
 * private key, both in store order and numbered from 0. It opens old stores too, as pkcs12_upgrade does.
 *
 *   cert 0 453fc35ac11be04ad4b7700cfa2205783db2ac2747569a2e16c7d74b06138d8e 1
 *   cert 1 a5845e53fad222c97589a36645dbf220d069af746ba0bae62474fab9cbf67df3 self
 *   key 0 0 1
 *
 *   cert  its number; the SHA-256 digest of its SubjectPublicKeyInfo in DER; and the number of its issuer's certificate, or
 *         "self" where that is itself, or "-" where the store has none. "cert 0 - -" is a certificate that cannot be read.
 *   key   its number, and the numbers of its chain: the first certificate with the local key id of the key, then the
 *         issuer of each. "key 0 -" is a key for which there is none.
 *
 * Issuers are found by their names alone; no signature is tested. No name is written, and neither are friendly names, which
 * may be any octets that the store's maker chose: each line is ASCII text and ends with a line feed. A store with neither
 * certificates nor encrypted keys has a table of no octets. A chain may have all certificates of the store, so pkcs12_room
 * says nothing of a table: that of a store of 1 MB that others made may have 100 MB. No more of it is kept than output_len;
 * where it has more octets, PKCS12_ROOM is returned, and *needed says how many. The rest is as for pkcs12_open_pem. */
uint32_t pkcs12_list(
    const uint8_t *store, size_t store_len,
    const uint8_t *password, size_t password_len,
    uint64_t limit,
    uint8_t *output, size_t output_len, size_t *needed);

/* Changes the password of the store, and writes the changed store, in DER: its bags, keys, certificates and attributes are
 * kept. A part under Triple DES stays under Triple DES with its count; a part under PBES2 is sealed under PBKDF2 with
 * HMAC-SHA-256 and AES-256-CBC with its count; the MAC keeps its digest and its count.
 *
 *   new_password  in UTF-8, as password
 *   random        32 octets for each part under PBES2 and 8 for each under Triple DES, a key or a content, and 8 for the MAC
 *
 * PKCS12_TOO_LONG is returned too where the changed store would have more than PKCS12_STORE_MAX octets: so much room is
 * always enough, and pkcs12_room says nothing of a changed store. As many random octets as the store has are always enough
 * here too. The rest is as for pkcs12_transfer_pem. */
uint32_t pkcs12_rekey(
    const uint8_t *store, size_t store_len,
    const uint8_t *password, size_t password_len,
    const uint8_t *new_password, size_t new_password_len,
    uint64_t limit,
    const uint8_t *random, size_t random_len,
    uint8_t *output, size_t output_len, size_t *needed);

/* As pkcs12_rekey, and brings the store to the algorithms of today: each key and content that is encrypted is sealed under PBES2,
 * PBKDF2 with HMAC-SHA-256 and AES-256-CBC, whatever it was under, and the MAC is made with HMAC-SHA-256, all in so many rounds.
 * The new password may be the old one.
 *
 * It takes old stores too, which the other calls but pkcs12_list refuse: stores in BER; under RC2 with 40 or 128 bits or Triple DES with
 * two keys; under PBES2 with scrypt that takes at most 67,108,864 octets of memory; with a MAC under SHA-224, SHA-384 or SHA-512, or by
 * PBMAC1 (RFC 9579); and, where the password is empty, stores that were made with no password at all. What it writes of one, the other
 * calls take. A step of opening may be one Salsa20/8 core of scrypt (RFC 7914).
 *
 *   rounds        for each part and for the MAC, 1 to 100,000,000
 *   limit         the most steps that opening the store may take, and that opening the upgraded store may take
 *   random        32 octets for each encrypted part, a key or a content, and 16 for the MAC; as many octets as the store has may
 *                 be too few
 *
 * Opening the upgraded store takes `rounds` steps for each of these parts and for the MAC, and sealing it takes as many. Where that is
 * more than the limit PKCS12_WORK_LIMIT is returned, before a random octet is used and a part is sealed. So what is written always
 * opens under its new password and the same limit. */
uint32_t pkcs12_upgrade(
    const uint8_t *store, size_t store_len,
    const uint8_t *password, size_t password_len,
    const uint8_t *new_password, size_t new_password_len,
    uint32_t rounds, uint64_t limit,
    const uint8_t *random, size_t random_len,
    uint8_t *output, size_t output_len, size_t *needed);

/* Makes a store of the private key and of the certificates that PEM texts have (RFC 7468), and writes it, in DER. What is before,
 * between and after the blocks of a text is passed over, and so are blocks of other labels.
 *
 *   key           the text that has the private key, one alone: PRIVATE KEY; ENCRYPTED PRIVATE KEY, under PBES2 with PBKDF2;
 *                 RSA PRIVATE KEY; or EC PRIVATE KEY that names its curve
 *   certificates  the text that has the certificates, CERTIFICATE, at least one; it may be the same text
 *   key_password  that of a private key that is encrypted, in UTF-8; none where key_password_len is 0
 *   name          the friendly name of the private key and of its certificate, in UTF-8; none where name_len is 0
 *   password      that of the store, in UTF-8
 *   rounds        of PBKDF2 for the private key, for the certificates and for the MAC, 1 to 100,000,000: opening the store takes
 *                 three times as many steps
 *   limit         the most rounds of PBKDF2 that opening the private key may take; PKCS12_WORK_LIMIT is returned for more
 *   random        PKCS12_CREATE_RANDOM octets: with so many PKCS12_RANDOM_SHORT is never returned
 *
 * The certificate of the private key is the first that has the same public key; or, where the text of the private key does not
 * tell its public key, as that of Ed25519 most often, the first of the same algorithm. After it come the others, each once: those
 * of its chain, from leaf to root, found by the names of issuers, and then those that are in no chain. Local key ids bind the
 * private key to its certificate. Private key and certificates are each encrypted under PBES2, PBKDF2 with HMAC-SHA-256 and
 * AES-256-CBC, and the MAC is made with HMAC-SHA-256: so OpenSSL 3 makes stores. The store opens under its password to exactly
 * this private key and these certificates.
 *
 * *needed is at most PKCS12_STORE_MAX: so much room is always enough, and PKCS12_TOO_LONG is returned where the store would have
 * more octets. With less room, call again after PKCS12_ROOM with *needed octets. Java opens no such store under a password that is
 * not ASCII. The rest is as for pkcs12_transfer_pem. */
#define PKCS12_CREATE_RANDOM 72
uint32_t pkcs12_create_pem(
    const uint8_t *key, size_t key_len,
    const uint8_t *certificates, size_t certificates_len,
    const uint8_t *key_password, size_t key_password_len,
    const uint8_t *name, size_t name_len,
    const uint8_t *password, size_t password_len,
    uint32_t rounds, uint32_t limit,
    const uint8_t *random, size_t random_len,
    uint8_t *output, size_t output_len, size_t *needed);

/* ---- The same in one step, on the C side: written in C, and no part of what is proved.
 *
 * Define PKCS12_ONE_STEP before this header is included. On PKCS12_DONE *text, *changed or *store is from malloc and has a NUL
 * after its *len octets: free it. Else it is NULL. The random octets are the system's. */
#ifdef PKCS12_ONE_STEP
#include <stdlib.h>
#include <sys/random.h>

/* 600,000 rounds and 100,000,000 steps are what the command pkcs12 takes by default. */
#define PKCS12_ROUNDS_DEFAULT 600000
#define PKCS12_LIMIT_DEFAULT 100000000

/* The most parts, private keys and encrypted contents, that these calls seal, since each takes some time; define another number
 * before this header is included. PKCS12_RANDOM_SHORT is returned of a store with more. */
#ifndef PKCS12_PARTS_MAX
#define PKCS12_PARTS_MAX 1000
#endif

/* Random octets for PKCS12_PARTS_MAX parts and the MAC. */
#define PKCS12_RANDOM_MOST (32 * (size_t)PKCS12_PARTS_MAX + 16)

/* How many random octets a store of so many is given: as many as it has are always enough, and no more than for
 * PKCS12_PARTS_MAX parts and the MAC. */
static inline size_t pkcs12_random_len(size_t store_len)
{
    return store_len < PKCS12_RANDOM_MOST ? store_len : PKCS12_RANDOM_MOST;
}

static inline int pkcs12_random(uint8_t *at, size_t len)
{
    while (len > 0) {
        ssize_t got = getrandom(at, len < 256 ? len : 256, 0);
        if (got <= 0)
            return 0;
        at += got;
        len -= (size_t)got;
    }
    return 1;
}

/* What a call wrote, handed on with a NUL after it and without the room after it, or its output freed. The result is the number
 * that the caller returns. */
static inline uint32_t pkcs12_handed_on(uint32_t number, uint8_t *output, size_t needed, uint8_t **octets, size_t *len)
{
    if (number == PKCS12_DONE) {
        uint8_t *shorter = (uint8_t *)realloc(output, needed + 1);
        *octets = shorter ? shorter : output;
        (*octets)[needed] = 0;
        *len = needed;
    } else {
        free(output);
    }
    return number;
}

static inline uint32_t pkcs12_transfer_pem_new(
    const uint8_t *store, size_t store_len,
    const uint8_t *password, size_t password_len,
    const uint8_t *new_password, size_t new_password_len,
    uint32_t rounds, uint64_t limit, char **text, size_t *len)
{
    const size_t room = pkcs12_room(store_len), random_len = pkcs12_random_len(store_len);
    size_t needed = 0;
    uint8_t *random, *output, *octets = NULL;
    uint32_t number;
    *text = NULL;
    *len = 0;
    if (store_len > PKCS12_STORE_MAX)
        return PKCS12_TOO_LONG;
    /* one more, so that there is something to allocate */
    random = (uint8_t *)malloc(random_len + 1);
    output = (uint8_t *)malloc(room + 1);
    if (!random || !output)
        number = PKCS12_MEMORY;
    else if (!pkcs12_random(random, random_len))
        number = PKCS12_RANDOM_SHORT;
    else
        number = pkcs12_transfer_pem(store, store_len, password, password_len, new_password, new_password_len, rounds, limit,
            random, random_len, output, room, &needed);
    free(random);
    number = pkcs12_handed_on(number, output, needed, &octets, len);
    *text = (char *)octets;
    return number;
}

static inline uint32_t pkcs12_open_pem_new(
    const uint8_t *store, size_t store_len,
    const uint8_t *password, size_t password_len,
    uint64_t limit, char **text, size_t *len)
{
    const size_t room = pkcs12_room(store_len);
    size_t needed = 0;
    uint8_t *output, *octets = NULL;
    uint32_t number;
    *text = NULL;
    *len = 0;
    if (store_len > PKCS12_STORE_MAX)
        return PKCS12_TOO_LONG;
    output = (uint8_t *)malloc(room + 1);
    if (!output)
        number = PKCS12_MEMORY;
    else
        number = pkcs12_open_pem(store, store_len, password, password_len, limit, output, room, &needed);
    number = pkcs12_handed_on(number, output, needed, &octets, len);
    *text = (char *)octets;
    return number;
}

static inline uint32_t pkcs12_list_new(
    const uint8_t *store, size_t store_len,
    const uint8_t *password, size_t password_len,
    uint64_t limit, char **text, size_t *len)
{
    /* a table with long chains has more octets: then the call is made again */
    size_t room = 2 * store_len + 4096, needed = 0;
    uint8_t *octets = NULL;
    uint32_t number;
    *text = NULL;
    *len = 0;
    if (store_len > PKCS12_STORE_MAX)
        return PKCS12_TOO_LONG;
    do {
        uint8_t *output = (uint8_t *)malloc(room + 1);
        if (!output)
            number = PKCS12_MEMORY;
        else
            number = pkcs12_list(store, store_len, password, password_len, limit, output, room, &needed);
        number = pkcs12_handed_on(number, output, needed, &octets, len);
        room = needed;
    } while (number == PKCS12_ROOM);
    *text = (char *)octets;
    return number;
}

/* The store under another password, and of so many rounds, or with its algorithms and counts where they are none. */
static inline uint32_t pkcs12_changed_new(
    const uint8_t *store, size_t store_len,
    const uint8_t *password, size_t password_len,
    const uint8_t *new_password, size_t new_password_len,
    const uint32_t *rounds, uint64_t limit, uint8_t **changed, size_t *len)
{
    /* parts may become longer than they were: where the changed store does not fit, the call is made again */
    size_t room = 2 * store_len + 4096, needed = 0;
    const size_t random_len = rounds ? PKCS12_RANDOM_MOST : pkcs12_random_len(store_len);
    uint32_t number;
    *changed = NULL;
    *len = 0;
    if (store_len > PKCS12_STORE_MAX)
        return PKCS12_TOO_LONG;
    do {
        uint8_t *random = (uint8_t *)malloc(random_len + 1), *output = (uint8_t *)malloc(room + 1);
        if (!random || !output)
            number = PKCS12_MEMORY;
        else if (!pkcs12_random(random, random_len))
            number = PKCS12_RANDOM_SHORT;
        else if (rounds)
            number = pkcs12_upgrade(store, store_len, password, password_len, new_password, new_password_len, *rounds, limit,
                random, random_len, output, room, &needed);
        else
            number = pkcs12_rekey(store, store_len, password, password_len, new_password, new_password_len, limit, random,
                random_len, output, room, &needed);
        free(random);
        number = pkcs12_handed_on(number, output, needed, changed, len);
        room = needed;
    } while (number == PKCS12_ROOM);
    return number;
}

/* The changed store is octets and no text; there is a NUL after them all the same. */
static inline uint32_t pkcs12_rekey_new(
    const uint8_t *store, size_t store_len,
    const uint8_t *password, size_t password_len,
    const uint8_t *new_password, size_t new_password_len,
    uint64_t limit, uint8_t **changed, size_t *len)
{
    return pkcs12_changed_new(store, store_len, password, password_len, new_password, new_password_len, NULL, limit, changed, len);
}

static inline uint32_t pkcs12_upgrade_new(
    const uint8_t *store, size_t store_len,
    const uint8_t *password, size_t password_len,
    const uint8_t *new_password, size_t new_password_len,
    uint32_t rounds, uint64_t limit, uint8_t **changed, size_t *len)
{
    return pkcs12_changed_new(store, store_len, password, password_len, new_password, new_password_len, &rounds, limit, changed, len);
}

/* How much room is tried first for a store of texts and a name of so many octets: more than most take. */
static inline size_t pkcs12_create_room(size_t key_len, size_t certificates_len, size_t name_len)
{
    if (key_len > PKCS12_STORE_MAX || certificates_len > PKCS12_STORE_MAX || name_len > PKCS12_STORE_MAX)
        return PKCS12_STORE_MAX;
    return 4096 + key_len + certificates_len + 4 * name_len;
}

/* `key_password` and `name` may be NULL, which is none. */
static inline uint32_t pkcs12_create_pem_new(
    const uint8_t *key, size_t key_len,
    const uint8_t *certificates, size_t certificates_len,
    const uint8_t *key_password, size_t key_password_len,
    const uint8_t *name, size_t name_len,
    const uint8_t *password, size_t password_len,
    uint32_t rounds, uint32_t limit, uint8_t **store, size_t *len)
{
    static const uint8_t none[1] = {0};
    uint8_t random[PKCS12_CREATE_RANDOM];
    size_t room = pkcs12_create_room(key_len, certificates_len, name_len), needed = 0;
    uint32_t number;
    *store = NULL;
    *len = 0;
    do {
        uint8_t *output = (uint8_t *)malloc(room + 1);
        if (!output)
            number = PKCS12_MEMORY;
        else if (!pkcs12_random(random, sizeof random))
            number = PKCS12_RANDOM_SHORT;
        else
            number = pkcs12_create_pem(key, key_len, certificates, certificates_len, key_password ? key_password : none,
                key_password ? key_password_len : 0, name ? name : none, name ? name_len : 0, password, password_len, rounds,
                limit, random, sizeof random, output, room, &needed);
        number = pkcs12_handed_on(number, output, needed, store, len);
        room = needed;
    } while (number == PKCS12_ROOM);
    return number;
}
#endif

#ifdef __cplusplus
}
#endif
#endif
