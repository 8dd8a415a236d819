/* edges STORE PASSWORD-FILE: what is read and what is written end exactly where the caller's octets end. Each input stands against a
 * page that cannot be read, and so does the output, once after it and once before it. */
#include "inputs.h"
#include <sys/mman.h>
#include <unistd.h>

/* Room for so many octets that ends where a page begins that cannot be touched. */
static uint8_t *before_guard(const uint8_t *octets, size_t len)
{
    size_t page = (size_t)sysconf(_SC_PAGESIZE), size = (len + page - 1) / page * page;
    uint8_t *at = mmap(NULL, size + page, PROT_READ | PROT_WRITE, MAP_PRIVATE | MAP_ANONYMOUS, -1, 0);
    if (at == MAP_FAILED || mprotect(at + size, page, PROT_NONE))
        exit(3);
    if (octets)
        memcpy(at + size - len, octets, len);
    return at + size - len;
}

/* Room for so many octets that begins where a page ends that cannot be touched. */
static uint8_t *after_guard(size_t len)
{
    size_t page = (size_t)sysconf(_SC_PAGESIZE);
    uint8_t *at = mmap(NULL, len + 2 * page, PROT_READ | PROT_WRITE, MAP_PRIVATE | MAP_ANONYMOUS, -1, 0);
    if (at == MAP_FAILED || mprotect(at, page, PROT_NONE))
        exit(3);
    return at + page;
}

static int all_are(const uint8_t *octets, size_t len, uint8_t due)
{
    for (size_t i = 0; i < len; i++)
        if (octets[i] != due)
            return 0;
    return 1;
}

/* The inputs, each against its guard. */
static const uint8_t *guarded_store, *guarded_password, *guarded_new, *guarded_random;

/* What a call is given that differs from one to the next. */
struct given {
    const uint8_t *password;
    size_t password_len;
    uint32_t rounds;
    size_t random_len;
    uint64_t limit;
};

static uint32_t call(struct given given, uint8_t *output, size_t room, size_t *needed)
{
    *needed = 9;
    return pkcs12_transfer_pem(guarded_store, store_len, given.password, given.password_len, guarded_new, 8, given.rounds,
        given.limit, guarded_random, given.random_len, output, room, needed);
}

/* Whether the call is refused by this number, tells that no octets are needed, and writes nothing. */
static int refuses(struct given given, uint32_t number, uint8_t *output, size_t len)
{
    size_t needed;
    memset(output, 7, len);
    return call(given, output, len, &needed) == number && needed == 0 && all_are(output, len, 7);
}

static int check(const uint8_t *due, uint8_t *output, size_t len)
{
    const struct given good = {guarded_password, password_len, 3, sizeof drawn, LIMIT};
    struct given given = good;
    size_t needed;
    memset(output, 7, len);
    if (call(good, output, len - 1, &needed) != PKCS12_ROOM || needed != len || !all_are(output, len, 7))
        return wrong("one octet too few");
    if (call(good, output, len, &needed) != PKCS12_DONE || needed != len || memcmp(output, due, len))
        return wrong("exactly enough");
    given.password = guarded_new;
    given.password_len = 8;
    if (!refuses(given, PKCS12_MAC_MISMATCH, output, len))
        return wrong("another password");
    given.password = (const uint8_t *)"\377";
    given.password_len = 1;
    if (!refuses(given, PKCS12_PASSWORD, output, len))
        return wrong("a password that is not UTF-8");
    given = good;
    given.rounds = 0;
    if (!refuses(given, PKCS12_ROUNDS, output, len))
        return wrong("no rounds");
    given.rounds = 100000001;
    if (!refuses(given, PKCS12_ROUNDS, output, len))
        return wrong("too many rounds");
    given = good;
    given.random_len = 31;
    if (!refuses(given, PKCS12_RANDOM_SHORT, output, len))
        return wrong("31 random octets");
    given = good;
    given.limit = 1;
    return refuses(given, PKCS12_WORK_LIMIT, output, len) ? 0 : wrong("a limit of one step");
}

/* The list of the guarded store, under the limit. */
static uint32_t list(const uint8_t *under, size_t under_len, uint64_t limit, uint8_t *output, size_t room, size_t *needed)
{
    *needed = 9;
    memset(output, 7, room);
    return pkcs12_list(guarded_store, store_len, under, under_len, limit, output, room, needed);
}

static int check_list(const uint8_t *due, uint8_t *output, size_t len)
{
    size_t needed;
    if (list(guarded_password, password_len, LIMIT, output, len - 1, &needed) != PKCS12_ROOM || needed != len ||
        !all_are(output, len - 1, 7))
        return wrong("a list with one octet too few");
    if (list(guarded_password, password_len, LIMIT, output, 0, &needed) != PKCS12_ROOM || needed != len)
        return wrong("a list with no room");
    if (list(guarded_password, password_len, LIMIT, output, len, &needed) != PKCS12_DONE || needed != len ||
        memcmp(output, due, len))
        return wrong("a list with exactly enough");
    if (list(guarded_new, 8, LIMIT, output, len, &needed) != PKCS12_MAC_MISMATCH || needed || !all_are(output, len, 7))
        return wrong("a list under another password");
    if (list((const uint8_t *)"\377", 1, LIMIT, output, len, &needed) != PKCS12_PASSWORD || needed || !all_are(output, len, 7))
        return wrong("a list under a password that is not UTF-8");
    return list(guarded_password, password_len, 1, output, len, &needed) != PKCS12_WORK_LIMIT || needed ||
            !all_are(output, len, 7) ? wrong("a list with a limit of one step") : 0;
}

/* A store is made of what the guarded one has, over inputs that each end at a guard. */
static int check_created(void)
{
    static uint8_t opened[1 << 18];
    const uint8_t *octets = guarded_random + sizeof drawn - PKCS12_CREATE_RANDOM;
    size_t len, size, needed;
    if (pkcs12_open_pem(guarded_store, store_len, guarded_password, password_len, LIMIT, opened, sizeof opened, &len) != PKCS12_DONE)
        return wrong("the store is not opened");
    const uint8_t *text = before_guard(opened, len), *name = before_guard((const uint8_t *)"name", 4);
    uint8_t *output = before_guard(NULL, 0);
    if (pkcs12_create_pem(text, len, text, len, text + len, 0, name, 4, guarded_new, 8, 3, LIMIT, octets, PKCS12_CREATE_RANDOM, output, 0,
            &size) != PKCS12_ROOM)
        return wrong("a store that is made in no room");
    for (int side = 0; side < 2; side++) {
        output = side ? before_guard(NULL, size) : after_guard(size);
        if (pkcs12_create_pem(text, len, text, len, text + len, 0, name, 4, guarded_new, 8, 3, LIMIT, octets, PKCS12_CREATE_RANDOM, output,
                size, &needed) != PKCS12_DONE || needed != size)
            return wrong("a store that is made in exactly enough");
    }
    memset(output, 7, size);
    if (pkcs12_create_pem(text, len, text, len, text + len, 0, name, 4, guarded_new, 8, 3, LIMIT, octets, PKCS12_CREATE_RANDOM - 1, output,
            size, &needed) != PKCS12_RANDOM_SHORT || needed || !all_are(output, size, 7))
        return wrong("71 random octets");
    return 0;
}

/* Octets that are no store, and a new password that is not UTF-8, which is tested first. */
static int check_no_store(void)
{
    static const uint8_t none[] = "none", bad[] = "\377";
    uint8_t output[8];
    size_t needed = 9;
    memset(output, 7, sizeof output);
    if (pkcs12_open_pem(none, 4, guarded_password, password_len, 9, output, sizeof output, &needed) != PKCS12_MALFORMED || needed ||
        !all_are(output, sizeof output, 7))
        return wrong("octets that are no store");
    needed = 9;
    if (pkcs12_rekey(none, 4, guarded_password, password_len, bad, 1, 9, drawn, 0, output, sizeof output, &needed) != PKCS12_PASSWORD ||
        needed || !all_are(output, sizeof output, 7))
        return wrong("a new password that is not UTF-8");
    needed = 9;
    return pkcs12_list(none, 4, bad, 1, 9, output, 0, &needed) != PKCS12_PASSWORD || needed ? wrong("the password of a list") : 0;
}

int main(int argc, char **argv)
{
    static uint8_t due[1 << 20];
    size_t len, needed;
    read_inputs(argc, argv);
    if (pkcs12_version() != PKCS12_VERSION)
        return wrong("the version");
    if (transferred(due, sizeof due, &len) != PKCS12_DONE)
        return wrong("the store is not transferred");
    guarded_store = before_guard(store, store_len);
    guarded_password = before_guard(password, password_len);
    guarded_new = before_guard((const uint8_t *)"hunter42", 8);
    guarded_random = before_guard(drawn, sizeof drawn);
    if (check_no_store() || check_created())
        return 1;
    if (check(due, before_guard(NULL, len), len) || check(due, after_guard(len), len))
        return 1;
    /* more room than that: what follows stays */
    memset(due, 7, sizeof due);
    if (transferred(due, sizeof due, &needed) != PKCS12_DONE || !all_are(due + len, sizeof due - len, 7))
        return wrong("what follows the text");
    memset(due, 7, sizeof due);
    if (listed(due, sizeof due, &len) != PKCS12_DONE || !all_are(due + len, sizeof due - len, 7))
        return wrong("what follows the list");
    if (check_list(due, before_guard(NULL, len), len) || check_list(due, after_guard(len), len))
        return 1;
    return 0;
}
