/* create KEY CERTIFICATES PASSWORD-FILE [NAME [KEY-PASSWORD-FILE]]: writes what pkcs12_create_pem_new gives for 1,000 rounds, and ends
 * with its number. Before, what pkcs12_create_pem does where there is too little room, and with too few random octets. */
#define PKCS12_ONE_STEP
#include "inputs.h"

/* One more than a file has at most. */
#define MOST (PKCS12_STORE_MAX + 1)

struct part {
    uint8_t *octets;
    size_t len;
};

static struct part part_of(const char *path)
{
    struct part part = {malloc(MOST), 0};
    if (!part.octets)
        exit(3);
    part.len = read_file(path, part.octets, MOST);
    return part;
}

/* The key, the certificates, the password of the store and that of the key; and the name. */
static struct part parts[4];
static const char *name;

/* One round, and nothing in the place of what is left out. */
static uint32_t made(const uint8_t *random, size_t random_len, uint8_t *output, size_t room, size_t *needed)
{
    *needed = 9;
    return pkcs12_create_pem(parts[0].octets, parts[0].len, parts[1].octets, parts[1].len, parts[3].octets, parts[3].len,
        (const uint8_t *)(name ? name : ""), name ? strlen(name) : 0, parts[2].octets, parts[2].len, 1, LIMIT, random, random_len,
        output, room, needed);
}

static int all_are(const uint8_t *octets, size_t len, uint8_t due)
{
    for (size_t at = 0; at < len; at++)
        if (octets[at] != due)
            return 0;
    return 1;
}

/* What is written is told before, and no octet more is touched. */
static int check_room(void)
{
    size_t len, needed;
    uint8_t *output, *whole;
    if (made(drawn, PKCS12_CREATE_RANDOM, (uint8_t *)"", 0, &len) != PKCS12_ROOM || len == 0 || len > PKCS12_STORE_MAX)
        return wrong("no room");
    output = malloc(len + 16);
    whole = malloc(len);
    if (!output || !whole)
        return wrong("memory");
    memset(output, 7, len + 16);
    if (made(drawn, PKCS12_CREATE_RANDOM, output, len - 1, &needed) != PKCS12_ROOM || needed != len || !all_are(output, len, 7))
        return wrong("one octet too few");
    if (made(drawn, PKCS12_CREATE_RANDOM - 1, output, len, &needed) != PKCS12_RANDOM_SHORT || needed || !all_are(output, len, 7))
        return wrong("71 random octets");
    if (made(drawn, PKCS12_CREATE_RANDOM, output, len, &needed) != PKCS12_DONE || needed != len || !all_are(output + len, 16, 7))
        return wrong("exactly enough");
    memcpy(whole, output, len);
    if (made(drawn, sizeof drawn, output, len + 16, &needed) != PKCS12_DONE || needed != len || memcmp(output, whole, len))
        return wrong("the same once more");
    free(output);
    free(whole);
    return 0;
}

/* What is left out may be NULL or of no octets. */
static int check_none(void)
{
    static const uint8_t none[1];
    uint8_t *store_of_null, *store_of_none;
    size_t len_of_null, len_of_none;
    uint32_t one = pkcs12_create_pem_new(parts[0].octets, parts[0].len, parts[1].octets, parts[1].len, NULL, 9, NULL, 9, parts[2].octets,
        parts[2].len, 1, LIMIT, &store_of_null, &len_of_null);
    uint32_t other = pkcs12_create_pem_new(parts[0].octets, parts[0].len, parts[1].octets, parts[1].len, none, 0, none, 0,
        parts[2].octets, parts[2].len, 1, LIMIT, &store_of_none, &len_of_none);
    int same = one == other && len_of_null == len_of_none && !store_of_null == !store_of_none;
    free(store_of_null);
    free(store_of_none);
    return same ? 0 : wrong("NULL");
}

int main(int argc, char **argv)
{
    uint8_t *made_store;
    size_t len;
    if (argc < 4)
        return 3;
    for (int at = 0; at < 3; at++)
        parts[at] = part_of(argv[at + 1]);
    name = argc > 4 ? argv[4] : NULL;
    parts[3] = argc > 5 ? part_of(argv[5]) : (struct part){calloc(1, 1), 0};
    parts[2].len = line_len(parts[2].octets, parts[2].len);
    parts[3].len = line_len(parts[3].octets, parts[3].len);
    uint32_t number = pkcs12_create_pem_new(parts[0].octets, parts[0].len, parts[1].octets, parts[1].len, argc > 5 ? parts[3].octets : NULL,
        parts[3].len, (const uint8_t *)name, name ? strlen(name) : 0, parts[2].octets, parts[2].len, 1000, LIMIT, &made_store, &len);
    if (number == PKCS12_DONE ? made_store[len] != 0 : made_store != NULL || len != 0)
        return 99;
    if (number == PKCS12_DONE && (check_room() || check_none()))
        return 98;
    if (number == PKCS12_DONE)
        fwrite(made_store, 1, len, stdout);
    free(made_store);
    for (int at = 0; at < 4; at++)
        free(parts[at].octets);
    return (int)number;
}
