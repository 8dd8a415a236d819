/* What the test programs share: a store and its password, from files. */
#include <pkcs12.h>
#include <stdio.h>
#include <stdlib.h>
#include <string.h>

#define LIMIT 100000000
#define NEW_PASSWORD (const uint8_t *)"hunter42", 8

static uint8_t store[1 << 20], password[1024];
static size_t store_len, password_len;
static const uint8_t drawn[32 * 16] = {1, 2, 3};

static size_t read_file(const char *path, uint8_t *to, size_t room)
{
    FILE *file = fopen(path, "rb");
    if (!file) {
        perror(path);
        exit(3);
    }
    size_t len = fread(to, 1, room, file);
    fclose(file);
    return len;
}

/* The octets before the line's end. */
static inline size_t line_len(const uint8_t *octets, size_t len)
{
    while (len && (octets[len - 1] == '\n' || octets[len - 1] == '\r'))
        len--;
    return len;
}

/* The arguments of the program: STORE PASSWORD-FILE. */
static inline void read_inputs(int argc, char **argv)
{
    if (argc < 3)
        exit(3);
    store_len = read_file(argv[1], store, sizeof store);
    password_len = line_len(password, read_file(argv[2], password, sizeof password));
}

static inline uint32_t transferred(uint8_t *output, size_t room, size_t *needed)
{
    return pkcs12_transfer_pem(store, store_len, password, password_len, NEW_PASSWORD, 3, LIMIT, drawn, sizeof drawn, output,
        room, needed);
}

static inline uint32_t listed(uint8_t *output, size_t room, size_t *needed)
{
    return pkcs12_list(store, store_len, password, password_len, LIMIT, output, room, needed);
}

static inline int wrong(const char *what)
{
    fprintf(stderr, "wrong: %s\n", what);
    return 1;
}
