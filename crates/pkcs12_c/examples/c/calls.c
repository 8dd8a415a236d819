/* Three calls of the library:
 *
 *   calls transfer STORE PASSWORD-FILE NEW-PASSWORD-FILE     writes the certificates and the sealed keys of a store as PEM text
 *   calls upgrade STORE PASSWORD-FILE NEW-PASSWORD-FILE      writes the store under the algorithms of today
 *   calls create KEY CERTIFICATES PASSWORD-FILE [NAME [KEY-PASSWORD-FILE]]     writes a store of PEM texts
 *
 *   cc calls.c -o calls $(pkg-config --cflags --libs pkcs12)
 */
#define PKCS12_ONE_STEP
#include <pkcs12.h>
#include <stdio.h>
#include <stdlib.h>
#include <string.h>

/* The octets of a file, and of one that is longer than a store may be its first ones: free them. NULL where it cannot be read. */
static uint8_t *octets_of(const char *path, size_t *len)
{
    FILE *file = fopen(path, "rb");
    uint8_t *octets = NULL;
    size_t room = 0, got = 1;
    *len = 0;
    if (!file)
        return NULL;
    while (got > 0 && *len <= PKCS12_STORE_MAX) {
        if (*len == room) {
            uint8_t *more = (uint8_t *)realloc(octets, room += 65536);
            if (!more) {
                free(octets);
                octets = NULL;
                break;
            }
            octets = more;
        }
        got = fread(octets + *len, 1, room - *len, file);
        *len += got;
    }
    if (ferror(file)) {
        free(octets);
        octets = NULL;
    }
    fclose(file);
    return octets;
}

/* The octets of the first line. */
static size_t line_len(const uint8_t *octets, size_t len)
{
    const uint8_t *end = (const uint8_t *)memchr(octets, '\n', len);
    if (end)
        len = (size_t)(end - octets);
    return len > 0 && octets[len - 1] == '\r' ? len - 1 : len;
}

/* A file, and how many of its octets count. */
struct part {
    uint8_t *octets;
    size_t len;
};

/* The store or the texts, and the passwords, from the files of these words; none of them where a word is left out. */
static int read_parts(char **words, int count, struct part *parts)
{
    for (int i = 0; i < count; i++)
        if (!(parts[i].octets = octets_of(words[i], &parts[i].len)))
            return perror(words[i]), 3;
    return 0;
}

static void first_line_alone(struct part *password)
{
    if (password->octets)
        password->len = line_len(password->octets, password->len);
}

static uint32_t transfer(struct part *parts, struct part *made)
{
    char *text;
    uint32_t number;
    first_line_alone(&parts[1]);
    first_line_alone(&parts[2]);
    number = pkcs12_transfer_pem_new(parts[0].octets, parts[0].len, parts[1].octets, parts[1].len, parts[2].octets, parts[2].len,
        PKCS12_ROUNDS_DEFAULT, PKCS12_LIMIT_DEFAULT, &text, &made->len);
    made->octets = (uint8_t *)text;
    return number;
}

static uint32_t upgrade(struct part *parts, struct part *made)
{
    first_line_alone(&parts[1]);
    first_line_alone(&parts[2]);
    return pkcs12_upgrade_new(parts[0].octets, parts[0].len, parts[1].octets, parts[1].len, parts[2].octets, parts[2].len,
        PKCS12_ROUNDS_DEFAULT, PKCS12_LIMIT_DEFAULT, &made->octets, &made->len);
}

/* `parts` are the key, the certificates, the password, and that of the key where it is given. */
static uint32_t create(struct part *parts, const char *name, struct part *made)
{
    first_line_alone(&parts[2]);
    first_line_alone(&parts[3]);
    return pkcs12_create_pem_new(parts[0].octets, parts[0].len, parts[1].octets, parts[1].len, parts[3].octets, parts[3].len,
        (const uint8_t *)name, name ? strlen(name) : 0, parts[2].octets, parts[2].len, PKCS12_ROUNDS_DEFAULT,
        PKCS12_LIMIT_DEFAULT, &made->octets, &made->len);
}

static int usage(void)
{
    fputs("usage: calls transfer|upgrade STORE PASSWORD-FILE NEW-PASSWORD-FILE\n"
          "       calls create KEY CERTIFICATES PASSWORD-FILE [NAME [KEY-PASSWORD-FILE]]\n", stderr);
    return 2;
}

/* The call that the words name, of what the files have. 3 where one of them cannot be read. */
static uint32_t called(int argc, char **argv, struct part *parts, struct part *made)
{
    if (read_parts(argv + 2, 3, parts) || (argc == 7 && read_parts(argv + 6, 1, parts + 3)))
        return 3;
    if (strcmp(argv[1], "create") == 0)
        return create(parts, argc > 5 ? argv[5] : NULL, made);
    return strcmp(argv[1], "transfer") == 0 ? transfer(parts, made) : upgrade(parts, made);
}

int main(int argc, char **argv)
{
    struct part parts[4] = {{NULL, 0}}, made = {NULL, 0};
    uint32_t number;
    if (argc < 5 || (strcmp(argv[1], "create") ? argc > 5 || (strcmp(argv[1], "transfer") && strcmp(argv[1], "upgrade")) : argc > 7))
        return usage();
    number = called(argc, argv, parts, &made);
    if (number != PKCS12_DONE && number != 3)
        fprintf(stderr, "refused (%u): %s\n", (unsigned)number, pkcs12_strerror(number));
    else if (number == PKCS12_DONE && (fwrite(made.octets, 1, made.len, stdout) != made.len || fflush(stdout) != 0))
        number = 4;
    free(made.octets);
    for (int i = 0; i < 4; i++)
        free(parts[i].octets);
    return (int)number;
}
