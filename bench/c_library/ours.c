/* ours STORE PASSWORD-FILE ROUNDS CALLS: the microseconds of a processor that a call of pkcs12_transfer_pem takes, or with a further word
 * one of pkcs12_upgrade. */
#include <pkcs12.h>
#include <stdio.h>
#include <stdlib.h>
#include <time.h>

static uint8_t store[1 << 24], password[1024], output[1 << 25], drawn[32 * 1024];

static size_t read_file(const char *path, uint8_t *to, size_t room)
{
    FILE *file = fopen(path, "rb");
    if (!file)
        exit(3);
    size_t len = fread(to, 1, room, file);
    fclose(file);
    return len;
}

int main(int argc, char **argv)
{
    struct timespec from, to;
    size_t needed;
    uint32_t number = 0;
    if (argc < 5)
        return 2;
    size_t len = read_file(argv[1], store, sizeof store), password_len = read_file(argv[2], password, sizeof password);
    while (password_len && (password[password_len - 1] == '\n' || password[password_len - 1] == '\r'))
        password_len--;
    int calls = atoi(argv[4]);
    clock_gettime(CLOCK_PROCESS_CPUTIME_ID, &from);
    for (int i = 0; i < calls; i++)
        number |= (argc > 5 ? pkcs12_upgrade : pkcs12_transfer_pem)(store, len, password, password_len, (const uint8_t *)"hunter42", 8,
            (uint32_t)atoi(argv[3]), 1000000000, drawn, sizeof drawn, output, sizeof output, &needed);
    clock_gettime(CLOCK_PROCESS_CPUTIME_ID, &to);
    printf("%.0f\n", ((double)(to.tv_sec - from.tv_sec) * 1e6 + (double)(to.tv_nsec - from.tv_nsec) / 1e3) / calls);
    return (int)number;
}
