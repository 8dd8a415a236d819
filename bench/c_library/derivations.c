/* derivations KEYS COUNT ROUNDS CALLS: the microseconds of a processor that libcrypto takes for the derivations of an upgrade, a call of many:
 * those of a store of so many keys under PBES2 of this count and of the store that is made of it, in so many rounds, with the MACs of both. */
#include <openssl/evp.h>
#include <openssl/pkcs12.h>
#include <stdio.h>
#include <stdlib.h>
#include <time.h>

static const unsigned char salt[16], password[] = {0, 'p', 0, 0};
static unsigned char key[32];

static int derived(int keys, int count, int mac_count)
{
    for (int i = 0; i < keys; i++)
        if (!PKCS5_PBKDF2_HMAC("p", 1, salt, sizeof salt, count, EVP_sha256(), sizeof key, key))
            return 0;
    return PKCS12_key_gen_uni((unsigned char *)password, sizeof password, (unsigned char *)salt, 8, PKCS12_MAC_ID, mac_count, sizeof key, key,
        EVP_sha256());
}

int main(int argc, char **argv)
{
    struct timespec from, to;
    if (argc < 5)
        return 2;
    int keys = atoi(argv[1]), count = atoi(argv[2]), rounds = atoi(argv[3]), calls = atoi(argv[4]);
    clock_gettime(CLOCK_PROCESS_CPUTIME_ID, &from);
    for (int i = 0; i < calls; i++)
        if (!derived(keys, count, 1) || !derived(keys, rounds, rounds))
            return 1;
    clock_gettime(CLOCK_PROCESS_CPUTIME_ID, &to);
    printf("%.0f\n", ((double)(to.tv_sec - from.tv_sec) * 1e6 + (double)(to.tv_nsec - from.tv_nsec) / 1e3) / calls);
    return 0;
}
