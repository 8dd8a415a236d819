/* openssl STORE PASSWORD-FILE ROUNDS CALLS [keys | parsed]: the same by libcrypto: PKCS12_parse, then PEM of the certificates, and of
 * the key under PBES2 in so many rounds. PKCS12_parse gives one key of a store: with a further word each bag is opened by itself. With
 * `keys` each key is sealed as its octets are, without a look inside; with `parsed` it is read first, as PKCS12_parse reads its one. */
#include <openssl/err.h>
#include <openssl/evp.h>
#include <openssl/pem.h>
#include <openssl/pkcs12.h>
#include <stdio.h>
#include <stdlib.h>
#include <string.h>
#include <time.h>

static unsigned char store[1 << 24];
static char password[1024];

static size_t read_file(const char *path, void *to, size_t room)
{
    FILE *file = fopen(path, "rb");
    if (!file)
        exit(3);
    size_t len = fread(to, 1, room, file);
    fclose(file);
    return len;
}

static void refused(void)
{
    ERR_print_errors_fp(stderr);
    exit(1);
}

static void write_key(BIO *out, PKCS8_PRIV_KEY_INFO *info, int rounds)
{
    unsigned char salt[16] = {1};
    X509_ALGOR *algorithm = PKCS5_pbe2_set_iv(EVP_aes_256_cbc(), rounds, salt, 16, NULL, NID_hmacWithSHA256);
    X509_SIG *sealed = PKCS8_set0_pbe("hunter42", 8, info, algorithm);
    PEM_write_bio_PKCS8(out, sealed);
    X509_SIG_free(sealed);
    PKCS8_PRIV_KEY_INFO_free(info);
}

static void once(size_t len, int rounds)
{
    const unsigned char *at = store;
    PKCS12 *read = d2i_PKCS12(NULL, &at, (long)len);
    EVP_PKEY *key = NULL;
    X509 *certificate = NULL;
    STACK_OF(X509) *more = NULL;
    if (!PKCS12_parse(read, password, &key, &certificate, &more))
        refused();
    BIO *out = BIO_new(BIO_s_mem());
    if (certificate)
        PEM_write_bio_X509(out, certificate);
    for (int i = 0; i < sk_X509_num(more); i++)
        PEM_write_bio_X509(out, sk_X509_value(more, i));
    if (key)
        write_key(out, EVP_PKEY2PKCS8(key), rounds);
    BIO_free(out);
    EVP_PKEY_free(key);
    X509_free(certificate);
    sk_X509_pop_free(more, X509_free);
    PKCS12_free(read);
}

/* The key, read and written again. */
static PKCS8_PRIV_KEY_INFO *parsed(PKCS8_PRIV_KEY_INFO *info)
{
    EVP_PKEY *key = EVP_PKCS82PKEY(info);
    if (!key)
        refused();
    PKCS8_PRIV_KEY_INFO_free(info);
    info = EVP_PKEY2PKCS8(key);
    EVP_PKEY_free(key);
    return info;
}

static void write_bag(BIO *out, const PKCS12_SAFEBAG *bag, int rounds, int parse)
{
    if (PKCS12_SAFEBAG_get_nid(bag) == NID_pkcs8ShroudedKeyBag) {
        PKCS8_PRIV_KEY_INFO *info = PKCS12_decrypt_skey(bag, password, (int)strlen(password));
        if (!info)
            refused();
        write_key(out, parse ? parsed(info) : info, rounds);
    } else if (PKCS12_SAFEBAG_get_nid(bag) == NID_certBag) {
        X509 *certificate = PKCS12_SAFEBAG_get1_cert(bag);
        PEM_write_bio_X509(out, certificate);
        X509_free(certificate);
    }
}

static void each_bag(size_t len, int rounds, int parse)
{
    const unsigned char *at = store;
    PKCS12 *read = d2i_PKCS12(NULL, &at, (long)len);
    if (!PKCS12_verify_mac(read, password, (int)strlen(password)))
        refused();
    STACK_OF(PKCS7) *contents = PKCS12_unpack_authsafes(read);
    BIO *out = BIO_new(BIO_s_mem());
    for (int i = 0; i < sk_PKCS7_num(contents); i++) {
        PKCS7 *content = sk_PKCS7_value(contents, i);
        STACK_OF(PKCS12_SAFEBAG) *bags = PKCS7_type_is_data(content)
            ? PKCS12_unpack_p7data(content)
            : PKCS12_unpack_p7encdata(content, password, (int)strlen(password));
        for (int j = 0; j < sk_PKCS12_SAFEBAG_num(bags); j++)
            write_bag(out, sk_PKCS12_SAFEBAG_value(bags, j), rounds, parse);
        sk_PKCS12_SAFEBAG_pop_free(bags, PKCS12_SAFEBAG_free);
    }
    BIO_free(out);
    sk_PKCS7_pop_free(contents, PKCS7_free);
    PKCS12_free(read);
}

int main(int argc, char **argv)
{
    struct timespec from, to;
    if (argc < 5)
        return 2;
    size_t len = read_file(argv[1], store, sizeof store), password_len = read_file(argv[2], password, sizeof password - 1);
    while (password_len && (password[password_len - 1] == '\n' || password[password_len - 1] == '\r'))
        password[--password_len] = 0;
    int rounds = atoi(argv[3]), calls = atoi(argv[4]);
    clock_gettime(CLOCK_PROCESS_CPUTIME_ID, &from);
    for (int i = 0; i < calls; i++)
        if (argc > 5)
            each_bag(len, rounds, !strcmp(argv[5], "parsed"));
        else
            once(len, rounds);
    clock_gettime(CLOCK_PROCESS_CPUTIME_ID, &to);
    printf("%.0f\n", ((double)(to.tv_sec - from.tv_sec) * 1e6 + (double)(to.tv_nsec - from.tv_nsec) / 1e3) / calls);
    return 0;
}
