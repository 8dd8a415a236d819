/* upgrade STORE PASSWORD-FILE NEW-PASSWORD-FILE: writes what pkcs12_upgrade_new gives for 1,000 rounds, and ends with its number. */
#define PKCS12_ONE_STEP
#include "inputs.h"

/* Rounds that are none, or too many, are told before a password is. */
static int rounds_are_tested(void)
{
    static const uint8_t bad[] = "\377";
    static const uint32_t none[] = {0, 100000001, 0xffffffff};
    uint8_t output[4] = {7, 7, 7, 7};
    for (size_t at = 0; at < 3; at++) {
        size_t needed = 9;
        if (pkcs12_upgrade(store, store_len, bad, 1, bad, 1, none[at], LIMIT, drawn, sizeof drawn, output, sizeof output, &needed) !=
                PKCS12_ROUNDS || needed || output[0] != 7 || output[3] != 7)
            return 0;
    }
    return 1;
}

int main(int argc, char **argv)
{
    static uint8_t new_password[1024];
    uint8_t *changed;
    size_t len, needed = 9;
    if (argc < 4)
        return 3;
    read_inputs(argc, argv);
    if (!rounds_are_tested())
        return 98;
    size_t new_len = line_len(new_password, read_file(argv[3], new_password, sizeof new_password));
    uint32_t number = pkcs12_upgrade_new(store, store_len, password, password_len, new_password, new_len, 1000, LIMIT, &changed, &len);
    if (number == PKCS12_DONE)
        fwrite(changed, 1, len, stdout);
    else if (changed || len)
        return 99;
    /* without random octets a store is not upgraded */
    if (number == PKCS12_DONE && (pkcs12_upgrade(store, store_len, password, password_len, new_password, new_len, 1, LIMIT, drawn, 15,
            changed, len, &needed) != PKCS12_RANDOM_SHORT || needed))
        return 97;
    /* what could not be opened under the limit is not made */
    if (number == PKCS12_DONE && (pkcs12_upgrade(store, store_len, password, password_len, new_password, new_len, 100001, 100000, drawn, sizeof drawn,
            changed, len, &needed) != PKCS12_WORK_LIMIT || needed))
        return 96;
    free(changed);
    return (int)number;
}
