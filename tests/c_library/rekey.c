/* rekey STORE PASSWORD-FILE NEW-PASSWORD-FILE: writes what pkcs12_rekey_new gives, and ends with its number. */
#define PKCS12_ONE_STEP
#include "inputs.h"

int main(int argc, char **argv)
{
    static uint8_t new_password[1024];
    uint8_t *changed;
    size_t len;
    if (argc < 4)
        return 3;
    read_inputs(argc, argv);
    size_t new_len = line_len(new_password, read_file(argv[3], new_password, sizeof new_password));
    uint32_t number = pkcs12_rekey_new(store, store_len, password, password_len, new_password, new_len, LIMIT, &changed, &len);
    if (number == PKCS12_DONE)
        fwrite(changed, 1, len, stdout);
    else if (changed || len)
        return 99;
    free(changed);
    return (int)number;
}
