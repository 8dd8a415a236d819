/* open STORE PASSWORD-FILE: writes what pkcs12_open_pem writes, and ends with its number. */
#define PKCS12_ONE_STEP
#include "inputs.h"

int main(int argc, char **argv)
{
    char *text;
    size_t len;
    read_inputs(argc, argv);
    uint32_t number = pkcs12_open_pem_new(store, store_len, password, password_len, LIMIT, &text, &len);
    if (number == PKCS12_DONE)
        fwrite(text, 1, len, stdout);
    free(text);
    return (int)number;
}
