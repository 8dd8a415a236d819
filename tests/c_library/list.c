/* list STORE PASSWORD-FILE: writes what pkcs12_list_new gives, which is what pkcs12_list writes, and ends with its number. */
#define PKCS12_ONE_STEP
#include "inputs.h"

static uint8_t output[1 << 20];

int main(int argc, char **argv)
{
    char *text;
    size_t len, needed;
    read_inputs(argc, argv);
    uint32_t number = pkcs12_list_new(store, store_len, password, password_len, LIMIT, &text, &len);
    if (listed(output, sizeof output, &needed) != number || needed != len)
        return wrong("pkcs12_list and pkcs12_list_new differ");
    if (number == PKCS12_DONE ? memcmp(text, output, len) || text[len] : text != NULL)
        return wrong("the text that was made");
    if (number == PKCS12_DONE)
        fwrite(text, 1, len, stdout);
    free(text);
    return (int)number;
}
