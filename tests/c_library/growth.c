/* growth STORE PASSWORD-FILE: 10,000 calls, half of them refused, leave no more memory taken than 100 did. */
#include "inputs.h"
#include <malloc.h>

static uint8_t output[1 << 20];

static int calls(int count)
{
    size_t needed;
    for (int i = 0; i < count; i += 2) {
        if (transferred(output, sizeof output, &needed) != PKCS12_DONE)
            return wrong("the store is not transferred");
        store[store_len - 1] ^= 1;
        uint32_t number = pkcs12_open_pem(store, store_len, password, password_len, LIMIT, output, sizeof output, &needed);
        store[store_len - 1] ^= 1;
        if (number == PKCS12_DONE)
            return wrong("a damaged store is opened");
    }
    return 0;
}

int main(int argc, char **argv)
{
    read_inputs(argc, argv);
    if (calls(100))
        return 1;
    size_t taken = mallinfo2().uordblks;
    if (calls(10000))
        return 1;
    if (mallinfo2().uordblks != taken)
        return wrong("memory grows");
    return 0;
}
