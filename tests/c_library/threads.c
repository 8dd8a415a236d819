/* threads STORE PASSWORD-FILE: four threads at once get what one gets. */
#include "inputs.h"
#include <pthread.h>

static uint8_t first[1 << 16];
static size_t first_len;

static void *work(void *unused)
{
    static __thread uint8_t output[1 << 16];
    size_t needed, bad = 0;
    (void)unused;
    for (int i = 0; i < 25; i++)
        if (transferred(output, sizeof output, &needed) != PKCS12_DONE || needed != first_len || memcmp(first, output, needed))
            bad++;
    return (void *)bad;
}

int main(int argc, char **argv)
{
    pthread_t started[4];
    size_t bad = 0;
    read_inputs(argc, argv);
    if (transferred(first, sizeof first, &first_len) != PKCS12_DONE)
        return wrong("the store is not transferred");
    for (int i = 0; i < 4; i++)
        if (pthread_create(&started[i], NULL, work, NULL))
            return 3;
    for (int i = 0; i < 4; i++) {
        void *found;
        pthread_join(started[i], &found);
        bad += (size_t)found;
    }
    return bad ? wrong("a thread got another text") : 0;
}
