/* fails STORE PASSWORD-FILE: each request for memory is refused in turn. The call then returns PKCS12_MEMORY, writes nothing, and gives
 * back all that it was given. A request for a smaller block, to which a list of attributes is moved, is the exception: where it is refused
 * the list stays where it is, and the call returns what it always does. Linked without heap.c, whose calls stand here. */
#include "inputs.h"

static long requests, refused, live;
struct block {
    uint64_t given;
    void *at;
};
static char nothing[16];

struct block rattle_alloc(size_t size, size_t align);
struct block rattle_realloc(void *at, size_t old, size_t size, size_t align);
void rattle_dealloc(void *at);

struct block rattle_alloc(size_t size, size_t align)
{
    void *at = ++requests == refused ? NULL : malloc(size ? size : align);
    live += at != NULL;
    struct block block = {at != NULL, at ? at : nothing};
    return block;
}
struct block rattle_realloc(void *old_at, size_t old, size_t size, size_t align)
{
    (void)old;
    void *at = ++requests == refused ? NULL : realloc(old_at, size ? size : align);
    struct block block = {at != NULL, at ? at : nothing};
    return block;
}
void rattle_dealloc(void *at)
{
    live--;
    free(at);
}

static uint8_t output[1 << 18], whole[1 << 18];
/* At most so many lists of attributes are in the store. */
static const long lists = 4;

/* The certificates and the key of the store, as PEM text. */
static uint8_t text[1 << 18];
static size_t text_len;

/* One of the six calls. */
static uint32_t call(int which, size_t *needed)
{
    if (which == 0)
        return transferred(output, sizeof output, needed);
    if (which == 1)
        return pkcs12_open_pem(store, store_len, password, password_len, LIMIT, output, sizeof output, needed);
    if (which == 2)
        return listed(output, sizeof output, needed);
    if (which == 3)
        return pkcs12_rekey(store, store_len, password, password_len, NEW_PASSWORD, LIMIT, drawn, sizeof drawn, output,
            sizeof output, needed);
    if (which == 5)
        return pkcs12_create_pem(text, text_len, text, text_len, text, 0, NEW_PASSWORD, NEW_PASSWORD, 3, LIMIT, drawn, sizeof drawn,
            output, sizeof output, needed);
    return pkcs12_upgrade(store, store_len, password, password_len, NEW_PASSWORD, 3, LIMIT, drawn, sizeof drawn, output,
        sizeof output, needed);
}

int main(int argc, char **argv)
{
    read_inputs(argc, argv);
    if (pkcs12_open_pem(store, store_len, password, password_len, LIMIT, text, sizeof text, &text_len) != PKCS12_DONE)
        return wrong("the store is not opened");
    for (int which = 0; which < 6; which++) {
        size_t needed, due;
        refused = requests = live = 0;
        if (call(which, &due) != PKCS12_DONE || live)
            return wrong("the store is refused, or memory is kept");
        long all = requests, moved = 0;
        memcpy(whole, output, sizeof output);
        if (all < 5)
            return wrong("too few requests to be all of them");
        for (long number = 1; number <= all; number++) {
            refused = number;
            requests = 0;
            memset(output, 7, sizeof output);
            uint32_t returned = call(which, &needed);
            if (live)
                return wrong("memory is kept");
            if (returned == PKCS12_DONE && needed == due && !memcmp(output, whole, due) && ++moved <= lists)
                continue;
            if (returned != PKCS12_MEMORY || needed)
                return wrong("not out of memory");
            for (size_t i = 0; i < sizeof output; i++)
                if (output[i] != 7)
                    return wrong("written");
        }
        printf("%ld requests, %ld of them for a smaller block\n", all, moved);
    }
    return 0;
}
