/* room STORE PASSWORD-FILE: an output of pkcs12_room octets, and as many random octets as the store has, are enough; and how much room
 * that is, for stores of some lengths. */
#include "inputs.h"

static uint8_t random_octets[sizeof store], output[5 * sizeof store];

int main(int argc, char **argv)
{
    size_t needed, room;
    read_inputs(argc, argv);
    if (pkcs12_room(0) != 0 || pkcs12_room(1000) != 5000 || pkcs12_room(PKCS12_STORE_MAX) != (size_t)5 * PKCS12_STORE_MAX ||
        pkcs12_room(PKCS12_STORE_MAX + (size_t)1) != (size_t)5 * PKCS12_STORE_MAX || pkcs12_room(SIZE_MAX) != (size_t)5 * PKCS12_STORE_MAX)
        return wrong("the room");
    room = pkcs12_room(store_len);
    if (pkcs12_transfer_pem(store, store_len, password, password_len, NEW_PASSWORD, 3, LIMIT, random_octets, store_len, output, room,
            &needed) != PKCS12_DONE || needed > room)
        return wrong("the room for a transfer");
    if (pkcs12_open_pem(store, store_len, password, password_len, LIMIT, output, room, &needed) != PKCS12_DONE || needed > room)
        return wrong("the room for an opening");
    printf("%zu of %zu\n", needed, room);
    return 0;
}
