/* Prints each number of pkcs12.h that has a meaning, and the meaning. */
#include <pkcs12.h>
#include <stdio.h>
#include <string.h>

int main(void)
{
    for (uint32_t number = 0; number < 256; number++)
        if (strcmp(pkcs12_strerror(number), pkcs12_strerror(99)) != 0)
            printf("%u %s\n", (unsigned)number, pkcs12_strerror(number));
    return 0;
}
