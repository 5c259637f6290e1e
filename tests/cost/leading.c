/* Makes every call of peat_read_leading there is: each first byte, and none, of both types, and a type that is none. */
#include "peatribbon.h"

int main(void)
{
    volatile uint64_t sum = 0;
    for (uint64_t type = 0; type <= PEAT_GROUND_PDUS; type++)
        for (unsigned n = 0; n <= 256; n++) {
            const uint8_t byte = (uint8_t)n;
            sum += peat_read_leading(type, &byte, n < 256).word;
        }
    return 0;
}
