/* Included by the programs that spell a list or a table in bytes: a number of so many bytes, low byte first, and what follows it. */
#include <stdint.h>

static uint8_t *put(uint8_t *at, uint64_t number, int size)
{
    while (size-- > 0) {
        *at++ = (uint8_t)(number & 255);
        number >>= 8;
    }
    return at;
}
