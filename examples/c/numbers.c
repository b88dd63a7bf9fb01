/* Arithmetic, comparisons and choices. */
#include <stdint.h>

uint32_t mixed(uint32_t x, uint32_t y) {
    return (x * 2654435761u ^ y >> 7) + (x & ~y | y << 3);
}

int32_t quotient(int32_t x, int32_t y) {
    return y == 0 ? 0 : x / y - x % y;
}

uint8_t low_byte(int64_t x) {
    return (uint8_t)(x >> 8);
}

int64_t signed_byte(int8_t x, _Bool negate) {
    return negate ? -(int64_t)x : x;
}

int32_t steps(uint64_t n) {
    int32_t count = 0;
    while (n != 1 && count < 1000) {
        n = n % 2 == 0 ? n / 2 : 3 * n + 1;
        count++;
    }
    return count;
}
