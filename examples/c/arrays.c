/* Loops over arrays of several widths. */
#include <stdint.h>

int32_t total(const int32_t *xs, int64_t n) {
    int32_t sum = 0;
    for (int64_t i = 0; i < n; i++) {
        sum += xs[i];
    }
    return sum;
}

void add_four(int32_t *restrict r, const int32_t *a, const int32_t *b) {
    r[0] = a[0] + b[0];
    r[1] = a[1] + b[1];
    r[2] = a[2] + b[2];
    r[3] = a[3] + b[3];
}

void widen(uint64_t *restrict to, const uint8_t *restrict from, uint32_t n) {
    for (uint32_t i = 0; i < n; i++) {
        to[i] = (uint64_t)from[i] << 3;
    }
}

int64_t count_equal(const int16_t *xs, int64_t n, int16_t wanted) {
    int64_t found = 0;
    for (int64_t i = 0; i < n; i++) {
        found += xs[i] == wanted;
    }
    return found;
}
