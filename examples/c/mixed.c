/* Floating point, structs and wide integers beside what is integer code alone. */
#include <stdint.h>

struct point {
    double x, y;
    int32_t weight;
};

double total(const double *xs, int64_t n) {
    double sum = 0.0;
    for (int64_t i = 0; i < n; i++) {
        sum += xs[i];
    }
    return sum;
}

struct point middle(struct point a, struct point b) {
    struct point m = {(a.x + b.x) / 2, (a.y + b.y) / 2, a.weight + b.weight};
    return m;
}

int32_t weight_of(const struct point *p) {
    return p->weight;
}

float nearest(float x) {
    return (float)(int32_t)(x + 0.5f);
}

__int128 wide(__int128 x, int64_t y) {
    return x * y;
}

void fences(volatile int32_t *flag, int32_t *data) {
    *data = 1;
    __atomic_store_n(flag, 2, __ATOMIC_RELEASE);
}

void mix(uint32_t *restrict out, const uint32_t *in) {
    out[0] = in[0] ^ in[1] << 5;
    out[1] = in[1] ^ in[2] << 5;
    out[2] = in[2] ^ in[3] << 5;
    out[3] = in[3] ^ in[0] << 5;
}
