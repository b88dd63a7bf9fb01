/* Branches on many values, and globals. */
#include <stdint.h>

static int32_t weights[4] = {3, 1, 4, 1};
int32_t last_seen;

int32_t kind_of(uint8_t letter, int32_t *places) {
    switch (letter) {
    case 'a':
        places[0] = 7;
        return 1;
    case 'e':
        places[1] = 8;
        return places[3];
    case 'z':
        last_seen = 26;
        return -1;
    default:
        return 0;
    }
}

int32_t weighted(const int32_t *xs) {
    int32_t sum = 0;
    for (int i = 0; i < 4; i++) {
        sum += weights[i] * xs[i];
    }
    last_seen = sum;
    return sum;
}

void set_weight(uint32_t at, int32_t weight) {
    weights[at & 3] = weight;
}
