/* Functions that call others, take functions and any number of arguments, beside functions that do none of this. */
#include <stdarg.h>
#include <stdint.h>

extern int printf(const char *format, ...);
extern int32_t outside(int32_t x);
static int32_t calls;

int32_t twice(int32_t x) {
    return 2 * x;
}

static __attribute__((noinline)) int32_t counted(int32_t x) {
    calls++;
    return x + calls;
}

int32_t through(int32_t x) {
    return counted(twice(x)) + outside(x);
}

int32_t applied(int32_t (*what)(int32_t), int32_t x) {
    return what(x);
}

int32_t (*chosen(int which))(int32_t) {
    return which ? twice : outside;
}

int32_t sum_of(int32_t count, ...) {
    va_list more;
    int32_t sum = 0;
    va_start(more, count);
    for (int32_t i = 0; i < count; i++) {
        sum += va_arg(more, int32_t);
    }
    va_end(more);
    return sum;
}

void tell(int32_t x) {
    printf("%d of %d\n", x, calls);
}

void copy_four(int32_t *restrict to, const int32_t *from) {
    to[0] = from[0];
    to[1] = from[1];
    to[2] = from[2];
    to[3] = from[3];
}
