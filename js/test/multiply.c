/* Compares __multi3 of js/module with the compiler's own product, which knows 128 bits: built with -D__multi3=multiplied. */
#include "../module/multiply.c"

#include <stdio.h>

static uint64_t state = 1;

/* A number with its ends in mind: all bits, few of them, or any. */
static uint64_t drawn(void) {
    state = state * 6364136223846793005u + 1442695040888963407u;
    switch (state >> 61) {
    case 0: return 0;
    case 1: return UINT64_MAX;
    case 2: return (uint64_t)1 << (state >> 33 & 63);
    case 3: return state >> 32;
    default: return state ^ state >> 29;
    }
}

int main(void) {
    long time;
    for (time = 0; time < 2000000; time++) {
        uint64_t a = drawn(), a_high = drawn(), b = drawn(), b_high = drawn();
        unsigned __int128 wanted = ((unsigned __int128)a_high << 64 | a) * ((unsigned __int128)b_high << 64 | b);
        wide is = multiplied(a, a_high, b, b_high);
        if (is.low != (uint64_t)wanted || is.high != (uint64_t)(wanted >> 64)) {
            printf("%016lx%016lx * %016lx%016lx is wrong\n", (long)a_high, (long)a, (long)b_high, (long)b);
            return 1;
        }
    }
    puts("2,000,000 products are right");
    return 0;
}
