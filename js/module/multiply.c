/*
** The product of two numbers of 128 bits, which clang calls where the target
** has none, as for a product of 64 bits whose overflow is looked at. It is what
** compilers bring with their own library under this name. js/test/multiply.c
** tests it.
*/
#include <stdint.h>

typedef struct wide {
    uint64_t low, high;
} wide;

wide __multi3(uint64_t a, uint64_t a_high, uint64_t b, uint64_t b_high);

wide __multi3(uint64_t a, uint64_t a_high, uint64_t b, uint64_t b_high) {
    uint64_t a0 = (uint32_t)a, a1 = a >> 32, b0 = (uint32_t)b, b1 = b >> 32;
    uint64_t first = a0 * b0;
    uint64_t second = a1 * b0 + (first >> 32);
    uint64_t third = a0 * b1 + (uint32_t)second;
    wide product = {third << 32 | (uint32_t)first, a1 * b1 + (second >> 32) + (third >> 32) + a_high * b + a * b_high};
    return product;
}
