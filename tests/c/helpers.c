/* The helpers of library/examples/leon3 for numbers of 64 bits, under names of their own, beside the operators and built-in functions of
 * this processor's compiler. */
#define HELPER(name) own_##name
#include "../../library/examples/leon3/helpers.c"
#include "check.h"

enum { CASES = 200000 };

static void try_value(uint64_t value)
{
    const uint32_t low = (uint32_t)value;
    int by;
    for (by = 0; by < 64; by++) {
        check(own_ashldi3(value, by) == value << by, "ashldi3", value);
        check(own_lshrdi3(value, by) == value >> by, "lshrdi3", value);
    }
    check(own_bswapdi2(value) == __builtin_bswap64(value), "bswapdi2", value);
    check(own_bswapsi2(low) == __builtin_bswap32(low), "bswapsi2", low);
    check(own_clzsi2(low) == (low ? __builtin_clz(low) : 32), "clzsi2", low);
    check(own_ctzsi2(low) == (low ? __builtin_ctz(low) : 32), "ctzsi2", low);
    check(own_clzdi2(value) == (value ? __builtin_clzll(value) : 64), "clzdi2", value);
    check(own_ctzdi2(value) == (value ? __builtin_ctzll(value) : 64), "ctzdi2", value);
}

int main(void)
{
    int number;
    for (number = 0; number < 64; number++) {
        try_value((uint64_t)1 << number);
        try_value(~(uint64_t)0 >> number);
        try_value(~(uint64_t)0 << number);
    }
    try_value(0);
    for (number = 0; number < CASES; number++) {
        const uint64_t value = drawn(UINT64_MAX);
        try_value(value);
        try_value(value >> number % 64);
    }
    return counted();
}
