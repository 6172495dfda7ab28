/* What gcc asks for on a processor of 32 bits for numbers of 64. Debian's compiler for SPARC brings these in instructions of V9 alone, so they
 * are here, without an operation that would ask for them again: 64 bits are two words. */
#include <stdint.h>

/* Under other names they are tried on another processor. */
#ifndef HELPER
#define HELPER(name) __##name
#endif

typedef union words {
    uint64_t whole;
    struct {
#if __BYTE_ORDER__ == __ORDER_BIG_ENDIAN__
        uint32_t high, low;
#else
        uint32_t low, high;
#endif
    } half;
} words;

uint64_t HELPER(ashldi3)(uint64_t value, int by)
{
    words from, to;
    from.whole = value;
    if (by == 0)
        return value;
    to.half.high = by < 32 ? from.half.high << by | from.half.low >> (32 - by) : from.half.low << (by - 32);
    to.half.low = by < 32 ? from.half.low << by : 0;
    return to.whole;
}

uint64_t HELPER(lshrdi3)(uint64_t value, int by)
{
    words from, to;
    from.whole = value;
    if (by == 0)
        return value;
    to.half.low = by < 32 ? from.half.low >> by | from.half.high << (32 - by) : from.half.high >> (by - 32);
    to.half.high = by < 32 ? from.half.high >> by : 0;
    return to.whole;
}

/* Byte by byte through memory, so that no compiler makes a call of this function of it. */
uint32_t HELPER(bswapsi2)(uint32_t value)
{
    volatile uint8_t bytes[4];
    uint32_t to;
    bytes[0] = (uint8_t)value, bytes[1] = (uint8_t)(value >> 8), bytes[2] = (uint8_t)(value >> 16), bytes[3] = (uint8_t)(value >> 24);
    to = bytes[0];
    to = to << 8 | bytes[1];
    to = to << 8 | bytes[2];
    return to << 8 | bytes[3];
}

uint64_t HELPER(bswapdi2)(uint64_t value)
{
    words from, to;
    from.whole = value;
    to.half.high = HELPER(bswapsi2)(from.half.low);
    to.half.low = HELPER(bswapsi2)(from.half.high);
    return to.whole;
}

/* The zeros before the first one, from the most significant bit down; of 0 there are 32. */
int HELPER(clzsi2)(uint32_t value)
{
    int zeros = 32, step;
    for (step = 16; step > 0; step /= 2) {
        if (value >> step) {
            value >>= step;
            zeros -= step;
        }
    }
    return zeros - (int)value;
}

int HELPER(ctzsi2)(uint32_t value)
{
    return value == 0 ? 32 : 31 - HELPER(clzsi2)(value & (0u - value));
}

int HELPER(clzdi2)(uint64_t value)
{
    words from;
    from.whole = value;
    return from.half.high ? HELPER(clzsi2)(from.half.high) : 32 + HELPER(clzsi2)(from.half.low);
}

int HELPER(ctzdi2)(uint64_t value)
{
    words from;
    from.whole = value;
    return from.half.low ? HELPER(ctzsi2)(from.half.low) : 32 + HELPER(ctzsi2)(from.half.high);
}
