/* The machine, written by hand. Its memory is one block of bytes, the little end first on all processors; in it there are only offsets, from
 * BASE on: the stack, from its top down to BASE, then the constants and the heap. m is the place of the block, last the greatest offset at
 * which eight bytes still lie in it. In front of the block lies its head, by numbers in the order of the processor.
 *
 * Each access is checked against the ends of the block. One outside it ends the function, and all that called it, by the mark BROKEN in
 * the head; it is never made. With POCKET_UNCHECKED what the generated part reads and writes is not checked, nor is it asked after each of
 * its calls whether that was ended. */
#if defined(__GNUC__)
#define POCKET_MAYBE_UNUSED __attribute__((unused))
#define POCKET_SELDOM(is_so) __builtin_expect(!!(is_so), 0)
#define POCKET_COPY __builtin_memcpy
#else
#define POCKET_MAYBE_UNUSED
#define POCKET_SELDOM(is_so) (is_so)
#define POCKET_COPY memcpy
#endif

typedef uint8_t u8;
typedef int8_t s8;
typedef uint16_t u16;
typedef int16_t s16;
typedef uint32_t u32;
typedef int32_t s32;
typedef uint64_t u64;
typedef int64_t s64;

enum { BASE = STACK_TOP - STACK_BYTES, SLACK = 8 };
#define ROUNDED(bytes, to) (((u32)(bytes) + ((to) - 1u)) / (to) * (to))

/* Numbers with the little end first: as they lie in memory, turned, or byte by byte if the processor's order is not known, or it reads
 * no word that is not aligned. POCKET_COPY of a word is no call, with an operating system or without. */
#if defined(__GNUC__) && defined(__BYTE_ORDER__) && __BYTE_ORDER__ == __ORDER_LITTLE_ENDIAN__
#define POCKET_ORDERED(bits, value) (value)
#elif defined(__GNUC__) && defined(__BYTE_ORDER__) && __BYTE_ORDER__ == __ORDER_BIG_ENDIAN__ && !defined(__sparc__)
#define POCKET_ORDERED(bits, value) __builtin_bswap##bits(value)
#endif

#ifdef POCKET_ORDERED
#define POCKET_NUMBER(bits) \
    static POCKET_MAYBE_UNUSED u##bits get##bits(const u8 *at) { \
        u##bits value; \
        POCKET_COPY(&value, at, sizeof value); \
        return POCKET_ORDERED(bits, value); \
    } \
    static POCKET_MAYBE_UNUSED void put##bits(u8 *at, u##bits value) { \
        value = POCKET_ORDERED(bits, value); \
        POCKET_COPY(at, &value, sizeof value); \
    }
POCKET_NUMBER(16)
POCKET_NUMBER(32)
POCKET_NUMBER(64)
#undef POCKET_NUMBER
#else
static POCKET_MAYBE_UNUSED u16 get16(const u8 *at) {
    return (u16)(at[0] | (u32)at[1] << 8);
}
static POCKET_MAYBE_UNUSED u32 get32(const u8 *at) {
    return at[0] | (u32)at[1] << 8 | (u32)at[2] << 16 | (u32)at[3] << 24;
}
static POCKET_MAYBE_UNUSED u64 get64(const u8 *at) {
    return get32(at) | (u64)get32(at + 4) << 32;
}
static POCKET_MAYBE_UNUSED void put16(u8 *at, u16 value) {
    at[0] = (u8)value;
    at[1] = (u8)(value >> 8);
}
static POCKET_MAYBE_UNUSED void put32(u8 *at, u32 value) {
    put16(at, (u16)value);
    put16(at + 2, (u16)(value >> 16));
}
static POCKET_MAYBE_UNUSED void put64(u8 *at, u64 value) {
    put32(at, (u32)value);
    put32(at + 4, (u32)(value >> 32));
}
#endif
/* The head of a block: numbers of 32 bits, each so many bytes in front of it, and a pointer, to the caller's room for a packet during a
 * send. The shape is the kind and the bits. It and `last`, on which all checks stand, are kept twice, once with each bit turned. */
enum { STACK_AT = 4, FREE_AT = 8, SHAPE_AT = 12, SHAPE_TURNED_AT = 16, LAST_AT = 20, LAST_TURNED_AT = 24, BROKEN_AT = 28, ROOM_AT = 32, OUT_AT = 40,
       HEAD_BYTES = 48 };

static POCKET_MAYBE_UNUSED u32 head_of(const u8 *m, u32 at) {
    return get32(m - at);
}

static POCKET_MAYBE_UNUSED void set_head(u8 *m, u32 at, u32 value) {
    put32(m - at, value);
}

static POCKET_MAYBE_UNUSED void set_broken(u8 *m) {
    set_head(m, BROKEN_AT, 1);
}

#define get8(at) (*(at))
#define put8(at, value) (*(at) = (u8)(value))

/* An access of the generated part: what is by further than an address that it reckoned; or than a pointer, in front of which it was
 * checked that so many bytes more than a word lie there (joined.py), or which is that of its frame. */
#ifdef POCKET_UNCHECKED
#define CHECKED(offset, most)
#else
#define CHECKED(offset, most) if (POCKET_SELDOM((offset) > (most))) goto trap;
#endif
#define AT(address, by) ((address) + (u32)((u32)(by) - (u32)BASE))
#define LOAD(bits, cast, to, address, by) do { const u32 offset = AT(address, by); CHECKED(offset, last) to = cast get##bits(m + offset); } while (0)
#define STORE(bits, value, address, by) do { const u32 offset = AT(address, by); CHECKED(offset, last) put##bits(m + offset, (u##bits)(value)); } while (0)
#define reach(to, address, by, more) do { \
        const u32 offset = AT(address, by); \
        CHECKED(offset, last - (u32)(more)) \
        to = m + offset; \
    } while (0)
/* @accesses@ */

/* The accesses by one pointer lie within 256 bytes, and a block has more. */
typedef char joined_accesses_fit[STACK_BYTES > 256 ? 1 : -1];

/* A frame of the stack: whether it fits is asked in every build. */
#define place(address) (m + AT((u32)(address), 0))
#define enter_leaf(local, bytes) do { \
        const u32 stack = head_of(m, STACK_AT); \
        if (POCKET_SELDOM(stack - BASE < (bytes) || stack - BASE > last)) goto trap; \
        local = stack - (bytes); \
    } while (0)
#define enter(local, bytes) do { enter_leaf(local, bytes); set_stack(local); } while (0)
#define set_stack(address) set_head(m, STACK_AT, (u32)(address))
#ifdef POCKET_UNCHECKED
#define call(made) made
#else
#define call(made) do { made; if (POCKET_SELDOM(head_of(m, BROKEN_AT))) goto trap; } while (0)
#endif
#define div_u(to, x, y) do { if ((y) == 0) goto trap; to = (x) / (y); } while (0)
#define rem_u(to, x, y) do { if ((y) == 0) goto trap; to = (x) % (y); } while (0)

/* Whether so many bytes from an address on lie in the block; no byte lies at each of its addresses, and at its end. */
static POCKET_MAYBE_UNUSED bool lie_in(u32 last, u32 address, u32 count) {
    const u32 offset = address - BASE;
    return offset <= last + SLACK && count <= last + SLACK - offset;
}

static POCKET_MAYBE_UNUSED bool filled(u8 *m, u32 last, u32 to, u32 value, u32 count) {
    if (count == 0)
        return true;
    if (!lie_in(last, to, count))
        return false;
    memset(place(to), (int)(value & 0xFF), count);
    return true;
}

static bool copied(u8 *m, u32 last, u32 to, u32 from, u32 count);
#define memory_fill(to, value, count) do { if (!filled(m, last, to, value, count)) goto trap; } while (0)
#define memory_copy(to, from, count) do { if (!copied(m, last, to, from, count)) goto trap; } while (0)

/* The bits of a word: how many are ones, how many zeros come before the first one from either end, and its bytes in the other order. */
static POCKET_MAYBE_UNUSED u64 ones_of(u64 x) {
    x -= x >> 1 & 0x5555555555555555u;
    x = (x & 0x3333333333333333u) + (x >> 2 & 0x3333333333333333u);
    x = (x + (x >> 4)) & 0x0F0F0F0F0F0F0F0Fu;
    return (x * 0x0101010101010101u) >> 56;
}
#if defined(__GNUC__)
#define I64_CTZ(x) ((x) ? (u64)__builtin_ctzll(x) : 64u)
#define I64_CLZ(x) ((x) ? (u64)__builtin_clzll(x) : 64u)
#define I32_CTZ(x) ((x) ? (u32)__builtin_ctz(x) : 32u)
#define I32_CLZ(x) ((x) ? (u32)__builtin_clz(x) : 32u)
#else
static u64 spread(u64 x) {
    x |= x >> 1, x |= x >> 2, x |= x >> 4, x |= x >> 8, x |= x >> 16;
    return x | x >> 32;
}
#define I64_CTZ(x) ones_of(~(x) & ((x) - 1u))
#define I64_CLZ(x) (64u - ones_of(spread(x)))
#define I32_CTZ(x) ((u32)ones_of((u32)(~(x) & ((x) - 1u))))
#define I32_CLZ(x) (32u - (u32)ones_of(spread(x)))
#endif
#if defined(__GNUC__)
#define turn32(x) __builtin_bswap32(x)
#define turn64(x) __builtin_bswap64(x)
#else
static u32 turn32(u32 x) {
    return x << 24 | (x & 0xFF00u) << 8 | (x >> 8 & 0xFF00u) | x >> 24;
}
static u64 turn64(u64 x) {
    return (u64)turn32((u32)x) << 32 | turn32((u32)(x >> 32));
}
#endif
#define I64_POPCNT(x) ones_of(x)
#define I32_POPCNT(x) ((u32)ones_of(x))
#define TURNED(x, y, most) ((x) << ((y) & (most)) | (x) >> ((0u - (y)) & (most)))
#define I64_ROTL(x, y) TURNED(x, y, 63u)
#define I32_ROTL(x, y) TURNED(x, y, 31u)
#define I64_ROTR(x, y) TURNED(x, 0u - (y), 63u)
#define I32_ROTR(x, y) TURNED(x, 0u - (y), 31u)
