/* The accesses of what saves and loads a state: in the block, or in the state, which is the caller's. */
#undef LOAD
#undef STORE
#undef memory_fill
#define LOAD(bits, cast, to, address, by) do { \
        const u8 *const found = where(m, last, (u32)(address) + (u32)(by), (bits) / 8u); \
        if (found == NULL) goto trap; \
        to = cast get##bits(found); \
    } while (0)
#define STORE(bits, value, address, by) do { \
        u8 *const found = where(m, last, (u32)(address) + (u32)(by), (bits) / 8u); \
        if (found == NULL) goto trap; \
        put##bits(found, (u##bits)(value)); \
    } while (0)
#define memory_fill(to, value, count) do { \
        u8 *const found = where(m, last, (u32)(to), (u32)(count)); \
        if (found == NULL) goto trap; \
        memset(found, (int)((value) & 0xFF), (u32)(count)); \
    } while (0)
