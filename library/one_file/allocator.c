/* The heap of the program, written by hand: a place has 16 bytes more than a power of two, the first of which tell the power; one that is given
 * back waits for the next of its power. If there is no room, `wanted` tells that the run has to begin anew with more. */
enum { FREE_POWERS = 32, LEAST_POWER = 4, MOST_POWER = 30 };

static u32 free_places[FREE_POWERS];
static bool wanted;

static bool copied(u8 *m, u32 last, u32 to, u32 from, u32 count) {
    if (count == 0)
        return true;
    if (!lie_in(last, to, count) || !lie_in(last, from, count))
        return false;
    memmove(place(to), place(from), count);
    return true;
}

/* A place for so many bytes, or 0. */
static u32 taken(u8 *m, u32 last, u64 bytes) {
    u32 power = LEAST_POWER, at;
    while (power <= MOST_POWER && (u64)1 << power < bytes)
        power++;
    if (power > MOST_POWER)
        return wanted = true, 0u;
    at = free_places[power];
    if (at != 0) {
        free_places[power] = get32(place(at));
        return at;
    }
    at = head_of(m, FREE_AT) + 16u;
    if (!lie_in(last, at, (u32)1 << power))
        return wanted = true, 0u;
    put32(place(at - 16u), power);
    set_head(m, FREE_AT, at + ((u32)1 << power));
    return at;
}

/* Tells the generated part what it was given. */
static void told_place(u8 *m, u32 last, u64 told, u32 at) {
    if (!lie_in(last, (u32)told, 16u)) {
        set_broken(m);
        return;
    }
    put64(place(told), at != 0);
    put64(place(told) + 8, at);
}

static void heap_alloc(u8 *m, u32 last, u64 told, u64 bytes, u64 align) {
    (void)align;
    told_place(m, last, told, taken(m, last, bytes));
}

static void heap_dealloc(u8 *m, u32 last, u64 at) {
    u32 power;
    if (at < 16u || !lie_in(last, (u32)at - 16u, 32u) || (power = get32(place(at - 16u))) >= FREE_POWERS) {
        set_broken(m);
        return;
    }
    put32(place(at), free_places[power]);
    free_places[power] = (u32)at;
}

/* A place that grows or shrinks keeps what was in it. */
static void heap_realloc(u8 *m, u32 last, u64 told, u64 at, u64 old, u64 bytes, u64 align) {
    u32 moved;
    (void)align;
    if (at < 16u || !lie_in(last, (u32)at - 16u, 32u) || get32(place(at - 16u)) >= FREE_POWERS) {
        set_broken(m);
        return;
    }
    if (bytes <= (u64)1 << get32(place(at - 16u))) {
        told_place(m, last, told, (u32)at);
        return;
    }
    moved = taken(m, last, bytes);
    if (moved != 0) {
        if (!copied(m, last, moved, (u32)at, (u32)(old < bytes ? old : bytes)))
            set_broken(m);
        heap_dealloc(m, last, at);
    }
    told_place(m, last, told, moved);
}
