/* The heap that the library asks for memory: malloc, realloc and free of the target's C library.
 *
 * The toolchain has this for its own targets alone. What it owes: a place for n bytes that nothing else uses, of an alignment of at most
 * 16, or an answer that there is none; and that a place that grows or shrinks keeps what was in it. On board, put another heap here: it is
 * asked by the calls that open something and by those of a desk, never by a send, a receive or a reset.
 */
#include <stdbool.h>
#include <stddef.h>
#include <stdlib.h>

/* What is answered: whether there is a place, and where. */
struct place {
    bool found;
    void *at;
};

static struct place told(void *at) {
    return (struct place){ at != NULL, at };
}

struct place rattle_alloc(size_t bytes, size_t align) {
    return told(malloc(bytes ? bytes : align));
}

struct place rattle_realloc(void *at, size_t old, size_t bytes, size_t align) {
    (void)old;
    return told(realloc(at, bytes ? bytes : align));
}

void rattle_dealloc(void *at) {
    free(at);
}
