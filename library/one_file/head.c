/*
 * pocket.c @VERSION@: senders and receivers of POCKET+ packets (CCSDS 124.0-B-1, in this project's profile) in one C99 file, for any processor
 * of 32 or 64 bits, whichever end comes first:
 *
 *     cc -std=c99 -Os -c pocket.c
 *
 * pocket.h beside it tells the calls. The file needs memcpy, memmove and memset, which it has itself if POCKET_NO_LIBC is defined, and malloc
 * and free unless POCKET_NO_HEAP is defined: with both it takes no header but those that each C99 compiler has.
 * POCKET_NO_RECEIVER, POCKET_NO_SENDER or POCKET_NO_STATES leaves one out. POCKET_UNCHECKED leaves out that each access is checked against the
 * ends of its handle's memory, which saves a tenth to a fourth of the instructions: memory that was damaged may then have any address read or
 * written.
 *
 * Where the proof ends. The functions of the generated part are written in Rattle and proved; this file is made from the module of the
 * proved library and compiled another way: compared with the library, packet for packet and verdict for verdict, not proved. What
 * stands outside the generated part is written by hand. With the big end first the comparison ran on LEON3 under QEMU, without an
 * operating system, and on SPARC, PowerPC and s390x under qemu's user mode; on no board.
 *
 * Made by `make dist` from the sources of the project: no change is made here.
 */
#define POCKET_PROVED_NAMES
#include "pocket.h"
#ifndef POCKET_NO_LIBC
#include <string.h>
#else
/* The three functions that compilers call too. The barrier keeps a compiler from making a call of such a function of its own loop. */
#if defined(__GNUC__)
#define POCKET_BARRIER __asm__ volatile("" ::: "memory");
#else
#define POCKET_BARRIER
#endif
void *memcpy(void *to, const void *from, size_t count);
void *memmove(void *to, const void *from, size_t count);
void *memset(void *to, int value, size_t count);
void *memcpy(void *to, const void *from, size_t count) {
    size_t at;
    for (at = 0; at < count; at++) {
        ((unsigned char *)to)[at] = ((const unsigned char *)from)[at];
        POCKET_BARRIER
    }
    return to;
}
void *memmove(void *to, const void *from, size_t count) {
    if ((uintptr_t)to <= (uintptr_t)from)
        return memcpy(to, from, count);
    while (count-- > 0) {
        ((unsigned char *)to)[count] = ((const unsigned char *)from)[count];
        POCKET_BARRIER
    }
    return to;
}
void *memset(void *to, int value, size_t count) {
    size_t at;
    for (at = 0; at < count; at++) {
        ((unsigned char *)to)[at] = (unsigned char)value;
        POCKET_BARRIER
    }
    return to;
}
#endif
#ifndef POCKET_NO_HEAP
#include <stdlib.h>
#endif
#if defined(POCKET_NO_SENDER) && defined(POCKET_NO_RECEIVER) /* and states alone are none */
#error "POCKET_NO_SENDER and POCKET_NO_RECEIVER leave nothing"
#endif
