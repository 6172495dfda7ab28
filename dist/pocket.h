/*
 * pocket.h: POCKET+ packets (CCSDS 124.0-B-1, in this project's profile) from C99 and C++.
 *
 * One header for two builds. *The library* (make lib) is for x86-64, 64-bit ARM and RISC-V (rv64gc), all with the little end first.
 * *The one file*, pocket.c (make dist), is for any processor of 32 or 64 bits, whichever end comes first; it has the calls of a sender and
 * a receiver, none of a desk, and more that stand at the end of this header.
 *
 * Where the proof ends. The functions behind this header are written in Rattle and proved: what each answers, gives and leaves
 * unchanged. That a call takes no memory, and that pocket_close gives back all of it, is tested and not proved.
 * Not proved are this header, the checks of null before each call and what needs no handle (library/checked.c), strlen, the compiler, the
 * linker, memmove, memset, malloc and free. For x86-64 the library is proved by the gate, and needs a processor of x86-64-v2 (of 2009 and
 * later). For aarch64 it is proved and compiled for that target by the toolchain, outside the gate. For riscv64 it is compiled another
 * way: compared, not proved. So is the one file: its C is made from the library's module, and compared with the library, packet for packet
 * and verdict for verdict, under qemu: with the big end first on LEON3, without an operating system, and on four others; on no board.
 * Accesses of the library on aarch64 and riscv64 are aligned unless it was built with unaligned=1.
 *
 * A sender makes the packet of each input. A receiver judges each packet that arrives: it gives its content, or why there is
 * none. At a desk in memory the nine commands of the program are run, over bytes that are kept under names. Inputs and contents are
 * vectors of 1 to 49,152 bits, the first bit the most significant one of the first byte; the bits after the last one, in the last
 * byte, are 0. The header of a Space Packet (CCSDS 133.0-B-2) is not part of a packet's data.
 *
 * The caller owes what no proof sees: each pointer points to as many bytes as its length says, or to one object of its type;
 * what a call writes stays apart from all else that it is given; a handle is used by one call at a time, and its members, by no
 * one else; a copy of an open handle is not used. Nothing else: each other argument that can be wrong is answered.
 * A handle may be passed from thread to thread, one call at a time, each call seen to end before the next one begins (by a lock, or
 * by the start or join of a thread); different handles may be used by different threads at once.
 * Opening a sender or a receiver takes memory (malloc), all that later calls need: they take none, and a reset begins a new stream in
 * it, which only pocket_close gives back. A desk takes memory as it is used: what a command takes while it runs, and its words, are given
 * back at its end; all that is kept, contents that were replaced too, by pocket_remove of its name or pocket_close. The one file also
 * opens in memory that the caller has.
 *
 * Numbers and counts. The n-th packet of a sender, from 0, has the sequence count n modulo 16,384: pocket_sent tells n before it is
 * sent, pocket_header writes the six bytes before its data. A receiver gives the first arrival the number that its count is, and lists
 * all before it as lost. Each later one has the next greater number of its count. So
 *  - the count of the latest packet means a repeat, and after a gap of exactly 16,384 packets a new packet looks like one;
 *  - a receiver takes no packets out of their order: a packet that comes after a later one is given a number that is 16,384 too great,
 *    and so are all after it. If two of a hundred change places, some 16,382 packets are told lost, and those that come next may be
 *    unwritten. Packets that can overtake each other are kept in a store and judged by the verb late at a desk, with its window=;
 *  - the number of the next packet in order is written + listed of pocket_counts.
 * Data of no byte are an arrival too: they end too early (POCKET_EARLY at bit 0), and their number is not lost, but refused.
 *
 * After a restart on board. A new sender begins a new stream, whatever its counts. A receiver that gets its packets with the counts of
 * the old stream going on can't know that: it refuses them, *or gives contents that were not sent*, since each may be a packet of the
 * old stream. So either the ground resets the receiver, as soon as it knows of the restart; or the board leaves out
 * 16 counts (the greatest level is 15), which tells each receiver that all it knows is gone. It then waits for mask and whole content:
 * the first packets of a sender carry both, one more than their robustness asks; if all these are lost, the next with send_mask and
 * whole. The example is at pocket_sender_open.
 */
#ifndef POCKET_H
#define POCKET_H

#include <stddef.h>
#include <stdint.h>
#ifndef __cplusplus
#include <stdbool.h>
#endif

#ifdef __cplusplus
extern "C" {
#endif

#define POCKET_VERSION "1.1.0"          /* of this header; pocket_version tells that of the library */
#define POCKET_MOST_BITS 49152u         /* of an input */
#define POCKET_MOST_ROBUSTNESS 7u       /* the greatest required robustness */
#define POCKET_MOST_LEVEL 15u           /* the greatest effective robustness level */
#define POCKET_MOST_COUNT 16383u        /* the greatest sequence count */
#define POCKET_MOST_APID 2046u          /* of a Space Packet that is not idle */
#define POCKET_HEADER_BYTES 6u          /* of the header of a Space Packet */
#define POCKET_MOST_WORDS 1000u         /* of a command */
#define POCKET_TEXT_BYTES 128u          /* room for the text of a refusal */
#define POCKET_MOST_DATA 65536u         /* bytes of the data of a packet that arrives */
#define POCKET_INPUT_BYTES(bits) (((size_t)(bits) + 7u) / 8u)                 /* of an input or a content */
#define POCKET_PACKET_BYTES(bits) ((10u * (size_t)(bits) + 43u + 7u) / 8u)    /* room for each packet's data, at most 61,446 */

/* What a call answers. After each answer but POCKET_DONE nothing has changed: not the handle, nor what a call writes, but for the
 * length that pocket_get and pocket_name_from tell with POCKET_NO_ROOM, and after POCKET_BROKEN. */
typedef enum pocket_status {
    POCKET_DONE = 0,
    POCKET_NO_MEMORY = 1,       /* malloc gave no memory, or the caller's memory is too small */
    POCKET_IS_CLOSED = 2,       /* the handle holds nothing */
    POCKET_IS_OPEN = 3,         /* the handle to open holds something */
    POCKET_OTHER_KIND = 4,      /* the handle holds something, and not what the call needs */
    POCKET_BITS = 5,            /* the number of bits is not from 1 to 49,152 */
    POCKET_MASK_LENGTH = 6,     /* the first mask has not POCKET_INPUT_BYTES(bits) bytes */
    POCKET_MASK_SPARE_BIT = 7,  /* a bit after the last one of the first mask is 1 */
    POCKET_INPUT_LENGTH = 8,    /* the input has not POCKET_INPUT_BYTES(bits) bytes */
    POCKET_SPARE_BIT = 9,       /* a bit after the last one of the input is 1 */
    POCKET_ROBUSTNESS = 10,     /* the required robustness is above 7 */
    POCKET_NO_ROOM = 11,        /* fewer than POCKET_PACKET_BYTES(bits) bytes for a packet, POCKET_INPUT_BYTES(bits) for a content,
                                   POCKET_TEXT_BYTES for a text, or as many as are kept under a name, or as a name or a state has */
    POCKET_TOO_MANY = 12,       /* 4,294,967,296 packets were sent or received */
    POCKET_COUNT = 13,          /* the sequence count is above 16,383 */
    POCKET_TOO_LONG = 14,       /* the packet has more than 65,536 bytes of data */
    POCKET_NO_TEXT = 15,        /* a name or a word is not UTF-8 */
    POCKET_TOO_MANY_WORDS = 16, /* the command has 1,000 words */
    POCKET_NOT_KEPT = 17,       /* nothing is kept under the name, or under any that is looked for */
    POCKET_APID = 250,          /* of pocket_header: the APID is above 2046 */
    POCKET_NO_DATA = 251,       /* of pocket_header: a Space Packet has a byte of data at least */
    POCKET_NO_STATE = 252,      /* the bytes are no state, but damaged, cut, or of a later version */
    POCKET_OTHER_STATE = 253,   /* the state is of the other kind, or of another number of bits */
    POCKET_BROKEN = 254,        /* of the one file: the memory of the handle was damaged, as an access outside it or its head tells; it can
                                   then only be closed */
    POCKET_NULL = 255           /* a pointer is null; null with the length 0 is no byte, but for the text of pocket_run and the memory of
                                   pocket_sender_open_in and pocket_receiver_open_in, which are never null */
} pocket_status;

/* A sender, a receiver or a desk, or nothing if all is zero: pocket_handle s = POCKET_NOTHING. */
typedef struct pocket_handle {
    void *at;
    size_t state;
} pocket_handle;
#define POCKET_NOTHING {0, 0}

typedef enum pocket_kind {
    POCKET_WRITTEN = 0,         /* its content is known, and was given */
    POCKET_REPEAT = 1,          /* of the packet before it */
    POCKET_UNSYNCED = 2,        /* nothing is known that it builds on */
    POCKET_GAP = 3,             /* more packets before it are missing than its level allows */
    POCKET_WRONG = 4,           /* a bit of its data is no packet's */
    POCKET_EARLY = 5            /* its data end too early */
} pocket_kind;

/* What is found of a packet that arrived. */
typedef struct pocket_finding {
    uint64_t number;            /* of the packet, from 0; of a repeat that of the latest packet */
    uint64_t first_lost;        /* the first number before it that did not arrive, 0 if none is missing */
    uint64_t lost;              /* how many numbers before it did not arrive */
    uint32_t kind;              /* a pocket_kind */
    uint32_t value;             /* its level at a gap, the number of the bit if wrong, of all bits if early; otherwise 0 */
    bool mask_alone;            /* unsynced or a gap, and its mask became known */
} pocket_finding;

/* The numbers of the arrivals so far. */
typedef struct pocket_tally {
    uint64_t packets;           /* that arrived, repeats too */
    uint64_t written;
    uint64_t repeats;
    uint64_t listed;            /* packets up to the latest arrival that are not written: lost, unsynced, gaps, wrong, early */
} pocket_tally;

/* Opens a sender of inputs of so many bits, with a first mask, or one of zeros if mask_length is 0. Takes memory. After a restart on board,
 * with a ground that goes on, next being the number after that of the last packet before it, or of a later one:
 *
 *     pocket_sender_open(&sender, bits, NULL, 0);
 *     next += 16;                                               (16 counts are left out)
 *     pocket_send(&sender, input, .., 7, data, ..);             (the first eight carry mask and content: seven may be lost)
 *     pocket_header(apid, next++, length, header);
 *
 * POCKET_IS_OPEN, BITS, MASK_LENGTH, MASK_SPARE_BIT, NO_MEMORY. */
pocket_status pocket_checked_sender_open(pocket_handle *handle, uint32_t bits, const uint8_t *mask, size_t mask_length);

/* Begins a new stream: the sender is then as pocket_sender_open makes it for as many bits and this first mask, or one of zeros if
 * mask_length is 0, and its next packet is packet 0. Takes no memory. POCKET_IS_CLOSED, OTHER_KIND, MASK_LENGTH, MASK_SPARE_BIT. */
pocket_status pocket_checked_sender_reset(pocket_handle *handle, const uint8_t *mask, size_t mask_length);

/* Makes the packet of the next input. new_mask (p of the standard): from here on the mask has the bits that turned after the new mask before
 * this one. send_mask (f): the packet carries its mask. whole (r): it carries its whole content, which needs nothing that was sent before;
 * with send_mask it is where a receiver may begin. robustness (R), 0 to 7: how many packets in a row may be lost before this one, at least;
 * a packet whose number is at most its robustness carries mask and content, and has no new mask, whatever is asked. The data are the
 * first *length bytes of data, and *level (V) is how many packets before this one may be missing. Takes no memory.
 * POCKET_IS_CLOSED, OTHER_KIND, INPUT_LENGTH, SPARE_BIT, ROBUSTNESS, NO_ROOM, TOO_MANY: the first that is so. */
pocket_status pocket_checked_send(pocket_handle *handle, const uint8_t *input, size_t input_length, bool new_mask, bool send_mask, bool whole,
                                  uint8_t robustness, uint8_t *data, size_t room, size_t *length, uint8_t *level);

/* Tells how many packets a sender has made: the number of its next one. Takes no memory. POCKET_IS_CLOSED, OTHER_KIND. */
pocket_status pocket_checked_sent(pocket_handle *handle, uint64_t *packets);

/* Writes the six bytes that stand before the data of a packet in a Space Packet of telemetry, unsegmented and without a secondary header:
 * its APID, 0 to 2046, its sequence count, which is the number of the packet modulo 16,384, and the number of its data bytes, 1 to 65,536.
 * POCKET_APID, NO_DATA, TOO_LONG: the first that is so. */
pocket_status pocket_header(uint16_t apid, uint64_t number, size_t length, uint8_t *header);

/* Opens a receiver of contents of so many bits. Takes memory. POCKET_IS_OPEN, BITS, NO_MEMORY. */
pocket_status pocket_checked_receiver_open(pocket_handle *handle, uint32_t bits);

/* Begins a new stream: the receiver is then as pocket_receiver_open makes it for as many bits, and its counts are 0. Takes no memory.
 * POCKET_IS_CLOSED, OTHER_KIND. */
pocket_status pocket_checked_receiver_reset(pocket_handle *handle);

/* Judges the next packet that arrived, by its sequence count and its data: *finding tells what is found, and if it is written the
 * content is in the first POCKET_INPUT_BYTES(bits) bytes of content; otherwise content is as it was. Takes no memory.
 * POCKET_IS_CLOSED, OTHER_KIND, COUNT, TOO_LONG, NO_ROOM, TOO_MANY: the first that is so. */
pocket_status pocket_checked_receive(pocket_handle *handle, uint16_t count, const uint8_t *data, size_t length, uint8_t *content, size_t room,
                                     pocket_finding *finding);

/* Tells the numbers of a receiver's arrivals so far. Takes no memory. POCKET_IS_CLOSED, OTHER_KIND. */
pocket_status pocket_checked_counts(pocket_handle *handle, pocket_tally *tally);

/* Tells the number of bits of a sender or a receiver. Takes no memory. POCKET_IS_CLOSED, OTHER_KIND; of the one file BROKEN, as each call. */
pocket_status pocket_checked_bits(pocket_handle *handle, uint32_t *bits);

/* ---- States: what a sender or a receiver holds, as bytes from which another one goes on, on any processor ----
 * A state of version 1 is read by all later releases. The most bytes that a state of so many bits has, of a sender or of a receiver: as a
 * macro for an array, and 0 by the call if the bits are not from 1 to 49,152 or the kind is none of the two. */
#define POCKET_OF_SENDER 1u
#define POCKET_OF_RECEIVER 2u
#define POCKET_SENDER_STATE_BYTES(bits) (47u + 21u * POCKET_INPUT_BYTES(bits))
#define POCKET_RECEIVER_STATE_BYTES(bits) (74u + 3u * POCKET_INPUT_BYTES(bits))
size_t pocket_state_bytes(uint32_t bits, uint32_t kind);

/* Gives what a sender or a receiver holds, as the first *length bytes of state, which has room for the most. Senders that hold the same, and
 * receivers, have the same bytes. Takes no memory. POCKET_IS_CLOSED, OTHER_KIND of a desk, NO_ROOM: the first that is so. */
pocket_status pocket_checked_save(pocket_handle *handle, uint8_t *state, size_t room, size_t *length);

/* Puts a state in place of what an open handle of its kind and bits holds, which then goes on as the saved one would have. Each state that is
 * taken is within the bounds of a sender or a receiver; the sum at its end finds damage, and doesn't tell who wrote it. Takes no memory.
 * A sender that goes on from a state older than its last packet would contradict what it sent. So 16 counts are left out after the last packet
 * that may have been sent, not after the state: if it is saved every P packets, with the number next that the next header then has, go on
 * from it by next += P + 16, and ask for the mask and the whole content in the next packets, one more than may be lost.
 * POCKET_IS_CLOSED, OTHER_KIND of a desk, NO_STATE, OTHER_STATE: one that is so. */
pocket_status pocket_checked_load(pocket_handle *handle, const uint8_t *state, size_t length);

/* Opens a desk at which nothing is kept, and there is no word. Takes memory. POCKET_IS_OPEN, NO_MEMORY. */
pocket_status pocket_checked_desk_open(pocket_handle *handle);

/* Keeps bytes at a desk under a name, in place of what was kept under it. Takes memory.
 * POCKET_NO_TEXT, IS_CLOSED, OTHER_KIND, NO_MEMORY: the first that is so. */
pocket_status pocket_checked_put(pocket_handle *handle, const char *name, const uint8_t *bytes, size_t length);

/* Adds a word to those of the next command: first the verb, then its words in any order, as in compress in=A out=B bits=64 apid=100
 * robust=2. Takes memory. POCKET_NO_TEXT, IS_CLOSED, OTHER_KIND, TOO_MANY_WORDS, NO_MEMORY: the first that is so. */
pocket_status pocket_checked_word(pocket_handle *handle, const char *word);

/* Runs the command of the words, which reads what is kept under the names that it has, and keeps what it writes under others. Then
 * there is no word. *exit_number is the exit number of the program: 0 if the command was done, otherwise it was refused, and the first
 * *length bytes of text say why: "reading failed" (1) only if the words name something to read under which nothing is kept, "writing
 * failed" (1) and "out of memory" (5) for want of memory. A refused command keeps nothing under its names; but if writing failed, the
 * output of a command with a report may be the new one, and the report the one before. Takes memory, and a stack of at most 110,000 bytes
 * (tested on x86-64).
 * POCKET_NO_ROOM, IS_CLOSED, OTHER_KIND: the first that is so. */
pocket_status pocket_checked_run(pocket_handle *handle, char *text, size_t room, size_t *length, uint8_t *exit_number);

/* Gives what is kept under a name, no byte if nothing is, in the first *length bytes of bytes. If there is no room for it, *length tells
 * how much is needed. Takes no memory. POCKET_NO_TEXT, IS_CLOSED, OTHER_KIND, NO_ROOM: the first that is so. */
pocket_status pocket_checked_get(pocket_handle *handle, const char *name, uint8_t *bytes, size_t room, size_t *length);

/* Removes what is kept at a desk under a name, and gives back the memory of all that was kept under it, also before. Takes no memory.
 * POCKET_NO_TEXT, IS_CLOSED, OTHER_KIND, NOT_KEPT: the first that is so. */
pocket_status pocket_checked_remove(pocket_handle *handle, const char *name);

/* Gives the first name, in the order of their bytes, under which something is kept at a desk and that is not below the from_length bytes
 * of from, as the first *length bytes of name, with no zero after them. If there is no room for it, *length tells how much is needed. To
 * go over all names, begin from no byte, and go on from each name with a zero byte after it. Takes no memory.
 * POCKET_IS_CLOSED, OTHER_KIND, NOT_KEPT if there is no such name, NO_ROOM: the first that is so. */
pocket_status pocket_checked_name_from(pocket_handle *handle, const char *from, size_t from_length, char *name, size_t room, size_t *length);

/* Gives back all memory of what the handle holds. It then holds nothing, and may be opened again. POCKET_IS_CLOSED. */
pocket_status pocket_checked_close(pocket_handle *handle);

/* The version of the library, as POCKET_VERSION is that of this header; and what an answer means, in one line. */
const char *pocket_version(void);
const char *pocket_status_text(uint32_t status);

/* ---- What the one file pocket.c alone has: a program that is linked with the library doesn't find it ---- */

/* The bytes of memory that an open sender or receiver of so many bits takes, for a static array: those that pocket_sender_bytes and
 * pocket_receiver_bytes give. The calls have a stack of their own in it, deep enough for each; besides it they take C's stack. */
#define POCKET_STACK_BYTES 512u
#define POCKET_FIXED_BYTES (POCKET_STACK_BYTES + 15u + 48u + 80u + 8u)
#define POCKET_UP_TO_EIGHT(bytes) (((size_t)(bytes) + 7u) / 8u * 8u)
#define POCKET_VECTOR_BYTES(bits) (((size_t)(bits) + 63u) / 64u * 8u)
#define POCKET_SENDER_HEAP(bits) (31u * POCKET_VECTOR_BYTES(bits) + 2u * ((10u * (size_t)(bits) + 43u) / 64u * 8u + 16u) + 1080u)
#define POCKET_RECEIVER_HEAP(bits) (18u * POCKET_VECTOR_BYTES(bits) + 568u)
#define POCKET_SENDER_BYTES(bits) \
    (POCKET_FIXED_BYTES + POCKET_SENDER_HEAP(bits) + POCKET_UP_TO_EIGHT(POCKET_INPUT_BYTES(bits) + 1u))
#define POCKET_RECEIVER_BYTES(bits) \
    (POCKET_FIXED_BYTES + POCKET_RECEIVER_HEAP(bits) + POCKET_UP_TO_EIGHT(POCKET_INPUT_BYTES(bits) + 1u) + \
     POCKET_UP_TO_EIGHT(POCKET_PACKET_BYTES(bits) + 8u))

/* The bytes of memory, or 0 if the number of bits is not from 1 to 49,152. */
size_t pocket_sender_bytes(uint32_t bits);
size_t pocket_receiver_bytes(uint32_t bits);

/* Opens a sender as pocket_sender_open does, in memory of the caller, aligned or not, which is the handle's own until it is closed. With
 * POCKET_NO_HEAP there is no other way. POCKET_IS_OPEN, BITS, MASK_LENGTH, MASK_SPARE_BIT, NO_MEMORY if size is below
 * pocket_sender_bytes(bits). */
pocket_status pocket_checked_sender_open_in(pocket_handle *handle, void *memory, size_t size, uint32_t bits, const uint8_t *mask,
                                            size_t mask_length);

/* Opens a receiver in memory of the caller. POCKET_IS_OPEN, BITS, NO_MEMORY if size is below pocket_receiver_bytes(bits). */
pocket_status pocket_checked_receiver_open_in(pocket_handle *handle, void *memory, size_t size, uint32_t bits);

/* ---- Names ----
 * Each call is a function of the library by its checked name, which other languages find too (dlsym, bindgen, cgo, Ada). By its plain name
 * it is the same function: by a macro in C, by an inline function in C++, where members of classes keep their names. The library also has a
 * function by each plain name, the proved one, to which no null may be given: for who calls those, POCKET_PROVED_NAMES declares them. */
#ifdef POCKET_PROVED_NAMES
uint32_t pocket_sender_open(pocket_handle *handle, uint32_t bits, const uint8_t *mask, size_t mask_length);
uint32_t pocket_sender_reset(pocket_handle *handle, const uint8_t *mask, size_t mask_length);
uint32_t pocket_send(pocket_handle *handle, const uint8_t *input, size_t input_length, bool new_mask, bool send_mask, bool whole,
                     uint8_t robustness, uint8_t *data, size_t room, size_t *length, uint8_t *level);
uint32_t pocket_sent(pocket_handle *handle, uint64_t *packets);
uint32_t pocket_receiver_open(pocket_handle *handle, uint32_t bits);
uint32_t pocket_receiver_reset(pocket_handle *handle);
uint32_t pocket_receive(pocket_handle *handle, uint16_t count, const uint8_t *data, size_t length, uint8_t *content, size_t room,
                        pocket_finding *finding);
uint32_t pocket_counts(pocket_handle *handle, pocket_tally *tally);
uint32_t pocket_desk_open(pocket_handle *handle);
uint32_t pocket_put(pocket_handle *handle, const uint8_t *name, size_t name_length, const uint8_t *bytes, size_t length);
uint32_t pocket_word(pocket_handle *handle, const uint8_t *word, size_t length);
uint32_t pocket_run(pocket_handle *handle, uint8_t *text, size_t room, size_t *length, uint8_t *exit_number);
uint32_t pocket_get(pocket_handle *handle, const uint8_t *name, size_t name_length, uint8_t *bytes, size_t room, size_t *length);
uint32_t pocket_remove(pocket_handle *handle, const uint8_t *name, size_t name_length);
uint32_t pocket_name_from(pocket_handle *handle, const uint8_t *from, size_t from_length, uint8_t *name, size_t room, size_t *length);
uint32_t pocket_bits(pocket_handle *handle, uint32_t *bits);
uint32_t pocket_close(pocket_handle *handle);
uint32_t pocket_sender_open_in(pocket_handle *handle, void *memory, size_t size, uint32_t bits, const uint8_t *mask, size_t mask_length);
uint32_t pocket_receiver_open_in(pocket_handle *handle, void *memory, size_t size, uint32_t bits);
uint32_t pocket_save(pocket_handle *handle, uint8_t *state, size_t room, size_t *length);
uint32_t pocket_load(pocket_handle *handle, const uint8_t *state, size_t length);
#elif defined(__cplusplus)
}
#define POCKET_NAME(call, parameters, arguments) \
    inline pocket_status pocket_##call parameters { return pocket_checked_##call arguments; }
POCKET_NAME(sender_open, (pocket_handle *handle, uint32_t bits, const uint8_t *mask, size_t mask_length), (handle, bits, mask,
            mask_length))
POCKET_NAME(sender_reset, (pocket_handle *handle, const uint8_t *mask, size_t mask_length), (handle, mask, mask_length))
POCKET_NAME(send, (pocket_handle *handle, const uint8_t *input, size_t input_length, bool new_mask, bool send_mask, bool whole, uint8_t
            robustness, uint8_t *data, size_t room, size_t *length, uint8_t *level), (handle, input, input_length, new_mask, send_mask,
            whole, robustness, data, room, length, level))
POCKET_NAME(sent, (pocket_handle *handle, uint64_t *packets), (handle, packets))
POCKET_NAME(receiver_open, (pocket_handle *handle, uint32_t bits), (handle, bits))
POCKET_NAME(receiver_reset, (pocket_handle *handle), (handle))
POCKET_NAME(receive, (pocket_handle *handle, uint16_t count, const uint8_t *data, size_t length, uint8_t *content, size_t room,
            pocket_finding *finding), (handle, count, data, length, content, room, finding))
POCKET_NAME(counts, (pocket_handle *handle, pocket_tally *tally), (handle, tally))
POCKET_NAME(bits, (pocket_handle *handle, uint32_t *bits), (handle, bits))
POCKET_NAME(desk_open, (pocket_handle *handle), (handle))
POCKET_NAME(put, (pocket_handle *handle, const char *name, const uint8_t *bytes, size_t length), (handle, name, bytes, length))
POCKET_NAME(word, (pocket_handle *handle, const char *word), (handle, word))
POCKET_NAME(run, (pocket_handle *handle, char *text, size_t room, size_t *length, uint8_t *exit_number), (handle, text, room, length,
            exit_number))
POCKET_NAME(get, (pocket_handle *handle, const char *name, uint8_t *bytes, size_t room, size_t *length), (handle, name, bytes, room,
            length))
POCKET_NAME(remove, (pocket_handle *handle, const char *name), (handle, name))
POCKET_NAME(name_from, (pocket_handle *handle, const char *from, size_t from_length, char *name, size_t room, size_t *length), (handle,
            from, from_length, name, room, length))
POCKET_NAME(close, (pocket_handle *handle), (handle))
POCKET_NAME(sender_open_in, (pocket_handle *handle, void *memory, size_t size, uint32_t bits, const uint8_t *mask, size_t mask_length),
            (handle, memory, size, bits, mask, mask_length))
POCKET_NAME(receiver_open_in, (pocket_handle *handle, void *memory, size_t size, uint32_t bits), (handle, memory, size, bits))
POCKET_NAME(save, (pocket_handle *handle, uint8_t *state, size_t room, size_t *length), (handle, state, room, length))
POCKET_NAME(load, (pocket_handle *handle, const uint8_t *state, size_t length), (handle, state, length))
#undef POCKET_NAME
extern "C" {
#else
#define pocket_sender_open pocket_checked_sender_open
#define pocket_sender_reset pocket_checked_sender_reset
#define pocket_send pocket_checked_send
#define pocket_sent pocket_checked_sent
#define pocket_receiver_open pocket_checked_receiver_open
#define pocket_receiver_reset pocket_checked_receiver_reset
#define pocket_receive pocket_checked_receive
#define pocket_counts pocket_checked_counts
#define pocket_bits pocket_checked_bits
#define pocket_desk_open pocket_checked_desk_open
#define pocket_put pocket_checked_put
#define pocket_word pocket_checked_word
#define pocket_run pocket_checked_run
#define pocket_get pocket_checked_get
#define pocket_remove pocket_checked_remove
#define pocket_name_from pocket_checked_name_from
#define pocket_close pocket_checked_close
#define pocket_sender_open_in pocket_checked_sender_open_in
#define pocket_receiver_open_in pocket_checked_receiver_open_in
#define pocket_save pocket_checked_save
#define pocket_load pocket_checked_load
#endif

#ifdef __cplusplus
}
#endif
#endif
