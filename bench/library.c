/* library BITS RECORDING PACKETS WHAT FLAGS: sends the packets of a recording, and receives them, for bench/library.py and bench/one_file.py; by
 * the library or the one file, whichever it is linked with.
 *
 * WHAT: inputs, which reads these alone; send; receive, of all that is sent; stack, which tells how deep each call goes, what it calls of the C
 * library included, and what the heap was asked for: that is seen if the library is linked with -Wl,--wrap=rattle_alloc. FLAGS: never; always,
 * the mask and the whole content; planned, a new mask each 20 packets, the mask each 50, the whole content each 100. The required robustness
 * is 2. What is received is compared with its input. Instructions are counted from outside, as the difference of runs.
 */
#define _XOPEN_SOURCE 700
#include <pocket.h>
#include "depth.h"
#include <stdio.h>
#include <stdlib.h>

struct place { bool found; void *at; };
__attribute__((weak)) struct place __real_rattle_alloc(size_t bytes, size_t align);
struct place __wrap_rattle_alloc(size_t bytes, size_t align);

static uint8_t input[6144], data[1 << 16], content[6144];
static uint32_t bits, status, number;
static size_t asked, bytes, length;
static bool always, planned, looks;
static pocket_handle sender = POCKET_NOTHING, receiver = POCKET_NOTHING;

struct place __wrap_rattle_alloc(size_t size, size_t align)
{
    asked += size;
    return __real_rattle_alloc(size, align);
}

static bool is(const char *one, const char *other)
{
    return strcmp(one, other) == 0;
}

static void open_sender(void)
{
    status |= pocket_sender_open(&sender, bits, NULL, 0);
}

static void open_receiver(void)
{
    status |= pocket_receiver_open(&receiver, bits);
}

static void send_one(void)
{
    uint8_t level;
    const bool may = planned && number > 0;
    status |= pocket_send(&sender, input, bytes, may && number % 20 == 0, always || (may && number % 50 == 0), always || (may && number % 100 == 0), 2,
                          data, sizeof data, &length, &level);
}

static void receive_one(void)
{
    pocket_finding finding;
    status |= pocket_receive(&receiver, (uint16_t)(number % 16384), data, length, content, sizeof content, &finding);
    status |= finding.kind;
}

static void nothing(void)
{
}

/* Makes a call, and if its depth is asked for keeps that of the deepest. */
static void make(void (*call)(void), size_t *deepest)
{
    size_t depth = 0;
    if (looks)
        depth = depth_of(call);
    else
        call();
    *deepest = depth > *deepest ? depth : *deepest;
}

int main(int words, char **word)
{
    size_t deepest[4] = { 0 }, base, of_sender, of_receiver, longest = 0;
    FILE *from;
    if (words != 6 || (from = fopen(word[2], "rb")) == NULL)
        return 2;
    bits = (uint32_t)strtoul(word[1], NULL, 10);
    bytes = POCKET_INPUT_BYTES(bits);
    looks = is(word[4], "stack");
    always = is(word[5], "always");
    planned = is(word[5], "planned");
    uint32_t packets = (uint32_t)strtoul(word[3], NULL, 10);
    bool receives = looks || is(word[4], "receive"), sends = receives || is(word[4], "send");
    base = looks ? depth_of(nothing) : 0;
    make(open_sender, &deepest[0]);
    of_sender = asked;
    make(open_receiver, &deepest[1]);
    of_receiver = asked - of_sender;
    for (number = 0; number < packets && !status && fread(input, bytes, 1, from) == 1; number++) {
        /* (in each run as many calls are made and bytes compared, so that these cost the same) */
        make(sends ? send_one : nothing, &deepest[2]);
        make(receives ? receive_one : nothing, &deepest[3]);
        if (memcmp(content, receives ? input : content, bytes) != 0)
            return 3;
        longest = length > longest ? length : longest;
    }
    if (looks)
        printf("sender %zu receiver %zu later %zu data %zu opening %zu send %zu receive %zu\n", of_sender, of_receiver,
               asked - of_sender - of_receiver, longest, (deepest[0] > deepest[1] ? deepest[0] : deepest[1]) - base, deepest[2] - base,
               deepest[3] - base);
    return status != 0 || number != packets;
}
