/* Sends packets and receives them, for bench/search.py, and calls `mark` before and after each call, where a plugin of qemu (instructions.c)
 * tells how many instructions ran until then.
 *
 * A trial is a number of bits, how many packets are sent, and steps that repeat: each has the flags (new mask 1, the mask 2, the whole content
 * 4), the robustness, and the 64 bits that turn in the input, again and again over its length. On a machine without an operating system the
 * trials are those of a file (TRIALS); else each is a line of standard input: BITS PACKETS STEPS, and of each step FLAGS ROBUSTNESS TURNED.
 */
#include <pocket.h>

enum { MOST_STEPS = 16, MOST_BYTES = 6144 };
struct step { uint8_t flags, robustness; uint64_t turned; };
struct trial { uint32_t bits, packets, steps; struct step step[MOST_STEPS]; };

static uint8_t input[MOST_BYTES], content[MOST_BYTES], data[POCKET_PACKET_BYTES(POCKET_MOST_BITS)];
static pocket_handle sender = POCKET_NOTHING, receiver = POCKET_NOTHING;
static size_t length;

void mark(void);
__attribute__((noinline)) void mark(void)
{
    __asm__ volatile("" ::: "memory");
}

static bool opened(uint32_t bits)
{
#ifdef POCKET_NO_HEAP
    static uint8_t of_sender[POCKET_SENDER_BYTES(POCKET_MOST_BITS)], of_receiver[POCKET_RECEIVER_BYTES(POCKET_MOST_BITS)];
    return !pocket_sender_open_in(&sender, of_sender, sizeof of_sender, bits, NULL, 0) && !pocket_receiver_open_in(&receiver, of_receiver, sizeof of_receiver, bits);
#else
    return !pocket_sender_open(&sender, bits, NULL, 0) && !pocket_receiver_open(&receiver, bits);
#endif
}

/* Sends and receives an input; whether it came as it was. */
static bool handed_on(uint32_t bytes, const struct step *step, uint32_t number)
{
    pocket_finding finding;
    uint32_t at = 0;
    uint8_t level;
    mark();
    if (pocket_send(&sender, input, bytes, step->flags & 1, step->flags & 2, step->flags & 4, step->robustness, data, sizeof data, &length, &level))
        return false;
    mark();
    if (pocket_receive(&receiver, (uint16_t)(number % 16384), data, length, content, sizeof content, &finding) || finding.kind)
        return false;
    mark();
    while (at < bytes && content[at] == input[at])
        at++;
    return at == bytes;
}

static bool tried(const struct trial *trial)
{
    const uint32_t bytes = (uint32_t)POCKET_INPUT_BYTES(trial->bits);
    uint32_t number, at;
    bool went = opened(trial->bits);
    for (at = 0; at < bytes; at++)
        input[at] = 0;
    for (number = 0; number < trial->packets && went; number++) {
        const struct step *const step = &trial->step[number % trial->steps];
        for (at = 0; at < bytes; at++)
            input[at] ^= (uint8_t)(step->turned >> (56 - 8 * (at % 8)));
        went = handed_on(bytes, step, number);
    }
    return pocket_close(&sender) == 0 && pocket_close(&receiver) == 0 && went;
}

#ifdef TRIALS
static const struct trial trials[] = {
#include TRIALS
};

int main(void)
{
    uint32_t at;
    for (at = 0; at < sizeof trials / sizeof *trials; at++)
        if (!tried(&trials[at]))
            return 1;
    return 0;
}
#else
#include <inttypes.h>
#include <stdio.h>

int main(void)
{
    static struct trial trial;
    while (scanf("%" SCNu32 "%" SCNu32 "%" SCNu32, &trial.bits, &trial.packets, &trial.steps) == 3) {
        for (uint32_t at = 0; at < trial.steps && at < MOST_STEPS; at++)
            if (scanf("%" SCNu8 "%" SCNu8 "%" SCNx64, &trial.step[at].flags, &trial.step[at].robustness, &trial.step[at].turned) != 3)
                return 2;
        if (!tried(&trial))
            return 1;
    }
    return 0;
}
#endif
