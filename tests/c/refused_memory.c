/* Each allocation refused in turn: the opening answers it, the handle holds nothing, nothing is leaked; and no later call takes any, nor does a reset.
 * Then each allocation of a desk, from its opening to the end of a command: the call answers it, or the command is refused with 5, or
 * with 1 if it is what it writes that can't be kept, and nothing is kept then. A get, a name and a removal take none; a removal gives some back.
 * Linked with --wrap=malloc,--wrap=realloc,--wrap=free. The numbers of bits are its words; it prints the bytes of each. With POCKET_NO_DESK
 * it takes no desk, as the one file has none. */
#include "pocket.h"
#include "check.h"

void *__real_malloc(size_t);
void *__real_realloc(void *, size_t);
void __real_free(void *);
void *__wrap_malloc(size_t);
void *__wrap_realloc(void *, size_t);
void __wrap_free(void *);

static long calls, fails_at, held;
static size_t bytes;

void *__wrap_malloc(size_t size)
{
    if (++calls == fails_at)
        return NULL;
    held += 1;
    bytes += size;
    return __real_malloc(size);
}

void *__wrap_realloc(void *at, size_t size)
{
    if (++calls == fails_at)
        return NULL;
    bytes += size;
    return __real_realloc(at, size);
}

void __wrap_free(void *at)
{
    held -= at != NULL;
    __real_free(at);
}

static uint8_t state[POCKET_SENDER_STATE_BYTES(POCKET_MOST_BITS)], input[POCKET_INPUT_BYTES(POCKET_MOST_BITS)], data[POCKET_PACKET_BYTES(POCKET_MOST_BITS)], content[sizeof input];
#define check(right) check(right, "refused memory", __LINE__)

static pocket_status opened(pocket_handle *handle, uint32_t bits, bool sends)
{
    calls = 0, bytes = 0;
    return sends ? pocket_sender_open(handle, bits, NULL, 0) : pocket_receiver_open(handle, bits);
}

/* Opens with each allocation refused in turn, and at last with none. Gives the bytes taken. */
static size_t open_at_last(pocket_handle *handle, uint32_t bits, bool sends)
{
    pocket_status status;

    for (fails_at = 1;; fails_at += 1) {
        status = opened(handle, bits, sends);
        if (calls < fails_at)
            break;
        check(status == POCKET_NO_MEMORY && handle->at == NULL && handle->state == 0 && held == 0);
    }
    check(status == POCKET_DONE && fails_at > 1);
    return bytes;
}

/* Two hundred packets are sent and received as they were, and no memory is taken for them. */
static void hands_on(pocket_handle *sender, pocket_handle *receiver, uint32_t bits)
{
    const long before = held;
    size_t length;
    uint8_t level;
    pocket_finding finding;
    pocket_tally tally;
    uint64_t sent;
    uint32_t t;

    calls = 0;
    for (t = 0; t < 200; t++) {
        input[0] = (uint8_t)(t << 7);
        check(pocket_send(sender, input, POCKET_INPUT_BYTES(bits), t % 7 == 0, t % 5 == 0, t % 9 == 0, (uint8_t)(t % 8), data,
                          sizeof data, &length, &level) == POCKET_DONE);
        check(pocket_receive(receiver, (uint16_t)t, data, length, content, sizeof content, &finding) == POCKET_DONE);
        check(finding.kind == POCKET_WRITTEN && content[0] == input[0]);
    }
    check(pocket_counts(receiver, &tally) == POCKET_DONE && tally.packets == 200 && tally.written == 200);
    check(pocket_sent(sender, &sent) == POCKET_DONE && sent == 200 && pocket_bits(sender, &t) == POCKET_DONE && t == bits);
    check(pocket_save(sender, state, sizeof state, &length) == POCKET_DONE && pocket_load(sender, state, length) == POCKET_DONE);
    check(pocket_save(receiver, state, sizeof state, &length) == POCKET_DONE && pocket_load(receiver, state, length) == POCKET_DONE);
    check(calls == 0 && held == before);
}

#ifdef POCKET_NO_DESK
/* Memory of the caller, which the one file alone takes: a byte too little is refused, and what else is wrong is told first. */
static void given_memory(void)
{
    static uint8_t memory[POCKET_SENDER_BYTES(13)];
    static const uint8_t mask[2] = {0x0F, 0xF8}, spare[2] = {0x0F, 0xFC};
    pocket_handle handle = POCKET_NOTHING;
    const size_t sender = pocket_sender_bytes(13), receiver = pocket_receiver_bytes(13);

    check(sender == sizeof memory && receiver == POCKET_RECEIVER_BYTES(13) && receiver < sender);
    check(pocket_sender_bytes(0) == 0 && pocket_receiver_bytes(POCKET_MOST_BITS + 1) == 0);
    check(pocket_sender_open_in(&handle, memory, sender - 1, 13, mask, 2) == POCKET_NO_MEMORY);
    check(pocket_receiver_open_in(&handle, memory, receiver - 1, 13) == POCKET_NO_MEMORY);
    check(pocket_sender_open_in(&handle, memory, 0, 13, spare, 2) == POCKET_MASK_SPARE_BIT);
    check(pocket_sender_open_in(&handle, memory, 0, 13, mask, 1) == POCKET_MASK_LENGTH);
    check(pocket_sender_open_in(&handle, memory, 0, 0, NULL, 0) == POCKET_BITS && pocket_receiver_open_in(&handle, memory, 0, 0) == POCKET_BITS);
    check(pocket_sender_open_in(NULL, memory, sender, 13, mask, 2) == POCKET_NULL && pocket_receiver_open_in(&handle, NULL, receiver, 13) == POCKET_NULL);
    check(pocket_sender_open_in(&handle, NULL, 0, 13, mask, 2) == POCKET_NULL && pocket_receiver_open_in(&handle, NULL, 0, 13) == POCKET_NULL);
    check(handle.at == NULL && pocket_sender_open_in(&handle, memory, sender, 13, mask, 2) == POCKET_DONE);
    check(pocket_sender_open_in(&handle, memory, sender, 13, mask, 2) == POCKET_IS_OPEN);
    check(pocket_receiver_open_in(&handle, memory, receiver, 13) == POCKET_IS_OPEN && pocket_close(&handle) == POCKET_DONE);
    check(pocket_receiver_open_in(&handle, memory, receiver, 13) == POCKET_DONE && pocket_close(&handle) == POCKET_DONE);
}
#else
/* Opens a desk and runs a command at it, to the first answer that is not POCKET_DONE. */
static pocket_status command(pocket_handle *desk, uint8_t *exit_number)
{
    static const char *const words[] = {"compress", "in=x", "out=s", "bits=8", "apid=100", "robust=1"};
    static const uint8_t inputs[4] = {0xB0, 0xB1, 0xB1, 0xB3};
    char text[POCKET_TEXT_BYTES];
    size_t length, i;
    pocket_status status = pocket_desk_open(desk);

    if (status == POCKET_DONE)
        status = pocket_put(desk, "x", inputs, sizeof inputs);
    for (i = 0; i < sizeof words / sizeof *words && status == POCKET_DONE; i++)
        status = pocket_word(desk, words[i]);
    if (status != POCKET_DONE)
        return status;
    status = pocket_run(desk, text, sizeof text, &length, exit_number);
    if (*exit_number != 0) {
        const char *refusal = *exit_number == 1 ? "writing failed" : "out of memory";
        check((*exit_number == 1 || *exit_number == 5) && length == strlen(refusal) && memcmp(text, refusal, length) == 0);
    }
    return status;
}

/* A removal gives back the memory of contents that were replaced too. */
static void replaces(pocket_handle *desk)
{
    const long were = calls, kept = held;
    uint8_t number;

    fails_at = 0;
    for (number = 0; number < 100; number++)
        check(pocket_put(desk, "y", data, number) == POCKET_DONE);
    check(held > kept + 90 && pocket_remove(desk, "y") == POCKET_DONE && held == kept);
    calls = were;
}

static void at_desk(void)
{
    pocket_handle desk = POCKET_NOTHING;
    long taken, kept;

    for (held = 0, fails_at = 1;; fails_at += 1) {
        uint8_t exit_number = 0, store[64];
        size_t length = 0;
        pocket_status status;

        calls = 0;
        status = command(&desk, &exit_number);
        if (calls < fails_at) {
            check(status == POCKET_DONE && exit_number == 0 && fails_at > 1);
            taken = calls;
            check(pocket_get(&desk, "s", store, sizeof store, &length) == POCKET_DONE && length == 37 && calls == taken);
            kept = held;
            check(pocket_name_from(&desk, "t", 1, (char *)store, sizeof store, &length) == POCKET_DONE && length == 1 && calls == taken);
            check(pocket_remove(&desk, "s") == POCKET_DONE && calls == taken && held < kept);
            replaces(&desk);
            break;
        }
        check(status == POCKET_NO_MEMORY || (status == POCKET_DONE && exit_number != 0));
        if (status == POCKET_DONE)
            check(pocket_get(&desk, "s", store, sizeof store, &length) == POCKET_DONE && length == 0);
        check((pocket_close(&desk) == POCKET_IS_CLOSED) == (fails_at == 1) && held == 0);
    }
    check(pocket_close(&desk) == POCKET_DONE && held == 0);
    printf("a desk: %ld allocations\n", calls);
}
#endif

int main(int count, char **words)
{
    int i;

    for (i = 1; i < count; i++) {
        uint32_t bits = (uint32_t)strtoul(words[i], NULL, 10);
        pocket_handle sender = POCKET_NOTHING, receiver = POCKET_NOTHING;
        size_t sends, receives;
        long of_sender;

        held = 0;
        sends = open_at_last(&sender, bits, true);
        of_sender = held, held = 0;
        receives = open_at_last(&receiver, bits, false);
        hands_on(&sender, &receiver, bits);
        input[0] = 0x80;
        check(pocket_sender_reset(&sender, input, POCKET_INPUT_BYTES(bits)) == POCKET_DONE && pocket_receiver_reset(&receiver) == POCKET_DONE && calls == 0);
        hands_on(&sender, &receiver, bits);
        check(pocket_close(&receiver) == POCKET_DONE && held == 0);
        check(pocket_close(&sender) == POCKET_DONE && held == -of_sender);
        printf("%u bits: a sender %zu bytes, a receiver %zu\n", (unsigned)bits, sends, receives);
    }
#ifdef POCKET_NO_DESK
    given_memory();
#else
    at_desk();
#endif
    return counted();
}
