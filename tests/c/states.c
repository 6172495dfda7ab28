/* Any bytes as a state: each bit of a state turned, each length, and states made by the grammar of docs/FORMATS.md with values at their edges and
 * the right sum. A refusal changes nothing; what is taken is saved as the same bytes, and works. Its word is how many are made. With POCKET_FUZZED
 * libFuzzer makes what stands between the head and the sum. */
#include "pocket.h"
#include "check.h"

enum { MOST = 200, CALLS = 100, HEAD = 10, MOST_BYTES = POCKET_INPUT_BYTES(MOST), ROOM = POCKET_SENDER_STATE_BYTES(MOST) };
static unsigned long taken;
static uint8_t before[ROOM], after[ROOM], state[ROOM + 16];
static const uint32_t bits_tried[] = { 1, 7, 8, 13, 32, 47, 56, 64, 100, MOST };

static void put(uint8_t *at, uint64_t value, int bytes)
{
    while (bytes-- > 0)
        *at++ = (uint8_t)(value >> 8 * bytes);
}

/* The CRC-32 of zlib, bit by bit. */
static uint32_t sum_of(const uint8_t *bytes, size_t length)
{
    uint32_t sum = 0xFFFFFFFFu;
    size_t at;
    int bit;
    for (at = 0; at < length; at++)
        for (sum ^= bytes[at], bit = 0; bit < 8; bit++)
            sum = sum >> 1 ^ (sum & 1 ? 0xEDB88320u : 0u);
    return ~sum;
}

/* A handle, and what it was opened as. */
typedef struct end {
    pocket_handle handle;
    uint32_t kind, bits;
} end;

static end opened(uint32_t kind, uint32_t bits)
{
    end one = { POCKET_NOTHING, kind, bits };
    const pocket_status status = kind == POCKET_OF_SENDER ? pocket_sender_open(&one.handle, bits, NULL, 0) : pocket_receiver_open(&one.handle, bits);
    check(status == POCKET_DONE, "it is opened", bits);
    return one;
}

static size_t saved(end *one, uint8_t *to)
{
    static uint8_t unwritten[ROOM];
    size_t length = 0;
    const size_t most = pocket_state_bytes(one->bits, one->kind);
    memset(unwritten, 0x5A, sizeof unwritten), memset(to, 0x5A, most);
    check(most == (one->kind == POCKET_OF_SENDER ? POCKET_SENDER_STATE_BYTES(one->bits) : POCKET_RECEIVER_STATE_BYTES(one->bits)), "the most bytes", one->bits);
    check(pocket_save(&one->handle, to, most - 1, &length) == POCKET_NO_ROOM && length == 0, "a byte less than the most", one->bits);
    check(memcmp(to, unwritten, most) == 0, "a refused save writes", one->bits);
    check(pocket_save(&one->handle, to, most, &length) == POCKET_DONE && length <= most, "it is saved", one->bits);
    check(length < 14 || sum_of(to, length - 4) == ((uint32_t)to[length - 4] << 24 | (uint32_t)to[length - 3] << 16 | (uint32_t)to[length - 2] << 8 | to[length - 1]),
          "its sum", one->bits);
    return length;
}

static void vector_in(uint8_t *to, uint32_t bits, unsigned noise)
{
    size_t at;
    for (at = 0; at < POCKET_INPUT_BYTES(bits); at++)
        to[at] = noise ? (uint8_t)(drawn(noise) ? 0 : drawn(256)) : (uint8_t)drawn(256);
    if (bits % 8)
        to[POCKET_INPUT_BYTES(bits) - 1] &= (uint8_t)(0xFF00u >> bits % 8);
}

/* A call: it answers what a call may answer. */
static pocket_status calls(end *one, unsigned number)
{
    uint8_t input[MOST_BYTES], data[POCKET_PACKET_BYTES(MOST)], content[MOST_BYTES], level;
    size_t length = 0;
    pocket_finding finding;
    pocket_status status;
    vector_in(input, one->bits, 4);
    if (one->kind == POCKET_OF_SENDER) {
        status = pocket_send(&one->handle, input, POCKET_INPUT_BYTES(one->bits), number % 5 == 4, number % 7 == 3, number % 11 == 5, (uint8_t)(number % 8), data,
                             POCKET_PACKET_BYTES(one->bits), &length, &level);
        check(status == POCKET_TOO_MANY || (status == POCKET_DONE && length >= 1 && length <= POCKET_PACKET_BYTES(one->bits) && level <= 15), "a send", number);
        return status;
    }
    length = 1 + drawn(40);
    for (size_t at = 0; at < length; at++)
        data[at] = (uint8_t)drawn(256);
    status = pocket_receive(&one->handle, (uint16_t)drawn(16384), data, length, content, POCKET_INPUT_BYTES(one->bits), &finding);
    check(status == POCKET_TOO_MANY || (status == POCKET_DONE && finding.kind <= POCKET_EARLY), "a receive", number);
    return status;
}

/* Bytes are loaded: they are refused and nothing changes, or they are what is saved then. */
static void loads(end *one, const uint8_t *bytes, size_t length, bool works)
{
    const size_t was = saved(one, before);
    const pocket_status status = pocket_load(&one->handle, bytes, length);
    const size_t is = saved(one, after);
    unsigned number;
    if (status != POCKET_DONE) {
        check(status == POCKET_NO_STATE || status == POCKET_OTHER_STATE, "another answer", status);
        check(is == was && memcmp(before, after, is) == 0, "a refusal changes something", length);
        return;
    }
    taken++;
    check(is == length && memcmp(bytes, after, is) == 0, "what is taken is saved as other bytes", length);
    for (number = 0; works && number < CALLS; number++)
        calls(one, number);
}

#ifndef POCKET_FUZZED
/* A number at an edge, or any. */
static uint64_t number_at(void)
{
    static const uint64_t edges[] = { 0, 1, 2, 3, 16383, 16384, 16385, 4294967295u, 4294967296u, 4294967297u, (uint64_t)1 << 46, (uint64_t)1 << 61,
                                      (uint64_t)1 << 62, UINT64_MAX };
    return drawn(3) ? drawn(20) : drawn(5) ? edges[drawn(sizeof edges / sizeof *edges)] : drawn(UINT64_MAX);
}

static uint8_t *put_vector(uint8_t *at, uint32_t bits)
{
    const bool is_there = drawn(3) != 0;
    *at++ = drawn(200) ? is_there : (uint8_t)drawn(256);
    if (!is_there)
        return at;
    vector_in(at, bits, (unsigned)drawn(6));
    if (drawn(100) == 0)
        at[POCKET_INPUT_BYTES(bits) - 1] |= 1;
    return at + POCKET_INPUT_BYTES(bits);
}

/* A state by the grammar, of values that need not be those of any sender or receiver. Gives its length. */
static size_t grown(const end *one)
{
    uint8_t *at = state + HEAD;
    int field;
    memcpy(state, "PCKT\1", 5);
    state[5] = (uint8_t)(drawn(50) ? one->kind : drawn(4));
    put(state + 6, drawn(50) ? one->bits : drawn(60000), 4);
    if (one->kind == POCKET_OF_SENDER) {
        put(at, number_at(), 8);
        at[8] = (uint8_t)drawn(drawn(20) ? 2 : 256), at[9] = (uint8_t)drawn(drawn(20) ? 16 : 256), at[10] = (uint8_t)drawn(256), at[11] = (uint8_t)drawn(256);
        at += 12;
    } else {
        const uint64_t packets = number_at();
        for (field = 0; field < 7; field++, at += 8)
            put(at, field == 1 || drawn(3) == 0 ? packets : number_at(), 8);
        *at++ = (uint8_t)drawn(drawn(20) ? 16 : 256);
    }
    for (field = 0; field < (one->kind == POCKET_OF_SENDER ? 21 : 3); field++)
        at = put_vector(at, one->bits);
    if (drawn(100) == 0)
        at += drawn(8);
    put(at, sum_of(state, (size_t)(at - state)), 4);
    return (size_t)(at - state) + 4;
}

/* Each bit and each length of the state of an end that made some calls, and a bit with the sum made right. */
static void damages(end *one)
{
    uint8_t own[ROOM];
    const size_t length = saved(one, own);
    size_t at;
    for (at = 0; at < 8 * length; at++) {
        memcpy(state, own, length);
        state[at / 8] ^= (uint8_t)(1u << at % 8);
        check(pocket_load(&one->handle, state, length) == POCKET_NO_STATE, "a turned bit", at);
        if (at / 8 < length - 4) {
            put(state + length - 4, sum_of(state, length - 4), 4);
            loads(one, state, length, false);
            check(pocket_load(&one->handle, own, length) == POCKET_DONE, "its own state", at);
        }
    }
    for (at = 0; at < length; at++)
        check(pocket_load(&one->handle, own, at) == POCKET_NO_STATE, "a cut state", at);
    memcpy(state, own, length);
    check(pocket_load(&one->handle, state, length + 1) == POCKET_NO_STATE, "a longer state", at);
}

/* The state of an end, but that it took so many packets, is loaded. */
static void renumber(end *one, uint64_t packets)
{
    const size_t length = saved(one, state);
    put(state + HEAD + (one->kind == POCKET_OF_SENDER ? 0 : 8), packets, 8);
    put(state + length - 4, sum_of(state, length - 4), 4);
    loads(one, state, length, false);
}

/* An end that made some calls takes the packets that are left up to 4,294,967,296, and no more. */
static void took(uint32_t kind, uint32_t bits, uint64_t packets)
{
    end one = opened(kind, bits);
    const unsigned long were = taken;
    unsigned number;
    for (number = 0; number < 30; number++)
        calls(&one, number);
    renumber(&one, packets);
    check(taken == were + 1, "a state with its last numbers is taken", packets);
    for (; packets < (uint64_t)1 << 32; packets++)
        check(calls(&one, (unsigned)packets) == POCKET_DONE, "a packet before the last one", bits);
    check(calls(&one, 1) == POCKET_TOO_MANY && calls(&one, 2) == POCKET_TOO_MANY, "a packet after the last one", bits);
    pocket_close(&one.handle);
}

static void tries(uint32_t kind, uint32_t bits, unsigned long count)
{
    end one = opened(kind, bits), other = opened(kind == POCKET_OF_SENDER ? POCKET_OF_RECEIVER : POCKET_OF_SENDER, bits);
    unsigned number;
    size_t length;
    for (number = 0; number < 30; number++) {
        calls(&one, number);
        if (number % 15 == 0)
            damages(&one);
        if (number % 10 == 9)
            renumber(&one, 0);
    }
    length = saved(&one, state);
    check(pocket_load(&other.handle, state, length) == POCKET_OTHER_STATE, "a state of the other kind", bits);
    for (; count > 0; count--)
        loads(&one, state, grown(&one), count % 10 == 0);
    took(kind, bits, 4294967294u), took(kind, bits, (uint64_t)1 << 32);
    check(pocket_save(NULL, after, ROOM, &length) == POCKET_NULL && pocket_save(&one.handle, NULL, ROOM, &length) == POCKET_NULL &&
          pocket_save(&one.handle, after, ROOM, NULL) == POCKET_NULL && pocket_load(NULL, after, 1) == POCKET_NULL &&
          pocket_load(&one.handle, NULL, 1) == POCKET_NULL, "null", bits);
    length = 5;
    check(pocket_save(&one.handle, NULL, 0, &length) == POCKET_NO_ROOM && length == 5 && pocket_load(&one.handle, NULL, 0) == POCKET_NO_STATE, "null of no byte", bits);
    pocket_close(&one.handle), pocket_close(&other.handle);
    check(pocket_load(&one.handle, state, length) == POCKET_IS_CLOSED && pocket_save(&one.handle, after, ROOM, &length) == POCKET_IS_CLOSED, "a closed handle", bits);
}

int main(int words, char **word)
{
    const unsigned long count = words == 2 ? strtoul(word[1], NULL, 10) : 100;
    const size_t sizes = sizeof bits_tried / sizeof *bits_tried;
    size_t at;
    for (at = 0; at < 2 * sizes; at++)
        tries(at % 2 ? POCKET_OF_SENDER : POCKET_OF_RECEIVER, bits_tried[at / 2], count / (2 * sizes) + 1);
    check(taken > count / 100, "few made states are taken", taken);
    check(pocket_state_bytes(0, 1) == 0 && pocket_state_bytes(8, 0) == 0 && pocket_state_bytes(8, 3) == 0 && pocket_state_bytes(POCKET_MOST_BITS + 1, 2) == 0, "no state", 0);
    printf("%lu taken\n", taken);
    return counted();
}
#else
int LLVMFuzzerTestOneInput(const uint8_t *bytes, size_t length)
{
    const size_t sizes = sizeof bits_tried / sizeof *bits_tried;
    static end ends[2 * sizeof bits_tried / sizeof *bits_tried];
    const size_t which = length ? bytes[0] % (2 * sizes) : 0, body = length ? length - 1 : 0;
    if (!ends[which].bits)
        ends[which] = opened(which % 2 ? POCKET_OF_SENDER : POCKET_OF_RECEIVER, bits_tried[which / 2]);
    if (HEAD + body + 4 > ROOM)
        return 0;
    memcpy(state, "PCKT\1", 5);
    state[5] = (uint8_t)ends[which].kind;
    put(state + 6, ends[which].bits, 4);
    if (body)
        memcpy(state + HEAD, bytes + 1, body);
    put(state + HEAD + body, sum_of(state, HEAD + body), 4);
    loads(&ends[which], state, HEAD + body + 4, true);
    if (failed)
        abort();
    return 0;
}
#endif
