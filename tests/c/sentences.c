/* What pocket.h says of numbers, counts and restarts, of versions, texts and headers: each sentence is tried, from C. With
 * POCKET_NO_DESK those of a desk are left out, as the one file has none. */
#include "pocket.h"
#include "check.h"

enum { BITS = 64, BYTES = BITS / 8, ROOM = POCKET_PACKET_BYTES(BITS), MANY = 100, APID = 100 };

#define check(held, what) check(held, what, __LINE__)

/* Inputs of 64 bits in which one of eight bits turns. */
static uint8_t input[BYTES];

static void begin(void)
{
    unsigned i;

    for (i = 0; i < BYTES; i++)
        input[i] = (uint8_t)drawn(256);
}

static void move(void)
{
    input[3] ^= (uint8_t)(1u << drawn(8));
}

typedef struct packet {
    uint8_t data[ROOM], input[BYTES], level;
    size_t length;
} packet;

static packet made_as(pocket_handle *sender, uint8_t robustness, bool new_mask, bool begins)
{
    packet one;

    move();
    memcpy(one.input, input, BYTES);
    check(pocket_send(sender, input, BYTES, new_mask, begins, begins, robustness, one.data, ROOM, &one.length, &one.level) == POCKET_DONE, "a packet is sent");
    return one;
}

static packet made(pocket_handle *sender, uint8_t robustness)
{
    return made_as(sender, robustness, false, false);
}

/* What is found of an arrival, and whether its content is the input. */
static pocket_finding found(pocket_handle *receiver, uint64_t number, const packet *one, bool *is_right)
{
    uint8_t content[BYTES];
    pocket_finding finding;

    check(pocket_receive(receiver, (uint16_t)(number % 16384u), one->data, one->length, content, BYTES, &finding) == POCKET_DONE, "a packet is received");
    *is_right = finding.kind == POCKET_WRITTEN && memcmp(content, one->input, BYTES) == 0;
    return finding;
}

static void open_both(pocket_handle *sender, pocket_handle *receiver)
{
    check(pocket_sender_open(sender, BITS, NULL, 0) == POCKET_DONE && pocket_receiver_open(receiver, BITS) == POCKET_DONE, "both ends are opened");
}

static void close_both(pocket_handle *sender, pocket_handle *receiver)
{
    check(pocket_close(sender) == POCKET_DONE && pocket_close(receiver) == POCKET_DONE, "both ends are closed");
}

/* The answers with their numbers and texts, in the order of the numbers. */
static const struct {
    uint32_t number, status;
    const char *text;
} answers[] = {
    {0, POCKET_DONE, "done"},
    {1, POCKET_NO_MEMORY, "out of memory"},
    {2, POCKET_IS_CLOSED, "it is closed"},
    {3, POCKET_IS_OPEN, "it is open"},
    {4, POCKET_OTHER_KIND, "it holds something of another kind"},
    {5, POCKET_BITS, "a vector has 1 to 49152 places"},
    {6, POCKET_MASK_LENGTH, "the mask has the wrong length"},
    {7, POCKET_MASK_SPARE_BIT, "the mask has a spare bit set"},
    {8, POCKET_INPUT_LENGTH, "the input has the wrong length"},
    {9, POCKET_SPARE_BIT, "the input has a spare bit set"},
    {10, POCKET_ROBUSTNESS, "the required robustness is above 7"},
    {11, POCKET_NO_ROOM, "the room is too short"},
    {12, POCKET_TOO_MANY, "too many packets"},
    {13, POCKET_COUNT, "the sequence count is above 16383"},
    {14, POCKET_TOO_LONG, "the packet is too long"},
    {15, POCKET_NO_TEXT, "it is not UTF-8"},
    {16, POCKET_TOO_MANY_WORDS, "the command has too many arguments"},
    {17, POCKET_NOT_KEPT, "no such name is kept"},
    {250, POCKET_APID, "the APID is above 2046"},
    {251, POCKET_NO_DATA, "a Space Packet has a byte of data at least"},
    {252, POCKET_NO_STATE, "it is no state"},
    {253, POCKET_OTHER_STATE, "it is a state of the other kind or of other bits"},
    {254, POCKET_BROKEN, "its memory was damaged"},
    {255, POCKET_NULL, "a pointer is null"},
};

static void texts(void)
{
    static const pocket_kind kinds[] = {POCKET_WRITTEN, POCKET_REPEAT, POCKET_UNSYNCED, POCKET_GAP, POCKET_WRONG, POCKET_EARLY};
    uint32_t number, at = 0;

    check(strcmp(pocket_version(), POCKET_VERSION) == 0, "the version of the library is that of its header");
    for (number = 0; number < 1000; number++) {
        const bool is_answer = at < sizeof answers / sizeof *answers && number == answers[at].number;
        check(strcmp(pocket_status_text(number), is_answer ? answers[at].text : "no call answers this") == 0, "the text of an answer");
        check(!is_answer || answers[at].status == number, "the number of an answer");
        at += is_answer;
    }
    check(at == sizeof answers / sizeof *answers, "each answer has a text");
    for (number = 0; number < 6; number++)
        check((uint32_t)kinds[number] == number, "the number of a kind");
}

static void headers(void)
{
    static const uint8_t first[6] = {0x00, 0x64, 0xC0, 0x00, 0x00, 0x03}, last[6] = {0x07, 0xFE, 0xFF, 0xFF, 0xFF, 0xFF};
    uint8_t header[6], other[6];

    check(pocket_header(100, 0, 4, header) == POCKET_DONE && memcmp(header, first, 6) == 0, "the header of docs/FORMATS.md");
    check(pocket_header(100, 16384, 4, header) == POCKET_DONE && memcmp(header, first, 6) == 0, "packet 16,384 has the count 0");
    check(pocket_header(2046, 16383 + 16384 * 5000ull, 65536, header) == POCKET_DONE && memcmp(header, last, 6) == 0, "the greatest numbers");
    memcpy(other, header, 6);
    check(pocket_header(2047, 0, 4, header) == POCKET_APID && pocket_header(65535, 0, 0, header) == POCKET_APID, "no packet has this APID");
    check(pocket_header(100, 0, 0, header) == POCKET_NO_DATA, "a packet has a byte");
    check(pocket_header(100, 0, 65537, header) == POCKET_TOO_LONG, "a packet has 65,536 bytes at most");
    check(pocket_header(100, 0, 4, NULL) == POCKET_NULL, "a header that is null");
    check(memcmp(header, other, 6) == 0, "a refused header is not written");
}

static void numbers(void)
{
    pocket_handle sender = POCKET_NOTHING, receiver = POCKET_NOTHING;
    pocket_finding finding;
    pocket_tally tally;
    packet one, nothing;
    uint64_t sent;
    uint32_t bits, t;
    bool is_right;

    begin();
    open_both(&sender, &receiver);
    one = made(&sender, 1);
    finding = found(&receiver, 700, &one, &is_right);
    check(finding.number == 700 && finding.first_lost == 0 && finding.lost == 700 && is_right, "the first arrival's count is its number");
    finding = found(&receiver, 700 + 16384, &one, &is_right);
    check(finding.kind == POCKET_REPEAT && finding.number == 700, "a gap of 16,384 looks like a repeat");
    nothing = one;
    nothing.length = 0;
    finding = found(&receiver, 701, &nothing, &is_right);
    check(finding.kind == POCKET_EARLY && finding.value == 0 && finding.number == 701 && finding.lost == 0, "data of no byte are an arrival");
    finding = found(&receiver, 5, &one, &is_right);
    check(finding.number == 16384 + 5 && finding.first_lost == 702 && finding.lost == 16384 + 5 - 702, "a later one has the next greater number of its count");
    for (t = 0; t < MANY; t++) {
        check(pocket_sent(&sender, &sent) == POCKET_DONE && sent == t + 1, "a sender tells the number of its next packet");
        one = made(&sender, 1);
        pocket_counts(&receiver, &tally);
        finding = found(&receiver, tally.written + tally.listed, &one, &is_right);
        check(finding.lost == 0 && finding.number == tally.written + tally.listed, "the next number in order is written + listed");
        if (drawn(3) == 0)
            found(&receiver, finding.number + drawn(5), &one, &is_right);
    }
    bits = 0;
    check(pocket_bits(&sender, &bits) == POCKET_DONE && bits == BITS, "the bits of a sender");
    bits = 0;
    check(pocket_bits(&receiver, &bits) == POCKET_DONE && bits == BITS, "the bits of a receiver");
    sent = 5;
    check(pocket_sent(&receiver, &sent) == POCKET_OTHER_KIND && sent == 5, "a receiver has sent nothing");
    close_both(&sender, &receiver);
    check(pocket_bits(&sender, &bits) == POCKET_IS_CLOSED && bits == BITS && pocket_sent(&sender, &sent) == POCKET_IS_CLOSED && sent == 5, "a closed sender");
    check(pocket_bits(NULL, &bits) == POCKET_NULL && pocket_sent(NULL, &sent) == POCKET_NULL, "null has no bits");
    check(pocket_bits(&sender, NULL) == POCKET_NULL && pocket_sent(&sender, NULL) == POCKET_NULL, "bits to null");
#ifndef POCKET_NO_DESK
    one.length = 5;
    check(pocket_desk_open(&sender) == POCKET_DONE && pocket_bits(&sender, &bits) == POCKET_OTHER_KIND && pocket_sent(&sender, &sent) == POCKET_OTHER_KIND, "a desk has no bits");
    check(pocket_save(&sender, one.data, ROOM, &one.length) == POCKET_OTHER_KIND && one.length == 5 && pocket_load(&sender, one.data, 1) == POCKET_OTHER_KIND, "a desk has no state");
    pocket_close(&sender);
#endif
}

#ifndef POCKET_NO_DESK
static void command(pocket_handle *desk, const char *words)
{
    char word[64], text[POCKET_TEXT_BYTES];
    uint8_t exit_number = 9;
    size_t length;
    int next;

    for (; sscanf(words, "%63s%n", word, &next) == 1; words += next)
        check(pocket_word(desk, word) == POCKET_DONE, words);
    check(pocket_run(desk, text, sizeof text, &length, &exit_number) == POCKET_DONE && exit_number == 0, "a command is done");
}

/* A hundred packets of which two change places: by a receiver, and by the verb late. */
static void out_of_order(void)
{
    pocket_handle sender = POCKET_NOTHING, receiver = POCKET_NOTHING, desk = POCKET_NOTHING;
    static packet packets[MANY];
    static uint8_t sent[MANY * BYTES], store[MANY * (6 + ROOM)], back[sizeof sent];
    size_t at = 0, length;
    uint64_t lost = 0;
    unsigned t, unwritten = 0;
    bool is_right;

    begin();
    open_both(&sender, &receiver);
    for (t = 0; t < MANY; t++) {
        packets[t] = made(&sender, 1);
        memcpy(sent + t * BYTES, input, BYTES);
    }
    for (t = 0; t < MANY; t++) {
        unsigned number = t == 10 ? 11 : t == 11 ? 10 : t;
        lost += found(&receiver, number, &packets[number], &is_right).lost;
        unwritten += !is_right;
        check(pocket_header(APID, number, packets[number].length, store + at) == POCKET_DONE, "a header");
        memcpy(store + at + 6, packets[number].data, packets[number].length);
        at += 6 + packets[number].length;
    }
    check(lost == 1 + 16382 + 1 && unwritten > 1, "two packets that change places are told as 16,382 lost, and others are unwritten");
    check(pocket_desk_open(&desk) == POCKET_DONE && pocket_put(&desk, "s", store, at) == POCKET_DONE, "a desk");
    command(&desk, "late in=s out=b report=r bits=64 apid=100 window=4");
    check(pocket_get(&desk, "b", back, sizeof back, &length) == POCKET_DONE && length == sizeof sent && memcmp(back, sent, length) == 0, "late writes them all");
    pocket_close(&desk);
    close_both(&sender, &receiver);
}
#endif

/* How many of fifty packets after a restart are right, wrong in their content, and unwritten, if the first ones are lost. */
typedef struct fates {
    unsigned right, wrong, unwritten;
} fates;

static fates restarted(uint8_t robustness, unsigned left_out, unsigned lost, bool anew)
{
    pocket_handle sender = POCKET_NOTHING, receiver = POCKET_NOTHING;
    fates told = {0, 0, 0};
    uint64_t next;
    unsigned t;
    bool is_right;

    begin();
    open_both(&sender, &receiver);
    for (next = 0; next < MANY; next++) {
        packet one = made(&sender, robustness);
        found(&receiver, next, &one, &is_right);
        check(is_right, "a packet before a restart");
    }
    begin();
    check(pocket_close(&sender) == POCKET_DONE && pocket_sender_open(&sender, BITS, NULL, 0) == POCKET_DONE, "a restart");
    if (anew)
        check(pocket_receiver_reset(&receiver) == POCKET_DONE, "a receiver is reset");
    next += left_out;
    for (t = 0; t < 50; t++, next++) {
        packet one = made(&sender, robustness);
        pocket_finding finding;
        if (t < lost)
            continue;
        finding = found(&receiver, next, &one, &is_right);
        told.right += is_right;
        told.wrong += finding.kind == POCKET_WRITTEN && !is_right;
        told.unwritten += finding.kind != POCKET_WRITTEN;
    }
    close_both(&sender, &receiver);
    return told;
}

static void restarts(void)
{
    unsigned number, robustness, wrong = 0, unwritten = 0;

    for (number = 0; number < 20; number++)
        for (robustness = 0; robustness <= POCKET_MOST_ROBUSTNESS; robustness++) {
            fates told = restarted((uint8_t)robustness, 0, 0, false);
            wrong += told.wrong;
            unwritten += told.unwritten;
            check(restarted((uint8_t)robustness, 16, 0, false).right == 50, "after 16 counts that are left out all packets are right");
            check(restarted((uint8_t)robustness, 16, robustness, false).right == 50 - robustness, "as many of the first may be lost as the robustness says");
            told = restarted((uint8_t)robustness, 16, robustness + 1, false);
            check(told.wrong == 0, "one more is lost, and no content is wrong");
            check(restarted((uint8_t)robustness, 0, 0, true).right == 50, "a receiver that was reset writes all packets");
        }
    check(unwritten > 0, "with the counts going on packets are refused");
    check(wrong > 0, "with the counts going on contents are given that were not sent");
}

/* How many of fifty packets are right, wrong and unwritten, of a sender that goes on from a state so many packets before its last one. Since
 * then a bit outside its mask turned; so many numbers are left out after that of the state, and the first packets are lost. */
static fates went_on(uint8_t robustness, unsigned since, unsigned left_out, unsigned lost)
{
    pocket_handle sender = POCKET_NOTHING, receiver = POCKET_NOTHING;
    uint8_t state[POCKET_SENDER_STATE_BYTES(BITS)];
    fates told = {0, 0, 0};
    const unsigned turned = (unsigned)drawn(since + 1);
    size_t length = 0;
    unsigned t;
    bool is_right;

    begin();
    open_both(&sender, &receiver);
    for (t = 0; t < MANY + since; t++) {
        packet one;
        if (t == MANY)
            check(pocket_save(&sender, state, sizeof state, &length) == POCKET_DONE, "a state is saved");
        input[6] ^= t == MANY + turned;
        one = made_as(&sender, robustness, t >= MANY && drawn(4) == 0, false);
        found(&receiver, t, &one, &is_right);
        check(is_right, "a packet before a restart");
    }
    if (since > 0)
        check(pocket_load(&sender, state, length) == POCKET_DONE, "a state is loaded");
    for (t = 0; t < 50; t++) {
        packet one = made_as(&sender, robustness, false, t <= robustness);
        pocket_finding finding;
        if (t < lost)
            continue;
        finding = found(&receiver, MANY + left_out + t, &one, &is_right);
        told.right += is_right;
        told.wrong += finding.kind == POCKET_WRITTEN && !is_right;
        told.unwritten += finding.kind != POCKET_WRITTEN;
    }
    close_both(&sender, &receiver);
    return told;
}

static void older_states(void)
{
    unsigned number, robustness, wrong = 0;

    for (number = 0; number < 50; number++)
        for (robustness = 0; robustness <= POCKET_MOST_ROBUSTNESS; robustness++) {
            const unsigned most = (unsigned)drawn(41), since = (unsigned)drawn(most + 1), lost = (unsigned)drawn(robustness + 1);
            check(went_on((uint8_t)robustness, since, most + 16, lost).right == 50 - lost, "16 counts are left out after the last packet that may have been sent");
            check(went_on((uint8_t)robustness, most, most + 16, lost).right == 50 - lost, "16 counts are left out after the last packet");
            wrong += went_on((uint8_t)robustness, 17, 16, 0).wrong;
        }
    check(wrong > 0, "with 16 counts left out after the state contents are given that were not sent");
}

int main(void)
{
    texts();
    headers();
    numbers();
    restarts();
    older_states();
#ifndef POCKET_NO_DESK
    out_of_order();
#endif
    return counted();
}
