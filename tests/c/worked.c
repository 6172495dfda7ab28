/* Worked packets, each wrong argument with nothing changed after it, and no memory taken after opening, from C. With POCKET_NO_DESK it
 * takes no desk, as the one file has none. */
#include "pocket.h"
#include "check.h"

#define check(held, what) check(held, what, __LINE__)

static const uint8_t inputs[4] = {0xB0, 0xB1, 0xB1, 0xB3};
static const struct {
    size_t length;
    uint8_t level, data[4];
} packets[4] = {{4, 1, {0x85, 0xB8, 0xD6, 0x00}}, {4, 1, {0x42, 0x4B, 0x8D, 0x62}}, {2, 2, {0x44, 0xC0}}, {3, 1, {0xC0, 0x85, 0xC0}}};

enum { ROOM = POCKET_PACKET_BYTES(8) };

/* What a call may write, as it was before, to tell that a refused call wrote nothing. */
static struct {
    uint8_t data[ROOM], content[2], level;
    size_t length;
    pocket_finding finding;
    pocket_tally tally;
} out, before;

static void remember(void)
{
    memset(&out, 0x5A, sizeof out);
    memcpy(&before, &out, sizeof out);
}

static void refused(pocket_status found, pocket_status wanted, const char *what)
{
    check(found == wanted, what);
    check(memcmp(&before, &out, sizeof out) == 0, what);
}

static pocket_status send_next(pocket_handle *sender, const uint8_t *input, size_t length, unsigned robustness, size_t room)
{
    return pocket_send(sender, input, length, false, false, false, (uint8_t)robustness, out.data, room, &out.length, &out.level);
}

static pocket_status receive_next(pocket_handle *receiver, unsigned count, const uint8_t *data, size_t length, size_t room)
{
    return pocket_receive(receiver, (uint16_t)count, data, length, out.content, room, &out.finding);
}

static void wrong_sends(pocket_handle *sender, pocket_handle *receiver)
{
    pocket_handle none = POCKET_NOTHING;
    uint8_t two[2] = {0xB0, 0};

    remember();
    refused(send_next(sender, two, 2, 1, ROOM), POCKET_INPUT_LENGTH, "an input of two bytes");
    refused(send_next(sender, two, 0, 1, ROOM), POCKET_INPUT_LENGTH, "an input of no byte");
    refused(send_next(sender, NULL, 0, 1, ROOM), POCKET_INPUT_LENGTH, "a null input of no byte");
    refused(send_next(sender, two, 1, 8, ROOM), POCKET_ROBUSTNESS, "a robustness of 8");
    refused(send_next(sender, two, 1, 255, ROOM), POCKET_ROBUSTNESS, "a robustness of 255");
    refused(send_next(sender, two, 1, 1, ROOM - 1), POCKET_NO_ROOM, "one byte too few");
    refused(send_next(sender, two, 1, 1, 0), POCKET_NO_ROOM, "no room");
    refused(send_next(receiver, two, 1, 1, ROOM), POCKET_OTHER_KIND, "a receiver that sends");
    refused(send_next(&none, two, 1, 1, ROOM), POCKET_IS_CLOSED, "a closed sender");
    refused(send_next(NULL, two, 1, 1, ROOM), POCKET_NULL, "no sender");
    refused(send_next(sender, NULL, 1, 1, ROOM), POCKET_NULL, "a null input");
    refused(pocket_send(sender, two, 1, false, false, false, 1, NULL, ROOM, &out.length, &out.level), POCKET_NULL, "null data");
    refused(pocket_send(sender, two, 1, false, false, false, 1, NULL, 0, &out.length, &out.level), POCKET_NO_ROOM, "null data, no room");
    refused(pocket_send(sender, two, 1, false, false, false, 1, out.data, ROOM, NULL, &out.level), POCKET_NULL, "a null length");
    refused(pocket_send(sender, two, 1, false, false, false, 1, out.data, ROOM, &out.length, NULL), POCKET_NULL, "a null level");
    refused(pocket_sender_open(sender, 8, NULL, 0), POCKET_IS_OPEN, "a second opening");
    refused(pocket_receiver_open(sender, 8), POCKET_IS_OPEN, "a second opening as a receiver");
    refused(pocket_receiver_open(sender, 0), POCKET_IS_OPEN, "a second opening of no bits");
    refused(pocket_counts(sender, &out.tally), POCKET_OTHER_KIND, "counts of a sender");
    refused(pocket_sender_reset(sender, two, 2), POCKET_MASK_LENGTH, "a reset with a mask of two bytes");
    refused(pocket_sender_reset(sender, NULL, 1), POCKET_NULL, "a reset with a null mask");
    refused(pocket_sender_reset(receiver, two, 1), POCKET_OTHER_KIND, "a receiver that is reset as a sender");
    refused(pocket_sender_reset(&none, two, 1), POCKET_IS_CLOSED, "a reset of a closed sender");
    refused(pocket_sender_reset(NULL, two, 1), POCKET_NULL, "a reset of no sender");
}

static void wrong_receives(pocket_handle *sender, pocket_handle *receiver)
{
    static uint8_t longest[POCKET_MOST_DATA + 1];
    pocket_handle none = POCKET_NOTHING;

    remember();
    refused(receive_next(receiver, 16384, longest, 1, 1), POCKET_COUNT, "a count of 16,384");
    refused(receive_next(receiver, 65535, longest, 1, 1), POCKET_COUNT, "a count of 65,535");
    refused(receive_next(receiver, 0, longest, sizeof longest, 1), POCKET_TOO_LONG, "65,537 bytes of data");
    refused(receive_next(receiver, 0, longest, 1, 0), POCKET_NO_ROOM, "no room for a content");
    refused(receive_next(sender, 0, longest, 1, 1), POCKET_OTHER_KIND, "a sender that receives");
    refused(receive_next(&none, 0, longest, 1, 1), POCKET_IS_CLOSED, "a closed receiver");
    refused(receive_next(NULL, 0, longest, 1, 1), POCKET_NULL, "no receiver");
    refused(receive_next(receiver, 0, NULL, 1, 1), POCKET_NULL, "null data that arrive");
    refused(pocket_receive(receiver, 0, longest, 1, NULL, 1, &out.finding), POCKET_NULL, "a null content");
    refused(pocket_receive(receiver, 0, longest, 1, NULL, 0, &out.finding), POCKET_NO_ROOM, "a null content, no room");
    refused(pocket_receive(receiver, 0, longest, 1, out.content, 1, NULL), POCKET_NULL, "a null finding");
    refused(pocket_counts(&none, &out.tally), POCKET_IS_CLOSED, "counts of a closed receiver");
    refused(pocket_counts(NULL, &out.tally), POCKET_NULL, "counts of no receiver");
    refused(pocket_counts(receiver, NULL), POCKET_NULL, "counts to null");
    refused(pocket_receiver_open(receiver, 8), POCKET_IS_OPEN, "a second opening of a receiver");
    refused(pocket_receiver_reset(sender), POCKET_OTHER_KIND, "a sender that is reset as a receiver");
    refused(pocket_receiver_reset(&none), POCKET_IS_CLOSED, "a reset of a closed receiver");
    refused(pocket_receiver_reset(NULL), POCKET_NULL, "a reset of no receiver");
}

static void wrong_openings(void)
{
    pocket_handle handle = POCKET_NOTHING, none = POCKET_NOTHING;
    static const uint8_t mask[2] = {0x0F, 0xFF};

    remember();
    refused(pocket_sender_open(&handle, 0, NULL, 0), POCKET_BITS, "a sender of no bits");
    refused(pocket_sender_open(&handle, POCKET_MOST_BITS + 1, NULL, 0), POCKET_BITS, "a sender of 49,153 bits");
    refused(pocket_sender_open(&handle, 0xFFFFFFFF, NULL, 0), POCKET_BITS, "a sender of the most bits that fit");
    refused(pocket_receiver_open(&handle, 0), POCKET_BITS, "a receiver of no bits");
    refused(pocket_receiver_open(&handle, POCKET_MOST_BITS + 1), POCKET_BITS, "a receiver of 49,153 bits");
    refused(pocket_sender_open(&handle, 0, mask, 2), POCKET_BITS, "no bits, and a mask");
    refused(pocket_sender_open(&handle, POCKET_MOST_BITS + 1, mask, 1), POCKET_BITS, "49,153 bits, and a mask of one byte");
    refused(pocket_sender_open(&handle, 8, mask, 2), POCKET_MASK_LENGTH, "a mask of two bytes");
    refused(pocket_sender_open(&handle, 9, mask, 1), POCKET_MASK_LENGTH, "a mask of one byte");
    refused(pocket_sender_open(&handle, 9, mask, 2), POCKET_MASK_SPARE_BIT, "a spare bit of a mask");
    refused(pocket_sender_open(&handle, 8, NULL, 1), POCKET_NULL, "a null mask");
    refused(pocket_sender_open(NULL, 8, mask, 1), POCKET_NULL, "a null sender to open");
    refused(pocket_receiver_open(NULL, 8), POCKET_NULL, "a null receiver to open");
    refused(pocket_close(&handle), POCKET_IS_CLOSED, "a close of nothing");
    refused(pocket_close(NULL), POCKET_NULL, "a close of null");
    check(memcmp(&handle, &none, sizeof handle) == 0, "a handle that a refused opening changed");
    check(pocket_sender_open(&handle, 8, mask, 1) == POCKET_DONE, "a mask that fits");
    check(pocket_close(&handle) == POCKET_DONE && pocket_close(&handle) == POCKET_IS_CLOSED, "a second close");
    check(pocket_receiver_open(&handle, 8) == POCKET_DONE && pocket_close(&handle) == POCKET_DONE, "a handle that is opened again");
}

/* An arrival that isn't written leaves the content as it was. */
static void unwritten(pocket_handle *receiver, unsigned count, const uint8_t *data, size_t length, pocket_kind kind, const char *what)
{
    memset(out.content, 0x5A, sizeof out.content);
    check(receive_next(receiver, count, data, length, 2) == POCKET_DONE && out.finding.kind == (uint32_t)kind, what);
    check(memcmp(out.content, before.content, sizeof out.content) == 0, what);
}

/* The four packets of a worked stream; before each, everything wrong is tried. */
static void stream(pocket_handle *sender, pocket_handle *receiver)
{
    static const uint8_t wrong[2] = {0x44, 0xC1};
    pocket_tally tally;
    unsigned t;

    for (t = 0; t < 4; t++) {
        wrong_sends(sender, receiver);
        wrong_receives(sender, receiver);
        check(send_next(sender, inputs + t, 1, 1, ROOM) == POCKET_DONE, "a packet");
        check(out.length == packets[t].length && memcmp(out.data, packets[t].data, out.length) == 0, "its data");
        check(memcmp(out.data + out.length, before.data, ROOM - out.length) == 0, "the room after its data");
        check(out.level == packets[t].level, "its level");
        if (t == 2)
            continue;
        check(receive_next(receiver, t, out.data, out.length, 2) == POCKET_DONE, "an arrival");
        check(out.finding.kind == POCKET_WRITTEN && out.finding.number == t && out.finding.value == 0, "what is found of it");
        check(out.content[0] == inputs[t] && out.content[1] == 0x5A, "its content");
        check(out.finding.lost == (t == 3) && out.finding.first_lost == (t == 3 ? 2u : 0u), "what was lost before it");
    }
    unwritten(receiver, 3, out.data, out.length, POCKET_REPEAT, "a repeat");
    unwritten(receiver, 4, packets[0].data, 1, POCKET_EARLY, "an early end");
    check(pocket_counts(receiver, &tally) == POCKET_DONE, "the counts");
    check(tally.packets == 5 && tally.written == 3 && tally.repeats == 1 && tally.listed == 2, "the numbers of the counts");
    unwritten(receiver, 5, NULL, 0, POCKET_EARLY, "null data of no byte");
    unwritten(receiver, 6, wrong, 2, POCKET_WRONG, "a wrong bit");
    unwritten(receiver, 20, packets[2].data, 2, POCKET_GAP, "a gap");
    check(pocket_receiver_reset(receiver) == POCKET_DONE, "a reset");
    unwritten(receiver, 2, packets[2].data, 2, POCKET_UNSYNCED, "a packet that builds on another one");
}

/* The same stream three times: of new ends, after a reset, and after one that follows another stream with a first mask. */
static void worked(void)
{
    pocket_handle sender = POCKET_NOTHING, receiver = POCKET_NOTHING;
    static const uint8_t mask = 0x0F, first[5] = {0x81, 0x61, 0x5C, 0x6A, 0x50}, one = 0xA5;
    uint64_t packets_sent = 5;
    pocket_tally tally;

    check(pocket_sender_open(&sender, 8, NULL, 0) == POCKET_DONE, "a sender");
    check(pocket_receiver_open(&receiver, 8) == POCKET_DONE, "a receiver");
    stream(&sender, &receiver);
    check(pocket_sender_reset(&sender, NULL, 0) == POCKET_DONE && pocket_receiver_reset(&receiver) == POCKET_DONE, "two resets");
    check(pocket_sent(&sender, &packets_sent) == POCKET_DONE && packets_sent == 0, "a sender that was reset has sent nothing");
    check(pocket_counts(&receiver, &tally) == POCKET_DONE && tally.packets + tally.written + tally.repeats + tally.listed == 0, "counts after a reset");
    stream(&sender, &receiver);
    check(pocket_sender_reset(&sender, &mask, 1) == POCKET_DONE && pocket_receiver_reset(&receiver) == POCKET_DONE, "a reset with a mask");
    check(send_next(&sender, &one, 1, 0, ROOM) == POCKET_DONE && out.length == 5 && memcmp(out.data, first, 5) == 0, "the first packet with that mask");
    check(pocket_sender_reset(&sender, NULL, 0) == POCKET_DONE && pocket_receiver_reset(&receiver) == POCKET_DONE, "two more resets");
    stream(&sender, &receiver);
    check(pocket_close(&sender) == POCKET_DONE && pocket_close(&receiver) == POCKET_DONE, "the ends");
}

/* Inputs of 13 bits: a spare bit is refused. */
static void spare(void)
{
    pocket_handle sender = POCKET_NOTHING;
    const uint8_t right[2] = {0x12, 0x38}, wrong[2] = {0x12, 0x34}, data[5] = {0x81, 0xB9, 0x62, 0x47, 0};
    uint8_t room[POCKET_PACKET_BYTES(13)], level;
    size_t length;

    check(pocket_sender_open(&sender, 13, NULL, 0) == POCKET_DONE, "a sender of 13 bits");
    check(pocket_send(&sender, wrong, 2, false, false, false, 0, room, sizeof room, &length, &level) == POCKET_SPARE_BIT, "a spare bit");
    check(pocket_send(&sender, right, 2, false, false, false, 0, room, sizeof room, &length, &level) == POCKET_DONE, "13 bits");
    check(length == 4 && memcmp(room, data, 4) == 0, "the data of 13 bits");
    check(pocket_sender_reset(&sender, wrong, 2) == POCKET_MASK_SPARE_BIT, "a reset with a spare bit of a mask");
    check(pocket_close(&sender) == POCKET_DONE, "the end of 13 bits");
}

/* Each flag alone, of zeros after a packet of zeros, and two new masks. */
static void flags(void)
{
    static const uint8_t zero = 0, one = 1, masked[2] = {0x85, 0x80}, whole[4] = {0x84, 0xE3, 0x00, 0x00}, renewed[2] = {0x47, 0xF0};
    pocket_handle first = POCKET_NOTHING, second = POCKET_NOTHING, third = POCKET_NOTHING;
    unsigned t;

    check(pocket_sender_open(&first, 8, NULL, 0) == POCKET_DONE && pocket_sender_open(&second, 8, NULL, 0) == POCKET_DONE, "two senders");
    check(send_next(&first, &zero, 1, 0, ROOM) == POCKET_DONE && send_next(&second, &zero, 1, 0, ROOM) == POCKET_DONE, "two packets");
    check(pocket_send(&first, &zero, 1, false, true, false, 0, out.data, ROOM, &out.length, &out.level) == POCKET_DONE, "a mask");
    check(out.length == 2 && memcmp(out.data, masked, 2) == 0, "the data with a mask");
    check(pocket_send(&second, &zero, 1, false, false, true, 0, out.data, ROOM, &out.length, &out.level) == POCKET_DONE, "a whole content");
    check(out.length == 4 && memcmp(out.data, whole, 4) == 0, "the data with a whole content");
    check(pocket_sender_open(&third, 8, NULL, 0) == POCKET_DONE, "a third sender");
    for (t = 0; t < 6; t++)
        check(pocket_send(&third, t == 0 ? &zero : &one, 1, t == 3 || t == 5, false, false, 1, out.data, ROOM, &out.length, &out.level) == POCKET_DONE, "a new mask");
    check(out.length == 2 && memcmp(out.data, renewed, 2) == 0 && out.level == 3, "the data after new masks");
    check(pocket_close(&first) == POCKET_DONE && pocket_close(&second) == POCKET_DONE && pocket_close(&third) == POCKET_DONE, "three ends");
}

#ifndef POCKET_NO_DESK
/* The store of the four inputs, and what is restored and reported if packet 2 is lost. */
static const uint8_t store[37] = {0x00, 0x64, 0xC0, 0, 0, 3, 0x85, 0xB8, 0xD6, 0x00, 0x00, 0x64, 0xC0, 1, 0, 3, 0x42, 0x4B, 0x8D, 0x62,
                                  0x00, 0x64, 0xC0, 2, 0, 1, 0x44, 0xC0, 0x00, 0x64, 0xC0, 3, 0, 2, 0xC0, 0x85, 0xC0};

static pocket_status command(pocket_handle *desk, const char *const *words)
{
    pocket_status status = POCKET_DONE;

    for (; *words != NULL && status == POCKET_DONE; words++)
        status = pocket_word(desk, *words);
    return status;
}

static void keeps(pocket_handle *desk, const char *name, const void *bytes, size_t length)
{
    uint8_t found[64];
    size_t given = 64;

    memset(found, 0x5A, sizeof found);
    if (length > 0) {
        check(pocket_get(desk, name, found, length - 1, &given) == POCKET_NO_ROOM && given == length, name);
        check(found[0] == 0x5A, name);
    }
    check(pocket_get(desk, name, found, length, &given) == POCKET_DONE && given == length, name);
    check(memcmp(found, bytes, length) == 0 && found[length] == 0x5A, name);
}

/* The names under which something is kept are these, and no others. */
static void named(pocket_handle *desk, const char *const *names)
{
    char from[8] = "", found[8];
    size_t known = 0, length, given;

    for (; *names != NULL; names++, known = length + 1) {
        length = strlen(*names);
        memset(found, 0x5A, sizeof found);
        if (length > 0)
            check(pocket_name_from(desk, from, known, found, length - 1, &given) == POCKET_NO_ROOM && given == length && found[0] == 0x5A, *names);
        check(pocket_name_from(desk, from, known, found, length, &given) == POCKET_DONE && given == length, *names);
        check(memcmp(found, *names, length) == 0 && found[length] == 0x5A, *names);
        memcpy(from, *names, length + 1);
    }
    given = 0x5A;
    check(pocket_name_from(desk, from, known, NULL, 0, &given) == POCKET_NOT_KEPT && given == 0x5A, "no further name");
}

static void runs(pocket_handle *desk, unsigned wanted, const char *refusal)
{
    char text[POCKET_TEXT_BYTES];
    uint8_t exit_number = 0x5A;
    size_t length = 0x5A;

    check(pocket_run(desk, text, sizeof text - 1, &length, &exit_number) == POCKET_NO_ROOM, "room for a text");
    check(length == 0x5A && exit_number == 0x5A, "a command that was not run");
    check(pocket_run(desk, text, sizeof text, &length, &exit_number) == POCKET_DONE && exit_number == wanted, refusal);
    check(length == strlen(refusal) && memcmp(text, refusal, length) == 0, refusal);
}

static void wrong_at_desk(pocket_handle *desk, pocket_handle *other, pocket_status status)
{
    char text[POCKET_TEXT_BYTES];

    remember();
    refused(pocket_put(other, "in", inputs, 4), status, "a put at no desk");
    refused(pocket_word(other, "show"), status, "a word at no desk");
    refused(pocket_run(other, text, sizeof text, &out.length, &out.level), status, "a run at no desk");
    refused(pocket_get(other, "in", out.data, ROOM, &out.length), status, "a get at no desk");
    refused(pocket_remove(other, "in"), status, "a removal at no desk");
    refused(pocket_name_from(other, "", 0, (char *)out.data, ROOM, &out.length), status, "a name at no desk");
    refused(pocket_remove(desk, "in"), POCKET_NOT_KEPT, "a removal of a name that is not kept");
    refused(pocket_name_from(desk, "", 0, (char *)out.data, ROOM, &out.length), POCKET_NOT_KEPT, "a name where none is kept");
    refused(pocket_remove(desk, "\xFF"), POCKET_NO_TEXT, "a removal of a name that is not UTF-8");
    refused(pocket_remove(NULL, "in"), POCKET_NULL, "a removal at null");
    refused(pocket_remove(desk, NULL), POCKET_NULL, "a removal of a null name");
    refused(pocket_name_from(NULL, "", 0, (char *)out.data, ROOM, &out.length), POCKET_NULL, "a name at null");
    refused(pocket_name_from(desk, NULL, 1, (char *)out.data, ROOM, &out.length), POCKET_NULL, "a name from null");
    refused(pocket_name_from(desk, "", 0, NULL, ROOM, &out.length), POCKET_NULL, "a name to null");
    refused(pocket_name_from(desk, "", 0, (char *)out.data, ROOM, NULL), POCKET_NULL, "a name with a null length");
    refused(pocket_put(desk, "\x80", inputs, 4), POCKET_NO_TEXT, "a name that is not UTF-8");
    refused(pocket_word(desk, "\xC0\x80"), POCKET_NO_TEXT, "a word that is not UTF-8");
    refused(pocket_get(desk, "\xFF", out.data, ROOM, &out.length), POCKET_NO_TEXT, "a get of a name that is not UTF-8");
    refused(pocket_put(NULL, "in", inputs, 4), POCKET_NULL, "a put at null");
    refused(pocket_put(desk, NULL, inputs, 4), POCKET_NULL, "a null name");
    refused(pocket_put(desk, "in", NULL, 4), POCKET_NULL, "null bytes");
    refused(pocket_word(NULL, "show"), POCKET_NULL, "a word at null");
    refused(pocket_word(desk, NULL), POCKET_NULL, "a null word");
    refused(pocket_run(NULL, text, sizeof text, &out.length, &out.level), POCKET_NULL, "a run at null");
    refused(pocket_run(desk, NULL, sizeof text, &out.length, &out.level), POCKET_NULL, "a null text");
    refused(pocket_run(desk, NULL, 0, &out.length, &out.level), POCKET_NULL, "a null text of no byte");
    refused(pocket_run(desk, text, sizeof text, NULL, &out.level), POCKET_NULL, "a null length of a text");
    refused(pocket_run(desk, text, sizeof text, &out.length, NULL), POCKET_NULL, "a null exit number");
    refused(pocket_get(NULL, "in", out.data, ROOM, &out.length), POCKET_NULL, "a get at null");
    refused(pocket_get(desk, NULL, out.data, ROOM, &out.length), POCKET_NULL, "a get of a null name");
    refused(pocket_get(desk, "in", NULL, ROOM, &out.length), POCKET_NULL, "a get to null");
    refused(pocket_get(desk, "in", out.data, ROOM, NULL), POCKET_NULL, "a get with a null length");
    refused(pocket_desk_open(desk), POCKET_IS_OPEN, "a second opening of a desk");
    refused(pocket_desk_open(NULL), POCKET_NULL, "a null desk to open");
    refused(send_next(desk, inputs, 1, 1, ROOM), POCKET_OTHER_KIND, "a desk that sends");
}

/* The commands over the worked stream, at a desk in memory. */
static void desk(void)
{
    static const char *const compress[] = {"compress", "in=x", "out=s", "bits=8", "apid=100", "robust=1", NULL};
    static const char *const restore[] = {"restore", "in=p", "out=b", "report=r", "bits=8", "apid=100", NULL};
    static const char *const wrong[] = {"compress", "in=x", "out=s", "bits=0", "apid=100", "robust=1", NULL};
    static const char *const cut[] = {"show", "in=cut", "out=l", "bits=8", "apid=100", NULL};
    static const char report[] = "first,last,cause,value\n2,2,lost,0\nend,3,3,0\n";
    static const uint8_t back[3] = {0xB0, 0xB1, 0xB3};
    static const char *const names[] = {"b", "cut", "p", "r", "s", "x", NULL}, *const left[] = {"", "b", "p", "r", "s", NULL};
    pocket_handle held = POCKET_NOTHING, none = POCKET_NOTHING, sender = POCKET_NOTHING;
    uint8_t played[29];
    size_t length = 0x5A;
    unsigned word;

    memcpy(played, store, 20);
    memcpy(played + 20, store + 28, 9);
    check(pocket_desk_open(&held) == POCKET_DONE && pocket_sender_open(&sender, 8, NULL, 0) == POCKET_DONE, "a desk");
    wrong_at_desk(&held, &none, POCKET_IS_CLOSED);
    wrong_at_desk(&held, &sender, POCKET_OTHER_KIND);
    keeps(&held, "x", "", 0);
    check(pocket_put(&held, "x", inputs, 4) == POCKET_DONE && pocket_put(&held, "p", played, 29) == POCKET_DONE, "two inputs");
    check(command(&held, compress) == POCKET_DONE, "the words of compress");
    runs(&held, 0, "");
    keeps(&held, "s", store, sizeof store);
    keeps(&held, "x", inputs, 4);
    check(command(&held, restore) == POCKET_DONE, "the words of restore");
    runs(&held, 0, "");
    keeps(&held, "b", back, 3);
    keeps(&held, "r", report, sizeof report - 1);
    runs(&held, 2, "word 0 is wrong");
    check(command(&held, wrong) == POCKET_DONE, "words that are wrong");
    runs(&held, 2, "word 3 is wrong");
    keeps(&held, "s", store, sizeof store);
    check(pocket_put(&held, "cut", played, 5) == POCKET_DONE && command(&held, cut) == POCKET_DONE, "a store that is cut");
    runs(&held, 4, "store packet at byte 0 is cut");
    check(pocket_put(&held, "x", NULL, 0) == POCKET_DONE, "no byte");
    keeps(&held, "x", "", 0);
    check(pocket_get(&held, "x", NULL, 0, &length) == POCKET_DONE && length == 0, "no byte to null");
    check(pocket_get(&held, "s", NULL, 0, &length) == POCKET_NO_ROOM && length == sizeof store, "bytes to null");
    check(pocket_name_from(&held, NULL, 0, NULL, 0, &length) == POCKET_NO_ROOM && length == 1, "the first name, to null");
    named(&held, names);
    check(pocket_remove(&held, "x") == POCKET_DONE && pocket_remove(&held, "x") == POCKET_NOT_KEPT, "a removal, once");
    check(pocket_remove(&held, "cut") == POCKET_DONE && pocket_put(&held, "", played, 1) == POCKET_DONE, "the empty name");
    named(&held, left);
    keeps(&held, "x", "", 0);
    keeps(&held, "s", store, sizeof store);
    check(command(&held, compress) == POCKET_DONE, "the words of compress");
    runs(&held, 1, "reading failed");
    keeps(&held, "s", store, sizeof store);
    for (word = 0; word < POCKET_MOST_WORDS; word++)
        check(pocket_word(&held, "") == POCKET_DONE, "a word");
    check(pocket_word(&held, "") == POCKET_TOO_MANY_WORDS, "a word too many");
    runs(&held, 2, "word 0 is wrong");
    check(pocket_close(&held) == POCKET_DONE && pocket_close(&held) == POCKET_IS_CLOSED && pocket_close(&sender) == POCKET_DONE, "its end");
}
#endif

int main(void)
{
    wrong_openings();
    worked();
    spare();
    flags();
#ifndef POCKET_NO_DESK
    desk();
#endif
    return counted();
}
