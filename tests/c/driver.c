/* Both ends of a link, driven by lines of standard input: what each call gives is printed, so that the output of two processors can be
 * compared. One source is compiled for each processor; with -DPOCKET_DESK it has the calls of a desk in memory too, with
 * -DPOCKET_ONE_FILE it opens in memory of its own, as the one file does; with -DPOCKET_BARE it takes no C library.
 *
 *   open BITS MASK               opens a sender and a receiver; the mask in hexadecimal, or - for none
 *   send FLAGS ROBUST ON INPUT   sends an input, flags 1 new mask, 2 send mask, 4 whole content; then, by ON, the packet is lost (0), is
 *                                received (1), is received twice (2), or is received with one bit turned (3)
 *   receive COUNT DATA           hands an arrival to the receiver
 *   reset MASK                   begins a new stream at both, with this first mask
 *   close                        tells the counts, the packets sent and the bits, and closes both
 *   desk, end                    opens a desk, and closes it
 *   put NAME BYTES, word WORD, run, get NAME
 *   save                         prints the states of the sender and the receiver
 *   resume SENT SENDER RECEIVER  loads states, after so many packets were sent
 */
#define POCKET_PROVED_NAMES
#include "../../library/pocket.h"
#ifdef POCKET_BARE
#include "bare.h"
#else
#include <stdio.h>
#include <stdlib.h>
#include <string.h>
#endif

#ifndef DRIVER_ROOM
#define DRIVER_ROOM (1 << 20)
#endif
enum { ROOM = DRIVER_ROOM };
static char line[2 * ROOM + 1000];
static uint8_t in[ROOM + 1], data[ROOM], content[ROOM];
static pocket_handle sender, receiver;
static uint32_t bits;
static unsigned sent;

static unsigned digit_of(char c) {
    return (unsigned)(c <= '9' ? c - '0' : c - 'A' + 10);
}

/* The bytes of a text of hexadecimal digits, and how many there are: none of "-". */
static size_t bytes_of(const char *text) {
    size_t len = 0;
    for (; len < ROOM && text[0] && text[1]; text += 2)
        in[len++] = (uint8_t)(digit_of(text[0]) << 4 | digit_of(text[1]));
    return len;
}

static void show(const char *what, const uint8_t *bytes, size_t len) {
    static const char digits[] = "0123456789ABCDEF";
    static char text[2 * ROOM + 1];
    for (size_t i = 0; i < len; i++) {
        text[2 * i] = digits[bytes[i] >> 4];
        text[2 * i + 1] = digits[bytes[i] & 15];
    }
    text[2 * len] = 0;
    printf(" %s %s", what, text);
}

#ifdef POCKET_ONE_FILE
static uint8_t memory[2][340000];

static uint32_t open_sender(size_t mask_len) {
    return pocket_sender_open_in(&sender, memory[0], sizeof *memory, bits, in, mask_len);
}

static uint32_t open_receiver(void) {
    return pocket_receiver_open_in(&receiver, memory[1], sizeof *memory, bits);
}
#else
static uint32_t open_sender(size_t mask_len) {
    return pocket_sender_open(&sender, bits, in, mask_len);
}

static uint32_t open_receiver(void) {
    return pocket_receiver_open(&receiver, bits);
}
#endif

static void save(void) {
    size_t len = 0;
    printf("saved %u", pocket_save(&sender, data, sizeof data, &len));
    show("sender", data, len);
    printf(" %u", pocket_save(&receiver, data, sizeof data, &len));
    show("receiver", data, len);
    printf("\n");
}

static void resume(unsigned count, const char *of_sender, const char *of_receiver) {
    sent = count;
    size_t len = bytes_of(of_sender);
    printf("resumed %u", pocket_load(&sender, in, len));
    len = bytes_of(of_receiver);
    printf(" %u\n", pocket_load(&receiver, in, len));
}

/* Opens or resets both ends, with a first mask. */
static void begin_both(const char *verb, bool opens, const char *mask) {
    size_t len = bytes_of(mask);
    sent = 0;
    printf("%s %u", verb, opens ? open_sender(len) : pocket_sender_reset(&sender, in, len));
    printf(" %u\n", opens ? open_receiver() : pocket_receiver_reset(&receiver));
}

static void receive(unsigned count, const uint8_t *bytes, size_t len) {
    pocket_finding f = { 0 };
    memset(content, 0xEE, (bits + 7) / 8);
    uint32_t status = pocket_receive(&receiver, (uint16_t)count, bytes, len, content, sizeof content, &f);
    printf("received %u", status);
    if (status == 0) {
        printf(" number %llu lost %llu from %llu kind %u %u mask %d", (unsigned long long)f.number, (unsigned long long)f.lost,
               (unsigned long long)f.first_lost, f.kind, f.value, f.mask_alone);
        if (f.kind == 0)
            show("content", content, (bits + 7) / 8);
    }
    printf("\n");
}

static void send_one(unsigned flags, unsigned robust, unsigned on, const char *input) {
    size_t len = 0;
    uint8_t level = 0;
    size_t input_len = bytes_of(input);
    uint32_t status =
        pocket_send(&sender, in, input_len, flags & 1, flags >> 1 & 1, flags >> 2 & 1, (uint8_t)robust, data, sizeof data, &len, &level);
    printf("sent %u", status);
    if (status != 0) {
        printf("\n");
        return;
    }
    printf(" level %u", level);
    show("data", data, len);
    printf("\n");
    if (on == 3)
        data[(sent * 7) % len] ^= (uint8_t)(1u << (sent % 8));
    for (unsigned i = 0; i < (on == 3 ? 1 : on); i++)
        receive(sent % 16384, data, len);
    sent++;
}

static void close_both(void) {
    pocket_tally c = { 0 };
    uint64_t packets = 0;
    uint32_t one = 0, other = 0, status;
    printf("counts %u", pocket_counts(&receiver, &c));
    printf(" packets %llu written %llu repeats %llu listed %llu", (unsigned long long)c.packets, (unsigned long long)c.written,
           (unsigned long long)c.repeats, (unsigned long long)c.listed);
    status = pocket_sent(&sender, &packets);
    printf(" sent %u %llu %u", status, (unsigned long long)packets, pocket_sent(&receiver, &packets));
    status = pocket_bits(&sender, &one);
    printf(" bits %u %u", status, one);
    status = pocket_bits(&receiver, &other);
    printf(" %u %u", status, other);
    printf(" closed %u", pocket_close(&sender));
    printf(" %u", pocket_close(&receiver));
    printf(" again %u %u\n", pocket_close(&sender), pocket_close(&receiver));
}

#ifdef POCKET_DESK
static pocket_handle desk;

static void run(void) {
    uint8_t text[128], exit = 0;
    size_t len = 0;
    uint32_t status = pocket_run(&desk, text, sizeof text, &len, &exit);
    printf("ran %u exit %u text %.*s\n", status, exit, (int)len, (const char *)text);
}

static void get(const char *name) {
    size_t len = 0;
    uint32_t status = pocket_get(&desk, (const uint8_t *)name, strlen(name), content, sizeof content, &len);
    printf("got %u %zu", status, len);
    if (status == 0)
        show("bytes", content, len);
    printf("\n");
}

static bool at_desk(const char *verb, const char *name, const char *rest) {
    if (!strcmp(verb, "desk"))
        printf("desk %u\n", pocket_desk_open(&desk));
    else if (!strcmp(verb, "end"))
        printf("end %u\n", pocket_close(&desk));
    else if (!strcmp(verb, "put")) {
        size_t len = bytes_of(rest);
        printf("put %u\n", pocket_put(&desk, (const uint8_t *)name, strlen(name), in, len));
    } else if (!strcmp(verb, "word"))
        printf("word %u\n", pocket_word(&desk, (const uint8_t *)name, strlen(name)));
    else if (!strcmp(verb, "run"))
        run();
    else if (!strcmp(verb, "get"))
        get(name);
    else
        return false;
    return true;
}
#else
static bool at_desk(const char *verb, const char *name, const char *rest) {
    (void)verb, (void)name, (void)rest;
    return false;
}
#endif

/* The words of the line: each ends at a space, which is overwritten. */
static char *next_word(char **from) {
    char *word = *from, *space = strchr(word, ' ');
    *from = space ? space + 1 : word + strlen(word);
    if (space)
        *space = 0;
    return word;
}

static unsigned next_number(char **from) {
    return (unsigned)strtoul(next_word(from), NULL, 10);
}

int main(void) {
    while (fgets(line, sizeof line, stdin)) {
        char *from = line;
        line[strcspn(line, "\n")] = 0;
        char *verb = next_word(&from);
        if (!strcmp(verb, "open")) {
            bits = next_number(&from);
            begin_both(verb, true, next_word(&from));
        } else if (!strcmp(verb, "send")) {
            unsigned flags = next_number(&from), robust = next_number(&from), on = next_number(&from);
            send_one(flags, robust, on, next_word(&from));
        } else if (!strcmp(verb, "receive")) {
            unsigned count = next_number(&from);
            size_t len = bytes_of(next_word(&from));
            receive(count, in, len);
        } else if (!strcmp(verb, "reset"))
            begin_both(verb, false, next_word(&from));
        else if (!strcmp(verb, "close"))
            close_both();
        else if (!strcmp(verb, "save"))
            save();
        else if (!strcmp(verb, "resume")) {
            unsigned count = next_number(&from);
            char *of_sender = next_word(&from);
            resume(count, of_sender, next_word(&from));
        } else {
            char *name = next_word(&from);
            if (!at_desk(verb, name, next_word(&from)))
                return 2;
        }
    }
    return 0;
}
