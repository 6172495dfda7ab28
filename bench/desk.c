/* desk: how deep the stack of pocket_run is for each verb, what it calls of the C library included, for tests/test_library.py. The commands work
 * on two hundred packets of 1,024 bits, of which some are lost. It prints each verb and its bytes.
 */
#define _XOPEN_SOURCE 700
#include "../library/pocket.h"
#include "depth.h"
#include <stdio.h>

enum { BYTES = 128, PACKETS = 200 };
static pocket_handle desk = POCKET_NOTHING;
static uint8_t recording[BYTES * PACKETS], exit_number;
static uint32_t status;

/* One after another: what one writes another reads. */
static const char *const commands[] = {
    "compress in=x out=s bits=1024 apid=100 robust=2 plan=plan", "play in=s out=a report=r apid=100 script=loss",
    "restore in=a out=b report=r bits=1024 apid=100", "show in=a out=l bits=1024 apid=100",
    "trial seed=1 packets=200 bits=1024 robust=2 out=r", "multi in=a out=b report=r streams=streams",
    "late in=a out=b report=r bits=1024 apid=100 window=64", "table in=x out=t report=r fields=fields bits=1024",
    "forecast out=f packets=200 robust=2 plan=plan script=loss" };
static const char *const texts[][2] = { { "plan", "20,4294967295,20,p\n50,4294967295,50,f\n100,4294967295,100,r\n" }, { "loss", "drop,9,199,53\ndrop,70,72,1\n" },
                                        { "streams", "100,1024\n" }, { "fields", "field,0,16,u,a\nfield,16,16,s,b\nlimit,a,1,2\n" } };

static void put(const char *name, const uint8_t *bytes, size_t length)
{
    status |= pocket_put(&desk, name, bytes, length);
}

static void run(void)
{
    char text[POCKET_TEXT_BYTES];
    size_t length;
    status |= pocket_run(&desk, text, sizeof text, &length, &exit_number);
}

static void nothing(void)
{
}

int main(void)
{
    size_t at, base = depth_of(nothing);
    status |= pocket_desk_open(&desk);
    for (at = 0; at < sizeof recording; at++)
        recording[at] = at >= BYTES ? recording[at - BYTES] ^ (at * 2654435761u >> 13 & 63) % 40 / 39 : (uint8_t)at;
    put("x", recording, sizeof recording);
    for (at = 0; at < sizeof texts / sizeof *texts; at++)
        put(texts[at][0], (const uint8_t *)texts[at][1], strlen(texts[at][1]));
    for (at = 0; at < sizeof commands / sizeof *commands; at++) {
        char word[64], verb[16];
        const char *left = commands[at];
        int next;
        sscanf(left, "%15s", verb);
        for (; sscanf(left, "%63s%n", word, &next) == 1; left += next)
            status |= pocket_word(&desk, word);
        printf("%s %zu ", verb, depth_of(run) - base);
        if (status || exit_number)
            return 1;
    }
    printf("\n");
    return 0;
}
