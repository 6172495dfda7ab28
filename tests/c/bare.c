/* The functions of bare.h over a board of library/examples (board.h). */
#include "bare.h"
#include "board.h"
#include <stdarg.h>
#include <stdbool.h>

static void put(const char *text)
{
    board_write((const uint8_t *)text, strlen(text));
}

/* A number in decimal digits, which double bit by bit: a division of 64 bits is a call of the compiler's own. */
static void put_number(unsigned long long number)
{
    char digits[] = "00000000000000000000", *first = digits;
    int bit, at, carry;
    for (bit = 64; bit > 0 && number >> 63 == 0; bit--)
        number <<= 1;
    for (; bit > 0; bit--, number <<= 1)
        for (at = 19, carry = (int)(number >> 63); at >= 0; at--) {
            const int twice = 2 * (digits[at] - '0') + carry;
            carry = twice > 9;
            digits[at] = (char)('0' + twice - 10 * carry);
        }
    while (first[0] == '0' && first[1])
        first++;
    put(first);
}

/* The forms %s, %u, %d of a number that is not below 0, and %llu. */
int printf(const char *form, ...)
{
    va_list given;
    va_start(given, form);
    while (*form) {
        const size_t plain = strcspn(form, "%");
        board_write((const uint8_t *)form, plain);
        form += plain;
        if (*form == 0)
            break;
        form++;
        if (*form == 's')
            put(va_arg(given, const char *));
        else if (*form == 'l') {
            put_number(va_arg(given, unsigned long long));
            form += 2;
        } else
            put_number(va_arg(given, unsigned));
        form++;
    }
    va_end(given);
    return 0;
}

char *fgets(char *line, int room, const void *from)
{
    int at = 0;
    (void)from;
    while (at < room - 1 && board_read((uint8_t *)line + at, 1) == 1 && line[at++] != '\n')
        ;
    line[at] = 0;
    return at == 0 ? NULL : line;
}

unsigned long strtoul(const char *text, char **rest, int base)
{
    unsigned long number = 0;
    (void)rest;
    for (; *text >= '0' && *text <= '9'; text++)
        number = number * (unsigned long)base + (unsigned long)(*text - '0');
    return number;
}

size_t strcspn(const char *text, const char *ends)
{
    size_t at = 0;
    while (text[at] && text[at] != ends[0])
        at++;
    return at;
}

char *strchr(const char *text, int wanted)
{
    const char end[2] = { (char)wanted, 0 };
    const size_t at = strcspn(text, end);
    return text[at] == (char)wanted ? (char *)text + at : NULL;
}

size_t strlen(const char *text)
{
    return strcspn(text, "");
}

int strcmp(const char *one, const char *other)
{
    while (*one && *one == *other)
        one++, other++;
    return *one - *other;
}
