/* What the driver takes of the C library, on a board that has none: as much of each function as the driver needs. */
#ifndef BARE_H
#define BARE_H

#include <stddef.h>

#define stdin NULL
int printf(const char *form, ...);
char *fgets(char *line, int room, const void *from);
unsigned long strtoul(const char *text, char **rest, int base);
char *strchr(const char *text, int wanted);
size_t strcspn(const char *text, const char *ends);
size_t strlen(const char *text);
int strcmp(const char *one, const char *other);
void *memset(void *to, int value, size_t count);

#endif
