/*
 * pocket-program.c @VERSION@: the program `pocket` in one C99 file, for any POSIX system of 32 or 64 bits, whichever end comes first:
 *
 *     cc -O2 -o pocket pocket-program.c
 *
 * It is the program over files that are read whole: an input is read to its end, also a pipe, before the command begins, and the outputs are
 * written after it is done, each to NAME.part, which takes the name if all are written. So a pass can't be watched as it comes, a command
 * that is refused leaves no NAME.part unless writing failed, and a terminal is told no progress and no second line of a refusal.
 *
 * Where the proof ends. The functions of the generated part are written in Rattle and proved; this file is made from the module of the
 * proved library and compiled another way: compared with the program, not proved. What stands outside the generated part is written by hand.
 *
 * Made by `make dist` from the sources of the project: no change is made here.
 */
#define _XOPEN_SOURCE 700
#include <errno.h>
#include <fcntl.h>
#include <signal.h>
#include <stdbool.h>
#include <stdint.h>
#include <stdio.h>
#include <stdlib.h>
#include <string.h>
#include <sys/stat.h>
#include <unistd.h>
