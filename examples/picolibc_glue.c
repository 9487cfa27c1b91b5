/* What picolibc wants of the system below it: streams, and an end. */

#include <stdio.h>
#include <stdlib.h>
#include <unistd.h>

#include "start.h"

static char line[256];
static size_t used;

static int flush(FILE *stream)
{
    (void)stream;
    long error = write_all(STANDARD_OUTPUT, line, used);
    used = 0;
    return error == 0 ? 0 : EOF;
}

/* Bytes are written by lines, and where the room for a line is full. */
static int put(char byte, FILE *stream)
{
    line[used++] = byte;
    return byte == '\n' || used == sizeof line ? flush(stream) : 0;
}

static FILE output = FDEV_SETUP_STREAM(put, NULL, flush, _FDEV_SETUP_WRITE);

/* Both go to standard output, so that their lines stay in order. */
FILE *const stdout = &output;
FILE *const stderr = &output;

void finish(int status)
{
    exit(status);
}

void _exit(int status)
{
    flush(stdout);
    end_program(status);
}
