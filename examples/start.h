/* What start.c gives to a program without a library: Linux's calls, and a few functions to print.

   A program has a function main as any other; its answer is the status that the program ends with. */

#ifndef START_H
#define START_H

#include <stddef.h>
#include <stdint.h>

enum { STANDARD_OUTPUT = 1, STANDARD_ERROR = 2 };

enum { CALL_WRITE = 64, CALL_EXIT_GROUP = 94 };

int main(int count, char **arguments, char **environment);

/* Makes the call of that number, and gives its answer: a number from -4095 to -1 is an error. */
long system_call(long number, long first, long second, long third);

/* Ends the program with this status, of which Linux keeps the lowest 8 bits. */
__attribute__((noreturn)) void end_program(int status);

/* Is called with main's answer, and ends the program. A library's own may stand in its place, to end the library first. */
__attribute__((noreturn)) void finish(int status);

/* Writes all bytes to a descriptor. Gives 0, or the error of the call that failed. */
long write_all(int descriptor, const void *bytes, size_t length);

/* These write to standard output; where that fails they end the program with status 74. */
void print(const char *text);
void print_bytes(const void *bytes, size_t length);
void print_unsigned(unsigned long number);
void print_signed(long number);
void print_hexadecimal(unsigned long number, int digits);

/* Writes a name, ": ", a number and a new line. */
void print_named(const char *name, unsigned long number);

/* The bytes before the zero that ends a text. */
size_t length_of(const char *text);

/* A compiler may call these where the source has no call. */
void *memcpy(void *to, const void *from, size_t length);
void *memmove(void *to, const void *from, size_t length);
void *memset(void *to, int byte, size_t length);
int memcmp(const void *left, const void *right, size_t length);

#endif
