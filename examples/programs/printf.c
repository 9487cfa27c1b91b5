/* A program with a library: picolibc's printf, sort, texts, memory and mathematics. */

#include <errno.h>
#include <math.h>
#include <stdio.h>
#include <stdlib.h>
#include <string.h>

enum { STATUS = 26 };

static int by_length(const void *left, const void *right)
{
    const char *first = *(const char *const *)left;
    const char *second = *(const char *const *)right;
    size_t first_length = strlen(first);
    size_t second_length = strlen(second);
    if (first_length != second_length)
        return first_length < second_length ? -1 : 1;
    return strcmp(first, second);
}

static char *repeat(const char *text, unsigned times)
{
    char *copy = malloc(strlen(text) * times + 1);
    if (copy == NULL)
        return NULL;
    copy[0] = 0;
    for (unsigned turn = 0; turn < times; turn++)
        strcat(copy, text);
    return copy;
}

static void say_goodbye(void)
{
    printf(", and a line without its end");
}

int main(int count, char **arguments, char **environment)
{
    (void)environment;
    printf("%s has %d arguments\n", "the program", count - 1);
    for (int place = 1; place < count; place++)
        printf("%3d: %-10s|\n", place, arguments[place]);
    printf("%d %5u %-7ld| %+d %x %#o %c%%\n", -5, 77u, 123456789L, 3, 0xbeefu, 8u, 'z');
    printf("%lld %llu\n", (long long)(1ull << 63), ~0ull);
    printf("%.3f %10.2f %e %g\n", 3.14159, -2.5 * count, 6.02214076e23, 0.0001);
    printf("%.12f %.12f %.12f\n", sqrt(2.0 * count), sin(1.0 * count), log(10.0 * count));

    const char *words[] = { "a", "list", "of", "words", "sorted", "by", "length" };
    qsort(words, sizeof words / sizeof words[0], sizeof words[0], by_length);
    for (unsigned place = 0; place < sizeof words / sizeof words[0]; place++)
        printf("%s ", words[place]);
    printf("\n");

    char *text = repeat("rv", 40);
    printf("%zu bytes: %.10s..\n", text == NULL ? 0 : strlen(text), text == NULL ? "" : text);
    free(text);
    void *too_much = malloc(1ul << 40);
    printf("too much: %s\n", too_much == NULL ? "none" : "some");
    errno = 0;
    long number = strtol("99999999999999999999", NULL, 10);
    printf("%ld %s\n", number, errno == ERANGE ? "out of range" : "in range");
    atexit(say_goodbye);
    printf("the end");
    return STATUS;
}
