/* What the process begins with: arguments, environment, auxiliary pairs, and where they lie.

   Addresses, user numbers and random bytes are the system's choice, so they aren't written, but what can be said of them
   is. Of the auxiliary pairs those are written that each system gives; others may stand between them, in any order. */

#include "../start.h"

enum { STATUS = 20 };

enum tag {
    END = 0, HEADERS = 3, HEADER_SIZE = 4, HEADER_COUNT = 5, PAGE_SIZE = 6, ENTRY = 9, USER = 11, EFFECTIVE_USER = 12,
    GROUP = 13, EFFECTIVE_GROUP = 14, HARDWARE = 16, SECURE = 23, RANDOM = 25, FILE_NAME = 31,
};

static const enum tag tags[] = {
    HEADERS, HEADER_SIZE, HEADER_COUNT, PAGE_SIZE, ENTRY, USER, EFFECTIVE_USER, GROUP, EFFECTIVE_GROUP, HARDWARE, SECURE,
    RANDOM, FILE_NAME,
};

/* The instruction sets that the hardware has are bits, from A on. A system may have more than these, as those of floats. */
enum { SETS_I_M_A_C = 1 << ('I' - 'A') | 1 << ('M' - 'A') | 1 << ('A' - 'A') | 1 << ('C' - 'A') };

extern char _start[];

static char zeros[64];

static uint64_t pair(const uint64_t *pairs, enum tag tag, int *found)
{
    *found = 0;
    for (; pairs[0] != END; pairs += 2)
        if (pairs[0] == tag) {
            *found += 1;
            return pairs[1];
        }
    return 0;
}

static uint64_t value(const uint64_t *pairs, enum tag tag)
{
    int found;
    return pair(pairs, tag, &found);
}

static void print_list(const char *name, char **texts)
{
    for (int place = 0; texts[place] != NULL; place++) {
        print(name);
        print(" ");
        print_unsigned(place);
        print(" ");
        print_unsigned(length_of(texts[place]));
        print(" [");
        print(texts[place]);
        print("]\n");
    }
}

/* Whether each text begins where the one before it ends. */
static int are_joined(char **texts)
{
    for (int place = 1; texts[0] != NULL && texts[place] != NULL; place++)
        if (texts[place] != texts[place - 1] + length_of(texts[place - 1]) + 1)
            return 0;
    return 1;
}

static int are_equal(const char *left, const char *right)
{
    return length_of(left) == length_of(right) && memcmp(left, right, length_of(left)) == 0;
}

/* The program headers, which lie in memory as they lie in the file: how many segments are loaded with which rights. */
struct program_header { uint32_t type, flags; uint64_t offset, address, physical, file_size, size, alignment; };

static void print_headers(const struct program_header *headers, uint64_t count)
{
    int loaded = 0, executable = 0, writable = 0, both = 0;
    for (uint64_t place = 0; place < count; place++)
        if (headers[place].type == 1) {
            loaded++;
            executable += headers[place].flags & 1;
            writable += headers[place].flags >> 1 & 1;
            both += (headers[place].flags & 3) == 3;
        }
    print_named("segments are loaded", loaded != 0);
    print_named("executable segments", executable);
    print_named("writable segments", writable);
    print_named("segments that are both", both);
}

int main(int count, char **arguments, char **environment)
{
    char **end_of_environment = environment;
    while (*end_of_environment != NULL)
        end_of_environment++;
    const uint64_t *pairs = (const uint64_t *)(end_of_environment + 1);
    const uint64_t *stack = (const uint64_t *)arguments - 1;

    print_named("arguments", count);
    print_list("argument", arguments);
    print_named("texts in the environment", end_of_environment - environment);
    print_list("environment", environment);
    print_named("the first word is the number of arguments", stack[0] == (uint64_t)count);
    print_named("sp modulo 16", (uintptr_t)stack % 16);
    print_named("arguments are joined", are_joined(arguments));
    print_named("environment is joined", are_joined(environment));
    print_named("texts lie above the words", (uintptr_t)arguments[0] > (uintptr_t)pairs);

    for (unsigned place = 0; place < sizeof tags / sizeof tags[0]; place++) {
        int found;
        pair(pairs, tags[place], &found);
        print_named(found ? "tag" : "no tag", tags[place]);
    }
    print_named("page size", value(pairs, PAGE_SIZE));
    print_named("size of a program header", value(pairs, HEADER_SIZE));
    print_named("entry is _start", value(pairs, ENTRY) == (uintptr_t)_start);
    print_named("secure", value(pairs, SECURE));
    print_named("users are the same", value(pairs, USER) == value(pairs, EFFECTIVE_USER));
    print_named("groups are the same", value(pairs, GROUP) == value(pairs, EFFECTIVE_GROUP));
    print_named("sets I, M, A and C", (value(pairs, HARDWARE) & SETS_I_M_A_C) == SETS_I_M_A_C);
    print_named("file name is the first argument", are_equal((const char *)value(pairs, FILE_NAME), arguments[0]));
    print_named("random bytes aren't all 0", memcmp((const void *)value(pairs, RANDOM), zeros, 16) != 0);
    print_headers((const struct program_header *)value(pairs, HEADERS), value(pairs, HEADER_COUNT));

    /* The texts are the program's own, and can be written. */
    arguments[0][0] = '#';
    print(arguments[0]);
    print("\n");
    return STATUS + count - 1;
}
