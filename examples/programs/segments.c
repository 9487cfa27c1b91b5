/* Data, data that begins as zeros, constants, and a stack that grows over many pages. */

#include "../start.h"

enum { STATUS = 21, PAGE = 4096, DEPTH = 300, PAGES_OF_ZEROS = 40 };

static uint32_t changed[5] = { 1, 2, 3, 4, 5 };
static uint64_t pages[PAGES_OF_ZEROS * PAGE / 8];
static const uint16_t constants[] = { 2, 3, 5, 7, 11, 13, 17, 19, 23, 29 };
static char text_to_change[] = "a text in data";
static const char text[] = "a text among the constants";
static int last_of_zeros;

/* Writes to each page of a large array on the stack, and reads it back when those below it are done. */
static uint64_t deep(unsigned depth)
{
    volatile uint64_t page[PAGE / 8];
    page[0] = depth;
    page[PAGE / 8 - 1] = depth * 3;
    uint64_t below = depth == 0 ? 0 : deep(depth - 1);
    return below + page[0] + page[PAGE / 8 - 1];
}

/* An array of a length that is known when the program runs. */
static uint64_t wide(unsigned length)
{
    volatile uint8_t bytes[length];
    for (unsigned at = 0; at < length; at += 509)
        bytes[at] = at;
    bytes[length - 1] = 77;
    uint64_t sum = 0;
    for (unsigned at = 0; at < length; at += 509)
        sum += bytes[at];
    return sum * 256 + bytes[length - 1];
}

int main(int count, char **arguments, char **environment)
{
    (void)arguments, (void)environment;
    uint64_t sum = 0;
    for (unsigned at = 0; at < sizeof pages / sizeof pages[0]; at += 8)
        sum += pages[at];
    print_named("zeros", sum + last_of_zeros);
    for (unsigned page = 0; page < PAGES_OF_ZEROS; page++)
        pages[page * PAGE / 8 + page] = page * page;
    for (unsigned page = 0; page < PAGES_OF_ZEROS; page++)
        sum += pages[page * PAGE / 8 + page];
    print_named("sum of squares", sum);
    for (int place = 0; place < 5; place++)
        changed[place] *= changed[(place + count) % 5];
    for (int place = 0; place < 5; place++)
        print_named("changed", changed[place]);
    sum = 0;
    for (unsigned place = 0; place < sizeof constants / sizeof constants[0]; place++)
        sum += constants[place];
    print_named("sum of constants", sum);
    text_to_change[0] = 'A';
    print(text_to_change);
    print("\n");
    print(text);
    print("\n");
    print_named("deep", deep(DEPTH));
    print_named("deep again", deep(DEPTH / 2));
    print_named("wide", wide(PAGE * 25 + count));
    last_of_zeros += count;
    print_named("last", last_of_zeros);
    return STATUS;
}
