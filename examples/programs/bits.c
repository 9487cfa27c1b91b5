/* Tricks with bits, each in a slow and plain way and in a quick one, on the same numbers. */

#include "../start.h"

enum { NUMBERS = 200, STATUS = 16 };

static int plain_ones(uint64_t number)
{
    int ones = 0;
    for (int place = 0; place < 64; place++)
        ones += number >> place & 1;
    return ones;
}

static int quick_ones(uint64_t number)
{
    number -= number >> 1 & 0x5555555555555555;
    number = (number & 0x3333333333333333) + (number >> 2 & 0x3333333333333333);
    number = (number + (number >> 4)) & 0x0f0f0f0f0f0f0f0f;
    return number * 0x0101010101010101 >> 56;
}

static int plain_leading_zeros(uint64_t number)
{
    int zeros = 0;
    while (zeros < 64 && (number >> (63 - zeros) & 1) == 0)
        zeros++;
    return zeros;
}

static int quick_leading_zeros(uint64_t number)
{
    for (int shift = 1; shift < 64; shift *= 2)
        number |= number >> shift;
    return quick_ones(~number);
}

static int plain_trailing_zeros(uint64_t number)
{
    int zeros = 0;
    while (zeros < 64 && (number >> zeros & 1) == 0)
        zeros++;
    return zeros;
}

static int quick_trailing_zeros(uint64_t number)
{
    return quick_ones(~number & (number - 1));
}

static uint64_t plain_reverse(uint64_t number)
{
    uint64_t reversed = 0;
    for (int place = 0; place < 64; place++)
        reversed |= (number >> place & 1) << (63 - place);
    return reversed;
}

static uint64_t swap_bytes(uint64_t number)
{
    number = (number & 0x00ff00ff00ff00ff) << 8 | (number >> 8 & 0x00ff00ff00ff00ff);
    number = (number & 0x0000ffff0000ffff) << 16 | (number >> 16 & 0x0000ffff0000ffff);
    return number << 32 | number >> 32;
}

static uint64_t quick_reverse(uint64_t number)
{
    number = (number & 0x5555555555555555) << 1 | (number >> 1 & 0x5555555555555555);
    number = (number & 0x3333333333333333) << 2 | (number >> 2 & 0x3333333333333333);
    number = (number & 0x0f0f0f0f0f0f0f0f) << 4 | (number >> 4 & 0x0f0f0f0f0f0f0f0f);
    return swap_bytes(number);
}

static uint64_t rotate_left(uint64_t number, int places)
{
    return number << (places & 63) | number >> (-places & 63);
}

static uint32_t rotate_word_right(uint32_t word, int places)
{
    return word >> (places & 31) | word << (-places & 31);
}

static uint64_t next(uint64_t *state)
{
    *state ^= *state << 13;
    *state ^= *state >> 7;
    *state ^= *state << 17;
    return *state;
}

int main(int count, char **arguments, char **environment)
{
    (void)count, (void)arguments, (void)environment;
    uint64_t state = 88172645463325252;
    uint64_t mixed = 0;
    int ones = 0, leading = 0, trailing = 0, alike = 0;
    for (int turn = 0; turn < NUMBERS; turn++) {
        uint64_t number = turn == 0 ? 0 : next(&state) >> turn % 64 << turn % 23;
        ones += quick_ones(number);
        leading += quick_leading_zeros(number);
        trailing += quick_trailing_zeros(number);
        alike += quick_ones(number) == plain_ones(number)
            && quick_leading_zeros(number) == plain_leading_zeros(number)
            && quick_trailing_zeros(number) == plain_trailing_zeros(number)
            && quick_reverse(number) == plain_reverse(number);
        mixed = rotate_left(mixed, turn) ^ number;
        mixed += rotate_word_right(number, turn);
        mixed ^= (uint64_t)((int64_t)number >> turn % 64);
        mixed += (int64_t)((int32_t)number >> turn % 32);
    }
    print_named("ones", ones);
    print_named("leading zeros", leading);
    print_named("trailing zeros", trailing);
    print_named("numbers on which both ways agree", alike);
    print_hexadecimal(mixed, 16);
    print("\n");
    print_hexadecimal(swap_bytes(0x0123456789abcdef), 16);
    print("\n");
    print_hexadecimal(quick_reverse(0x0123456789abcdef), 16);
    print("\n");
    return STATUS;
}
