/* Quotients and remainders of 64 and 32 bits, of all signs, also where C leaves open what comes: by zero, and of the
   least number by -1. These are the manual's: all bits set and the dividend, and the dividend and 0. */

#include "../start.h"

enum { STATUS = 15 };

static const uint64_t samples[] = {
    0, 1, 2, 3, 7, 10, 0x7fffffff, 0x80000000, 0xffffffff, 0x100000001, 0x7fffffffffffffff, 0x8000000000000000,
    0x123456789abcdef, -1ul, -2ul, -7ul, -10ul, -0x80000000ul, -0x123456789abcdeful,
};

enum { SAMPLES = sizeof samples / sizeof samples[0] };

#define INSTRUCTION(name) \
    static uint64_t name(uint64_t left, uint64_t right) \
    { \
        uint64_t result; \
        __asm__ volatile(#name " %0, %1, %2" : "=r"(result) : "r"(left), "r"(right)); \
        return result; \
    }

INSTRUCTION(div)
INSTRUCTION(divu)
INSTRUCTION(rem)
INSTRUCTION(remu)
INSTRUCTION(divw)
INSTRUCTION(divuw)
INSTRUCTION(remw)
INSTRUCTION(remuw)
INSTRUCTION(mulh)
INSTRUCTION(mulhu)
INSTRUCTION(mulhsu)

static const struct { const char *name; uint64_t (*make)(uint64_t left, uint64_t right); } operations[] = {
    { "div", div }, { "divu", divu }, { "rem", rem }, { "remu", remu }, { "divw", divw }, { "divuw", divuw },
    { "remw", remw }, { "remuw", remuw }, { "mulh", mulh }, { "mulhu", mulhu }, { "mulhsu", mulhsu },
};

/* Whether the quotient and the remainder fit together, by C's own operators. */
static int fit(int64_t left, int64_t right)
{
    if (right == 0 || (right == -1 && left == INT64_MIN))
        return 1;
    int64_t quotient = left / right;
    int64_t remainder = left % right;
    int rounded_to_zero = remainder == 0 || (remainder < 0) == (left < 0);
    uint64_t size = remainder < 0 ? 0 - (uint64_t)remainder : (uint64_t)remainder;
    uint64_t bound = right < 0 ? 0 - (uint64_t)right : (uint64_t)right;
    uint64_t back = (uint64_t)quotient * (uint64_t)right + (uint64_t)remainder;
    return rounded_to_zero && size < bound && back == (uint64_t)left
        && (uint64_t)quotient == div(left, right) && (uint64_t)remainder == rem(left, right);
}

static void print_signs(long left, long right)
{
    print_signed(left);
    print(" by ");
    print_signed(right);
    print(" is ");
    print_signed(left / right);
    print(" rest ");
    print_signed(left % right);
    print("\n");
}

int main(int count, char **arguments, char **environment)
{
    (void)arguments, (void)environment;
    print_signs(7 * count, 2);
    print_signs(-7 * count, 2);
    print_signs(7 * count, -2);
    print_signs(-7 * count, -2);
    print_named("least by -1", div(0x8000000000000000, -1ul));
    print_named("7 by 0", div(7, 0));
    print_named("rest of 7 by 0", rem(7, 0));
    for (unsigned operation = 0; operation < sizeof operations / sizeof operations[0]; operation++) {
        uint64_t sum = 0;
        for (int left = 0; left < SAMPLES; left++)
            for (int right = 0; right < SAMPLES; right++)
                sum = sum * 1099511628211u + operations[operation].make(samples[left], samples[right]);
        print(operations[operation].name);
        print(" ");
        print_hexadecimal(sum, 16);
        print("\n");
    }
    int good = 0;
    for (int left = 0; left < SAMPLES; left++)
        for (int right = 0; right < SAMPLES; right++)
            good += fit(samples[left], samples[right]);
    print_named("pairs that fit", good);
    print_named("of", SAMPLES * SAMPLES);
    unsigned __int128 product = (unsigned __int128)0xfedcba9876543210 * 0x123456789abcdef;
    print_hexadecimal(product >> 64, 16);
    print_hexadecimal(product, 16);
    print("\n");
    return STATUS;
}
