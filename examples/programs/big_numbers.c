/* The factorial of 200, the 1000th Fibonacci number, and the digits of 2 to the power of 1024 as a check: the sum of the
   digits, and the rest after division by 97. A number is kept as limbs of nine decimal digits, the lowest first. */

#include "../start.h"

enum { LIMBS = 48, BASE = 1000000000, STATUS = 13 };

struct number { int used; uint32_t limbs[LIMBS]; };

static void set(struct number *number, uint32_t value)
{
    number->used = 1;
    number->limbs[0] = value;
}

static void multiply(struct number *number, uint32_t factor)
{
    uint64_t carry = 0;
    for (int place = 0; place < number->used; place++) {
        carry += (uint64_t)number->limbs[place] * factor;
        number->limbs[place] = carry % BASE;
        carry /= BASE;
    }
    if (carry != 0)
        number->limbs[number->used++] = carry;
}

static uint32_t limb(const struct number *number, int place)
{
    return place < number->used ? number->limbs[place] : 0;
}

static void add(struct number *number, const struct number *other)
{
    int used = number->used > other->used ? number->used : other->used;
    uint32_t carry = 0;
    for (int place = 0; place < used; place++) {
        carry += limb(number, place) + limb(other, place);
        number->limbs[place] = carry % BASE;
        carry /= BASE;
    }
    number->used = used;
    if (carry != 0)
        number->limbs[number->used++] = carry;
}

static uint32_t rest(const struct number *number, uint32_t divisor)
{
    uint64_t value = 0;
    for (int place = number->used; place-- > 0;)
        value = (value * BASE + number->limbs[place]) % divisor;
    return value;
}

static uint32_t sum_of_digits(const struct number *number)
{
    uint32_t sum = 0;
    for (int place = 0; place < number->used; place++)
        for (uint32_t limb = number->limbs[place]; limb != 0; limb /= 10)
            sum += limb % 10;
    return sum;
}

static void print_number(const char *name, const struct number *number)
{
    print(name);
    print(": ");
    print_unsigned(number->limbs[number->used - 1]);
    for (int place = number->used - 1; place-- > 0;)
        for (uint32_t unit = BASE / 10; unit != 0; unit /= 10)
            print_unsigned(number->limbs[place] / unit % 10);
    print("\n");
    print_named("  its digits sum up to", sum_of_digits(number));
    print_named("  its rest by 97", rest(number, 97));
}

int main(int count, char **arguments, char **environment)
{
    (void)count, (void)arguments, (void)environment;
    struct number number;
    set(&number, 1);
    for (uint32_t factor = 2; factor <= 200; factor++)
        multiply(&number, factor);
    print_number("factorial of 200", &number);

    struct number before;
    set(&before, 1);
    set(&number, 1);
    for (int place = 2; place < 1000; place += 2) {
        add(&before, &number);
        add(&number, &before);
    }
    print_number("Fibonacci number 1000", &number);

    set(&number, 1);
    for (int power = 0; power < 1024; power += 16)
        multiply(&number, 1 << 16);
    print_number("2 to the power of 1024", &number);
    return STATUS;
}
