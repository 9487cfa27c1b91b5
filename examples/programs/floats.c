/* Numbers with a fraction, which the compiler computes by calls of its library (libgcc), since the ABI is lp64. */

#include "../start.h"

enum { STATUS = 18 };

/* Writes a number of a size below 10^18 with a fixed number of digits, of which the last is rounded. */
static void print_fixed(double number, int digits)
{
    if (number != number) {
        print("nan");
        return;
    }
    if (number < 0) {
        print("-");
        number = -number;
    }
    if (number > 1e18) {
        print("large");
        return;
    }
    uint64_t unit = 1;
    for (int digit = 0; digit < digits; digit++)
        unit *= 10;
    uint64_t whole = (uint64_t)number;
    uint64_t part = (uint64_t)((number - (double)whole) * (double)unit + 0.5);
    if (part >= unit) {
        part -= unit;
        whole++;
    }
    print_unsigned(whole);
    print(".");
    for (uint64_t place = unit / 10; place != 0; place /= 10)
        print_unsigned(part / place % 10);
}

static uint64_t bits_of(double number)
{
    uint64_t bits;
    memcpy(&bits, &number, sizeof bits);
    return bits;
}

static void show(const char *name, double number)
{
    print(name);
    print(" ");
    print_fixed(number, 9);
    print(" ");
    print_hexadecimal(bits_of(number), 16);
    print("\n");
}

/* Newton's way; it ends where a step changes nothing, or after 60 steps. */
static double square_root(double number)
{
    double root = number > 1 ? number : 1;
    for (int step = 0; step < 60; step++) {
        double next = (root + number / root) / 2;
        if (next == root)
            break;
        root = next;
    }
    return root;
}

static double sum_of_reciprocals(int count)
{
    double sum = 0;
    for (int number = 1; number <= count; number++)
        sum += 1.0 / number;
    return sum;
}

static double exponential(double power)
{
    double sum = 1;
    double part = 1;
    for (int step = 1; step < 30; step++) {
        part *= power / step;
        sum += part;
    }
    return sum;
}

int main(int count, char **arguments, char **environment)
{
    (void)arguments, (void)environment;
    volatile double zero = count - 1;
    volatile double one = count;
    volatile float third = (float)one / 3;
    show("sum of reciprocals", sum_of_reciprocals(100));
    for (int number = 2; number <= 10; number++)
        show("square root", square_root(number));
    show("square root", square_root(1e10));
    show("e", exponential(one));
    show("1 / e", exponential(-one));
    show("a third as float", third);
    show("a third", one / 3);
    show("float times double", third * 3.0);
    show("0.1 + 0.2", one / 10 + one / 5);
    show("negative", -one * 1234.5678);
    show("whole part", (double)(int64_t)(-one * 1234.5678));
    show("from unsigned", (double)(0xffffffffffffffff - (uint64_t)(count - 1)));
    show("from signed", (double)-(int64_t)(count * 123456789012345));
    show("infinity", one / zero);
    show("least", one * 4.9406564584124654e-324);
    show("below the least", one * 4.9406564584124654e-324 / 2);
    double nothing = zero / zero;
    print_named("nan is itself", nothing == nothing);
    print_named("nan is less", nothing < one);
    print_named("-0 is 0", -zero == zero);
    print_named("1 is below infinity", one < one / zero);
    print_named("-1.9 as a number", (uint64_t)-(int64_t)(-1.9 * one));
    return STATUS;
}
