/* Functions that call themselves and each other: Ackermann's, queens on a board, the towers of Hanoi, permutations. */

#include "../start.h"

enum { STATUS = 14 };

static unsigned ackermann(unsigned first, unsigned second)
{
    if (first == 0)
        return second + 1;
    if (second == 0)
        return ackermann(first - 1, 1);
    return ackermann(first - 1, ackermann(first, second - 1));
}

/* The ways to fill the rows that are left; a set bit of a mask is a column that a queen attacks in this row. */
static unsigned queens(unsigned all, unsigned columns, unsigned falling, unsigned rising)
{
    if (columns == all)
        return 1;
    unsigned ways = 0;
    for (unsigned free = all & ~(columns | falling | rising); free != 0; free &= free - 1) {
        unsigned place = free & -free;
        ways += queens(all, columns | place, (falling | place) >> 1, (rising | place) << 1);
    }
    return ways;
}

static unsigned moves_of_disk[8];

static unsigned hanoi(int disks, int from, int to, int by)
{
    if (disks == 0)
        return 0;
    unsigned before = hanoi(disks - 1, from, by, to);
    moves_of_disk[disks - 1] += to + 3 * from;
    return before + 1 + hanoi(disks - 1, by, to, from);
}

static int is_odd(unsigned number);

static int is_even(unsigned number)
{
    return number == 0 ? 1 : is_odd(number - 1);
}

static int is_odd(unsigned number)
{
    return number == 0 ? 0 : is_even(number - 1);
}

static unsigned checksum;

static unsigned permutations(char *text, int from, int length)
{
    if (from == length) {
        for (int at = 0; at < length; at++)
            checksum = checksum * 31 + (unsigned char)text[at];
        return 1;
    }
    unsigned found = 0;
    for (int at = from; at < length; at++) {
        char letter = text[at];
        text[at] = text[from];
        text[from] = letter;
        found += permutations(text, from + 1, length);
        text[from] = text[at];
        text[at] = letter;
    }
    return found;
}

int main(int count, char **arguments, char **environment)
{
    (void)count, (void)arguments, (void)environment;
    print_named("ackermann of 2 and 9", ackermann(2, 9));
    print_named("ackermann of 3 and 4", ackermann(3, 4));
    for (int size = 1; size <= 7; size++)
        print_named("queens", queens((1u << size) - 1, 0, 0, 0));
    print_named("moves of 8 disks", hanoi(8, 0, 2, 1));
    for (int disk = 0; disk < 8; disk++)
        print_named("a disk's mark", moves_of_disk[disk]);
    print_named("1001 is even", is_even(1001));
    char letters[] = "rvuser";
    print_named("permutations", permutations(letters, 0, 6));
    print_named("their checksum", checksum);
    return STATUS;
}
