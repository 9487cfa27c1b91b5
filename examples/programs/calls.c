/* Calls that are refused, and what they leave. */

#include "../start.h"

enum { STATUS = 281, UNKNOWN_CALL = 1000000, NO_DESCRIPTOR = 77, PAGE = 4096 };

static char page[PAGE] __attribute__((aligned(4096)));

int main(int count, char **arguments, char **environment)
{
    (void)count, (void)arguments, (void)environment;
    print_signed(system_call(UNKNOWN_CALL, 1, 2, 3));
    print(" is the answer to a call that doesn't exist\n");
    print_signed(system_call(CALL_WRITE, NO_DESCRIPTOR, (long)page, 1));
    print(" to a write to no descriptor\n");
    print_signed(system_call(CALL_WRITE, -1, (long)page, 1));
    print(" to a write to descriptor -1\n");
    print_signed(system_call(CALL_WRITE, STANDARD_OUTPUT, 8, 1));
    print(" to a write from address 8\n");
    print_signed(system_call(CALL_WRITE, STANDARD_OUTPUT, (long)page, 0));
    print(" to a write of nothing\n");
    page[PAGE - 2] = '4';
    page[PAGE - 1] = '\n';
    print_signed(system_call(CALL_WRITE, STANDARD_OUTPUT, (long)(page + PAGE - 2), 2));
    print(" to a write of 2 bytes at a page's end\n");
    print_signed(system_call(CALL_WRITE, STANDARD_ERROR, (long)"to standard error\n", 18));
    print(" to a write to standard error\n");
    /* The status is more than 8 bits hold: 281 is kept as 25. */
    return STATUS;
}
