/* Calls that ask for memory and for who, when and where the program is: what they refuse, and what memory holds then.

   Two things that qemu does differently from Linux are left out: it passes over MAP_FIXED_NOREPLACE (in version 7.2), and
   refuses new rights of no byte with ENOMEM. So are the addresses that the system chooses, what it says of limits, and what
   a page holds that had no right for a while: its bytes in Linux, and zeros in rvuser. */

#include "../start.h"

enum {
    STATUS = 27,
    PAGE = 4096,
    ODD_ADDRESS = 8,
    READ = 1,
    WRITE = 2,
    PRIVATE = 2,
    FIXED = 0x10,
    ANONYMOUS = 0x20,
    NO_DESCRIPTOR = 77,
    UNKNOWN_CLOCK = 100,
    STACK = 3,
    NAME_SIZE = 65,
    NAMES = 6
};

enum {
    CLOCK_GETTIME = 113,
    SCHED_YIELD = 124,
    UNAME = 160,
    GETPID = 172,
    GETUID = 174,
    GETEUID = 175,
    GETGID = 176,
    GETEGID = 177,
    GETTID = 178,
    BRK = 214,
    MUNMAP = 215,
    MMAP = 222,
    MPROTECT = 226,
    PRLIMIT64 = 261,
    GETRANDOM = 278
};

static long call_six(long number, long first, long second, long third, long fourth, long fifth, long sixth)
{
    register long a0 __asm__("a0") = first;
    register long a1 __asm__("a1") = second;
    register long a2 __asm__("a2") = third;
    register long a3 __asm__("a3") = fourth;
    register long a4 __asm__("a4") = fifth;
    register long a5 __asm__("a5") = sixth;
    register long a7 __asm__("a7") = number;
    __asm__ volatile("ecall" : "+r"(a0) : "r"(a1), "r"(a2), "r"(a3), "r"(a4), "r"(a5), "r"(a7) : "memory");
    return a0;
}

static void tell(const char *what, long answer)
{
    print_signed(answer);
    print(" is ");
    print(what);
    print("\n");
}

static long map(long address, long length, long rights, long flags, long descriptor)
{
    return call_six(MMAP, address, length, rights, flags, descriptor, 0);
}

static unsigned long sum_of(const unsigned char *bytes, size_t length)
{
    unsigned long sum = 0;
    for (size_t index = 0; index < length; index++)
        sum = sum * 31 + bytes[index];
    return sum;
}

static void ask_for_a_break(void)
{
    long start = system_call(BRK, 0, 0, 0);
    tell("the offset of the first break in its page", start % PAGE);
    tell("what the break grows by", system_call(BRK, start + 10000, 0, 0) - start);
    unsigned char *heap = (unsigned char *)start;
    tell("the sum of its bytes", sum_of(heap, 10000));
    memset(heap, 7, 10000);
    tell("what is left of a lowered break", system_call(BRK, start + 100, 0, 0) - start);
    tell("what it grows by then", system_call(BRK, start + 9000, 0, 0) - start);
    tell("the sum of the bytes that it kept", sum_of(heap, 100));
    tell("the sum of the bytes behind its old page", sum_of(heap + PAGE, 9000 - PAGE));
    tell("the answer to a break below the first", system_call(BRK, start - PAGE, 0, 0) - start);
    tell("the answer to a break at the end of all addresses", system_call(BRK, -1, 0, 0) - start);
}

static void ask_for_maps(void)
{
    long pages = map(0, 5 * PAGE, READ | WRITE, PRIVATE | ANONYMOUS, -1);
    tell("the offset of a map in its page", pages % PAGE);
    unsigned char *bytes = (unsigned char *)pages;
    tell("the sum of its bytes", sum_of(bytes, 5 * PAGE));
    for (int index = 0; index < 5 * PAGE; index++)
        bytes[index] = (unsigned char)(index / PAGE + 1);
    tell("the answer to a map over two of its pages",
         map(pages + PAGE, 2 * PAGE - 1, READ | WRITE, PRIVATE | ANONYMOUS | FIXED, -1) - pages);
    tell("the sum of its bytes then", sum_of(bytes, 5 * PAGE));
    tell("the answer where its fourth page is unmapped", system_call(MUNMAP, pages + 3 * PAGE, 1, 0));
    tell("the answer where it is unmapped again", system_call(MUNMAP, pages + 3 * PAGE, PAGE, 0));
    tell("the answer to new rights across the hole", system_call(MPROTECT, pages + 2 * PAGE, 3 * PAGE, READ));
    tell("the answer to a map in the hole",
         map(pages + 3 * PAGE, PAGE, READ | WRITE, PRIVATE | ANONYMOUS | FIXED, -1) - pages);
    tell("the sum of all bytes", sum_of(bytes, 5 * PAGE));
    tell("the answer to no right", system_call(MPROTECT, pages, PAGE, 0));
    tell("the answer to a write from there", system_call(CALL_WRITE, STANDARD_OUTPUT, pages, 1));
    tell("the answer to the right to read", system_call(MPROTECT, pages, PAGE, READ));
    tell("the answer to a time that is put there", system_call(CLOCK_GETTIME, 1, pages, 0));
    tell("the answer where all is unmapped", system_call(MUNMAP, pages, 5 * PAGE, 0));
    tell("the answer to a write from a page that was unmapped", system_call(CALL_WRITE, STANDARD_OUTPUT, pages, 1));
}

static void ask_for_wrong_maps(void)
{
    tell("the answer to a map of no byte", map(0, 0, READ, PRIVATE | ANONYMOUS, -1));
    tell("the answer to a map of no kind", map(0, PAGE, READ, ANONYMOUS, -1));
    tell("the answer to a fixed map within a page", map(0x30000001, PAGE, READ, PRIVATE | ANONYMOUS | FIXED, -1));
    tell("the answer to a map of no descriptor", map(0, PAGE, READ, PRIVATE, NO_DESCRIPTOR));
    tell("the answer to an offset within a page",
         call_six(MMAP, 0, PAGE, READ, PRIVATE | ANONYMOUS, -1, ODD_ADDRESS));
    tell("the answer where an address within a page is unmapped", system_call(MUNMAP, 0x30000001, PAGE, 0));
    tell("the answer where no byte is unmapped", system_call(MUNMAP, 0x30000000, 0, 0));
    tell("the answer to new rights within a page", system_call(MPROTECT, 0x30000001, PAGE, READ));
    tell("the answer to new rights of a page that isn't there", system_call(MPROTECT, 0x30000000, PAGE, READ));
}

static void ask_who_and_when(void)
{
    static unsigned char names[NAMES * NAME_SIZE];
    static long first[2], second[2];
    tell("the id of the thread less that of the process", system_call(GETTID, 0, 0, 0) - system_call(GETPID, 0, 0, 0));
    tell("the effective user less the user", system_call(GETEUID, 0, 0, 0) - system_call(GETUID, 0, 0, 0));
    tell("the effective group less the group", system_call(GETEGID, 0, 0, 0) - system_call(GETGID, 0, 0, 0));
    tell("the answer to a yield", system_call(SCHED_YIELD, 0, 0, 0));
    tell("the answer to the names", system_call(UNAME, (long)names, 0, 0));
    print((char *)names);
    print(" is the system, ");
    print((char *)names + 4 * NAME_SIZE);
    print(" the machine\n");
    tell("the answer to names that are put nowhere", system_call(UNAME, ODD_ADDRESS, 0, 0));
    tell("the answer to the time", system_call(CLOCK_GETTIME, 1, (long)first, 0));
    tell("the answer to the time again", system_call(CLOCK_GETTIME, 1, (long)second, 0));
    tell("1 where no time was lost", second[0] > first[0] || (second[0] == first[0] && second[1] >= first[1]));
    tell("the answer to the time of no clock", system_call(CLOCK_GETTIME, UNKNOWN_CLOCK, (long)first, 0));
    tell("the answer to a time that is put nowhere", system_call(CLOCK_GETTIME, 0, ODD_ADDRESS, 0));
    tell("the answer to a limit", call_six(PRLIMIT64, 0, STACK, 0, (long)first, 0, 0));
    tell("the answer to a limit that is put nowhere", call_six(PRLIMIT64, 0, STACK, 0, ODD_ADDRESS, 0, 0));
    tell("how many random bytes come", system_call(GETRANDOM, (long)names, 32, 0));
    tell("1 where they aren't all the same", names[0] != names[1] || names[1] != names[2] || names[2] != names[3]);
    tell("the answer to random bytes that are put nowhere", system_call(GETRANDOM, ODD_ADDRESS, 32, 0));
}

int main(int count, char **arguments, char **environment)
{
    (void)count, (void)arguments, (void)environment;
    ask_for_a_break();
    ask_for_maps();
    ask_for_wrong_maps();
    ask_who_and_when();
    return STATUS;
}
