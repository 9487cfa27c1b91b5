/* Writes the number below 10,000 with the longest Collatz chain, as decimal text, and ends with status 0.

   A chain goes from a number to its half where it is even, to three times the number and one where it is odd, and ends
   at 1. Only the numbers from 5,000 are tried: the chain of 2 n is longer than that of n by one.

   There is no library, no stack and no data that could be written: the compiler keeps everything in registers. */

enum { WRITE = 64, EXIT_GROUP = 94, STANDARD_OUTPUT = 1 };

static const char digits[] = "0123456789";
static const char newline[] = "\n";

static inline __attribute__((always_inline)) void write_byte(const char *byte)
{
    register long a0 __asm__("a0") = STANDARD_OUTPUT;
    register const char *a1 __asm__("a1") = byte;
    register long a2 __asm__("a2") = 1;
    register long a7 __asm__("a7") = WRITE;
    __asm__ volatile("ecall" : "+r"(a0) : "r"(a1), "r"(a2), "r"(a7) : "memory");
}

static inline __attribute__((always_inline, noreturn)) void end(long status)
{
    register long a0 __asm__("a0") = status;
    register long a7 __asm__("a7") = EXIT_GROUP;
    __asm__ volatile("ecall" : : "r"(a0), "r"(a7));
    __builtin_unreachable();
}

__attribute__((noreturn)) void _start(void)
{
    unsigned long best = 0;
    unsigned long longest = 0;
    for (unsigned long first = 5000; first < 10000; first++) {
        unsigned long steps = 0;
        for (unsigned long number = first; number != 1; steps++)
            number = number % 2 == 0 ? number / 2 : 3 * number + 1;
        if (steps > longest) {
            longest = steps;
            best = first;
        }
    }
    for (unsigned long unit = 1000; unit != 0; unit /= 10)
        write_byte(&digits[best / unit % 10]);
    write_byte(newline);
    end(0);
}
