/* The start of a C program without a library, for Linux on RISC-V (RV64, ABI lp64), and what start.h lists.

   Build a program by

       riscv64-linux-gnu-gcc -march=rv64imac -mabi=lp64 -ffreestanding -nostdlib -static -fno-pie -no-pie -O2 \
           -msmall-data-limit=0 -Wl,-z,noexecstack,-z,separate-code -o PROGRAM start.c PROGRAM.c

   or with `-static-pie -fPIE -Wl,--no-dynamic-linker` in the place of `-static -fno-pie -no-pie`. */

#include "start.h"

/* Linux enters here. All registers are free but sp, which points to the number of arguments, their addresses, 0, the
   addresses of the environment's texts, 0, and the auxiliary pairs. The linker makes some accesses to data relative to
   gp, so gp is set before the first of them. Where the program isn't a static-pie there is no _DYNAMIC, and its address
   is 0. A linker script may give __tls_base, where the data of the only thread begins. */
__asm__(
    ".text\n"
    ".weak _DYNAMIC\n"
    ".hidden _DYNAMIC\n"
    ".weak __ehdr_start\n"
    ".hidden __ehdr_start\n"
    ".weak __tls_base\n"
    ".hidden __tls_base\n"
    ".globl _start\n"
    ".type _start, @function\n"
    "_start:\n"
    "    .option push\n"
    "    .option norelax\n"
    "    lla gp, __global_pointer$\n"
    "    lla tp, __tls_base\n"
    "    lla a1, _DYNAMIC\n"
    "    lla a2, __ehdr_start\n"
    "    .option pop\n"
    "    mv a0, sp\n"
    "    li ra, 0\n"
    "    call start_with_stack\n"
    "    .size _start, . - _start\n");

struct dynamic_entry { uint64_t tag, value; };
struct relocation { uint64_t place, kind, addend; };

enum { DYNAMIC_END = 0, DYNAMIC_RELOCATIONS = 7, DYNAMIC_RELOCATIONS_SIZE = 8, RELATIVE = 3 };

/* A static-pie may lie anywhere, so it adds the address that it begins at to each pointer in its data. What runs before
   uses no such pointer. */
static void relocate(const struct dynamic_entry *entry, uint64_t base)
{
    uint64_t table = 0;
    uint64_t size = 0;
    for (; entry->tag != DYNAMIC_END; entry++) {
        if (entry->tag == DYNAMIC_RELOCATIONS)
            table = base + entry->value;
        if (entry->tag == DYNAMIC_RELOCATIONS_SIZE)
            size = entry->value;
    }
    const struct relocation *relocations = (const struct relocation *)table;
    for (uint64_t place = 0; place < size / sizeof *relocations; place++)
        if (relocations[place].kind == RELATIVE)
            *(uint64_t *)(base + relocations[place].place) = base + relocations[place].addend;
}

__attribute__((weak)) void finish(int status)
{
    end_program(status);
}

__attribute__((noreturn, used, visibility("hidden")))
void start_with_stack(long *stack, const struct dynamic_entry *dynamic, uint64_t base)
{
    if (dynamic != NULL)
        relocate(dynamic, base);
    long count = stack[0];
    char **arguments = (char **)(stack + 1);
    char **environment = arguments + count + 1;
    finish(main(count, arguments, environment));
}

long system_call(long number, long first, long second, long third)
{
    register long a0 __asm__("a0") = first;
    register long a1 __asm__("a1") = second;
    register long a2 __asm__("a2") = third;
    register long a7 __asm__("a7") = number;
    __asm__ volatile("ecall" : "+r"(a0) : "r"(a1), "r"(a2), "r"(a7) : "memory");
    return a0;
}

void end_program(int status)
{
    system_call(CALL_EXIT_GROUP, status, 0, 0);
    __builtin_unreachable();
}

long write_all(int descriptor, const void *bytes, size_t length)
{
    const char *next = bytes;
    while (length != 0) {
        long written = system_call(CALL_WRITE, descriptor, (long)next, length);
        if (written < 0)
            return written;
        next += written;
        length -= written;
    }
    return 0;
}

void print_bytes(const void *bytes, size_t length)
{
    if (write_all(STANDARD_OUTPUT, bytes, length) != 0)
        end_program(74);
}

size_t length_of(const char *text)
{
    size_t length = 0;
    while (text[length] != 0)
        length++;
    return length;
}

void print(const char *text)
{
    print_bytes(text, length_of(text));
}

void print_unsigned(unsigned long number)
{
    char digits[20];
    size_t first = sizeof digits;
    do {
        digits[--first] = '0' + number % 10;
        number /= 10;
    } while (number != 0);
    print_bytes(digits + first, sizeof digits - first);
}

void print_signed(long number)
{
    if (number < 0)
        print("-");
    print_unsigned(number < 0 ? 0 - (unsigned long)number : (unsigned long)number);
}

void print_hexadecimal(unsigned long number, int digits)
{
    char text[16];
    for (int place = 0; place < digits; place++)
        text[place] = "0123456789abcdef"[number >> 4 * (digits - 1 - place) & 15];
    print_bytes(text, digits);
}

void print_named(const char *name, unsigned long number)
{
    print(name);
    print(": ");
    print_unsigned(number);
    print("\n");
}

/* The empty statement in each loop keeps the compiler from making the loop a call of the function that it is in. */

void *memcpy(void *to, const void *from, size_t length)
{
    char *target = to;
    const char *source = from;
    for (size_t at = 0; at < length; at++) {
        target[at] = source[at];
        __asm__ volatile("");
    }
    return to;
}

void *memmove(void *to, const void *from, size_t length)
{
    char *target = to;
    const char *source = from;
    if ((uintptr_t)target <= (uintptr_t)source)
        return memcpy(to, from, length);
    for (size_t at = length; at != 0; at--) {
        target[at - 1] = source[at - 1];
        __asm__ volatile("");
    }
    return to;
}

void *memset(void *to, int byte, size_t length)
{
    char *target = to;
    for (size_t at = 0; at < length; at++) {
        target[at] = byte;
        __asm__ volatile("");
    }
    return to;
}

int memcmp(const void *left, const void *right, size_t length)
{
    const unsigned char *first = left;
    const unsigned char *second = right;
    for (size_t at = 0; at < length; at++)
        if (first[at] != second[at])
            return first[at] - second[at];
    return 0;
}
