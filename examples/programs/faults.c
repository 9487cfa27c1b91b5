/* Writes a line, and then does what the first argument names, after which there's no return. Without an argument it stores
   to address 0. */

#include "../start.h"

enum { STATUS = 22 };

static void store_to_null(void)
{
    __asm__ volatile("sd zero, 0(zero)");
}

static void load_from_null(void)
{
    __asm__ volatile("lw t0, 8(zero)");
}

static void jump_to_null(void)
{
    __asm__ volatile("jr zero");
}

static void store_to_constants(void)
{
    static const int constant = 5;
    *(volatile int *)&constant = 6;
}

static void store_to_code(void)
{
    *(volatile int *)(uintptr_t)store_to_null = 0;
}

static void run_data(void)
{
    static uint32_t code[] = { 0x00008067 };
    ((void (*)(void))(uintptr_t)code)();
}

static void run_the_stack(void)
{
    volatile uint32_t code[] = { 0x00008067 };
    ((void (*)(void))(uintptr_t)code)();
}

static void use_a_bad_address(void)
{
    __asm__ volatile("li t0, -8\n ld t1, 0(t0)" : : : "t0", "t1");
}

static void meet_an_unknown_word(void)
{
    __asm__ volatile(".word 0xffffffff");
}

static void meet_zeros(void)
{
    __asm__ volatile(".half 0");
}

static void meet_a_breakpoint(void)
{
    __asm__ volatile("ebreak");
}

static void swap_at_an_odd_address(void)
{
    static uint64_t numbers[2];
    __asm__ volatile("amoswap.d t0, zero, (%0)" : : "r"((char *)numbers + 4) : "t0", "memory");
}

/* Each frame takes more than a page, so that the stack of 8 MiB is used up long before the end. */
static uint64_t go_deep(uint64_t depth)
{
    volatile uint64_t page[512];
    if (depth == 1 << 20)
        return 0;
    page[depth % 512] = depth;
    return go_deep(depth + 1) + page[depth % 512];
}

static void use_up_the_stack(void)
{
    print_unsigned(go_deep(0));
}

static const struct { const char *name; void (*make)(void); } faults[] = {
    { "null_store", store_to_null },
    { "null_load", load_from_null },
    { "null_jump", jump_to_null },
    { "constant_store", store_to_constants },
    { "code_store", store_to_code },
    { "data_run", run_data },
    { "stack_run", run_the_stack },
    { "bad_address", use_a_bad_address },
    { "unknown_word", meet_an_unknown_word },
    { "zeros", meet_zeros },
    { "breakpoint", meet_a_breakpoint },
    { "odd_swap", swap_at_an_odd_address },
    { "deep_stack", use_up_the_stack },
};

int main(int count, char **arguments, char **environment)
{
    (void)environment;
    const char *name = count > 1 ? arguments[1] : "null_store";
    for (unsigned place = 0; place < sizeof faults / sizeof faults[0]; place++)
        if (length_of(name) == length_of(faults[place].name) && memcmp(name, faults[place].name, length_of(name)) == 0) {
            print("before ");
            print(name);
            print("\n");
            faults[place].make();
            print("after it\n");
        }
    return STATUS;
}
