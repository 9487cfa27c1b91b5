/* Atomic operations on 4 and 8 bytes by one thread: the old values, and what stands there afterwards. */

#include "../start.h"

enum { STATUS = 17 };

static uint32_t word = 0xfffffff0;
static uint64_t doubleword = 0xfffffffffffffff0;

static void show(const char *name, uint64_t old)
{
    print(name);
    print(" ");
    print_hexadecimal(old, 16);
    print(" ");
    print_hexadecimal(word, 8);
    print(" ");
    print_hexadecimal(doubleword, 16);
    print("\n");
}

/* Those that a C operator has no name for: the least and the greatest, with and without signs. */
#define INSTRUCTION(name, type, instruction) \
    static type name(type *place, type value) \
    { \
        type old; \
        __asm__ volatile(instruction " %0, %2, %1" : "=&r"(old), "+A"(*place) : "r"(value) : "memory"); \
        return old; \
    }

INSTRUCTION(word_least, uint32_t, "amomin.w")
INSTRUCTION(word_greatest, uint32_t, "amomax.w.aqrl")
INSTRUCTION(word_least_unsigned, uint32_t, "amominu.w.aq")
INSTRUCTION(word_greatest_unsigned, uint32_t, "amomaxu.w.rl")
INSTRUCTION(least, uint64_t, "amomin.d")
INSTRUCTION(greatest, uint64_t, "amomax.d.aqrl")
INSTRUCTION(least_unsigned, uint64_t, "amominu.d.aq")
INSTRUCTION(greatest_unsigned, uint64_t, "amomaxu.d.rl")

/* A lock of one word, taken and given back. */
static uint32_t lock;

static int take(void)
{
    return __atomic_exchange_n(&lock, 1, __ATOMIC_ACQUIRE) == 0;
}

static void give_back(void)
{
    __atomic_store_n(&lock, 0, __ATOMIC_RELEASE);
}

/* Doubles the number by a loop of compare and exchange. */
static uint64_t double_atomically(uint64_t *place)
{
    uint64_t seen = __atomic_load_n(place, __ATOMIC_RELAXED);
    while (!__atomic_compare_exchange_n(place, &seen, seen * 2, 1, __ATOMIC_ACQ_REL, __ATOMIC_RELAXED))
        continue;
    return seen;
}

int main(int count, char **arguments, char **environment)
{
    (void)count, (void)arguments, (void)environment;
    show("add 4", __atomic_fetch_add(&word, 0x20, __ATOMIC_SEQ_CST));
    show("add 8", __atomic_fetch_add(&doubleword, 0x20, __ATOMIC_RELAXED));
    show("sub 4", __atomic_fetch_sub(&word, 0x30, __ATOMIC_ACQUIRE));
    show("sub 8", __atomic_fetch_sub(&doubleword, 0x30, __ATOMIC_RELEASE));
    show("and 4", __atomic_fetch_and(&word, 0xff00ff55, __ATOMIC_ACQ_REL));
    show("and 8", __atomic_fetch_and(&doubleword, 0xff00ff00ff00ff55, __ATOMIC_SEQ_CST));
    show("or 4", __atomic_fetch_or(&word, 0x00120000, __ATOMIC_SEQ_CST));
    show("or 8", __atomic_fetch_or(&doubleword, 0x0012000000120000, __ATOMIC_SEQ_CST));
    show("xor 4", __atomic_fetch_xor(&word, 0x12345678, __ATOMIC_SEQ_CST));
    show("xor 8", __atomic_fetch_xor(&doubleword, 0x123456789abcdef0, __ATOMIC_SEQ_CST));
    show("nand 4", __atomic_fetch_nand(&word, 0x0f0f0f0f, __ATOMIC_SEQ_CST));
    show("nand 8", __atomic_fetch_nand(&doubleword, 0x0f0f0f0f0f0f0f0f, __ATOMIC_SEQ_CST));
    show("exchange 4", __atomic_exchange_n(&word, 0x80000001, __ATOMIC_SEQ_CST));
    show("exchange 8", __atomic_exchange_n(&doubleword, 0x8000000000000001, __ATOMIC_SEQ_CST));

    uint32_t expected_word = 5;
    uint64_t expected = 5;
    show("no exchange 4", __atomic_compare_exchange_n(&word, &expected_word, 9, 0, __ATOMIC_SEQ_CST, __ATOMIC_SEQ_CST));
    show("no exchange 8", __atomic_compare_exchange_n(&doubleword, &expected, 9, 0, __ATOMIC_SEQ_CST, __ATOMIC_SEQ_CST));
    show("found 4", expected_word);
    show("found 8", expected);
    show("exchanged 4", __atomic_compare_exchange_n(&word, &expected_word, 9, 0, __ATOMIC_SEQ_CST, __ATOMIC_SEQ_CST));
    show("exchanged 8", __atomic_compare_exchange_n(&doubleword, &expected, 9, 0, __ATOMIC_SEQ_CST, __ATOMIC_SEQ_CST));

    show("least 4", word_least(&word, 0x80000000));
    show("least 8", least(&doubleword, 0x8000000000000000));
    show("greatest 4", word_greatest(&word, 7));
    show("greatest 8", greatest(&doubleword, 7));
    show("least unsigned 4", word_least_unsigned(&word, 0xfffffffe));
    show("least unsigned 8", least_unsigned(&doubleword, 0xfffffffffffffffe));
    show("greatest unsigned 4", word_greatest_unsigned(&word, 0xfffffffe));
    show("greatest unsigned 8", greatest_unsigned(&doubleword, 0xfffffffffffffffe));

    __atomic_thread_fence(__ATOMIC_SEQ_CST);
    __atomic_thread_fence(__ATOMIC_ACQUIRE);
    __atomic_thread_fence(__ATOMIC_RELEASE);
    __atomic_store_n(&word, 21, __ATOMIC_SEQ_CST);
    show("loaded 4", __atomic_load_n(&word, __ATOMIC_SEQ_CST));
    for (int turn = 0; turn < 3; turn++)
        show("doubled 8", double_atomically(&doubleword));

    print_named("taken", take());
    print_named("taken twice", take());
    give_back();
    print_named("taken again", take());
    return STATUS;
}
