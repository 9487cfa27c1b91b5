/* Loads and stores of 1, 2, 4 and 8 bytes, with and without signs, at addresses that are aligned and that aren't, across
   a page's end too; fields of bits, and packed structures. */

#include "../start.h"

enum { STATUS = 24, PAGE = 4096 };

static uint8_t bytes[2 * PAGE] __attribute__((aligned(4096)));

#define LOAD(name, type, instruction) \
    static type load_##name(const uint8_t *place) \
    { \
        type value; \
        __asm__ volatile(instruction " %0, 0(%1)" : "=r"(value) : "r"(place) : "memory"); \
        return value; \
    }

#define STORE(name, instruction) \
    static void store_##name(uint8_t *place, uint64_t value) \
    { \
        __asm__ volatile(instruction " %1, 0(%0)" : : "r"(place), "r"(value) : "memory"); \
    }

LOAD(byte, int64_t, "lb")
LOAD(half, int64_t, "lh")
LOAD(word, int64_t, "lw")
LOAD(doubleword, int64_t, "ld")
LOAD(unsigned_byte, uint64_t, "lbu")
LOAD(unsigned_half, uint64_t, "lhu")
LOAD(unsigned_word, uint64_t, "lwu")
STORE(byte, "sb")
STORE(half, "sh")
STORE(word, "sw")
STORE(doubleword, "sd")

static void show(const uint8_t *place)
{
    print_hexadecimal(load_byte(place), 16);
    print(" ");
    print_hexadecimal(load_half(place), 16);
    print(" ");
    print_hexadecimal(load_word(place), 16);
    print(" ");
    print_hexadecimal(load_doubleword(place), 16);
    print(" ");
    print_hexadecimal(load_unsigned_byte(place), 2);
    print(" ");
    print_hexadecimal(load_unsigned_half(place), 4);
    print(" ");
    print_hexadecimal(load_unsigned_word(place), 8);
    print("\n");
}

struct fields { unsigned low : 3; signed middle : 7; unsigned high : 13; uint64_t wide : 41; };

struct __attribute__((packed)) packed { uint8_t first; uint16_t second; uint32_t third; uint64_t fourth; };

int main(int count, char **arguments, char **environment)
{
    (void)arguments, (void)environment;
    for (int at = 0; at < 2 * PAGE; at++)
        bytes[at] = at * 37 + 0x70 + at / 256;
    for (int at = 0; at < 9; at++)
        show(bytes + at);
    for (int at = PAGE - 8; at <= PAGE; at += 3)
        show(bytes + at);

    store_doubleword(bytes + PAGE - 3, 0x8182838485868788);
    show(bytes + PAGE - 4);
    store_word(bytes + PAGE - 1, 0x71727374);
    show(bytes + PAGE - 2);
    store_half(bytes + PAGE - 1, 0x6162);
    show(bytes + PAGE - 2);
    store_byte(bytes + PAGE - 1, 0xff);
    show(bytes + PAGE - 2);

    struct fields fields = { 5, -60, 8000, 0x12345678901 };
    fields.low += count;
    fields.middle -= 3 + count;
    fields.high *= 2 + count;
    fields.wide <<= 2 + count;
    print_named("low", fields.low);
    print_signed(fields.middle);
    print("\n");
    print_named("high", fields.high);
    print_named("wide", fields.wide);

    struct packed packed = { 1, 2, 3, 4 };
    volatile struct packed *place = &packed;
    place->second += 0xfffe;
    place->third -= 5;
    place->fourth *= -3ul;
    print_hexadecimal(place->first, 2);
    print_hexadecimal(place->second, 4);
    print_hexadecimal(place->third, 8);
    print_hexadecimal(place->fourth, 16);
    print("\n");

    int8_t small = 100;
    small += 28 * count;
    uint8_t byte = small * 3;
    int16_t half = 0x7fff;
    half += count;
    print_signed(small);
    print_named(" small, byte", byte);
    print_signed(half);
    print("\n");
    return STATUS;
}
