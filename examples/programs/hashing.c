/* SHA-256 (FIPS 180-4) and the 64-bit FNV-1a hash of the empty text, of "abc" and of a text of 1000 bytes. */

#include "../start.h"

enum { LENGTH = 1000, STATUS = 12 };

static const uint32_t round_numbers[64] = {
    0x428a2f98, 0x71374491, 0xb5c0fbcf, 0xe9b5dba5, 0x3956c25b, 0x59f111f1, 0x923f82a4, 0xab1c5ed5,
    0xd807aa98, 0x12835b01, 0x243185be, 0x550c7dc3, 0x72be5d74, 0x80deb1fe, 0x9bdc06a7, 0xc19bf174,
    0xe49b69c1, 0xefbe4786, 0x0fc19dc6, 0x240ca1cc, 0x2de92c6f, 0x4a7484aa, 0x5cb0a9dc, 0x76f988da,
    0x983e5152, 0xa831c66d, 0xb00327c8, 0xbf597fc7, 0xc6e00bf3, 0xd5a79147, 0x06ca6351, 0x14292967,
    0x27b70a85, 0x2e1b2138, 0x4d2c6dfc, 0x53380d13, 0x650a7354, 0x766a0abb, 0x81c2c92e, 0x92722c85,
    0xa2bfe8a1, 0xa81a664b, 0xc24b8b70, 0xc76c51a3, 0xd192e819, 0xd6990624, 0xf40e3585, 0x106aa070,
    0x19a4c116, 0x1e376c08, 0x2748774c, 0x34b0bcb5, 0x391c0cb3, 0x4ed8aa4a, 0x5b9cca4f, 0x682e6ff3,
    0x748f82ee, 0x78a5636f, 0x84c87814, 0x8cc70208, 0x90befffa, 0xa4506ceb, 0xbef9a3f7, 0xc67178f2,
};

static uint32_t rotate(uint32_t word, int places)
{
    return word >> places | word << (32 - places);
}

static void add_block(uint32_t hash[8], const uint8_t *block)
{
    uint32_t words[64];
    for (int place = 0; place < 16; place++) {
        const uint8_t *bytes = block + 4 * place;
        words[place] = (uint32_t)bytes[0] << 24 | bytes[1] << 16 | bytes[2] << 8 | bytes[3];
    }
    for (int place = 16; place < 64; place++) {
        uint32_t early = words[place - 15];
        uint32_t late = words[place - 2];
        words[place] = words[place - 16] + (rotate(early, 7) ^ rotate(early, 18) ^ early >> 3)
            + words[place - 7] + (rotate(late, 17) ^ rotate(late, 19) ^ late >> 10);
    }
    uint32_t a = hash[0], b = hash[1], c = hash[2], d = hash[3];
    uint32_t e = hash[4], f = hash[5], g = hash[6], h = hash[7];
    for (int place = 0; place < 64; place++) {
        uint32_t first = h + (rotate(e, 6) ^ rotate(e, 11) ^ rotate(e, 25)) + ((e & f) ^ (~e & g))
            + round_numbers[place] + words[place];
        uint32_t second = (rotate(a, 2) ^ rotate(a, 13) ^ rotate(a, 22)) + ((a & b) ^ (a & c) ^ (b & c));
        h = g, g = f, f = e, e = d + first;
        d = c, c = b, b = a, a = first + second;
    }
    hash[0] += a, hash[1] += b, hash[2] += c, hash[3] += d;
    hash[4] += e, hash[5] += f, hash[6] += g, hash[7] += h;
}

static void print_sha256(const uint8_t *text, size_t length)
{
    uint32_t hash[8] = {
        0x6a09e667, 0xbb67ae85, 0x3c6ef372, 0xa54ff53a, 0x510e527f, 0x9b05688c, 0x1f83d9ab, 0x5be0cd19,
    };
    uint8_t last[128] = { 0 };
    size_t whole = length / 64 * 64;
    size_t rest = length - whole;
    size_t end = rest < 56 ? 64 : 128;
    for (size_t at = 0; at < whole; at += 64)
        add_block(hash, text + at);
    memcpy(last, text + whole, rest);
    last[rest] = 0x80;
    for (int place = 0; place < 8; place++)
        last[end - 1 - place] = (uint64_t)length * 8 >> 8 * place;
    for (size_t at = 0; at < end; at += 64)
        add_block(hash, last + at);
    for (int place = 0; place < 8; place++)
        print_hexadecimal(hash[place], 8);
    print("\n");
}

static uint64_t fnv_1a(const uint8_t *text, size_t length)
{
    uint64_t hash = 0xcbf29ce484222325;
    for (size_t at = 0; at < length; at++)
        hash = (hash ^ text[at]) * 0x100000001b3;
    return hash;
}

static void print_hashes(const char *name, const uint8_t *text, size_t length)
{
    print(name);
    print(" sha256 ");
    print_sha256(text, length);
    print(name);
    print(" fnv1a ");
    print_hexadecimal(fnv_1a(text, length), 16);
    print("\n");
}

int main(int count, char **arguments, char **environment)
{
    (void)count, (void)arguments, (void)environment;
    static uint8_t text[LENGTH];
    for (int at = 0; at < LENGTH; at++)
        text[at] = 'a' + at * at % 26;
    print_hashes("empty", text, 0);
    print_hashes("abc", (const uint8_t *)"abc", 3);
    print_hashes("long", text, LENGTH);
    return STATUS;
}
