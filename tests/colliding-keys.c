// colliding-keys COUNT BITS PREFIX: writes COUNT texts, PREFIX and ten digits each, a line each, whose hashes by SipHash-1-3 with
// both keys 0 (what Rust's DefaultHasher::new() computes of a text) all have the same low BITS bits, once the upper half of the
// hash is added to the lower by exclusive or: in a table of up to 2 to the BITS groups they all begin at one group.
#include <stdint.h>
#include <stdio.h>
#include <stdlib.h>
#include <string.h>

static uint64_t v0, v1, v2, v3;

static uint64_t turned(uint64_t word, int by) { return word << by | word >> (64 - by); }

static void round_once(void) {
    v0 += v1, v2 += v3;
    v1 = turned(v1, 13) ^ v0, v3 = turned(v3, 16) ^ v2;
    v0 = turned(v0, 32);
    v2 += v1, v0 += v3;
    v1 = turned(v1, 17) ^ v2, v3 = turned(v3, 21) ^ v0;
    v2 = turned(v2, 32);
}

static uint64_t hash(const unsigned char *bytes, size_t length) {
    v0 = 0x736f6d6570736575, v1 = 0x646f72616e646f6d, v2 = 0x6c7967656e657261, v3 = 0x7465646279746573;
    for (; length >= 8; bytes += 8, length -= 8) {
        uint64_t word;
        memcpy(&word, bytes, 8);
        v3 ^= word, round_once(), v0 ^= word;
    }
    return 0;
}

// The hash of a text, as it is fed: its bytes, and 0xff after them.
static uint64_t text_hash(const char *text, size_t length) {
    unsigned char fed[72];
    memcpy(fed, text, length);
    fed[length] = 0xff;
    size_t all = length + 1, whole = all / 8 * 8;
    hash(fed, whole);
    uint64_t last = (uint64_t)(all & 0xff) << 56;
    for (size_t i = whole; i < all; i++)
        last |= (uint64_t)fed[i] << (8 * (i - whole));
    v3 ^= last, round_once(), v0 ^= last;
    v2 ^= 0xff;
    round_once(), round_once(), round_once();
    return v0 ^ v1 ^ v2 ^ v3;
}

int main(int count, char **words) {
    if (count != 4)
        return 4;
    long wanted = atol(words[1]);
    uint64_t mask = ((uint64_t)1 << atol(words[2])) - 1;
    char text[64];
    size_t length = snprintf(text, sizeof text, "%.20s%010d", words[3], 0);
    while (wanted > 0) {
        for (size_t i = length - 1; ++text[i] > '9'; i--)
            text[i] = '0';
        uint64_t its = text_hash(text, length);
        if (((its ^ its >> 32) & mask) == 0)
            puts(text), wanted--;
    }
    return 0;
}
