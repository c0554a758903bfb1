/* Prints so many keys of table 0, one a line, that all begin at one group of a hash map of so many
 * rows, with one tag, so that each is compared with each. The map is the kit's IndexMap:
 * FoldHasher, groups of 16 lanes, a tag of 8 bits. */
#include <stdint.h>
#include <stdio.h>
#include <stdlib.h>
#include <string.h>

#define MULTIPLIER UINT64_C(0x9e3779b97f4a7c15)
#define SEED UINT64_C(0x243f6a8885a308d3)
#define LENGTH 12

static uint64_t fold(uint64_t a, uint64_t b) {
    unsigned __int128 product = (unsigned __int128)a * b;
    return (uint64_t)product ^ (uint64_t)(product >> 64);
}

static uint64_t with_byte(uint64_t state, uint64_t byte) {
    return fold(state ^ (byte | byte << 8 | byte << 16), MULTIPLIER ^ 2);
}

int main(int argc, char **argv) {
    long count = argc > 1 ? atol(argv[1]) : 0, found = 0;
    uint32_t groups = 1;
    while (groups * 15 < count) groups *= 2;
    uint64_t first = fold(with_byte(SEED, 0) ^ LENGTH, MULTIPLIER ^ 16);
    char key[LENGTH + 1] = "!!!!!!!!!!!";
    for (uint64_t number = 0; found < count; number++) {
        uint64_t rest = number, state = first;
        for (int at = 0; at < LENGTH - 1; at++) {
            key[at] = (char)('#' + rest % 92);
            rest /= 92;
            state = with_byte(state, (uint64_t)key[at]);
        }
        for (int last = '#'; last <= '~' && found < count; last++) {
            uint64_t whole = with_byte(state, (uint64_t)last);
            uint32_t hash = (uint32_t)(whole ^ whole >> 32);
            if (hash >> 24 == 1 && (hash & (groups - 1)) == 0) {
                key[LENGTH - 1] = (char)last;
                puts(key);
                found++;
            }
        }
    }
    return 0;
}
