// Writes COUNT names of eight letters and digits that are as bad for a look-up as names can be: all point to one group of slots of the
// index of names (iss_index), also as it grows, and have the same eight bits by which the names of a group are told apart.
//
//     crowd COUNT
#include <stdint.h>
#include <stdio.h>
#include <stdlib.h>

enum { FIRST_GROUPS = 12, GROWTH = 3, LOAD = 8, BASE = 36, HALVES = BASE * BASE * BASE * BASE };

// All texts of four letters and digits, each as a number, the first letter lowest.
static uint32_t halves[HALVES];

static void make_halves(void) {
    for (uint32_t i = 0; i < HALVES; i++) {
        for (uint32_t rest = i, at = 0; at < 4; at++, rest /= BASE)
            halves[i] |= (uint32_t)"0123456789abcdefghijklmnopqrstuvwxyz"[rest % BASE] << 8 * at;
    }
}

// The hash of a name of eight bytes, as the standard library's FoldHasher makes it: its seed is fixed.
static uint64_t hash_of(uint64_t name) {
    unsigned __int128 product = (unsigned __int128)(0x243f6a8885a308d3 ^ name) * (0x9e3779b97f4a7c15 ^ 16);
    return (uint64_t)product ^ (uint64_t)(product >> 64);
}

int main(int count, char **words) {
    long wanted = count == 2 ? atol(words[1]) : 0;
    if (wanted < 1) {
        fprintf(stderr, "usage: %s COUNT\n", words[0]);
        return 2;
    }
    uint64_t groups = FIRST_GROUPS;
    while ((uint64_t)wanted / LOAD >= groups)
        groups *= GROWTH;
    make_halves();
    for (int last = 0; last < HALVES; last++) {
        for (int first = 0; first < HALVES; first++) {
            uint64_t name = (uint64_t)halves[last] << 32 | halves[first], hash = hash_of(name);
            if (hash % 256 != 0 || (hash >> 32) % groups != 0)
                continue;
            printf("%.8s\n", (const char *)&name);
            if (--wanted == 0)
                return 0;
        }
    }
    return 1;
}
