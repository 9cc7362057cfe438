/* Numbers by chance, from a seed. Each thing that is drawn for has a die of its own, named by what it is for; so what one process
 * does shifts no draw for another, and the same seed gives the same yard however fast the machine is. */
#ifndef CHANCE_H
#define CHANCE_H

#include <stdint.h>

struct die {
    uint64_t state;
};

/* what a die is for */
enum purpose { FOR_PLAN = 1, FOR_STEP, FOR_HEARING, FOR_FAULT, FOR_AIR, FOR_OLDER, FOR_TICKETS, FOR_START };

static inline uint64_t stirred(uint64_t x) {
    x = (x ^ x >> 30) * 0xbf58476d1ce4e5b9u;
    x = (x ^ x >> 27) * 0x94d049bb133111ebu;
    return x ^ x >> 31;
}

static inline struct die die_for(uint64_t seed, enum purpose purpose, uint64_t a, uint64_t b) {
    uint64_t x = stirred(seed + 0x9e3779b97f4a7c15u * (uint64_t)purpose);
    x = stirred(x + 0x9e3779b97f4a7c15u * (a + 1));
    x = stirred(x + 0x9e3779b97f4a7c15u * (b + 1));
    return (struct die){x};
}

/* a number from 0 to below - 1; below is at least 1 */
static inline uint32_t roll(struct die *die, uint32_t below) {
    die->state += 0x9e3779b97f4a7c15u;
    return (uint32_t)((stirred(die->state) >> 32) % below);
}

static inline void roll_bytes(struct die *die, uint8_t *bytes, unsigned len) {
    for (unsigned i = 0; i < len; i++) bytes[i] = (uint8_t)roll(die, 256);
}

#endif
