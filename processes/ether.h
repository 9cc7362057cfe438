/* The air of a yard: it loses frames, repeats them, lets them overtake each other, delays them by up to delta of their sender's ticks, and
 * adds junk. What it does is drawn from a seed. A stretch is the time between two disturbances: what is in the air when it starts is
 * older, and is heard, like junk, in no call for a clock past X + delta + epsilon, X being the largest clock at its start. Where the limits
 * change, a message has the delay limit of its sending, and that bound has the wider pair. */
#ifndef ETHER_H
#define ETHER_H

#include <stdbool.h>
#include <stdint.h>

#include "setup.h"

enum { BOARDS = 17, HEARD = 1024, FRAME = 71 };

/* one thing that a board hears */
struct entry {
    char kind;       /* 'm' a message of this stretch, 'o' an older one, 'j' junk, 'x' noise: what has not the form of a frame */
    uint32_t number; /* of a message */
    const uint8_t *bytes;
    unsigned len;
};

/* how often what came */
struct ether_figures {
    uint64_t sent, heard, again, lost, older, junk, noise, latest;
};

void ether_start(const struct setup *setup, uint64_t seed);

/* starts a stretch at the largest clock; in a flood its calls hear much junk */
void ether_stretch(uint64_t stretch, long largest, bool flood);

/* takes a frame into the air; its number in this stretch */
uint32_t ether_carry(int sender, long clock, const uint8_t *bytes, unsigned len);

/* What a board hears in a call, in any order; how many entries. The clocks are those after the call, -1 where a board is absent. The
 * bytes stay until the next hearing. */
unsigned ether_hear(int board, const long *clocks, uint64_t call, struct entry *entries);

struct ether_figures ether_figures(void);

#endif
