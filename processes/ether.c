#include "ether.h"

#include <string.h>

#include "chance.h"

enum { COPIES = 3, AIR = 8192, PAST = 64, NONE = 255, JUNK = 400, OVERLONG = 256 };

struct message {
    bool older;
    int sender;
    uint32_t number;
    long sent_at;
    unsigned len;
    uint8_t bytes[FRAME];
    uint8_t ready[BOARDS][COPIES]; /* when a copy can be heard: ticks after the sending, of an older one after X - epsilon; NONE */
    bool heard[BOARDS];
};

static struct setup setup;
static uint64_t seed, stretch_number;
static long largest; /* X */
static bool flooded;
static bool over[BOARDS]; /* that board's bundle was more than full in this flood */

static struct message air[AIR];
static unsigned air_count;
static uint32_t sent_count; /* of this stretch */

/* frames of the past, for junk */
static struct {
    unsigned len;
    uint8_t bytes[FRAME];
} past[PAST];
static uint64_t past_count;

static uint8_t junk_bytes[HEARD][JUNK];
static struct ether_figures figures;

void ether_start(const struct setup *of, uint64_t from) {
    setup = *of;
    seed = from;
}

struct ether_figures ether_figures(void) { return figures; }

void ether_stretch(uint64_t stretch, long at, bool flood) {
    uint32_t ticks = setup.wider_delta + 2 * setup.wider_epsilon + 1;
    stretch_number = stretch;
    largest = at;
    flooded = flood;
    sent_count = 0;
    memset(over, 0, sizeof over);
    for (unsigned k = 0; k < air_count; k++) {
        struct die die = die_for(seed, FOR_OLDER, stretch, k);
        air[k].older = true;
        for (unsigned board = 0; board < BOARDS; board++)
            for (unsigned copy = 0; copy < COPIES; copy++)
                air[k].ready[board][copy] = (uint8_t)(roll(&die, 3) == 0 ? NONE : roll(&die, ticks));
    }
}

/* how many ticks a copy is under way: half of them one at most, the others up to the delay limit of the sending */
static uint8_t delay(struct die *die, long sent_at) {
    uint32_t delta = (uint32_t)delta_at(&setup, sent_at), most = roll(die, 2) == 0 && delta > 1 ? 1 : delta;
    return (uint8_t)roll(die, most + 1);
}

uint32_t ether_carry(int sender, long clock, const uint8_t *bytes, unsigned len) {
    uint32_t number = sent_count++;
    figures.sent++;
    past[past_count % PAST].len = len;
    memcpy(past[past_count++ % PAST].bytes, bytes, len);
    if (air_count == AIR) return number; /* there is no room: nobody hears it */
    struct message *m = &air[air_count++];
    *m = (struct message){.sender = sender, .number = number, .sent_at = clock, .len = len};
    memcpy(m->bytes, bytes, len);
    struct die die = die_for(seed, FOR_AIR, stretch_number, number);
    for (unsigned board = 0; board < BOARDS; board++) {
        uint32_t copies = roll(&die, 8) == 0 ? 0 : roll(&die, 3) > 0 ? 1 : 2 + roll(&die, 2);
        for (uint32_t copy = 0; copy < COPIES; copy++) m->ready[board][copy] = copy < copies ? delay(&die, clock) : NONE;
    }
    return number;
}

static long lowest_of(const long *clocks) {
    long lowest = -1;
    for (unsigned k = 0; k <= setup.n; k++)
        if (clocks[k] >= 0 && (lowest < 0 || clocks[k] < lowest)) lowest = clocks[k];
    return lowest;
}

/* the last clock at which what is older may be heard */
static long until(void) { return largest + (long)setup.wider_delta + (long)setup.wider_epsilon; }

/* whether nobody can hear a message any more */
static bool is_gone(const struct message *m, const long *clocks) {
    if (m->older) return lowest_of(clocks) >= until();
    return clocks[m->sender] > m->sent_at + delta_at(&setup, m->sent_at);
}

/* takes what nobody can hear any more out of the air */
static void clear_air(const long *clocks) {
    unsigned kept = 0;
    for (unsigned k = 0; k < air_count; k++) {
        if (!is_gone(&air[k], clocks)) {
            if (kept != k) air[kept] = air[k];
            kept++;
            continue;
        }
        for (unsigned board = 0; board <= setup.n; board++)
            if (!air[k].older && clocks[board] >= 0 && !air[k].heard[board]) figures.lost++;
    }
    air_count = kept;
}

/* a board hears a copy */
static void add_copy(struct message *m, int board, const long *clocks, struct entry *entry) {
    uint64_t late = m->older ? 0 : (uint64_t)(clocks[m->sender] - m->sent_at);
    *entry = (struct entry){m->older ? 'o' : 'm', m->number, m->bytes, m->len};
    if (m->older) figures.older++;
    else figures.heard++;
    if (!m->older && m->heard[board]) figures.again++;
    if (late > figures.latest) figures.latest = late;
    m->heard[board] = true;
}

/* the copies that a board hears now */
static unsigned hear_messages(int board, const long *clocks, struct entry *entries) {
    unsigned count = 0;
    for (unsigned k = 0; k < air_count; k++) {
        struct message *m = &air[k];
        long ticks = m->older ? clocks[board] - largest + (long)setup.wider_epsilon : clocks[m->sender] - m->sent_at;
        if (m->older ? clocks[board] > until() : ticks > delta_at(&setup, m->sent_at)) continue;
        for (unsigned copy = 0; copy < COPIES && count < HEARD / 2; copy++) {
            if (m->ready[board][copy] == NONE || m->ready[board][copy] > ticks) continue;
            m->ready[board][copy] = NONE;
            add_copy(m, board, clocks, &entries[count++]);
        }
    }
    return count;
}

/* a frame of the right form, narrow or wide, whose stamp may be anything, and is sound as a rule */
static unsigned forge(struct die *die, long clock, uint8_t *bytes) {
    bool wide = setup.change != NEVER && roll(die, 2) == 0;
    uint32_t epsilon = wide ? setup.wider_epsilon : setup.epsilon, width = 2 * epsilon, c = roll(die, epsilon), ticket = roll(die, 33);
    uint32_t near = (uint32_t)clock + setup.modulus + roll(die, 4 * epsilon) - 3 * epsilon;
    uint32_t r = roll(die, 4) == 0 ? roll(die, setup.modulus) : near % setup.modulus;
    bytes[0] = 3;
    bytes[1] = (uint8_t)roll(die, setup.n);
    bytes[2] = (uint8_t)(r & 0xff);
    bytes[3] = (uint8_t)(r >> 8);
    bytes[4] = (uint8_t)(1 + width);
    bytes[5] = (uint8_t)c;
    for (uint32_t i = 0; i < width; i++) bytes[6 + i] = i > epsilon + c ? 0 : (uint8_t)roll(die, setup.n + 1);
    if (bytes[6 + epsilon + c] == 0) bytes[6 + epsilon + c] = (uint8_t)(roll(die, 5) > 0);
    bytes[6 + width] = (uint8_t)ticket;
    roll_bytes(die, bytes + 7 + width, ticket);
    return 7 + width + ticket;
}

/* junk: bytes of no meaning, a forged frame, one of the past, or one of the past with a byte changed; seldom it is too long */
static unsigned make_junk(struct die *die, long clock, uint8_t *bytes) {
    uint32_t what = roll(die, 16);
    unsigned len = what == 0 ? OVERLONG + roll(die, JUNK - OVERLONG) : roll(die, FRAME + 8);
    if (what > 3 && what <= 8) return forge(die, clock, bytes);
    if (what > 8 && past_count > 0) {
        unsigned which = roll(die, past_count < PAST ? (uint32_t)past_count : PAST);
        len = past[which].len;
        memcpy(bytes, past[which].bytes, len);
        if (what > 11) bytes[roll(die, len)] ^= (uint8_t)(1 + roll(die, 255));
        return len;
    }
    roll_bytes(die, bytes, len);
    return len;
}

/* how much junk a board hears in a call: none past the last clock at which that is allowed; in a flood once more than a bundle holds */
static unsigned junk_in(struct die *die, int board, long clock) {
    if (clock > until()) return 0;
    if (!flooded) return roll(die, 4) == 0 ? 1 + roll(die, 3) : 0;
    if (over[board]) return 5 + roll(die, 60);
    over[board] = true;
    return 300;
}

static unsigned add_junk(struct die *die, int board, long clock, struct entry *entries) {
    unsigned count = junk_in(die, board, clock);
    for (unsigned k = 0; k < count; k++) {
        unsigned len = make_junk(die, clock, junk_bytes[k]);
        entries[k] = (struct entry){'j', 0, junk_bytes[k], len};
        figures.junk++;
    }
    if (roll(die, 16) == 0) { /* noise may come at any time: its first byte is that of no frame */
        unsigned len = roll(die, 20) == 0 ? OVERLONG + roll(die, 40) : 1 + roll(die, FRAME);
        roll_bytes(die, junk_bytes[count], len);
        if (junk_bytes[count][0] == 3) junk_bytes[count][0] = 4;
        entries[count] = (struct entry){'x', 0, junk_bytes[count], len};
        figures.noise++;
        count++;
    }
    return count;
}

unsigned ether_hear(int board, const long *clocks, uint64_t call, struct entry *entries) {
    static uint8_t bytes[HEARD][FRAME]; /* they stay when the air is cleared */
    struct die die = die_for(seed, FOR_HEARING, stretch_number, call);
    unsigned count = hear_messages(board, clocks, entries);
    for (unsigned k = 0; k < count; k++) entries[k].bytes = memcpy(bytes[k], entries[k].bytes, entries[k].len);
    clear_air(clocks);
    count += add_junk(&die, board, clocks[board], entries + count);
    for (unsigned k = count; k > 1; k--) {
        unsigned other = roll(&die, k);
        struct entry swapped = entries[k - 1];
        entries[k - 1] = entries[other];
        entries[other] = swapped;
    }
    return count;
}
