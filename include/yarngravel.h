/* Yarngravel: one causal order of messages on every board.
 *
 * The library keeps no memory of its own. A station keeps its tables and its shelf between ticks and lends both, with the
 * buffers below, to each call; an observer, a board that only listens, keeps its last clock and its shelf. An engine is a plain
 * station for the workbench: its clocks have 64 bits and are never reduced (yarngravel_long_...). While a yard goes to wider limits its
 * calls know of both pairs of limits (yarngravel_..._in). Any numbers and any bytes get an answer. A call that fails a check answers that
 * check's number, and then no byte of any buffer or table has changed.
 * Buffers must not overlap.
 * Calls for different stations may be made at the same time, in any threads; those of one station one at a time.
 * The archive, libyarngravel.a, needs memcpy, memmove and memset, and about 3 KB of stack.
 */
#ifndef YARNGRAVEL_H
#define YARNGRAVEL_H

#include <stdbool.h>
#include <stddef.h>
#include <stdint.h>

#ifdef __cplusplus
extern "C" {
#endif

/* The version of this header: major * 65536 + minor * 256 + patch, and as a text. */
#define YARNGRAVEL_VERSION (2u * 65536u + 13u * 256u + 1u)
#define YARNGRAVEL_VERSION_TEXT "2.13.1"

/* The version of the archive that is linked, in the form of YARNGRAVEL_VERSION. */
uint32_t yarngravel_version(void);

/* Limits of a setup: the numbers that every call takes first, an observer's without the last, an engine's without the modulus.
 *   n         stations of the yard, 1 to 16
 *   epsilon   drift limit, 1 to 16: no two clocks of stations and observers ever differ by more ticks
 *   delta     delay limit, 0 to 64: a frame is heard while its sender's clock is at most this far past the sending
 *   modulus   B, from YARNGRAVEL_LEAST_MODULUS to 65535: clocks are given modulo B
 *   own       this station's number, below n
 */
#define YARNGRAVEL_LEAST_MODULUS(epsilon, delta) (6u * (epsilon) + (delta) + 1u)

/* Sizes in bytes.
 *
 * Tables are r low, r high, c and 32 places for counts. The count at offset t, from -epsilon to epsilon - 1, is byte
 * 3 + epsilon + t; places past the 2 * epsilon counts are ignored, and come back 0 from an accepted tick and from the reader.
 * Fresh tables at a clock, for a station's start (yarngravel_fresh): r is that clock modulo B, byte 3 + epsilon is 1, all else 0.
 * After an accepted tick r is that tick's clock. A fresh shelf is zeros.
 */
#define YARNGRAVEL_TABLES 35u
#define YARNGRAVEL_LAST 2u                                 /* an observer's last clock modulo B, low byte first */
#define YARNGRAVEL_TICKET 32u                              /* the longest ticket */
#define YARNGRAVEL_FRAME(epsilon) (39u + 2u * (epsilon))   /* the longest frame; the outgoing buffer has at least this */
#define YARNGRAVEL_VERDICTS 255u                           /* the verdict buffer has at least this */
/* A shelf has exactly this, the hand-out buffer at least this. A constant where its arguments are; epsilon is evaluated twice. */
#define YARNGRAVEL_SHELF(n, epsilon, delta) \
    (2u + YARNGRAVEL_FRAME(epsilon) * (n) * ((delta) + 3u * (epsilon)))
#define YARNGRAVEL_LINE 29u                                /* the longest line of words */
#define YARNGRAVEL_FIGURES 29155u                          /* the figures have exactly this; empty ones are zeros */
/* A bundle of so many frames has at most this, where none is longer than YARNGRAVEL_FRAME; 255 is the most frames. */
#define YARNGRAVEL_BUNDLE(epsilon, frames) (1u + (1u + YARNGRAVEL_FRAME(epsilon)) * (frames))

/* The same sizes for a setup that is known only when the host runs; it is in its limits. The text is that of the words. */
static inline size_t yarngravel_frame_size(uint32_t epsilon) { return YARNGRAVEL_FRAME((size_t)epsilon); }
static inline size_t yarngravel_shelf_size(uint32_t n, uint32_t epsilon, uint32_t delta) {
    return YARNGRAVEL_SHELF((size_t)n, (size_t)epsilon, (size_t)delta);
}
static inline size_t yarngravel_bundle_size(uint32_t epsilon, size_t frames) {
    return YARNGRAVEL_BUNDLE((size_t)epsilon, frames);
}
static inline size_t yarngravel_text_size(size_t frames) { return YARNGRAVEL_LINE * frames; }

/* The same of an engine. Its clocks are below 2^63 and not reduced; its tables are r in eight bytes, low byte first, c and 32 places
 * for counts, the count at offset t in byte 9 + epsilon + t; its frames have r in eight bytes too; and its shelf is for 64 frames,
 * whatever n and delta are.
 */
#define YARNGRAVEL_LONG_CLOCKS ((uint64_t)1 << 63)              /* the first number that is no clock of an engine */
#define YARNGRAVEL_LONG_TABLES 41u
#define YARNGRAVEL_LONG_HELD 64u                                /* the most messages that an engine holds */
#define YARNGRAVEL_LONG_FRAME(epsilon) (45u + 2u * (epsilon))
#define YARNGRAVEL_LONG_SHELF(epsilon) (2u + YARNGRAVEL_LONG_FRAME(epsilon) * YARNGRAVEL_LONG_HELD)
#define YARNGRAVEL_LONG_BUNDLE(epsilon, frames) (1u + (1u + YARNGRAVEL_LONG_FRAME(epsilon)) * (frames))
static inline size_t yarngravel_long_frame_size(uint32_t epsilon) { return YARNGRAVEL_LONG_FRAME((size_t)epsilon); }
static inline size_t yarngravel_long_shelf_size(uint32_t epsilon) { return YARNGRAVEL_LONG_SHELF((size_t)epsilon); }
static inline size_t yarngravel_long_bundle_size(uint32_t epsilon, size_t frames) {
    return YARNGRAVEL_LONG_BUNDLE((size_t)epsilon, frames);
}

/* A setup with both pairs of limits, for the calls of a yard that goes from one to the other at an agreed clock V (yarngravel_tick_in, where
 * the order of a change stands). All is the same for the whole yard but own, and marked, which goes by the call's clock.
 *   n, epsilon, delta, modulus, own
 *                     as of a plain setup: the old pair, which holds at clocks before V
 *   wider_epsilon, wider_delta
 *                     the pair that holds from V on: neither is below the old one, both are in their limits, and B is for both
 *   change            V modulo B
 *   marked            1 in a call for the clock V or a later one, 0 in one for an earlier clock. So unmarked V lies 1 to B ahead of the
 *                     call's clock, and marked 0 to B - 1 behind it
 * A setup whose pairs are equal is a plain one, whatever change and mark say within their limits.
 */
struct yarngravel_setup {
    uint32_t n, epsilon, delta, modulus, own;
    uint32_t wider_epsilon, wider_delta, change, marked;
};
/* Sizes go by the wider pair, on both sides of V. A constant setup has YARNGRAVEL_FRAME(wider_epsilon), YARNGRAVEL_SHELF(n, wider_epsilon,
 * wider_delta) and YARNGRAVEL_BUNDLE(wider_epsilon, frames).
 */
static inline size_t yarngravel_frame_size_in(const struct yarngravel_setup *setup) {
    return yarngravel_frame_size(setup->wider_epsilon);
}
static inline size_t yarngravel_shelf_size_in(const struct yarngravel_setup *setup) {
    return yarngravel_shelf_size(setup->n, setup->wider_epsilon, setup->wider_delta);
}
static inline size_t yarngravel_bundle_size_in(const struct yarngravel_setup *setup, size_t frames) {
    return yarngravel_bundle_size(setup->wider_epsilon, frames);
}
/* Puts V and the mark into a setup for a call; the clock of the call and V are not reduced. */
static inline void yarngravel_set_change(struct yarngravel_setup *setup, uint64_t clock, uint64_t change) {
    setup->change = (uint32_t)(change % setup->modulus);
    setup->marked = clock >= change;
}
/* Whether a station or observer with this last clock, that of its last accepted call, may make its first call with both pairs for this
   clock; then whether its next call may have the plain new setup. Clocks and V are not reduced. */
static inline bool yarngravel_may_take_both(const struct yarngravel_setup *setup, uint64_t last, uint64_t clock, uint64_t change) {
    return last + setup->delta + 2u * setup->epsilon <= change && change <= clock + setup->modulus;
}
static inline bool yarngravel_may_take_wider(const struct yarngravel_setup *setup, uint64_t last, uint64_t change) {
    return change + setup->wider_delta + 2u * setup->wider_epsilon <= last && last < change + setup->modulus;
}

/* Of ginning charges (yarngravel_charge): a press ticket, a ledger and the most bales that it holds, and the largest rate, in cents for a
 * hundred pounds. */
#define YARNGRAVEL_PRESS 10u       /* a press ticket has exactly this */
#define YARNGRAVEL_PRESS_KIND 2u   /* its second byte; tickets of another kind pass without charge */
#define YARNGRAVEL_LEDGER 5122u    /* a ledger has exactly this: a two-byte count, low byte first, and ten bytes for each bale */
#define YARNGRAVEL_BALES 512u
#define YARNGRAVEL_RATE 60000u

/* Numbers in an answer. 0: accepted. Of a call: */
#define YARNGRAVEL_BAD_SETUP 1u    /* the setup is not in its limits (with both pairs: either pair, V or the mark); of a charge: the rate is
                                      above 60000 */
#define YARNGRAVEL_BAD_CLOCK 2u    /* the clock is not below B, an engine's not below 2^63 */
#define YARNGRAVEL_BAD_SHELF 3u    /* the shelf has not its exact length; of a charge and a total: the ledger; of the figures: those */
#define YARNGRAVEL_BAD_TICKET 4u   /* the ticket is longer than 32 bytes (asked even if nothing is to be sent) */
#define YARNGRAVEL_BAD_BUNDLE 5u   /* the bundle does not end exactly after its last entry */
#define YARNGRAVEL_BAD_BUFFERS 6u  /* the outgoing, verdict, hand-out or text buffer is too short; of the words and the figures also: a
                                      verdict that no judgement gives */
/* Of a frame, in the verdict buffer (and 10 to 12 from the reader and the comparison, 11 and 12 from the writer): */
#define YARNGRAVEL_BAD_FORM 10u    /* a section's count is wrong, or something is left over */
#define YARNGRAVEL_BAD_RANGE 11u   /* the station is not below n, or r not below B, an engine's not below 2^63 */
#define YARNGRAVEL_BAD_STAMP 12u   /* the stamp is not sound */
#define YARNGRAVEL_LATE 13u        /* r is more than delta + epsilon behind the clock; one that is epsilon or more ahead is read as behind,
                                      by an engine as ahead: it gets 14. With both pairs also: it is due before the clock */
#define YARNGRAVEL_EARLY 14u       /* the sum is more than epsilon - 1 past the clock */
#define YARNGRAVEL_BAD_COUNT 15u   /* a count for this clock or later is above n - 1; an observer does not ask it */
#define YARNGRAVEL_REPEAT 16u      /* that station and r is on the shelf already */
#define YARNGRAVEL_TOO_MANY 18u    /* the engine holds 64 messages already; no station or observer asks it */
/* Of a setup with both pairs, asked right after 1: */
#define YARNGRAVEL_NOT_WIDER 19u   /* wider_epsilon is below epsilon, or wider_delta below delta */
/* Of a ticket, from a charge: */
#define YARNGRAVEL_BAD_PRESS 20u   /* a ticket of kind 2 has not 10 bytes with count 9, or its pounds are not 1 to 1000 */
#define YARNGRAVEL_CHARGED 21u     /* the bale is in the ledger already */
#define YARNGRAVEL_FULL_LEDGER 22u /* the ledger holds 512 bales already */

/* A number in English, for a log. */
static inline const char *yarngravel_number_text(unsigned number) {
    switch (number) {
    case 0: return "accepted";
    case YARNGRAVEL_BAD_SETUP: return "the setup is not in its limits (of a charge: the rate)";
    case YARNGRAVEL_BAD_CLOCK: return "the clock is not below B (an engine's: 2^63)";
    case YARNGRAVEL_BAD_SHELF: return "the shelf (the ledger, the figures) has not its exact length";
    case YARNGRAVEL_BAD_TICKET: return "the ticket is longer than 32 bytes";
    case YARNGRAVEL_BAD_BUNDLE: return "the bundle does not end exactly after its last entry";
    case YARNGRAVEL_BAD_BUFFERS: return "a buffer is too short, or a verdict is none";
    case YARNGRAVEL_BAD_FORM: return "the frame has a wrong count, or something is left over";
    case YARNGRAVEL_BAD_RANGE: return "the frame's station is not below n, or its r not below B (an engine's: 2^63)";
    case YARNGRAVEL_BAD_STAMP: return "the frame's stamp is not sound";
    case YARNGRAVEL_LATE: return "the frame is too old, or its sender's clock too far ahead";
    case YARNGRAVEL_EARLY: return "the frame knows of a clock too far ahead";
    case YARNGRAVEL_BAD_COUNT: return "the frame counts more events than there can be";
    case YARNGRAVEL_REPEAT: return "the frame is on the shelf already";
    case YARNGRAVEL_TOO_MANY: return "the engine holds 64 messages already";
    case YARNGRAVEL_NOT_WIDER: return "the wider pair of limits has one that is smaller than the old";
    case YARNGRAVEL_BAD_PRESS: return "the press ticket has not its form, or its pounds are out of range";
    case YARNGRAVEL_CHARGED: return "the bale is charged already";
    case YARNGRAVEL_FULL_LEDGER: return "the ledger holds 512 bales already";
    default: return "no number of this library";
    }
}

/* The fields of the answer of a tick, a station's or an engine's, or of an observer's call. A refusal is its number alone. */
static inline unsigned yarngravel_number(uint64_t answer) { return (unsigned)(answer & 0xffu); }
/* what had to be mended: 1 the tables (an observer's last clock) were not sound for this clock and were replaced, 2 the shelf was
   not sound and was emptied, 3 both */
static inline unsigned yarngravel_mend(uint64_t answer) { return (unsigned)(answer >> 8 & 0xffu); }
/* a mend in English */
static inline const char *yarngravel_mend_text(unsigned mend) {
    switch (mend) {
    case 0: return "nothing had to be mended";
    case 1: return "the tables (an observer's last clock) were not sound and were replaced";
    case 2: return "the shelf was not sound and was emptied";
    case 3: return "neither was sound: the tables (an observer's last clock) were replaced, the shelf was emptied";
    default: return "no mend of this library";
    }
}
/* frames of the bundle that were taken */
static inline unsigned yarngravel_taken(uint64_t answer) { return (unsigned)(answer >> 16 & 0xffu); }
/* length of the frame in the outgoing buffer, 0 if none was sent; an observer sends none */
static inline unsigned yarngravel_sent(uint64_t answer) { return (unsigned)(answer >> 24 & 0xffu); }
/* frames in the hand-out buffer */
static inline unsigned yarngravel_gave(uint64_t answer) { return (unsigned)(answer >> 32 & 0xffffu); }

/* The fields of a reader's answer. */
static inline unsigned yarngravel_station(uint64_t answer) { return (unsigned)(answer >> 8 & 0xffu); }
/* where the ticket starts in the frame, and its length */
static inline unsigned yarngravel_ticket_at(uint64_t answer) { return (unsigned)(answer >> 16 & 0xffffu); }
static inline unsigned yarngravel_ticket_len(uint64_t answer) { return (unsigned)(answer >> 32 & 0xffffu); }
/* with both pairs: whether the frame has more than 2 * epsilon counts */
static inline bool yarngravel_is_wide(uint64_t answer) { return answer >> 48 & 1u; }

/* The length of the frame that the writer wrote. */
static inline unsigned yarngravel_written(uint64_t answer) { return (unsigned)(answer >> 8 & 0xffffu); }

/* The length of the text of the words. */
static inline unsigned yarngravel_text_len(uint64_t answer) { return (unsigned)(answer >> 8); }

/* The fields of a comparison's answer: 0 the first frame is first, 1 the second, 2 they are alike. */
static inline unsigned yarngravel_order(uint64_t answer) { return (unsigned)(answer >> 8 & 0xffu); }
/* what decided */
static inline unsigned yarngravel_reason(uint64_t answer) { return (unsigned)(answer >> 16 & 0xffu); }
#define YARNGRAVEL_BY_NOTHING 0u   /* they are alike */
#define YARNGRAVEL_BY_SUM 1u       /* r + c */
#define YARNGRAVEL_BY_COUNT 2u     /* the count at a clock */
#define YARNGRAVEL_BY_STATION 3u
#define YARNGRAVEL_BY_R 4u
/* that clock, modulo B; 0 where no count decided */
static inline unsigned yarngravel_count_clock(uint64_t answer) { return (unsigned)(answer >> 32 & 0xffffu); }

/* The fields of a poll's answer: whether something is next. */
static inline bool yarngravel_has_next(uint64_t answer) { return answer >> 8 & 1u; }
/* its due clock, modulo B; 0 where nothing is next */
static inline unsigned yarngravel_next(uint64_t answer) { return (unsigned)(answer >> 16 & 0xffffu); }
/* frames on the shelf that are due at most `within` ticks after the clock */
static inline unsigned yarngravel_within(uint64_t answer) { return (unsigned)(answer >> 32 & 0xffffu); }

/* The fields of a charge's answer: whether the ledger got the bale (a charge of 0 cents is a charge), and the charge in cents, 0 where a
   ticket passed or was refused. */
static inline bool yarngravel_entered(uint64_t answer) { return answer >> 8 & 1u; }
static inline uint32_t yarngravel_cents(uint64_t answer) { return (uint32_t)(answer >> 32); }

/* A grower's total in cents, from a total's answer. */
static inline uint64_t yarngravel_total_cents(uint64_t answer) { return answer >> 8; }

/* Figures, how well the stations hear each other (yarngravel_figures): of the last 256 accepted calls, or of all if there were fewer,
   how many frames of a station were taken (number 0), or refused by 11 to 16. 0 for a station above 15 and for any other number. */
static inline unsigned yarngravel_figure(const uint8_t figures[YARNGRAVEL_FIGURES], uint32_t station, unsigned number) {
    if (station > 15 || (number != 0 && (number < YARNGRAVEL_BAD_RANGE || number > YARNGRAVEL_REPEAT))) return 0;
    const uint8_t *total = figures + 1 + 2 * (7 * (size_t)station + (number == 0 ? 0 : number - YARNGRAVEL_BAD_FORM));
    return total[0] + 256u * total[1];
}
/* the line of its own: frames refused by 10, or with a station not below n */
static inline unsigned yarngravel_figure_of_none(const uint8_t figures[YARNGRAVEL_FIGURES]) {
    return figures[225] + 256u * figures[226];
}

/* A bundle, for what is heard between two calls. This one makes it empty, and answers its length, 1. */
static inline size_t yarngravel_bundle_start(uint8_t *bundle) {
    bundle[0] = 0;
    return 1;
}
/* Adds what was heard to a bundle of *bundle_len bytes in a buffer of `room` bytes. False, and nothing has changed, where it does
   not fit: the bundle has 255 frames already, the frame more than 255 bytes, or the buffer no room. */
static inline bool yarngravel_bundle_add(uint8_t *bundle, size_t room, size_t *bundle_len, const uint8_t *frame,
                                         size_t frame_len) {
    if (*bundle_len < 1 || *bundle_len > room || bundle[0] == 255) return false;
    if (frame_len > 255 || frame_len >= room - *bundle_len) return false;
    bundle[0]++;
    bundle[(*bundle_len)++] = (uint8_t)frame_len;
    for (size_t i = 0; i < frame_len; i++) bundle[(*bundle_len)++] = frame[i];
    return true;
}

/* The length of a frame that the library wrote, into a hand-out or to be sent. (A frame that was heard may be anything.) */
static inline size_t yarngravel_frame_len(uint32_t epsilon, const uint8_t *frame) {
    return 7u + 2u * (size_t)epsilon + frame[6u + 2u * (size_t)epsilon];
}

/* A walk over the frames that a call handed out, none where it was refused:
 *   struct yarngravel_walk walk = yarngravel_walk_of(answer, handout);
 *   while (yarngravel_walk_next(&walk, epsilon)) show(walk.frame, walk.len);
 */
struct yarngravel_walk {
    const uint8_t *frame; /* the frame that the walk has come to */
    size_t len;           /* its length */
    unsigned left;        /* how many frames follow */
};
static inline struct yarngravel_walk yarngravel_walk_of(uint64_t answer, const uint8_t *handout) {
    struct yarngravel_walk walk = {handout + 2, 0, yarngravel_gave(answer)};
    return walk;
}
/* Goes on to the next frame; false where none is left. */
static inline bool yarngravel_walk_next(struct yarngravel_walk *walk, uint32_t epsilon) {
    if (walk->left == 0) return false;
    walk->left--;
    walk->frame += walk->len;
    walk->len = yarngravel_frame_len(epsilon, walk->frame);
    return true;
}

/* Of a frame that the library wrote, whatever its width: the drift limit that it was made with, half the number of its counts. */
static inline uint32_t yarngravel_frame_epsilon(const uint8_t *frame) { return (frame[4] - 1u) / 2u; }
/* The same walk over a hand-out with frames of both widths, which calls with both pairs make; it goes by each frame's own counts:
 *   while (yarngravel_walk_next_in(&walk)) show(walk.frame, walk.len);
 */
static inline bool yarngravel_walk_next_in(struct yarngravel_walk *walk) {
    return walk->left > 0 && yarngravel_walk_next(walk, yarngravel_frame_epsilon(walk->frame + walk->len));
}

/* Makes a press ticket of a bale, its net pounds, 1 to 1000, and its grower. */
static inline void yarngravel_press(uint8_t ticket[YARNGRAVEL_PRESS], uint32_t bale, uint16_t pounds, uint16_t grower) {
    ticket[0] = YARNGRAVEL_PRESS - 1u;
    ticket[1] = YARNGRAVEL_PRESS_KIND;
    for (unsigned i = 0; i < 4; i++) ticket[2 + i] = (uint8_t)(bale >> 8 * i);
    for (unsigned i = 0; i < 2; i++) ticket[6 + i] = (uint8_t)(pounds >> 8 * i);
    for (unsigned i = 0; i < 2; i++) ticket[8 + i] = (uint8_t)(grower >> 8 * i);
}

/* The length of an engine's frame, and the walk over an engine's hand-out, which starts as a station's does. */
static inline size_t yarngravel_long_frame_len(uint32_t epsilon, const uint8_t *frame) {
    return 13u + 2u * (size_t)epsilon + frame[12u + 2u * (size_t)epsilon];
}
static inline bool yarngravel_long_walk_next(struct yarngravel_walk *walk, uint32_t epsilon) {
    if (walk->left == 0) return false;
    walk->left--;
    walk->frame += walk->len;
    walk->len = yarngravel_long_frame_len(epsilon, walk->frame);
    return true;
}

/* The clock of the last accepted call, modulo B: from a station's tables, or from an observer's last clock. */
static inline unsigned yarngravel_last_clock(const uint8_t *kept) { return kept[0] + 256u * kept[1]; }

/* The clock of an engine's last accepted call, from its tables. */
static inline uint64_t yarngravel_long_last_clock(const uint8_t tables[YARNGRAVEL_LONG_TABLES]) {
    uint64_t clock = 0;
    for (unsigned i = 8; i > 0; i--) clock = clock << 8 | tables[i - 1];
    return clock;
}

/* Fresh tables at a clock (modulo B), for a station that starts there: its first tick is for a clock 1 to epsilon later. Its shelf
 * starts as zeros.
 * Refusals: 1, 2; then the tables stay as they were.
 */
uint64_t yarngravel_fresh(uint32_t n, uint32_t epsilon, uint32_t delta, uint32_t modulus, uint32_t own, uint32_t clock,
                          uint8_t tables[YARNGRAVEL_TABLES]);

/* The last clock of an observer that starts at a clock (modulo B): its first call, yarngravel_listen, is for a clock 1 to epsilon later.
 * Its shelf starts as zeros.
 * Refusals: 1 (no own number is asked for), 2; then the last clock stays as it was.
 */
uint64_t yarngravel_fresh_last(uint32_t n, uint32_t epsilon, uint32_t delta, uint32_t modulus, uint32_t clock,
                               uint8_t last[YARNGRAVEL_LAST]);

/* One tick at the clock (modulo B): judges the frames of the bundle, sends if asked to, and hands out what is due. A frame is due
 * at its r + c + delta + epsilon; it is handed out in the station's first tick at or past that clock.
 *   clock     the station's clock modulo B, 1 to epsilon past that of its last accepted call: 1, or more where the clock was moved
 *             forward. A step of 0 or above epsilon replaces the tables
 *   tables    in and out. Sound for this clock if their r lies 1 to epsilon before it and c and counts are possible; else replaced
 *   shelf     in and out, exactly YARNGRAVEL_SHELF bytes. Sound only if every frame on it is due after r of the tables, or, where
 *             these are replaced, at this clock or later; else emptied
 *   bundle    a one-byte count, then for each frame a one-byte length and its bytes; an empty bundle is one byte 0.
 *             No more than 255 frames fit: the others are lost, or go into the next tick's while the delay limit allows.
 *             Leave out what has more than 255 bytes: no frame has more than 71
 *   send      whether a ticket is to be sent
 *   ticket    at most 32 bytes; may be any pointer where ticket_len is 0
 *   outgoing  gets the frame to send; at least YARNGRAVEL_FRAME bytes
 *   verdicts  gets one byte for each frame of the bundle: 0 taken, or the number of the first check it fails; at least
 *             YARNGRAVEL_VERDICTS bytes, however many frames there are
 *   handout   gets a two-byte count (low byte first) and the frames, in delivery order: first those due before this clock, which
 *             leave the shelf before the bundle is judged, then those due at it; at least YARNGRAVEL_SHELF bytes
 * Bytes beyond those written stay as they were.
 */
uint64_t yarngravel_tick(uint32_t n, uint32_t epsilon, uint32_t delta, uint32_t modulus, uint32_t own, uint32_t clock,
                         uint8_t tables[YARNGRAVEL_TABLES], uint8_t *shelf, size_t shelf_len, const uint8_t *bundle,
                         size_t bundle_len, bool send, const uint8_t *ticket, size_t ticket_len, uint8_t *outgoing,
                         size_t outgoing_len, uint8_t *verdicts, size_t verdicts_len, uint8_t *handout,
                         size_t handout_len);

/* Reads a frame: its station and where its ticket lies in the answer, r, c and counts in the tables.
 * A refused frame (1, 10, 11, 12) answers the number alone and leaves the tables as they were.
 */
uint64_t yarngravel_read(uint32_t n, uint32_t epsilon, uint32_t delta, uint32_t modulus, uint32_t own,
                         const uint8_t *frame, size_t frame_len, uint8_t tables[YARNGRAVEL_TABLES]);

/* Writes a frame of a station, a stamp and a ticket. Refusals: 1, 4, 11, 12, and 6 for a buffer shorter than the frame. */
uint64_t yarngravel_write(uint32_t n, uint32_t epsilon, uint32_t delta, uint32_t modulus, uint32_t own,
                          uint32_t station, const uint8_t tables[YARNGRAVEL_TABLES], const uint8_t *ticket,
                          size_t ticket_len, uint8_t *out, size_t out_len);

/* Writes a line of words for each frame of a bundle, by the verdicts of the tick that heard it. A line is the frame's place in the
 * bundle from 0, its station, its r, a word, and the limits that the word is about, with one space between and a newline last; it
 * has at most YARNGRAVEL_LINE bytes. No two different judgements have the same line.
 *   0   taken
 *   10  form                   with a dash for the station and one for r
 *   11  range n B              the station is not below n, or r not below B
 *   12  stamp n epsilon-1      a count is above n, c is above epsilon - 1, or the counts do not fit c
 *   13  late delta+epsilon     r is further behind the clock than this, or epsilon or more ahead of it
 *   14  early epsilon-1        the sum is further past the clock than this
 *   15  count n-1              a count for the clock or later is above this
 *   16  repeat                 that station and r is on the shelf already
 * The limits are written as numbers, as in `4 1 2 late 3`.
 *   bundle    as given to the tick
 *   verdicts  as the tick left them; at least a byte for each frame
 *   text      gets the lines, with no byte 0 after them; at least YARNGRAVEL_LINE bytes for each frame. Bytes beyond the text stay
 *             as they were
 * Refusals: 1, 5, and 6 for a short buffer or for a verdict of one of these frames that is neither 0 nor 10 to 16. With verdicts
 * that are not these frames' own, the station and r are the bytes in their places, 0 for one that is missing.
 */
uint64_t yarngravel_words(uint32_t n, uint32_t epsilon, uint32_t delta, uint32_t modulus, uint32_t own,
                          const uint8_t *bundle, size_t bundle_len, const uint8_t *verdicts, size_t verdicts_len,
                          uint8_t *text, size_t text_len);

/* Says which of two frames comes first in the order of two stamps, and what decided: the first of sum, count at the sum's clock, at the
 * clock before and so on (epsilon counts), station, r in which they differ. Each r is read near the clock, as a tick at it does; in
 * a hand-out that is the tick's own clock. The tickets are not looked at.
 * Refusals: 1, 2, then 10 to 12 of the first frame, then of the second.
 */
uint64_t yarngravel_compare(uint32_t n, uint32_t epsilon, uint32_t delta, uint32_t modulus, uint32_t own, uint32_t clock,
                            const uint8_t *first, size_t first_len, const uint8_t *second, size_t second_len);

/* Says when something shows next, and how many frames are due soon, of what is on the shelf; frames that are still to be heard are
 * not in it. The shelf is judged as a tick judges it, with every due clock past the clock given; one that is not sound answers as
 * an empty one: nothing next, 0 within. What an accepted tick left is sound at that tick's clock.
 *   clock     that of the station's last accepted tick, modulo B
 *   within    how many ticks ahead to count, 0 to 65535
 *   shelf     only read; exactly YARNGRAVEL_SHELF bytes
 * The next tick, k ticks later, hands out the frames that are due within k, and of those that it takes itself the ones due at its
 * clock.
 * Refusals: 1, 2, 3.
 */
uint64_t yarngravel_poll(uint32_t n, uint32_t epsilon, uint32_t delta, uint32_t modulus, uint32_t own, uint32_t clock,
                         uint16_t within, const uint8_t *shelf, size_t shelf_len);

/* One call of an observer, a board that only listens, at its clock (modulo B): judges the frames of the bundle and hands out what is
 * due, as a tick does. An observer has no own number, is not counted in n, sends nothing and keeps no counts: between its calls it
 * keeps two bytes and a shelf. Its clock stays within epsilon of the stations' and moves by 1 to epsilon a call, as theirs do.
 *   last      in and out: the clock of the observer's last accepted call, at the start that before the first
 *             (yarngravel_fresh_last). Sound if it is below B and lies 1 to epsilon before this clock; else damaged, which is
 *             mend 1. After an accepted call it is this clock
 *   shelf     in and out, exactly YARNGRAVEL_SHELF bytes; zeros at the start. Sound only if every frame on it is due after the last
 *             clock, or, where that is damaged, at this clock or later; else emptied
 *   bundle, verdicts, handout
 *             as in a tick. Of a frame 15 is not asked: all n stations may be ahead of an observer
 * Refusals: 1 (no own number is asked for), 2, 3, 5, and 6 for the verdict or the hand-out buffer.
 */
uint64_t yarngravel_listen(uint32_t n, uint32_t epsilon, uint32_t delta, uint32_t modulus, uint32_t clock,
                           uint8_t last[YARNGRAVEL_LAST], uint8_t *shelf, size_t shelf_len, const uint8_t *bundle,
                           size_t bundle_len, uint8_t *verdicts, size_t verdicts_len, uint8_t *handout,
                           size_t handout_len);

/* Charges one ticket that was handed out, at a rate in cents for a hundred pounds. Tickets are charged in the order of the hand-outs, one a
 * call (yarngravel_charge_next does so for a whole hand-out); two boards that start with empty ledgers and hand out the same messages in the
 * same order, charged at the same rate, have the same totals, however the messages were cut into hand-outs. That is proved.
 *   rate      0 to YARNGRAVEL_RATE
 *   ticket    at most 32 bytes. One whose second byte is not YARNGRAVEL_PRESS_KIND, or that has fewer than two, passes: the answer is 0. A
 *             press ticket is a count of 9, the kind, bale (four bytes), net pounds (two) and grower (two), low bytes first
 *             (yarngravel_press)
 *   ledger    in and out, exactly YARNGRAVEL_LEDGER bytes; zeros at the start. Its count, above 512, reads as 512. A charge, of 0 cents too,
 *             writes bale (four bytes), grower (two) and charge (four) behind the last, and the count; nothing else changes a byte of it
 * The charge is pounds * rate / 100, rounded to the nearest cent, a half upward: 487 pounds at 1250 is 6088. It is at most 600000.
 * Refusals: 1 (the rate), 3 (the ledger's length), 4; then of a press ticket 20, 21, 22. A refused ticket is still shown.
 */
uint64_t yarngravel_charge(uint32_t rate, const uint8_t *ticket, size_t ticket_len, uint8_t *ledger, size_t ledger_len);

/* The total of a grower: the sum of the charges of that grower's bales in the ledger, which is only read.
 * Refusal: 3.
 */
uint64_t yarngravel_total(uint16_t grower, const uint8_t *ledger, size_t ledger_len);

/* Goes on to the next frame of a hand-out, as yarngravel_walk_next, and charges its ticket; the charge's answer is left in *charged.
 *   struct yarngravel_walk walk = yarngravel_walk_of(answer, handout);
 *   uint64_t charged;
 *   while (yarngravel_charge_next(&walk, epsilon, rate, ledger, &charged)) show(walk.frame, walk.len, charged);
 */
static inline bool yarngravel_charge_next(struct yarngravel_walk *walk, uint32_t epsilon, uint32_t rate,
                                          uint8_t ledger[YARNGRAVEL_LEDGER], uint64_t *charged) {
    if (!yarngravel_walk_next(walk, epsilon)) return false;
    size_t front = 7u + 2u * (size_t)epsilon;
    *charged = yarngravel_charge(rate, walk->frame + front, walk->len - front, ledger, YARNGRAVEL_LEDGER);
    return true;
}
/* The same over a hand-out with frames of both widths. */
static inline bool yarngravel_charge_next_in(struct yarngravel_walk *walk, uint32_t rate, uint8_t ledger[YARNGRAVEL_LEDGER],
                                             uint64_t *charged) {
    return walk->left > 0 &&
           yarngravel_charge_next(walk, yarngravel_frame_epsilon(walk->frame + walk->len), rate, ledger, charged);
}

/* Keeps the figures of how well the stations hear each other: one call after each accepted tick of a station, or each accepted call of
 * an observer, with its bundle and its verdicts as the call left them. Then the figures tell, of the last 256 of these calls (or of all, if
 * there were fewer), how many frames of each station were taken, and how many refused by each of 11 to 16; yarngravel_figure and
 * yarngravel_figure_of_none read them. Frames refused by 10, and those with a station not below n, are counted together. A call that
 * mended something counts like any other, and other limits clear nothing: of the setup the figures know n alone.
 *   figures   in and out, exactly YARNGRAVEL_FIGURES bytes, zeros at the start: a position; 113 totals of two bytes, low byte first, of
 *             station k at 7k those taken, then those refused by 11 to 16, the last one of no station; and 256 rows of 113 bytes, one of
 *             each call. From any other bytes what they tell is right after 256 calls
 * Refusals: 1 (n alone is asked for), 3 for figures of another length, 5, and 6 as of the words. With verdicts that are not these frames'
 * own, the station is the byte in its place, 0 where it is missing.
 */
uint64_t yarngravel_figures(uint32_t n, const uint8_t *bundle, size_t bundle_len, const uint8_t *verdicts, size_t verdicts_len,
                            uint8_t *figures, size_t figures_len);

/* An engine: a plain station for the workbench, with clocks of 64 bits that are never reduced. On every run from fresh tables that
 * keeps drift and delay, steps by 1 to epsilon, hears only what was sent in it, stays below 2^63 and never holds more than 64
 * messages, its verdicts, tables, frames and hand-outs are call for call those of a station, with r modulo B in two bytes and the
 * first section's count 3. That is proved. There are no words, no comparison and no poll for it.
 *
 * One tick of an engine, as yarngravel_tick but for
 *   clock     below 2^63, not reduced
 *   tables    in and out, YARNGRAVEL_LONG_TABLES bytes; yarngravel_long_fresh makes the first ones
 *   shelf     in and out, exactly YARNGRAVEL_LONG_SHELF bytes: what is held, in the order heard. It is not judged for order; all
 *             else makes it sound as a station's is, with at most 64 frames
 *   bundle    with an engine's frames: the first section has count 9, the station and r in eight bytes, low byte first
 *   outgoing  at least YARNGRAVEL_LONG_FRAME bytes
 *   verdicts  0, 10 to 16, or 18 for a frame that passes all others while 64 are held. What is due before this clock is held until
 *             the hand-out, and counted by 18
 *   handout   all that is due at this clock or before, in delivery order; at least YARNGRAVEL_LONG_SHELF bytes
 * Clocks are compared as the numbers that they are: a frame whose clock is far ahead gets 14.
 */
uint64_t yarngravel_long_tick(uint32_t n, uint32_t epsilon, uint32_t delta, uint32_t own, uint64_t clock,
                              uint8_t tables[YARNGRAVEL_LONG_TABLES], uint8_t *shelf, size_t shelf_len, const uint8_t *bundle,
                              size_t bundle_len, bool send, const uint8_t *ticket, size_t ticket_len, uint8_t *outgoing,
                              size_t outgoing_len, uint8_t *verdicts, size_t verdicts_len, uint8_t *handout,
                              size_t handout_len);

/* An engine's fresh tables at a clock, as yarngravel_fresh makes a station's: its first tick is for a clock 1 to epsilon later, and its
 * shelf starts as zeros. r is that clock, byte 9 + epsilon is 1, all else 0.
 * Refusals: 1, 2 (a clock from 2^63 up); then the tables stay as they were.
 */
uint64_t yarngravel_long_fresh(uint32_t n, uint32_t epsilon, uint32_t delta, uint32_t own, uint64_t clock,
                               uint8_t tables[YARNGRAVEL_LONG_TABLES]);

/* Reads an engine's frame, as yarngravel_read does a station's. Refusals: 1, 10, 11 (r from 2^63 up too), 12. */
uint64_t yarngravel_long_read(uint32_t n, uint32_t epsilon, uint32_t delta, uint32_t own, const uint8_t *frame, size_t frame_len,
                              uint8_t tables[YARNGRAVEL_LONG_TABLES]);

/* Writes an engine's frame, as yarngravel_write does a station's. Refusals: 1, 4, 11, 12, and 6 for a buffer shorter than the
 * frame. */
uint64_t yarngravel_long_write(uint32_t n, uint32_t epsilon, uint32_t delta, uint32_t own, uint32_t station,
                               const uint8_t tables[YARNGRAVEL_LONG_TABLES], const uint8_t *ticket, size_t ticket_len,
                               uint8_t *out, size_t out_len);

/* Wider limits in mid season. At an agreed clock V the whole yard, observers included, goes from epsilon, delta to wider_epsilon,
 * wider_delta. For a while before and after, its calls know of both pairs: yarngravel_..._in, each of which takes a struct
 * yarngravel_setup in the place of the plain setup's numbers, and answers and refuses as the plain one, with 19 asked right after 1.
 * Tables and shelf are carried over, and what the boards show stays in one order, causes first, straight through V. What a host does for
 * each station and each observer, in this order (clocks here are not reduced; the last clock is that of its last accepted call):
 *   1. It goes on with the plain old setup at first, in calls for clocks up to V - delta - 2 * epsilon.
 *   2. It takes up both pairs, the sooner the better: in a call for a clock at most B before V, with a last clock at least delta + 2 *
 *      epsilon before V (yarngravel_may_take_both). Before that call the shelf grows to yarngravel_shelf_size_in: its bytes stay in
 *      front, those behind them may be any. The buffers have the new sizes too. A refused take-up leaves the shelf as it was: the plain
 *      old call would still take its first bytes.
 *   3. It sets the mark in each call: 0 for clocks before V, 1 from V on (yarngravel_set_change). Nothing else changes at V: the tables
 *      become wide in the first marked call, and from then on the station sends wide frames.
 *   4. It takes the plain new setup (n, wider_epsilon, wider_delta, modulus, own) in a call when the last clock is at least wider_delta +
 *      2 * wider_epsilon and at most B - 1 past V (yarngravel_may_take_wider). Tables, shelf and buffers stay as they are.
 * The yard keeps these limits: while any clock, an observer's too, is below V no two differ by more than epsilon, then by no more than
 * wider_epsilon; a message sent before V is heard while its sender's clock is at most delta past the sending, one sent at V or later
 * wider_delta; a step to a clock before V is at most epsilon, to V or past it wider_epsilon.
 * After a power dip, X being the largest clock then: the order is right from X + wider_delta + 3 * wider_epsilon on, what is older is
 * heard in no call for a clock past X + wider_delta + wider_epsilon, and no station or observer does 2 or 4 until its last clock is past
 * X + 2 * wider_delta + 3 * wider_epsilon. So both pairs are best taken up long before V.
 *
 * One tick, as yarngravel_tick but for
 *   setup     both pairs, V and the mark of this clock. The limits of the tick are those of its clock, by the mark
 *   tables    narrow, with 2 * epsilon counts, where their r lies before V, else wide; the step is 1 to the drift limit of this clock
 *   shelf     in and out, exactly yarngravel_shelf_size_in bytes, frames of both widths on it. A frame is due at its r + c + delta +
 *             epsilon if that lies before V, else at r + c + wider_delta + wider_epsilon, whatever its width
 *   bundle    with frames of both widths: a count that a narrow one lacks is 0
 *   outgoing  gets a narrow frame before V, a wide one from V on; at least yarngravel_frame_size_in bytes
 *   verdicts  13 also for a frame that is due before this clock
 *   handout   at least yarngravel_shelf_size_in bytes; yarngravel_walk_next_in goes over it. Frames due before V are compared by epsilon
 *             counts, all others by wider_epsilon
 */
uint64_t yarngravel_tick_in(const struct yarngravel_setup *setup, uint32_t clock, uint8_t tables[YARNGRAVEL_TABLES], uint8_t *shelf,
                            size_t shelf_len, const uint8_t *bundle, size_t bundle_len, bool send, const uint8_t *ticket,
                            size_t ticket_len, uint8_t *outgoing, size_t outgoing_len, uint8_t *verdicts, size_t verdicts_len,
                            uint8_t *handout, size_t handout_len);

/* One call of an observer with both pairs, as yarngravel_listen but for the same. Its own number is not looked at.
 * Refusals: 1 (no own number is asked for), 19, 2, 3, 5, and 6 for the verdict or the hand-out buffer.
 */
uint64_t yarngravel_listen_in(const struct yarngravel_setup *setup, uint32_t clock, uint8_t last[YARNGRAVEL_LAST], uint8_t *shelf,
                              size_t shelf_len, const uint8_t *bundle, size_t bundle_len, uint8_t *verdicts, size_t verdicts_len,
                              uint8_t *handout, size_t handout_len);

/* Fresh tables at a clock, as yarngravel_fresh makes them: narrow where the setup is not marked, else wide. The mark here is that of this
 * clock, not of the tick after it. An observer that starts has yarngravel_fresh_last, with either pair.
 * Refusals: 1, 19, 2; then the tables stay as they were.
 */
uint64_t yarngravel_fresh_in(const struct yarngravel_setup *setup, uint32_t clock, uint8_t tables[YARNGRAVEL_TABLES]);

/* Says when something shows next, as yarngravel_poll, after a call with both pairs: with that call's clock and mark.
 * Refusals: 1, 19, 2, 3.
 */
uint64_t yarngravel_poll_in(const struct yarngravel_setup *setup, uint32_t clock, uint16_t within, const uint8_t *shelf,
                            size_t shelf_len);

/* Says which of two frames comes first and what decided, as yarngravel_compare, at a clock and with the mark of that clock; each may have
 * either width. Frames whose sum is due before V are compared by epsilon counts, all others by wider_epsilon, a missing one being 0; 12
 * is by the limits of that clock.
 * Refusals: 1, 19, 2, then 10 to 12 of the first frame, then of the second.
 */
uint64_t yarngravel_compare_in(const struct yarngravel_setup *setup, uint32_t clock, const uint8_t *first, size_t first_len,
                               const uint8_t *second, size_t second_len);

/* Writes a line of words for each frame of a bundle, as yarngravel_words, with the limits of the mark's side: the mark is that of the
 * tick. 13 has delta + epsilon of that side also where a frame is refused because it is due before the clock.
 * Refusals: 1, 19, 5, 6.
 */
uint64_t yarngravel_words_in(const struct yarngravel_setup *setup, const uint8_t *bundle, size_t bundle_len, const uint8_t *verdicts,
                             size_t verdicts_len, uint8_t *text, size_t text_len);

/* Reads a frame of either width, as yarngravel_read; yarngravel_is_wide of the answer says which. 12 is by the frame's width, whatever
 * the mark is. The tables get the frame's counts from byte 3 on, in their order, and zeros behind them.
 * Refusals: 1, 19, 10, 11, 12; then the tables stay as they were.
 */
uint64_t yarngravel_read_in(const struct yarngravel_setup *setup, const uint8_t *frame, size_t frame_len,
                            uint8_t tables[YARNGRAVEL_TABLES]);

/* Writes a frame of a station, a stamp and a ticket, as yarngravel_write: with 2 * wider_epsilon counts where wide is true, else 2 *
 * epsilon. 12 is by that width, whatever the mark is.
 * Refusals: 1, 19, 4, 11, 12, and 6 for a buffer shorter than the frame.
 */
uint64_t yarngravel_write_in(const struct yarngravel_setup *setup, uint32_t station, bool wide, const uint8_t tables[YARNGRAVEL_TABLES],
                             const uint8_t *ticket, size_t ticket_len, uint8_t *out, size_t out_len);

#ifdef __cplusplus
}
#endif

#endif
