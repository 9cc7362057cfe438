/* A yard in which beside each station stands an engine, the plain station with clocks of 64 bits: it ticks when its station does, sends
 * the same tickets and hears the same messages, as engines send them. Clocks keep the drift limit and are nudged now and then; the air
 * loses, delays and repeats frames. The stations' clocks pass B again and again, the engines' are never reduced. After each call what
 * station and engine left must be the same, with r modulo B in two bytes and the first section's count 3.
 * At the end an engine's memory is filled with random bytes, which its next tick mends.
 * Usage: beside [SEED]. Exit status 0 where all holds; the seed is in what it prints. */
#include <stdio.h>
#include <stdlib.h>
#include <string.h>

#include "yarngravel.h"

enum { N = 4, EPSILON = 2, DELTA = 5, B = YARNGRAVEL_LEAST_MODULUS(EPSILON, DELTA), CALLS = 2000 };
enum { FRAME = YARNGRAVEL_FRAME(EPSILON), LONG_FRAME = YARNGRAVEL_LONG_FRAME(EPSILON) };
enum { SHELF = YARNGRAVEL_SHELF(N, EPSILON, DELTA), LONG_SHELF = YARNGRAVEL_LONG_SHELF(EPSILON) };
#define START ((uint64_t)1 << 40) /* about the first clock */

/* a message, as the station sent it and as its engine did */
struct message {
    int sender;
    uint64_t sent_at;
    unsigned len, long_len;
    uint8_t bytes[FRAME], long_bytes[LONG_FRAME];
};

/* a station and its engine */
struct place {
    uint64_t clock;
    uint8_t tables[YARNGRAVEL_TABLES], shelf[SHELF];
    uint8_t long_tables[YARNGRAVEL_LONG_TABLES], long_shelf[LONG_SHELF];
};

/* what one of the two hears, and what a call writes for it */
struct buffers {
    size_t bundle_len;
    uint8_t bundle[YARNGRAVEL_LONG_BUNDLE(EPSILON, 255)];
    uint8_t outgoing[LONG_FRAME], verdicts[YARNGRAVEL_VERDICTS], handout[SHELF > LONG_SHELF ? SHELF : LONG_SHELF];
};

static struct place places[N];
static struct message messages[CALLS];
static unsigned message_count, taken, gave, repeats;
static unsigned long long seed;
static uint64_t drawn;

static uint32_t draw(uint32_t below) {
    drawn = drawn * 6364136223846793005u + 1442695040888963407u;
    return (uint32_t)(drawn >> 33) % below;
}

static void fail(const char *why) {
    fprintf(stderr, "beside: seed %llu: %s\n", seed, why);
    exit(1);
}

/* With these arguments no call is refused. */
static void expect_accepted(const char *call, uint64_t answer) {
    if (yarngravel_number(answer) == 0) return;
    fprintf(stderr, "beside: the %s is refused: %s\n", call, yarngravel_number_text(yarngravel_number(answer)));
    fail("a call was refused");
}

/* how far a clock may step so that none lags more than the drift limit behind it */
static uint32_t room(int who) {
    uint64_t lowest = places[0].clock;
    for (int k = 1; k < N; k++)
        if (places[k].clock < lowest) lowest = places[k].clock;
    return (uint32_t)(lowest + EPSILON - places[who].clock);
}

/* What is heard at the next clock, in both bundles alike: about every third time each message that the delay limit still allows. */
static void gather(int who, uint64_t next, struct buffers *station, struct buffers *engine) {
    station->bundle_len = yarngravel_bundle_start(station->bundle);
    engine->bundle_len = yarngravel_bundle_start(engine->bundle);
    for (unsigned k = 0; k < message_count; k++) {
        const struct message *m = &messages[k];
        uint64_t sender_clock = m->sender == who ? next : places[m->sender].clock;
        if (sender_clock > m->sent_at + DELTA || draw(3) != 0) continue;
        if (!yarngravel_bundle_add(station->bundle, sizeof station->bundle, &station->bundle_len, m->bytes, m->len) ||
            !yarngravel_bundle_add(engine->bundle, sizeof engine->bundle, &engine->bundle_len, m->long_bytes, m->long_len))
            fail("a bundle has no room");
    }
}

/* is a clock in two bytes the engine's in eight, modulo B? */
static bool same_clock(const uint8_t *two, const uint8_t *eight) {
    uint64_t clock = 0;
    for (int i = 7; i >= 0; i--) clock = clock << 8 | eight[i];
    return clock % B == two[0] + 256u * two[1];
}

/* Are a station's frame and an engine's the same? */
static bool same_frame(const uint8_t *frame, size_t len, const uint8_t *long_frame, size_t long_len) {
    return long_len == len + 6 && frame[0] == 3 && long_frame[0] == 9 && frame[1] == long_frame[1] &&
           same_clock(frame + 2, long_frame + 2) && memcmp(frame + 4, long_frame + 10, len - 4) == 0;
}

/* Both hand-outs, frame by frame; each of the engine's can be read. */
static void check_handouts(uint64_t answer, const uint8_t *handout, uint64_t long_answer, const uint8_t *long_handout) {
    struct yarngravel_walk walk = yarngravel_walk_of(answer, handout), along = yarngravel_walk_of(long_answer, long_handout);
    while (yarngravel_walk_next(&walk, EPSILON)) {
        uint8_t stamp[YARNGRAVEL_LONG_TABLES];
        if (!yarngravel_long_walk_next(&along, EPSILON) || !same_frame(walk.frame, walk.len, along.frame, along.len))
            fail("a station and its engine hand out different frames");
        expect_accepted("engine's reader", yarngravel_long_read(N, EPSILON, DELTA, 0, along.frame, along.len, stamp));
        gave++;
    }
    if (yarngravel_long_walk_next(&along, EPSILON)) fail("an engine hands out more than its station");
}

/* all that a call left, for station and engine */
static void check_same(const struct place *p, uint64_t answer, const struct buffers *station, uint64_t long_answer,
                       const struct buffers *engine) {
    unsigned sent = yarngravel_sent(answer), long_sent = yarngravel_sent(long_answer);
    if (yarngravel_mend(answer) != 0 || yarngravel_mend(long_answer) != 0) fail("something was mended");
    if (yarngravel_taken(answer) != yarngravel_taken(long_answer)) fail("they take different numbers of frames");
    if (memcmp(station->verdicts, engine->verdicts, station->bundle[0]) != 0) fail("their verdicts differ");
    if (!same_clock(p->tables, p->long_tables) || memcmp(p->tables + 2, p->long_tables + 8, YARNGRAVEL_TABLES - 2) != 0)
        fail("their tables differ");
    if ((sent == 0) != (long_sent == 0) || (sent > 0 && !same_frame(station->outgoing, sent, engine->outgoing, long_sent)))
        fail("they send different frames");
    check_handouts(answer, station->handout, long_answer, engine->handout);
    taken += yarngravel_taken(answer);
    for (unsigned k = 0; k < station->bundle[0]; k++) repeats += station->verdicts[k] == YARNGRAVEL_REPEAT;
}

/* the message that both have just sent */
static void keep(int who, const struct buffers *station, unsigned len, const struct buffers *engine, unsigned long_len) {
    struct message *m = &messages[message_count++];
    m->sender = who;
    m->sent_at = places[who].clock;
    m->len = len;
    m->long_len = long_len;
    memcpy(m->bytes, station->outgoing, len);
    memcpy(m->long_bytes, engine->outgoing, long_len);
}

/* One call of an engine; station and engine have the same arguments but for the clock and the frames. */
static uint64_t long_tick(int who, uint64_t clock, struct buffers *b, bool send, const uint8_t *ticket, size_t ticket_len) {
    struct place *p = &places[who];
    return yarngravel_long_tick(N, EPSILON, DELTA, (uint32_t)who, clock, p->long_tables, p->long_shelf, LONG_SHELF, b->bundle,
                                b->bundle_len, send, ticket, ticket_len, b->outgoing, sizeof b->outgoing, b->verdicts,
                                sizeof b->verdicts, b->handout, sizeof b->handout);
}

static void tick(int who, uint64_t next) {
    static struct buffers station, engine;
    struct place *p = &places[who];
    gather(who, next, &station, &engine);
    bool send = draw(2) == 0;
    uint8_t ticket[2] = {(uint8_t)(message_count % 256), (uint8_t)(message_count / 256)};
    uint64_t answer = yarngravel_tick(N, EPSILON, DELTA, B, (uint32_t)who, (uint32_t)(next % B), p->tables, p->shelf, SHELF,
                                      station.bundle, station.bundle_len, send, ticket, sizeof ticket, station.outgoing,
                                      sizeof station.outgoing, station.verdicts, sizeof station.verdicts, station.handout,
                                      sizeof station.handout);
    expect_accepted("station's tick", answer);
    uint64_t long_answer = long_tick(who, next, &engine, send, ticket, sizeof ticket);
    expect_accepted("engine's tick", long_answer);
    p->clock = next;
    check_same(p, answer, &station, long_answer, &engine);
    if (yarngravel_long_last_clock(p->long_tables) != next) fail("an engine's last clock is not that of its call");
    if (send) keep(who, &station, yarngravel_sent(answer), &engine, yarngravel_sent(long_answer));
}

/* An engine's memory is junk, and its next tick mends it; the one after that has nothing to mend. */
static void lose_power(int who) {
    static struct buffers engine;
    struct place *p = &places[who];
    for (unsigned i = 0; i < sizeof p->long_tables; i++) p->long_tables[i] = (uint8_t)draw(256);
    for (unsigned i = 0; i < sizeof p->long_shelf; i++) p->long_shelf[i] = (uint8_t)draw(256);
    engine.bundle_len = yarngravel_bundle_start(engine.bundle);
    for (unsigned k = 0; k < 2; k++) {
        uint64_t answer = long_tick(who, ++p->clock, &engine, false, NULL, 0);
        expect_accepted("engine's tick", answer);
        if (yarngravel_mend(answer) != (k == 0 ? 3u : 0u)) fail("an engine's memory is not mended at once");
    }
}

int main(int argc, char **argv) {
    seed = argc > 1 ? strtoull(argv[1], NULL, 10) : 20261115;
    drawn = seed;
    for (int k = 0; k < N; k++) {
        struct place *p = &places[k];
        p->clock = START + draw(EPSILON + 1);
        expect_accepted("start", yarngravel_fresh(N, EPSILON, DELTA, B, (uint32_t)k, (uint32_t)(p->clock % B), p->tables));
        expect_accepted("engine's start", yarngravel_long_fresh(N, EPSILON, DELTA, (uint32_t)k, p->clock, p->long_tables));
    }
    for (unsigned made = 0; made < CALLS;) {
        int who = (int)draw(N);
        uint32_t most = room(who);
        if (most == 0) continue;
        tick(who, places[who].clock + 1 + (draw(4) == 0 ? draw(most) : 0));
        made++;
    }
    unsigned wraps = (unsigned)(places[0].clock / B - START / B);
    lose_power(0);
    /* some six sevenths of the least that came with 400 seeds */
    if (taken < 2700 || gave < 2700 || repeats < 2800 || wraps < 25) fail("too little to compare");
    printf("seed %llu: engines did call for call what their stations did, in %u calls: %u messages, %u times one was taken, %u times "
           "a repeat refused, %u times one handed out; the stations' clocks passed B %u times\n",
           seed, (unsigned)CALLS, message_count, taken, repeats, gave, wraps);
    return 0;
}
