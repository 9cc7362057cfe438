/* A whole yard over the library, timed: its stations tick in turn, at clocks spread over the drift limit, all send a ticket in each tick,
 * and everybody hears each frame in one of its next three ticks, the sender too. At a delay limit of 0 the sender does not: that is one
 * step later than the limit allows.
 * First the yard runs into its steady state. From there on calls are kept with what they hear and send, and then nobody sends until all
 * shelves are empty. Every call must be accepted and mend nothing, and take all that it hears; every board must show every message
 * exactly once, byte for byte, and any two boards what both show in one order. Then the calls that were kept are made again from the same
 * memories, and these alone are timed, a few ticks of the yard together: no bundle is made meanwhile. Each time they must answer what they
 * did and leave the same memories. Of each few ticks the best of many rounds counts.
 * Last come the cycles of an empty tick for each byte that is in use on the shelf of the largest yard, beside those of memmove.
 * Exit status 0 where all holds; where not, the figures of that yard are not printed. */
#define _POSIX_C_SOURCE 200809L
#include <stdio.h>
#include <stdlib.h>
#include <string.h>
#include <time.h>
#ifdef __x86_64__
#include <x86intrin.h>
#endif

#include "yarngravel.h"

enum { N = 16, MODULUS = 65535, DELAYS = 3, MESSAGES = 8192 };
enum { FRAME = YARNGRAVEL_FRAME(16), SHELF = YARNGRAVEL_SHELF(16, 16, 64), BUNDLE = YARNGRAVEL_BUNDLE(16, DELAYS * N) };
enum { LINE = 64, KEPT = LINE + SHELF + LINE }; /* tables and shelf each start a line of the cache */
/* How many calls are kept: so many that they walk over SHELVED messages, which the processor cannot learn by heart, within limits. PART of
 * them, whole ticks of the yard, are timed together. */
enum { PART = N, FEWEST = 16 * PART, CALLS = 256 * PART, SHELVED = 1 << 17 };
enum { ROUNDS = 16, LEAST = 200000000 }; /* the fewest rounds, and the least ns that they take in all */

struct setup {
    uint32_t n, epsilon, delta;
    unsigned ticket; /* the length of all tickets */
};

/* a call as it is made, and its answer */
struct call {
    uint32_t who, clock;
    size_t bundle_len;
    const uint8_t *bundle;
    bool send;
    uint8_t ticket[YARNGRAVEL_TICKET];
    uint64_t answer, again; /* when it was made first, and when it was timed */
};

/* the buffers that a station lends to its calls beside what it keeps */
struct buffers {
    uint8_t outgoing[FRAME], verdicts[YARNGRAVEL_VERDICTS], handout[SHELF];
};

/* what is heard in one tick */
struct bundle {
    size_t len;
    uint8_t bytes[BUNDLE];
};

struct station {
    unsigned ticks;               /* that it has made */
    struct bundle coming[DELAYS]; /* what it hears in a tick, by that tick's number modulo DELAYS */
    struct buffers buffers;
    unsigned shown_count, shown[MESSAGES]; /* the messages that its board has shown, in order */
};

/* what was sent; its number is its place in the list, and the first bytes of its ticket */
struct message {
    uint32_t sender;
    unsigned len;
    uint8_t bytes[FRAME];
    unsigned place[N]; /* on each board, from 1; 0 where it is not shown */
};

static struct setup yard;
static struct station stations[N];
static struct message messages[MESSAGES];
static unsigned message_count;
static struct call calls[CALLS];
static unsigned call_count;
static uint8_t heard[(CALLS + 1) * BUNDLE]; /* the bundles of these calls, one behind the other, and of a call that is not kept */
static size_t heard_len;
/* tables and shelf of all stations: now, before the first call that was kept, and after the last */
static _Alignas(LINE) uint8_t now[N * KEPT], before[N * KEPT], after[N * KEPT];
static uint64_t drawn;

static uint32_t draw(uint32_t below) {
    drawn = drawn * 6364136223846793005u + 1442695040888963407u;
    return (uint32_t)(drawn >> 33) % below;
}

static void fail(const char *why) {
    fprintf(stderr, "whole: n %u, epsilon %u, delta %u: %s\n", yard.n, yard.epsilon, yard.delta, why);
    exit(1);
}

static size_t shelf_len(void) { return yarngravel_shelf_size(yard.n, yard.epsilon, yard.delta); }

/* how many bytes tables and shelf of a station take, to the next line of the cache */
static size_t kept_len(void) { return LINE + (shelf_len() + LINE - 1) / LINE * LINE; }

static uint8_t *tables_of(uint8_t *kept, uint32_t who) { return kept + who * kept_len(); }

/* how far a station's clock is ahead of the slowest */
static uint32_t lead(uint32_t who) { return who * yard.epsilon / yard.n; }

/* Makes a call on what a station keeps: its tables, and the shelf a line behind them. */
static uint64_t make(const struct call *c, uint8_t *tables, struct buffers *b) {
    return yarngravel_tick(yard.n, yard.epsilon, yard.delta, MODULUS, c->who, c->clock, tables, tables + LINE, shelf_len(), c->bundle,
                           c->bundle_len, c->send, c->ticket, yard.ticket, b->outgoing, sizeof b->outgoing, b->verdicts,
                           sizeof b->verdicts, b->handout, sizeof b->handout);
}

/* A yard of fresh stations. */
static void start(struct setup setup) {
    yard = setup;
    drawn = 1;
    message_count = 0;
    heard_len = 0;
    memset(now, 0, sizeof now);
    for (uint32_t k = 0; k < yard.n; k++) {
        struct station *s = &stations[k];
        s->ticks = s->shown_count = 0;
        for (unsigned d = 0; d < DELAYS; d++) s->coming[d].len = yarngravel_bundle_start(s->coming[d].bytes);
        if (yarngravel_fresh(yard.n, yard.epsilon, yard.delta, MODULUS, k, lead(k), tables_of(now, k)) != 0)
            fail("a station does not start");
    }
}

/* the ticket of the next message: its number, low byte first, and any bytes */
static void write_ticket(uint8_t ticket[YARNGRAVEL_TICKET]) {
    for (unsigned i = 0; i < YARNGRAVEL_TICKET; i++) ticket[i] = (uint8_t)(i < 3 ? message_count >> 8 * i : draw(256));
}

static unsigned number_of(const uint8_t *frame) {
    const uint8_t *ticket = frame + 7 + 2 * yard.epsilon;
    return ticket[0] + 256u * ticket[1] + 65536u * ticket[2];
}

/* in how many ticks from its next one on a station may hear what another, or it itself, has just sent */
static uint32_t delays(bool own) {
    uint32_t allowed = own ? yard.delta : yard.delta + 1;
    return allowed < DELAYS ? allowed : DELAYS;
}

/* Keeps a message, and everybody will hear it. */
static void spread(uint32_t who, unsigned len) {
    if (message_count == MESSAGES) fail("there is no room for so many messages");
    struct message *m = &messages[message_count++];
    m->sender = who;
    m->len = len;
    memcpy(m->bytes, stations[who].buffers.outgoing, len);
    memset(m->place, 0, sizeof m->place);
    for (uint32_t k = 0; k < yard.n; k++) {
        uint32_t in = delays(k == who);
        if (in == 0) continue;
        struct bundle *b = &stations[k].coming[(stations[k].ticks + draw(in)) % DELAYS];
        if (!yarngravel_bundle_add(b->bytes, sizeof b->bytes, &b->len, m->bytes, m->len)) fail("a bundle has no room");
    }
}

/* What a call has handed out comes onto its board: messages as they were sent, none of them twice. */
static void show(uint32_t who, uint64_t answer) {
    struct station *s = &stations[who];
    struct yarngravel_walk walk = yarngravel_walk_of(answer, s->buffers.handout);
    while (yarngravel_walk_next(&walk, yard.epsilon)) {
        unsigned number = number_of(walk.frame);
        if (number >= message_count) fail("a message is shown that nobody has sent");
        struct message *m = &messages[number];
        if (walk.len != m->len || memcmp(walk.frame, m->bytes, m->len) != 0) fail("a message is not shown as it was sent");
        if (m->place[who] != 0) fail("a message is shown twice");
        s->shown[s->shown_count++] = number;
        m->place[who] = s->shown_count;
    }
}

/* One tick of a station, which is kept in the call given, and its bundle behind those of the others. */
static void tick(uint32_t who, bool send, struct call *c) {
    struct station *s = &stations[who];
    struct bundle *b = &s->coming[s->ticks++ % DELAYS];
    memcpy(heard + heard_len, b->bytes, b->len);
    *c = (struct call){.who = who, .clock = (lead(who) + s->ticks) % MODULUS, .send = send, .bundle = heard + heard_len};
    c->bundle_len = b->len;
    write_ticket(c->ticket);
    c->answer = make(c, tables_of(now, who), &s->buffers);
    if (yarngravel_number(c->answer) != 0) fail(yarngravel_number_text(yarngravel_number(c->answer)));
    if (yarngravel_mend(c->answer) != 0) fail(yarngravel_mend_text(yarngravel_mend(c->answer)));
    if (yarngravel_taken(c->answer) != b->bytes[0]) fail("a frame is not taken");
    b->len = yarngravel_bundle_start(b->bytes);
    show(who, c->answer);
    if (send) spread(who, yarngravel_sent(c->answer));
}

/* Lets the yard tick so often; these calls are not kept. */
static void run(unsigned ticks, bool send) {
    struct call c;
    for (unsigned k = 0; k < ticks * yard.n; k++) tick(k % yard.n, send, &c);
}

/* the mean of the messages on a shelf; their number is its first two bytes */
static double held(void) {
    double all = 0;
    for (uint32_t k = 0; k < yard.n; k++) all += tables_of(before, k)[LINE] + 256 * tables_of(before, k)[LINE + 1];
    return all / yard.n;
}

/* Lets the yard tick on, and keeps these calls. */
static void keep(void) {
    memcpy(before, now, yard.n * kept_len());
    double enough = SHELVED / held() / PART;
    call_count = enough < FEWEST / PART ? FEWEST : enough > CALLS / PART ? CALLS : (unsigned)enough * PART;
    for (unsigned k = 0; k < call_count; k++) {
        tick(k % yard.n, true, &calls[k]);
        heard_len += calls[k].bundle_len;
    }
    memcpy(after, now, yard.n * kept_len());
}

/* Every board shows every message, at a delay limit of 0 all but its own station's. */
static void check_whole(uint32_t who) {
    for (unsigned k = 0; k < message_count; k++) {
        bool hears = delays(messages[k].sender == who) > 0;
        if (hears != (messages[k].place[who] != 0)) fail("a message is missing on a board, or shown where nobody heard it");
    }
}

/* What two boards both show comes in one order. */
static void check_two(uint32_t a, uint32_t b) {
    unsigned last = 0;
    for (unsigned k = 0; k < stations[a].shown_count; k++) {
        unsigned place = messages[stations[a].shown[k]].place[b];
        if (place == 0) continue;
        if (place < last) fail("two boards disagree on the order");
        last = place;
    }
}

/* After so many ticks without a message all have been shown. */
static void check_boards(void) {
    for (uint32_t a = 0; a < yard.n; a++) {
        check_whole(a);
        for (uint32_t b = 0; b < a; b++) check_two(a, b);
    }
}

/* Lets a fresh yard run into its steady state, keeps its calls there, and checks it all. */
static void prepare(struct setup setup) {
    start(setup);
    unsigned settled = 2 * (yard.delta + 4 * yard.epsilon);
    run(settled + DELAYS, true);
    keep();
    run(settled, false);
    check_boards();
}

static double now_ns(void) {
    struct timespec t;
    if (clock_gettime(CLOCK_MONOTONIC, &t) != 0) fail("there is no clock");
    return 1e9 * (double)t.tv_sec + (double)t.tv_nsec;
}

/* The calls that were kept did again what they had done. */
static void check_again(void) {
    for (unsigned k = 0; k < call_count; k++)
        if (calls[k].again != calls[k].answer) fail("a timed call answers otherwise");
    if (memcmp(now, after, yard.n * kept_len()) != 0) fail("the timed calls leave other memories");
}

/* The time of some calls that were kept, beginning with the one given; with none of them that of the clock. */
static double time_part(unsigned first, unsigned count) {
    double from = now_ns();
    for (unsigned k = first; k < first + count; k++)
        calls[k].again = make(&calls[k], tables_of(now, calls[k].who), &stations[calls[k].who].buffers);
    return now_ns() - from;
}

/* All calls that were kept, from the same memories, and the best times so far; the time that they took. */
static double time_all(double best[CALLS / PART]) {
    double all = 0;
    memcpy(now, before, yard.n * kept_len());
    for (unsigned k = 0; k < call_count / PART; k++) {
        double took = time_part(k * PART, PART);
        if (best[k] == 0 || took < best[k]) best[k] = took;
        all += took;
    }
    check_again();
    return all;
}

/* the clock's own time */
static double clock_ns(void) {
    double best = time_part(0, 0);
    for (unsigned k = 0; k < 1000; k++) {
        double took = time_part(0, 0);
        if (took < best) best = took;
    }
    return best;
}

/* the mean time of a call */
static double call_ns(void) {
    double best[CALLS / PART] = {0}, all = 0, sum = 0, clock = clock_ns();
    for (unsigned k = 0; k < ROUNDS || all < LEAST; k++) all += time_all(best);
    for (unsigned k = 0; k < call_count / PART; k++) sum += best[k] - clock;
    return sum / call_count;
}

/* One row: a tick of the yard, a message on all boards that show it, and a message on one of them. */
static void print_yard(struct setup setup) {
    prepare(setup);
    double tick = call_ns() * yard.n, message = tick / yard.n;
    uint32_t boards = yard.n - (delays(true) == 0);
    printf("%5u%9u%7u%8.0f%12.0f%14.0f%17.0f\n", yard.n, yard.epsilon, yard.delta, held(), tick, message, message / boards);
    fflush(stdout);
}

#ifdef __x86_64__
/* memmove by way of a place that the compiler does not see through, so that it is called as it stands in the C library */
static void *(*volatile move)(void *, const void *, size_t) = memmove;

/* the best cycles of an empty tick and of a move, for each call that was kept, and the bytes in use on its shelf */
static struct cycles {
    uint64_t tick, move;
    size_t bytes;
} cycles[CALLS];

static void least(uint64_t *best, uint64_t cycles) {
    if (*best == 0 || cycles < *best) *best = cycles;
}

/* the bytes in use on a shelf: its frames, one behind the other */
static size_t bytes_in_use(const uint8_t *shelf) {
    struct yarngravel_walk walk = {shelf + 2, 0, shelf[0] + 256u * shelf[1]};
    while (yarngravel_walk_next(&walk, yard.epsilon)) continue;
    return (size_t)(walk.frame + walk.len - (shelf + 2));
}

/* On what a station keeps before a call: an empty tick for that call's clock, and in its place a move of the shelf's frames by a frame. */
static void time_one(const struct call *c, const uint8_t *kept, struct cycles *best) {
    static const uint8_t empty[1] = {0};
    static _Alignas(LINE) uint8_t spare[KEPT];
    static struct buffers buffers;
    struct call quiet = {.who = c->who, .clock = c->clock, .bundle = empty, .bundle_len = sizeof empty};
    best->bytes = bytes_in_use(kept + LINE);
    memcpy(spare, kept, kept_len());
    uint64_t from = __rdtsc();
    uint64_t answer = make(&quiet, spare, &buffers);
    least(&best->tick, __rdtsc() - from);
    if ((answer & 0xffffu) != 0 || yarngravel_gave(answer) == 0) fail("an empty tick is refused, mends or shows nothing");
    memcpy(spare, kept, kept_len());
    uint8_t *frames = spare + LINE + 2;
    from = __rdtsc();
    move(frames, frames + yarngravel_frame_len(yard.epsilon, frames), best->bytes);
    least(&best->move, __rdtsc() - from);
}

/* All calls that were kept once more, and before each the other two on a copy. */
static void time_cycles(void) {
    memcpy(now, before, yard.n * kept_len());
    for (unsigned k = 0; k < call_count; k++) {
        const struct call *c = &calls[k];
        time_one(c, tables_of(now, c->who), &cycles[k]);
        calls[k].again = make(c, tables_of(now, c->who), &stations[c->who].buffers);
    }
    check_again();
}

static void print_cycles(struct setup setup) {
    double tick = 0, moved = 0, bytes = 0;
    prepare(setup);
    for (unsigned k = 0; k < ROUNDS; k++) time_cycles();
    for (unsigned k = 0; k < call_count; k++) {
        tick += (double)cycles[k].tick;
        moved += (double)cycles[k].move;
        bytes += (double)cycles[k].bytes;
    }
    printf("\ncycles a shelved byte (of the time-stamp counter)    bytes  empty tick   memmove   tick/memmove\n");
    printf("full shelf of the largest yard%29.0f%12.3f%10.3f%15.1f\n", bytes / call_count, tick / bytes, moved / bytes, tick / moved);
}
#else
static void print_cycles(struct setup setup) {
    (void)setup;
    printf("\ncycles a shelved byte: left out, for this is no x86-64 with a time-stamp counter\n");
}
#endif

int main(void) {
    static const uint32_t ns[] = {1, 2, 4, 8, 16}, epsilons[] = {1, 2, 4, 8, 16}, deltas[] = {0, 8, 16, 32, 64};
    printf("whole yard: n  epsilon  delta    held   ns a tick  ns a message  ns on each board\n");
    for (unsigned k = 0; k < sizeof ns / sizeof *ns; k++) print_yard((struct setup){ns[k], 2, 8, 16});
    for (unsigned k = 0; k < sizeof epsilons / sizeof *epsilons; k++) print_yard((struct setup){4, epsilons[k], 8, 16});
    for (unsigned k = 0; k < sizeof deltas / sizeof *deltas; k++) print_yard((struct setup){4, 2, deltas[k], 16});
    print_yard((struct setup){16, 16, 64, 16});
    print_cycles((struct setup){16, 16, 64, YARNGRAVEL_TICKET});
    return 0;
}
