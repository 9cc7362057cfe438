/* A yard whose limits get wider in mid season: three stations and an observer go from the old pair to the wider one at the clock V, each
 * as the header says ("Wider limits in mid season"): the plain old setup, both pairs before V, both pairs from V on, the plain new setup.
 * Clocks drift and are nudged as far as the limits of the moment allow; the air loses nothing, delays as long as the limits allow, and
 * repeats. Some ticks before V a power dip fills one station's memory with random bytes, and for a while junk is heard.
 * It prints when each board changes its setup, what is mended, the words of what board 0 refuses, and what the boards show: all must show
 * the same covered messages, those due everywhere before the dip and those sent from X + delta' + 3 epsilon' on, each once, in its first
 * call at or past its due clock, in one order, causes first. Due clocks are reckoned here by 02's sentence.
 * Usage: season [SEED]. Exit status 0 where all holds; the seed is in what it prints. */
#include <stdio.h>
#include <stdlib.h>
#include <string.h>

#include "yarngravel.h"

enum { N = 3, EPSILON = 2, DELTA = 3, WIDER_EPSILON = 4, WIDER_DELTA = 7, B = 40, V = 100 };
enum { START = V - 58, DIP = V - 30, END = V + 52, DAMAGED = 1, OBSERVER = N, BOARDS = N + 1, MESSAGES = 256, JUNK = -1 };
enum { FRAME = YARNGRAVEL_FRAME(WIDER_EPSILON), SHELF = YARNGRAVEL_SHELF(N, WIDER_EPSILON, WIDER_DELTA) };
enum { OLD_SHELF = YARNGRAVEL_SHELF(N, EPSILON, DELTA) };

/* which setup a board's calls have */
enum phase { OLD, BOTH, NEW };

/* what a station sent; its number is its place in the list, and its ticket */
struct message {
    int sender, sent_at, due; /* true clocks */
    unsigned len;
    uint8_t bytes[FRAME];
    bool heard[BOARDS], taken[BOARDS];
    int shown_at[BOARDS]; /* 0 where it is not shown */
    int knows[N];         /* the newest sending of each station that this one could have known of */
};

struct board {
    enum phase phase;
    int clock; /* the true clock */
    uint8_t tables[YARNGRAVEL_TABLES], last[YARNGRAVEL_LAST], shelf[SHELF];
    int knows[N];   /* the newest sending of each station that it knows of */
    int effects[N]; /* the newest that something shown already could have known of */
    unsigned shown_count;
    int shown[MESSAGES]; /* in order */
};

/* what is heard in a call, and which message each entry is */
struct bundle {
    size_t len;
    uint8_t bytes[YARNGRAVEL_BUNDLE(WIDER_EPSILON, 255)];
    int from[255];
};

static struct board boards[BOARDS];
static struct message messages[MESSAGES];
static int message_count;
static int dipped;     /* X, the largest clock at the dip; 0 before it */
static int shown_then; /* the lowest clock at the dip: what was due by then is shown everywhere */
static unsigned foretold;
static unsigned long long seed;
static uint64_t drawn;

static uint32_t draw(uint32_t below) {
    drawn = drawn * 6364136223846793005u + 1442695040888963407u;
    return (uint32_t)(drawn >> 33) % below;
}

static void fail(const char *why) {
    fprintf(stderr, "season: seed %llu: %s\n", seed, why);
    exit(1);
}

/* With these arguments no call is refused. */
static void expect_accepted(const char *call, uint64_t answer) {
    if (yarngravel_number(answer) == 0) return;
    fprintf(stderr, "season: the %s is refused: %s\n", call, yarngravel_number_text(yarngravel_number(answer)));
    fail("a call was refused");
}

/* both pairs, for a board's call at a clock */
static struct yarngravel_setup setup_at(int who, int clock) {
    struct yarngravel_setup setup = {N, EPSILON, DELTA, B, who == OBSERVER ? 0 : (uint32_t)who, WIDER_EPSILON, WIDER_DELTA, 0, 0};
    yarngravel_set_change(&setup, (uint64_t)clock, V);
    return setup;
}

static int epsilon_at(int clock) { return clock < V ? EPSILON : WIDER_EPSILON; }
static int delta_at(int clock) { return clock < V ? DELTA : WIDER_DELTA; }

/* 02: a frame is due at sum + delta + epsilon if that lies before V, else at sum + delta' + epsilon' */
static int due_clock(int sum) { return sum + DELTA + EPSILON < V ? sum + DELTA + EPSILON : sum + WIDER_DELTA + WIDER_EPSILON; }

/* is a message covered since the dip, or, before it, since the fresh start? */
static bool is_covered_now(const struct message *m) { return dipped == 0 || m->sent_at >= dipped + WIDER_DELTA + 3 * WIDER_EPSILON; }

/* is it covered at all: also where every board had shown it when the power dipped? */
static bool is_covered(const struct message *m) { return is_covered_now(m) || m->due <= shown_then; }

/* the lowest or the highest clock, once a board's is the next one */
static int end_of_clocks(bool highest, int who, int next) {
    int end = next;
    for (int k = 0; k < BOARDS; k++)
        if (k != who && (boards[k].clock > end) == highest) end = boards[k].clock;
    return end;
}

/* may a board's clock come to the next one: a step that its limits allow, no two clocks too far apart, and nothing that it sent is lost? */
static bool may_come_to(int who, int next) {
    int lowest = end_of_clocks(false, who, next), highest = end_of_clocks(true, who, next);
    if (next - boards[who].clock > epsilon_at(next) || highest - lowest > epsilon_at(lowest)) return false;
    for (int k = 0; k < message_count; k++) {
        const struct message *m = &messages[k];
        if (m->sender != who || next <= m->sent_at + delta_at(m->sent_at)) continue;
        for (int board = 0; board < BOARDS; board++)
            if (!m->heard[board]) return false;
    }
    return true;
}

/* adds an entry; there is room for all */
static void put(struct bundle *b, int from, const uint8_t *bytes, unsigned len) {
    if (!yarngravel_bundle_add(b->bytes, sizeof b->bytes, &b->len, bytes, len)) fail("a bundle has no room");
    b->from[b->bytes[0] - 1] = from;
}

/* junk: any bytes, or a message of before with another r; until the last clock at which what is older may be heard */
static void add_junk(struct bundle *b, int next) {
    if (dipped == 0 || next > dipped + WIDER_DELTA + WIDER_EPSILON || message_count == 0 || draw(2) == 0) return;
    uint8_t bytes[FRAME];
    const struct message *m = &messages[draw((uint32_t)message_count)];
    unsigned len = draw(4) == 0 ? draw(FRAME + 1) : m->len;
    for (unsigned i = 0; i < len; i++) bytes[i] = len == m->len ? m->bytes[i] : (uint8_t)draw(256);
    if (len == m->len) bytes[2] = (uint8_t)draw(B);
    put(b, JUNK, bytes, len);
}

/* What is heard for a board at its next clock: each message about every second time that its delay limit allows, and surely in time. */
static void gather(int who, int next, struct bundle *b) {
    b->len = yarngravel_bundle_start(b->bytes);
    for (int k = 0; k < message_count; k++) {
        struct message *m = &messages[k];
        int delta = delta_at(m->sent_at), sender_clock = m->sender == who ? next : boards[m->sender].clock;
        if (sender_clock > m->sent_at + delta) continue;
        if (draw(2) == 0 && (m->heard[who] || next < m->sent_at + delta)) continue;
        m->heard[who] = true;
        put(b, k, m->bytes, m->len);
    }
    add_junk(b, next);
}

/* Goes on to the next setup, and grows the shelf by random bytes: some calls after the bounds allow it, and in time. After the dip nobody
 * does so until its last clock is past X + 2 delta' + 3 epsilon'. */
static void change_setup(int who, int next) {
    struct board *s = &boards[who];
    struct yarngravel_setup setup = setup_at(who, next);
    bool frozen = dipped > 0 && s->clock <= dipped + 2 * WIDER_DELTA + 3 * WIDER_EPSILON;
    bool at_last = s->phase == OLD ? next >= DIP - EPSILON : next >= V + B - 2 * WIDER_EPSILON;
    if (frozen || (!at_last && draw(3) > 0)) return;
    if (s->phase == OLD && yarngravel_may_take_both(&setup, (uint64_t)s->clock, (uint64_t)next, V)) {
        size_t grown = yarngravel_shelf_size_in(&setup);
        for (size_t i = OLD_SHELF; i < grown; i++) s->shelf[i] = (uint8_t)draw(256);
        s->phase = BOTH;
        printf("board %d takes up both pairs for clock %d\n", who, next);
    } else if (s->phase == BOTH && yarngravel_may_take_wider(&setup, (uint64_t)s->clock, V)) {
        s->phase = NEW;
        printf("board %d takes the plain new setup for clock %d\n", who, next);
    }
}

/* how many frames a poll says that a board shows at least in its next call */
static unsigned foretell(int who, int next) {
    struct board *s = &boards[who];
    uint32_t own = who == OBSERVER ? 0 : (uint32_t)who, clock = (uint32_t)(s->clock % B);
    uint16_t step = (uint16_t)(next - s->clock);
    struct yarngravel_setup setup = setup_at(who, s->clock);
    uint64_t answer =
        s->phase == BOTH  ? yarngravel_poll_in(&setup, clock, step, s->shelf, SHELF)
        : s->phase == OLD ? yarngravel_poll(N, EPSILON, DELTA, B, own, clock, step, s->shelf, OLD_SHELF)
                          : yarngravel_poll(N, WIDER_EPSILON, WIDER_DELTA, B, own, clock, step, s->shelf, SHELF);
    expect_accepted("poll", answer);
    return yarngravel_within(answer);
}

/* a station's call with the setup of its phase */
static uint64_t tick(int who, uint32_t clock, const struct yarngravel_setup *setup, const struct bundle *b, bool send, uint8_t *outgoing,
                     uint8_t *verdicts, uint8_t *handout) {
    struct board *s = &boards[who];
    uint8_t ticket = (uint8_t)message_count;
    bool old = s->phase == OLD;
    if (s->phase == BOTH)
        return yarngravel_tick_in(setup, clock, s->tables, s->shelf, SHELF, b->bytes, b->len, send, &ticket, 1, outgoing, FRAME, verdicts,
                                  YARNGRAVEL_VERDICTS, handout, SHELF);
    return yarngravel_tick(N, old ? EPSILON : WIDER_EPSILON, old ? DELTA : WIDER_DELTA, B, (uint32_t)who, clock, s->tables, s->shelf,
                           old ? OLD_SHELF : SHELF, b->bytes, b->len, send, &ticket, 1, outgoing, FRAME, verdicts,
                           YARNGRAVEL_VERDICTS, handout, SHELF);
}

/* the observer's */
static uint64_t listen(uint32_t clock, const struct yarngravel_setup *setup, const struct bundle *b, uint8_t *verdicts, uint8_t *handout) {
    struct board *s = &boards[OBSERVER];
    bool old = s->phase == OLD;
    if (s->phase == BOTH)
        return yarngravel_listen_in(setup, clock, s->last, s->shelf, SHELF, b->bytes, b->len, verdicts, YARNGRAVEL_VERDICTS, handout,
                                    SHELF);
    return yarngravel_listen(N, old ? EPSILON : WIDER_EPSILON, old ? DELTA : WIDER_DELTA, B, clock, s->last, s->shelf,
                             old ? OLD_SHELF : SHELF, b->bytes, b->len, verdicts, YARNGRAVEL_VERDICTS, handout, SHELF);
}

/* A covered message is taken at its first hearing, and a repeat from then on. The board's owner now knows of each one that it took, and of
 * all that the sending of that one could have known of. */
static void learn(int who, const struct bundle *b, const uint8_t *verdicts) {
    struct board *s = &boards[who];
    for (unsigned k = 0; k < b->bytes[0]; k++) {
        if (b->from[k] == JUNK) continue;
        struct message *m = &messages[b->from[k]];
        if (is_covered_now(m) && verdicts[k] != (m->taken[who] ? YARNGRAVEL_REPEAT : 0)) fail("a message is refused, or taken twice");
        if (verdicts[k] != 0) continue;
        m->taken[who] = true;
        for (int station = 0; station < N; station++)
            if (m->knows[station] > s->knows[station]) s->knows[station] = m->knows[station];
        if (m->sent_at > s->knows[m->sender]) s->knows[m->sender] = m->sent_at;
    }
}

/* the message that a station has just sent; it is wide from V on, and narrow before */
static void keep(int who, const uint8_t *frame, unsigned len) {
    struct message *m = &messages[message_count++];
    struct board *s = &boards[who];
    m->sender = who;
    m->sent_at = s->clock;
    m->due = due_clock(s->clock + frame[5]);
    m->len = len;
    memcpy(m->bytes, frame, len);
    memcpy(m->knows, s->knows, sizeof m->knows);
    s->knows[who] = s->clock;
    if (yarngravel_frame_epsilon(frame) != (uint32_t)epsilon_at(s->clock)) fail("a frame has not the width of its sender's side");
}

/* the number of the message that a frame handed out is; JUNK if nobody sent it */
static int message_of(const uint8_t *frame, size_t len) {
    for (int k = message_count - 1; k >= 0; k--)
        if (messages[k].len == len && memcmp(messages[k].bytes, frame, len) == 0) return k;
    return JUNK;
}

/* a board shows a message: once, in the first call at or past its due clock, and nothing before it could have known of it */
static void show_one(int who, int last, int number) {
    struct board *s = &boards[who];
    struct message *m = &messages[number];
    if (m->shown_at[who] != 0) fail("a message is shown twice");
    if (m->due <= last || m->due > s->clock) fail("a message is not shown in the first call at or past its due clock");
    if (s->effects[m->sender] >= m->sent_at) fail("an effect is shown before its cause");
    for (int k = 0; k < N; k++)
        if (m->knows[k] > s->effects[k]) s->effects[k] = m->knows[k];
    m->shown_at[who] = s->clock;
    s->shown[s->shown_count++] = number;
}

/* The hand-out of a call: of the covered messages each as it must be, and each frame behind the one before it in the order of two stamps. */
static void show(int who, int last, uint64_t answer, const uint8_t *handout) {
    struct board *s = &boards[who];
    struct yarngravel_setup setup = setup_at(who, s->clock);
    struct yarngravel_walk walk = yarngravel_walk_of(answer, handout), before = walk;
    while (yarngravel_walk_next_in(&walk)) {
        int number = message_of(walk.frame, walk.len);
        if (number != JUNK && is_covered_now(&messages[number])) show_one(who, last, number);
        if (s->phase != BOTH) continue;
        if (before.len > 0) {
            uint64_t order = yarngravel_compare_in(&setup, (uint32_t)(s->clock % B), before.frame, before.len, walk.frame, walk.len);
            expect_accepted("comparison", order);
            if (yarngravel_order(order) != 0) fail("a hand-out is not in the order of two stamps");
        }
        before = walk;
    }
}

/* the words of what was refused, but for repeats, by the limits of the call's side of V */
static void tell(int who, const struct bundle *b, const uint8_t *verdicts) {
    static uint8_t text[255 * YARNGRAVEL_LINE];
    struct yarngravel_setup setup = setup_at(who, boards[who].clock);
    uint64_t told = yarngravel_words_in(&setup, b->bytes, b->len, verdicts, YARNGRAVEL_VERDICTS, text, sizeof text);
    expect_accepted("words", told);
    const uint8_t *line = text, *end = text + yarngravel_text_len(told);
    for (unsigned k = 0; line < end; k++) {
        int len = (int)((const uint8_t *)memchr(line, '\n', (size_t)(end - line)) - line);
        if (verdicts[k] != 0 && verdicts[k] != YARNGRAVEL_REPEAT)
            printf("board %d at clock %d: %.*s\n", who, boards[who].clock, len, (const char *)line);
        line += len + 1;
    }
}

/* one call of a board for its next clock */
static void call(int who, int next) {
    static struct bundle b;
    static uint8_t outgoing[FRAME], verdicts[YARNGRAVEL_VERDICTS], handout[SHELF];
    struct board *s = &boards[who];
    int last = s->clock;
    unsigned least = foretell(who, next);
    gather(who, next, &b);
    change_setup(who, next);
    struct yarngravel_setup setup = setup_at(who, next);
    uint32_t clock = (uint32_t)(next % B);
    bool send = draw(3) > 0 && message_count < MESSAGES && next < END - 2 * WIDER_DELTA;
    uint64_t answer = who == OBSERVER ? listen(clock, &setup, &b, verdicts, handout)
                                      : tick(who, clock, &setup, &b, send, outgoing, verdicts, handout);
    expect_accepted("call", answer);
    s->clock = next;
    if (yarngravel_mend(answer) != 0) printf("board %d at clock %d: mend %u\n", who, next, yarngravel_mend(answer));
    if (yarngravel_mend(answer) != 0 && (who != DAMAGED || last != dipped)) fail("a board mends what nobody damaged");
    if (yarngravel_mend(answer) < 2 && yarngravel_gave(answer) < least) fail("a board shows less than a poll foretold");
    foretold += least > 0;
    if (who == 0 && s->phase == BOTH) tell(who, &b, verdicts);
    learn(who, &b, verdicts);
    show(who, last, answer, handout);
    if (yarngravel_sent(answer) > 0) keep(who, outgoing, yarngravel_sent(answer));
}

/* The power dips: the memory of one station is junk. Its clock is the largest, X, so that its next step is the first past it. */
static void lose_power(void) {
    struct board *s = &boards[DAMAGED];
    dipped = s->clock;
    shown_then = end_of_clocks(false, DAMAGED, s->clock);
    for (unsigned i = 0; i < sizeof s->tables; i++) s->tables[i] = (uint8_t)draw(256);
    for (unsigned i = 0; i < sizeof s->shelf; i++) s->shelf[i] = (uint8_t)draw(256);
    for (int k = 0; k < BOARDS; k++) memset(boards[k].effects, 0, sizeof boards[k].effects);
    printf("the power dips at board %d: X is %d, covered again from clock %d on\n", DAMAGED, dipped,
           dipped + WIDER_DELTA + 3 * WIDER_EPSILON);
}

/* Fresh stations, and the observer, at clocks within the old drift limit. */
static void start(void) {
    for (int who = 0; who < BOARDS; who++) {
        struct board *s = &boards[who];
        s->clock = START + (int)draw(EPSILON + 1);
        uint32_t clock = (uint32_t)(s->clock % B);
        if (who == OBSERVER) expect_accepted("start", yarngravel_fresh_last(N, EPSILON, DELTA, B, clock, s->last));
        else expect_accepted("start", yarngravel_fresh(N, EPSILON, DELTA, B, (uint32_t)who, clock, s->tables));
    }
}

/* the boards' calls, in any order that the limits allow, until all clocks are at the end */
static void run(void) {
    while (end_of_clocks(false, 0, boards[0].clock) < END) {
        int who = (int)draw(BOARDS), next = boards[who].clock + 1 + (draw(3) == 0 ? (int)draw(WIDER_EPSILON) : 0);
        if (may_come_to(who, next)) call(who, next);
        int clock = boards[DAMAGED].clock;
        if (dipped == 0 && clock >= DIP && clock == end_of_clocks(true, DAMAGED, clock)) lose_power();
    }
}

/* is a message covered, and due everywhere by the end? */
static bool is_for_all(const struct message *m) { return is_covered(m) && m->due <= end_of_clocks(false, 0, boards[0].clock); }

/* a message that all boards show */
static void print_message(int number) {
    const struct message *m = &messages[number];
    uint8_t stamp[YARNGRAVEL_TABLES];
    struct yarngravel_setup setup = setup_at(0, m->sent_at);
    uint64_t got = yarngravel_read_in(&setup, m->bytes, m->len, stamp);
    expect_accepted("reader", got);
    printf("due at %d: message %d, %s, sent by station %u at clock %d\n", m->due, number, yarngravel_is_wide(got) ? "wide" : "narrow",
           yarngravel_station(got), m->sent_at);
}

/* All boards show the covered messages that are due everywhere by the end: the same, in the same order; how many. */
static unsigned compare_boards(void) {
    unsigned at[BOARDS] = {0}, same = 0;
    for (int k = 0; k < message_count; k++)
        for (int who = 0; who < BOARDS; who++)
            if (is_for_all(&messages[k]) && messages[k].shown_at[who] == 0) fail("a covered message is not shown on every board");
    for (;; same++) {
        int number = JUNK;
        for (int who = 0; who < BOARDS; who++) {
            const struct board *s = &boards[who];
            while (at[who] < s->shown_count && !is_for_all(&messages[s->shown[at[who]]])) at[who]++;
            int next = at[who] < s->shown_count ? s->shown[at[who]++] : JUNK;
            if (who == 0) number = next;
            else if (next != number) fail("two boards show different messages, or in a different order");
        }
        if (number == JUNK) return same;
        print_message(number);
    }
}

int main(int argc, char **argv) {
    seed = argc > 1 ? strtoull(argv[1], NULL, 10) : 20261118;
    drawn = seed;
    printf("epsilon %d and delta %d before clock %d, %d and %d from there on; B %d\n", EPSILON, DELTA, V, WIDER_EPSILON, WIDER_DELTA, B);
    start();
    run();
    unsigned same = compare_boards();
    if (same < 75 || foretold < 210) fail("too little to compare"); /* some five sixths of the least that came with 2,000 seeds */
    for (int who = 0; who < BOARDS; who++)
        if (boards[who].phase != NEW) fail("a board has not come to the plain new setup");
    printf("seed %llu: all %d boards show the same %u covered messages, of %d, in the same order, straight through clock %d\n", seed, BOARDS,
           same, message_count, V);
    return 0;
}
