/* A yard of several stations, and an observer that only listens, in one process, over the library: all clocks keep the drift limit,
 * the observer's is never ahead of a station's, and a slow one is nudged forward by several ticks now and then; the air loses,
 * delays and repeats frames and carries junk, and in the middle a power dip fills one station's memory, and the observer's, with
 * random bytes.
 * It prints each board's hand-outs, and of one station the words of what it hears and the clock at which it shows next. Each tick
 * must show what a poll before it foretold. At the end it prints of each board how well it heard each station in its last 256 ticks,
 * and holds these figures to a count of its own; figures that began as random bytes must tell the same after 256 ticks. Then it
 * checks of the messages sent after recovery that every board, also the observer's, shows each one that it heard and that was due,
 * in its first tick at or past the due clock, no other and none of them twice, and causes before effects, and that any two boards
 * show those that both show in one order.
 * Most tickets are press tickets. Each board charges them as it shows them, into a ledger of its own; and any two boards, from empty
 * ledgers, charge what both show to the same total for each grower. These totals are printed for board 0 and the observer's.
 * Usage: host [SEED]. Exit status 0 where all holds; the seed is in what it prints. */
#include <inttypes.h>
#include <stdio.h>
#include <stdlib.h>
#include <string.h>

#include "yarngravel.h"

enum { N = 4, EPSILON = 3, DELTA = 6, MODULUS = 61, TICKS = 400, DIP = 150, MESSAGES = 1024, GIVEN = 4096 };
enum { FRAME = YARNGRAVEL_FRAME(EPSILON), SHELF = YARNGRAVEL_SHELF(N, EPSILON, DELTA), JUNK = -1, TOLD = 0 };
/* the stations' boards, by their numbers, and then the observer's */
enum { OBSERVER = N, BOARDS = N + 1 };
/* charges: cents for a hundred pounds, and the growers, numbered from 1 */
enum { RATE = 1250, GROWERS = 3 };
/* a table of figures: a row for each station, and one for what is no station's; taken, and refused by 10 to 16 */
enum { NO_STATION = N, ROWS = N + 1, FIGURES = 8 };

/* a set of messages, a bit for each */
struct set {
    uint64_t words[MESSAGES / 64];
};

/* what a station sent; its number is its place in the list, and its ticket */
struct message {
    int sender;
    int sent_at; /* the sender's true clock */
    unsigned len;
    uint8_t bytes[FRAME];
    struct set causes; /* what its sending could have known of */
};

/* a frame handed out */
struct given {
    int message; /* JUNK for a frame that nobody sent */
    int last;    /* the board's true clock before the tick that handed it out */
    int clock;   /* and in that tick */
};

struct board {
    int clock; /* the true clock */
    uint8_t tables[YARNGRAVEL_TABLES]; /* a station's */
    uint8_t last[YARNGRAVEL_LAST];     /* the observer's */
    uint8_t shelf[SHELF];
    uint8_t ledger[YARNGRAVEL_LEDGER]; /* what it charged so far */
    uint8_t figures[YARNGRAVEL_FIGURES];    /* how well it hears the stations */
    uint8_t recovered[YARNGRAVEL_FIGURES];  /* the same, begun with random bytes */
    unsigned calls;                      /* how many ticks its figures were called after */
    unsigned last_counts[256][ROWS][FIGURES]; /* what this program counts of the last ones */
    struct set heard; /* what it heard so far */
    struct set taken; /* what it took of that */
    struct set known; /* that, what the station sent, and the causes of both */
    unsigned given_count;
    struct given given[GIVEN]; /* what was handed out, in order */
};

/* what is heard in a tick, and which message each entry is */
struct bundle {
    size_t len;
    uint8_t bytes[YARNGRAVEL_BUNDLE(EPSILON, 255)];
    int from[255];
};

static struct board boards[BOARDS];
static struct message messages[MESSAGES];
static unsigned message_count;
static unsigned foretold; /* ticks that showed something that a poll had counted */
static unsigned charges;  /* bales that the boards charged as they showed them */
static unsigned long long seed;
static uint64_t drawn;

static uint32_t draw(uint32_t below) {
    drawn = drawn * 6364136223846793005u + 1442695040888963407u;
    return (uint32_t)(drawn >> 33) % below;
}

static void fail(const char *why) {
    fprintf(stderr, "host: seed %llu: %s\n", seed, why);
    exit(1);
}

/* With these arguments no call is refused. */
static void expect_accepted(const char *call, uint64_t answer) {
    if (yarngravel_number(answer) == 0) return;
    fprintf(stderr, "host: the %s is refused: %s\n", call, yarngravel_number_text(yarngravel_number(answer)));
    fail("a call was refused");
}

static bool has(const struct set *set, int message) { return set->words[message / 64] >> (message % 64) & 1; }

static void add(struct set *set, int message) { set->words[message / 64] |= (uint64_t)1 << (message % 64); }

static void join(struct set *set, const struct set *more) {
    for (unsigned i = 0; i < MESSAGES / 64; i++) set->words[i] |= more->words[i];
}

static void scramble(uint8_t *bytes, unsigned len) {
    for (unsigned i = 0; i < len; i++) bytes[i] = (uint8_t)draw(256);
}

/* an empty shelf, empty figures, and fresh tables at a clock; for the observer that last clock */
static void start(int who, int clock) {
    struct board *s = &boards[who];
    uint32_t reduced = (uint32_t)(clock % MODULUS);
    s->clock = clock;
    if (who == OBSERVER) expect_accepted("start", yarngravel_fresh_last(N, EPSILON, DELTA, MODULUS, reduced, s->last));
    else expect_accepted("start", yarngravel_fresh(N, EPSILON, DELTA, MODULUS, (uint32_t)who, reduced, s->tables));
    memset(s->shelf, 0, sizeof s->shelf);
    memset(s->figures, 0, sizeof s->figures);
    scramble(s->recovered, sizeof s->recovered);
}

/* the lowest clock of the first so many boards */
static int lowest_clock(int count) {
    int lowest = boards[0].clock;
    for (int k = 1; k < count; k++)
        if (boards[k].clock < lowest) lowest = boards[k].clock;
    return lowest;
}

/* How far a clock may step so that none lags more than the drift limit behind it: never more than that limit. The observer's goes
 * no further than the slowest station's. */
static int room(int who) {
    return (who == OBSERVER ? lowest_clock(N) : lowest_clock(BOARDS) + EPSILON) - boards[who].clock;
}

/* The next step of a clock that has some room: 1, or in one of four ticks, where there is room for it, a nudge of 2 or more. */
static int step_in(int room) { return room > 1 && draw(4) == 0 ? 2 + (int)draw((uint32_t)room - 1) : 1; }

static int largest_clock(void) {
    int largest = boards[0].clock;
    for (int k = 1; k < BOARDS; k++)
        if (boards[k].clock > largest) largest = boards[k].clock;
    return largest;
}

/* adds an entry; what a bundle has no room for is lost */
static void put(struct bundle *b, int from, const uint8_t *bytes, unsigned len) {
    if (yarngravel_bundle_add(b->bytes, sizeof b->bytes, &b->len, bytes, len)) b->from[b->bytes[0] - 1] = from;
}

/* What is heard for a board at its next clock: of all messages that the delay limit still allows, a station's own too, about every
 * second one. So a message is heard again and again, three times as a rule, and by some never. */
static void gather(int who, int next, struct bundle *b, bool junk) {
    b->len = yarngravel_bundle_start(b->bytes);
    for (unsigned k = 0; k < message_count; k++) {
        const struct message *m = &messages[k];
        int sender_clock = m->sender == who ? next : boards[m->sender].clock;
        if (sender_clock <= m->sent_at + DELTA && draw(2) == 0) put(b, (int)k, m->bytes, m->len);
    }
    if (junk) {
        uint8_t bytes[FRAME];
        unsigned len = draw(FRAME + 1);
        scramble(bytes, len);
        put(b, JUNK, bytes, len);
    }
}

/* the board's owner now knows of each message that it took, and of all that the sending of that one could have known of */
static void learn(struct board *s, const struct bundle *b, const uint8_t *verdicts) {
    for (unsigned k = 0; k < b->bytes[0]; k++)
        if (b->from[k] != JUNK) {
            add(&s->heard, b->from[k]);
            if (verdicts[k] != 0) continue;
            add(&s->taken, b->from[k]);
            add(&s->known, b->from[k]);
            join(&s->known, &messages[b->from[k]].causes);
        }
}

/* the message that the station has just sent */
static void keep(int who, const uint8_t *frame, unsigned len) {
    struct message *m = &messages[message_count];
    m->sender = who;
    m->sent_at = boards[who].clock;
    m->len = len;
    memcpy(m->bytes, frame, len);
    m->causes = boards[who].known;
    add(&boards[who].known, (int)message_count);
    message_count++;
}

/* The ticket of the next message, and its length: for the press mostly, its bale the message's number; in one of eight just that number,
 * which passes. */
static size_t next_ticket(uint8_t ticket[YARNGRAVEL_PRESS]) {
    uint16_t pounds = (uint16_t)(1 + draw(1000)), grower = (uint16_t)(1 + draw(GROWERS));
    if (message_count % 8 != 7) {
        yarngravel_press(ticket, message_count, pounds, grower);
        return YARNGRAVEL_PRESS;
    }
    ticket[0] = (uint8_t)(message_count % 256);
    ticket[1] = (uint8_t)(message_count / 256);
    return 2;
}

/* which message a frame is: the one that its ticket names, if it is the same to the byte */
static int message_of(const uint8_t *frame, size_t len, const uint8_t *ticket, unsigned ticket_len) {
    if (ticket_len != 2 && ticket_len != YARNGRAVEL_PRESS) return JUNK;
    const uint8_t *name = ticket_len == 2 ? ticket : ticket + 2;
    unsigned number = name[0] + 256u * name[1];
    if (number >= message_count || messages[number].len != len) return JUNK;
    return memcmp(messages[number].bytes, frame, len) == 0 ? (int)number : JUNK;
}

/* The own number in a call for a board that asks for one. The observer has none; what reads a frame or a shelf says the same for
 * every station's. */
static uint32_t own(int who) { return who == OBSERVER ? 0 : (uint32_t)who; }

/* the board shows the frames of a hand-out, and charges their tickets; message -1 is junk */
static void show(int who, int last, uint64_t answer, const uint8_t *handout) {
    struct board *s = &boards[who];
    struct yarngravel_walk walk = yarngravel_walk_of(answer, handout);
    uint64_t charged;
    while (yarngravel_charge_next(&walk, EPSILON, RATE, s->ledger, &charged)) {
        uint8_t stamp[YARNGRAVEL_TABLES];
        uint64_t got = yarngravel_read(N, EPSILON, DELTA, MODULUS, own(who), walk.frame, walk.len, stamp);
        expect_accepted("reader", got);
        if (s->given_count == GIVEN) fail("a board gave more than there is room for");
        int message = message_of(walk.frame, walk.len, walk.frame + yarngravel_ticket_at(got), yarngravel_ticket_len(got));
        printf("board %d clock %d gives station %u message %d", who, s->clock, yarngravel_station(got), message);
        if (yarngravel_entered(charged)) printf(" charge %" PRIu32 "\n", yarngravel_cents(charged));
        else printf(" %s\n", yarngravel_number(charged) == 0 ? "passes" : yarngravel_number_text(yarngravel_number(charged)));
        charges += yarngravel_entered(charged);
        s->given[s->given_count++] = (struct given){message, last, s->clock};
    }
}

/* the words of what the station has just heard, a line for each frame */
static void tell(int who, const struct bundle *b, const uint8_t *verdicts) {
    static uint8_t text[255 * YARNGRAVEL_LINE];
    uint64_t told = yarngravel_words(N, EPSILON, DELTA, MODULUS, (uint32_t)who, b->bytes, b->len, verdicts, YARNGRAVEL_VERDICTS,
                                     text, sizeof text);
    expect_accepted("words", told);
    printf("board %d clock %d hears\n%.*s", who, boards[who].clock, (int)yarngravel_text_len(told), (const char *)text);
}

/* the column of a verdict: taken, or refused by 10 to 16 */
static unsigned column(unsigned verdict) { return verdict == 0 ? 0 : verdict - 9; }

/* what became of the frames of a bundle, by station, as this program counts it */
static void count_frames(const struct bundle *b, const uint8_t *verdicts, unsigned counts[ROWS][FIGURES]) {
    memset(counts, 0, sizeof(unsigned[ROWS][FIGURES]));
    const uint8_t *at = b->bytes + 1;
    for (unsigned k = 0; k < b->bytes[0]; k++) {
        unsigned station = at[0] > 1 ? at[2] : 0;
        counts[verdicts[k] == YARNGRAVEL_BAD_FORM || station >= N ? NO_STATION : station][column(verdicts[k])]++;
        at += 1 + at[0];
    }
}

/* the figures after a tick, and what this program counts of it */
static void keep_figures(int who, const struct bundle *b, const uint8_t *verdicts) {
    struct board *s = &boards[who];
    uint8_t *both[] = {s->figures, s->recovered};
    for (unsigned k = 0; k < 2; k++)
        expect_accepted("figures", yarngravel_figures(N, b->bytes, b->len, verdicts, YARNGRAVEL_VERDICTS, both[k], YARNGRAVEL_FIGURES));
    count_frames(b, verdicts, s->last_counts[s->calls % 256]);
    s->calls++;
}

/* what this program counted of the last 256 ticks */
static unsigned counted(const struct board *s, unsigned row, unsigned verdict) {
    unsigned sum = 0;
    for (unsigned k = 0; k < 256 && k < s->calls; k++) sum += s->last_counts[k][row][column(verdict)];
    return sum;
}

/* The table of a board's figures, a line for each station; each must be what this program counted. How many frames it tells of. */
static unsigned show_figures(int who) {
    static const unsigned numbers[] = {0, 11, 12, 13, 14, 15, 16};
    const struct board *s = &boards[who];
    unsigned all = 0, others = 0;
    printf("board %d hears in its last %u ticks\nstation  taken  range  stamp   late  early  count repeat\n", who,
           s->calls < 256 ? s->calls : 256);
    for (unsigned station = 0; station < N; station++) {
        printf("%7u", station);
        for (unsigned k = 0; k < sizeof numbers / sizeof *numbers; k++) {
            unsigned figure = yarngravel_figure(s->figures, station, numbers[k]);
            if (figure != counted(s, station, numbers[k])) fail("the figures are not what became of the frames");
            printf("%7u", figure);
            all += figure;
        }
        printf("\n");
    }
    for (unsigned k = 0; k < FIGURES; k++) others += counted(s, NO_STATION, k == 0 ? 0 : k + 9);
    if (yarngravel_figure_of_none(s->figures) != others) fail("the figures of no station are not what became of the frames");
    if (s->calls < 256) fail("too few ticks for figures that began as random bytes");
    if (memcmp(s->figures + 1, s->recovered + 1, 2 * 113) != 0) fail("figures that began as random bytes tell something else");
    printf("   none%7u\n", others);
    return all + others;
}

/* what the board's shelf says of so many ticks from its last one on */
static uint64_t poll(int who, unsigned within) {
    const struct board *s = &boards[who];
    uint64_t answer = yarngravel_poll(N, EPSILON, DELTA, MODULUS, own(who), (uint32_t)(s->clock % MODULUS), (uint16_t)within,
                                      s->shelf, SHELF);
    expect_accepted("poll", answer);
    return answer;
}

/* how many ticks after a clock the next due clock of a poll at it lies; more than there can be where nothing is next */
static int ticks_to_next(uint64_t polled, int clock) {
    if (!yarngravel_has_next(polled)) return MODULUS;
    return ((int)yarngravel_next(polled) + MODULUS - clock % MODULUS) % MODULUS;
}

/* A tick that mends nothing hands out what the poll of its step counted, and more only of what it took itself. If the next due
 * clock is not past the tick's, there is something to hand out, and the first of it is due then. */
static void check_poll(uint64_t polled, int last, int next, uint64_t answer, const uint8_t *first) {
    unsigned within = yarngravel_within(polled), gave = yarngravel_gave(answer);
    if (gave < within || gave > within + yarngravel_taken(answer)) fail("a tick shows other than a poll counted");
    bool due = ticks_to_next(polled, last) <= next - last;
    if (due != (within > 0)) fail("what a poll counts and what it says is next do not agree");
    if (!due) return;
    unsigned due_clock = first[2] + 256u * first[3] + first[5] + DELTA + EPSILON;
    if (due_clock % MODULUS != yarngravel_next(polled)) fail("a tick does not start with what a poll said is next");
    foretold++;
}

/* After a tick a poll of all ticks to come counts the whole shelf. Of one station it is printed when something shows next. */
static void look_ahead(int who) {
    const struct board *s = &boards[who];
    uint64_t polled = poll(who, UINT16_MAX);
    if (yarngravel_within(polled) != s->shelf[0] + 256u * s->shelf[1]) fail("a poll does not count what a tick left");
    if (yarngravel_has_next(polled) && who == TOLD)
        printf("board %d clock %d gives next at clock %d\n", who, s->clock, s->clock + ticks_to_next(polled, s->clock));
}

/* what is the same for every board once its call for the next clock is made */
static void settle(int who, int next, uint64_t polled, uint64_t answer, const struct bundle *heard, const uint8_t *verdicts,
                   const uint8_t *handout) {
    struct board *s = &boards[who];
    int last = s->clock;
    expect_accepted("tick", answer);
    s->clock = next;
    unsigned mend = yarngravel_mend(answer);
    if (mend != 0) printf("board %d clock %d mend %u: %s\n", who, s->clock, mend, yarngravel_mend_text(mend));
    else check_poll(polled, last, next, answer, handout + 2);
    if (who == TOLD) tell(who, heard, verdicts);
    learn(s, heard, verdicts);
    keep_figures(who, heard, verdicts);
    show(who, last, answer, handout);
    look_ahead(who);
}

/* the station's clock steps to the next one */
static void tick(int who, int next, bool junk) {
    static struct bundle heard;
    static uint8_t outgoing[FRAME], verdicts[YARNGRAVEL_VERDICTS], handout[SHELF];
    struct board *s = &boards[who];
    uint64_t polled = poll(who, (unsigned)(next - s->clock));
    gather(who, next, &heard, junk);
    bool send = draw(3) == 0 && message_count < MESSAGES;
    uint8_t ticket[YARNGRAVEL_PRESS];
    size_t ticket_len = next_ticket(ticket);
    uint64_t answer = yarngravel_tick(N, EPSILON, DELTA, MODULUS, (uint32_t)who, (uint32_t)(next % MODULUS), s->tables,
                                      s->shelf, SHELF, heard.bytes, heard.len, send, ticket, ticket_len, outgoing,
                                      sizeof outgoing, verdicts, sizeof verdicts, handout, sizeof handout);
    settle(who, next, polled, answer, &heard, verdicts, handout);
    if (send) keep(who, outgoing, yarngravel_sent(answer));
}

/* the observer's clock steps to the next one */
static void listen(int next, bool junk) {
    static struct bundle heard;
    static uint8_t verdicts[YARNGRAVEL_VERDICTS], handout[SHELF];
    struct board *s = &boards[OBSERVER];
    uint64_t polled = poll(OBSERVER, (unsigned)(next - s->clock));
    gather(OBSERVER, next, &heard, junk);
    uint64_t answer = yarngravel_listen(N, EPSILON, DELTA, MODULUS, (uint32_t)(next % MODULUS), s->last, s->shelf, SHELF,
                                        heard.bytes, heard.len, verdicts, sizeof verdicts, handout, sizeof handout);
    settle(OBSERVER, next, polled, answer, &heard, verdicts, handout);
    if (yarngravel_last_clock(s->last) != (unsigned)(next % MODULUS)) fail("the observer's last clock is not that of its call");
}

/* a power dip at a board: its memory is junk, on which a poll finds nothing */
static void lose_power(int who) {
    scramble(boards[who].tables, sizeof boards[who].tables);
    scramble(boards[who].last, sizeof boards[who].last);
    scramble(boards[who].shelf, sizeof boards[who].shelf);
    if (yarngravel_has_next(poll(who, UINT16_MAX))) fail("a poll finds something on a scrambled shelf");
}

/* Lets the yard tick; the largest clock at the power dip. Junk is heard up to the last clock at which that is allowed. */
static int play(void) {
    int dip = -1;
    for (long step = 0; step < (long)TICKS * BOARDS * 4; step++) {
        int who = (int)draw(BOARDS);
        if (boards[who].clock >= TICKS || room(who) < 1) continue;
        if (dip < 0 && who != OBSERVER && boards[who].clock >= DIP) {
            lose_power(who);
            lose_power(OBSERVER);
            dip = largest_clock();
            printf("power dip at boards %d and %d, largest clock %d\n", who, OBSERVER, dip);
        }
        int next = boards[who].clock + step_in(room(who));
        bool junk = dip < 0 || next <= dip + DELTA + EPSILON;
        if (who == OBSERVER) listen(next, junk);
        else tick(who, next, junk);
    }
    if (dip < 0) fail("there was no power dip");
    return dip;
}

/* leaves of a board's hand-outs the covered messages: those sent from this clock on */
static void keep_covered(struct board *s, int from) {
    unsigned kept = 0;
    for (unsigned k = 0; k < s->given_count; k++)
        if (s->given[k].message != JUNK && messages[s->given[k].message].sent_at >= from) s->given[kept++] = s->given[k];
    s->given_count = kept;
}

/* the clock at which a message is due: sent_at + c + delay + drift limit */
static int due(const struct message *m) { return m->sent_at + m->bytes[5] + DELTA + EPSILON; }

/* the place of a message among those that a board gave before the place `end`, or -1 */
static int place_of(const struct board *s, int message, unsigned end) {
    for (unsigned k = 0; k < end; k++)
        if (s->given[k].message == message) return (int)k;
    return -1;
}

/* How many pairs of cause and effect a board shows, the cause first. No message comes twice, and no effect before its cause. */
static unsigned check_board(const struct board *s) {
    unsigned pairs = 0;
    for (unsigned k = 0; k < s->given_count; k++) {
        int message = s->given[k].message;
        if (place_of(s, message, k) >= 0) fail("a covered message was handed out twice");
        for (unsigned j = 0; j < k; j++) {
            int before = s->given[j].message;
            if (has(&messages[before].causes, message)) fail("an effect was handed out before its cause");
            if (has(&messages[message].causes, before)) pairs++;
        }
    }
    return pairs;
}

/* Of the messages sent from this clock on, a board shows each one that it heard and that was due, and no other. */
static void check_whole(const struct board *s, int from) {
    for (int k = 0; k < (int)message_count; k++) {
        if (messages[k].sent_at < from) continue;
        if (has(&s->heard, k) && !has(&s->taken, k)) fail("a covered message was heard and not taken");
        bool due_here = has(&s->heard, k) && due(&messages[k]) <= s->clock, shown = place_of(s, k, s->given_count) >= 0;
        if (due_here && !shown) fail("a covered message was taken and not handed out");
        if (shown && !due_here) fail("a covered message was handed out that was not heard, or is not due");
    }
}

/* How many messages a board shows past their due clock. Each comes in the first tick at or past it. */
static unsigned check_times(const struct board *s) {
    unsigned early = 0;
    for (unsigned k = 0; k < s->given_count; k++) {
        int at = due(&messages[s->given[k].message]);
        if (at > s->given[k].clock) fail("a covered message was handed out before its due clock");
        if (at <= s->given[k].last) fail("a covered message was not handed out at the first tick past its due clock");
        if (at < s->given[k].clock) early++;
    }
    return early;
}

/* how many messages two boards both show; they come in one order */
static unsigned check_two(const struct board *a, const struct board *b) {
    unsigned shared = 0;
    int last = -1;
    for (unsigned k = 0; k < a->given_count; k++) {
        int there = place_of(b, a->given[k].message, b->given_count);
        if (there < 0) continue;
        if (there < last) fail("two boards disagree on the order");
        last = there;
        shared++;
    }
    return shared;
}

/* charges, from an empty ledger, what a board shows and another one shows too, in its own order */
static void charge_shared(const struct board *s, const struct board *other, uint8_t ledger[YARNGRAVEL_LEDGER]) {
    memset(ledger, 0, YARNGRAVEL_LEDGER);
    for (unsigned k = 0; k < s->given_count; k++) {
        if (place_of(other, s->given[k].message, other->given_count) < 0) continue;
        const struct message *m = &messages[s->given[k].message];
        unsigned front = 7u + 2u * EPSILON;
        yarngravel_charge(RATE, m->bytes + front, m->len - front, ledger, YARNGRAVEL_LEDGER);
    }
}

/* a grower's total in a ledger */
static uint64_t cents_of(int grower, const uint8_t ledger[YARNGRAVEL_LEDGER]) {
    uint64_t answer = yarngravel_total((uint16_t)grower, ledger, YARNGRAVEL_LEDGER);
    expect_accepted("total", answer);
    return yarngravel_total_cents(answer);
}

/* Two boards charge what both show to the same totals; those of one station and the observer are printed. */
static void check_charges(int a, int b) {
    static uint8_t first[YARNGRAVEL_LEDGER], second[YARNGRAVEL_LEDGER];
    charge_shared(&boards[a], &boards[b], first);
    charge_shared(&boards[b], &boards[a], second);
    if (memcmp(first, second, sizeof first) != 0) fail("two boards charge differently what both show");
    for (int grower = 1; grower <= GROWERS; grower++) {
        uint64_t cents = cents_of(grower, first);
        if (cents != cents_of(grower, second)) fail("two boards disagree on a grower's total");
        if (cents == 0) fail("a grower has no total");
        if (b == TOLD && a == OBSERVER) printf("grower %d: %" PRIu64 " cents on boards %d and %d\n", grower, cents, b, a);
    }
}

int main(int argc, char **argv) {
    unsigned causes = 0, shared = 0, early = 0;
    seed = argc > 1 ? strtoull(argv[1], NULL, 10) : 20261115;
    drawn = seed;
    printf("seed %llu\n", seed);
    for (int k = 0; k < N; k++) start(k, (int)draw(EPSILON + 1));
    start(OBSERVER, lowest_clock(N));
    int from = play() + DELTA + 3 * EPSILON;
    unsigned told = 0;
    for (int a = 0; a < BOARDS; a++) told += show_figures(a);
    for (int a = 0; a < BOARDS; a++) {
        keep_covered(&boards[a], from);
        check_whole(&boards[a], from);
        causes += check_board(&boards[a]);
        early += check_times(&boards[a]);
        for (int b = 0; b < a; b++) {
            shared += check_two(&boards[a], &boards[b]);
            check_charges(a, b);
        }
    }
    /* some six sevenths of the least that came with 1,700 seeds */
    if (shared < 1700 || causes < 90000 || early < 100) fail("too few covered messages to compare");
    if (foretold < 900) fail("too few ticks that a poll foretold something of");
    if (boards[OBSERVER].given_count < 180) fail("too few covered messages on the observer's board");
    printf("boards agree: %u times two of them show one message, and %u times a cause before its effect; "
           "%u times a message was due before the tick that shows it; %u times a poll foretold what a tick shows; "
           "the observer shows %u messages as the stations do; %u bales charged; the figures tell of %u frames heard\n",
           shared, causes, early, foretold, boards[OBSERVER].given_count, charges, told);
    return 0;
}
