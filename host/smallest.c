/* The smallest host: two stations that hear each other, and themselves, without loss. Each board shows both tickets in one order,
 * and what put the second behind the first; of station 0 it also prints what became of each frame, and when it shows next. */
#include <stdio.h>
#include <stdlib.h>
#include <string.h>

#include "yarngravel.h"

enum { N = 2, EPSILON = 1, DELTA = 2, B = 9 };
enum { FRAME = YARNGRAVEL_FRAME(EPSILON), SHELF = YARNGRAVEL_SHELF(N, EPSILON, DELTA) };

/* What a station keeps between ticks, and what it has heard since its last one: a bundle, here of at most N frames. */
struct station {
    uint8_t tables[YARNGRAVEL_TABLES];
    uint8_t shelf[SHELF];
    uint8_t bundle[YARNGRAVEL_BUNDLE(EPSILON, N)];
    size_t bundle_len;
};

/* With these arguments no call is refused; a refusal would be a mistake in this file. */
static void expect_accepted(const char *call, uint64_t answer) {
    if (yarngravel_number(answer) != 0) {
        fprintf(stderr, "smallest: the %s is refused: %s\n", call, yarngravel_number_text(yarngravel_number(answer)));
        exit(1);
    }
}

static void hear(struct station *s, const uint8_t *frame, size_t len) {
    if (!yarngravel_bundle_add(s->bundle, sizeof s->bundle, &s->bundle_len, frame, len))
        fputs("smallest: a bundle has no room for a frame\n", stderr);
}

/* Shows the hand-out of the tick at the clock, each frame with what put it behind the one before it. */
static void show(unsigned board, unsigned clock, uint64_t answer, const uint8_t *handout) {
    static const char *const reasons[] = {"-", "sum", "count", "station", "r"};
    struct yarngravel_walk walk = yarngravel_walk_of(answer, handout), last = walk;
    while (yarngravel_walk_next(&walk, EPSILON)) {
        uint8_t stamp[YARNGRAVEL_TABLES];
        uint64_t read = yarngravel_read(N, EPSILON, DELTA, B, board, walk.frame, walk.len, stamp);
        expect_accepted("reader", read);
        if (last.len == 0) last = walk; /* the first is compared with itself, and nothing decides */
        uint64_t compared = yarngravel_compare(N, EPSILON, DELTA, B, board, clock % B, last.frame, last.len, walk.frame, walk.len);
        expect_accepted("comparison", compared);
        printf("board %u: station %u says %.*s (%s)\n", board, yarngravel_station(read), (int)yarngravel_ticket_len(read),
               (const char *)walk.frame + yarngravel_ticket_at(read), reasons[yarngravel_reason(compared)]);
        last = walk;
    }
}

/* What the station made of the frames that it heard, a line for each. */
static void tell(unsigned own, const struct station *s, const uint8_t *verdicts) {
    uint8_t text[N * YARNGRAVEL_LINE];
    uint64_t told = yarngravel_words(N, EPSILON, DELTA, B, own, s->bundle, s->bundle_len, verdicts, YARNGRAVEL_VERDICTS, text,
                                     sizeof text);
    expect_accepted("words", told);
    printf("%.*s", (int)yarngravel_text_len(told), (const char *)text);
}

/* When the board shows something next, by a poll after the tick at the clock, and how many tickets in the next tick. */
static void look_ahead(unsigned own, unsigned clock, const struct station *s) {
    uint64_t polled = yarngravel_poll(N, EPSILON, DELTA, B, own, clock % B, 1, s->shelf, SHELF);
    expect_accepted("poll", polled);
    if (yarngravel_has_next(polled))
        printf("board %u: next at clock %u, %u in the next tick\n", own, yarngravel_next(polled), yarngravel_within(polled));
}

int main(void) {
    static const char *const tickets[N] = {"bale 7", "dry"};
    static struct station yard[N];
    static uint8_t outgoing[FRAME], verdicts[YARNGRAVEL_VERDICTS], handout[SHELF];
    for (unsigned own = 0; own < N; own++) { /* fresh at clock 0; the first tick is for clock 1 */
        expect_accepted("start", yarngravel_fresh(N, EPSILON, DELTA, B, own, 0, yard[own].tables));
        yard[own].bundle_len = yarngravel_bundle_start(yard[own].bundle);
    }
    for (unsigned clock = 1; clock <= 6; clock++) {
        for (unsigned own = 0; own < N; own++) {
            struct station *s = &yard[own];
            uint64_t answer =
                yarngravel_tick(N, EPSILON, DELTA, B, own, clock % B, s->tables, s->shelf, SHELF, s->bundle, s->bundle_len,
                                clock == 1, (const uint8_t *)tickets[own], strlen(tickets[own]), outgoing, FRAME, verdicts,
                                YARNGRAVEL_VERDICTS, handout, SHELF);
            expect_accepted("tick", answer);
            if (own == 0) tell(own, s, verdicts);
            show(own, clock, answer, handout);
            if (own == 0) look_ahead(own, clock, s);
            s->bundle_len = yarngravel_bundle_start(s->bundle);
            for (unsigned to = 0; to < N && yarngravel_sent(answer) > 0; to++) hear(&yard[to], outgoing, yarngravel_sent(answer));
        }
    }
    return 0;
}
