/* A host in thirty lines: one station that hears itself. Once the library is installed it is built anywhere:
 *   cc example.c $(pkg-config --cflags --libs yarngravel) -o example */
#include <stdio.h>
#include <yarngravel.h>

enum { N = 1, EPSILON = 1, DELTA = 2, B = 9, OWN = 0, START = 0 };

int main(void) {
    static uint8_t tables[YARNGRAVEL_TABLES], shelf[YARNGRAVEL_SHELF(N, EPSILON, DELTA)]; /* what the station keeps */
    static uint8_t bundle[YARNGRAVEL_BUNDLE(EPSILON, 255)], outgoing[YARNGRAVEL_FRAME(EPSILON)];
    static uint8_t verdicts[YARNGRAVEL_VERDICTS], handout[sizeof shelf], stamp[YARNGRAVEL_TABLES];
    static const uint8_t ticket[] = {'b', 'a', 'l', 'e', ' ', '7'};
    size_t bundle_len = yarngravel_bundle_start(bundle);
    uint64_t answer = yarngravel_fresh(N, EPSILON, DELTA, B, OWN, START, tables);
    for (uint32_t clock = START + 1; clock <= 6 && yarngravel_number(answer) == 0; clock++) {
        answer = yarngravel_tick(N, EPSILON, DELTA, B, OWN, clock % B, tables, shelf, sizeof shelf, bundle, bundle_len, clock == 1,
                                 ticket, sizeof ticket, outgoing, sizeof outgoing, verdicts, sizeof verdicts, handout,
                                 sizeof handout);
        struct yarngravel_walk walk = yarngravel_walk_of(answer, handout);
        while (yarngravel_walk_next(&walk, EPSILON)) { /* the board */
            uint64_t read = yarngravel_read(N, EPSILON, DELTA, B, OWN, walk.frame, walk.len, stamp);
            printf("clock %u: station %u says %.*s\n", (unsigned)clock, yarngravel_station(read), (int)yarngravel_ticket_len(read),
                   (const char *)walk.frame + yarngravel_ticket_at(read));
        }
        bundle_len = yarngravel_bundle_start(bundle); /* the radio: what is sent is heard before the next tick */
        if (yarngravel_sent(answer) > 0 &&
            !yarngravel_bundle_add(bundle, sizeof bundle, &bundle_len, outgoing, yarngravel_sent(answer)))
            fputs("a frame is lost\n", stderr);
    }
    if (yarngravel_number(answer) != 0) fprintf(stderr, "refused: %s\n", yarngravel_number_text(yarngravel_number(answer)));
    return yarngravel_number(answer) != 0;
}
