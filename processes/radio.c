/* The time service and the air of a yard in one process. It gives each station its clock, one call at a time, and waits for the answer:
 * so all calls stand in one order, and a slow machine cannot break the limits. Clocks step by 1 to epsilon, and no two of those
 * present are ever further than epsilon apart; where the setup has a change to wider limits, by the limits of the clocks. What is heard comes from the ether (ether.h). All that it does comes from the seed and
 * its commands. A board that does not answer is absent from then on, and may say hello again. */
#include <errno.h>
#include <stdio.h>
#include <stdlib.h>
#include <unistd.h>

#include "chance.h"
#include "ether.h"
#include "setup.h"
#include "wire.h"

#define NAME "radio"
enum { WAIT = 200, AT_ONCE = 100, STRUCK = 400, AHEAD = 40, SELDOM = 400 };

static const char help[] =
    "radio SETUP [--seed S] [--log FILE] [--patience SECONDS]\n"
    "\n"
    "The time service and the air of a yard: SETUP has its n, epsilon, delta and modulus (station --help). The first line of standard\n"
    "output is `port PORT`, the port on the loopback address that goes into the stations' setups. Then each line of standard input is a\n"
    "command, and is answered by a line:\n"
    "  join BOARD               waits for that board's hello; a station's number, or n for the observer. Answer: clock CLOCK\n"
    "  stretch [flood]          what is in the air is older from here on; with a flood of junk. Answer: X CLOCK, the largest clock\n"
    "  run CLOCK                gives clocks until the largest one is this one or past it. Answer: at CLOCK\n"
    "  strike BOARD             gives it some clocks at once and waits for no answer, so that it can be killed meanwhile\n"
    "  drop BOARD               that board is absent, what it sent last is lost\n"
    "  wrong BOARD TICKS CALLS  gives it so many clocks that are wrong by so many ticks\n"
    "  figures                  how much was sent, heard, heard again, lost, older, junk, noise, the latest a frame was heard; calls,\n"
    "                           steps above 1, mends, datagrams that stations dropped, bundles that had to be sent again\n"
    "  end                      ends all stations and itself, as does the end of standard input\n"
    "A board that does not answer for so many seconds, 15 where none are named, is absent; `absent BOARD` then stands before the answer,\n"
    "and a stretch starts. So one does where a board that is absent says hello in a run.\n"
    "FILE gets a line for each start of a stretch, each board's clock at it, each call with what is heard in it, and each frame sent.\n"
    "The same seed and commands give the same yard. Exit status: 0 ended; 1 it could not go on; 2 the command line or the setup is wrong.\n";

static struct {
    bool present, waits; /* waits: has said hello and is not yet present */
    struct sockaddr_in at;
    long clock;
} boards[BOARDS];

static struct setup setup;
static int board_count; /* n stations and the observer */
static uint64_t seed, stretch_number;
static uint64_t stretch_calls; /* of this stretch */
static uint32_t call_number;   /* of all calls */
static int channel;
static int patience = 15 * (1000 / WAIT); /* in waits for an answer */
static FILE *log_file;                    /* NULL where none is wanted */

/* the frame that came before the answer to the call under way */
static struct {
    unsigned len;
    uint8_t bytes[FRAME];
} sent;

static struct {
    uint64_t calls, nudges, mends, dropped, again;
} figures;

static long lowest_clock(void) {
    long lowest = -1;
    for (int k = 0; k < board_count; k++)
        if (boards[k].present && (lowest < 0 || boards[k].clock < lowest)) lowest = boards[k].clock;
    return lowest;
}

static long largest_clock(void) {
    long largest = -1;
    for (int k = 0; k < board_count; k++)
        if (boards[k].present && boards[k].clock > largest) largest = boards[k].clock;
    return largest;
}

static void transmit(int board, const uint8_t *datagram, size_t len) {
    const struct sockaddr *to = (const struct sockaddr *)&boards[board].at;
    while (sendto(channel, datagram, len, 0, to, sizeof boards[board].at) < 0)
        if (errno != EINTR && errno != ENOBUFS) die(NAME, 1, "nothing can be sent to board %d: %s", board, strerror(errno));
}

/* a board says hello: it is new, or was started again */
static void hear_hello(const struct sockaddr_in *from, const uint8_t *datagram, size_t len) {
    int board = len == HEADER + 1 ? datagram[HEADER] : board_count;
    if (board >= board_count || (boards[board].present && same_address(&boards[board].at, from))) return;
    boards[board].waits = true;
    boards[board].at = *from;
}

/* Waits for a datagram of this call from a board, and answers its kind; '-' if none came in time. Other boards may say hello. */
static char await(int board, uint32_t number) {
    static uint8_t datagram[LONGEST];
    struct sockaddr_in from;
    socklen_t from_len = sizeof from;
    ssize_t got = recvfrom(channel, datagram, sizeof datagram, 0, (struct sockaddr *)&from, &from_len);
    if (got < HEADER) return got < 0 ? '-' : '?';
    char kind = (char)datagram[0];
    if (kind == 'H') hear_hello(&from, datagram, (size_t)got);
    if (!same_address(&from, &boards[board].at) || call_of(datagram) != number) return '?';
    if (kind == 'S' && got <= HEADER + FRAME) {
        sent.len = (unsigned)got - HEADER;
        memcpy(sent.bytes, datagram + HEADER, sent.len);
    }
    if (kind != 'D') return kind;
    if (got != HEADER + 4 || datagram[HEADER + 1] != sent.len) return '-'; /* its frame did not come: asked for again */
    figures.mends += datagram[HEADER] != 0;
    figures.dropped += two_at(datagram + HEADER + 2);
    return 'D';
}

/* waits for one of the kinds; '-' if none came in time */
static char await_one(int board, uint32_t number, const char *kinds) {
    char kind;
    do kind = await(board, number);
    while (kind != '-' && strchr(kinds, kind) == NULL);
    return kind;
}

/* asks a board to say that it has read what came so far */
static void pause_for(int board, uint32_t number) {
    uint8_t datagram[HEADER];
    put_head(datagram, 'P', number);
    transmit(board, datagram, sizeof datagram);
    await_one(board, number, "P");
}

/* Sends what is heard in a call; one of them is left out where it is to be seen that the board asks for it again. */
static void send_frames(int board, uint32_t number, const struct entry *entries, unsigned count, unsigned left_out) {
    static uint8_t datagram[LONGEST];
    for (unsigned k = 0; k < count; k++) {
        if (k == left_out) continue;
        put_head(datagram, 'F', number);
        memcpy(datagram + HEADER, entries[k].bytes, entries[k].len);
        transmit(board, datagram, HEADER + entries[k].len);
        if (k % AT_ONCE == AT_ONCE - 1) pause_for(board, number);
    }
}

static void send_clock(int board, uint32_t number, long clock, unsigned count) {
    uint8_t datagram[HEADER + 8];
    put_head(datagram, 'C', number);
    put_two(datagram + HEADER, (unsigned)(clock % (long)setup.modulus));
    put_two(datagram + HEADER + 2, count);
    put_four(datagram + HEADER + 4, (uint32_t)clock);
    transmit(board, datagram, sizeof datagram);
}

/* One call of a board: its frames, its clock, and its answer, asked for until it comes. Seldom a frame is first left out, or the clock
 * sent twice, as a machine may do. False if there is no answer. */
static bool make_call(int board, long clock, const struct entry *entries, unsigned count) {
    struct die die = die_for(seed, FOR_FAULT, stretch_number, stretch_calls);
    uint32_t number = ++call_number;
    sent.len = 0;
    send_frames(board, number, entries, count, roll(&die, SELDOM) == 0 ? 0 : count);
    send_clock(board, number, clock, count);
    if (roll(&die, SELDOM) == 0) send_clock(board, number, clock, count);
    for (int tries = 0; tries < patience; tries++) {
        char kind = await_one(board, number, "DA");
        if (kind == 'D') return true;
        if (kind == 'A') {
            figures.again++;
            send_frames(board, number, entries, count, count);
        }
        send_clock(board, number, clock, count);
    }
    return false;
}

static void log_bytes(const uint8_t *bytes, unsigned len) {
    for (unsigned i = 0; i < len; i++) fprintf(log_file, "%02x", bytes[i]);
}

/* a call, and what is heard in it: a message by its number, what is older by a letter, noise by its bytes */
static void log_call(int board, long clock, const struct entry *entries, unsigned count) {
    if (log_file == NULL) return;
    fprintf(log_file, "call %d %ld", board, clock);
    for (unsigned k = 0; k < count; k++) {
        if (entries[k].kind == 'm') fprintf(log_file, " %u", entries[k].number);
        else fprintf(log_file, " %c", entries[k].kind == 'j' && entries[k].len > ENTRY ? 'J' : entries[k].kind);
        if (entries[k].kind == 'x') log_bytes(entries[k].bytes, entries[k].len);
    }
    fputc('\n', log_file);
}

/* what is in the air is older from here on */
static void start_stretch(bool flood) {
    stretch_number++;
    stretch_calls = 0;
    ether_stretch(stretch_number, largest_clock(), flood);
    if (log_file == NULL) return;
    fprintf(log_file, "stretch %llu\n", (unsigned long long)stretch_number);
    for (int k = 0; k < board_count; k++)
        if (boards[k].present) fprintf(log_file, "at %d %ld\n", k, boards[k].clock);
}

/* the message that a call sent goes into the air */
static void carry(int board, long clock) {
    if (sent.len == 0) return;
    uint32_t number = ether_carry(board, clock, sent.bytes, sent.len);
    if (log_file == NULL) return;
    fprintf(log_file, "sent %d %ld %u ", board, clock, number);
    log_bytes(sent.bytes, sent.len);
    fputc('\n', log_file);
}

/* a board's clock steps; one that does not answer is absent */
static void step(int board, long ticks) {
    static struct entry entries[HEARD];
    long clocks[BOARDS];
    for (int k = 0; k < board_count; k++) clocks[k] = boards[k].present ? boards[k].clock : -1;
    clocks[board] += ticks;
    unsigned count = ether_hear(board, clocks, stretch_calls, entries);
    stretch_calls++;
    if (!make_call(board, clocks[board], entries, count)) {
        boards[board].present = false;
        printf("absent %d\n", board);
        start_stretch(false);
        return;
    }
    log_call(board, clocks[board], entries, count);
    boards[board].clock = clocks[board];
    figures.calls++;
    figures.nudges += ticks > 1;
    carry(board, clocks[board]);
}

/* a board that has said hello comes in, at a clock near the others' */
static void take_in(int board) {
    long lowest = lowest_clock(), largest = largest_clock(), epsilon = epsilon_at(&setup, lowest), first = lowest < setup.change ? 0 : setup.change;
    struct die die = die_for(seed, FOR_START, stretch_number, (uint64_t)board);
    long least = lowest < 0 ? 0 : largest - epsilon > first ? largest - epsilon : first, most = lowest < 0 ? epsilon : lowest + epsilon;
    boards[board].clock = least + roll(&die, (uint32_t)(most - least + 1));
    boards[board].present = true;
    boards[board].waits = false;
}

static void take_in_all(void) {
    for (int k = 0; k < board_count; k++) {
        if (!boards[k].waits) continue;
        take_in(k);
        start_stretch(false);
    }
}

/* may a board's clock step so far? Then no two are further apart than epsilon, the old one while any of them is before the change. */
static bool may_step(int board, long ticks) {
    long clock = boards[board].clock + ticks, lowest = clock, largest = clock;
    for (int k = 0; k < board_count; k++) {
        if (k == board || !boards[k].present) continue;
        if (boards[k].clock < lowest) lowest = boards[k].clock;
        if (boards[k].clock > largest) largest = boards[k].clock;
    }
    return ticks <= epsilon_at(&setup, clock) && largest - lowest <= epsilon_at(&setup, lowest);
}

/* the steps that a board's clock may take; how many */
static uint32_t steps_of(int board, long *steps) {
    uint32_t count = 0;
    for (long ticks = 1; ticks <= (long)setup.wider_epsilon && boards[board].present; ticks++)
        if (may_step(board, ticks)) steps[count++] = ticks;
    return count;
}

/* one step of one clock, by chance: of a board that may take one; the least, or in one of four a nudge, any other that it may take */
static void step_one(void) {
    struct die die = die_for(seed, FOR_STEP, stretch_number, stretch_calls);
    long steps[16];
    uint32_t count;
    int board;
    do board = (int)roll(&die, (uint32_t)board_count);
    while ((count = steps_of(board, steps)) == 0);
    step(board, steps[count > 1 && roll(&die, 4) == 0 ? 1 + roll(&die, count - 1) : 0]);
}

static void run_to(long clock) {
    while (largest_clock() >= 0 && largest_clock() < clock) {
        take_in_all();
        step_one();
    }
    printf("at %ld\n", largest_clock());
}

/* clocks up to 40 ahead, over and over and without waiting: the board is to be killed among them */
static void strike(int board) {
    for (int k = 0; k < STRUCK; k++) send_clock(board, ++call_number, boards[board].clock + 1 + k % AHEAD, 0);
    printf("struck %d\n", board);
}

/* what a board has sent and nobody has read is lost */
static void drop(int board) {
    uint8_t datagram[LONGEST];
    while (recv(channel, datagram, sizeof datagram, MSG_DONTWAIT) >= 0) continue;
    boards[board].present = boards[board].waits = false;
    printf("dropped %d\n", board);
}

/* calls for clocks that are not the board's; what it sends in them is carried */
static void give_wrong(int board, long ticks, int calls) {
    long wrong = boards[board].clock + ticks;
    for (int k = 0; k < calls && make_call(board, wrong + k, NULL, 0); k++, stretch_calls++)
        if (sent.len > 0) ether_carry(board, boards[board].clock, sent.bytes, sent.len);
    printf("wrong %d\n", board);
}

static void begin(bool flood) {
    start_stretch(flood);
    printf("X %ld\n", largest_clock());
}

static void join(int board) {
    for (int tries = 0; !boards[board].waits && tries < patience; tries++) await_one(board, 0, "H");
    if (!boards[board].waits) die(NAME, 1, "board %d says no hello", board);
    take_in(board);
    printf("clock %ld\n", boards[board].clock);
}

static void print_figures(void) {
    struct ether_figures air = ether_figures();
    const uint64_t all[] = {air.sent, air.heard, air.again, air.lost, air.older, air.junk, air.noise, air.latest,
                            figures.calls, figures.nudges, figures.mends, figures.dropped, figures.again};
    printf("figures");
    for (unsigned k = 0; k < sizeof all / sizeof all[0]; k++) printf(" %llu", (unsigned long long)all[k]);
    putchar('\n');
}

/* a number of a command that names a board */
static int board_of(long number, bool present) {
    if (number < 0 || number >= board_count) die(NAME, 1, "there is no board %ld", number);
    if (boards[number].present != present) die(NAME, 1, "board %ld is %s", number, present ? "absent" : "present already");
    return (int)number;
}

/* obeys a command; false for one that is not known */
static bool obey(const char *line) {
    char word[16] = "", more[16] = "";
    long a = 0, b = 0, c = 0;
    int numbers = sscanf(line, "%15s %ld %ld %ld", word, &a, &b, &c) - 1;
    bool flood = sscanf(line, "%*s %15s", more) == 1 && strcmp(more, "flood") == 0;
    if (strcmp(word, "join") == 0 && numbers == 1) join(board_of(a, false));
    else if (strcmp(word, "run") == 0 && numbers == 1) run_to(a);
    else if (strcmp(word, "stretch") == 0) begin(flood);
    else if (strcmp(word, "strike") == 0 && numbers == 1) strike(board_of(a, true));
    else if (strcmp(word, "drop") == 0 && numbers == 1) drop(board_of(a, true));
    else if (strcmp(word, "wrong") == 0 && numbers == 3) give_wrong(board_of(a, true), b, (int)c);
    else if (strcmp(word, "figures") == 0) print_figures();
    else return false;
    return true;
}

static void end_all(void) {
    uint8_t datagram[HEADER];
    put_head(datagram, 'E', ++call_number);
    for (int k = 0; k < board_count; k++)
        if (boards[k].present) transmit(k, datagram, sizeof datagram);
}

static void read_options(int argc, char **argv) {
    const char *path = NULL, *log_path = NULL;
    for (int k = 1; k < argc; k++) {
        if (strcmp(argv[k], "--help") == 0 || strcmp(argv[k], "-h") == 0) exit(fputs(help, stdout) < 0);
        else if (strcmp(argv[k], "--seed") == 0 && k + 1 < argc) seed = number_of(NAME, "--seed", argv[++k], 0, UINT64_MAX);
        else if (strcmp(argv[k], "--log") == 0 && k + 1 < argc) log_path = argv[++k];
        else if (strcmp(argv[k], "--patience") == 0 && k + 1 < argc)
            patience = (int)number_of(NAME, "--patience", argv[++k], 1, 86400) * (1000 / WAIT);
        else if (argv[k][0] != '-' && path == NULL) path = argv[k];
        else die(NAME, 2, "'%s' is not known here: radio --help", argv[k]);
    }
    if (path == NULL) die(NAME, 2, "the setup is missing: radio --help");
    setup = read_setup(NAME, path, false);
    board_count = (int)setup.n + 1;
    if (log_path == NULL) return;
    log_file = fopen(log_path, "a");
    if (log_file == NULL) die(NAME, 1, "%s cannot be written: %s", log_path, strerror(errno));
}

int main(int argc, char **argv) {
    struct sockaddr_in address;
    socklen_t address_len = sizeof address;
    char line[256];
    read_options(argc, argv);
    ether_start(&setup, seed);
    channel = loopback_socket(WAIT);
    if (channel < 0 || getsockname(channel, (struct sockaddr *)&address, &address_len) != 0)
        die(NAME, 1, "there is no socket: %s", strerror(errno));
    printf("port %u\n", ntohs(address.sin_port));
    fflush(stdout);
    while (fgets(line, sizeof line, stdin) != NULL && strncmp(line, "end", 3) != 0) {
        if (!obey(line)) die(NAME, 1, "this is no command: %s", line);
        if (log_file != NULL && fflush(log_file) != 0) die(NAME, 1, "the log cannot be written: %s", strerror(errno));
        fflush(stdout);
    }
    end_all();
    return 0;
}
