/* One station, or one observer, as a process over the library. Frames and clocks come as datagrams (wire.h); for each clock it makes one
 * call with what it heard since the last one, and answers. What it keeps between calls stands in a file that is mapped into memory, and
 * is used there: a kill leaves what it leaves, and the next start goes on with that. It asks for no memory while it runs. */
#include <errno.h>
#include <fcntl.h>
#include <poll.h>
#include <signal.h>
#include <stdarg.h>
#include <stdio.h>
#include <stdlib.h>
#include <sys/mman.h>
#include <sys/stat.h>
#include <unistd.h>

#include "calls.h"
#include "setup.h"
#include "wire.h"
#include "yarngravel.h"

#define NAME "station"
enum { BUNDLE = 1 + ENTRIES * (1 + ENTRY), SHELF = YARNGRAVEL_SHELF(16, 16, 64), WAIT = 200, FORGOTTEN = 25 };

static const char help[] =
    "station SETUP [--words] [--reasons] [--frames] [--paced] [--patience SECONDS]\n"
    "\n"
    "One station or observer of a yard. SETUP is a text file, a word and its value on each line, # before a comment:\n"
    "  n 4                    stations of the yard, 1 to 16\n"
    "  epsilon 3              drift limit, 1 to 16\n"
    "  delta 6                delay limit, 0 to 64\n"
    "  modulus 91             clocks are given modulo this, at least 6 epsilon + delta + 1\n"
    "  own 2                  this station's number, below n; or the word `observer` alone\n"
    "  radio 40123            the radio's port on the loopback address\n"
    "  memory station-2.mem   the file for tables, shelf, last clock and figures; where there is none the station starts afresh\n"
    "and, all or none of them, where the yard goes to wider limits (clocks here are not reduced):\n"
    "  wider_epsilon 5        the limits from the change on, none smaller than before\n"
    "  wider_delta 9\n"
    "  change 1500            the clock of the change, V\n"
    "  both_from 1400         calls for this clock and later ones have both pairs\n"
    "  wider_from 1550        calls for this clock and later ones have the wider pair alone\n"
    "\n"
    "Standard input has the tickets, one a line of at most 32 bytes: the next one is sent in the next tick. A line - is an empty\n"
    "ticket, an empty line is none. Standard output is the board: a line `tick CLOCK mend MEND c C took TAKEN sent SENT gave GAVE` for\n"
    "each call, and then `give STATION R TICKET` for each message shown, the ticket in hexadecimal; with a change `limits old`, `both` or\n"
    "`wider` stands behind GAVE. Standard error is the log: every\n"
    "mend, refused frame and dropped datagram, and at the end their numbers and how well each station was heard in the last 256 ticks.\n"
    "  --words                a line `hear WORDS` for each frame heard: its place, station, r, and what became of it\n"
    "  --reasons              behind each ticket what put it behind the line before: sum, count CLOCK, station, r or -\n"
    "  --frames               behind that the whole frame, in hexadecimal\n"
    "  --paced                each tick waits for one line of standard input\n"
    "  --patience SECONDS     ends where the radio is silent for so long; without it, never\n"
    "Exit status: 0 the radio or a signal ended it; 1 it could not go on; 2 the command line or the setup is wrong.\n";

/* What is kept between calls, as it stands in the file: an observer uses last, a station tables. The figures stand behind the shelf. Nothing
 * in it is trusted. */
struct memory {
    uint8_t tables[YARNGRAVEL_TABLES];
    uint8_t last[YARNGRAVEL_LAST];
    volatile uint8_t calling; /* 1 while a call is made; only for the log */
    uint8_t shelf[];
};

static struct setup setup;
static bool observer, with_words, with_reasons, with_frames, paced;
static unsigned patience; /* in waits for a datagram; 0 for no end */
static struct memory *memory;
static size_t shelf_room; /* for the largest shelf that it will have: it grows where it stands */
static struct limits limits; /* of the call under way */
static bool fresh; /* the file is new, and no call was made */

static int channel;
static struct sockaddr_in radio;
static volatile sig_atomic_t ended;

/* what is heard for the next call */
static struct {
    uint32_t call;
    unsigned came, dropped; /* datagrams, and how many of these are not in the bundle */
    size_t len;
    uint8_t bytes[BUNDLE];
} bundle;

/* the last call made, for a radio that asks again */
static struct {
    bool made;
    uint32_t call;
    unsigned mend, sent, dropped;
    uint8_t outgoing[YARNGRAVEL_FRAME(16)];
} done;

static struct {
    uint64_t calls, mends[4], verdicts[17], strangers, long_ones, no_room, late, missing, bad_tickets;
} count;

static unsigned clock_now; /* of the last call, for the log */

static void note(const char *form, ...) __attribute__((format(printf, 1, 2)));
static void note(const char *form, ...) {
    va_list arguments;
    fprintf(stderr, "clock %u: ", clock_now);
    va_start(arguments, form);
    vfprintf(stderr, form, arguments);
    va_end(arguments);
    fputc('\n', stderr);
}

static void stop(int signal) { ended = signal; }

/* the own number for a call that asks for one: any will do for an observer */
static uint32_t own(void) { return observer ? 0 : setup.own; }

static const uint8_t *kept(void) { return observer ? memory->last : memory->tables; }

static uint8_t *figures(void) { return memory->shelf + shelf_room; }

/* maps the file, which is made where there is none */
static void map_memory(void) {
    size_t size = sizeof(struct memory) + shelf_room + YARNGRAVEL_FIGURES;
    struct stat found;
    int file = open(setup.memory, O_RDWR | O_CREAT | O_CLOEXEC, 0600);
    if (file < 0 || fstat(file, &found) != 0) die(NAME, 1, "%s cannot be opened: %s", setup.memory, strerror(errno));
    fresh = found.st_size == 0;
    if (fresh && ftruncate(file, (off_t)size) != 0) die(NAME, 1, "%s cannot be made: %s", setup.memory, strerror(errno));
    if (!fresh && found.st_size != (off_t)size)
        die(NAME, 1, "%s has %lld bytes, and for this setup it must have %zu", setup.memory, (long long)found.st_size, size);
    memory = mmap(NULL, size, PROT_READ | PROT_WRITE, MAP_SHARED, file, 0);
    if (memory == MAP_FAILED) die(NAME, 1, "%s cannot be mapped: %s", setup.memory, strerror(errno));
    close(file);
    if (!fresh && memory->calling) note("it ended in the middle of a call, after clock %u", yarngravel_last_clock(kept()));
}

/* fresh tables, or an observer's fresh last clock, at the clock before a first call */
static void start_afresh(long clock) {
    uint32_t before = (uint32_t)(clock - 1 + (long)setup.modulus) % setup.modulus;
    struct limits then = limits_at(&setup, own(), clock - 1);
    uint64_t answer = observer ? call_fresh_last(&then, before, memory->last) : call_fresh(&then, before, memory->tables);
    unsigned number = yarngravel_number(answer);
    if (number != 0) die(NAME, 1, "the start at clock %u is refused by %u: %s", before, number, yarngravel_number_text(number));
    fresh = false;
}

/* standard input, as far as it is read and not yet taken */
static struct {
    char bytes[4096];
    size_t len;
    bool ended, skips; /* the rest of a line too long for the buffer is left out */
} input;

/* reads more of standard input; false if there is no more now, or ever */
static bool read_more(void) {
    struct pollfd there = {0, POLLIN, 0};
    if (input.ended || (!paced && poll(&there, 1, 0) < 1)) return false;
    if (input.len == sizeof input.bytes) {
        input.len = 0;
        input.skips = true;
    }
    ssize_t got = read(0, input.bytes + input.len, sizeof input.bytes - input.len);
    if (got <= 0) input.ended = got == 0 || errno != EINTR;
    else input.len += (size_t)got;
    return got > 0;
}

/* takes the next line of standard input, if there is one, and says how long it is; -1 if there is none */
static int next_line(char *line, size_t room) {
    char *end;
    while ((end = memchr(input.bytes, '\n', input.len)) == NULL)
        if (!read_more()) return -1;
    size_t len = (size_t)(end - input.bytes), used = len + 1;
    if (input.skips) len = room + 1;
    else memcpy(line, input.bytes, len < room ? len : room);
    input.skips = false;
    input.len -= used;
    memmove(input.bytes, input.bytes + used, input.len);
    return (int)len;
}

/* the ticket for the next tick; false if there is none */
static bool next_ticket(uint8_t *ticket, size_t *len) {
    int got = observer ? -1 : next_line((char *)ticket, YARNGRAVEL_TICKET);
    *len = 0;
    if (got <= 0) return false;
    if (got > (int)YARNGRAVEL_TICKET) {
        count.bad_tickets++;
        note("a ticket has more than %u bytes, and is left out", YARNGRAVEL_TICKET);
        return false;
    }
    if (got == 1 && ticket[0] == '-') return true;
    *len = (size_t)got;
    return true;
}

static void print_bytes(const uint8_t *bytes, size_t len) {
    for (size_t i = 0; i < len; i++) printf("%02x", bytes[i]);
    if (len == 0) putchar('-');
}

/* what put a frame behind the one before it; a dash for the first of a hand-out */
static void print_reason(const uint8_t *before, size_t before_len, const uint8_t *frame, size_t len) {
    static const char *const words[] = {"-", "sum", "count", "station", "r"};
    uint64_t answer = 0;
    if (before != NULL) answer = call_compare(&limits, clock_now, before, before_len, frame, len);
    unsigned reason = yarngravel_reason(answer);
    printf(" %s", words[reason]);
    if (reason == YARNGRAVEL_BY_COUNT) printf(" %u", yarngravel_count_clock(answer));
}

/* the board shows a hand-out */
static void show(uint64_t answer, const uint8_t *handout) {
    struct yarngravel_walk walk = yarngravel_walk_of(answer, handout);
    const uint8_t *before = NULL;
    size_t before_len = 0;
    while (yarngravel_walk_next_in(&walk)) {
        uint8_t stamp[YARNGRAVEL_TABLES];
        uint64_t got = call_read(&limits, walk.frame, walk.len, stamp);
        printf("give %u %u ", yarngravel_station(got), yarngravel_last_clock(stamp));
        print_bytes(walk.frame + yarngravel_ticket_at(got), yarngravel_ticket_len(got));
        if (with_reasons) print_reason(before, before_len, walk.frame, walk.len);
        if (with_frames) putchar(' ');
        if (with_frames) print_bytes(walk.frame, walk.len);
        putchar('\n');
        before = walk.frame;
        before_len = walk.len;
    }
}

/* what became of each frame heard: the words to the board if they are wanted, each refusal to the log */
static void tell(const uint8_t *verdicts) {
    static uint8_t text[ENTRIES * YARNGRAVEL_LINE];
    uint64_t told = call_words(&limits, bundle.bytes, bundle.len, verdicts, text, sizeof text);
    const uint8_t *line = text;
    for (unsigned k = 0; k < bundle.bytes[0]; k++) {
        int len = (int)((const uint8_t *)memchr(line, '\n', (size_t)(text + yarngravel_text_len(told) - line)) - line);
        count.verdicts[verdicts[k]]++;
        if (with_words) printf("hear %.*s\n", len, (const char *)line);
        if (verdicts[k] != 0) note("refused by %u: %.*s", verdicts[k], len, (const char *)line);
        line += len + 1;
    }
}

/* the library's call, in the mapped memory */
static uint64_t call_library(uint32_t clock, bool send, const uint8_t *ticket, size_t ticket_len, uint8_t *verdicts, uint8_t *handout) {
    uint64_t answer;
    memory->calling = 1;
    if (observer) answer = call_listen(&limits, clock, memory->last, memory->shelf, bundle.bytes, bundle.len, verdicts, handout, SHELF);
    else
        answer = call_tick(&limits, clock, memory->tables, memory->shelf, bundle.bytes, bundle.len, send, ticket, ticket_len, done.outgoing,
                           sizeof done.outgoing, verdicts, handout, SHELF);
    memory->calling = 0;
    return answer;
}

/* what became of the frames heard is counted, after each call */
static void keep_figures(const uint8_t *verdicts) {
    uint64_t answer =
        yarngravel_figures(setup.n, bundle.bytes, bundle.len, verdicts, YARNGRAVEL_VERDICTS, figures(), YARNGRAVEL_FIGURES);
    unsigned number = yarngravel_number(answer);
    if (number != 0) die(NAME, 1, "the figures are refused by %u: %s", number, yarngravel_number_text(number));
}

/* one call for a clock, which is not reduced, with the bundle; the board and the log get what came of it */
static void call(long true_clock) {
    static uint8_t ticket[YARNGRAVEL_TICKET], verdicts[YARNGRAVEL_VERDICTS], handout[SHELF];
    size_t ticket_len;
    uint32_t clock = (uint32_t)(true_clock % (long)setup.modulus);
    if (fresh) start_afresh(true_clock);
    limits = limits_at(&setup, own(), true_clock);
    unsigned last = yarngravel_last_clock(kept());
    bool send = next_ticket(ticket, &ticket_len);
    uint64_t answer = call_library(clock, send, ticket, ticket_len, verdicts, handout);
    unsigned number = yarngravel_number(answer), mend = yarngravel_mend(answer);
    clock_now = clock;
    if (number != 0) die(NAME, 1, "the call for clock %u is refused by %u: %s", clock, number, yarngravel_number_text(number));
    count.calls++;
    count.mends[mend]++;
    if (mend != 0) note("mend %u, the last clock was %u: %s", mend, last, yarngravel_mend_text(mend));
    printf("tick %u mend %u c ", clock, mend);
    if (observer) putchar('-');
    else printf("%u", memory->tables[2]);
    printf(" took %u sent %d gave %u", yarngravel_taken(answer), send, yarngravel_gave(answer));
    if (setup.change != NEVER) printf(" limits %s", limits_word(&setup, true_clock));
    putchar('\n');
    tell(verdicts);
    keep_figures(verdicts);
    show(answer, handout);
    done.mend = mend;
    done.sent = yarngravel_sent(answer);
}

static void transmit(const uint8_t *datagram, size_t len) {
    if (sendto(channel, datagram, len, 0, (const struct sockaddr *)&radio, sizeof radio) < 0 && errno != EINTR && errno != ENOBUFS)
        die(NAME, 1, "nothing can be sent to the radio: %s", strerror(errno));
}

/* a datagram of a kind for a call, with nothing more */
static void signal_radio(char kind, uint32_t number) {
    uint8_t datagram[HEADER];
    put_head(datagram, kind, number);
    transmit(datagram, sizeof datagram);
}

/* the frame that the last call sent, if any, and that it is done */
static void answer_radio(void) {
    uint8_t datagram[HEADER + sizeof done.outgoing];
    put_head(datagram, 'S', done.call);
    memcpy(datagram + HEADER, done.outgoing, done.sent);
    if (done.sent > 0) transmit(datagram, HEADER + done.sent);
    put_head(datagram, 'D', done.call);
    datagram[HEADER] = (uint8_t)done.mend;
    datagram[HEADER + 1] = (uint8_t)done.sent;
    put_two(datagram + HEADER + 2, done.dropped);
    transmit(datagram, HEADER + 4);
}

/* an empty bundle for a call */
static void gather(uint32_t number) {
    bundle.call = number;
    bundle.came = bundle.dropped = 0;
    bundle.len = yarngravel_bundle_start(bundle.bytes);
}

/* a frame is heard; what cannot be in a bundle is dropped */
static void hear(uint32_t number, const uint8_t *frame, size_t len) {
    if (done.made && number == done.call) {
        count.late++;
        note("dropped a datagram of %zu bytes: its call was made already", len);
        return;
    }
    if (number != bundle.call) gather(number);
    bundle.came++;
    if (yarngravel_bundle_add(bundle.bytes, sizeof bundle.bytes, &bundle.len, frame, len)) return;
    bundle.dropped++;
    if (len > ENTRY) count.long_ones++;
    else count.no_room++;
    note("dropped a datagram of %zu bytes: %s", len, len > ENTRY ? "it is too long for a frame" : "the bundle is full");
}

/* The radio gives a clock: the call is made, unless it was made already or not all of its frames came. */
static void come_to(uint32_t number, long clock, unsigned frames) {
    bool again = done.made && number == done.call;
    if (number != bundle.call) gather(number);
    if (!again && bundle.came != frames) {
        count.missing++;
        note("%u datagrams came of %u: asks for them again", bundle.came, frames);
        gather(number);
        signal_radio('A', number);
        return;
    }
    if (!again) {
        done.dropped = bundle.dropped;
        done.made = true;
        done.call = number;
        call(clock);
        if (fflush(stdout) != 0) die(NAME, 1, "the board cannot be written: %s", strerror(errno));
    }
    answer_radio();
}

/* a datagram that is no part of the yard's talk */
static void drop(size_t len, const char *why) {
    count.strangers++;
    note("dropped a datagram of %zu bytes: it %s", len, why);
}

/* takes one datagram of the radio's */
static void take(const uint8_t *datagram, size_t len) {
    uint32_t number = len < HEADER ? 0 : call_of(datagram);
    char kind = len < HEADER ? '-' : (char)datagram[0];
    if (kind == 'F') hear(number, datagram + HEADER, len - HEADER);
    else if (kind == 'C' && len == HEADER + 8) come_to(number, (long)four_at(datagram + HEADER + 4), two_at(datagram + HEADER + 2));
    else if (kind == 'P') signal_radio('P', number);
    else if (kind == 'E') ended = 1;
    else drop(len, "is of no known kind");
}

/* hears datagrams until the end; says hello until the radio is heard, and after each five seconds in which it is not */
static void serve(void) {
    static uint8_t datagram[LONGEST + 1];
    uint8_t hello[HEADER + 1];
    unsigned silence = 0;
    bool known = false;
    put_head(hello, 'H', 0);
    hello[HEADER] = (uint8_t)setup.own;
    transmit(hello, sizeof hello);
    while (!ended && (patience == 0 || silence < patience)) {
        struct sockaddr_in from;
        socklen_t from_len = sizeof from;
        ssize_t got = recvfrom(channel, datagram, sizeof datagram, 0, (struct sockaddr *)&from, &from_len);
        silence = got < 0 ? silence + 1 : 0;
        if (got < 0 && (!known || silence % FORGOTTEN == 0)) transmit(hello, sizeof hello);
        if (got < 0) continue;
        known = known || same_address(&from, &radio);
        if (same_address(&from, &radio)) take(datagram, (size_t)got);
        else drop((size_t)got, "is not the radio's");
        fflush(stderr);
    }
    if (!ended) die(NAME, 1, "the radio has been silent for %u seconds", patience * WAIT / 1000);
}

/* how often what was logged came */
static void sum_up(void) {
    note("%llu calls; mends: %llu of 1, %llu of 2, %llu of 3", (unsigned long long)count.calls, (unsigned long long)count.mends[1],
         (unsigned long long)count.mends[2], (unsigned long long)count.mends[3]);
    for (unsigned k = 10; k <= 16; k++)
        if (count.verdicts[k] > 0) note("%llu frames refused by %u: %s", (unsigned long long)count.verdicts[k], k, yarngravel_number_text(k));
    note("dropped datagrams: %llu too long, %llu for which there was no room, %llu strange ones, %llu of calls made already",
         (unsigned long long)count.long_ones, (unsigned long long)count.no_room, (unsigned long long)count.strangers,
         (unsigned long long)count.late);
    note("bundles asked for again: %llu; tickets left out: %llu", (unsigned long long)count.missing, (unsigned long long)count.bad_tickets);
}

/* how well each station was heard, a line for each, and one for what is no station's */
static void show_figures(void) {
    for (unsigned station = 0; station < setup.n; station++)
        note("hears station %u: taken %u, range %u, stamp %u, late %u, early %u, count %u, repeat %u", station,
             yarngravel_figure(figures(), station, 0), yarngravel_figure(figures(), station, YARNGRAVEL_BAD_RANGE),
             yarngravel_figure(figures(), station, YARNGRAVEL_BAD_STAMP), yarngravel_figure(figures(), station, YARNGRAVEL_LATE),
             yarngravel_figure(figures(), station, YARNGRAVEL_EARLY), yarngravel_figure(figures(), station, YARNGRAVEL_BAD_COUNT),
             yarngravel_figure(figures(), station, YARNGRAVEL_REPEAT));
    note("hears no station: %u", yarngravel_figure_of_none(figures()));
}

static void read_options(int argc, char **argv) {
    const char *path = NULL;
    for (int k = 1; k < argc; k++) {
        if (strcmp(argv[k], "--help") == 0 || strcmp(argv[k], "-h") == 0) exit(fputs(help, stdout) < 0);
        else if (strcmp(argv[k], "--words") == 0) with_words = true;
        else if (strcmp(argv[k], "--reasons") == 0) with_reasons = true;
        else if (strcmp(argv[k], "--frames") == 0) with_frames = true;
        else if (strcmp(argv[k], "--paced") == 0) paced = true;
        else if (strcmp(argv[k], "--patience") == 0 && k + 1 < argc)
            patience = (unsigned)number_of(NAME, "--patience", argv[++k], 1, 86400) * (1000 / WAIT);
        else if (argv[k][0] != '-' && path == NULL) path = argv[k];
        else die(NAME, 2, "'%s' is not known here: station --help", argv[k]);
    }
    if (path == NULL) die(NAME, 2, "the setup is missing: station --help");
    setup = read_setup(NAME, path, true);
    observer = setup.own == setup.n;
}

/* opens the socket; its port, for the log */
static unsigned open_channel(void) {
    struct sockaddr_in address;
    socklen_t address_len = sizeof address;
    radio = loopback(setup.radio);
    channel = loopback_socket(WAIT);
    if (channel < 0 || getsockname(channel, (struct sockaddr *)&address, &address_len) != 0)
        die(NAME, 1, "there is no socket: %s", strerror(errno));
    return ntohs(address.sin_port);
}

int main(int argc, char **argv) {
    struct sigaction on_end = {.sa_handler = stop};
    read_options(argc, argv);
    if (yarngravel_version() != YARNGRAVEL_VERSION) die(NAME, 1, "the header is of version %s, the library of another", YARNGRAVEL_VERSION_TEXT);
    setvbuf(stdout, NULL, _IOFBF, 1 << 16);
    setvbuf(stderr, NULL, _IOFBF, 1 << 16);
    sigaction(SIGTERM, &on_end, NULL);
    sigaction(SIGINT, &on_end, NULL);
    shelf_room = yarngravel_shelf_size(setup.n, setup.wider_epsilon, setup.wider_delta);
    map_memory();
    unsigned port = open_channel();
    note("version %s, n %u, epsilon %u, delta %u, modulus %u, %s %u, port %u", YARNGRAVEL_VERSION_TEXT, setup.n, setup.epsilon,
         setup.delta, setup.modulus, observer ? "observer, board" : "own", setup.own, port);
    if (setup.change != NEVER)
        note("epsilon %u, delta %u from clock %ld on; both pairs from %ld on, the wider one alone from %ld on", setup.wider_epsilon,
             setup.wider_delta, setup.change, setup.both_from, setup.wider_from);
    fflush(stderr);
    serve();
    sum_up();
    show_figures();
    return fflush(stdout) == 0 ? 0 : 1;
}
