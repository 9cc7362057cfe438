/* A drill of a yard of processes: starts the radio, the stations and an observer, disturbs them while they run (kills in the middle of
 * calls, random bytes over what a station keeps, wrong clocks, floods of junk), and has each stretch between two disturbances judged
 * (judge.c). In the middle the yard goes to wider limits (02, 2.10), with disturbances before, at and after that clock. It makes no call of
 * the library. All that it does comes from the seed; when a kill falls is the machine's own. */
#include <dirent.h>
#include <errno.h>
#include <fcntl.h>
#include <poll.h>
#include <signal.h>
#include <stdarg.h>
#include <stdbool.h>
#include <stdio.h>
#include <stdlib.h>
#include <string.h>
#include <sys/prctl.h>
#include <sys/stat.h>
#include <sys/wait.h>
#include <time.h>
#include <unistd.h>

#include "chance.h"
#include "setup.h"

#define NAME "drill"
enum { BOARDS = 17, PATH = 512, JUDGED = 19, FIGURES = 13, MEMORY = 1 << 18, LEAST_TICKS = 500, AWAY = 50, LOOK = 200 };
enum { CHANGE_TICKS = 2000, APART = 20, LONGER = 400 }; /* of a change: a drill with one, boards' setups, what B is larger by */

static const char help[] =
    "./drill [--seed S] [--ticks N] [--stations K] [--change HOW] [--board PROGRAM] [--keep FOLDER]\n"
    "\n"
    "Starts a yard of K stations and an observer, each a process, over a radio that loses, repeats and delays frames and carries junk; kills\n"
    "one in the middle of a call and starts it again, writes random bytes over what one keeps, gives one wrong clocks, floods all with junk,\n"
    "in turn, until the clocks are at N. What the boards showed between two disturbances is judged by document 01: from X + delta + 3 epsilon\n"
    "on all boards agree, each message heard is shown once, when due, causes first. In the middle of a drill of 2000 ticks or more the limits\n"
    "get wider: each board takes up both pairs, and then the wider one alone, when document 02 (2.10) lets it, and all is judged by that. At\n"
    "the end each board says how well it heard each station in its last 256 ticks.\n"
    "  --seed S         all is drawn from it, the limits of the yard too; without it the day is, as 20261116\n"
    "  --ticks N        from 500 on; without it 3000\n"
    "  --stations K     1 to 16; without it 4\n"
    "  --change HOW     at: one is killed when the limits change; before: one's memory is written over shortly before that; clear: nothing is\n"
    "                   disturbed around it, and boards take up both pairs as late as they may and leave them as soon as they may; none: the\n"
    "                   limits stay. Without it one of the first three by the seed, in a shorter drill none\n"
    "  --board PROGRAM  board 1, or 0 where it is alone, is this program in place of station: a host of your own, or one with a fault\n"
    "  --keep FOLDER    works in this new folder and leaves there the logs of the last stretch; without it all is removed at the end\n"
    "Exit status: 0 all is as 01 has it; 1 a board is wrong; 2 the command line is wrong; 3 the drill could not go on or was not fair.\n";

static uint64_t seed;
static long ticks = 3000;
static struct setup setup;
static int board_count;
static const char *other; /* the program of one board, in place of station */
static char programs[PATH / 2], folder[PATH / 2];
static bool keep, is_made;

static struct {
    pid_t station, clerk;
    unsigned starts;
} boards[BOARDS];
static pid_t radio;
static FILE *to_radio, *from_radio;
static char answer[256]; /* the radio's last */

enum { AT, BEFORE, CLEAR, NONE, BY_SEED };
static const char *const hows[] = {"at", "before", "clear", "none"};
static int how = BY_SEED;                            /* the change falls among the disturbances */
static long aim;                                     /* the clock of the disturbance for it; 0 for none, or once it was */
static long both_from[BOARDS], wider_from[BOARDS];   /* when each board's setup changes */
static unsigned disturbed_with_both[2];              /* before the change, from it on */

static struct die plan;
static long clock_now, least_stretch; /* the largest clock; ticks in which a stretch shows what was sent from T on */
static unsigned stretches, torn;      /* torn: kills that fell inside a call of the library */
enum { KILL, FILE_OVER, WRONG, FLOOD, KINDS }; /* kinds of disturbances */
static unsigned disturbed[KINDS];
static uint64_t judged[JUDGED], figures[FIGURES], boards_digest;
static double started_at;
static volatile sig_atomic_t interrupted;

static void interrupt(int number) { interrupted = number; }

static double seconds(void) {
    struct timespec now;
    clock_gettime(CLOCK_MONOTONIC, &now);
    return (double)now.tv_sec + (double)now.tv_nsec / 1e9;
}

/* a file of the folder; the text stays for as long as one use needs it */
static char *path_of(const char *name, int board) {
    static char paths[2 * BOARDS][PATH];
    static unsigned used;
    char *path = paths[used++ % (2 * BOARDS)];
    if (board < 0) snprintf(path, PATH, "%s/%s", folder, name);
    else snprintf(path, PATH, "%s/%s-%d", folder, name, board);
    return path;
}

static void end_process(pid_t *process) {
    if (*process <= 0) return;
    kill(*process, SIGKILL);
    while (waitpid(*process, NULL, 0) < 0 && errno == EINTR) continue;
    *process = 0;
}

/* ends all that was started, and removes the folder; runs however the drill ends */
static void clean_up(void) {
    end_process(&radio);
    for (int k = 0; k < BOARDS; k++) {
        end_process(&boards[k].station);
        end_process(&boards[k].clerk);
    }
    DIR *listing = is_made && !keep ? opendir(folder) : NULL;
    if (listing == NULL) return;
    for (struct dirent *found; (found = readdir(listing)) != NULL;)
        if (found->d_name[0] != '.') unlink(path_of(found->d_name, -1));
    closedir(listing);
    rmdir(folder);
}

/* the drill cannot go on */
static void fail(int status, const char *form, ...) __attribute__((noreturn, format(printf, 2, 3)));
static void fail(int status, const char *form, ...) {
    va_list arguments;
    if (isatty(2)) fputs("\r\x1b[K", stderr);
    if (interrupted) exit(128 + interrupted);
    va_start(arguments, form);
    fprintf(stderr, "drill: seed %llu, %ld ticks, %u stations, at clock %ld: ", (unsigned long long)seed, ticks, setup.n, clock_now);
    vfprintf(stderr, form, arguments);
    fputc('\n', stderr);
    va_end(arguments);
    exit(status);
}

/* A child of the drill's: it ends with the drill, however that ends. 0 in the child. */
static pid_t start_child(void) {
    pid_t parent = getpid(), child;
    fflush(NULL);
    child = fork();
    if (child < 0) fail(3, "no process can be started: %s", strerror(errno));
    if (child > 0) return child;
    prctl(PR_SET_PDEATHSIG, SIGKILL);
    if (getppid() != parent) _exit(1);
    signal(SIGPIPE, SIG_DFL);
    signal(SIGINT, SIG_IGN); /* the drill ends it */
    return 0;
}

/* in a child: becomes a program, with these for standard input and output */
static void become(const char *path, char *const *words, int input, int output, const char *log_path) {
    int log_number = log_path == NULL ? -1 : open(log_path, O_WRONLY | O_CREAT | O_APPEND | O_CLOEXEC, 0600);
    if (dup2(input, 0) < 0 || dup2(output, 1) < 0 || (log_number >= 0 && dup2(log_number, 2) < 0)) _exit(3);
    execv(path, words);
    fprintf(stderr, "drill: %s cannot be started: %s\n", path, strerror(errno));
    _exit(3);
}

static void make_pipe(int ends[2]) {
    if (pipe(ends) != 0 || fcntl(ends[0], F_SETFD, FD_CLOEXEC) != 0 || fcntl(ends[1], F_SETFD, FD_CLOEXEC) != 0)
        fail(3, "there is no pipe: %s", strerror(errno));
}

static const char *program(const char *name) {
    static char path[PATH];
    snprintf(path, sizeof path, "%s%s", programs, name);
    return path;
}

/* no station may end but by the drill's hand */
static void check_alive(void) {
    for (int k = 0; k < board_count; k++)
        if (boards[k].station > 0 && waitpid(boards[k].station, NULL, WNOHANG) != 0) {
            boards[k].station = 0;
            fail(3, "board %d has ended by itself", k);
        }
}

/* the next line that a program says; false at its end. While the drill waits it sees whether all stations are there. */
static bool read_line(FILE *file, char *line, int room) {
    struct pollfd there = {fileno(file), POLLIN, 0};
    while (poll(&there, 1, LOOK) < 1) {
        if (interrupted) return false;
        check_alive();
    }
    return fgets(line, room, file) != NULL;
}

/* the radio's answer, which starts with this word; the number behind it */
static long hear_radio(const char *word) {
    if (!read_line(from_radio, answer, sizeof answer)) fail(3, "the radio has ended");
    if (interrupted || strncmp(answer, word, strlen(word)) != 0) fail(3, "the radio says: %s", answer);
    return strtol(answer + strlen(word), NULL, 10);
}

/* a command to the radio */
static void tell_radio(const char *form, ...) __attribute__((format(printf, 1, 2)));
static void tell_radio(const char *form, ...) {
    va_list arguments;
    va_start(arguments, form);
    vfprintf(to_radio, form, arguments);
    va_end(arguments);
    fputc('\n', to_radio);
    fflush(to_radio);
}

/* a setup file; a station's has more lines than the yard's */
static void write_setup(const char *path, int board, long port) {
    FILE *file = fopen(path, "w");
    if (file == NULL) fail(3, "%s cannot be written: %s", path, strerror(errno));
    fprintf(file, "n %u\nepsilon %u\ndelta %u\nmodulus %u\n", setup.n, setup.epsilon, setup.delta, setup.modulus);
    if (setup.change != NEVER)
        fprintf(file, "wider_epsilon %u\nwider_delta %u\nchange %ld\n", setup.wider_epsilon, setup.wider_delta, setup.change);
    if (setup.change != NEVER && board >= 0) fprintf(file, "both_from %ld\nwider_from %ld\n", both_from[board], wider_from[board]);
    if (board >= 0) fprintf(file, "radio %ld\nmemory %s\n", port, path_of("memory", board));
    if (board == (int)setup.n) fputs("observer\n", file);
    else if (board >= 0) fprintf(file, "own %d\n", board);
    fclose(file);
}

static void start_radio(void) {
    int commands[2], answers[2];
    char seed_text[32];
    snprintf(seed_text, sizeof seed_text, "%llu", (unsigned long long)seed);
    write_setup(path_of("yard", -1), -1, 0);
    make_pipe(commands);
    make_pipe(answers);
    radio = start_child();
    if (radio == 0) {
        char *words[] = {"radio", path_of("yard", -1), "--seed", seed_text, "--log", path_of("radio", -1),
                         "--patience", "120", NULL};
        become(program("radio"), words, commands[0], answers[1], NULL);
    }
    close(commands[0]);
    close(answers[1]);
    to_radio = fdopen(commands[1], "w");
    from_radio = fdopen(answers[0], "r");
    if (to_radio == NULL || from_radio == NULL) fail(3, "the radio does not start");
    long port = hear_radio("port");
    for (int k = 0; k < board_count; k++) write_setup(path_of("setup", k), k, port);
}

/* a clerk hands in tickets, one in three ticks, for as long as its station reads them */
static void write_tickets(int board, unsigned start, int output) {
    struct die die = die_for(seed, FOR_TICKETS, (uint64_t)board, start);
    FILE *tickets = fdopen(output, "w");
    if (tickets == NULL) _exit(1);
    for (unsigned number = 0;; number++) {
        char ticket[80];
        uint32_t what = roll(&die, 30), len = roll(&die, 33);
        snprintf(ticket, sizeof ticket, "%d.%u.%u bale of cotton, %u pounds", board, start, number, 400 + roll(&die, 200));
        if (what < 9) fprintf(tickets, "%.*s\n", (int)(len < 10 ? 10 : len), ticket);
        else if (fputs(what == 9 ? "-\n" : "\n", tickets) < 0) _exit(0);
    }
}

/* the board's program with its clerk; an observer's standard input is empty */
static void start_board(int board) {
    static char *options[] = {"station", NULL, "--words", "--reasons", "--frames", "--paced", "--patience", "120", NULL};
    int tickets[2], others = setup.n > 1 ? 1 : 0;
    make_pipe(tickets);
    boards[board].clerk = board < (int)setup.n ? start_child() : -1;
    if (boards[board].clerk == 0) {
        close(tickets[0]);
        write_tickets(board, boards[board].starts, tickets[1]);
    }
    boards[board].station = start_child();
    if (boards[board].station == 0) {
        int output = open(path_of("board", board), O_WRONLY | O_CREAT | O_APPEND | O_CLOEXEC, 0600);
        options[1] = path_of("setup", board);
        become(other != NULL && board == others ? other : program("station"), options, tickets[0], output, path_of("log", board));
    }
    close(tickets[0]);
    close(tickets[1]);
    boards[board].starts++;
    tell_radio("join %d", board);
    hear_radio("clock");
}

/* what a stretch's judge counts is added up */
static void add_judged(const char *line) {
    char *end = (char *)line;
    uint64_t number[JUDGED];
    for (int k = 0; k < JUDGED; k++) number[k] = strtoull(end, &end, 10);
    if (*end != '\n') fail(3, "the judge says: %s", line);
    for (int k = 0; k < JUDGED - 1; k++) judged[k] += number[k];
    boards_digest = stirred(boards_digest + number[JUDGED - 1]);
}

/* has the stretch that is over judged */
static void judge_stretch(void) {
    char *words[4 + BOARDS] = {"judge", path_of("yard", -1), path_of("radio", -1)}, line[512] = "";
    int ends[2], status = 0;
    for (int k = 0; k < board_count; k++) words[3 + k] = path_of("board", k);
    check_alive();
    make_pipe(ends);
    pid_t judge = start_child();
    if (judge == 0) become(program("judge"), words, 0, ends[1], NULL);
    close(ends[1]);
    FILE *said = fdopen(ends[0], "r");
    if (said == NULL || !read_line(said, line, sizeof line)) line[0] = '\0';
    if (said != NULL) fclose(said);
    while (waitpid(judge, &status, 0) < 0 && errno == EINTR) continue;
    int code = WIFEXITED(status) && !interrupted ? WEXITSTATUS(status) : 3;
    if (code != 0) fail(code == 1 ? 1 : 3, "%s", code == 1 ? "a board is not as document 01 has it" : "the stretch could not be judged");
    add_judged(line);
    stretches++;
}

/* how far it is: on a terminal always, otherwise at each tenth */
static void progress(const char *what, int board) {
    static long told = -1;
    bool terminal = isatty(2);
    long tenth = clock_now * 10 / ticks;
    if (!terminal && tenth == told) return;
    told = tenth;
    fprintf(stderr, "%sdrill: clock %ld of %ld, %u stretches judged, %llu messages shown; %s", terminal ? "\r" : "", clock_now, ticks,
            stretches, (unsigned long long)judged[1], what);
    if (board >= 0) fprintf(stderr, " %d", board);
    fputs(terminal ? "\x1b[K" : "\n", stderr);
}

/* a new stretch: logs and boards start empty, and X is the largest clock now */
static void begin_stretch(const char *how) {
    if (truncate(path_of("radio", -1), 0) != 0) fail(3, "the log cannot be emptied: %s", strerror(errno));
    for (int k = 0; k < board_count; k++)
        if (truncate(path_of("board", k), 0) != 0 || truncate(path_of("log", k), 0) != 0) fail(3, "a board cannot be emptied");
    tell_radio("stretch%s", how);
    clock_now = hear_radio("X");
}

static void run_for(long some) {
    tell_radio("run %ld", clock_now + some);
    clock_now = hear_radio("at");
}

/* reads a board's memory file; its length */
static size_t read_memory(int board, uint8_t *bytes) {
    FILE *file = fopen(path_of("memory", board), "r");
    size_t len = file == NULL ? 0 : fread(bytes, 1, MEMORY, file);
    if (file == NULL || len == 0) fail(3, "the memory of board %d cannot be read", board);
    fclose(file);
    return len;
}

/* writes over a board's memory file, which the station has mapped */
static void write_memory(int board, const uint8_t *bytes, size_t from, size_t len) {
    int file = open(path_of("memory", board), O_WRONLY | O_CLOEXEC);
    if (file < 0 || pwrite(file, bytes, len, (off_t)from) != (ssize_t)len) fail(3, "the memory of board %d cannot be written", board);
    close(file);
}

/* A kill in the middle of a run of calls; the yard goes on without that board, which then is started with what the kill left. It is away
 * for so long that its old clock cannot pass for a new one, so that the boards are the same wherever the kill fell. */
static void disturb_by_kill(int board) {
    static uint8_t bytes[MEMORY];
    const unsigned calling = 37; /* tables 35, last clock 2, then a byte that is 1 in a call of the library */
    judge_stretch();
    progress("kills board", board);
    tell_radio("strike %d", board);
    nanosleep(&(struct timespec){0, 1000 * (long)(50 + roll(&plan, 1000))}, NULL);
    end_process(&boards[board].station);
    end_process(&boards[board].clerk);
    hear_radio("struck");
    read_memory(board, bytes);
    torn += bytes[calling] == 1;
    tell_radio("drop %d", board);
    hear_radio("dropped");
    begin_stretch("");
    run_for(least_stretch + AWAY + (long)roll(&plan, 20));
    judge_stretch();
    progress("starts board", board);
    start_board(board);
    begin_stretch("");
}

/* is the next disturbance the one for the change? */
static bool is_aimed(void) { return aim > 0 && clock_now >= aim; }

/* random bytes over all of a board's memory or over a part of it, or what stood there some ticks before */
static void disturb_file(int board) {
    static uint8_t bytes[MEMORY];
    size_t len = read_memory(board, bytes), from = 0;
    uint32_t what = is_aimed() ? 1 : roll(&plan, 3);
    if (what == 0) run_for(1 + (long)roll(&plan, setup.wider_delta + 2 * setup.wider_epsilon));
    else roll_bytes(&plan, bytes, (unsigned)len);
    if (what == 2) {
        from = roll(&plan, 2) == 0 ? roll(&plan, 40) : 40 + roll(&plan, 100);
        len = 1 + roll(&plan, 64);
    }
    judge_stretch();
    progress("writes over the file of board", board);
    write_memory(board, bytes, from, len);
    begin_stretch("");
}

static void disturb_clock(int board) {
    judge_stretch();
    progress("gives wrong clocks to board", board);
    uint32_t epsilon = setup.wider_epsilon, most = setup.modulus - 2 * epsilon - 5, off = epsilon + 1 + roll(&plan, most - epsilon);
    uint32_t calls = 1 + roll(&plan, 4);
    tell_radio("wrong %d %u %u", board, off, calls);
    hear_radio("wrong");
    begin_stretch("");
}

/* one of the numbers below count, by chance, each once before one comes again */
struct bag {
    int numbers[BOARDS], left;
};
static int draw(struct bag *bag, int count) {
    if (bag->left == 0)
        for (; bag->left < count; bag->left++) bag->numbers[bag->left] = bag->left;
    int which = (int)roll(&plan, (uint32_t)bag->left), number = bag->numbers[which];
    bag->numbers[which] = bag->numbers[--bag->left];
    return number;
}

/* have all boards both pairs at this clock? */
static bool with_both(void) {
    for (int k = 0; k < board_count; k++)
        if (clock_now < both_from[k] || clock_now >= wider_from[k]) return false;
    return true;
}

/* the next disturbance: each kind in turn, and for each kind each board; the one for the change is a kill at it, or random bytes before it */
static void disturb(void) {
    static struct bag kinds, victims[KINDS];
    int kind = !is_aimed() ? draw(&kinds, KINDS) : how == AT ? KILL : FILE_OVER;
    int board = kind == FLOOD ? -1 : draw(&victims[kind], board_count);
    disturbed[kind]++;
    if (with_both()) disturbed_with_both[clock_now >= setup.change]++;
    if (kind == KILL) disturb_by_kill(board);
    else if (kind == FILE_OVER) disturb_file(board);
    else if (kind == WRONG) disturb_clock(board);
    else {
        judge_stretch();
        progress("floods all with junk", -1);
        begin_stretch(" flood");
    }
}

/* The change, in about the middle: where something is to be disturbed around it boards take up both pairs soon and leave them late, else
 * they take them up as late and leave them as soon as 02 has it; no two need do so at the same clock. */
static void choose_change(void) {
    long b, epsilon, late, soon;
    for (int k = 0; k < BOARDS; k++) both_from[k] = wider_from[k] = NEVER;
    setup.wider_epsilon = setup.epsilon;
    setup.wider_delta = setup.delta;
    setup.change = NEVER;
    if (how == BY_SEED) how = ticks < CHANGE_TICKS ? NONE : (int)roll(&plan, 3);
    if (how == NONE) return;
    setup.wider_epsilon += 1 + roll(&plan, 2);
    setup.wider_delta += roll(&plan, 5);
    setup.modulus += 3 * (setup.wider_delta - setup.delta) + 12 * (setup.wider_epsilon - setup.epsilon) + LONGER;
    setup.change = ticks / 2 + (long)roll(&plan, (uint32_t)ticks / 20);
    b = setup.modulus;
    epsilon = setup.wider_epsilon;
    late = how == CLEAR ? setup.change - (long)setup.delta - 2 * (long)setup.epsilon + 1 : setup.change - b + APART;
    soon = how == CLEAR ? setup.change + (long)setup.wider_delta + 3 * epsilon : setup.change + b - APART;
    for (int k = 0; k < board_count; k++) { /* the first two at the ends */
        both_from[k] = late - (long)(k == 0 ? 0 : k == 1 ? APART : roll(&plan, APART));
        wider_from[k] = soon + (long)(k == 0 ? 0 : k == 1 ? APART : roll(&plan, APART));
    }
    if (how == AT) aim = setup.change;
    if (how == BEFORE) aim = setup.change - 1 - (long)roll(&plan, setup.wider_delta + 3 * setup.wider_epsilon);
}

/* limits of the yard, from the seed */
static void choose_setup(void) {
    plan = die_for(seed, FOR_PLAN, 0, 0);
    setup.epsilon = 2 + roll(&plan, 3);
    setup.delta = setup.epsilon + 1 + roll(&plan, 6);
    setup.modulus = 3 * setup.delta + 12 * setup.epsilon + 2 * AWAY + roll(&plan, 60);
    board_count = (int)setup.n + 1;
    choose_change();
    least_stretch = 2 * (long)setup.wider_delta + 5 * (long)setup.wider_epsilon;
}

/* how long a disturbance takes at most, until the last stretch that it starts */
static long longest_disturbance(void) { return least_stretch + AWAY + APART + 4 * (long)setup.wider_epsilon; }

/* No board's setup may change until its last clock is past X + 2 delta + 3 epsilon, of the wider pair: where one would in the freeze of what a
 * disturbance starts now, runs on until all have changed. */
static void wait_for_changes(const long *changes) {
    long first = changes[0], last = changes[0], epsilon = setup.wider_epsilon;
    for (int k = 1; k < board_count; k++) {
        if (changes[k] < first) first = changes[k];
        if (changes[k] > last) last = changes[k];
    }
    long frozen = clock_now + longest_disturbance() + 2 * (long)setup.wider_delta + 5 * epsilon;
    if (last != NEVER && frozen >= first && clock_now <= last + epsilon) run_for(last + 2 * epsilon - clock_now);
}

/* how long the next stretch is: by chance, but not past the clock at which a disturbance is wanted */
static long next_stretch(long spread) {
    long some = least_stretch + (long)roll(&plan, (uint32_t)spread);
    bool is_near = clock_now < aim && clock_now + some + longest_disturbance() >= aim;
    return is_near ? aim - clock_now : some;
}

static void drill(void) {
    long last = least_stretch + (ticks < 2500 ? ticks / 10 : 250), spread = ticks < 9600 ? ticks / 24 : 400;
    start_radio();
    for (int k = 0; k < board_count; k++) start_board(k);
    started_at = seconds();
    begin_stretch("");
    while (clock_now < ticks - last) {
        run_for(next_stretch(spread));
        wait_for_changes(both_from);
        wait_for_changes(wider_from);
        bool aimed = is_aimed();
        disturb();
        if (aimed) aim = 0;
    }
    run_for(ticks - clock_now > least_stretch ? ticks - clock_now : least_stretch + 1);
    judge_stretch();
    tell_radio("figures");
    hear_radio("figures");
    char *end = answer + strlen("figures");
    for (int k = 0; k < FIGURES; k++) figures[k] = strtoull(end, &end, 10);
    if (judged[1] < (uint64_t)ticks * setup.n / 50) fail(3, "too few messages were shown to say anything of the boards");
}

/* the radio ends the yard; each program must end well */
static void end_well(pid_t *process, const char *what, int board) {
    int status = 0;
    while (waitpid(*process, &status, 0) < 0)
        if (errno != EINTR || interrupted) fail(3, "%s %d does not end", what, board);
    *process = 0;
    if (status != 0) fail(3, "%s %d does not end well", what, board);
}

static void end_yard(void) {
    tell_radio("end");
    end_well(&radio, "radio", 0);
    for (int k = 0; k < board_count; k++) end_well(&boards[k].station, "board", k);
}

/* how well each board heard the stations at the end, as the last lines of its log say */
static void report_hearing(void) {
    for (int k = 0; k < board_count; k++) {
        FILE *log = fopen(path_of("log", k), "r");
        char line[512];
        const char *hears;
        while (log != NULL && fgets(line, sizeof line, log) != NULL)
            if (strncmp(line, "clock ", 6) == 0 && (hears = strstr(line, ": hears ")) != NULL) printf("board %d%s", k, hears + 1);
        if (log != NULL) fclose(log);
    }
}

/* what was seen: nine lines, one more where the limits changed, those of how the boards hear each other, and that they agree */
static void report(double took) {
    const uint64_t *f = figures, *j = judged;
    typedef unsigned long long u;
    if (isatty(2)) fputs("\r\x1b[K", stderr);
    printf("drill: seed %llu, %u station%s and an observer, epsilon %u, delta %u, B %u, up to clock %ld in %.1f s\n", (u)seed, setup.n,
           setup.n == 1 ? "" : "s", setup.epsilon, setup.delta, setup.modulus, clock_now, took);
    printf("calls: %llu, of them %llu with a clock that was nudged; no two clocks more than %u apart\n", (u)f[8], (u)f[9], setup.wider_epsilon);
    printf("disturbed: %u kills in the middle of calls (%u inside the library's) and as many starts, %u files written over, %u clocks set "
           "wrong, %u floods\n", disturbed[KILL], torn, disturbed[FILE_OVER], disturbed[WRONG], disturbed[FLOOD]);
    printf("in the air: %llu messages sent, %llu a second; heard %llu times, %llu of these again, %llu times lost, up to %llu of %u ticks "
           "late\n", (u)f[0], (u)((double)f[0] / took), (u)f[1], (u)f[2], (u)f[3], (u)f[7], setup.wider_delta);
    printf("not to be heard: %llu older frames, %llu of junk, %llu of noise; stations dropped %llu datagrams, and asked %llu times again\n",
           (u)f[4], (u)f[5], (u)f[6], (u)f[11], (u)f[12]);
    printf("stations mended: tables %llu times, shelf %llu, both %llu; refused by 10: %llu, 11: %llu, 12: %llu, 13: %llu, 14: %llu, 15: %llu, "
           "16: %llu\n", (u)j[6], (u)j[7], (u)j[8], (u)j[9], (u)j[10], (u)j[11], (u)j[12], (u)j[13], (u)j[14], (u)j[15]);
    if (setup.change != NEVER)
        printf("changed: epsilon %u, delta %u from clock %ld on (%s); boards changed their setups %llu times, disturbed with both pairs %u "
               "times before it and %u from it on; narrow messages shown from it on %llu times\n", setup.wider_epsilon, setup.wider_delta,
               setup.change, hows[how], (u)j[16], disturbed_with_both[0], disturbed_with_both[1], (u)j[17]);
    printf("judged: %u stretches, each from X + delta + 3 epsilon on: %llu messages covered\n", stretches, (u)j[0]);
    printf("shown: %llu times, each heard message once on its board and when due, %llu of these past the due clock, by a nudge\n", (u)j[1],
           (u)j[2]);
    printf("causes first: %llu times; two boards show one message: %llu times, always in one order\n", (u)j[3], (u)j[4]);
    report_hearing();
    printf("boards agree: %016llx\n", (u)boards_digest);
}

/* how the change is to fall, by its word */
static int how_of(const char *word) {
    for (int k = AT; k <= NONE; k++)
        if (strcmp(hows[k], word) == 0) return k;
    die(NAME, 2, "--change must be at, before, clear or none, and is '%s'", word);
}

static void read_options(int argc, char **argv) {
    setup.n = 4;
    for (int k = 1; k < argc; k++) {
        if (strcmp(argv[k], "--help") == 0 || strcmp(argv[k], "-h") == 0) exit(fputs(help, stdout) < 0);
        if (k + 1 == argc) die(NAME, 2, "'%s' is not known here, or has no value: ./drill --help", argv[k]);
        if (strcmp(argv[k], "--seed") == 0) seed = number_of(NAME, "--seed", argv[++k], 0, UINT64_MAX);
        else if (strcmp(argv[k], "--ticks") == 0) ticks = (long)number_of(NAME, "--ticks", argv[++k], LEAST_TICKS, 1000000000);
        else if (strcmp(argv[k], "--stations") == 0) setup.n = (uint32_t)number_of(NAME, "--stations", argv[++k], 1, 16);
        else if (strcmp(argv[k], "--change") == 0) how = how_of(argv[++k]);
        else if (strcmp(argv[k], "--board") == 0) other = argv[++k];
        else if (strcmp(argv[k], "--keep") == 0) keep = snprintf(folder, sizeof folder, "%s", argv[++k]) > 0;
        else die(NAME, 2, "'%s' is not known here: ./drill --help", argv[k]);
    }
    if (other != NULL && access(other, X_OK) != 0) die(NAME, 2, "%s is no program", other);
    if (how < NONE && ticks < CHANGE_TICKS) die(NAME, 2, "a change needs %d ticks or more", CHANGE_TICKS);
}

/* a folder of its own for all files */
static void make_folder(const char *self) {
    const char *above = getenv("TMPDIR"), *slash = strrchr(self, '/');
    snprintf(programs, sizeof programs, "%.*s", slash == NULL ? 0 : (int)(slash - self) + 1, self);
    if (!keep) snprintf(folder, sizeof folder, "%.200s/drill.XXXXXX", above == NULL || *above == '\0' ? P_tmpdir : above);
    if (keep ? mkdir(folder, 0700) != 0 : mkdtemp(folder) == NULL) die(NAME, 3, "%s cannot be made: %s", folder, strerror(errno));
    is_made = true;
    atexit(clean_up);
}

/* the date as a number: 20261116 */
static uint64_t seed_of_the_day(void) {
    time_t now = time(NULL);
    const struct tm *day = gmtime(&now);
    return day == NULL ? 1 : (uint64_t)(10000 * (day->tm_year + 1900) + 100 * (day->tm_mon + 1) + day->tm_mday);
}

int main(int argc, char **argv) {
    struct sigaction on_end = {.sa_handler = interrupt};
    seed = seed_of_the_day();
    read_options(argc, argv);
    sigaction(SIGINT, &on_end, NULL);
    sigaction(SIGTERM, &on_end, NULL);
    sigaction(SIGHUP, &on_end, NULL);
    signal(SIGPIPE, SIG_IGN);
    make_folder(argv[0]);
    choose_setup();
    drill();
    double took = seconds() - started_at;
    end_yard();
    report(took);
    return fflush(stdout) == 0 ? 0 : 3;
}
