#include "setup.h"

#include <errno.h>
#include <stdarg.h>
#include <stdio.h>
#include <stdlib.h>
#include <string.h>

void die(const char *program, int status, const char *form, ...) {
    va_list arguments;
    fprintf(stderr, "%s: ", program);
    va_start(arguments, form);
    vfprintf(stderr, form, arguments);
    va_end(arguments);
    fputc('\n', stderr);
    exit(status);
}

uint64_t number_of(const char *program, const char *what, const char *text, uint64_t least, uint64_t most) {
    char *end;
    errno = 0;
    unsigned long long number = strtoull(text, &end, 10);
    if (text[0] < '0' || text[0] > '9' || *end != '\0' || errno != 0 || number < least || number > most)
        die(program, 2, "%s must be a number from %llu to %llu, and is '%s'", what, (unsigned long long)least,
            (unsigned long long)most, text);
    return number;
}

/* the lines that a setup may have; a bit for each that was there */
enum { N, EPSILON, DELTA, MODULUS, OWN, RADIO, MEMORY, OBSERVER, WIDER_EPSILON, WIDER_DELTA, CHANGE, BOTH_FROM, WIDER_FROM, WORDS };
static const char *const words[] = {"n", "epsilon", "delta", "modulus", "own", "radio", "memory", "observer", "wider_epsilon",
                                    "wider_delta", "change", "both_from", "wider_from"};

static int word_number(const char *word) {
    for (int k = 0; k < WORDS; k++)
        if (strcmp(words[k], word) == 0) return k;
    return -1;
}

/* takes over one line that has a known word */
static void take(const char *program, struct setup *setup, int word, const char *what, const char *value) {
    switch (word) {
    case N: setup->n = (uint32_t)number_of(program, what, value, 1, 16); break;
    case EPSILON: setup->epsilon = (uint32_t)number_of(program, what, value, 1, 16); break;
    case DELTA: setup->delta = (uint32_t)number_of(program, what, value, 0, 64); break;
    case MODULUS: setup->modulus = (uint32_t)number_of(program, what, value, 7, 65535); break;
    case OWN: setup->own = (uint32_t)number_of(program, what, value, 0, 15); break;
    case WIDER_EPSILON: setup->wider_epsilon = (uint32_t)number_of(program, what, value, 1, 16); break;
    case WIDER_DELTA: setup->wider_delta = (uint32_t)number_of(program, what, value, 0, 64); break;
    case CHANGE: setup->change = (long)number_of(program, what, value, 0, 1000000000); break;
    case BOTH_FROM: setup->both_from = (long)number_of(program, what, value, 0, 1000000000); break;
    case WIDER_FROM: setup->wider_from = (long)number_of(program, what, value, 0, 1000000000); break;
    case RADIO: setup->radio = (uint16_t)number_of(program, what, value, 1, 65535); break;
    case MEMORY:
        if (strlen(value) >= sizeof setup->memory) die(program, 2, "%s is too long a name", what);
        strcpy(setup->memory, value);
    }
}

/* the lines of a change of limits: all or none, a station's with those that say when its setups change, and none smaller than before */
static void complete_change(const char *program, const char *path, struct setup *setup, unsigned seen, bool station) {
    int last = station ? WIDER_FROM : CHANGE;
    if (seen >> WIDER_EPSILON == 0) {
        setup->wider_epsilon = setup->epsilon;
        setup->wider_delta = setup->delta;
        setup->change = setup->both_from = setup->wider_from = NEVER;
        return;
    }
    for (int k = WIDER_EPSILON; k <= last; k++)
        if (!(seen >> k & 1)) die(program, 2, "%s has no line '%s', and others of a change", path, words[k]);
    if (setup->wider_epsilon < setup->epsilon || setup->wider_delta < setup->delta)
        die(program, 2, "%s: the wider limits must not be smaller than the others", path);
}

/* asks that no line is missing and that the numbers fit each other */
static void complete(const char *program, const char *path, const struct setup *setup, unsigned seen, bool station) {
    int last = station ? MEMORY : MODULUS;
    for (int k = 0; k <= last; k++)
        if (!(seen >> k & 1)) die(program, 2, "%s has no line '%s'%s", path, words[k], k == OWN ? ", nor 'observer'" : "");
    if (setup->modulus < 6 * setup->wider_epsilon + setup->wider_delta + 1)
        die(program, 2, "%s: the modulus must be at least 6 epsilon + delta + 1, %u", path, 6 * setup->wider_epsilon + setup->wider_delta + 1);
    if (station && setup->own >= setup->n && !(seen >> OBSERVER & 1))
        die(program, 2, "%s: own must be below n, %u", path, setup->n);
}

/* takes the blanks at the end of a line away */
static void cut_blanks(char *line) {
    for (size_t len = strlen(line); len > 0 && strchr(" \t\r", line[len - 1]) != NULL; len--) line[len - 1] = '\0';
}

struct setup read_setup(const char *program, const char *path, bool station) {
    struct setup setup = {0};
    FILE *file = fopen(path, "r");
    char line[512], word[32], value[256], what[320];
    unsigned seen = 0;
    if (file == NULL) die(program, 2, "%s cannot be read: %s", path, strerror(errno));
    for (int number = 1; fgets(line, sizeof line, file) != NULL; number++) {
        line[strcspn(line, "#\n")] = '\0';
        cut_blanks(line);
        int parts = sscanf(line, "%31s %255[^\n]", word, value);
        if (parts < 1) continue;
        int known = word_number(word);
        if (known < 0) die(program, 2, "%s:%d: '%s' is no word of a setup", path, number, word);
        if (parts < 2 && known != OBSERVER) die(program, 2, "%s:%d: '%s' has no value", path, number, word);
        snprintf(what, sizeof what, "%.200s:%d: %s", path, number, word);
        if (known != OBSERVER) take(program, &setup, known, what, value);
        seen |= 1u << known | (known == OBSERVER ? 1u << OWN : 0);
    }
    fclose(file);
    if (seen >> OBSERVER & 1) setup.own = setup.n;
    complete_change(program, path, &setup, seen, station);
    complete(program, path, &setup, seen, station);
    return setup;
}
