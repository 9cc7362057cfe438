/* The setup of a yard, from a small text file: a word and its value on each line, # before a comment. */
#ifndef SETUP_H
#define SETUP_H

#include <limits.h>
#include <stdbool.h>
#include <stdint.h>

struct setup {
    uint32_t n, epsilon, delta, modulus;
    uint32_t wider_epsilon, wider_delta; /* the limits from the change on; the same as the others where there is none */
    long change;                         /* 02's V, a clock that is not reduced; NEVER for none */
    long both_from, wider_from;          /* a station's calls have both pairs, the wider pair alone, from these clocks on */
    uint32_t own;      /* a station's number; n for an observer */
    uint16_t radio;    /* the radio's port on the loopback address */
    char memory[256];  /* the file for tables, shelf and last clock */
};

#define NEVER LONG_MAX

/* the limits at a clock */
static inline long epsilon_at(const struct setup *setup, long clock) { return clock < setup->change ? setup->epsilon : setup->wider_epsilon; }
static inline long delta_at(const struct setup *setup, long clock) { return clock < setup->change ? setup->delta : setup->wider_delta; }

/* Reads a setup. Whoever needs a station's lines (own or observer, radio, memory) says so. Ends the program with status 2 and a
 * message that starts with its name where the file cannot be read, or has a wrong line or one too few. */
struct setup read_setup(const char *program, const char *path, bool station);

/* Ends the program with a message: its name, and what stands in the form that printf takes. */
void die(const char *program, int status, const char *form, ...) __attribute__((noreturn, format(printf, 3, 4)));

/* The number that a text is, from least to most; ends the program with status 2 and a message that names what it is for. */
uint64_t number_of(const char *program, const char *what, const char *text, uint64_t least, uint64_t most);

#endif
