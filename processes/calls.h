/* The library's calls with the setup that a station, or an observer, has at a clock: a plain one, or one with both pairs of limits while
 * the yard goes to wider ones (02, 2.10). What they take and answer is in yarngravel.h. */
#ifndef CALLS_H
#define CALLS_H

#include "setup.h"
#include "yarngravel.h"

/* the setup of a call; of a plain one both pairs are the same */
struct limits {
    bool both;
    struct yarngravel_setup setup;
};

/* The setup of a call for a clock that is not reduced: the old pair, both from both_from on, the wider one from wider_from on. An observer's
 * own number may be any. */
struct limits limits_at(const struct setup *setup, uint32_t own, long clock);

/* its word, for the board: old, both or wider */
const char *limits_word(const struct setup *setup, long clock);

uint64_t call_tick(const struct limits *limits, uint32_t clock, uint8_t tables[YARNGRAVEL_TABLES], uint8_t *shelf, const uint8_t *bundle,
                   size_t bundle_len, bool send, const uint8_t *ticket, size_t ticket_len, uint8_t *outgoing, size_t outgoing_len,
                   uint8_t *verdicts, uint8_t *handout, size_t handout_len);
uint64_t call_listen(const struct limits *limits, uint32_t clock, uint8_t last[YARNGRAVEL_LAST], uint8_t *shelf, const uint8_t *bundle,
                     size_t bundle_len, uint8_t *verdicts, uint8_t *handout, size_t handout_len);
uint64_t call_fresh(const struct limits *limits, uint32_t clock, uint8_t tables[YARNGRAVEL_TABLES]);
uint64_t call_fresh_last(const struct limits *limits, uint32_t clock, uint8_t last[YARNGRAVEL_LAST]);
uint64_t call_words(const struct limits *limits, const uint8_t *bundle, size_t bundle_len, const uint8_t *verdicts, uint8_t *text,
                    size_t text_len);
uint64_t call_compare(const struct limits *limits, uint32_t clock, const uint8_t *first, size_t first_len, const uint8_t *second,
                      size_t second_len);
uint64_t call_read(const struct limits *limits, const uint8_t *frame, size_t frame_len, uint8_t tables[YARNGRAVEL_TABLES]);

#endif
