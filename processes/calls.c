#include "calls.h"

struct limits limits_at(const struct setup *setup, uint32_t own, long clock) {
    bool old = clock < setup->both_from, wider = clock >= setup->wider_from;
    struct limits limits = {!old && !wider,
                            {setup->n, wider ? setup->wider_epsilon : setup->epsilon, wider ? setup->wider_delta : setup->delta,
                             setup->modulus, own, old ? setup->epsilon : setup->wider_epsilon, old ? setup->delta : setup->wider_delta, 0, 0}};
    if (limits.both) yarngravel_set_change(&limits.setup, (uint64_t)clock, (uint64_t)setup->change);
    return limits;
}

const char *limits_word(const struct setup *setup, long clock) {
    return clock < setup->both_from ? "old" : clock < setup->wider_from ? "both" : "wider";
}

uint64_t call_tick(const struct limits *limits, uint32_t clock, uint8_t tables[YARNGRAVEL_TABLES], uint8_t *shelf, const uint8_t *bundle,
                   size_t bundle_len, bool send, const uint8_t *ticket, size_t ticket_len, uint8_t *outgoing, size_t outgoing_len,
                   uint8_t *verdicts, uint8_t *handout, size_t handout_len) {
    const struct yarngravel_setup *s = &limits->setup;
    size_t shelf_len = yarngravel_shelf_size_in(s);
    if (limits->both)
        return yarngravel_tick_in(s, clock, tables, shelf, shelf_len, bundle, bundle_len, send, ticket, ticket_len, outgoing, outgoing_len,
                                  verdicts, YARNGRAVEL_VERDICTS, handout, handout_len);
    return yarngravel_tick(s->n, s->epsilon, s->delta, s->modulus, s->own, clock, tables, shelf, shelf_len, bundle, bundle_len, send, ticket,
                           ticket_len, outgoing, outgoing_len, verdicts, YARNGRAVEL_VERDICTS, handout, handout_len);
}

uint64_t call_listen(const struct limits *limits, uint32_t clock, uint8_t last[YARNGRAVEL_LAST], uint8_t *shelf, const uint8_t *bundle,
                     size_t bundle_len, uint8_t *verdicts, uint8_t *handout, size_t handout_len) {
    const struct yarngravel_setup *s = &limits->setup;
    size_t shelf_len = yarngravel_shelf_size_in(s);
    if (limits->both)
        return yarngravel_listen_in(s, clock, last, shelf, shelf_len, bundle, bundle_len, verdicts, YARNGRAVEL_VERDICTS, handout, handout_len);
    return yarngravel_listen(s->n, s->epsilon, s->delta, s->modulus, clock, last, shelf, shelf_len, bundle, bundle_len, verdicts,
                             YARNGRAVEL_VERDICTS, handout, handout_len);
}

uint64_t call_fresh(const struct limits *limits, uint32_t clock, uint8_t tables[YARNGRAVEL_TABLES]) {
    const struct yarngravel_setup *s = &limits->setup;
    if (limits->both) return yarngravel_fresh_in(s, clock, tables);
    return yarngravel_fresh(s->n, s->epsilon, s->delta, s->modulus, s->own, clock, tables);
}

uint64_t call_fresh_last(const struct limits *limits, uint32_t clock, uint8_t last[YARNGRAVEL_LAST]) {
    const struct yarngravel_setup *s = &limits->setup;
    return yarngravel_fresh_last(s->n, s->epsilon, s->delta, s->modulus, clock, last);
}

uint64_t call_words(const struct limits *limits, const uint8_t *bundle, size_t bundle_len, const uint8_t *verdicts, uint8_t *text,
                    size_t text_len) {
    const struct yarngravel_setup *s = &limits->setup;
    if (limits->both) return yarngravel_words_in(s, bundle, bundle_len, verdicts, YARNGRAVEL_VERDICTS, text, text_len);
    return yarngravel_words(s->n, s->epsilon, s->delta, s->modulus, s->own, bundle, bundle_len, verdicts, YARNGRAVEL_VERDICTS, text, text_len);
}

uint64_t call_compare(const struct limits *limits, uint32_t clock, const uint8_t *first, size_t first_len, const uint8_t *second,
                      size_t second_len) {
    const struct yarngravel_setup *s = &limits->setup;
    if (limits->both) return yarngravel_compare_in(s, clock, first, first_len, second, second_len);
    return yarngravel_compare(s->n, s->epsilon, s->delta, s->modulus, s->own, clock, first, first_len, second, second_len);
}

uint64_t call_read(const struct limits *limits, const uint8_t *frame, size_t frame_len, uint8_t tables[YARNGRAVEL_TABLES]) {
    const struct yarngravel_setup *s = &limits->setup;
    if (limits->both) return yarngravel_read_in(s, frame, frame_len, tables);
    return yarngravel_read(s->n, s->epsilon, s->delta, s->modulus, s->own, frame, frame_len, tables);
}
