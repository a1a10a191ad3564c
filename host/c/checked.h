/* The library's calls, each compared with the plain machine's. An answer that differs is a surprise: a line, and exit status 1.
 * A product calls splitter_spawn and its fellows directly. */
#ifndef CHECKED_H
#define CHECKED_H

#include "plain.h"

/* A run: the memory lent to the library, and the plain machine beside it. A run read from an image may be alone: a plain machine in
 * another process knew it. Its log, if there is one, gets a record for each step since the start. */
struct checked {
    struct splitter_lent lent;
    struct plain plain;
    int alone;
    uint8_t *log;
    size_t log_len, log_room; /* in bytes */
};

/* Says what is wrong, and exits. */
void surprise(const char *what);

/* The answer that was got, which must be the one expected. */
uint64_t same(const char *what, uint64_t got, uint64_t wanted);

uint32_t checked_start(struct checked *run, unsigned workers, const uint32_t *values, size_t values_len);
uint64_t checked_spawn(struct checked *run, unsigned worker);
uint64_t checked_return(struct checked *run, unsigned worker);
uint64_t checked_steal(struct checked *run, unsigned worker, unsigned victim);
uint64_t checked_sync(struct checked *run, unsigned worker);
uint64_t checked_read(struct checked *run, unsigned worker, unsigned splitter);
uint64_t checked_write(struct checked *run, unsigned worker, unsigned splitter, uint32_t value);
uint64_t checked_fold(struct checked *run, unsigned worker, unsigned reducer, uint32_t value);

/* The totals of a run whose Main has returned. */
struct splitter_totals checked_totals(const struct checked *run);

/* A tape of whole records, with two answer words for each. */
void checked_tape(struct checked *run, const uint8_t *tape, size_t tape_len, uint32_t *answers, size_t answers_len);

/* The report of such a tape, run from a start, with a long enough work slice and two clock words for each place. */
uint32_t checked_report(struct checked *run, unsigned workers, const uint32_t *values, size_t values_len,
                        const uint8_t *tape, size_t tape_len, uint32_t *answers, size_t answers_len,
                        uint64_t *clocks, struct splitter_parallelism *report);

#endif
