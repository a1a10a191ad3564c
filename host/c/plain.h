/* The plain machine of documents 01 and 02: a full list of values for each frame, free nodes by counting the
 * distinct triples, views in the order of the live frames, a clock for each frame. The worked hosts compare the library's answers and
 * reports with it. A product needs no such thing. */
#ifndef PLAIN_H
#define PLAIN_H

#include "splitter.h"

/* What was folded into the reducers: a frame's view of them, and the totals. */
struct plain_view {
    uint32_t sum, min, multiplier, addend;
};

struct plain_frame {
    int live, suspended, returning;           /* one that waits as returning is suspended too */
    unsigned parent, depth, children;         /* Main is its own parent */
    unsigned born;                            /* which spawn made it; Main is 0 */
    struct plain_view view;
    uint64_t clock, latest;                   /* its own clock, and the latest of its ended children's */
    uint32_t values[SPLITTER_MAX_SPLITTERS];
    unsigned written[SPLITTER_MAX_SPLITTERS]; /* which write was the last to each splitter; the start is write 0 */
};

struct plain {
    unsigned workers, splitters, places, nodes, writes, spawns, live;
    struct plain_view totals; /* zeros while Main lives */
    uint64_t work, span;      /* the span is 0 while Main lives */
    struct plain_frame frames[SPLITTER_MAX_PLACES];
    unsigned deques[SPLITTER_MAX_WORKERS][SPLITTER_MAX_PLACES]; /* from the top */
    unsigned lengths[SPLITTER_MAX_WORKERS];
};

/* What splitter_start answers: SPLITTER_OK or a refusal. */
uint32_t plain_start(struct plain *machine, uint32_t workers, const uint32_t *values, splitter_len values_len,
                     splitter_len places, splitter_len nodes);

/* What splitter_step answers to a sound state and a long enough work slice: 101 to 107, or a refusal 7 to 13, 15, 20, 16. */
uint64_t plain_step(struct plain *machine, uint32_t kind, uint32_t worker, uint32_t field, uint32_t value);

#endif
