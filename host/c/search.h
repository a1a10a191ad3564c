/* The parts of the worked host. */
#ifndef SEARCH_H
#define SEARCH_H

#include <stdbool.h>

#include "checked.h"

enum { BLOCKS = 16, NODES = 72, MOST_NODES = 2048, PLACES = SPLITTER_MAX_PLACES, WORKERS = 3, OWN_WORDS = 108 };

/* A card: where its bad blocks are, which spares may stand for each, and the first block from which on all pass their erase test. */
struct card {
    unsigned blocks, bad_blocks, first_bad, bad_apart, spares, first_spare, spares_apart, strong, branches;
};

/* 16 blocks: the search that is told, saved and read back. 240 blocks, 80 of them bad: it needs more than 64 frames. */
extern const struct card small_card, large_card;

/* The blocks as the factory marked them. */
const uint32_t *factory_marks(const struct card *card);

/* The run and its lent memory. */
extern struct checked run;

/* Lends the state, a table of so many places, and pool and work for so many nodes, at most MOST_NODES. */
void lend(unsigned places, unsigned nodes);

/* Which branches sync before they return: all, Main alone, or none. The others return at once and wait as returning, as Cilk has it. */
enum syncs { NONE_SYNCS, MAIN_SYNCS, ALL_SYNC };

/* The search so far. */
struct search {
    bool told, finished;
    enum syncs syncs;
    const struct card *card;
    unsigned workers, made, turn, waits, given_up, least_free, layouts, least_cost;
    unsigned deepest, most_live; /* frames */
    const struct branch *best;
};
extern struct search search;

/* Begins the search, takes a turn of each worker, prints what was found and what was folded. */
void begin(const struct card *card, unsigned workers, unsigned places, unsigned nodes, enum syncs syncs, bool told);
void take_turns(void);
void tell_result(void);

/* The totals as a line of splitrun has them. */
void print_totals(const struct splitter_totals *totals);

/* The host's own part of the search as words, at most OWN_WORDS; and back, once the run has been read. */
void put_search(uint32_t *words);
void get_search(const uint32_t *words, bool told);

/* One shift: goes on from the newest image in the folder that can be read, into a pool of so many nodes more; saves every third turn. */
void work_a_shift(const char *folder, unsigned turns, unsigned more);

/* How many cores the searches can keep busy, from reports of their tapes. */
void show_cores(void);

/* Document 01's example, run as a tape. */
void show_tape(void);

/* Each refusal once, and what a host does about some. */
void show_refusals(void);

#endif
