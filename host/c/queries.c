/* The header's queries. On random runs they give what the plain machine has; on random words they read nothing outside state and table,
 * which the sanitizers see (run compiles this with them). Usage: queries [RUNS [SEED]]. */
#include <stdio.h>
#include <stdlib.h>

#include "checked.h"

enum { NODES = 256, PLACES = 90, SPLITTERS = 7, STEPS = 300, STATES = 5000 };

static struct splitter_state state;
static struct splitter_frame table[PLACES];
static uint32_t pool[NODES * SPLITTER_NODE_WORDS], work[NODES];
static const uint32_t values[SPLITTERS];
static struct checked run = {.lent = {&state, table, PLACES, pool, NODES * SPLITTER_NODE_WORDS, work, NODES}};
static unsigned long asked;

static uint32_t seed;

/* Xorshift: a number below the bound. */
static uint32_t any(uint32_t below) {
    seed ^= seed << 13;
    seed ^= seed >> 17;
    seed ^= seed << 5;
    return (uint32_t)((uint64_t)seed * below >> 32);
}

/* The depth of the frame that the worker executes, as the plain machine has it. */
static uint32_t plain_bottom_depth(unsigned worker) {
    unsigned length = run.plain.lengths[worker];
    return length == 0 ? SPLITTER_NONE : run.plain.frames[run.plain.deques[worker][length - 1]].depth;
}

/* The totals, zeros while Main lives. */
static void compare_totals(void) {
    struct splitter_totals totals;
    same("totals are there", splitter_lent_get_totals(&run.lent, &totals), run.plain.live == 0);
    same("sum", totals.sum, run.plain.totals.sum);
    same("minimum", totals.min, run.plain.totals.min);
    same("multiplier", totals.multiplier, run.plain.totals.multiplier);
    same("addend", totals.addend, run.plain.totals.addend);
}

/* Each query, over lent memory, against the plain machine. */
static void compare(void) {
    const struct splitter_lent *lent = &run.lent;
    compare_totals();
    same("workers", splitter_lent_workers(lent), run.plain.workers);
    same("splitters", splitter_lent_splitters(lent), run.plain.splitters);
    same("nodes", splitter_lent_nodes(lent), run.plain.nodes);
    same("places", splitter_lent_places(lent), run.plain.places);
    same("live frames", splitter_lent_live_frames(lent), run.plain.live);
    same("Main has returned", splitter_lent_main_returned(lent), run.plain.live == 0);
    for (unsigned worker = 0; worker < SPLITTER_MAX_WORKERS; worker++) {
        same("deque length", splitter_lent_deque_length(lent, worker), run.plain.lengths[worker]);
        same("bottom depth", splitter_lent_bottom_depth(lent, worker), plain_bottom_depth(worker));
    }
    asked += 1;
}

/* A write answers the free nodes left, and so does the query. */
static void write_any(unsigned worker) {
    uint64_t answer = checked_write(&run, worker, any(SPLITTERS), any(100));
    if (!splitter_answer_refused(answer)) {
        same("free nodes", splitter_lent_free_nodes(&run.lent), splitter_answer_number(answer));
    }
}

static void step(void) {
    unsigned worker = any(run.plain.workers);
    switch (any(9)) {
    case 0: checked_return(&run, worker); break;
    case 8: checked_fold(&run, worker, any(4), any(UINT32_MAX) | 65536); break; /* a map with an odd multiplier loses no earlier one */
    case 1:
    case 2: checked_steal(&run, worker, any(run.plain.workers)); break;
    case 3: checked_sync(&run, worker); break;
    case 4: write_any(worker); break;
    default: checked_spawn(&run, worker); break;
    }
}

/* Every worker returns, until Main has: the queries lead the way. */
static void end_run(void) {
    for (unsigned round = 0; !splitter_lent_main_returned(&run.lent); round++) {
        if (round > PLACES) {
            surprise("Main does not return");
        }
        for (unsigned worker = 0; worker < splitter_lent_workers(&run.lent); worker++) {
            if (splitter_lent_deque_length(&run.lent, worker) != 0) {
                checked_return(&run, worker);
                compare();
            }
        }
    }
    same("all nodes are free", splitter_lent_free_nodes(&run.lent), NODES);
    same("the run is over", splitter_spawn(&run.lent, 0), SPLITTER_RUN_IS_OVER);
}

static void random_run(void) {
    same("start", checked_start(&run, 1 + any(SPLITTER_MAX_WORKERS), values, SPLITTERS), SPLITTER_OK);
    same("free nodes", splitter_lent_free_nodes(&run.lent), NODES - splitter_tree_nodes(SPLITTERS));
    compare();
    for (unsigned i = 0; i < STEPS && run.plain.live != 0; i++) {
        step();
        compare();
    }
    end_run();
}

/* A word: small, at an edge, or any. */
static uint32_t any_word(void) {
    static const uint32_t edges[] = {0, 1, 255, 256, 257, 2055, 2056, 16711936, 1073741824, 2147483648u, SPLITTER_NONE};
    switch (any(4)) {
    case 0: return edges[any(sizeof edges / sizeof edges[0])];
    case 1: return any(UINT32_MAX);
    default: return any(260);
    }
}

static void in_bounds(const struct splitter_state *words, const struct splitter_frame *frames, splitter_len places, uint32_t worker) {
    uint32_t length = splitter_deque_length(words, worker), depth = splitter_bottom_depth(words, frames, places, worker);
    if (length > SPLITTER_DEQUE_PLACES || (length == 0 && depth != SPLITTER_NONE) || (worker >= SPLITTER_MAX_WORKERS && length != 0)) {
        surprise("a deque of random words");
    }
}

/* A block of its own, of any words. */
static void *random_block(size_t bytes) {
    uint32_t *words = (uint32_t *)malloc(bytes);
    if (words == NULL && bytes > 0) {
        surprise("no memory");
    }
    for (size_t i = 0; i < bytes / sizeof *words; i++) {
        words[i] = any_word();
    }
    return words;
}

/* All queries of a state and a table of any words and any length. */
static void random_words(void) {
    const splitter_len places = any(SPLITTER_MAX_PLACES + 10);
    struct splitter_state *words = (struct splitter_state *)random_block(sizeof *words);
    struct splitter_frame *frames = (struct splitter_frame *)random_block((size_t)places * sizeof *frames);
    same("workers", splitter_workers(words), words->numbers[0]);
    same("splitters", splitter_splitters(words), words->numbers[1]);
    same("nodes", splitter_nodes(words), words->numbers[2]);
    same("places", splitter_places(words), words->numbers[9]);
    if (splitter_live_frames(frames, places) > places || (splitter_main_returned(words) && words->deques[0] != 0)) {
        surprise("frames of random words");
    }
    struct splitter_totals totals;
    same("totals are there", splitter_get_totals(words, &totals), splitter_main_returned(words));
    same("a total of random words", totals.addend, splitter_main_returned(words) ? words->numbers[8] : 0);
    for (uint32_t worker = 0; worker < SPLITTER_MAX_WORKERS + 2; worker++) {
        in_bounds(words, frames, places, worker);
        in_bounds(words, frames, places, any_word());
    }
    free(frames);
    free(words);
}

/* Free nodes of any words: an end is come to, and no more than one for each step. */
static void random_pool(void) {
    uint32_t numbers[SPLITTER_NUMBERS_WORDS], nodes[16 * SPLITTER_NODE_WORDS];
    for (unsigned i = 0; i < SPLITTER_NUMBERS_WORDS; i++) {
        numbers[i] = any(3) == 0 ? any_word() : any(17);
    }
    for (unsigned i = 0; i < sizeof nodes / sizeof nodes[0]; i++) {
        nodes[i] = any(3) == 0 ? any_word() : any(17);
    }
    if (splitter_free_nodes(numbers, SPLITTER_NUMBERS_WORDS, nodes, any(33)) > 17) {
        surprise("free nodes of random words");
    }
}

/* A state without a run. */
static void zeros(void) {
    static const struct splitter_state none;
    static const struct splitter_frame nobody[PLACES];
    same("no workers", splitter_workers(&none), 0);
    same("no live frames", splitter_live_frames(nobody, PLACES), 0);
    same("no deque", splitter_deque_length(&none, 0), 0);
    same("no bottom frame", splitter_bottom_depth(&none, nobody, PLACES, 0), SPLITTER_NONE);
    same("no run", splitter_main_returned(&none), 0);
    struct splitter_totals totals;
    same("no totals", splitter_get_totals(&none, &totals), 0);
}

int main(int count, char **arguments) {
    unsigned long runs = count > 1 ? strtoul(arguments[1], NULL, 10) : 100;
    seed = count > 2 ? (uint32_t)strtoul(arguments[2], NULL, 10) | 1u : 1;
    zeros();
    for (unsigned long i = 0; i < runs; i++) {
        random_run();
    }
    for (unsigned i = 0; i < STATES; i++) {
        random_words();
        random_pool();
    }
    printf("queries: asked %lu times in %lu random runs, as the plain machine has it; asked of %u states of random words\n",
           asked, runs, (unsigned)STATES);
    return 0;
}
