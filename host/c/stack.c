/* How much stack a call takes: each runs on a painted stack of its own. Exit status 1 above splitter.h's SPLITTER_STACK_BYTES.
 * 256 splitters and 256 frames: the deepest walks and releases that there are. */
#define _XOPEN_SOURCE 700
#include <stdio.h>
#include <stdlib.h>
#include <string.h>
#include <ucontext.h>

#include "splitter.h"

enum { NODES = 4096, PAINT = 0xa5, FRAMES = SPLITTER_MAX_PLACES, RECORDS = 6 * FRAMES };

static struct splitter_state state;
static struct splitter_frame table[FRAMES];
static uint32_t pool[NODES * SPLITTER_NODE_WORDS], work[NODES], values[SPLITTER_MAX_SPLITTERS];
static const struct splitter_lent lent = {&state, table, FRAMES, pool, NODES * SPLITTER_NODE_WORDS, work, NODES};
static uint8_t tape[RECORDS * SPLITTER_RECORD_BYTES];
static uint32_t answers[2 * RECORDS];
static uint8_t image[SPLITTER_IMAGE_BYTES(FRAMES, NODES)];
static uint64_t clocks[SPLITTER_CLOCKS_WORDS(FRAMES)];
static uint32_t old_pool[NODES * SPLITTER_NODE_WORDS_OLD]; /* the same run's, with old nodes */
static const struct splitter_lent old = {&state, table, FRAMES, old_pool, NODES * SPLITTER_NODE_WORDS_OLD, work, NODES};
static uint32_t saved, loaded, reported, converted; /* what the calls answered */
static uint32_t workers = 2;             /* of the next start or report */
static unsigned char stack[1 << 17] __attribute__((aligned(16)));

static void start(void) {
    splitter_lent_start(&lent, workers, values, SPLITTER_MAX_SPLITTERS);
}

/* Down to the deepest frame, a write in each; a steal and a sync. */
static void steps_down(void) {
    for (unsigned i = 1; i < FRAMES; i++) {
        splitter_spawn(&lent, 0);
        splitter_write(&lent, 0, SPLITTER_MAX_SPLITTERS - i, i);
        splitter_read(&lent, 0, i);
        splitter_fold(&lent, 0, i % SPLITTER_REDUCERS, i);
    }
    splitter_steal(&lent, 1, 0);
    splitter_sync(&lent, 1);
}

/* All the way back. */
static void steps_up(void) {
    for (unsigned i = 0; i < FRAMES; i++) {
        splitter_return(&lent, 0);
    }
}

/* All frames but the last wait as returning, each stolen from the worker that went on in its child; then one return ends all. */
static void chain(void) {
    for (unsigned i = 1; i < FRAMES; i++) {
        splitter_spawn(&lent, 0);
        splitter_write(&lent, 0, SPLITTER_MAX_SPLITTERS - i, i);
        splitter_steal(&lent, 1, 0);
        splitter_return(&lent, 1);
    }
    splitter_return(&lent, 0);
}

/* Seven children of Main on as many workers, Main on the last; they end from the eldest on, so that each view goes to a sibling. */
static void siblings(void) {
    splitter_lent_start(&lent, SPLITTER_MAX_WORKERS, values, SPLITTER_MAX_SPLITTERS);
    for (unsigned worker = 0; worker + 1 < SPLITTER_MAX_WORKERS; worker++) {
        splitter_spawn(&lent, worker);
        splitter_steal(&lent, worker + 1, worker);
        splitter_fold(&lent, worker, SPLITTER_REDUCER_AFFINE, worker);
        splitter_spawn(&lent, worker);
    }
    for (unsigned worker = 0; worker < SPLITTER_MAX_WORKERS; worker++) {
        splitter_return(&lent, worker);
        splitter_return(&lent, worker);
    }
}

static void save(void) {
    saved = splitter_lent_save(&lent, image, sizeof image);
}

static void load(void) {
    loaded = splitter_lent_load(&lent, image, sizeof image);
}

static void convert(void) {
    converted = splitter_lent_convert(&old);
}

static void put_old_node(uint32_t node, uint32_t left, uint32_t right, uint32_t value) {
    uint32_t *to = old_pool + node * SPLITTER_NODE_WORDS_OLD;
    to[0] = pool[node * SPLITTER_NODE_WORDS];
    to[1] = left;
    to[2] = right;
    to[3] = value;
}

/* From a node of this level down; with 256 splitters every inner node has two links. */
static void put_old_tree(uint32_t node, unsigned level) {
    uint32_t word = pool[node * SPLITTER_NODE_WORDS + 1];
    if (level == 0) {
        put_old_node(node, SPLITTER_NONE, SPLITTER_NONE, word);
        return;
    }
    put_old_node(node, word % 65536u, word / 65536u, 0);
    put_old_tree(word % 65536u, level - 1);
    put_old_tree(word / 65536u, level - 1);
}

/* The pool as the library before would have it: free nodes, then all that the live frames reach. */
static void put_old_pool(void) {
    for (uint32_t node = 0; node < NODES; node++) {
        put_old_node(node, pool[node * SPLITTER_NODE_WORDS + 1], 0, 0);
    }
    for (unsigned place = 0; place < FRAMES; place++) {
        if (table[place].live != 0) {
            put_old_tree(table[place].root, 8);
        }
    }
}

static void tapes(void) {
    splitter_lent_tape(&lent, tape, sizeof tape, answers, 2 * RECORDS);
}

static void reports(void) {
    struct splitter_parallelism report;
    reported = splitter_lent_report(&lent, workers, values, SPLITTER_MAX_SPLITTERS, tape, sizeof tape, answers, 2 * RECORDS,
                                    clocks, SPLITTER_CLOCKS_WORDS(FRAMES), &report);
}

/* The steps down and up as records. The rest of the tape stays zero: refused records. */
static void write_tape(void) {
    uint8_t *at = tape;
    for (unsigned i = 1; i < FRAMES; i++) {
        at = splitter_put_record(at, SPLITTER_STEP_SPAWN, 0, 0, 0);
        at = splitter_put_record(at, SPLITTER_STEP_WRITE, 0, (uint16_t)(SPLITTER_MAX_SPLITTERS - i), i);
        at = splitter_put_record(at, SPLITTER_STEP_READ, 0, (uint16_t)i, 0);
        at = splitter_put_record(at, SPLITTER_STEP_FOLD, 0, (uint16_t)(i % SPLITTER_REDUCERS), i);
    }
    at = splitter_put_record(at, SPLITTER_STEP_STEAL, 1, 0, 0);
    at = splitter_put_record(at, SPLITTER_STEP_SYNC, 1, 0, 0);
    for (unsigned i = 0; i < FRAMES; i++) {
        at = splitter_put_record(at, SPLITTER_STEP_RETURN, 0, 0, 0);
    }
}

/* The chain as records. */
static void write_chain(void) {
    uint8_t *at = memset(tape, 0, sizeof tape);
    for (unsigned i = 1; i < FRAMES; i++) {
        at = splitter_put_record(at, SPLITTER_STEP_SPAWN, 0, 0, 0);
        at = splitter_put_record(at, SPLITTER_STEP_WRITE, 0, (uint16_t)(SPLITTER_MAX_SPLITTERS - i), i);
        at = splitter_put_record(at, SPLITTER_STEP_STEAL, 1, 0, 0);
        at = splitter_put_record(at, SPLITTER_STEP_RETURN, 1, 0, 0);
    }
    splitter_put_record(at, SPLITTER_STEP_RETURN, 0, 0, 0);
}

/* The siblings as records. */
static void write_siblings(void) {
    uint8_t *at = memset(tape, 0, sizeof tape);
    for (uint8_t worker = 0; worker + 1 < (int)SPLITTER_MAX_WORKERS; worker++) {
        at = splitter_put_record(at, SPLITTER_STEP_SPAWN, worker, 0, 0);
        at = splitter_put_record(at, SPLITTER_STEP_STEAL, worker + 1, worker, 0);
        at = splitter_put_record(at, SPLITTER_STEP_SPAWN, worker, 0, 0);
    }
    for (uint8_t worker = 0; worker < SPLITTER_MAX_WORKERS; worker++) {
        at = splitter_put_record(at, SPLITTER_STEP_RETURN, worker, 0, 0);
        at = splitter_put_record(at, SPLITTER_STEP_RETURN, worker, 0, 0);
    }
}

/* The bytes of the stack that the function wrote to. */
static size_t stack_of(void (*function)(void)) {
    ucontext_t here, there;
    size_t untouched = 0;
    memset(stack, PAINT, sizeof stack);
    getcontext(&there);
    there.uc_stack.ss_sp = stack;
    there.uc_stack.ss_size = sizeof stack;
    there.uc_link = &here;
    makecontext(&there, function, 0);
    swapcontext(&here, &there);
    while (untouched < sizeof stack && stack[untouched] == PAINT) {
        untouched += 1;
    }
    return sizeof stack - untouched;
}

/* Main must have returned, or the run went another way and the measure says little. */
static void check_end(void) {
    if (splitter_answer_kind(splitter_spawn(&lent, 0)) != SPLITTER_RUN_IS_OVER) {
        printf("surprise: Main has not returned\n");
        exit(1);
    }
}

static size_t larger(size_t a, size_t b) {
    return a > b ? a : b;
}

/* Saved and read back with all frames live; the run goes on from the image. */
static void check_image(void) {
    if (saved != SPLITTER_OK || loaded != SPLITTER_OK) {
        printf("surprise: the save answered %u, the load %u\n", saved, loaded);
        exit(1);
    }
}

/* Changed over with all frames live; the nodes are those of the run itself. */
static size_t stack_of_convert(void) {
    put_old_pool();
    size_t most = stack_of(convert);
    if (converted != SPLITTER_OK || memcmp(old_pool, pool, sizeof pool) != 0) {
        printf("surprise: the change-over answered %u, or left other nodes\n", converted);
        exit(1);
    }
    return most;
}

static size_t stack_of_report(void) {
    size_t most = stack_of(reports);
    if (reported != SPLITTER_OK) {
        printf("surprise: the report answered %u\n", reported);
        exit(1);
    }
    check_end();
    return most;
}

int main(void) {
    write_tape();
    size_t starts = stack_of(start), stepped = stack_of(steps_down);
    size_t saves = stack_of(save), loads = stack_of(load);
    check_image();
    size_t converts = stack_of_convert();
    stepped = larger(stepped, stack_of(steps_up));
    check_end();
    start();
    stepped = larger(stepped, stack_of(chain));
    check_end();
    stepped = larger(stepped, stack_of(siblings));
    check_end();
    start();
    size_t taped = stack_of(tapes);
    check_end();
    size_t reporting = stack_of_report();
    write_chain();
    reporting = larger(reporting, stack_of_report());
    write_siblings();
    workers = SPLITTER_MAX_WORKERS;
    start();
    taped = larger(taped, stack_of(tapes));
    check_end();
    reporting = larger(reporting, stack_of_report());
    printf("stack: a start takes %zu bytes, a step %zu, a tape %zu, a report %zu, a save %zu, a load %zu, a change-over %zu\n", starts,
           stepped, taped, reporting, saves, loads, converts);
    if (larger(larger(larger(starts, converts), stepped), larger(larger(taped, reporting), larger(saves, loads))) > SPLITTER_STACK_BYTES) {
        printf("surprise: splitter.h promises at most %u\n", SPLITTER_STACK_BYTES);
        return 1;
    }
    return 0;
}
