/* Reducers (document 02, R-5): the order in which views join, whoever ends first; the links between siblings; what is unsound; a run saved
 * in the middle. A search folds the digits 1 to 9 in the order of a run by one worker. The affine map of a digit multiplies by ten and
 * adds the digit, so the addend of the totals reads 123456789 just if the views have joined in that order. Every answer is also the plain
 * machine's. */
#include <stdio.h>
#include <string.h>

#include "checked.h"

enum { NODES = 64, PLACES = 128, WORKERS = 4, LAST = PLACES - 1 };
enum { MAIN, A, A1, B, C, FREE }; /* places: A, B and C are children of Main, A1 is one of A */

static struct splitter_state state;
static struct splitter_frame table[PLACES];
static uint32_t pool[NODES * SPLITTER_NODE_WORDS], work[NODES];
static const uint32_t values[2] = {10, 20};
static struct checked run = {.lent = {&state, table, PLACES, pool, NODES * SPLITTER_NODE_WORDS, work, NODES}};
static uint8_t image[SPLITTER_IMAGE_BYTES(PLACES, NODES)];
static struct plain saved; /* the plain machine of the image */

static void begin(void) {
    same("start", checked_start(&run, WORKERS, values, 2), SPLITTER_OK);
}

static void digit(unsigned worker, unsigned number) {
    const uint64_t folded = splitter_answer(SPLITTER_FOLDED, 0);
    same("sum", checked_fold(&run, worker, SPLITTER_REDUCER_SUM, number), folded);
    same("minimum", checked_fold(&run, worker, SPLITTER_REDUCER_MIN, number), folded);
    same("affine map", checked_fold(&run, worker, SPLITTER_REDUCER_AFFINE, splitter_affine(10, (uint16_t)number)), folded);
}

static void spawns(unsigned worker) {
    same("spawn", splitter_answer_kind(checked_spawn(&run, worker)), SPLITTER_SPAWNED);
}

/* The worker's bottom frame, alone in its deque, spawns, and the thief takes it: the child stays. */
static void fork_to(unsigned worker, unsigned thief) {
    spawns(worker);
    same("steal", splitter_answer_kind(checked_steal(&run, thief, worker)), SPLITTER_STOLEN);
}

static void returns(unsigned worker, uint32_t outcome) {
    same("outcome", checked_return(&run, worker), splitter_answer(SPLITTER_RETURNED, outcome));
}

static void check_totals(void) {
    const struct splitter_totals totals = checked_totals(&run);
    same("sum", totals.sum, 45);
    same("minimum", totals.min, 1);
    same("multiplier", totals.multiplier, 1000000000);
    same("addend", totals.addend, 123456789);
}

static void one_worker(void) {
    begin();
    digit(0, 1);
    spawns(0); /* A */
    digit(0, 2);
    spawns(0); /* A1 */
    digit(0, 3);
    returns(0, SPLITTER_CONTINUED);
    digit(0, 4);
    returns(0, SPLITTER_CONTINUED);
    digit(0, 5);
    spawns(0); /* B */
    digit(0, 6);
    returns(0, SPLITTER_CONTINUED);
    digit(0, 7);
    spawns(0); /* C */
    digit(0, 8);
    returns(0, SPLITTER_CONTINUED);
    digit(0, 9);
    returns(0, SPLITTER_FINISHED);
    check_totals();
}

/* The same frames on four workers, until Main and A wait: A1 runs on worker 0, B on 1, C on 2, and has one digit to fold. */
static void spread(void) {
    begin();
    digit(0, 1);
    fork_to(0, 1); /* A on worker 0, Main on 1 */
    digit(0, 2);
    fork_to(0, 2); /* A1 on worker 0, A on 2 */
    digit(2, 4);
    returns(2, SPLITTER_WAITS);
    digit(1, 5);
    fork_to(1, 2); /* B on worker 1, Main on 2 */
    digit(2, 7);
    fork_to(2, 3); /* C on worker 2, Main on 3 */
    digit(3, 9);
    returns(3, SPLITTER_WAITS);
}

static void check_frame(unsigned place, uint32_t addend, uint32_t younger) {
    same("view", table[place].view_addend, addend);
    same("younger", table[place].younger, younger);
}

/* A child inherits what was folded before its spawn; links go from the elder to the younger. */
static void check_spread(void) {
    check_frame(MAIN, 9, SPLITTER_NONE);
    check_frame(A, 4, B);
    check_frame(A1, 12, SPLITTER_NONE);
    check_frame(B, 5, C);
    check_frame(C, 7, SPLITTER_NONE);
}

static void save(void) {
    same("save", splitter_lent_save(&run.lent, image, sizeof image), SPLITTER_OK);
    saved = run.plain;
}

static void load(void) {
    memset(&state, 0xa5, sizeof state);
    memset(table, 0xa5, sizeof table);
    memset(pool, 0xa5, sizeof pool);
    same("load", splitter_lent_load(&run.lent, image, sizeof image), SPLITTER_OK);
    run.plain = saved;
}

/* From the image on: the workers fold their digit and return in this order. The last return ends Main. */
static void ends(const unsigned *workers) {
    static const unsigned digits[] = {3, 6, 8};
    load();
    for (unsigned i = 0; i < 3; i++) {
        digit(workers[i], digits[workers[i]]);
        returns(workers[i], i < 2 ? SPLITTER_BECAME_IDLE : SPLITTER_FINISHED);
    }
    check_totals();
}

static void any_order(void) {
    static const unsigned orders[][3] = {{0, 1, 2}, {0, 2, 1}, {1, 0, 2}, {1, 2, 0}, {2, 0, 1}, {2, 1, 0}};
    for (unsigned i = 0; i < 6; i++) {
        ends(orders[i]);
    }
}

/* Where views go: that of B to C, that of A1 to A and, with A, to the next younger sibling that lives. */
static void next_in_order(void) {
    load();
    returns(1, SPLITTER_BECAME_IDLE); /* B, with what it inherited */
    check_frame(A, 4, C);
    check_frame(C, 57, SPLITTER_NONE);
    digit(0, 3);
    returns(0, SPLITTER_BECAME_IDLE); /* A1 and A */
    check_frame(C, 123457, SPLITTER_NONE);
    check_frame(MAIN, 9, SPLITTER_NONE);
    returns(2, SPLITTER_FINISHED);
    same("addend", checked_totals(&run).addend, 1234579);
}

/* Where the younger sibling has children, the view goes to the first in the order below it. */
static void next_is_below(void) {
    enum { C1 = FREE, C2, C11 };
    load();
    fork_to(2, 3); /* C1 on worker 2, C on 3 */
    spawns(3);     /* C2 */
    spawns(2);     /* C11, child of C1 */
    check_frame(C1, 0, C2);
    returns(1, SPLITTER_BECAME_IDLE); /* B */
    check_frame(C11, 57, SPLITTER_NONE);
    check_frame(C, 0, SPLITTER_NONE);
    returns(2, SPLITTER_CONTINUED);
    returns(2, SPLITTER_BECAME_IDLE); /* C1 */
    check_frame(C2, 57, SPLITTER_NONE);
    returns(3, SPLITTER_CONTINUED);
    returns(3, SPLITTER_BECAME_IDLE); /* C */
    check_frame(MAIN, 579, SPLITTER_NONE);
    digit(0, 3);
    returns(0, SPLITTER_FINISHED);
    same("addend", checked_totals(&run).addend, 1234579);
}

/* A read is answered so while the word is another. */
static void with_word(uint32_t *word, uint32_t other, uint64_t answer) {
    uint32_t old = *word;
    *word = other;
    same("another word", splitter_read(&run.lent, 0, 0), answer);
    *word = old;
}

static void unsound(uint32_t *word, uint32_t other) {
    with_word(word, other, SPLITTER_UNSOUND);
}

static void unsound_link(unsigned place, uint32_t other) {
    unsound(&table[place].younger, other);
}

/* "These links chain the live children of each frame, each once, Main's being none." */
static void unsound_links(void) {
    static const uint32_t not_b[] = {MAIN, A, A1, C, FREE, PLACES, SPLITTER_NONE};
    for (unsigned i = 0; i < sizeof not_b / sizeof not_b[0]; i++) {
        unsound_link(A, not_b[i]);
    }
    static const uint32_t not_none[] = {MAIN, A, A1, B, C, FREE, PLACES};
    for (unsigned i = 0; i < sizeof not_none / sizeof not_none[0]; i++) {
        unsound_link(MAIN, not_none[i]);
        unsound_link(A1, not_none[i]);
        unsound_link(C, not_none[i]);
    }
    table[C].younger = B; /* B and C link to each other, and A to none: all but the tail are linked to once */
    unsound_link(A, SPLITTER_NONE);
    table[C].younger = SPLITTER_NONE;
}

/* "Soundness asks for those zeros": of the totals while Main lives, and of free places. A view may hold anything. */
static void unsound_words(void) {
    struct splitter_frame *free = &table[FREE], *b = &table[B];
    uint32_t *const free_view[4] = {&free->view_sum, &free->view_min, &free->view_multiplier, &free->view_addend};
    uint32_t *const view[4] = {&b->view_sum, &b->view_min, &b->view_multiplier, &b->view_addend};
    for (unsigned i = 0; i < 4; i++) {
        unsound(state.numbers + SPLITTER_NUMBER_TOTAL_SUM + i, 1);
        unsound(state.numbers + SPLITTER_NUMBER_TOTAL_SUM + i, SPLITTER_NONE);
        unsound(free_view[i], 1);
        with_word(view[i], 77, splitter_answer(SPLITTER_VALUE, 10));
    }
    unsound_link(FREE, SPLITTER_NONE);
    unsound_link(FREE, 1);
}

/* 127 frames fold, spawn, fold and wait as returning; the last return joins all views upward. */
static void chain(void) {
    uint32_t addend = 0;
    begin();
    for (unsigned i = 0; i < LAST; i++) {
        digit(0, i % 7);
        fork_to(0, 1);
        digit(1, i % 5);
        returns(1, SPLITTER_WAITS);
        addend = 10 * addend + i % 7;
    }
    returns(0, SPLITTER_FINISHED);
    for (unsigned i = LAST; i > 0; i--) {
        addend = 10 * addend + (i - 1) % 5;
    }
    same("addend", checked_totals(&run).addend, addend);
}

int main(void) {
    one_worker();
    spread();
    check_spread();
    save();
    any_order();
    next_in_order();
    next_is_below();
    load();
    unsound_links();
    unsound_words();
    chain();
    printf("folds: one worker, and from an image four in each order of their ends, give 123456789; wrong links and totals are refused\n");
    return 0;
}
