/* A copy of a run in memory, and back to it after refusal 6, as docs/INTEGRATION.md shows it; and a changed leaf value, which no call sees. */
#include <stdio.h>
#include <stdlib.h>
#include <string.h>

#include "splitter.h"

enum { NODES = 40, PLACES = 64, WORKERS = 2, SPLITTERS = 5 };

static struct splitter_state state, kept_state;
static struct splitter_frame table[PLACES], kept_table[PLACES];
static uint32_t pool[NODES * SPLITTER_NODE_WORDS], kept_pool[NODES * SPLITTER_NODE_WORDS], work[NODES];
static const uint32_t values[SPLITTERS] = {10, 20, 30, 40, 50};
static const struct splitter_lent lent = {&state, table, PLACES, pool, NODES * SPLITTER_NODE_WORDS, work, NODES};

static void answers(const char *what, uint64_t got, uint32_t kind, uint32_t number) {
    if (got != splitter_answer(kind, number)) {
        printf("back: %s: %u %u\n", what, splitter_answer_kind(got), splitter_answer_number(got));
        exit(1);
    }
}

/* ---- shown */
/* Between two calls. Only a sound run is kept: a tape without records is the check alone. */
static uint32_t keep_copy(void) {
    static const uint8_t no_tape[1];
    static uint32_t no_answers[1];
    uint32_t refused = splitter_lent_tape(&lent, no_tape, 0, no_answers, 0);
    if (refused == SPLITTER_OK) {
        kept_state = state;
        memcpy(kept_table, table, sizeof table);
        memcpy(kept_pool, pool, sizeof pool);
    }
    return refused;
}

/* After a refusal by 6: the run as it was at the copy. The host's own part of the search must be of the same moment. */
static void go_back(void) {
    state = kept_state;
    memcpy(table, kept_table, sizeof table);
    memcpy(pool, kept_pool, sizeof pool);
}
/* ---- end */

/* The leaf of splitter 0 in Main's tree: left at every level. */
static uint32_t *leaf(void) {
    uint32_t node = table[0].root;
    for (unsigned level = 3; level > 0; level--) {
        node = pool[node * SPLITTER_NODE_WORDS + 1] % 65536u;
    }
    return pool + node * SPLITTER_NODE_WORDS;
}

int main(void) {
    answers("start", splitter_lent_start(&lent, WORKERS, values, SPLITTERS), SPLITTER_OK, 0);
    answers("write", splitter_write(&lent, 0, 0, 11), SPLITTER_WRITTEN, 29);
    answers("copy", keep_copy(), SPLITTER_OK, 0);
    answers("write", splitter_write(&lent, 0, 0, 12), SPLITTER_WRITTEN, 29);
    leaf()[0] ^= 4; /* its count of holders */
    answers("damage", splitter_read(&lent, 0, 0), SPLITTER_UNSOUND, 0);
    answers("copy of a damaged run", keep_copy(), SPLITTER_UNSOUND, 0);
    go_back();
    answers("read", splitter_read(&lent, 0, 0), SPLITTER_VALUE, 11);
    leaf()[1] ^= 4; /* its value */
    answers("a changed value", splitter_read(&lent, 0, 0), SPLITTER_VALUE, 11 ^ 4);
    printf("back: a damaged run is refused by 6, its copy goes on; a changed leaf value is read\n");
    return 0;
}
