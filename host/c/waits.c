/* Returns with a live child (document 02, R-3): how they wait, when they end, and where the ends stop. Every answer is also the plain
 * machine's. A chain of 255 waiting frames, the longest that there is, ends by one return. */
#include <stdio.h>
#include <string.h>

#include "checked.h"

enum { NODES = 4096, PLACES = SPLITTER_MAX_PLACES, WORKERS = SPLITTER_MAX_WORKERS, SPLITTERS = 256, LAST = PLACES - 1 };

static struct splitter_state state;
static struct splitter_frame table[PLACES];
static uint32_t pool[NODES * SPLITTER_NODE_WORDS], work[NODES], values[SPLITTERS];
static struct checked run = {.lent = {&state, table, PLACES, pool, NODES * SPLITTER_NODE_WORDS, work, NODES}};

static void begin(void) {
    for (uint32_t i = 0; i < SPLITTERS; i++) {
        values[i] = 1000 + i;
    }
    same("start", checked_start(&run, WORKERS, values, SPLITTERS), SPLITTER_OK);
}

static void returns(unsigned worker, uint32_t outcome) {
    same("outcome", checked_return(&run, worker), splitter_answer(SPLITTER_RETURNED, outcome));
}

static void reads(unsigned worker, unsigned splitter, uint32_t value) {
    same("value", checked_read(&run, worker, splitter), splitter_answer(SPLITTER_VALUE, value));
}

static void refused(const char *what, uint64_t answer, uint32_t refusal) {
    same(what, answer, splitter_answer(refusal, 0));
}

/* The worker's bottom frame, alone in its deque, spawns, and the thief takes it: the child stays. */
static void fork_to(unsigned worker, unsigned thief) {
    same("spawn", splitter_answer_kind(checked_spawn(&run, worker)), SPLITTER_SPAWNED);
    same("steal", splitter_answer_kind(checked_steal(&run, thief, worker)), SPLITTER_STOLEN);
}

/* Every node lies once on the free chain, without holders. */
static void check_free_nodes(void) {
    static uint8_t met[NODES];
    uint32_t node = state.numbers[SPLITTER_NUMBER_FREE_NODE];
    memset(met, 0, sizeof met);
    for (unsigned i = 0; i < NODES; i++) {
        if (node >= NODES || met[node]++) {
            surprise("the free chain has not every node once");
        }
        const uint32_t *words = pool + node * SPLITTER_NODE_WORDS;
        same("free node", words[0], 0);
        node = words[1];
    }
    same("end of the free chain", node, UINT32_MAX);
}

/* The chain of free places has these first, then the others rising; all but the link is zero. The last freed is the first. */
static void check_free_places(const uint32_t *places, unsigned len) {
    uint32_t place = state.numbers[SPLITTER_NUMBER_FREE_FRAME];
    for (unsigned i = 0; i < PLACES; i++) {
        same("free place", place, i < len ? places[i] : i);
        const struct splitter_frame free = {.parent = table[place].parent};
        same("free record", (uint64_t)memcmp(&table[place], &free, sizeof free), 0);
        place = free.parent;
    }
    same("end of the chain of places", place, UINT32_MAX);
}

/* Frame i, in place i, writes i to splitter i; its child is spawned, a thief takes it and returns it: it waits. */
static void build_chain(void) {
    begin();
    for (unsigned i = 0; i < LAST; i++) {
        unsigned thief = 1 + i % (WORKERS - 1);
        checked_write(&run, 0, i, i);
        fork_to(0, thief);
        returns(thief, SPLITTER_WAITS);
        same("suspended", table[i].waiting, 1);
        same("returning", table[i].returning, 1);
        refused("the worker of a waiting frame", checked_read(&run, thief, 0), SPLITTER_WORKER_HAS_NO_FRAME);
        refused("a deque of one", checked_steal(&run, thief, 0), SPLITTER_NOTHING_TO_STEAL);
    }
    refused("256 frames live", checked_spawn(&run, 0), SPLITTER_FRAMES_FULL);
    same("depth", table[LAST].depth, LAST);
}

/* The whole chain in an image: saved, read over garbage, saved again. */
static void save_and_load(void) {
    static uint8_t image[SPLITTER_IMAGE_BYTES(PLACES, NODES)], again[SPLITTER_IMAGE_BYTES(PLACES, NODES)];
    same("save", splitter_lent_save(&run.lent, image, sizeof image), SPLITTER_OK);
    memset(&state, 0xa5, sizeof state);
    memset(table, 0xa5, sizeof table);
    memset(pool, 0xa5, sizeof pool);
    same("load", splitter_lent_load(&run.lent, image, sizeof image), SPLITTER_OK);
    same("save", splitter_lent_save(&run.lent, again, sizeof again), SPLITTER_OK);
    same("image", (uint64_t)memcmp(image, again, sizeof image), 0);
}

/* Another word in the seventh place, or a 1 where the frame is not suspended or not live, is unsound. A 1 or 0 on a suspended frame is
 * either kind of waiting: both are sound. */
static void unsound(unsigned place, uint32_t word) {
    uint32_t *returning = &table[place].returning, old = *returning;
    *returning = word;
    refused("a seventh word", splitter_read(&run.lent, 0, 0), SPLITTER_UNSOUND);
    *returning = old;
}

static void unsound_words(void) {
    unsound(0, 2);
    unsound(LAST - 1, UINT32_MAX);
    unsound(LAST, 1);
    unsound(LAST, 256);
    table[5].waiting = 0;
    refused("returning and not suspended", splitter_read(&run.lent, 0, 0), SPLITTER_UNSOUND);
    table[5].waiting = 1;
}

static void chain(void) {
    build_chain();
    unsound_words();
    save_and_load();
    reads(0, LAST - 1, LAST - 1);
    returns(0, SPLITTER_FINISHED);
    check_free_nodes();
    check_free_places(NULL, 0); /* freed child first */
    refused("Main has returned", checked_spawn(&run, 0), SPLITTER_RUN_IS_OVER);
    unsound(LAST, 1);
}

/* A chain of three waiting frames under one that waits at its sync: that one resumes where the last child ended, with its own view. */
static void stops_at_a_sync(void) {
    begin();
    fork_to(0, 1);
    checked_write(&run, 1, 7, 70);
    same("sync", checked_sync(&run, 1), splitter_answer(SPLITTER_SYNCED, SPLITTER_SUSPENDED));
    for (unsigned i = 0; i < 3; i++) {
        checked_write(&run, 0, 7, i);
        fork_to(0, 2);
        returns(2, SPLITTER_WAITS);
    }
    returns(0, SPLITTER_RESUMED);
    reads(0, 7, 70);
    same("live", run.plain.live, 1);
    returns(0, SPLITTER_FINISHED);
    check_free_nodes();
    check_free_places(NULL, 0);
}

/* Where the frame above is in a deque, or has another live child: the worker is idle. */
static void stops_below_others(void) {
    static const uint32_t freed[3] = {0, 2, 1};
    begin();
    fork_to(0, 1); /* place 1 on worker 0, Main on worker 1 */
    fork_to(0, 2); /* its child, place 2, on worker 0; place 1 on worker 2 */
    returns(2, SPLITTER_WAITS);
    checked_spawn(&run, 1);
    returns(1, SPLITTER_CONTINUED);
    returns(0, SPLITTER_BECAME_IDLE); /* places 2 and 1 end; Main is in a deque */
    same("live", run.plain.live, 1);
    fork_to(1, 3); /* Main on worker 3 */
    fork_to(3, 4); /* and on worker 4: two children elsewhere */
    returns(4, SPLITTER_WAITS);
    returns(1, SPLITTER_BECAME_IDLE);
    same("Main waits", table[0].returning, 1);
    returns(3, SPLITTER_FINISHED);
    check_free_nodes();
    check_free_places(freed, 3);
}

/* A waiting frame holds its tree until it ends: a write of another finds no room before. T(2) is 3, and a path has 2 nodes. */
static void holds_its_tree(void) {
    struct splitter_lent all = run.lent;
    run.lent.pool_len = 7 * SPLITTER_NODE_WORDS;
    same("start", checked_start(&run, 3, values, 2), SPLITTER_OK);
    fork_to(0, 1); /* Main on worker 1 */
    fork_to(0, 2); /* its child on worker 2, that one's on worker 0 */
    same("write", checked_write(&run, 2, 0, 50), splitter_answer(SPLITTER_WRITTEN, 2));
    same("write", checked_write(&run, 1, 0, 60), splitter_answer(SPLITTER_WRITTEN, 0));
    returns(2, SPLITTER_WAITS);
    refused("no room", checked_write(&run, 1, 1, 61), SPLITTER_POOL_FULL);
    returns(0, SPLITTER_BECAME_IDLE);
    same("write", checked_write(&run, 1, 1, 61), splitter_answer(SPLITTER_WRITTEN, 4));
    reads(1, 0, 60);
    returns(1, SPLITTER_FINISHED);
    run.lent = all;
}

int main(void) {
    chain();
    stops_at_a_sync();
    stops_below_others();
    holds_its_tree();
    printf("waits: a chain of %d waiting frames ends by one return, all %d nodes are free; chains stop where they must\n", LAST, NODES);
    return 0;
}
