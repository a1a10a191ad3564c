/* How a host mirrors the deques: an answer names a depth, not a frame. The part between the two lines is shown in docs/INTEGRATION.md; the
 * rest is its test: random runs, and after each step the host's frames and deques are compared with the words of the state. */
#include <stdbool.h>
#include <stdio.h>
#include <stdlib.h>

#include "splitter.h"

/* ---- shown */
/* What the host keeps of a frame, beside its own words: how far this branch has come. */
struct frame {
    struct frame *parent; /* NULL for Main */
    unsigned depth, children;
    bool live, returned;
};

static struct frame *runs[SPLITTER_MAX_WORKERS]; /* the bottom frame of each worker's deque, or NULL: the worker is idle */

/* A frame ends, and with it those above that had returned and waited for it alone. The first above that lives on, or NULL after Main. */
static struct frame *end_frame(struct frame *f) {
    do {
        f->live = false;
        f = f->parent;
    } while (f != NULL && --f->children == 0 && f->returned);
    return f;
}

/* After each step: what its answer says of the frames. A refused step has changed none. child is a free place, used by a spawn. */
static void mirror(unsigned worker, unsigned victim, struct frame *child, uint64_t answer) {
    uint32_t number = splitter_answer_number(answer);
    struct frame *f = runs[worker];
    switch (splitter_answer_kind(answer)) {
    case SPLITTER_SPAWNED:
        f->children += 1;
        *child = (struct frame){.parent = f, .depth = number, .live = true};
        runs[worker] = child;
        break;
    case SPLITTER_STOLEN: /* each frame in a deque is a child of the one above it */
        for (f = runs[victim]; f->depth > number; f = f->parent) {
        }
        runs[worker] = f;
        break;
    case SPLITTER_SYNCED:
        runs[worker] = number == SPLITTER_SUSPENDED ? NULL : f;
        break;
    case SPLITTER_RETURNED:
        f->returned = true;
        f = number == SPLITTER_WAITS ? NULL : end_frame(f);
        runs[worker] = number == SPLITTER_CONTINUED || number == SPLITTER_RESUMED ? f : NULL;
        break;
    }
}
/* ---- end */

enum { NODES = 256, SPLITTERS = 8, RUNS = 400, STEPS = 500, PLACES = 100, DEQUE_WORDS = 1 + SPLITTER_DEQUE_PLACES };

static struct splitter_state state;
static struct splitter_frame table[PLACES];
static uint32_t pool[NODES * SPLITTER_NODE_WORDS], work[NODES], values[SPLITTERS];
static const struct splitter_lent lent = {&state, table, PLACES, pool, NODES * SPLITTER_NODE_WORDS, work, NODES};
static struct frame frames[PLACES];
static uint32_t places[PLACES]; /* the library's place of each of them */
static unsigned long steals, resumed, waits, ends;

static uint32_t seed = 20261116;

/* Xorshift: a number below the bound. */
static uint32_t any(uint32_t below) {
    seed ^= seed << 13;
    seed ^= seed >> 17;
    seed ^= seed << 5;
    return (uint32_t)((uint64_t)seed * below >> 32);
}

static void same(const char *what, uint32_t got, uint32_t wanted) {
    if (got != wanted) {
        printf("mirror: %s: the host has %u, the state %u\n", what, got, wanted);
        exit(1);
    }
}

static uint32_t place_of(const struct frame *f) {
    return f == NULL ? UINT32_MAX : places[f - frames];
}

/* The worker's deque, from the bottom up: the frame that it runs, and the parents above. */
static void same_deque(unsigned worker) {
    const uint32_t *deque = state.deques + worker * DEQUE_WORDS;
    const struct frame *f = runs[worker];
    same("idle", f == NULL, deque[0] == 0);
    for (uint32_t i = deque[0]; i > 0; i--, f = f->parent) {
        same("a deque", place_of(f), deque[i]);
    }
}

/* Each frame of the host against its record. */
static unsigned same_frames(void) {
    unsigned live = 0;
    for (const struct frame *f = frames; f < frames + PLACES; f++) {
        if (f->live) {
            const struct splitter_frame *record = &table[place_of(f)];
            same("live", 1, record->live);
            same("parent", place_of(f->parent), record->parent);
            same("depth", f->depth, record->depth);
            same("children", f->children, record->outstanding);
            same("returned", f->returned, record->returning);
            live += 1;
        }
    }
    return live;
}

static unsigned live_records(void) {
    unsigned live = 0;
    for (unsigned place = 0; place < PLACES; place++) {
        live += table[place].live;
    }
    return live;
}

static struct frame *free_frame(void) {
    for (struct frame *f = frames; f < frames + PLACES; f++) {
        if (!f->live) {
            return f;
        }
    }
    return NULL;
}

static void count(uint64_t answer) {
    steals += splitter_answer_kind(answer) == SPLITTER_STOLEN;
    resumed += answer == splitter_answer(SPLITTER_RETURNED, SPLITTER_RESUMED);
    waits += answer == splitter_answer(SPLITTER_RETURNED, SPLITTER_WAITS);
    ends += answer == splitter_answer(SPLITTER_RETURNED, SPLITTER_FINISHED);
}

/* Any step of any worker; some are refused. */
static void take_step(unsigned workers) {
    static const uint8_t kinds[] = {SPLITTER_STEP_SPAWN, SPLITTER_STEP_SPAWN, SPLITTER_STEP_STEAL, SPLITTER_STEP_STEAL, SPLITTER_STEP_RETURN, SPLITTER_STEP_SYNC};
    unsigned kind = kinds[any(sizeof kinds)], worker = any(workers);
    unsigned victim = kind == SPLITTER_STEP_STEAL ? any(workers) : 0;
    struct frame *child = free_frame();
    uint64_t answer = splitter_lent_step(&lent, kind, worker, victim, 0);
    mirror(worker, victim, child, answer);
    if (splitter_answer_kind(answer) == SPLITTER_SPAWNED) {
        places[child - frames] = state.deques[worker * DEQUE_WORDS + state.deques[worker * DEQUE_WORDS]];
    }
    count(answer);
}

static void begin(unsigned workers) {
    for (unsigned i = 0; i < PLACES; i++) {
        frames[i].live = false;
    }
    for (unsigned worker = 0; worker < SPLITTER_MAX_WORKERS; worker++) {
        runs[worker] = NULL;
    }
    same("start", splitter_lent_start(&lent, workers, values, SPLITTERS), SPLITTER_OK);
    frames[0] = (struct frame){.live = true};
    places[0] = state.deques[1];
    runs[0] = &frames[0];
}

int main(void) {
    for (unsigned run = 0; run < RUNS; run++) {
        unsigned workers = 1 + any(SPLITTER_MAX_WORKERS);
        begin(workers);
        for (unsigned step = 0; step < STEPS && live_records() > 0; step++) {
            take_step(workers);
            for (unsigned worker = 0; worker < SPLITTER_MAX_WORKERS; worker++) {
                same_deque(worker);
            }
            same("live frames", same_frames(), live_records());
        }
    }
    printf("mirror: %u runs, %lu steals, %lu resumptions, %lu returns that wait, %lu ends of Main: the host's deques are the state's\n",
           (unsigned)RUNS, steals, resumed, waits, ends);
    return 0;
}
