/* Runs document 01's example and random searches with the library before R-8, whose nodes have four words, and prints what it answered and
 * left: old.txt, always the same bytes. With the argument 'image' it prints old.image instead: what that library saves of the example after
 * five records. The script record, beside it, compiles it with that library's header and archive. host/c/recorded.c and changeover.c read
 * the files.
 *
 * A word is a decimal number, or - for SPLITTER_NONE; zN are N zeros. A search is
 *   search WORKERS SPLITTERS PLACES POOL LENT   the start: POOL words of pool; every later call is lent LENT words, POOL of them the same
 *   values ..                                   a word for each splitter
 * then, in the order in which they happened, records and points; a record is one line,
 *   KIND WORKER FIELD VALUE ANSWER ANSWER
 * and a point is all that is lent between two calls but the work slice:
 *   numbers ..
 *   deques ..
 *   table ..
 *   pool ..                                     LENT words
 * and at its end
 *   end */
#include <stdio.h>
#include <stdlib.h>
#include <string.h>

#include "splitter.h"

#if SPLITTER_NODE_WORDS != 4
#error "the header of another library: the script record says which one it must be"
#endif

enum { NODES = 1024, PAST = 16, TAPE = 6, KINDS = 7, SMALL = 160 /* nodes: more points of such a pool */ };

struct search {
    uint32_t seed;
    unsigned workers, splitters, places, nodes;
    unsigned past; /* words of the pool past its nodes, at the start: 0 to 3 */
    unsigned more; /* further words of the pool that later calls are lent */
    unsigned steps, points;
    bool ends;     /* by Main's return */
};

/* Pools with a few nodes more than the tree run short. */
static const struct search searches[] = {
    {1, 1, 1, 2, 3, 0, 0, 60, 4, true},
    {2, 3, 1, 5, 4, 3, 0, 120, 4, true},
    {3, 8, 1, 40, 60, 1, 5, 200, 4, true},
    {20, 2, 1, 3, 1, 3, 5, 40, 3, true},
    {21, 4, 1, 6, 2, 2, 1, 80, 4, true},
    {4, 2, 2, 3, 7, 2, 2, 120, 4, true},
    {5, 4, 2, 16, 30, 0, 9, 200, 4, false},
    {6, 1, 3, 8, 20, 3, 1, 120, 3, true},
    {7, 2, 5, 4, 15, 0, 0, 120, 4, true},
    {8, 5, 5, 32, 50, 2, 7, 260, 5, true},
    {9, 8, 5, 64, 140, 1, 0, 300, 5, true},
    {10, 6, 7, 1, 24, 3, 3, 60, 2, true},
    {11, 3, 9, 12, 60, 0, 4, 200, 4, false},
    {12, 7, 16, 20, 70, 1, 0, 240, 4, true},
    {13, 8, 16, 255, 200, 3, 11, 320, 4, true},
    {14, 4, 31, 63, 150, 2, 6, 240, 3, true},
    {15, 2, 33, 65, 110, 0, 2, 160, 3, true},
    {16, 5, 100, 256, 300, 1, 1, 240, 3, true},
    {17, 4, 255, 30, 560, 0, 0, 140, 2, true},
    {18, 8, 256, 48, 900, 3, 8, 300, 3, true},
    {19, 3, 256, 10, 530, 2, 0, 160, 2, false},
};

static struct splitter_state state;
static struct splitter_frame table[SPLITTER_MAX_PLACES];
static uint32_t pool[NODES * SPLITTER_NODE_WORDS + PAST], work[NODES], values[SPLITTER_MAX_SPLITTERS];
static struct splitter_lent lent;
static uint32_t seed;
static unsigned long counts[SPLITTER_FOLDED + 1], outcomes[SPLITTER_WAITS + 1], points; /* by first answer word; of returns */

/* Xorshift: a number below the bound. */
static uint32_t any(uint32_t below) {
    seed ^= seed << 13;
    seed ^= seed >> 17;
    seed ^= seed << 5;
    return (uint32_t)((uint64_t)seed * below >> 32);
}

static void expect(const char *what, uint32_t got) {
    if (got != SPLITTER_OK) {
        fprintf(stderr, "record: %s answered %u\n", what, got);
        exit(1);
    }
}

/* Many values would be links of a node of two words, or none. */
static uint32_t any_value(void) {
    switch (any(6)) {
    case 0: return SPLITTER_NONE;
    case 1: return 65535u;
    case 2: return any(splitter_lent_nodes(&lent) + 1) << 16 | any(splitter_lent_nodes(&lent) + 1);
    case 3: return any(splitter_lent_nodes(&lent) + 1) | 65535u << 16;
    default: return any(UINT32_MAX) >> any(32);
    }
}

/* ---- what is printed */

static void print_words(const char *name, const uint32_t *words, size_t len) {
    fputs(name, stdout);
    for (size_t i = 0, zeros = 0; i < len; i += zeros > 0 ? zeros : 1) {
        for (zeros = 0; i + zeros < len && words[i + zeros] == 0;) {
            zeros += 1;
        }
        if (zeros > 1) {
            printf(" z%zu", zeros);
        } else if (words[i] == SPLITTER_NONE) {
            fputs(" -", stdout);
        } else {
            printf(" %u", words[i]);
        }
    }
    putchar('\n');
}

static void print_point(void) {
    print_words("numbers", state.numbers, SPLITTER_NUMBERS_WORDS);
    print_words("deques", state.deques, SPLITTER_DEQUES_WORDS);
    print_words("table", (const uint32_t *)table, (size_t)lent.places * SPLITTER_FRAME_RECORD_WORDS);
    print_words("pool", pool, (size_t)lent.pool_len);
    points += 1;
}

struct step {
    uint32_t kind, worker, field, value;
};

static void print_record(struct step s, uint32_t first, uint32_t second) {
    printf("%u %u %u %u %u %u\n", s.kind, s.worker, s.field, s.value, first, second);
    counts[first] += 1;
    if (first == SPLITTER_RETURNED) {
        outcomes[second] += 1;
    }
}

/* ---- the steps */

/* The weights of spawn, return, steal, sync, read, write and fold, for a while. */
static const unsigned moods[][KINDS] = {{60, 2, 15, 3, 5, 15, 10}, {25, 8, 35, 12, 5, 15, 10}, {5, 3, 5, 2, 15, 70, 5},
                                        {15, 35, 40, 4, 2, 4, 10}, {25, 12, 50, 6, 1, 12, 20}, {10, 10, 10, 10, 10, 10, 10}};
static const unsigned *mood = moods[0];

static uint32_t any_kind(void) {
    unsigned sum = 0, kind = 0;
    if (any(30) == 0) {
        mood = moods[any(sizeof moods / sizeof moods[0])];
    }
    for (unsigned i = 0; i < KINDS; i++) {
        sum += mood[i];
    }
    for (uint32_t left = any(sum); left >= mood[kind]; kind++) {
        left -= mood[kind];
    }
    return SPLITTER_STEP_SPAWN + kind;
}

/* A worker that is idle, or is not, as it suits; any, if there is no such. */
static uint32_t any_worker(bool idle) {
    uint32_t workers = splitter_lent_workers(&lent), worker = any(workers);
    for (uint32_t i = 0; i < workers && (splitter_lent_deque_length(&lent, worker) == 0) != idle; i++) {
        worker = (worker + 1) % workers;
    }
    return worker;
}

/* A worker that can be stolen from; any, if there is no such. */
static uint32_t any_victim(void) {
    uint32_t workers = splitter_lent_workers(&lent), worker = any(workers + 1);
    for (uint32_t i = 0; i < workers && splitter_lent_deque_length(&lent, worker) < 2; i++) {
        worker = (worker + 1) % workers;
    }
    return worker;
}

/* Mostly a step that could be accepted, now and then any record at all; before the way home, no return of Main but rarely. */
static struct step any_step(void) {
    struct step junk = {any(9), any(10), any(3) == 0 ? any(65536) : any(3), any(2)};
    struct step s = {any_kind(), 0, 0, 0};
    s.worker = any_worker(s.kind == SPLITTER_STEP_STEAL);
    if (s.kind == SPLITTER_STEP_RETURN && splitter_lent_bottom_depth(&lent, s.worker) == 0 && any(12) != 0) {
        s.kind = SPLITTER_STEP_SPAWN;
    }
    switch (s.kind) {
    case SPLITTER_STEP_STEAL: s.field = any_victim(); break;
    case SPLITTER_STEP_READ:
    case SPLITTER_STEP_WRITE: s.field = any(splitter_lent_splitters(&lent)); break;
    case SPLITTER_STEP_FOLD: s.field = any(SPLITTER_REDUCERS); break;
    default: break;
    }
    s.field += s.kind >= SPLITTER_STEP_READ && any(40) == 0 ? 256 : 0;
    s.value = s.kind == SPLITTER_STEP_WRITE ? any_value() : s.kind == SPLITTER_STEP_FOLD ? any(UINT32_MAX) | 65536 : 0;
    return any(25) == 0 ? junk : s;
}

/* A return by a worker that is not idle: repeated, it brings Main's. */
static struct step step_home(void) {
    struct step s = {SPLITTER_STEP_RETURN, any_worker(false), 0, 0};
    return s;
}

static void by_step(struct step s) {
    uint64_t answer = splitter_lent_step(&lent, s.kind, s.worker, s.field, s.value);
    print_record(s, splitter_answer_kind(answer), splitter_answer_number(answer));
}

/* Several records on a tape, all chosen from the state before it. */
static void by_tape(struct step (*next)(void), unsigned records) {
    struct step steps[TAPE];
    uint8_t tape[TAPE * SPLITTER_RECORD_BYTES], *at = tape;
    uint32_t answers[2 * TAPE];
    for (unsigned i = 0; i < records; i++) {
        steps[i] = next();
        at = splitter_put_record(at, (uint8_t)steps[i].kind, (uint8_t)steps[i].worker, (uint16_t)steps[i].field, steps[i].value);
    }
    expect("tape", splitter_lent_tape(&lent, tape, records * SPLITTER_RECORD_BYTES, answers, 2 * records));
    for (unsigned i = 0; i < records; i++) {
        print_record(steps[i], answers[2 * i], answers[2 * i + 1]);
    }
}

static void call(struct step (*next)(void)) {
    if (any(4) == 0) {
        by_tape(next, 1 + any(TAPE));
    } else {
        by_step(next());
    }
}

/* ---- a search */

static void begin(const struct search *search) {
    const unsigned words = search->nodes * SPLITTER_NODE_WORDS + search->past;
    const struct splitter_lent at_start = {&state, table, search->places, pool, words, work, search->nodes};
    lent = at_start;
    printf("search %u %u %u %u %u\n", search->workers, search->splitters, search->places, words, words + search->more);
    print_words("values", values, search->splitters);
    expect("start", splitter_lent_start(&lent, search->workers, values, search->splitters));
    lent.pool_len += search->more;
}

/* At even distances; in a small pool also after the first refusal by 16 and the first frame that waits as returning. */
static void random_steps(const struct search *search) {
    const unsigned long full = counts[SPLITTER_POOL_FULL], waits = outcomes[SPLITTER_WAITS];
    bool seen_full = search->nodes > SMALL, seen_waits = seen_full;
    for (unsigned i = 0; i < search->steps && !splitter_lent_main_returned(&lent); i++) {
        bool due = i % (search->steps / search->points) == 0;
        if (!seen_full && counts[SPLITTER_POOL_FULL] > full) {
            due = seen_full = true;
        }
        if (!seen_waits && outcomes[SPLITTER_WAITS] > waits) {
            due = seen_waits = true;
        }
        if (due) {
            print_point();
        }
        call(any_step);
    }
}

/* Returns until Main has returned, and some records after that. */
static void way_home(const struct search *search) {
    while (!splitter_lent_main_returned(&lent)) {
        call(step_home);
        if (search->nodes <= SMALL && any(20) == 0) {
            print_point();
        }
    }
    for (unsigned i = 0; i < 4; i++) {
        call(any_step);
    }
}

static void record(const struct search *search) {
    seed = search->seed * 2654435761u | 1u;
    for (size_t i = 0; i < sizeof pool / sizeof pool[0]; i++) {
        pool[i] = any(UINT32_MAX);
    }
    state.numbers[SPLITTER_NUMBER_NODES] = search->nodes; /* for any_value */
    for (unsigned i = 0; i < search->splitters; i++) {
        values[i] = any_value();
    }
    begin(search);
    random_steps(search);
    if (search->ends) {
        way_home(search);
    }
    print_point();
    puts("end");
}

/* Document 01's example. */
static const struct search example = {0, 2, 5, 4, 20, 0, 0, 0, 0, true};
static const uint32_t example_values[] = {10, 20, 30, 40, 50};
static const struct step example_steps[] = {{SPLITTER_STEP_SPAWN, 0, 0, 0}, {SPLITTER_STEP_STEAL, 1, 0, 0}, {SPLITTER_STEP_WRITE, 1, 4, 99},
                                            {SPLITTER_STEP_READ, 0, 4, 0}, {SPLITTER_STEP_SYNC, 1, 0, 0}, {SPLITTER_STEP_READ, 1, 4, 0},
                                            {SPLITTER_STEP_RETURN, 0, 0, 0}, {SPLITTER_STEP_READ, 0, 4, 0}, {SPLITTER_STEP_RETURN, 0, 0, 0}};

/* With a point before each record and at the end. */
static void record_example(void) {
    memcpy(values, example_values, sizeof example_values);
    begin(&example);
    for (size_t i = 0; i < sizeof example_steps / sizeof example_steps[0]; i++) {
        print_point();
        by_step(example_steps[i]);
    }
    print_point();
    puts("end");
}

/* Its image after five records. */
static void print_image(void) {
    static uint8_t image[SPLITTER_IMAGE_BYTES(4, 20)];
    const struct splitter_lent run = {&state, table, example.places, pool, example.nodes * SPLITTER_NODE_WORDS, work, example.nodes};
    expect("start", splitter_lent_start(&run, example.workers, example_values, example.splitters));
    for (unsigned i = 0; i < 5; i++) {
        splitter_lent_step(&run, example_steps[i].kind, example_steps[i].worker, example_steps[i].field, example_steps[i].value);
    }
    expect("save", splitter_lent_save(&run, image, sizeof image));
    fwrite(image, 1, sizeof image, stdout);
}

int main(int argc, char **argv) {
    const size_t all = sizeof searches / sizeof searches[0];
    unsigned long records = 0;
    if (argc == 2 && strcmp(argv[1], "image") == 0) {
        print_image();
        return 0;
    }
    record_example();
    for (size_t i = 0; i < all; i++) {
        record(&searches[i]);
    }
    for (unsigned i = 0; i <= SPLITTER_FOLDED; i++) {
        records += counts[i];
        if (counts[i] > 0) {
            fprintf(stderr, "%u: %lu\n", i, counts[i]);
        }
    }
    for (unsigned i = 0; i <= SPLITTER_WAITS; i++) {
        fprintf(stderr, "102 %u: %lu\n", i, outcomes[i]);
    }
    fprintf(stderr, "%zu searches, %lu records, %lu points\n", all + 1, records, points);
    return 0;
}
