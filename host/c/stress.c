/* Random runs through the archive, every answer compared with the plain machine's. Usage: stress [RUNS [SEED]].
 *
 * Beyond the answers: words around the state, past each other slice and past the last whole node never change; the work slice is zero
 * after each call; a refused call or step leaves state, table and pool as they were; a wrong count of holders, a wrong link to a sibling,
 * a total while Main lives and another table length are refused, and so is a part of the state with another length. The views of the
 * frames in deques and the totals are the plain machine's. Runs in tables of any length begin in garbage; they are saved and read back
 * into garbage, and go on as the plain machine of that moment does. Half of them begin with the report of a tape: its words and the clocks
 * of all live frames are the plain machine's, and the run goes on. */
#include <stdio.h>
#include <stdlib.h>
#include <string.h>

#include "checked.h"

enum { NODES = 1024, PLACES = SPLITTER_MAX_PLACES, GUARD = 3, STEPS = 300, RECORDS = 20, REPORTED = 600 };
#define GUARD_WORD 0xdeadbeefu

static struct {
    uint32_t before[GUARD];
    struct splitter_state state;
    uint32_t after[GUARD];
} guarded;
static struct splitter_state *const state = &guarded.state;
static struct splitter_state old_state;
static struct splitter_frame table[PLACES + 1], old_table[PLACES + 1]; /* a record past the longest table stands guard */
static uint32_t pool[NODES * SPLITTER_NODE_WORDS + GUARD], old_pool[NODES * SPLITTER_NODE_WORDS];
static uint32_t work[NODES + GUARD], answers[2 * REPORTED + GUARD], values[SPLITTER_MAX_SPLITTERS];
static uint64_t clocks[SPLITTER_CLOCKS_WORDS(PLACES) + GUARD];
static struct checked run;
static uint8_t image[SPLITTER_IMAGE_BYTES(PLACES, NODES) + GUARD], spare[SPLITTER_IMAGE_BYTES(PLACES, NODES)];
static size_t image_len;         /* of the run's last save, or 0 */
static struct plain saved_plain; /* the plain machine of that moment */
static unsigned long counts[SPLITTER_FOLDED + 1];  /* by first answer word */
static unsigned long outcomes[SPLITTER_WAITS + 1]; /* of returns */
static unsigned long chains[SPLITTER_WAITS + 1];   /* of those by which more than one frame ended */
static unsigned long siblings; /* runs in which a frame had three live children or more at some time */
static unsigned long totals;   /* runs whose totals were compared */
static unsigned long full;     /* runs with a full table of more than 64 places */
static unsigned long reports;  /* tapes that Main's return ended, with a report */

static uint32_t seed;

/* Xorshift: a number below the bound. */
static uint32_t any(uint32_t below) {
    seed ^= seed << 13;
    seed ^= seed >> 17;
    seed ^= seed << 5;
    return (uint32_t)((uint64_t)seed * below >> 32);
}

static void guard(uint32_t *words) {
    for (unsigned i = 0; i < GUARD; i++) {
        words[i] = GUARD_WORD;
    }
}

static void check_guard(const uint32_t *words, const char *what) {
    for (unsigned i = 0; i < GUARD; i++) {
        if (words[i] != GUARD_WORD) {
            surprise(what);
        }
    }
}

/* The view of a frame in a deque, in the library's place and in the plain machine's. */
static void check_view(unsigned worker, unsigned i) {
    const struct splitter_frame *frame = &table[state->deques[worker * (1 + SPLITTER_DEQUE_PLACES) + 1 + i]];
    const struct plain_view *wanted = &run.plain.frames[run.plain.deques[worker][i]].view;
    same("view: sum", frame->view_sum, wanted->sum);
    same("view: minimum", frame->view_min, wanted->min);
    same("view: multiplier", frame->view_multiplier, wanted->multiplier);
    same("view: addend", frame->view_addend, wanted->addend);
}

/* After every call: the views, and the totals once Main has returned. */
static void check_views(void) {
    for (unsigned worker = 0; worker < run.plain.workers; worker++) {
        for (unsigned i = 0; i < run.plain.lengths[worker]; i++) {
            check_view(worker, i);
        }
    }
    if (run.plain.live == 0) {
        checked_totals(&run);
        totals += 1;
    }
}

static unsigned most_children(void) {
    unsigned most = 0;
    for (const struct plain_frame *frame = run.plain.frames; frame < run.plain.frames + run.plain.places; frame++) {
        most = frame->live && frame->children > most ? frame->children : most;
    }
    return most;
}

static void soil_frames(unsigned from, unsigned end) {
    memset(table + from, 0x96, (end - from) * sizeof table[0]);
}

/* The records past the lent table. */
static void check_garbage_frames(unsigned from) {
    for (unsigned place = from; place <= PLACES; place++) {
        if (table[place].live != 0x96969696u || table[place].younger != 0x96969696u) {
            surprise("a record past the table changed");
        }
    }
}

/* After every call. */
static void check_memory(void) {
    check_guard(guarded.before, "words before the state changed");
    check_guard(guarded.after, "words past the state changed");
    check_garbage_frames((unsigned)run.lent.places);
    check_guard(run.lent.pool + run.plain.nodes * SPLITTER_NODE_WORDS, "words past the last whole node changed");
    check_guard(run.lent.work + run.lent.work_len, "words past the work slice changed");
    for (size_t i = 0; i < run.lent.work_len; i++) {
        if (run.lent.work[i] != 0) {
            surprise("the work slice is not zero");
        }
    }
}

/* The check must not rely on what the work slice holds. */
static void soil_work(void) {
    memset(work, 0xa5, (size_t)run.lent.work_len * sizeof work[0]);
}

static void remember(void) {
    old_state = *state;
    memcpy(old_table, table, sizeof old_table);
    memcpy(old_pool, pool, sizeof old_pool);
}

static void check_unchanged(void) {
    if (memcmp(&old_state, state, sizeof old_state) != 0 || memcmp(old_table, table, sizeof old_table) != 0
        || memcmp(old_pool, pool, sizeof old_pool) != 0) {
        surprise("a refused step changed state, table or pool");
    }
}

struct step {
    uint32_t kind, worker, field, value;
};

/* Mostly a step that could be accepted, now and then any record at all. */
static struct step any_step(void) {
    struct step junk = {any(256), any(256), any(65536), any(3)};
    struct step step = {SPLITTER_STEP_SPAWN + any(7), any(run.plain.workers), 0, 0};
    if (any(50) == 0) {
        return junk;
    }
    if (run.plain.lengths[step.worker] == 0 && any(8) != 0) {
        step.kind = SPLITTER_STEP_STEAL;
    }
    if (step.kind == SPLITTER_STEP_RETURN && any(2) == 0) {
        step.kind = SPLITTER_STEP_SPAWN;
    }
    if (step.kind == SPLITTER_STEP_STEAL) {
        step.field = any(run.plain.workers + 1);
    }
    if (step.kind == SPLITTER_STEP_READ || step.kind == SPLITTER_STEP_WRITE) {
        step.field = any(30) == 0 ? any(65536) : any(run.plain.splitters);
    }
    step.value = step.kind == SPLITTER_STEP_WRITE ? any(4) : 0;
    if (step.kind == SPLITTER_STEP_FOLD) {
        step.field = any(30) == 0 ? any(65536) : any(SPLITTER_REDUCERS);
        step.value = any(UINT32_MAX) | 65536; /* a map with an odd multiplier loses no earlier one */
    }
    return step;
}

/* Counts the outcome of a return, and whether waiting frames ended with the returning one. */
static void count_outcome(uint64_t answer, unsigned live_before) {
    if (splitter_answer_kind(answer) == SPLITTER_RETURNED) {
        outcomes[splitter_answer_number(answer)] += 1;
        chains[splitter_answer_number(answer)] += live_before > run.plain.live + 1;
    }
}

static void stress_step(void) {
    struct step s = any_step();
    unsigned live_before = run.plain.live;
    soil_work();
    remember();
    uint64_t wanted = plain_step(&run.plain, s.kind, s.worker, s.field, s.value);
    count_outcome(wanted, live_before);
    same("step", splitter_lent_step(&run.lent, s.kind, s.worker, s.field, s.value), wanted);
    counts[splitter_answer_kind(wanted)] += 1;
    if (splitter_answer_kind(wanted) < SPLITTER_SPAWNED) {
        check_unchanged();
    }
}

static void stress_tape(void) {
    uint8_t tape[RECORDS * SPLITTER_RECORD_BYTES], *at = tape;
    unsigned records = any(RECORDS + 1);
    for (unsigned i = 0; i < records; i++) {
        struct step s = any_step();
        at = splitter_put_record(at, (uint8_t)s.kind, (uint8_t)s.worker, (uint16_t)s.field, s.value);
    }
    soil_work();
    guard(answers + 2 * records);
    checked_tape(&run, tape, records * SPLITTER_RECORD_BYTES, answers, 2 * records);
    check_guard(answers + 2 * records, "words past the answers changed");
    for (unsigned i = 0; i < records; i++) {
        counts[answers[2 * i]] += 1;
    }
}

/* Any step at all, with state or pool refused before it: nothing changes. */
static void stress_refused(const struct splitter_lent *lent, uint32_t wanted) {
    struct step s = any_step();
    remember();
    same("refused", splitter_lent_step(lent, s.kind, s.worker, s.field, s.value), wanted);
    check_unchanged();
    counts[wanted] += 1;
}

/* A word that is never sound with another bit: a count of holders and a link to a sibling, in use or free; a total, which is zero while
 * Main lives; the recorded length of the table. */
static uint32_t *any_settled_word(void) {
    switch (any(5)) {
    case 0: return &table[any(run.plain.places)].younger;
    case 4: return &state->numbers[SPLITTER_NUMBER_PLACES];
    case 1: return &state->numbers[SPLITTER_NUMBER_TOTAL_SUM + any(4)];
    default: return &pool[any(run.plain.nodes) * SPLITTER_NODE_WORDS];
    }
}

static void stress_unsound(void) {
    uint32_t *word = any_settled_word(), bit = 1u << any(32);
    *word ^= bit;
    soil_work();
    stress_refused(&run.lent, SPLITTER_UNSOUND);
    *word ^= bit;
}

/* A table of another length than recorded. */
static void stress_other_table(void) {
    struct splitter_lent lent = run.lent;
    lent.places = any(PLACES + 1);
    lent.places += lent.places == run.lent.places ? 1 : 0;
    soil_work();
    stress_refused(&lent, SPLITTER_UNSOUND);
}

static void stress_short_work(void) {
    struct splitter_lent lent = run.lent;
    lent.work_len = any(run.plain.nodes);
    stress_refused(&lent, SPLITTER_SHORT_WORK);
}

/* State, table and pool are only read; the bytes past the image stay. */
static void stress_save(void) {
    image_len = (size_t)splitter_image_bytes(run.plain.places, run.plain.nodes);
    memset(image, 0x5a, sizeof image);
    soil_work();
    remember();
    same("save", splitter_lent_save(&run.lent, image, image_len + any(GUARD + 1)), SPLITTER_OK);
    check_unchanged();
    for (unsigned i = 0; i < GUARD; i++) {
        same("byte past the image", image[image_len + i], 0x5a);
    }
    saved_plain = run.plain;
}

/* Whatever state, table and pool hold, the run is the saved one again. */
static void stress_load(void) {
    memset(state, 0xa5, sizeof *state);
    soil_frames(0, run.plain.places);
    memset(pool, 0xa5, run.plain.nodes * SPLITTER_NODE_WORDS * sizeof pool[0]);
    soil_work();
    same("load", splitter_lent_load(&run.lent, image, image_len), SPLITTER_OK);
    run.plain = saved_plain;
}

/* A bit of the image or of its length is wrong: a state of zeros, and table and pool as they were. Then the right image. */
static void stress_bad_image(void) {
    static const struct splitter_state zeros;
    size_t len = image_len;
    remember();
    memcpy(spare, image, image_len);
    if (any(2) == 0) {
        len = any((uint32_t)image_len);
    } else {
        size_t from = SPLITTER_BLOCK_BYTES - 4; /* the first block's check; its data tell how long the image is */
        spare[from + any((uint32_t)(image_len - from))] ^= (uint8_t)(1u << any(8));
    }
    uint32_t wanted = len < image_len ? SPLITTER_BAD_BLOCKS : SPLITTER_BAD_CHECK;
    same("bad image", splitter_lent_load(&run.lent, spare, len), wanted);
    if (memcmp(state, &zeros, sizeof zeros) != 0) {
        surprise("a refused reading left a state");
    }
    old_state = zeros;
    check_unchanged();
    counts[wanted] += 1;
    stress_load();
}

static void stress_short_target(void) {
    size_t len = any((uint32_t)splitter_image_bytes(run.plain.places, run.plain.nodes));
    memset(spare, 0x5a, sizeof spare);
    soil_work();
    remember();
    same("short target", splitter_lent_save(&run.lent, spare, len), SPLITTER_SHORT_TARGET);
    check_unchanged();
    for (size_t i = 0; i < sizeof spare; i++) {
        same("byte of a target too short", spare[i], 0x5a);
    }
    counts[SPLITTER_SHORT_TARGET] += 1;
}

static void stress_image(void) {
    switch (image_len == 0 ? 0 : any(4)) {
    case 0: stress_save(); break;
    case 1: stress_load(); break;
    case 2: stress_bad_image(); break;
    default: stress_short_target(); break;
    }
}

/* The six calls over parts of these lengths, one of them wrong; other refusals' conditions may hold as well. */
static void call_bad_state(uint32_t *const parts[2], const size_t lengths[2]) {
    const uint8_t tape[SPLITTER_RECORD_BYTES] = {0};
    uint32_t words[2] = {GUARD_WORD, GUARD_WORD};
    const struct splitter_lent *lent = &run.lent;
    const splitter_len places = any(PLACES + 2);
    struct step s = any_step();
    same("start", splitter_start(parts[0], lengths[0], parts[1], lengths[1], table, places,
                                 any(10), values, any(3), lent->pool, lent->pool_len), SPLITTER_BAD_STATE);
    same("step", splitter_step(parts[0], lengths[0], parts[1], lengths[1], table, places, lent->pool, lent->pool_len,
                               lent->work, any(2), s.kind, s.worker, s.field, s.value), SPLITTER_BAD_STATE);
    same("tape", splitter_tape(parts[0], lengths[0], parts[1], lengths[1], table, places, lent->pool, lent->pool_len,
                               lent->work, any(2), tape, 7 + any(2), words, any(3)), SPLITTER_BAD_STATE);
    same("save", splitter_save(parts[0], lengths[0], parts[1], lengths[1], table, places, lent->pool, lent->pool_len,
                               lent->work, any(2), image, any(2)), SPLITTER_BAD_STATE);
    same("load", splitter_load(parts[0], lengths[0], parts[1], lengths[1], table, places, lent->pool, lent->pool_len,
                               lent->work, any(2), image, image_len - any(2) * (image_len > 0)), SPLITTER_BAD_STATE);
    same("convert", splitter_convert(parts[0], lengths[0], parts[1], lengths[1], table, places, lent->pool, lent->pool_len,
                                     lent->work, any(2)), SPLITTER_BAD_STATE);
    if (words[0] != GUARD_WORD || words[1] != GUARD_WORD) {
        surprise("a refused tape changed its answers");
    }
    counts[SPLITTER_BAD_STATE] += 6;
}

/* Any other length of a part, shorter or longer: nothing changes. */
static void stress_bad_state(void) {
    static uint32_t longer[SPLITTER_DEQUES_WORDS + GUARD]; /* apart, for slices must not overlap; always zero */
    uint32_t *parts[2] = {state->numbers, state->deques};
    size_t lengths[2] = {SPLITTER_NUMBERS_WORDS, SPLITTER_DEQUES_WORDS};
    unsigned part = any(2);
    if (any(2) == 0) {
        lengths[part] = any((uint32_t)lengths[part]);
    } else {
        parts[part] = longer;
        lengths[part] += 1 + any(GUARD);
    }
    remember();
    call_bad_state(parts, lengths);
    check_unchanged();
    for (size_t i = 0; i < sizeof longer / sizeof longer[0]; i++) {
        if (longer[i] != 0) {
            surprise("a refused call changed a part of the state");
        }
    }
}

static void stress_call(void) {
    switch (any(40)) {
    case 0: any(4) != 0 ? stress_unsound() : stress_other_table(); break;
    case 1: stress_short_work(); break;
    case 2: stress_bad_state(); break;
    case 3:
    case 4: stress_tape(); break;
    case 5: stress_image(); break;
    default: stress_step(); break;
    }
}

/* A table of 0 places or one too many: a state of zeros, and table and pool as they were. */
static void stress_refused_start(unsigned n) {
    static const struct splitter_state zeros;
    splitter_len places = run.lent.places;
    remember();
    old_state = zeros;
    run.lent.places = any(2) * (PLACES + 1);
    same("places", checked_start(&run, 1 + any(SPLITTER_MAX_WORKERS), values, n), SPLITTER_BAD_PLACE_COUNT);
    check_unchanged();
    counts[SPLITTER_BAD_PLACE_COUNT] += 1;
    run.lent.places = places;
}

/* Worker 0 spawns until the table is full. */
static void fill_table(void) {
    while (splitter_answer_kind(checked_spawn(&run, 0)) == SPLITTER_SPAWNED) {
    }
    same("a full table", run.plain.live, run.plain.places);
    same("the last place", table[run.plain.places - 1].depth, run.plain.places - 1);
    full += run.plain.places > 64;
}

/* The clocks of a live frame and of all above it, in the library's places and in the plain machine's. */
static void check_clocks_upward(unsigned place, unsigned plain_place) {
    for (;;) {
        const struct plain_frame *wanted = &run.plain.frames[plain_place];
        same("clock", clocks[2 * place], wanted->clock);
        same("latest of the ended children's", clocks[2 * place + 1], wanted->latest);
        if (wanted->depth == 0) {
            return;
        }
        place = table[place].parent;
        plain_place = wanted->parent;
    }
}

/* Every live frame is the bottom of a deque, or above one. */
static void check_clocks(void) {
    for (unsigned worker = 0; worker < run.plain.workers; worker++) {
        if (run.plain.lengths[worker] > 0) {
            unsigned bottom = run.plain.lengths[worker];
            check_clocks_upward(state->deques[worker * (1 + SPLITTER_DEQUE_PLACES) + bottom], run.plain.deques[worker][bottom - 1]);
        }
    }
    for (unsigned i = 0; i < GUARD; i++) {
        same("word past the clocks", clocks[2 * run.lent.places + i], GUARD_WORD);
    }
}

/* Steps that suit the plain machine, up to Main's return in half of the tapes; the bytes of their records. */
static size_t any_long_tape(uint8_t *tape) {
    const unsigned steps = any(REPORTED / 2), homeward = any(2);
    uint8_t *at = tape;
    for (unsigned i = 0; i < REPORTED && run.plain.live > 0 && (i < steps || homeward); i++) {
        struct step s = any_step(), home = {SPLITTER_STEP_RETURN, i % run.plain.workers, 0, 0};
        s = i < steps ? s : home;
        plain_step(&run.plain, s.kind, s.worker, s.field, s.value);
        at = splitter_put_record(at, (uint8_t)s.kind, (uint8_t)s.worker, (uint16_t)s.field, s.value);
    }
    return (size_t)(at - tape);
}

/* The run begins with a report, and goes on from what that left. */
static void stress_report(unsigned workers, unsigned n) {
    static uint8_t tape[REPORTED * SPLITTER_RECORD_BYTES];
    struct splitter_parallelism report;
    same("start", plain_start(&run.plain, workers, values, n, run.lent.places, run.lent.pool_len / SPLITTER_NODE_WORDS), SPLITTER_OK);
    const size_t len = any_long_tape(tape), words = 2 * len / SPLITTER_RECORD_BYTES;
    soil_work();
    guard(answers + words);
    for (size_t i = 0; i < sizeof clocks / sizeof clocks[0]; i++) {
        clocks[i] = GUARD_WORD;
    }
    uint32_t result = checked_report(&run, workers, values, n, tape, len, answers, words, clocks, &report);
    check_guard(answers + words, "words past the answers changed");
    check_memory();
    check_clocks();
    check_views();
    counts[SPLITTER_NO_SPAN] += result == SPLITTER_NO_SPAN;
    reports += result == SPLITTER_OK;
    for (size_t i = 0; i < words; i += 2) {
        counts[answers[i]] += 1;
    }
}

static void stress_run(void) {
    unsigned n = 1 + any(any(4) == 0 ? SPLITTER_MAX_SPLITTERS : 20);
    unsigned tree = (unsigned)splitter_tree_nodes(n);
    unsigned nodes = tree + any(any(2) == 0 ? 3 * tree : NODES - tree + 1);
    nodes = nodes < NODES ? nodes : NODES;
    unsigned places = 1 + any(any(2) == 0 ? 8 : PLACES);
    struct splitter_lent lent = {state, table, places, pool, nodes * SPLITTER_NODE_WORDS + any(SPLITTER_NODE_WORDS), work, nodes};
    run.lent = lent;
    for (unsigned i = 0; i < n; i++) {
        values[i] = any(5);
    }
    memset(work, 0, sizeof work);
    image_len = 0;
    soil_frames(0, PLACES + 1);
    guard(guarded.before);
    guard(guarded.after);
    guard(pool + nodes * SPLITTER_NODE_WORDS);
    guard(work + lent.work_len);
    stress_refused_start(n);
    if (any(2) == 0) {
        stress_report(1 + any(SPLITTER_MAX_WORKERS), n);
    } else {
        same("start", checked_start(&run, 1 + any(SPLITTER_MAX_WORKERS), values, n), SPLITTER_OK);
        if (any(4) == 0) {
            fill_table();
        }
    }
    unsigned most = 0;
    for (unsigned i = 0; i < STEPS && run.plain.live > 0; i++) {
        stress_call();
        check_memory();
        check_views();
        most = most_children() > most ? most_children() : most;
    }
    siblings += most >= 3;
}

static unsigned long argument(const char *text) {
    char *end;
    unsigned long number = strtoul(text, &end, 10);
    if (*text < '0' || *text > '9' || *end != '\0') {
        fprintf(stderr, "stress: %s is not a number; usage: stress [RUNS [SEED]]\n", text);
        exit(2);
    }
    return number;
}

/* Every outcome of a return has come, and every end of a chain of waiting frames. */
static void check_outcomes(void) {
    for (unsigned outcome = SPLITTER_CONTINUED; outcome <= SPLITTER_WAITS; outcome++) {
        int ends_chains = outcome == SPLITTER_BECAME_IDLE || outcome == SPLITTER_RESUMED || outcome == SPLITTER_FINISHED;
        if (outcomes[outcome] == 0 || ends_chains != (chains[outcome] > 0)) {
            printf("outcome %u: %lu returns, %lu chains\n", outcome, outcomes[outcome], chains[outcome]);
            exit(1);
        }
    }
    if (siblings == 0 || totals == 0 || full == 0 || reports == 0) {
        surprise("no run had three live siblings, more than 64 frames, an end or a report");
    }
}

/* Every answer and refusal of a step has come, or the runs show too little. */
static unsigned long count_answers(void) {
    unsigned long sum = 0;
    for (uint32_t kind = SPLITTER_SHORT_WORK; kind <= SPLITTER_FOLDED; kind++) {
        int comes = (kind <= SPLITTER_NO_SPAN && kind != 14) || kind == SPLITTER_BAD_STATE || kind >= SPLITTER_SPAWNED;
        if (comes && counts[kind] == 0) {
            printf("never answered: %u (%s)\n", kind, splitter_name(kind));
            exit(1);
        }
        sum += counts[kind];
    }
    return sum;
}

int main(int argc, char **argv) {
    unsigned long runs = argc > 1 ? argument(argv[1]) : 500;
    seed = argc > 2 ? (uint32_t)argument(argv[2]) | 1u : 1u;
    for (unsigned long i = 0; i < runs; i++) {
        stress_run();
    }
    printf("stress: %lu random runs, %lu answers, each as the plain machine gives it; three live siblings in %lu runs, totals of %lu, full "
           "tables of more than 64 places in %lu, reports of %lu\n", runs, count_answers(), siblings, totals, full, reports);
    check_outcomes();
    return 0;
}
