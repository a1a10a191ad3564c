/* The header's helpers, and fields wider than a record's. Compiled as C99 and as C++11; prints a line only if something is wrong. */
#include <stdio.h>
#include <string.h>

#include "splitter.h"

enum { PLACES = 4 };

static int failures = 0;

static void expect(int line, uint64_t got, uint64_t wanted) {
    if (got != wanted) {
        printf("header.c:%d: %u %u, expected %u %u\n", line, splitter_answer_kind(got), splitter_answer_number(got),
               splitter_answer_kind(wanted), splitter_answer_number(wanted));
        failures += 1;
    }
}

#define EXPECT(got, wanted) expect(__LINE__, got, wanted)
#define ANSWER(got, kind, number) expect(__LINE__, got, splitter_answer(kind, number))

static void records(void) {
    const uint8_t wanted[SPLITTER_RECORD_BYTES] = {6, 7, 0x02, 0x01, 0x06, 0x05, 0x04, 0x03};
    uint8_t record[SPLITTER_RECORD_BYTES];
    EXPECT(splitter_put_record(record, SPLITTER_STEP_WRITE, 7, 0x0102, 0x03040506) == record + SPLITTER_RECORD_BYTES, 1);
    EXPECT(memcmp(record, wanted, sizeof wanted) == 0, 1);
}

/* Is this a number of the interface? 14 was one before R-3. */
static unsigned is_number(uint32_t i) {
    return (i <= SPLITTER_NO_SPAN && i != 14) || i == SPLITTER_BAD_STATE || (i >= SPLITTER_SPAWNED && i <= SPLITTER_FOLDED);
}

/* Each number of the interface has its own text, and no other number has one. */
static void names(void) {
    unsigned named = 0;
    for (uint32_t i = 0; i < 1000; i++) {
        unsigned known = is_number(i);
        EXPECT(strcmp(splitter_name(i), "unknown number") != 0, known);
        named += known;
        for (uint32_t j = 0; known && j < i; j++) {
            EXPECT(strcmp(splitter_name(i), splitter_name(j)) == 0, 0);
        }
    }
    EXPECT(named, 30);
}

/* Below 100 all but SPLITTER_OK is a refusal, alone and as the first half of a step's result. */
static void refused(void) {
    for (uint32_t i = 0; i < 1000; i++) {
        EXPECT(splitter_refused(i), i > 0 && i < 100);
        EXPECT(splitter_answer_refused(splitter_answer(i, i % 7)), splitter_refused(i));
    }
    EXPECT(splitter_refused(SPLITTER_OK), 0);
    EXPECT(splitter_refused(SPLITTER_BAD_STATE), 1);
    EXPECT(splitter_refused(SPLITTER_SPAWNED), 0);
}

#if SPLITTER_VERSION != SPLITTER_VERSION_MAJOR * 1000 + SPLITTER_VERSION_MINOR
#error "a version that cannot be compared"
#endif

/* The parts lie one after the other, with nothing between them. */
static void layout(void) {
    const size_t word = sizeof(uint32_t);
    EXPECT(offsetof(struct splitter_state, numbers), 0);
    EXPECT(offsetof(struct splitter_state, deques), SPLITTER_NUMBERS_WORDS * word);
    EXPECT(sizeof(struct splitter_state), (SPLITTER_NUMBERS_WORDS + SPLITTER_DEQUES_WORDS) * word);
    EXPECT(SPLITTER_DEQUES_WORDS, SPLITTER_MAX_WORKERS * (1 + SPLITTER_DEQUE_PLACES));
    EXPECT(SPLITTER_DEQUE_PLACES, SPLITTER_MAX_PLACES);
    EXPECT(SPLITTER_NUMBERS_WORDS, SPLITTER_NUMBER_PLACES + 1);
    EXPECT(SPLITTER_REDUCERS, SPLITTER_REDUCER_AFFINE + 1);
    EXPECT(SPLITTER_NODE_WORDS_OLD, 2 * SPLITTER_NODE_WORDS);
    EXPECT(SPLITTER_NONE, UINT32_MAX);
    EXPECT(sizeof(splitter_len), 8);
}

/* The four words of a report one after the other, with nothing between them: the struct can be lent as the slice. */
static void report_layout(void) {
    const size_t word = sizeof(uint64_t);
    EXPECT(sizeof(struct splitter_parallelism), SPLITTER_REPORT_WORDS * word);
    EXPECT(offsetof(struct splitter_parallelism, work), 0);
    EXPECT(offsetof(struct splitter_parallelism, span), word);
    EXPECT(offsetof(struct splitter_parallelism, quotient), 2 * word);
    EXPECT(offsetof(struct splitter_parallelism, remainder), 3 * word);
    EXPECT(SPLITTER_CLOCKS_WORDS(0), 0);
    EXPECT(SPLITTER_CLOCKS_WORDS(1), 2);
    EXPECT(SPLITTER_CLOCKS_WORDS(SPLITTER_MAX_PLACES) * word, 4096);
}

/* A frame record is its words in the order of an image, with nothing between them; an array of them has nothing between the records. */
static void frame_layout(void) {
    struct splitter_frame table[2] = {{0, 1, 2, 3, 4, 5, 6, 7, 8, 9, 10, 11}, {12, 13, 14, 15, 16, 17, 18, 19, 20, 21, 22, 23}};
    uint32_t words[2 * SPLITTER_FRAME_RECORD_WORDS];
    EXPECT(sizeof table, sizeof words);
    memcpy(words, table, sizeof words);
    for (uint32_t i = 0; i < 2 * SPLITTER_FRAME_RECORD_WORDS; i++) {
        EXPECT(words[i], i);
    }
    EXPECT(table[1].live == 12 && table[1].parent == 13 && table[1].depth == 14 && table[1].outstanding == 15, 1);
    EXPECT(table[1].waiting == 16 && table[1].root == 17 && table[1].returning == 18 && table[1].view_sum == 19, 1);
    EXPECT(table[1].view_min == 20 && table[1].view_multiplier == 21 && table[1].view_addend == 22 && table[1].younger == 23, 1);
}

static void sizes(void) {
    EXPECT(splitter_tree_nodes(1), 1);
    EXPECT(splitter_tree_nodes(5), 11);
    EXPECT(splitter_tree_nodes(256), 511);
    EXPECT(splitter_tree_nodes(UINT32_MAX), UINT64_C(8589934590));
    EXPECT(splitter_image_bytes(0, 0), 512);
    EXPECT(splitter_image_bytes(1, 44), 512);  /* 18 + 20 + 88 words, of 127 */
    EXPECT(splitter_image_bytes(1, 45), 1024);
    EXPECT(splitter_image_bytes(64, 49), 5632); /* 18 + 1,280 + 98 words, of 1,397 */
    EXPECT(splitter_image_bytes(64, 50), 6144);
    EXPECT(splitter_image_bytes(256, SPLITTER_MAX_NODES), 153088);
    EXPECT(splitter_image_bytes(UINT32_MAX, UINT32_MAX), 512 * ((18 + 22 * UINT64_C(4294967295) + 126) / 127));
    for (uint32_t nodes = 0; nodes <= SPLITTER_MAX_NODES; nodes++) {
        uint32_t places = nodes % (SPLITTER_MAX_PLACES + 1);
        EXPECT(splitter_image_bytes(places, nodes), SPLITTER_IMAGE_BYTES(places, nodes));
    }
}

static void steps(const struct splitter_lent *lent) {
    ANSWER(splitter_spawn(lent, 0), SPLITTER_SPAWNED, 1);
    ANSWER(splitter_steal(lent, 1, 0), SPLITTER_STOLEN, 0);
    ANSWER(splitter_write(lent, 1, 1, 99), SPLITTER_WRITTEN, 1);
    ANSWER(splitter_read(lent, 0, 1), SPLITTER_VALUE, 20);
    ANSWER(splitter_sync(lent, 1), SPLITTER_SYNCED, SPLITTER_SUSPENDED);
    ANSWER(splitter_return(lent, 0), SPLITTER_RETURNED, SPLITTER_RESUMED);
    ANSWER(splitter_read(lent, 0, 1), SPLITTER_VALUE, 99);
}

/* What the header says of frame records: Main and its child, after Main's return on another worker, and after the child's. */
static void returns(const struct splitter_lent *lent) {
    const struct splitter_frame *main_frame = lent->frames, *child = main_frame + 1;
    ANSWER(splitter_spawn(lent, 0), SPLITTER_SPAWNED, 1);
    ANSWER(splitter_steal(lent, 1, 0), SPLITTER_STOLEN, 0);
    ANSWER(splitter_return(lent, 1), SPLITTER_RETURNED, SPLITTER_WAITS);
    EXPECT(main_frame->live == 1 && main_frame->parent == UINT32_MAX, 1);
    EXPECT(main_frame->outstanding == 1 && main_frame->depth == 0, 1);
    EXPECT(main_frame->waiting == 1 && main_frame->returning == 1, 1);
    EXPECT(child->live == 1 && child->parent == 0 && child->depth == 1, 1);
    EXPECT(child->waiting == 0 && child->returning == 0, 1);
    EXPECT(main_frame->root, child->root);
    ANSWER(splitter_return(lent, 0), SPLITTER_RETURNED, SPLITTER_FINISHED);
    EXPECT(main_frame->live == 0 && main_frame->parent == 1, 1);
    EXPECT(main_frame->waiting == 0 && main_frame->returning == 0, 1);
    ANSWER(splitter_spawn(lent, 0), SPLITTER_RUN_IS_OVER, 0);
}

static void view(const struct splitter_frame *frame, uint32_t sum, uint32_t min, uint32_t multiplier, uint32_t addend) {
    EXPECT(frame->view_sum == sum && frame->view_min == min, 1);
    EXPECT(frame->view_multiplier == multiplier && frame->view_addend == addend, 1);
}

static void totals(const struct splitter_state *state, bool returned, uint32_t sum, uint32_t min, uint32_t multiplier, uint32_t addend) {
    struct splitter_totals got = {7, 7, 7, 7};
    EXPECT(splitter_get_totals(state, &got), returned);
    EXPECT(got.sum == sum && got.min == min, 1);
    EXPECT(got.multiplier == multiplier && got.addend == addend, 1);
}

/* Folds of Main and its child; the child's view after the spawn is Main's, which begins anew. The child ends last and comes first. */
static void folds(const struct splitter_lent *lent) {
    const struct splitter_frame *main_frame = lent->frames, *child = main_frame + 1;
    EXPECT(splitter_affine(3, 1), 3 * 65536 + 1);
    EXPECT(splitter_affine(65535, 65535), UINT32_MAX);
    ANSWER(splitter_fold(lent, 0, SPLITTER_REDUCER_SUM, 5), SPLITTER_FOLDED, 0);
    ANSWER(splitter_fold(lent, 0, SPLITTER_REDUCER_AFFINE, splitter_affine(3, 1)), SPLITTER_FOLDED, 0);
    ANSWER(splitter_fold(lent, 0, SPLITTER_REDUCERS, 5), SPLITTER_UNKNOWN_REDUCER, 0);
    ANSWER(splitter_spawn(lent, 0), SPLITTER_SPAWNED, 1);
    view(child, 5, SPLITTER_NONE, 3, 1);
    view(main_frame, 0, SPLITTER_NONE, 1, 0);
    EXPECT(main_frame->younger == SPLITTER_NONE && child->younger == SPLITTER_NONE, 1); /* no sibling */
    ANSWER(splitter_steal(lent, 1, 0), SPLITTER_STOLEN, 0);
    ANSWER(splitter_fold(lent, 1, SPLITTER_REDUCER_AFFINE, splitter_affine(10, 7)), SPLITTER_FOLDED, 0);
    ANSWER(splitter_return(lent, 1), SPLITTER_RETURNED, SPLITTER_WAITS);
    totals(lent->state, false, 0, 0, 0, 0);
    ANSWER(splitter_fold(lent, 0, SPLITTER_REDUCER_MIN, 9), SPLITTER_FOLDED, 0);
    ANSWER(splitter_return(lent, 0), SPLITTER_RETURNED, SPLITTER_FINISHED);
    totals(lent->state, true, 5, 9, 30, 17); /* x to 3 x + 1, then to 10 times that plus 7 */
}

/* Free nodes of a run with 6 nodes, 3 of them Main's; of a pool with a node too few, and of numbers with a word too few. */
static void free_nodes(const struct splitter_lent *lent) {
    EXPECT(splitter_lent_free_nodes(lent), 3);
    EXPECT(splitter_state_free_nodes(lent->state, lent->pool, lent->pool_len), 3);
    EXPECT(splitter_state_free_nodes(lent->state, lent->pool, lent->pool_len - 1), 0);
    EXPECT(splitter_free_nodes(lent->state->numbers, SPLITTER_NUMBERS_WORDS - 1, lent->pool, lent->pool_len), 0);
}

/* The numbers after a start with 2 workers, 2 splitters, 4 places and 6 nodes: 3 are Main's, and Main has place 0. */
static void numbers(const struct splitter_state *state) {
    EXPECT(state->numbers[SPLITTER_NUMBER_WORKERS], 2);
    EXPECT(state->numbers[SPLITTER_NUMBER_SPLITTERS], 2);
    EXPECT(state->numbers[SPLITTER_NUMBER_NODES], 6);
    EXPECT(state->numbers[SPLITTER_NUMBER_FREE_NODE], 3);
    EXPECT(state->numbers[SPLITTER_NUMBER_FREE_FRAME], 1);
    EXPECT(state->numbers[SPLITTER_NUMBER_TOTAL_SUM] | state->numbers[SPLITTER_NUMBER_TOTAL_MIN], 0);
    EXPECT(state->numbers[SPLITTER_NUMBER_TOTAL_MULTIPLIER] | state->numbers[SPLITTER_NUMBER_TOTAL_ADDEND], 0);
    EXPECT(state->numbers[SPLITTER_NUMBER_PLACES], PLACES);
    EXPECT(splitter_places(state), PLACES);
}

/* The calls over a state go on with the run that the calls over lent memory began, and the other way. */
static void tapes(const struct splitter_lent *lent) {
    const uint8_t tape[SPLITTER_RECORD_BYTES] = {SPLITTER_STEP_READ, 0, 1};
    uint32_t answers[4] = {0, 0, 7, 7};
    EXPECT(splitter_lent_tape(lent, tape, sizeof tape, answers, 4), SPLITTER_OK);
    EXPECT(splitter_state_tape(lent->state, lent->frames, lent->places, lent->pool, lent->pool_len, lent->work, lent->work_len,
                               tape, sizeof tape, answers + 2, 2), SPLITTER_OK);
    ANSWER(splitter_answer(answers[0], answers[1]), SPLITTER_VALUE, 99);
    ANSWER(splitter_answer(answers[2], answers[3]), SPLITTER_VALUE, 99);
    ANSWER(splitter_state_step(lent->state, lent->frames, lent->places, lent->pool, lent->pool_len, lent->work, lent->work_len,
                               SPLITTER_STEP_READ, 0, 0, 0), SPLITTER_VALUE, 10);
}

/* A run saved over lent memory and read over a state, and the other way; both images are the same, and go on. */
static void images(const struct splitter_lent *lent) {
    static uint8_t image[SPLITTER_IMAGE_BYTES(PLACES, 6)], again[SPLITTER_IMAGE_BYTES(PLACES, 6) + 1];
    again[sizeof image] = 7;
    EXPECT(splitter_lent_save(lent, image, sizeof image - 1), SPLITTER_SHORT_TARGET);
    EXPECT(splitter_lent_save(lent, image, sizeof image), SPLITTER_OK);
    EXPECT(splitter_state_load(lent->state, lent->frames, lent->places, lent->pool, lent->pool_len, lent->work, lent->work_len,
                               image, sizeof image - 1), SPLITTER_BAD_BLOCKS);
    EXPECT(lent->state->numbers[SPLITTER_NUMBER_WORKERS], 0);
    EXPECT(splitter_state_load(lent->state, lent->frames, lent->places, lent->pool, lent->pool_len, lent->work, lent->work_len,
                               image, sizeof image), SPLITTER_OK);
    EXPECT(image[36], PLACES); /* word SPLITTER_NUMBER_PLACES */
    EXPECT(image[0] | (uint32_t)image[1] << 8, SPLITTER_IMAGE_VERSION + lent->state->numbers[SPLITTER_NUMBER_WORKERS]);
    EXPECT(splitter_state_save(lent->state, lent->frames, lent->places, lent->pool, lent->pool_len, lent->work, lent->work_len,
                               again, sizeof again), SPLITTER_OK);
    EXPECT(memcmp(image, again, sizeof image) == 0 && again[sizeof image] == 7, 1);
    ANSWER(splitter_write(lent, 0, 1, 98), SPLITTER_WRITTEN, 3);
    EXPECT(splitter_lent_load(lent, again, sizeof image), SPLITTER_OK);
    ANSWER(splitter_read(lent, 0, 1), SPLITTER_VALUE, 99);
}

/* A start's nodes in four words, changed over by lent memory and by a state; the run goes on. State and table are those of the same start. */
static void change_overs(const struct splitter_lent *lent) {
    static const uint32_t values[2] = {10, 20}, none = SPLITTER_NONE;
    const uint32_t old[6 * SPLITTER_NODE_WORDS_OLD + 1] = {1, 1, 2, 0, 1, none, none, 10, 1, none, none, 20,
                                                           0, 4, 0, 0, 0, 5, 0, 0, 0, none, 0, 0, 7};
    uint32_t pool[6 * SPLITTER_NODE_WORDS_OLD + 1];
    const struct splitter_lent changed = {lent->state, lent->frames, lent->places, pool, 6 * SPLITTER_NODE_WORDS_OLD, lent->work, 6};
    EXPECT(splitter_lent_start(lent, 2, values, 2), SPLITTER_OK);
    memcpy(pool, old, sizeof pool);
    EXPECT(splitter_state_convert(lent->state, lent->frames, lent->places, pool, 6 * SPLITTER_NODE_WORDS_OLD, lent->work, 5), SPLITTER_SHORT_WORK);
    EXPECT(splitter_state_convert(lent->state, lent->frames, lent->places, pool, 6 * SPLITTER_NODE_WORDS_OLD - 1, lent->work, 6), SPLITTER_UNSOUND);
    EXPECT(splitter_state_convert(lent->state, lent->frames, lent->places - 1, pool, 6 * SPLITTER_NODE_WORDS_OLD, lent->work, 6), SPLITTER_UNSOUND);
    EXPECT(splitter_lent_convert(lent), SPLITTER_UNSOUND); /* present nodes */
    EXPECT(memcmp(pool, old, sizeof pool) == 0, 1);
    EXPECT(splitter_state_convert(lent->state, lent->frames, lent->places, pool, 6 * SPLITTER_NODE_WORDS_OLD, lent->work, 6), SPLITTER_OK);
    EXPECT(memcmp(pool, lent->pool, 6 * SPLITTER_NODE_WORDS * sizeof pool[0]) == 0, 1);
    for (uint32_t i = 6 * SPLITTER_NODE_WORDS; i < 6 * SPLITTER_NODE_WORDS_OLD; i++) {
        EXPECT(pool[i], 0);
    }
    EXPECT(splitter_lent_convert(&changed), SPLITTER_UNSOUND); /* once more */
    EXPECT(memcmp(pool, lent->pool, 6 * SPLITTER_NODE_WORDS * sizeof pool[0]) == 0 && pool[6 * SPLITTER_NODE_WORDS_OLD] == 7, 1);
    memcpy(pool, old, sizeof pool);
    EXPECT(splitter_lent_convert(&changed), SPLITTER_OK);
    steps(&changed);
}

/* NULL for each slice of a change-over, with lengths 0 and not 0; nothing changes. */
static void nulls_of_change_overs(const struct splitter_lent *lent) {
    for (splitter_len len = 0; len <= 24; len += 24) {
        const struct splitter_lent no_table = {lent->state, NULL, len, lent->pool, lent->pool_len, lent->work, lent->work_len};
        const struct splitter_lent no_pool = {lent->state, lent->frames, lent->places, NULL, len, lent->work, lent->work_len};
        const struct splitter_lent no_work = {lent->state, lent->frames, lent->places, lent->pool, lent->pool_len, NULL, len};
        const struct splitter_lent neither = {lent->state, lent->frames, lent->places, NULL, len, NULL, len};
        EXPECT(splitter_lent_convert(&no_table), SPLITTER_UNSOUND);
        EXPECT(splitter_lent_convert(&no_pool), SPLITTER_UNSOUND);
        EXPECT(splitter_lent_convert(&no_work), SPLITTER_SHORT_WORK);
        EXPECT(splitter_lent_convert(&neither), SPLITTER_SHORT_WORK);
    }
}

/* A step's arguments are words: none is cut down to a record's field. */
static void wide_fields(const struct splitter_lent *lent) {
    ANSWER(splitter_lent_step(lent, 256 + SPLITTER_STEP_SPAWN, 0, 0, 0), SPLITTER_BAD_RECORD, 0);
    ANSWER(splitter_lent_step(lent, 0, 0, 0, 0), SPLITTER_BAD_RECORD, 0);
    ANSWER(splitter_lent_step(lent, SPLITTER_STEP_SPAWN, 256, 0, 0), SPLITTER_UNKNOWN_WORKER, 0);
    ANSWER(splitter_lent_step(lent, SPLITTER_STEP_SPAWN, 0, 65536, 0), SPLITTER_BAD_RECORD, 0);
    ANSWER(splitter_lent_step(lent, SPLITTER_STEP_SYNC, 0, 0, 1), SPLITTER_BAD_RECORD, 0);
    ANSWER(splitter_lent_step(lent, SPLITTER_STEP_STEAL, 1, 65536, 0), SPLITTER_NOTHING_TO_STEAL, 0);
    ANSWER(splitter_lent_step(lent, SPLITTER_STEP_READ, 0, 65537, 0), SPLITTER_UNKNOWN_SPLITTER, 0);
    ANSWER(splitter_lent_step(lent, SPLITTER_STEP_WRITE, 0, 65537, 7), SPLITTER_UNKNOWN_SPLITTER, 0);
    ANSWER(splitter_lent_step(lent, SPLITTER_STEP_FOLD, 0, 65536, 7), SPLITTER_UNKNOWN_REDUCER, 0);
    ANSWER(splitter_lent_step(lent, SPLITTER_STEP_FOLD + 1, 0, 0, 0), SPLITTER_BAD_RECORD, 0);
}

/* NULL for each slice, with lengths 0 and not 0, of a run with 6 nodes: taken where the slice may be empty, else refused. */
static void nulls(const struct splitter_lent *lent) {
    const uint8_t tape[SPLITTER_RECORD_BYTES] = {SPLITTER_STEP_READ, 0, 1};
    uint32_t answers[2] = {7, 7};
    for (splitter_len len = 0; len <= 24; len += 24) {
        const struct splitter_lent no_table = {lent->state, NULL, len, lent->pool, lent->pool_len, lent->work, lent->work_len};
        const struct splitter_lent no_pool = {lent->state, lent->frames, lent->places, NULL, len, lent->work, lent->work_len};
        const struct splitter_lent no_work = {lent->state, lent->frames, lent->places, lent->pool, lent->pool_len, NULL, len};
        const struct splitter_lent neither = {lent->state, lent->frames, lent->places, NULL, len, NULL, len};
        ANSWER(splitter_read(&no_table, 0, 1), SPLITTER_UNSOUND, 0);
        EXPECT(splitter_lent_tape(&no_table, NULL, 0, NULL, len), SPLITTER_UNSOUND);
        EXPECT(splitter_lent_save(&no_table, NULL, len), SPLITTER_UNSOUND);
        EXPECT(splitter_lent_live_frames(&no_table), 0);
        EXPECT(splitter_lent_bottom_depth(&no_table, 0), SPLITTER_NONE);
        ANSWER(splitter_read(&no_pool, 0, 1), SPLITTER_UNSOUND, 0);
        ANSWER(splitter_read(&no_work, 0, 1), SPLITTER_SHORT_WORK, 0);
        ANSWER(splitter_read(&neither, 0, 1), SPLITTER_SHORT_WORK, 0);
        EXPECT(splitter_lent_tape(&no_pool, NULL, 0, NULL, len), SPLITTER_UNSOUND);
        EXPECT(splitter_lent_tape(&neither, NULL, 0, NULL, len), SPLITTER_SHORT_WORK);
        EXPECT(splitter_lent_tape(lent, NULL, 0, NULL, len), SPLITTER_OK);
        EXPECT(splitter_refused(splitter_lent_tape(lent, NULL, len, answers, 2)), len != 0);
        EXPECT(splitter_lent_tape(lent, tape, sizeof tape, NULL, len), SPLITTER_BAD_TAPE);
        EXPECT(splitter_lent_save(lent, NULL, len), SPLITTER_SHORT_TARGET);
        EXPECT(splitter_lent_save(&no_pool, NULL, len), SPLITTER_UNSOUND);
        EXPECT(splitter_lent_save(&no_work, NULL, len), SPLITTER_SHORT_WORK);
    }
    EXPECT(splitter_state_free_nodes(lent->state, NULL, lent->pool_len), 0);
    EXPECT(answers[0] == 7 && answers[1] == 7, 1);
    ANSWER(splitter_read(lent, 0, 1), SPLITTER_VALUE, 20);
}

/* The same of the calls that clear the state when they are refused. */
static void nulls_that_clear(const struct splitter_lent *lent) {
    static const uint32_t values[2] = {10, 20};
    static uint8_t image[SPLITTER_IMAGE_BYTES(PLACES, 6)];
    EXPECT(splitter_lent_save(lent, image, sizeof image), SPLITTER_OK);
    for (splitter_len len = 0; len <= 24; len += 24) {
        const struct splitter_lent no_table = {lent->state, NULL, len, lent->pool, lent->pool_len, lent->work, lent->work_len};
        const struct splitter_lent no_pool = {lent->state, lent->frames, lent->places, NULL, len, lent->work, lent->work_len};
        const struct splitter_lent no_work = {lent->state, lent->frames, lent->places, lent->pool, lent->pool_len, NULL, len};
        EXPECT(splitter_lent_start(&no_table, 2, values, 2), SPLITTER_BAD_PLACE_COUNT);
        EXPECT(splitter_lent_start(lent, 2, NULL, len), SPLITTER_BAD_VALUE_COUNT);
        EXPECT(splitter_lent_start(&no_pool, 2, values, 2), SPLITTER_BAD_NODE_COUNT);
        EXPECT(splitter_lent_start(&no_work, 2, values, 2), SPLITTER_OK);
        EXPECT(splitter_lent_load(lent, NULL, len), SPLITTER_BAD_BLOCKS);
        EXPECT(splitter_lent_load(&no_table, image, sizeof image), SPLITTER_UNSOUND);
        EXPECT(splitter_lent_load(&no_pool, image, sizeof image), SPLITTER_UNSOUND);
        EXPECT(splitter_lent_load(&no_work, image, sizeof image), SPLITTER_SHORT_WORK);
    }
}

/* The words of a report; then it holds others again. */
static void parallelism(struct splitter_parallelism *report, uint64_t work, uint64_t span, uint64_t quotient, uint64_t remainder) {
    EXPECT(report->work, work);
    EXPECT(report->span, span);
    EXPECT(report->quotient, quotient);
    EXPECT(report->remainder, remainder);
    report->work = report->span = report->quotient = report->remainder = 7;
}

/* Main spawns; it syncs while its child reads twice, reads and returns. Work 5, span 1 + 2 + 1 + 1. */
static void write_tape(uint8_t *at) {
    at = splitter_put_record(at, SPLITTER_STEP_SPAWN, 0, 0, 0);
    at = splitter_put_record(at, SPLITTER_STEP_STEAL, 1, 0, 0);
    at = splitter_put_record(at, SPLITTER_STEP_SYNC, 1, 0, 0);
    at = splitter_put_record(at, SPLITTER_STEP_READ, 0, 0, 0);
    at = splitter_put_record(at, SPLITTER_STEP_READ, 0, 1, 0);
    at = splitter_put_record(at, SPLITTER_STEP_RETURN, 0, 0, 0);
    at = splitter_put_record(at, SPLITTER_STEP_READ, 0, 1, 0);
    splitter_put_record(at, SPLITTER_STEP_RETURN, 0, 0, 0);
}

/* Its report: over lent memory, over a state, and with the struct lent as the slice. Then some that are refused. */
static void reports(const struct splitter_lent *lent) {
    static const uint32_t values[2] = {10, 20};
    const splitter_len len = SPLITTER_CLOCKS_WORDS(PLACES);
    uint8_t tape[8 * SPLITTER_RECORD_BYTES];
    uint32_t answers[16];
    uint64_t clocks[SPLITTER_CLOCKS_WORDS(PLACES)];
    struct splitter_parallelism report = {7, 7, 7, 7};
    write_tape(tape);
    EXPECT(splitter_lent_report(lent, 2, values, 2, tape, sizeof tape, answers, 16, clocks, len, &report), SPLITTER_OK);
    parallelism(&report, 5, 5, 1, 0);
    EXPECT(splitter_lent_main_returned(lent), 1);
    EXPECT(clocks[0] == 5 && clocks[1] == 3 && clocks[2] == 3 && clocks[3] == 0 && clocks[4] == 0, 1);
    EXPECT(splitter_state_report(lent->state, lent->frames, lent->places, 2, values, 2, lent->pool, lent->pool_len,
                                 lent->work, lent->work_len, tape, sizeof tape, answers, 16, clocks, len, &report), SPLITTER_OK);
    parallelism(&report, 5, 5, 1, 0);
    EXPECT(splitter_report(lent->state->numbers, SPLITTER_NUMBERS_WORDS, lent->state->deques, SPLITTER_DEQUES_WORDS,
                           lent->frames, lent->places, 2, values, 2, lent->pool, lent->pool_len, lent->work, lent->work_len,
                           tape, sizeof tape, answers, 16, clocks, len, (uint64_t *)&report, SPLITTER_REPORT_WORDS), SPLITTER_OK);
    parallelism(&report, 5, 5, 1, 0);
    EXPECT(splitter_lent_report(lent, 2, values, 2, tape, sizeof tape, answers, 16, clocks, len - 1, &report), SPLITTER_BAD_STATE);
    EXPECT(splitter_lent_report(lent, 2, values, 2, tape, sizeof tape, answers, 16, clocks, len + 1, &report), SPLITTER_BAD_STATE);
    EXPECT(splitter_lent_workers(lent), 2); /* as it was */
    EXPECT(splitter_lent_report(lent, 2, values, 2, tape, sizeof tape, answers, 15, clocks, len, &report), SPLITTER_BAD_TAPE);
    EXPECT(splitter_lent_workers(lent), 0);
    EXPECT(splitter_lent_report(lent, 2, values, 2, tape, 8, answers, 16, clocks, len, &report), SPLITTER_NO_SPAN);
    parallelism(&report, 7, 7, 7, 7);
    EXPECT(splitter_lent_workers(lent) == 2 && splitter_lent_live_frames(lent) == 2, 1);
    ANSWER(splitter_steal(lent, 1, 0), SPLITTER_STOLEN, 0); /* the run goes on */
}

/* NULL for each slice of a report, with lengths 0 and not 0; the conditions before are looked for first, and the state is cleared. */
static void nulls_of_reports(const struct splitter_lent *lent) {
    static const uint32_t values[2] = {10, 20};
    const uint8_t tape[SPLITTER_RECORD_BYTES] = {SPLITTER_STEP_READ, 0, 1};
    const splitter_len clocks_len = SPLITTER_CLOCKS_WORDS(PLACES);
    uint32_t answers[2] = {7, 7};
    uint64_t clocks[SPLITTER_CLOCKS_WORDS(PLACES)];
    struct splitter_parallelism report = {7, 7, 7, 7};
    for (splitter_len len = 0; len <= 24; len += 24) {
        const struct splitter_lent no_table = {lent->state, NULL, len, lent->pool, lent->pool_len, lent->work, lent->work_len};
        const struct splitter_lent no_pool = {lent->state, lent->frames, lent->places, NULL, len, lent->work, lent->work_len};
        const struct splitter_lent no_work = {lent->state, lent->frames, lent->places, lent->pool, lent->pool_len, NULL, len};
        EXPECT(splitter_lent_report(lent, 2, values, 2, tape, 8, answers, 2, NULL, len, &report), SPLITTER_BAD_STATE);
        EXPECT(splitter_lent_report(lent, 2, NULL, len, tape, 8, answers, 2, clocks, clocks_len, &report), SPLITTER_BAD_VALUE_COUNT);
        EXPECT(splitter_lent_report(&no_table, 2, values, 2, tape, 8, answers, 2, clocks, clocks_len, &report), SPLITTER_BAD_PLACE_COUNT);
        EXPECT(splitter_lent_report(&no_table, 2, values, 2, tape, 8, answers, 2, NULL, len, &report), SPLITTER_BAD_PLACE_COUNT);
        EXPECT(splitter_lent_report(&no_pool, 2, values, 2, tape, 8, answers, 2, clocks, clocks_len, &report), SPLITTER_BAD_NODE_COUNT);
        EXPECT(splitter_lent_report(&no_pool, 2, values, 2, NULL, 8, answers, 2, clocks, clocks_len, &report), SPLITTER_BAD_NODE_COUNT);
        EXPECT(splitter_lent_report(&no_work, 2, values, 2, NULL, 8, answers, 2, clocks, clocks_len, &report), SPLITTER_BAD_TAPE);
        EXPECT(splitter_lent_report(&no_work, 2, values, 2, tape, 8, NULL, len, clocks, clocks_len, &report), SPLITTER_BAD_TAPE);
        EXPECT(splitter_lent_report(&no_work, 2, values, 2, tape, 8, answers, 2, clocks, clocks_len, &report), SPLITTER_SHORT_WORK);
        EXPECT(splitter_lent_workers(lent), 0);
        EXPECT(splitter_lent_report(lent, 2, values, 2, NULL, 0, NULL, len, clocks, clocks_len, &report), SPLITTER_NO_SPAN);
        EXPECT(splitter_lent_workers(lent), 2);
    }
    EXPECT(answers[0] == 7 && answers[1] == 7 && report.work == 7 && report.remainder == 7, 1);
}

int main(void) {
    static const uint32_t values[2] = {10, 20};
    static struct splitter_state state;
    static struct splitter_frame table[PLACES];
    static uint32_t pool[6 * SPLITTER_NODE_WORDS], work[6];
    const struct splitter_lent lent = {&state, table, PLACES, pool, 6 * SPLITTER_NODE_WORDS, work, 6};
    records();
    names();
    refused();
    layout();
    frame_layout();
    report_layout();
    sizes();
    EXPECT(splitter_lent_start(&lent, 2, values, 0), SPLITTER_BAD_VALUE_COUNT);
    EXPECT(splitter_state_start(&state, table, PLACES, 2, values, 2, pool, 6 * SPLITTER_NODE_WORDS), SPLITTER_OK);
    numbers(&state);
    free_nodes(&lent);
    steps(&lent);
    tapes(&lent);
    images(&lent);
    wide_fields(&lent);
    change_overs(&lent);
    nulls_of_change_overs(&lent);
    EXPECT(splitter_lent_start(&lent, 2, values, 2), SPLITTER_OK);
    nulls(&lent);
    nulls_that_clear(&lent);
    EXPECT(splitter_lent_start(&lent, 2, values, 2), SPLITTER_OK);
    returns(&lent);
    totals(&state, true, 0, SPLITTER_NONE, 1, 0);
    EXPECT(splitter_lent_start(&lent, 2, values, 2), SPLITTER_OK);
    folds(&lent);
    reports(&lent);
    nulls_of_reports(&lent);
    return failures == 0 ? 0 : 1;
}
