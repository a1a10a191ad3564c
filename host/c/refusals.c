/* A tape, and each refusal once. */
#include <stdio.h>

#include "search.h"

void show_tape(void) {
    static const uint32_t values[] = {10, 20, 30, 40, 50};
    enum { RECORDS = 9 };
    uint8_t tape[RECORDS * SPLITTER_RECORD_BYTES], *at = tape;
    uint32_t answers[2 * RECORDS];
    at = splitter_put_record(at, SPLITTER_STEP_SPAWN, 0, 0, 0);
    at = splitter_put_record(at, SPLITTER_STEP_STEAL, 1, 0, 0);
    at = splitter_put_record(at, SPLITTER_STEP_WRITE, 1, 4, 99);
    at = splitter_put_record(at, SPLITTER_STEP_READ, 0, 4, 0);
    at = splitter_put_record(at, SPLITTER_STEP_SYNC, 1, 0, 0);
    at = splitter_put_record(at, SPLITTER_STEP_READ, 1, 4, 0);
    at = splitter_put_record(at, SPLITTER_STEP_RETURN, 0, 0, 0);
    at = splitter_put_record(at, SPLITTER_STEP_READ, 0, 4, 0);
    splitter_put_record(at, SPLITTER_STEP_RETURN, 0, 0, 0);

    printf("\nTape: 2 workers, 5 splitters, 20 nodes\n");
    lend(PLACES, 20);
    same("start", checked_start(&run, 2, values, 5), SPLITTER_OK);
    checked_tape(&run, tape, sizeof tape, answers, 2 * RECORDS);
    for (unsigned i = 0; i < RECORDS; i++) {
        printf("%u %u  %s\n", answers[2 * i], answers[2 * i + 1], splitter_name(answers[2 * i]));
    }
    const struct splitter_totals totals = checked_totals(&run);
    print_totals(&totals);
}

static void show(uint64_t answer, uint32_t wanted, const char *what) {
    same(what, answer, wanted);
    printf("%2u  %s: %s\n", wanted, what, splitter_name(wanted));
}

static void refused_starts(void) {
    show(checked_start(&run, 2, factory_marks(&small_card), 0), SPLITTER_BAD_VALUE_COUNT, "a start without values");
    show(checked_start(&run, 9, factory_marks(&small_card), BLOCKS), SPLITTER_BAD_WORKER_COUNT, "a start with 9 workers");
    lend(0, 20);
    show(checked_start(&run, 2, factory_marks(&small_card), BLOCKS), SPLITTER_BAD_PLACE_COUNT, "a start without a frame table");
    lend(PLACES + 1, 20);
    show(checked_start(&run, 2, factory_marks(&small_card), BLOCKS), SPLITTER_BAD_PLACE_COUNT, "a start with 257 places");
    lend(PLACES, (unsigned)splitter_tree_nodes(BLOCKS) - 1);
    show(checked_start(&run, 2, factory_marks(&small_card), BLOCKS), SPLITTER_BAD_NODE_COUNT, "a start with a node too few");
}

/* Calls refused whole. Each leaves state, table and pool as they were, so the run goes on. */
static void refused_calls(void) {
    struct splitter_lent lent = run.lent;
    const uint8_t tape[SPLITTER_RECORD_BYTES] = {SPLITTER_STEP_SPAWN};
    uint32_t answers[2];
    show(splitter_lent_tape(&lent, tape, sizeof tape - 1, answers, 2), SPLITTER_BAD_TAPE, "a tape of 7 bytes");
    lent.work_len -= 1;
    show(splitter_read(&lent, 0, 3), SPLITTER_SHORT_WORK, "a work slice with a word too few");
    lent = run.lent;
    show(splitter_step(lent.state->numbers, SPLITTER_NUMBERS_WORDS, lent.state->deques, SPLITTER_DEQUES_WORDS - 1,
                       lent.frames, lent.places, lent.pool, lent.pool_len, lent.work, lent.work_len,
                       SPLITTER_STEP_READ, 0, 3, 0), SPLITTER_BAD_STATE, "deques with a word too few");
    lent.places -= 1;
    show(splitter_read(&lent, 0, 3), SPLITTER_UNSOUND, "a table with a place less than at the start");
    lent.places += 2;
    show(splitter_read(&lent, 0, 3), SPLITTER_UNSOUND, "a table with a place more");
    run.lent.pool[0] ^= 1;
    show(splitter_read(&run.lent, 0, 3), SPLITTER_UNSOUND, "a bit of the pool has flipped");
    run.lent.pool[0] ^= 1;
    printf("    the bit flipped back, block 3 reads %u\n", splitter_answer_number(checked_read(&run, 0, 3)));
}

/* A refused save leaves the run. A refused reading leaves a state of zeros: the host reads another image, or this one in a better way. */
static void refused_images(void) {
    static uint8_t image[SPLITTER_IMAGE_BYTES(PLACES, NODES)];
    struct splitter_lent lent = run.lent;
    const size_t len = (size_t)splitter_image_bytes(splitter_lent_places(&lent), splitter_lent_nodes(&lent));
    show(splitter_lent_save(&lent, image, len - 1), SPLITTER_SHORT_TARGET, "a target with a byte too few");
    same("save", splitter_lent_save(&lent, image, sizeof image), SPLITTER_OK);
    show(splitter_lent_load(&lent, image, len - 1), SPLITTER_BAD_BLOCKS, "an image with a byte too few");
    image[0] ^= 1;
    show(splitter_lent_load(&lent, image, len), SPLITTER_BAD_CHECK, "a bit of the image has flipped");
    image[0] ^= 1;
    image[1] += 1;
    show(splitter_lent_load(&lent, image, len), SPLITTER_BAD_BLOCKS, "an image of a later form");
    image[1] -= 2;
    show(splitter_lent_load(&lent, image, len), SPLITTER_BAD_BLOCKS, "an image of the form before");
    image[1] += 1;
    lent.pool_len -= SPLITTER_NODE_WORDS;
    show(splitter_lent_load(&lent, image, len), SPLITTER_UNSOUND, "an image read into a pool with a node too few");
    lent = run.lent;
    lent.places = 64;
    show(splitter_lent_load(&lent, image, len), SPLITTER_UNSOUND, "an image of 256 places read into a table of 64");
    same("state of zeros", lent.state->numbers[SPLITTER_NUMBER_WORKERS], 0);
    same("load", splitter_lent_load(&run.lent, image, len), SPLITTER_OK);
    printf("    the image read as it was saved, block 3 reads %u\n", splitter_answer_number(checked_read(&run, 0, 3)));
}

static void refused_steps(void) {
    const uint8_t tape[SPLITTER_RECORD_BYTES] = {9};
    uint32_t answers[2];
    checked_tape(&run, tape, sizeof tape, answers, 2);
    show(answers[0], SPLITTER_BAD_RECORD, "a record of kind 9");
    show(checked_spawn(&run, 2), SPLITTER_UNKNOWN_WORKER, "worker 2 of 2 spawns");
    show(checked_sync(&run, 1), SPLITTER_WORKER_HAS_NO_FRAME, "worker 1 syncs");
    show(checked_read(&run, 0, BLOCKS), SPLITTER_UNKNOWN_SPLITTER, "worker 0 reads block 16");
    show(checked_fold(&run, 0, SPLITTER_REDUCERS, 1), SPLITTER_UNKNOWN_REDUCER, "worker 0 folds into reducer 3");
}

static void refused_steals(void) {
    show(checked_steal(&run, 0, 1), SPLITTER_THIEF_BUSY, "worker 0 steals");
    show(checked_steal(&run, 1, 0), SPLITTER_NOTHING_TO_STEAL, "worker 1 steals from a deque of one");
}

/* Main moves to worker 1; its child stays on worker 0. */
static void move_main(void) {
    checked_spawn(&run, 0);
    checked_steal(&run, 1, 0);
}

static void write_and_tell(const char *what, unsigned worker, unsigned block, uint32_t value) {
    printf("    %s: %u nodes free\n", what, splitter_answer_number(checked_write(&run, worker, block, value)));
}

/* The pool has room for one path beside the first view: Main's. Then Main and its child each have a path to block 12 of their own, and
 * write there in place. Block 13 they share: what the child wants to write there must wait, or the child must end. */
static void full_pool(void) {
    write_and_tell("Main writes block 12", 1, 12, 103);
    write_and_tell("Main writes block 12 again", 1, 12, 109);
    write_and_tell("its child writes block 12", 0, 12, 103);
    show(checked_write(&run, 0, 13, 109), SPLITTER_POOL_FULL, "the child writes block 13");
    checked_return(&run, 0);
    write_and_tell("the child has ended, Main writes block 13", 1, 13, 103);
}

static void full_frames(void) {
    uint64_t answer = checked_spawn(&run, 1);
    while (splitter_answer_kind(answer) == SPLITTER_SPAWNED) {
        answer = checked_spawn(&run, 1);
    }
    show(answer, SPLITTER_FRAMES_FULL, "256 frames, each the child of the one before, and one more");
    checked_return(&run, 1);
    printf("    one has ended, the next spawn has depth %u\n", splitter_answer_number(checked_spawn(&run, 1)));
    do {
        answer = checked_return(&run, 1);
    } while (answer == splitter_answer(SPLITTER_RETURNED, SPLITTER_CONTINUED));
    same("last return", answer, splitter_answer(SPLITTER_RETURNED, SPLITTER_FINISHED));
    show(checked_read(&run, 1, 3), SPLITTER_RUN_IS_OVER, "a read after Main's return");
}

/* What 14 refused before: the frame waits as returning, and can do nothing more. Main has returned only when it has ended. */
static void waiting_main(void) {
    same("start", checked_start(&run, 2, factory_marks(&small_card), BLOCKS), SPLITTER_OK);
    move_main();
    same("return", checked_return(&run, 1), splitter_answer(SPLITTER_RETURNED, SPLITTER_WAITS));
    printf("    Main returns while its child runs elsewhere: it waits\n");
    show(checked_read(&run, 1, 3), SPLITTER_WORKER_HAS_NO_FRAME, "its worker reads block 3");
    show(checked_steal(&run, 1, 0), SPLITTER_NOTHING_TO_STEAL, "and cannot steal the child");
    printf("    the child reads block 3: %u\n", splitter_answer_number(checked_read(&run, 0, 3)));
    same("return", checked_return(&run, 0), splitter_answer(SPLITTER_RETURNED, SPLITTER_FINISHED));
    show(checked_spawn(&run, 0), SPLITTER_RUN_IS_OVER, "the child has ended, and Main with it");
}

/* Refused by 22 a report has run its tape: the run is there and goes on, only the report is withheld. */
static void refused_reports(void) {
    static uint64_t clocks[SPLITTER_CLOCKS_WORDS(PLACES)];
    const uint8_t tape[SPLITTER_RECORD_BYTES] = {SPLITTER_STEP_RETURN};
    const uint32_t *marks = factory_marks(&small_card);
    struct splitter_parallelism report;
    uint32_t answers[2];
    const splitter_len len = SPLITTER_CLOCKS_WORDS(PLACES);
    show(splitter_lent_report(&run.lent, 2, marks, BLOCKS, tape, sizeof tape, answers, 2, clocks, len - 1, &report), SPLITTER_BAD_STATE,
         "a report's clocks with a word too few");
    show(checked_report(&run, 2, marks, BLOCKS, tape, sizeof tape, answers, 2, clocks, &report), SPLITTER_NO_SPAN,
         "a report of a tape that is Main's return");
    same("return", splitter_answer(answers[0], answers[1]), splitter_answer(SPLITTER_RETURNED, SPLITTER_FINISHED));
    show(checked_report(&run, 2, marks, BLOCKS, tape, 0, answers, 0, clocks, &report), SPLITTER_NO_SPAN,
         "a report of a tape without records");
    printf("    the run goes on, block 3 reads %u\n", splitter_answer_number(checked_read(&run, 0, 3)));
}

void show_refusals(void) {
    printf("\nRefusals\n");
    refused_starts();
    lend(PLACES, (unsigned)splitter_tree_nodes(BLOCKS) + 5);
    same("start", checked_start(&run, 2, factory_marks(&small_card), BLOCKS), SPLITTER_OK);
    refused_calls();
    refused_images();
    refused_steps();
    refused_steals();
    move_main();
    full_pool();
    full_frames();
    waiting_main();
    refused_reports();
}
