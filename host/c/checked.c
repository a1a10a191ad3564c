#include "checked.h"

#include <stdio.h>
#include <stdlib.h>

void surprise(const char *what) {
    printf("surprise: %s\n", what);
    exit(1);
}

uint64_t same(const char *what, uint64_t got, uint64_t wanted) {
    if (got != wanted) {
        unsigned kind = splitter_answer_kind(got), wanted_kind = splitter_answer_kind(wanted);
        printf("answered %u %u (%s), expected %u %u (%s)\n", kind, splitter_answer_number(got), splitter_name(kind),
               wanted_kind, splitter_answer_number(wanted), splitter_name(wanted_kind));
        surprise(what);
    }
    return got;
}

uint32_t checked_start(struct checked *run, unsigned workers, const uint32_t *values, size_t values_len) {
    uint32_t got = splitter_lent_start(&run->lent, workers, values, values_len);
    same("start", got, plain_start(&run->plain, workers, values, values_len, run->lent.places, run->lent.pool_len / SPLITTER_NODE_WORDS));
    run->alone = 0;
    run->log_len = 0;
    return got;
}

static void keep(struct checked *run, uint32_t kind, uint32_t worker, uint32_t field, uint32_t value) {
    if (run->log_room - run->log_len < SPLITTER_RECORD_BYTES) {
        surprise("the log is full");
    }
    splitter_put_record(run->log + run->log_len, (uint8_t)kind, (uint8_t)worker, (uint16_t)field, value);
    run->log_len += SPLITTER_RECORD_BYTES;
}

/* The library's answer to a step, which must be the plain machine's, if there is one. */
static uint64_t beside(struct checked *run, const char *what, uint64_t got, uint32_t kind, uint32_t worker, uint32_t field,
                       uint32_t value) {
    if (run->log != NULL) {
        keep(run, kind, worker, field, value);
    }
    return run->alone ? got : same(what, got, plain_step(&run->plain, kind, worker, field, value));
}

uint64_t checked_spawn(struct checked *run, unsigned worker) {
    return beside(run, "spawn", splitter_spawn(&run->lent, worker), SPLITTER_STEP_SPAWN, worker, 0, 0);
}

uint64_t checked_return(struct checked *run, unsigned worker) {
    return beside(run, "return", splitter_return(&run->lent, worker), SPLITTER_STEP_RETURN, worker, 0, 0);
}

uint64_t checked_steal(struct checked *run, unsigned worker, unsigned victim) {
    return beside(run, "steal", splitter_steal(&run->lent, worker, victim), SPLITTER_STEP_STEAL, worker, victim, 0);
}

uint64_t checked_sync(struct checked *run, unsigned worker) {
    return beside(run, "sync", splitter_sync(&run->lent, worker), SPLITTER_STEP_SYNC, worker, 0, 0);
}

uint64_t checked_read(struct checked *run, unsigned worker, unsigned splitter) {
    return beside(run, "read", splitter_read(&run->lent, worker, splitter), SPLITTER_STEP_READ, worker, splitter, 0);
}

uint64_t checked_write(struct checked *run, unsigned worker, unsigned splitter, uint32_t value) {
    return beside(run, "write", splitter_write(&run->lent, worker, splitter, value), SPLITTER_STEP_WRITE, worker, splitter, value);
}

uint64_t checked_fold(struct checked *run, unsigned worker, unsigned reducer, uint32_t value) {
    return beside(run, "fold", splitter_fold(&run->lent, worker, reducer, value), SPLITTER_STEP_FOLD, worker, reducer, value);
}

struct splitter_totals checked_totals(const struct checked *run) {
    const struct plain_view *wanted = &run->plain.totals;
    struct splitter_totals totals;
    if (!splitter_lent_get_totals(&run->lent, &totals)) {
        surprise("Main has not returned");
    }
    if (!run->alone) {
        same("total sum", totals.sum, wanted->sum);
        same("total minimum", totals.min, wanted->min);
        same("total multiplier", totals.multiplier, wanted->multiplier);
        same("total addend", totals.addend, wanted->addend);
    }
    return totals;
}

/* What the plain machine answers to a record. */
static uint64_t plain_record(struct plain *machine, const uint8_t *record) {
    uint32_t value = record[4] | (uint32_t)record[5] << 8 | (uint32_t)record[6] << 16 | (uint32_t)record[7] << 24;
    return plain_step(machine, record[0], record[1], record[2] | (uint32_t)record[3] << 8, value);
}

/* The plain machine takes the records; it answers the same. */
static void same_answers(struct checked *run, const uint8_t *tape, size_t tape_len, const uint32_t *answers) {
    for (size_t i = 0; i < tape_len / SPLITTER_RECORD_BYTES; i++) {
        uint64_t wanted = plain_record(&run->plain, tape + i * SPLITTER_RECORD_BYTES);
        same("record", splitter_answer(answers[2 * i], answers[2 * i + 1]), wanted);
    }
}

void checked_tape(struct checked *run, const uint8_t *tape, size_t tape_len, uint32_t *answers, size_t answers_len) {
    same("tape", splitter_lent_tape(&run->lent, tape, tape_len, answers, answers_len), SPLITTER_OK);
    same_answers(run, tape, tape_len, answers);
}

/* "Give work divided by span as a whole quotient with its exact remainder." */
static void check_report(const struct plain *plain, const struct splitter_parallelism *report) {
    same("work", report->work, plain->work);
    same("span", report->span, plain->span);
    same("work again", report->quotient * report->span + report->remainder, plain->work);
    if (report->remainder >= report->span || report->span > report->work) {
        surprise("a report of such words");
    }
}

uint32_t checked_report(struct checked *run, unsigned workers, const uint32_t *values, size_t values_len,
                        const uint8_t *tape, size_t tape_len, uint32_t *answers, size_t answers_len,
                        uint64_t *clocks, struct splitter_parallelism *report) {
    const struct splitter_lent *lent = &run->lent;
    uint32_t got = splitter_lent_report(lent, workers, values, values_len, tape, tape_len, answers, answers_len,
                                        clocks, SPLITTER_CLOCKS_WORDS(lent->places), report);
    uint32_t wanted = plain_start(&run->plain, workers, values, values_len, lent->places, lent->pool_len / SPLITTER_NODE_WORDS);
    if (wanted == SPLITTER_OK) {
        same_answers(run, tape, tape_len, answers);
        wanted = run->plain.span == 0 ? SPLITTER_NO_SPAN : SPLITTER_OK;
    }
    same("report", got, wanted);
    if (got == SPLITTER_OK) {
        check_report(&run->plain, report);
    }
    run->alone = 0;
    return got;
}
