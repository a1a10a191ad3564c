/* Reports (document 02, R-7): work and span of small tapes, counted by hand and by the plain machine; what is refused, in which order, and
 * what each refusal leaves; a report leaves what a start and then a tape leave, whatever the memory held. */
#include <stdio.h>
#include <string.h>

#include "checked.h"

enum { NODES = 64, PLACES = SPLITTER_MAX_PLACES, WORKERS = 4, SPLITTERS = 2, RECORDS = 1024, GUARD = 4 };
#define GARBAGE 0xa5

/* All that a report is lent. The records past a table, the words past pool, work, answers, clocks and report stand guard. */
struct memory {
    struct splitter_state state;
    struct splitter_frame table[PLACES + GUARD];
    uint32_t pool[NODES * SPLITTER_NODE_WORDS + GUARD], work[NODES + GUARD], answers[2 * RECORDS + GUARD];
    uint64_t clocks[SPLITTER_CLOCKS_WORDS(PLACES) + GUARD], report[SPLITTER_REPORT_WORDS + GUARD];
};
static struct memory memory, before, other;
static uint8_t tape[RECORDS * SPLITTER_RECORD_BYTES], *end = tape;
static const uint32_t values[SPLITTERS] = {10, 20};
static struct checked run = {.lent = {&memory.state, memory.table, PLACES, memory.pool, NODES * SPLITTER_NODE_WORDS, memory.work, NODES}};

static void put(unsigned kind, unsigned worker, unsigned field) {
    if (end == tape + sizeof tape) {
        surprise("the tape is full");
    }
    end = splitter_put_record(end, (uint8_t)kind, (uint8_t)worker, (uint16_t)field, 0);
}

static void spawns(unsigned worker) { put(SPLITTER_STEP_SPAWN, worker, 0); }
static void returns(unsigned worker) { put(SPLITTER_STEP_RETURN, worker, 0); }
static void steals(unsigned worker, unsigned victim) { put(SPLITTER_STEP_STEAL, worker, victim); }
static void syncs(unsigned worker) { put(SPLITTER_STEP_SYNC, worker, 0); }

static void reads(unsigned worker, unsigned times) {
    for (unsigned i = 0; i < times; i++) {
        put(SPLITTER_STEP_READ, worker, i % SPLITTERS);
    }
}

/* The worker's bottom frame, alone in its deque, spawns, and the thief takes it: the child stays. */
static void forks(unsigned worker, unsigned thief) {
    spawns(worker);
    steals(thief, worker);
}

static void soil(void) {
    memset(&memory, GARBAGE, sizeof memory);
}

static size_t records(void) {
    return (size_t)(end - tape) / SPLITTER_RECORD_BYTES;
}

static uint32_t report_call(struct splitter_parallelism *report) {
    return checked_report(&run, WORKERS, values, SPLITTERS, tape, (size_t)(end - tape), memory.answers, 2 * records(), memory.clocks,
                          report);
}

/* The tape so far has this report; a new one begins. The plain machine has counted as well. */
static void reports(const char *what, uint64_t work, uint64_t span) {
    struct splitter_parallelism report = {7, 7, 7, 7};
    soil();
    same(what, report_call(&report), SPLITTER_OK);
    same(what, report.work, work);
    same(what, report.span, span);
    same(what, report.quotient, work / span);
    same(what, report.remainder, work % span);
    end = tape;
}

/* The tape so far has none: the words of the report stay. */
static void no_span(const char *what) {
    struct splitter_parallelism report = {7, 8, 9, 10};
    soil();
    same(what, report_call(&report), SPLITTER_NO_SPAN);
    same(what, report.work == 7 && report.span == 8 && report.quotient == 9 && report.remainder == 10, 1);
    end = tape;
}

static void clocks_are(unsigned place, uint64_t clock, uint64_t latest) {
    same("clock", memory.clocks[2 * place], clock);
    same("latest", memory.clocks[2 * place + 1], latest);
}

/* Document 01's example: of nine records five cost 1. Main: spawn 1, write 2; its child, from 1 on: read 2; Main: its sync passes at 3,
 * read 4. */
static void example(void) {
    forks(0, 1);
    put(SPLITTER_STEP_WRITE, 1, 1);
    reads(0, 1);
    syncs(1);
    reads(1, 1);
    returns(0);
    reads(0, 1);
    returns(0);
    reports("example", 5, 4);
    clocks_are(0, 4, 2);
    clocks_are(1, 2, 0);
    clocks_are(2, 0, 0);
}

static void no_spans(void) {
    no_span("no records");
    returns(0);
    no_span("Main returns at once");
    steals(1, 0);
    reads(1, 3);
    returns(0);
    no_span("only refused records before Main's return");
    reads(0, 3);
    no_span("Main has not returned");
    clocks_are(0, 3, 0);
    forks(0, 1);
    returns(1);
    reads(0, 3);
    no_span("Main waits in its return");
    clocks_are(0, 1, 0);
    clocks_are(1, 4, 0);
    reads(0, 1);
    returns(0);
    reads(0, 5);
    reports("a read, and records after Main's return", 1, 1);
}

/* Each frame is the child of the one before: nothing is parallel. */
static void chains(void) {
    for (unsigned i = 1; i < PLACES; i++) {
        spawns(0);
    }
    spawns(0); /* refused by 13 */
    for (unsigned i = 0; i < PLACES; i++) {
        returns(0);
    }
    reports("a chain", PLACES - 1, PLACES - 1);
    for (unsigned i = 1; i < PLACES; i++) {
        forks(0, 1);
        reads(1, 1);
        returns(1);
    }
    reads(0, 2);
    returns(0); /* ends all of them, each waiting in its return */
    reports("a chain of returns that wait", 2 * (PLACES - 1) + 2, PLACES - 1 + 2);
}

/* Main has 7 children, the last one begins at 7; its sync comes after the latest of them. */
static void fans(void) {
    for (unsigned i = 0; i < 7; i++) {
        spawns(0);
        reads(0, 30 - i);
        returns(0);
    }
    syncs(0);
    returns(0);
    reports("a fan, one worker", 7 + 7 * 27 + 1, 1 + 30 + 1);
    for (unsigned i = 0; i < 7; i++) {
        spawns(0);
        reads(0, 20 + i);
        returns(0);
    }
    returns(0);
    reports("a fan without a sync", 7 + 7 * 23, 7 + 26);
    forks(0, 1);
    forks(1, 2);
    forks(2, 3); /* Main on worker 3, a child on each other */
    reads(0, 9);
    reads(1, 9);
    reads(2, 9);
    syncs(3);
    returns(1);
    returns(2);
    returns(0);
    returns(0);
    reports("a fan on four workers", 3 + 27 + 1, 3 + 9 + 1);
}

/* A sync that suspends is counted when it passes: after the children, and not before. */
static void suspended_syncs(void) {
    forks(0, 1);
    syncs(1);
    reads(0, 10);
    returns(0);
    reads(0, 1);
    returns(0);
    reports("a sync behind a long child", 1 + 1 + 10 + 1, 11 + 1 + 1);
    forks(0, 1);
    reads(1, 10);
    syncs(1);
    reads(0, 1);
    returns(0);
    returns(0);
    reports("a sync behind a short child", 1 + 10 + 1 + 1, 11 + 1);
    forks(0, 1);
    forks(1, 2); /* two children, on workers 0 and 1; Main on 2 */
    syncs(2);
    reads(0, 5);
    returns(0);
    no_span("a sync that has not passed yet");
    clocks_are(0, 2, 6);
    syncs(0);
    syncs(0);
    returns(0);
    reports("syncs without a child", 2, 2);
}

/* "A return likewise waits but adds nothing": under a sync, and under another return. */
static void waiting_returns(void) {
    forks(0, 1);
    reads(1, 2);
    returns(1);
    reads(0, 5);
    returns(0);
    reports("Main waits for a long child", 1 + 2 + 5, 1 + 5);
    forks(0, 1);
    reads(1, 9);
    returns(1);
    reads(0, 5);
    returns(0);
    reports("Main waits for a short child", 1 + 9 + 5, 1 + 9);
    forks(0, 1); /* A on worker 0, Main on 1 */
    forks(0, 2); /* B, child of A, on worker 0, A on 2 */
    syncs(1);
    reads(2, 9);
    returns(2); /* A waits, its clock at 11 */
    reads(0, 1);
    returns(0); /* B at 3, A at 11, and Main goes on at 12 */
    returns(0);
    reports("a sync behind a return that waits", 1 + 1 + 1 + 9 + 1, 12);
}

/* A later child in the same place begins its own clocks. */
static void places_again(void) {
    spawns(0);
    spawns(0);
    reads(0, 20);
    returns(0);
    returns(0); /* the grandchild has ended at 22, and the child with it */
    spawns(0);
    reads(0, 1);
    returns(0);
    no_span("Main lives");
    clocks_are(0, 2, 22);
    clocks_are(1, 3, 0);
    clocks_are(2, 22, 0);
}

/* ---- what a report leaves ---- */

static uint32_t seed = 1;

/* Xorshift: a number below the bound. */
static uint32_t any(uint32_t below) {
    seed ^= seed << 13;
    seed ^= seed >> 17;
    seed ^= seed << 5;
    return (uint32_t)((uint64_t)seed * below >> 32);
}

static void any_tape(void) {
    end = tape;
    for (unsigned i = any(60); i > 0; i--) {
        static const unsigned kinds[] = {SPLITTER_STEP_SPAWN, SPLITTER_STEP_SPAWN, SPLITTER_STEP_RETURN, SPLITTER_STEP_STEAL,
                                         SPLITTER_STEP_STEAL, SPLITTER_STEP_SYNC, SPLITTER_STEP_READ, SPLITTER_STEP_WRITE,
                                         SPLITTER_STEP_FOLD};
        unsigned kind = kinds[any(sizeof kinds / sizeof kinds[0])], worker = any(WORKERS);
        unsigned has_field = kind == SPLITTER_STEP_STEAL || kind >= SPLITTER_STEP_READ;
        put(kind, worker, has_field ? any(kind == SPLITTER_STEP_STEAL ? WORKERS : 3) : 0);
    }
    for (unsigned i = any(2) * 60; i > 0; i--) { /* half of them go home */
        returns(i % WORKERS);
    }
}

static void any_garbage(void) {
    uint8_t *bytes = (uint8_t *)&memory;
    for (size_t i = 0; i < sizeof memory; i++) {
        bytes[i] = (uint8_t)any(256);
    }
}

static void unchanged(const char *what, const void *now, const void *old, size_t size) {
    if (memcmp(now, old, size) != 0) {
        surprise(what);
    }
}

/* State, table, pool, work and answers word for word as a start and then a tape leave them, from the same garbage; the words past each
 * slice as they were, and after a 22 the report's. */
static uint32_t as_start_and_tape(unsigned places) {
    const size_t len = (size_t)(end - tape), words = 2 * records();
    struct splitter_lent lent = {&memory.state, memory.table, places, memory.pool, NODES * SPLITTER_NODE_WORDS, memory.work, NODES};
    struct splitter_lent apart = {&other.state, other.table, places, other.pool, NODES * SPLITTER_NODE_WORDS, other.work, NODES};
    any_garbage();
    memcpy(&before, &memory, sizeof memory);
    memcpy(&other, &memory, sizeof memory);
    uint32_t result = splitter_report(memory.state.numbers, SPLITTER_NUMBERS_WORDS, memory.state.deques, SPLITTER_DEQUES_WORDS,
                                      lent.frames, places, WORKERS, values, SPLITTERS, lent.pool, lent.pool_len, lent.work, lent.work_len,
                                      tape, len, memory.answers, words, memory.clocks, SPLITTER_CLOCKS_WORDS(places),
                                      memory.report, SPLITTER_REPORT_WORDS);
    same("start", splitter_lent_start(&apart, WORKERS, values, SPLITTERS), SPLITTER_OK);
    same("tape", splitter_lent_tape(&apart, tape, len, other.answers, words), SPLITTER_OK);
    unchanged("another state", &memory.state, &other.state, sizeof memory.state);
    unchanged("another table", memory.table, other.table, sizeof memory.table);
    unchanged("another pool", memory.pool, other.pool, sizeof memory.pool);
    unchanged("another work slice", memory.work, other.work, sizeof memory.work);
    unchanged("other answers", memory.answers, other.answers, sizeof memory.answers);
    unchanged("words past the clocks", memory.clocks + 2 * places, before.clocks + 2 * places,
              sizeof memory.clocks - 2 * places * sizeof memory.clocks[0]);
    unchanged("words past the report", memory.report + SPLITTER_REPORT_WORDS, before.report + SPLITTER_REPORT_WORDS,
              GUARD * sizeof memory.report[0]);
    if (result != SPLITTER_OK) {
        same("report", result, SPLITTER_NO_SPAN);
        unchanged("a withheld report", memory.report, before.report, sizeof memory.report);
    }
    return result;
}

/* Of tables of any length; the same pair whatever the memory held. */
static void leaves_the_run(void) {
    unsigned counts[SPLITTER_NO_SPAN + 1] = {0};
    for (unsigned i = 0; i < 3000; i++) {
        unsigned places = 1 + any(any(2) == 0 ? 5 : PLACES);
        any_tape();
        uint32_t result = as_start_and_tape(places);
        uint64_t report[SPLITTER_REPORT_WORDS], clocks[SPLITTER_CLOCKS_WORDS(PLACES)];
        memcpy(report, memory.report, sizeof report);
        memcpy(clocks, memory.clocks, sizeof clocks);
        same("once more", as_start_and_tape(places), result);
        unchanged("other clocks from other garbage", clocks, memory.clocks, 2 * places * sizeof clocks[0]);
        if (result == SPLITTER_OK) {
            unchanged("another report from other garbage", report, memory.report, sizeof report);
        }
        counts[result] += 1;
    }
    if (counts[SPLITTER_OK] < 500 || counts[SPLITTER_NO_SPAN] < 500) {
        surprise("too few reports of one kind");
    }
    end = tape;
}

/* The lengths and numbers of a call, each right or not, with their refusals in the order in which they are looked for. */
enum { NUMBERS, DEQUES, CLOCKS, REPORT, VALUES, NO_WORKERS, TABLE, POOL, TAPE, WORK, CONDITIONS };
static const uint32_t refusals[CONDITIONS] = {SPLITTER_BAD_STATE, SPLITTER_BAD_STATE, SPLITTER_BAD_STATE, SPLITTER_BAD_STATE,
                                              SPLITTER_BAD_VALUE_COUNT, SPLITTER_BAD_WORKER_COUNT, SPLITTER_BAD_PLACE_COUNT,
                                              SPLITTER_BAD_NODE_COUNT, SPLITTER_BAD_TAPE, SPLITTER_SHORT_WORK};

static unsigned has(unsigned wrong, unsigned condition) {
    return wrong >> condition & 1;
}

/* A word too few or too many. */
static splitter_len off_by_one(splitter_len right) {
    return right == 0 || any(2) == 0 ? right + 1 : right - 1;
}

/* A call with these conditions, a set of bits. */
static uint32_t spoilt_call(unsigned wrong) {
    const splitter_len places = has(wrong, TABLE) ? any(2) * (PLACES + 1) : PLACES, clocks = SPLITTER_CLOCKS_WORDS(places);
    const splitter_len nodes = has(wrong, POOL) ? 2 : NODES; /* T(2) is 3 */
    const unsigned ragged = has(wrong, TAPE) ? any(2) : 0, short_answers = has(wrong, TAPE) && !ragged;
    return splitter_report(memory.state.numbers, SPLITTER_NUMBERS_WORDS - has(wrong, NUMBERS),
                           memory.state.deques, SPLITTER_DEQUES_WORDS - has(wrong, DEQUES), memory.table, places,
                           has(wrong, NO_WORKERS) ? any(2) * 9 : WORKERS, values, has(wrong, VALUES) ? 0 : SPLITTERS,
                           memory.pool, nodes * SPLITTER_NODE_WORDS + any(SPLITTER_NODE_WORDS), memory.work, nodes - has(wrong, WORK),
                           tape, (splitter_len)(end - tape) - ragged, memory.answers, 2 * records() - short_answers,
                           memory.clocks, has(wrong, CLOCKS) ? off_by_one(clocks) : clocks,
                           memory.report, has(wrong, REPORT) ? off_by_one(SPLITTER_REPORT_WORDS) : SPLITTER_REPORT_WORDS);
}

/* Every set of conditions: the first in the order is the refusal, and what it leaves is as the header says. */
static void refused_in_order(void) {
    static const struct splitter_state zeros;
    reads(0, 1);
    returns(0);
    for (unsigned wrong = 1; wrong < 1u << CONDITIONS; wrong++) {
        unsigned first = 0;
        while (!has(wrong, first)) {
            first += 1;
        }
        any_garbage();
        memcpy(&before, &memory, sizeof memory);
        same("order", spoilt_call(wrong), refusals[first]);
        if (refusals[first] != SPLITTER_BAD_STATE) {
            before.state = zeros;
        }
        unchanged("a refused report has changed something", &memory, &before, sizeof memory);
    }
    end = tape;
}

int main(void) {
    example();
    no_spans();
    chains();
    fans();
    suspended_syncs();
    waiting_returns();
    places_again();
    leaves_the_run();
    refused_in_order();
    printf("report: chains, fans, syncs and returns that wait, as counted by hand; 3000 tapes leave what a start and a tape leave, with a "
           "report or without; %u refused calls, each by the first condition, leave what they must\n", (1u << CONDITIONS) - 1);
    return 0;
}
