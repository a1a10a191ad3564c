/* How many cores can the search keep busy? It keeps a log of its steps, and a report of this tape tells. */
#include <stdio.h>

#include "search.h"

enum { MOST_RECORDS = 4096 };

static uint8_t steps[MOST_RECORDS * SPLITTER_RECORD_BYTES];

/* ---- shown */
static uint64_t clocks[SPLITTER_CLOCKS_WORDS(PLACES)];
static uint32_t answers[2 * MOST_RECORDS];

/* The report of a search that is over, from the tape of its steps, in the memory that it had. */
static struct splitter_parallelism report_of(const struct splitter_lent *lent, const uint32_t *values, splitter_len n,
                                             const uint8_t *tape, splitter_len tape_len) {
    const uint32_t workers = splitter_lent_workers(lent);
    struct splitter_parallelism report = {0, 0, 0, 0};
    uint32_t refused = splitter_lent_report(lent, workers, values, n, tape, tape_len, answers, 2 * MOST_RECORDS,
                                            clocks, SPLITTER_CLOCKS_WORDS(lent->places), &report);
    if (refused != SPLITTER_OK) {
        surprise(splitter_name(refused));
    }
    return report;
}
/* ---- end */

/* The plain machine beside the search has counted too. */
static void tell_cores(const char *what) {
    const struct card *card = search.card;
    const struct splitter_parallelism report = report_of(&run.lent, factory_marks(card), card->blocks, steps, run.log_len);
    same("work", report.work, run.plain.work);
    same("span", report.span, run.plain.span);
    printf("%u blocks, workers %u, nodes %u, %s: %u records, ", card->blocks, search.workers, splitter_lent_nodes(&run.lent), what,
           (unsigned)(run.log_len / SPLITTER_RECORD_BYTES));
    printf("work %u, span %u, keeps %u and %u/%u cores busy\n", (unsigned)report.work, (unsigned)report.span, (unsigned)report.quotient,
           (unsigned)report.remainder, (unsigned)report.span);
}

static void cores_of(const struct card *card, unsigned workers, unsigned nodes, enum syncs syncs) {
    run.log = steps;
    run.log_room = sizeof steps;
    begin(card, workers, PLACES, nodes, syncs, false);
    while (!search.finished) {
        take_turns();
    }
    run.log = NULL;
    tell_cores(syncs == ALL_SYNC ? "all sync" : "none syncs");
}

/* One worker or three, with waits for room in the pool or without: the branches take the same steps, and the report is the same. Without
 * syncs they take fewer. The large card's branches are one below the other, 80 deep: it cannot keep two cores busy. */
void show_cores(void) {
    printf("\nHow many cores can it keep busy?\n");
    cores_of(&small_card, WORKERS, NODES, ALL_SYNC);
    cores_of(&small_card, 1, NODES, ALL_SYNC);
    cores_of(&small_card, WORKERS, 52, ALL_SYNC);
    cores_of(&small_card, WORKERS, NODES, NONE_SYNCS);
    cores_of(&large_card, WORKERS, MOST_NODES, ALL_SYNC);
}
