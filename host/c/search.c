/* A worked host in C: a flash controller's search for a block layout, on workers that steal (layout.c has the search).
 *
 * A controller has a core for each worker and a lock around each call. Here the workers take turns, so that the report is always the
 * same (the file expected). Every answer is compared with the plain machine's; a surprise gives exit status 1.
 *
 * Usage: search                           the whole report
 *        search shift FOLDER TURNS MORE   a shift of so many turns; images are kept in the folder (shift.c) */
#include <stdio.h>
#include <stdlib.h>
#include <string.h>

#include "search.h"

/* The turn from which on a search is told. */
enum { FIRST = 1, NEVER = 1000 };

static void search_with(unsigned workers, unsigned nodes, enum syncs syncs, unsigned told_from) {
    begin(&small_card, workers, PLACES, nodes, syncs, told_from == FIRST);
    while (!search.finished) {
        search.told = search.turn + 1 >= told_from;
        take_turns();
    }
    tell_result();
}

/* The search in smaller pools. A branch given up may have been the best: then one worker searches again, which takes least room. */
static void show_smaller_pools(void) {
    static const unsigned sizes[] = {62, 57, 52, 47, 42, 36, 31};
    printf("\nThe same in smaller pools; a view of %d blocks has %u nodes\n", BLOCKS, (unsigned)splitter_tree_nodes(BLOCKS));
    for (size_t i = 0; i < sizeof sizes / sizeof sizes[0]; i++) {
        search_with(WORKERS, sizes[i], ALL_SYNC, NEVER);
        if (search.given_up > 0) {
            search_with(1, sizes[i], ALL_SYNC, NEVER);
        }
    }
}

/* As ported from Cilk, whose functions sync by themselves before they return: a branch just returns, and the library lets it wait. The last
 * turns are told, where branches wait as returning. */
static void show_without_syncs(void) {
    printf("\nThe same without a sync: a branch returns and waits so for its branches; from turn 13 on\n");
    search_with(WORKERS, NODES, NONE_SYNCS, 13);
    printf("\nThe same where Main alone syncs, in a smaller pool, from turn 16 on\n");
    search_with(WORKERS, 47, MAIN_SYNCS, 16);
}

/* A branch for each of 80 bad blocks, one below the other: a table of 64 places refuses one of them, and all below it are lost. */
static void search_deep(unsigned workers, unsigned places, enum syncs syncs) {
    begin(&large_card, workers, places, MOST_NODES, syncs, false);
    while (!search.finished) {
        take_turns();
    }
    printf("places %u: deepest frame %u, most live %u\n", places, search.deepest, search.most_live);
    tell_result();
}

static void show_larger_card(void) {
    printf("\nA larger card: %u bad blocks of %u, each with 2 spares of its own\n", large_card.bad_blocks, large_card.blocks);
    search_deep(1, 64, ALL_SYNC);
    search_deep(1, PLACES, ALL_SYNC);
    search_deep(WORKERS, PLACES, ALL_SYNC);
    search_deep(WORKERS, PLACES, NONE_SYNCS);
}

static void show_all(void) {
    printf("Search: bad blocks 3 and 9, spares 12 to 15\n");
    search_with(WORKERS, NODES, ALL_SYNC, FIRST);
    show_smaller_pools();
    show_without_syncs();
    show_larger_card();
    show_cores();
    show_tape();
    show_refusals();
}

int main(int argc, char **argv) {
    if (argc == 5 && strcmp(argv[1], "shift") == 0) {
        work_a_shift(argv[2], (unsigned)atoi(argv[3]), (unsigned)atoi(argv[4]));
    } else if (argc == 1) {
        show_all();
    } else {
        fprintf(stderr, "usage: search [shift FOLDER TURNS MORE]\n");
        return 2;
    }
    return 0;
}
