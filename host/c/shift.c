/* A shift: the search goes on from the newest image that can be read, and saves as it goes. At the end of the shift the power goes off,
 * and what came after the last save is forgotten. */
#include <stdio.h>
#include <string.h>

#include "kept.h"
#include "search.h"

enum { TURNS_PER_SAVE = 3 };

static uint32_t rest; /* what the pool's words past the image's nodes hold */

/* The image in the front, and the host's own words with it: the run without them is of no use, nor they without the run. */
static void save(const char *folder, uint32_t sequence) {
    static struct kept kept;
    uint32_t own[OWN_WORDS] = {0};
    put_search(own);
    kept_put_word(&kept, KEPT_SEQUENCE, sequence);
    for (unsigned i = 0; i < OWN_WORDS; i++) {
        kept_put_word(&kept, KEPT_OWN + i, own[i]);
    }
    kept.len = KEPT_BYTES;
    same("save", splitter_lent_save(&run.lent, kept.bytes + KEPT_IMAGE, KEPT_BYTES - KEPT_IMAGE), SPLITTER_OK);
    if (!kept_write(folder, &kept)) {
        surprise("the image cannot be written");
    }
    printf("    saved as %c, image %u\n", kept_name(sequence), sequence);
}

/* One file: the library says whether its image can be used; what it cannot see, the CRC does. */
static bool read_one(const struct kept *kept, char name) {
    uint32_t own[OWN_WORDS], refused;
    refused = splitter_lent_load(&run.lent, kept->bytes + KEPT_IMAGE, kept->len > KEPT_IMAGE ? kept->len - KEPT_IMAGE : 0);
    if (refused != SPLITTER_OK) {
        printf("    %c is refused by %u: %s\n", name, refused, splitter_name(refused));
        rest = refused == SPLITTER_UNSOUND ? 0 : rest;
        return false;
    }
    if (!kept_right(kept)) {
        printf("    %c is refused by the host: its CRC is wrong\n", name);
        return false;
    }
    for (unsigned i = 0; i < OWN_WORDS; i++) {
        own[i] = kept_word(kept, KEPT_OWN + i);
    }
    run.alone = true;
    get_search(own, true);
    printf("    goes on from %c, image %u, saved after turn %u\n", name, kept_word(kept, KEPT_SEQUENCE), search.turn);
    return true;
}

/* The newest of the two that can be read; its sequence number, or 0. */
static uint32_t read_newest(const char *folder) {
    static struct kept kept[KEPT_FILES];
    bool there[KEPT_FILES];
    for (unsigned i = 0; i < KEPT_FILES; i++) {
        there[i] = kept_read(folder, "AB"[i], &kept[i]);
    }
    unsigned newest = kept_word(&kept[1], KEPT_SEQUENCE) > kept_word(&kept[0], KEPT_SEQUENCE);
    for (unsigned i = 0; i < KEPT_FILES; i++) {
        unsigned file = i == 0 ? newest : !newest;
        if (there[file] && read_one(&kept[file], "AB"[file])) {
            return kept_word(&kept[file], KEPT_SEQUENCE);
        }
    }
    return 0;
}

/* A table and a pool full of garbage, the pool of more nodes than the image has: no word of them may matter. */
static void soil(unsigned more) {
    lend(PLACES, NODES + more);
    memset(run.lent.state, 0x5a, sizeof *run.lent.state);
    memset(run.lent.frames, 0x69, (size_t)run.lent.places * sizeof run.lent.frames[0]);
    memset(run.lent.pool, 0xa5, (size_t)run.lent.pool_len * sizeof run.lent.pool[0]);
    rest = 0xa5a5a5a5u;
    memset(run.lent.work, 0xc3, (size_t)run.lent.work_len * sizeof run.lent.work[0]);
}

/* Words past the image's nodes never change, but that a reading refused by 6 leaves all nodes zero. */
static void check_rest(void) {
    for (size_t i = NODES * SPLITTER_NODE_WORDS; i < run.lent.pool_len; i++) {
        same("a word past the image's nodes", run.lent.pool[i], rest);
    }
}

void work_a_shift(const char *folder, unsigned turns, unsigned more) {
    soil(more);
    uint32_t sequence = read_newest(folder);
    if (sequence == 0) {
        printf("    no image can be read: begins\n");
        begin(&small_card, WORKERS, PLACES, NODES, ALL_SYNC, true);
    }
    for (unsigned i = 0; i < turns && !search.finished; i++) {
        take_turns();
        if (search.turn % TURNS_PER_SAVE == 0 && !search.finished) {
            sequence += 1;
            save(folder, sequence);
        }
    }
    check_rest();
    if (search.finished) {
        tell_result();
    } else {
        printf("    the power goes off after turn %u\n", search.turn);
    }
}
