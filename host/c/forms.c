/* The form of an image (document 02, R-8): a save adds 1,024 to the first word, and a reading takes no other form. Images from before, of
 * versions 0 to 3, are refused by 17, and so is each first word that is not 1,024 to 1,279. An image of each table length is read back into
 * a table of that length and refused by 6 in any other. */
#include <stdio.h>
#include <string.h>

#include "checked.h"
#include "older.h"

enum { MOST = 300, PLACES = SPLITTER_MAX_PLACES, FIRST_CHECK = SPLITTER_BLOCK_BYTES - 4 };

static struct splitter_state state, old_state;
static struct splitter_frame table[PLACES + 1], old_table[PLACES + 1];
static uint32_t pool[MOST * SPLITTER_NODE_WORDS], old_pool[MOST * SPLITTER_NODE_WORDS], work[MOST];
static const uint32_t values[5] = {10, 20, 30, 40, 50};
static struct checked run = {.lent = {&state, table, 0, pool, 0, work, MOST}};
static uint8_t image[SPLITTER_IMAGE_BYTES(PLACES, MOST)], again[SPLITTER_IMAGE_BYTES(PLACES, MOST)];

/* Main waits at its sync; its child runs. Both have folded. */
static void begin(unsigned places, unsigned nodes) {
    run.lent.places = places;
    run.lent.pool_len = nodes * SPLITTER_NODE_WORDS;
    same("start", checked_start(&run, 2, values, 5), SPLITTER_OK);
    checked_fold(&run, 0, SPLITTER_REDUCER_SUM, 7);
    checked_spawn(&run, 0);
    checked_steal(&run, 1, 0);
    checked_write(&run, 1, 4, 99);
    checked_fold(&run, 1, SPLITTER_REDUCER_MIN, 8);
    checked_sync(&run, 1);
    old_state = state;
    memcpy(old_table, table, sizeof table);
    memcpy(old_pool, pool, sizeof pool);
}

static void soil(void) {
    memset(&state, 0xa5, sizeof state);
    memset(table, 0xa5, (size_t)run.lent.places * sizeof table[0]);
    memset(pool, 0xa5, (size_t)run.lent.pool_len * sizeof pool[0]);
}

static void check_same_run(void) {
    same("state", (uint64_t)memcmp(&state, &old_state, sizeof state), 0);
    same("table", (uint64_t)memcmp(table, old_table, sizeof table), 0);
    same("pool", (uint64_t)memcmp(pool, old_pool, sizeof pool), 0);
}

/* A refused reading leaves a state of zeros; by 6 the lent table's records and the pool's nodes are zero too, else as they were. No record
 * past the lent table changes. */
static void refused(const uint8_t *from, size_t len, uint32_t wanted) {
    static const struct splitter_state zeros;
    static const struct splitter_frame free_records[PLACES + 1];
    const size_t lent = (size_t)run.lent.places;
    memcpy(table, old_table, sizeof table);
    memcpy(pool, old_pool, sizeof pool);
    same("load", splitter_lent_load(&run.lent, from, len), wanted);
    same("state", (uint64_t)memcmp(&state, &zeros, sizeof state), 0);
    const struct splitter_frame *left = wanted == SPLITTER_UNSOUND ? free_records : old_table;
    same("table", (uint64_t)memcmp(table, left, lent * sizeof table[0]), 0);
    same("past the table", (uint64_t)memcmp(table + lent, old_table + lent, (PLACES + 1 - lent) * sizeof table[0]), 0);
    same("pool", pool[1], wanted == SPLITTER_UNSOUND ? 0 : old_pool[1]);
}

/* Images from before are refused, each of its own length and of the new one. */
static void older_forms(unsigned nodes) {
    begin(OLDER_PLACES, nodes);
    for (unsigned version = 0; version < OLDER_VERSIONS; version++) {
        memset(again, 0, sizeof again);
        size_t len = older_image(&old_state, old_table, old_pool, version, again);
        same("bytes", len, OLDER_IMAGE_BYTES(nodes, version));
        refused(again, len, SPLITTER_BAD_BLOCKS);
        refused(again, SPLITTER_IMAGE_BYTES(OLDER_PLACES, nodes), SPLITTER_BAD_BLOCKS);
    }
}

/* An image gives the same run, and its save the same image. */
static void read_back(unsigned places, unsigned nodes) {
    const size_t len = SPLITTER_IMAGE_BYTES(places, nodes);
    begin(places, nodes);
    same("save", splitter_lent_save(&run.lent, image, len), SPLITTER_OK);
    soil();
    same("load", splitter_lent_load(&run.lent, image, len), SPLITTER_OK);
    check_same_run();
    same("save", splitter_lent_save(&run.lent, again, len), SPLITTER_OK);
    same("image", (uint64_t)memcmp(image, again, len), 0);
    same("resumed", checked_return(&run, 0), splitter_answer(SPLITTER_RETURNED, SPLITTER_RESUMED));
    same("read", checked_read(&run, 0, 4), splitter_answer(SPLITTER_VALUE, 99));
    same("over", checked_return(&run, 0), splitter_answer(SPLITTER_RETURNED, SPLITTER_FINISHED));
    same("total", checked_totals(&run).sum, 7);
    same("total", checked_totals(&run).min, 8);
}

/* Read into a table of each other length, 0 and one too many among them: 6, whatever the table holds. */
static void other_lengths(unsigned places) {
    const size_t len = SPLITTER_IMAGE_BYTES(places, 20);
    begin(places, 20);
    same("save", splitter_lent_save(&run.lent, image, len), SPLITTER_OK);
    for (unsigned other = 0; other <= PLACES + 1; other++) {
        run.lent.places = other;
        if (other != places) {
            refused(image, len, SPLITTER_UNSOUND);
        }
    }
}

static uint32_t get_word(const uint8_t *from) {
    return from[0] | (uint32_t)from[1] << 8 | (uint32_t)from[2] << 16 | (uint32_t)from[3] << 24;
}

static void put_word(uint8_t *to, uint32_t word) {
    for (unsigned i = 0; i < 4; i++) {
        to[i] = (uint8_t)(word >> 8 * i & 0xffu);
    }
}

/* Another first word, with the check that belongs to it. */
static void first_word(size_t len, uint32_t word, uint32_t wanted) {
    uint32_t old = get_word(image);
    put_word(image + FIRST_CHECK, get_word(image + FIRST_CHECK) + word - old);
    put_word(image, word);
    if (wanted != SPLITTER_OK) {
        refused(image, len, wanted);
    } else {
        same("first word", splitter_lent_load(&run.lent, image, len), SPLITTER_OK);
    }
    put_word(image + FIRST_CHECK, get_word(image + FIRST_CHECK) + old - word);
    put_word(image, old);
}

/* 1,024 to 1,279 have a form; the workers in it must be 1 to 8. All but worker 0 are idle, so that any such number is sound. */
static void first_words(void) {
    begin(OLDER_PLACES, 20);
    same("save", splitter_lent_save(&run.lent, image, sizeof image), SPLITTER_OK);
    for (uint32_t word = 0; word < 1700; word++) {
        uint32_t workers = word % 256;
        int form = word / 256 * 256 == SPLITTER_IMAGE_VERSION, sound = workers >= 1 && workers <= SPLITTER_MAX_WORKERS;
        first_word(SPLITTER_IMAGE_BYTES(OLDER_PLACES, 20), word, !form ? SPLITTER_BAD_BLOCKS : sound ? SPLITTER_OK : SPLITTER_UNSOUND);
    }
    static const uint32_t others[] = {1794, 65536 + 1026, 1u << 24, 0x80000402u, 0xffffffffu};
    for (size_t i = 0; i < sizeof others / sizeof others[0]; i++) {
        first_word(SPLITTER_IMAGE_BYTES(OLDER_PLACES, 20), others[i], SPLITTER_BAD_BLOCKS);
    }
    first_word(OLDER_IMAGE_BYTES(20, 1), SPLITTER_IMAGE_VERSION + 2, SPLITTER_BAD_BLOCKS);
}

int main(void) {
    for (unsigned nodes = 15; nodes <= MOST; nodes++) {
        older_forms(nodes);
        read_back(OLDER_PLACES, nodes);
    }
    for (unsigned places = 2; places <= PLACES; places++) {
        read_back(places, 20);
        other_lengths(places);
    }
    first_words();
    printf("forms: images with 15 to %d nodes and 2 to %d places are read back, in another table refused by 6, those from before by 17; "
           "first words 1024 to 1279 have a form\n", MOST, PLACES);
    return 0;
}
