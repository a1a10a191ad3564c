/* A station whose library is replaced in the middle of a search by one with smaller nodes (document 02, R-9). Usage: changeover IMAGE.
 *
 * The search is document 01's example after five records, in memory as the library with header 0.2 left it (tests/recorded/old.txt has the same
 * words): Main, which has written 99 to splitter 4, waits for its child. The station changes over and goes on. Then the same from the image
 * that the old library saved of it (tests/recorded/old.image), for the update may as well come while the station is powered down. */
#include <stdio.h>
#include <stdlib.h>
#include <string.h>

#include "splitter.h"

enum { NODES = 20, PLACES = 4, OLD_IMAGE_VERSION = 768 };
#define OLD_IMAGE_WORDS \
    (SPLITTER_NUMBERS_WORDS + SPLITTER_MAX_WORKERS * (1u + PLACES) + PLACES * SPLITTER_FRAME_RECORD_WORDS + NODES * SPLITTER_NODE_WORDS_OLD)
#define OLD_IMAGE_BLOCKS ((OLD_IMAGE_WORDS + SPLITTER_BLOCK_WORDS - 1u) / SPLITTER_BLOCK_WORDS)

static uint32_t work[NODES];

/* ---- shown */
/* The memory of a run, which the new program finds as the old one left it. The host notes how many words a node has: that of the header by
 * which the run was begun, until it is changed over. */
struct station {
    uint32_t node_words;
    struct splitter_state state;
    struct splitter_frame table[PLACES];
    uint32_t pool[NODES * SPLITTER_NODE_WORDS_OLD];
};

/* What the calls are lent; the front of the pool, once it has present nodes, and its other half serves for something else. */
static struct splitter_lent lend(struct station *station) {
    struct splitter_lent lent = {&station->state, station->table, PLACES, station->pool, NODES * station->node_words, work, NODES};
    return lent;
}

/* Before the first other call to the new library. Refused, all is as it was, and the old library could go on with it. */
static uint32_t change_over(struct station *station) {
    struct splitter_lent lent = lend(station);
    uint32_t refused = SPLITTER_OK;
    if (station->node_words == SPLITTER_NODE_WORDS_OLD) {
        refused = splitter_lent_convert(&lent);
    }
    if (refused == SPLITTER_OK) {
        station->node_words = SPLITTER_NODE_WORDS;
    }
    return refused;
}
/* ---- end */

static void answers(const char *what, uint64_t got, uint32_t kind, uint32_t number) {
    if (got != splitter_answer(kind, number)) {
        printf("changeover: %s: %u %u\n", what, splitter_answer_kind(got), splitter_answer_number(got));
        exit(1);
    }
}

#define NONE SPLITTER_NONE

/* What the old library left. The trees of Main, root 11, and of its child, root 0, share nodes 1, 3, 4 and their leaves. */
static void take_over(struct station *station) {
    static const uint32_t numbers[SPLITTER_NUMBERS_WORDS] = {2, 5, NODES, 15, 2, 0, 0, 0, 0, PLACES};
    static const struct splitter_frame table[PLACES] = {
        {1, NONE, 0, 1, 1, 11, 0, 0, NONE, 1, 0, NONE}, /* Main: suspended, with one child */
        {1, 0, 1, 0, 0, 0, 0, 0, NONE, 1, 0, NONE},     /* its child */
        {0, 3, 0, 0, 0, 0, 0, 0, 0, 0, 0, 0},
        {0, NONE, 0, 0, 0, 0, 0, 0, 0, 0, 0, 0},
    };
    static const uint32_t pool[NODES][SPLITTER_NODE_WORDS_OLD] = {
        {1, 1, 2, 0}, {2, 3, 4, 0}, {1, 5, NONE, 0}, {1, 6, 7, 0}, {1, 8, 9, 0}, {1, 10, NONE, 0}, /* holders, left, right, 0 */
        {1, NONE, NONE, 10}, {1, NONE, NONE, 20}, {1, NONE, NONE, 30}, {1, NONE, NONE, 40}, {1, NONE, NONE, 50}, /* holders, none, none, value */
        {1, 1, 12, 0}, {1, 13, NONE, 0}, {1, 14, NONE, 0}, {1, NONE, NONE, 99}, /* Main's path to splitter 4 */
        {0, 16, 0, 0}, {0, 17, 0, 0}, {0, 18, 0, 0}, {0, 19, 0, 0}, {0, NONE, 0, 0}, /* free: 0, the next, 0, 0 */
    };
    memset(station, 0, sizeof *station);
    station->node_words = SPLITTER_NODE_WORDS_OLD;
    memcpy(station->state.numbers, numbers, sizeof numbers);
    station->state.deques[0] = 1; /* worker 0 has one frame, */
    station->state.deques[1] = 1; /* the child, in place 1 */
    memcpy(station->table, table, sizeof table);
    memcpy(station->pool, pool, sizeof pool);
}

/* ---- from an old image */

/* A word of the data of an image's blocks. */
static uint32_t word_at(const uint8_t *image, size_t word) {
    const uint8_t *from = image + word / SPLITTER_BLOCK_WORDS * SPLITTER_BLOCK_BYTES + word % SPLITTER_BLOCK_WORDS * 4;
    return from[0] | (uint32_t)from[1] << 8 | (uint32_t)from[2] << 16 | (uint32_t)from[3] << 24;
}

/* The check of each block is the sum of its words, modulo 2^32. */
static bool checks_right(const uint8_t *image) {
    for (size_t block = 0; block < OLD_IMAGE_BLOCKS; block++) {
        uint32_t sum = 0;
        for (size_t word = 0; word < SPLITTER_BLOCK_WORDS; word++) {
            sum += word_at(image + block * SPLITTER_BLOCK_BYTES, word);
        }
        const uint8_t *check = image + (block + 1) * SPLITTER_BLOCK_BYTES - 4;
        if (sum != (check[0] | (uint32_t)check[1] << 8 | (uint32_t)check[2] << 16 | (uint32_t)check[3] << 24)) {
            return false;
        }
    }
    return true;
}

static size_t copy_words(uint32_t *to, const uint8_t *image, size_t from, size_t len) {
    for (size_t i = 0; i < len; i++) {
        to[i] = word_at(image, from + i);
    }
    return from + len;
}

/* The words of an image of version 3: numbers, deques, table and nodes. It must have been saved with as many places and nodes; whether they
 * are sound is for the change-over to say. */
static bool read_old_image(struct station *station, const uint8_t *image, size_t len) {
    uint32_t words[SPLITTER_FRAME_RECORD_WORDS];
    size_t at;
    if (len != OLD_IMAGE_BLOCKS * SPLITTER_BLOCK_BYTES || word_at(image, 0) / 256u != OLD_IMAGE_VERSION / 256u
        || word_at(image, SPLITTER_NUMBER_NODES) != NODES || word_at(image, SPLITTER_NUMBER_PLACES) != PLACES || !checks_right(image)) {
        return false;
    }
    memset(station, 0, sizeof *station);
    station->node_words = SPLITTER_NODE_WORDS_OLD;
    at = copy_words(station->state.numbers, image, 0, SPLITTER_NUMBERS_WORDS);
    station->state.numbers[SPLITTER_NUMBER_WORKERS] -= OLD_IMAGE_VERSION;
    for (unsigned worker = 0; worker < SPLITTER_MAX_WORKERS; worker++) {
        at = copy_words(station->state.deques + worker * (1u + SPLITTER_DEQUE_PLACES), image, at, 1u + PLACES);
    }
    for (unsigned place = 0; place < PLACES; place++) {
        at = copy_words(words, image, at, SPLITTER_FRAME_RECORD_WORDS);
        memcpy(&station->table[place], words, sizeof words);
    }
    copy_words(station->pool, image, at, NODES * SPLITTER_NODE_WORDS_OLD);
    return true;
}

static void read_file(const char *path, uint8_t *to, size_t len) {
    FILE *file = fopen(path, "rb");
    if (file == NULL || fread(to, 1, len, file) != len || fgetc(file) != EOF) {
        printf("changeover: %s is not an image of %zu bytes\n", path, len);
        exit(1);
    }
    fclose(file);
}

/* The four records of the example that are left: worker 1 is idle, the child ends and Main resumes with its own 99, and ends. */
static void go_on(struct station *station) {
    const struct splitter_lent lent = lend(station);
    answers("read", splitter_read(&lent, 1, 4), SPLITTER_WORKER_HAS_NO_FRAME, 0);
    answers("return", splitter_return(&lent, 0), SPLITTER_RETURNED, SPLITTER_RESUMED);
    answers("read", splitter_read(&lent, 0, 4), SPLITTER_VALUE, 99);
    answers("return", splitter_return(&lent, 0), SPLITTER_RETURNED, SPLITTER_FINISHED);
    answers("free nodes", splitter_lent_free_nodes(&lent), NODES, 0);
}

static void in_memory(void) {
    static struct station station, damaged;
    take_over(&station);
    damaged = station;
    damaged.pool[1] = 11; /* the child's root links to Main's */
    answers("damaged", change_over(&damaged), SPLITTER_UNSOUND, 0);
    answers("left as it was", damaged.node_words, SPLITTER_NODE_WORDS_OLD, 0);
    answers("change-over", change_over(&station), SPLITTER_OK, 0);
    answers("inner node", station.pool[2 * 1 + 1], 3 + 65536 * 4, 0);
    answers("inner node without a right link", station.pool[2 * 2 + 1], 5 + 65536 * SPLITTER_NO_LINK, 0);
    answers("leaf", station.pool[2 * 14 + 1], 99, 0);
    answers("free node", station.pool[2 * 19 + 1], SPLITTER_NONE, 0);
    answers("the other half", station.pool[NODES * SPLITTER_NODE_WORDS], 0, 0);
    answers("once more", change_over(&station), SPLITTER_OK, 0); /* the host knows */
    go_on(&station);
}

static void from_image(const char *path) {
    static uint8_t image[OLD_IMAGE_BLOCKS * SPLITTER_BLOCK_BYTES], saved[SPLITTER_IMAGE_BYTES(PLACES, NODES)];
    static struct station station, wanted;
    const struct splitter_lent any = lend(&station);
    read_file(path, image, sizeof image);
    answers("an old image", splitter_lent_load(&any, image, sizeof image), SPLITTER_BAD_BLOCKS, 0);
    answers("its words", read_old_image(&station, image, sizeof image), true, 0);
    take_over(&wanted);
    answers("as in memory", memcmp(&station, &wanted, sizeof station) == 0, true, 0);
    answers("change-over", change_over(&station), SPLITTER_OK, 0);
    const struct splitter_lent lent = lend(&station);
    answers("save", splitter_lent_save(&lent, saved, sizeof saved), SPLITTER_OK, 0);
    memset(&station.state, 0, sizeof station.state);
    answers("load", splitter_lent_load(&lent, saved, sizeof saved), SPLITTER_OK, 0);
    go_on(&station);
    image[700] ^= 1;
    answers("a damaged image", read_old_image(&station, image, sizeof image), false, 0);
}

int main(int argc, char **argv) {
    if (argc != 2) {
        fprintf(stderr, "usage: changeover IMAGE; the image is tests/recorded/old.image\n");
        return 2;
    }
    in_memory();
    from_image(argv[1]);
    printf("changeover: a search of the library before goes on from memory and from its image; a damaged one is left as it was\n");
    return 0;
}
