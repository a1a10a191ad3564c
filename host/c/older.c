#include "older.h"

#include <string.h>

/* Words into blocks. The check is a sum of bytes, each times 256 raised to its offset modulo 4: a sum of words. */
struct blocks {
    uint8_t *to;
    unsigned words; /* of the block so far */
    uint32_t sum;
};

static void put_bytes(struct blocks *blocks, uint32_t word) {
    for (unsigned i = 0; i < 4; i++) {
        *blocks->to++ = (uint8_t)(word >> 8 * i & 0xffu);
    }
}

static void put_word(struct blocks *blocks, uint32_t word) {
    put_bytes(blocks, word);
    blocks->sum += word;
    blocks->words += 1;
    if (blocks->words == SPLITTER_BLOCK_WORDS) {
        put_bytes(blocks, blocks->sum);
        blocks->words = 0;
        blocks->sum = 0;
    }
}

static void put_words(struct blocks *blocks, const uint32_t *words, size_t len) {
    for (size_t i = 0; i < len; i++) {
        put_word(blocks, words[i]);
    }
}

enum { FREE = 255 };
static uint8_t levels[SPLITTER_MAX_NODES]; /* of the nodes in use */

/* "Levels tell which is meant": from a node of this level down. */
static void find_levels(const uint32_t *pool, uint32_t node, uint8_t level) {
    uint32_t links = pool[node * SPLITTER_NODE_WORDS + 1];
    if (levels[node] != FREE) {
        return;
    }
    levels[node] = level;
    for (unsigned side = 0; level > 0 && side < 2; side++) {
        uint32_t link = side == 0 ? links % 65536u : links / 65536u;
        if (link != SPLITTER_NO_LINK) {
            find_levels(pool, link, (uint8_t)(level - 1));
        }
    }
}

static uint32_t unpacked(uint32_t link) {
    return link == SPLITTER_NO_LINK ? SPLITTER_NONE : link;
}

/* A node's four words. */
static void put_node(struct blocks *blocks, const uint32_t *node, uint8_t level) {
    uint32_t words[OLDER_NODE_WORDS] = {node[0], node[1], 0, 0};
    if (level == 0) {
        words[1] = words[2] = SPLITTER_NONE;
        words[3] = node[1];
    } else if (level != FREE) {
        words[1] = unpacked(node[1] % 65536u);
        words[2] = unpacked(node[1] / 65536u);
    }
    put_words(blocks, words, OLDER_NODE_WORDS);
}

static void put_nodes(struct blocks *blocks, const struct splitter_state *state, const struct splitter_frame *table, const uint32_t *pool) {
    uint8_t height = 0;
    while (1u << height < state->numbers[SPLITTER_NUMBER_SPLITTERS]) {
        height++;
    }
    memset(levels, FREE, sizeof levels);
    for (unsigned place = 0; place < OLDER_PLACES; place++) {
        if (table[place].live != 0) {
            find_levels(pool, table[place].root, height);
        }
    }
    for (uint32_t node = 0; node < state->numbers[SPLITTER_NUMBER_NODES]; node++) {
        put_node(blocks, pool + node * SPLITTER_NODE_WORDS, levels[node]);
    }
}

size_t older_image(const struct splitter_state *state, const struct splitter_frame *table, const uint32_t *pool, unsigned version,
                   uint8_t *target) {
    struct blocks blocks = {target, 0, 0};
    put_word(&blocks, OLDER_VERSION * version + state->numbers[SPLITTER_NUMBER_WORKERS]);
    put_words(&blocks, state->numbers + 1, OLDER_NUMBERS_WORDS(version) - 1);
    for (unsigned worker = 0; worker < SPLITTER_MAX_WORKERS; worker++) {
        put_words(&blocks, state->deques + worker * (1 + SPLITTER_DEQUE_PLACES), 1 + OLDER_PLACES);
    }
    for (unsigned place = 0; place < OLDER_PLACES; place++) {
        uint32_t words[SPLITTER_FRAME_RECORD_WORDS];
        memcpy(words, &table[place], sizeof words);
        put_words(&blocks, words, OLDER_FRAME_RECORD_WORDS(version));
    }
    put_nodes(&blocks, state, table, pool);
    while (blocks.words > 0) {
        put_word(&blocks, 0);
    }
    return (size_t)(blocks.to - target);
}
