/* Images of the library, for tools/test_tape.py. Standard input: requests, each as its length in 4 bytes, a letter and the rest. s and splitrun's
 * input: a start in a table of 64 places, the tape, a save; answered by the image's length in 4 bytes and the image. l and an image: a reading, into
 * as many places and nodes as the image says, if they can be lent; answered by the refusal or 0 in 4 bytes, 99 if the image that is saved then is
 * another. */
#include <stdio.h>
#include <string.h>

#include "splitter.h"

enum { PLACES = 64, NODES = 1024, RECORDS = 2048, BYTES = 40000 };

static struct splitter_state state;
static struct splitter_frame table[SPLITTER_MAX_PLACES];
static uint32_t pool[NODES * SPLITTER_NODE_WORDS], work[NODES], values[SPLITTER_MAX_SPLITTERS], answers[2 * RECORDS];
static uint8_t input[BYTES], image[SPLITTER_IMAGE_BYTES(SPLITTER_MAX_PLACES, NODES)];

static uint32_t word_at(size_t at) {
    return input[at] | (uint32_t)input[at + 1] << 8 | (uint32_t)input[at + 2] << 16 | (uint32_t)input[at + 3] << 24;
}

static void put_word(uint32_t word) {
    for (unsigned shift = 0; shift < 32; shift += 8) {
        putchar((int)(word >> shift & 0xffu));
    }
}

static int save(struct splitter_lent *lent, size_t length) {
    const uint32_t workers = word_at(1) & 65535u, n = word_at(1) >> 16, nodes = word_at(5) & 65535u;
    const size_t from = 9 + 4 * (size_t)n, bytes = SPLITTER_IMAGE_BYTES(PLACES, nodes);
    lent->places = PLACES;
    lent->pool_len = SPLITTER_NODE_WORDS * (splitter_len)nodes;
    for (uint32_t i = 0; i < n; i++) {
        values[i] = word_at(9 + 4 * (size_t)i);
    }
    if (splitter_lent_start(lent, workers, values, n) != 0 || splitter_lent_tape(lent, input + from, length - from, answers, 2 * RECORDS) != 0
        || splitter_lent_save(lent, image, bytes) != 0) {
        return 1;
    }
    put_word((uint32_t)bytes);
    return fwrite(image, 1, bytes, stdout) != bytes;
}

static void load(struct splitter_lent *lent, size_t length) {
    const uint32_t places = length > 40 ? word_at(37) : 0, nodes = length > 12 ? word_at(9) : 0;
    lent->places = places > SPLITTER_MAX_PLACES ? SPLITTER_MAX_PLACES : places;
    lent->pool_len = SPLITTER_NODE_WORDS * (splitter_len)(nodes > NODES ? NODES : nodes);
    memset(pool, 0x5a, sizeof pool);
    uint32_t result = splitter_lent_load(lent, input + 1, length - 1);
    if (result == 0 && (splitter_lent_save(lent, image, length - 1) != 0 || memcmp(image, input + 1, length - 1) != 0)) {
        result = 99;
    }
    put_word(result);
}

int main(void) {
    struct splitter_lent lent = {&state, table, 0, pool, 0, work, NODES};
    while (fread(input, 1, 4, stdin) == 4) {
        const size_t length = word_at(0);
        if (length < 1 || length > BYTES || fread(input, 1, length, stdin) != length) {
            return 1;
        }
        if (input[0] == 'l') {
            load(&lent, length);
        } else if (save(&lent, length) != 0) {
            return 1;
        }
    }
    return 0;
}
