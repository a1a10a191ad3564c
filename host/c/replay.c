/* Replays a log's steps through the library, without splitrun's limits: tools/tape.py audit builds and runs it for long logs and large pools.
 * Standard input as splitrun's: workers and n (16 bits each), nodes (32 bits), n initial values, records to the end. It prints splitrun's
 * lines. Input that is cut short is refused with a message and exit status 2. */
#include <stdio.h>
#include <stdlib.h>

#include "splitter.h"

enum { AT_ONCE = 4096, PLACES = 64 /* as splitrun lends */, MOST_VALUES = 65535 };

static struct splitter_state state;
static struct splitter_frame table[PLACES];
static uint32_t pool[(SPLITTER_MAX_NODES + 1u) * SPLITTER_NODE_WORDS], work[SPLITTER_MAX_NODES + 1u];
static uint32_t values[MOST_VALUES + 1], answers[2 * AT_ONCE];
static uint8_t records[AT_ONCE * SPLITTER_RECORD_BYTES];

static void refuse(const char *what) {
    fprintf(stderr, "replay: %s\n", what);
    exit(2);
}

static uint32_t word_of(const uint8_t *bytes) {
    return (uint32_t)bytes[0] | (uint32_t)bytes[1] << 8 | (uint32_t)bytes[2] << 16 | (uint32_t)bytes[3] << 24;
}

static uint32_t read_word(const char *what) {
    uint8_t bytes[4];
    if (fread(bytes, 1, sizeof bytes, stdin) != sizeof bytes) {
        refuse(what);
    }
    return word_of(bytes);
}

static uint32_t free_nodes(void) {
    uint32_t count = 0;
    for (uint32_t node = state.numbers[SPLITTER_NUMBER_FREE_NODE]; node != UINT32_MAX; node = pool[node * SPLITTER_NODE_WORDS + 1]) {
        count += 1;
    }
    return count;
}

/* A tape of as many records as there are, at most AT_ONCE; 0 at the end. */
static size_t tape(const struct splitter_lent *lent) {
    size_t bytes = fread(records, 1, sizeof records, stdin);
    if (bytes % SPLITTER_RECORD_BYTES != 0) {
        refuse("the last record is cut short");
    }
    size_t count = bytes / SPLITTER_RECORD_BYTES;
    uint32_t refused = splitter_lent_tape(lent, records, bytes, answers, 2 * count);
    if (refused != SPLITTER_OK) {
        refuse(splitter_name(refused));
    }
    for (size_t i = 0; i < count; i++) {
        printf("%u %u\n", answers[2 * i], answers[2 * i + 1]);
    }
    return count;
}

int main(void) {
    uint32_t first = read_word("the header is cut short");
    uint32_t nodes = read_word("the header is cut short");
    uint32_t workers = first & 0xffffu, n = first >> 16;
    for (uint32_t i = 0; i < n; i++) {
        values[i] = read_word("the initial values are cut short");
    }
    uint32_t lend = nodes <= SPLITTER_MAX_NODES ? nodes : SPLITTER_MAX_NODES + 1u; /* the library refuses one too many */
    struct splitter_lent lent = {&state, table, PLACES, pool, lend * SPLITTER_NODE_WORDS, work, lend};
    printf("%u %u %u\n", workers, n, nodes);
    uint32_t refused = splitter_lent_start(&lent, workers, values, n);
    if (refused != SPLITTER_OK) {
        printf("refused %u\n", refused);
        return 0;
    }
    while (tape(&lent) != 0) {
    }
    printf("free %u\n", free_nodes());
    struct splitter_totals totals;
    if (splitter_lent_get_totals(&lent, &totals)) {
        printf("reduced %u %u %u %u\n", totals.sum, totals.min, totals.multiplier, totals.addend);
    }
    return 0;
}
