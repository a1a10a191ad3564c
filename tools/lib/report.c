/* Reports of the library, for tools/test_report.py. Standard input: runs, each as its length in 4 bytes and then splitrun's input. A line for each:
 * the result, work, span, quotient and remainder (0 where there is no report), and then the answer words. */
#include <stdio.h>
#include <stdlib.h>
#include <string.h>

#include "splitter.h"

enum { PLACES = 64, NODES = 1024, RECORDS = 2048, BYTES = 20000 };

static struct splitter_state state;
static struct splitter_frame table[PLACES];
static uint32_t pool[NODES * SPLITTER_NODE_WORDS], work[NODES], values[SPLITTER_MAX_SPLITTERS], answers[2 * RECORDS];
static uint64_t clocks[SPLITTER_CLOCKS_WORDS(PLACES)];
static uint8_t input[BYTES];

static uint32_t word_at(size_t at) {
    return input[at] | (uint32_t)input[at + 1] << 8 | (uint32_t)input[at + 2] << 16 | (uint32_t)input[at + 3] << 24;
}

int main(void) {
    const struct splitter_lent lent = {&state, table, PLACES, pool, 0, work, NODES};
    while (fread(input, 1, 4, stdin) == 4) {
        const size_t length = word_at(0);
        if (length > BYTES || fread(input, 1, length, stdin) != length) {
            return 1;
        }
        struct splitter_lent run = lent;
        struct splitter_parallelism told = {0, 0, 0, 0};
        const uint32_t workers = word_at(0) & 65535u, n = word_at(0) >> 16;
        const size_t from = 8 + 4 * (size_t)n, tape = length - from;
        uint32_t result;
        run.pool_len = SPLITTER_NODE_WORDS * (word_at(4) & 65535u);
        for (uint32_t i = 0; i < n; i++) {
            values[i] = word_at(8 + 4 * (size_t)i);
        }
        memset(clocks, 0x5a, sizeof clocks);
        result = splitter_lent_report(&run, workers, values, n, input + from, tape, answers, 2 * RECORDS,
                                      clocks, SPLITTER_CLOCKS_WORDS(PLACES), &told);
        printf("%u %llu %llu %llu %llu", result, (unsigned long long)told.work, (unsigned long long)told.span,
               (unsigned long long)told.quotient, (unsigned long long)told.remainder);
        for (size_t i = 0; i < tape / SPLITTER_RECORD_BYTES; i++) {
            printf(" %u,%u", answers[2 * i], answers[2 * i + 1]);
        }
        putchar('\n');
    }
    return 0;
}
