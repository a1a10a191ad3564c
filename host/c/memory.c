/* How much memory views take as trees, and as copies: the rows of the table in docs/INTEGRATION.md, "Why not just copy?". One worker; the
 * frames are a line of descendants of Main, and each writes to some splitters after its spawn, anywhere or side by side. */
#include <stdio.h>
#include <stdlib.h>

#include "splitter.h"

enum { NODES = SPLITTER_MAX_NODES, FRAMES = 32, NODE_BYTES = 4 * (SPLITTER_NODE_WORDS + 1) /* with its word of work */ };

static struct splitter_state state;
static struct splitter_frame table[FRAMES];
static uint32_t pool[NODES * SPLITTER_NODE_WORDS], work[NODES], values[SPLITTER_MAX_SPLITTERS];
static const struct splitter_lent lent = {&state, table, FRAMES, pool, NODES * SPLITTER_NODE_WORDS, work, NODES};
static uint32_t seed;

/* Xorshift: a number below the bound. */
static uint32_t any(uint32_t below) {
    seed ^= seed << 13;
    seed ^= seed >> 17;
    seed ^= seed << 5;
    return (uint32_t)((uint64_t)seed * below >> 32);
}

static void accepted(uint64_t answer) {
    if (splitter_answer_kind(answer) < 100) {
        printf("memory: refused: %s\n", splitter_name(splitter_answer_kind(answer)));
        exit(1);
    }
}

/* The first w of a random order of the splitters. */
static void write_anywhere(unsigned n, unsigned w) {
    uint32_t order[SPLITTER_MAX_SPLITTERS];
    for (unsigned i = 0; i < n; i++) {
        order[i] = i;
    }
    for (unsigned i = 0; i < w; i++) {
        unsigned j = i + any(n - i);
        uint32_t chosen = order[j];
        order[j] = order[i];
        order[i] = chosen;
        accepted(splitter_write(&lent, 0, chosen, i));
    }
}

/* w splitters from a random one on. */
static void write_beside(unsigned n, unsigned w) {
    unsigned first = any(n - w + 1);
    for (unsigned i = 0; i < w; i++) {
        accepted(splitter_write(&lent, 0, first + i, i));
    }
}

static unsigned free_nodes(void) {
    unsigned free = 0;
    for (uint32_t node = state.numbers[SPLITTER_NUMBER_FREE_NODE]; node < NODES; node = pool[node * SPLITTER_NODE_WORDS + 1]) {
        free += 1;
    }
    return free;
}

/* The nodes in use after so many frames have written. */
static unsigned nodes_used(unsigned n, unsigned w, void (*write)(unsigned, unsigned)) {
    seed = 20261116;
    if (splitter_lent_start(&lent, 1, values, n) != SPLITTER_OK) {
        printf("memory: the start is refused\n");
        exit(1);
    }
    write(n, w);
    for (unsigned frame = 1; frame < FRAMES; frame++) {
        accepted(splitter_spawn(&lent, 0));
        write(n, w);
    }
    return NODES - free_nodes();
}

int main(void) {
    static const unsigned rows[][2] = {{256, 0}, {256, 1}, {256, 2}, {256, 4}, {256, 8}, {256, 16}, {256, 64}, {256, 256}, {64, 0},
                                       {64, 1}, {64, 2}, {64, 4}, {64, 64}, {16, 0}, {16, 1}, {16, 16}};
    for (unsigned i = 0; i < sizeof rows / sizeof rows[0]; i++) {
        unsigned n = rows[i][0], w = rows[i][1];
        unsigned anywhere = nodes_used(n, w, write_anywhere), beside = nodes_used(n, w, write_beside);
        printf("| %u | %u | %u | %u | %u | %u | %u |\n", n, w, anywhere, anywhere * NODE_BYTES, beside, beside * NODE_BYTES,
               FRAMES * n * 4);
    }
    return 0;
}
