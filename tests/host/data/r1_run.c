/* Made data/r1_run.image and data/r1_run.txt, linked with the library of R-1: see data/README.md.
 * A start, a search on four workers, a save; then further records, from what the save left. The text has every answer. */
#include "splitter.h"
#include <stdio.h>
#include <stdlib.h>

enum { WORKERS = 4, SPLITTERS = 5, NODES = 40 };

static struct splitter_state state;
static uint32_t pool[SPLITTER_NODE_WORDS * NODES], work[NODES];

/* Kind, worker, field, value. At the save Main and its first child are suspended. */
static const uint32_t before[][4] = {
    {1, 0, 0, 0}, {6, 0, 0, 11}, {3, 1, 0, 0},  {6, 1, 4, 99}, {1, 1, 0, 0}, {3, 2, 1, 0}, {4, 2, 0, 0},  {1, 0, 0, 0},
    {6, 0, 1, 21}, {3, 3, 0, 0}, {4, 3, 0, 0}, {1, 0, 0, 0},  {6, 0, 2, 33}, {5, 1, 4, 0}, {6, 1, 3, 44}, {5, 2, 0, 0},
};

static const uint32_t after[][4] = {
    {5, 0, 2, 0}, {5, 1, 3, 0}, {3, 2, 0, 0}, {6, 2, 0, 5},  {5, 0, 0, 0},  {2, 0, 0, 0}, {2, 2, 0, 0}, {5, 2, 0, 0},
    {5, 2, 2, 0}, {4, 2, 0, 0}, {6, 2, 4, 7}, {1, 1, 0, 0},  {5, 3, 0, 0},  {2, 1, 0, 0}, {5, 1, 9, 0}, {2, 1, 0, 0},
    {2, 2, 0, 0}, {5, 2, 4, 0}, {5, 2, 0, 0}, {6, 2, 0, 12}, {1, 2, 0, 0},  {6, 2, 0, 13}, {2, 2, 0, 0}, {5, 2, 0, 0},
    {2, 2, 0, 0}, {2, 0, 0, 0},
};

static void take(const uint32_t step[4])
{
    uint64_t answer = splitter_state_step(&state, pool, sizeof pool / 4, work, NODES, step[0], step[1], step[2], step[3]);
    printf("%u %u %u %u = %u %u\n", step[0], step[1], step[2], step[3], splitter_answer_kind(answer), splitter_answer_number(answer));
}

static void words(const char *name, unsigned number, const uint32_t *word, unsigned count)
{
    printf("%s %u =", name, number);
    for (unsigned i = 0; i < count; i++)
        printf(" %u", word[i]);
    printf("\n");
}

/* The numbers, the frames of each worker and the live records. */
static void say_state(void)
{
    words("numbers", 0, state.numbers, SPLITTER_NUMBERS_WORDS);
    for (unsigned worker = 0; worker < WORKERS; worker++)
        words("deque", worker, state.deques + 65 * worker + 1, state.deques[65 * worker]);
    for (unsigned place = 0; place < SPLITTER_MAX_FRAMES; place++)
        if (state.frames[6 * place])
            words("frame", place, state.frames + 6 * place, 6);
}

int main(int count, char **arguments)
{
    static const uint32_t values[SPLITTERS] = {10, 20, 30, 40, 50};
    static uint8_t image[SPLITTER_IMAGE_BYTES(NODES)];
    FILE *file = count == 2 ? fopen(arguments[1], "wb") : NULL;
    if (!file || splitter_state_start(&state, WORKERS, values, SPLITTERS, pool, sizeof pool / 4))
        return 1;
    printf("before the save\n");
    for (size_t i = 0; i < sizeof before / sizeof *before; i++)
        take(before[i]);
    if (splitter_state_save(&state, pool, sizeof pool / 4, work, NODES, image, sizeof image))
        return 1;
    if (fwrite(image, 1, sizeof image, file) != sizeof image || fclose(file))
        return 1;
    printf("saved\n");
    say_state();
    printf("after the save\n");
    for (size_t i = 0; i < sizeof after / sizeof *after; i++)
        take(after[i]);
    return 0;
}
