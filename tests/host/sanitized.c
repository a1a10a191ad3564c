/* Makes the calls of a file again that `compare --record FILE` wrote (src/record.rs has its form), from C, and compares results and
 * slices with what they were. Each slice is a malloc'ed block of just its size. Exits with 1 at a difference. */
#include "splitter.h"
#include <stdio.h>
#include <stdlib.h>
#include <string.h>

enum { NUMBERS, DEQUES, FRAMES, POOL, WORK, ANSWERS, CLOCKS, REPORT, SLICES };

static void stop(const char *why, unsigned long call)
{
    fprintf(stderr, "call %lu: %s\n", call, why);
    exit(1);
}

/* size bytes from the file, in a block of their own. */
static void *block(FILE *file, size_t size)
{
    void *memory = malloc(size);
    if (!memory || fread(memory, 1, size, file) != size)
        stop("the file is cut short", 0);
    return memory;
}

static uint32_t word(FILE *file)
{
    uint32_t *read = block(file, sizeof *read), value = *read;
    free(read);
    return value;
}

/* One call, its entry already read. */
static void call(FILE *file, uint32_t entry, unsigned long number)
{
    uint32_t *argument = block(file, 4 * sizeof *argument), *result = block(file, 2 * sizeof *result);
    size_t values = word(file);
    uint32_t *value = block(file, values * 4);
    size_t bytes = word(file);
    uint8_t *byte = block(file, bytes), *byte_after = block(file, bytes);
    size_t length[SLICES];
    uint32_t *slice[SLICES], *after[SLICES];
    for (int i = 0; i < SLICES; i++) {
        length[i] = word(file);
        slice[i] = block(file, length[i] * 4);
        after[i] = block(file, length[i] * 4);
    }
    struct splitter_frame *frames = (struct splitter_frame *)slice[FRAMES];
    size_t places = length[FRAMES] / SPLITTER_FRAME_RECORD_WORDS;
    uint64_t got = 0;
    if (entry == 1)
        got = splitter_start(slice[NUMBERS], length[NUMBERS], slice[DEQUES], length[DEQUES], frames, places,
                             argument[0], value, values, slice[POOL], length[POOL]);
    else if (entry == 2)
        got = splitter_step(slice[NUMBERS], length[NUMBERS], slice[DEQUES], length[DEQUES], frames, places,
                            slice[POOL], length[POOL], slice[WORK], length[WORK],
                            argument[0], argument[1], argument[2], argument[3]);
    else if (entry == 3)
        got = splitter_tape(slice[NUMBERS], length[NUMBERS], slice[DEQUES], length[DEQUES], frames, places,
                            slice[POOL], length[POOL], slice[WORK], length[WORK], byte, bytes, slice[ANSWERS], length[ANSWERS]);
    else if (entry == 4)
        got = splitter_save(slice[NUMBERS], length[NUMBERS], slice[DEQUES], length[DEQUES], frames, places,
                            slice[POOL], length[POOL], slice[WORK], length[WORK], byte, bytes);
    else if (entry == 5)
        got = splitter_load(slice[NUMBERS], length[NUMBERS], slice[DEQUES], length[DEQUES], frames, places,
                            slice[POOL], length[POOL], slice[WORK], length[WORK], byte, bytes);
    else if (entry == 6)
        got = splitter_report(slice[NUMBERS], length[NUMBERS], slice[DEQUES], length[DEQUES], frames, places,
                              argument[0], value, values, slice[POOL], length[POOL], slice[WORK], length[WORK], byte, bytes,
                              slice[ANSWERS], length[ANSWERS], (uint64_t *)slice[CLOCKS], length[CLOCKS] / 2,
                              (uint64_t *)slice[REPORT], length[REPORT] / 2);
    else if (entry == 7)
        got = splitter_convert(slice[NUMBERS], length[NUMBERS], slice[DEQUES], length[DEQUES], frames, places,
                               slice[POOL], length[POOL], slice[WORK], length[WORK]);
    else
        stop("no such entry", number);
    if ((uint32_t)got != result[0] || (uint32_t)(got >> 32) != result[1])
        stop("another result", number);
    for (int i = 0; i < SLICES; i++) {
        if (memcmp(slice[i], after[i], length[i] * 4))
            stop("another word in a slice", number);
        free(slice[i]);
        free(after[i]);
    }
    if (memcmp(byte, byte_after, bytes))
        stop("another byte", number);
    free(byte);
    free(byte_after);
    free(value);
    free(argument);
    free(result);
}

int main(int count, char **arguments)
{
    FILE *file = count == 2 ? fopen(arguments[1], "rb") : NULL;
    if (!file)
        stop("usage: sanitized FILE", 0);
    unsigned long number = 0;
    uint32_t entry;
    for (; fread(&entry, sizeof entry, 1, file) == 1; number++)
        call(file, entry, number);
    fclose(file);
    printf("%lu calls made again from C\n", number);
    return 0;
}
