/* Makes the calls of a recording again, as tests/host/sanitized.c does, without a C library: the recording is standard input
 * (tests/host/src/record.rs has its form). Results, and every word and byte of the slices, must be what they were. The slices of a call lie
 * side by side in one arena, the words at multiples of four, those of 64 bits at multiples of eight, and the bytes anywhere. Exit status 1 at
 * a difference. */
#include "splitter.h"
#include "system.h"
#include <stdio.h>
#include <stdlib.h>
#include <string.h>

enum { NUMBERS, DEQUES, FRAMES, POOL, WORK, ANSWERS, CLOCKS, REPORT, SLICES };
enum { START = 1, STEP, TAPE, SAVE, LOAD, REPORTED, CONVERT };

static _Alignas(8) uint8_t arena[1 << 22];
static size_t used;
static unsigned calls;

struct call {
    uint32_t entry, *argument, *result, *value, values, bytes;
    uint8_t *byte, *byte_after;
    uint32_t length[SLICES], *slice[SLICES], *after[SLICES];
};

static _Noreturn void stop(const char *why) {
    printf("call %u: %s\n", calls, why);
    exit(1);
}

/* So many bytes of the recording; fewer only at its end. */
static size_t read_some(uint8_t *to, size_t size) {
    size_t got = 0;
    while (got < size) {
        long count = system_read(to + got, size - got);
        if (count <= 0) {
            break;
        }
        got += (size_t)count;
    }
    return got;
}

/* The next bytes of the recording, in the arena. */
static void *block(size_t size) {
    uint8_t *at = arena + used;
    if (size > sizeof arena - used || read_some(at, size) != size) {
        stop("the recording is cut short, or a call is too large");
    }
    used += size;
    return at;
}

/* Words at a multiple of so many bytes. */
static uint32_t *words_at(size_t multiple, uint32_t count) {
    used = (used + multiple - 1) / multiple * multiple;
    return block((size_t)count * 4);
}

static uint32_t *words(uint32_t count) {
    return words_at(4, count);
}

/* The words of a call, its entry already read. */
static void read_call(struct call *call) {
    used = 0;
    call->argument = words(4);
    call->result = words(2);
    call->values = *words(1);
    call->value = words(call->values);
    call->bytes = *words(1);
    call->byte = block(call->bytes);
    call->byte_after = block(call->bytes);
    for (int i = 0; i < SLICES; i++) {
        const size_t multiple = i == CLOCKS || i == REPORT ? 8 : 4;
        call->length[i] = *words(1);
        call->slice[i] = words_at(multiple, call->length[i]);
        call->after[i] = words(call->length[i]);
    }
}

static uint64_t make_call(const struct call *call) {
    uint32_t *const *slice = call->slice, *argument = call->argument;
    const uint32_t *length = call->length;
    struct splitter_frame *frames = (struct splitter_frame *)slice[FRAMES];
    const uint32_t places = length[FRAMES] / SPLITTER_FRAME_RECORD_WORDS;
    switch (call->entry) {
    case START:
        return splitter_start(slice[NUMBERS], length[NUMBERS], slice[DEQUES], length[DEQUES], frames, places,
                              argument[0], call->value, call->values, slice[POOL], length[POOL]);
    case STEP:
        return splitter_step(slice[NUMBERS], length[NUMBERS], slice[DEQUES], length[DEQUES], frames, places,
                             slice[POOL], length[POOL], slice[WORK], length[WORK], argument[0], argument[1], argument[2], argument[3]);
    case TAPE:
        return splitter_tape(slice[NUMBERS], length[NUMBERS], slice[DEQUES], length[DEQUES], frames, places,
                             slice[POOL], length[POOL], slice[WORK], length[WORK], call->byte, call->bytes,
                             slice[ANSWERS], length[ANSWERS]);
    case SAVE:
        return splitter_save(slice[NUMBERS], length[NUMBERS], slice[DEQUES], length[DEQUES], frames, places,
                             slice[POOL], length[POOL], slice[WORK], length[WORK], call->byte, call->bytes);
    case LOAD:
        return splitter_load(slice[NUMBERS], length[NUMBERS], slice[DEQUES], length[DEQUES], frames, places,
                             slice[POOL], length[POOL], slice[WORK], length[WORK], call->byte, call->bytes);
    case REPORTED:
        return splitter_report(slice[NUMBERS], length[NUMBERS], slice[DEQUES], length[DEQUES], frames, places,
                               argument[0], call->value, call->values, slice[POOL], length[POOL], slice[WORK], length[WORK],
                               call->byte, call->bytes, slice[ANSWERS], length[ANSWERS], (uint64_t *)slice[CLOCKS], length[CLOCKS] / 2,
                               (uint64_t *)slice[REPORT], length[REPORT] / 2);
    case CONVERT:
        return splitter_convert(slice[NUMBERS], length[NUMBERS], slice[DEQUES], length[DEQUES], frames, places,
                                slice[POOL], length[POOL], slice[WORK], length[WORK]);
    default:
        stop("no such entry");
    }
}

static void check_call(const struct call *call, uint64_t got) {
    if ((uint32_t)got != call->result[0] || (uint32_t)(got >> 32) != call->result[1]) {
        stop("another result");
    }
    for (int i = 0; i < SLICES; i++) {
        if (memcmp(call->slice[i], call->after[i], (size_t)call->length[i] * 4) != 0) {
            stop("another word in a slice");
        }
    }
    if (memcmp(call->byte, call->byte_after, call->bytes) != 0) {
        stop("another byte");
    }
}

int main(void) {
    struct call call;
    while (read_some((uint8_t *)&call.entry, 4) == 4) {
        read_call(&call);
        check_call(&call, make_call(&call));
        calls += 1;
    }
    printf("%u calls made again from C\n", calls);
    return 0;
}
