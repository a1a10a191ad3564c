#include "plain.h"

/* The least H with 2^H at least n. */
static unsigned height(unsigned n) {
    unsigned h = 0;
    while (1u << h < n) {
        h += 1;
    }
    return h;
}

static unsigned tree_nodes(unsigned n) {
    unsigned sum = 0;
    for (unsigned level = 0; level <= height(n); level++) {
        sum += ((n - 1) >> level) + 1;
    }
    return sum;
}

/* "Each operation has an identity that changes nothing when combined on either side." */
static const struct plain_view identity = {0, UINT32_MAX, 1, 0};

/* "The sum modulo 4,294,967,296; .. the minimum; .. the affine map, multiply then add, .. earlier map applied first." */
static struct plain_view join(struct plain_view left, struct plain_view right) {
    struct plain_view joined = {left.sum + right.sum, left.min < right.min ? left.min : right.min,
                                left.multiplier * right.multiplier, right.multiplier * left.addend + right.addend};
    return joined;
}

uint32_t plain_start(struct plain *machine, uint32_t workers, const uint32_t *values, splitter_len values_len,
                     splitter_len places, splitter_len nodes) {
    static const struct plain none;
    *machine = none;
    if (values_len < 1 || values_len > SPLITTER_MAX_SPLITTERS) {
        return SPLITTER_BAD_VALUE_COUNT;
    }
    if (workers < 1 || workers > SPLITTER_MAX_WORKERS) {
        return SPLITTER_BAD_WORKER_COUNT;
    }
    if (places < 1 || places > SPLITTER_MAX_PLACES) {
        return SPLITTER_BAD_PLACE_COUNT;
    }
    if (nodes < tree_nodes((unsigned)values_len) || nodes > SPLITTER_MAX_NODES) {
        return SPLITTER_BAD_NODE_COUNT;
    }
    machine->workers = workers;
    machine->splitters = (unsigned)values_len;
    machine->places = (unsigned)places;
    machine->nodes = (unsigned)nodes;
    machine->live = 1;
    machine->lengths[0] = 1;
    machine->frames[0].live = 1;
    machine->frames[0].view = identity;
    for (size_t i = 0; i < values_len; i++) {
        machine->frames[0].values[i] = values[i];
    }
    return SPLITTER_OK;
}

/* The last write, in this frame's history, to the splitters from first to below end. */
static unsigned last_write(const struct plain_frame *frame, unsigned first, unsigned end) {
    unsigned last = 0;
    for (unsigned i = first; i < end; i++) {
        last = frame->written[i] > last ? frame->written[i] : last;
    }
    return last;
}

/* How many different last writes the live frames have for one group. */
static unsigned group_nodes(const struct plain *machine, unsigned first, unsigned end) {
    unsigned seen[SPLITTER_MAX_PLACES], count = 0;
    for (unsigned f = 0; f < machine->places; f++) {
        if (!machine->frames[f].live) {
            continue;
        }
        unsigned at = 0;
        seen[count] = last_write(&machine->frames[f], first, end);
        while (seen[at] != seen[count]) {
            at += 1;
        }
        count += at == count;
    }
    return count;
}

/* The nodes in use: the distinct triples of a level, a group and the last write to it, over all live frames. */
static unsigned used_nodes(const struct plain *machine) {
    unsigned used = 0, n = machine->splitters;
    for (unsigned level = 0; level <= height(n); level++) {
        for (unsigned first = 0; first < n; first += 1u << level) {
            unsigned end = first + (1u << level);
            used += group_nodes(machine, first, end < n ? end : n);
        }
    }
    return used;
}

static unsigned bottom(const struct plain *machine, unsigned worker) {
    return machine->deques[worker][machine->lengths[worker] - 1];
}

static void push(struct plain *machine, unsigned worker, unsigned frame) {
    machine->deques[worker][machine->lengths[worker]++] = frame;
}

static uint32_t steal_refusal(const struct plain *machine, uint32_t thief, uint32_t victim) {
    if (machine->lengths[thief] > 0) {
        return SPLITTER_THIEF_BUSY;
    }
    return victim >= machine->workers || machine->lengths[victim] < 2 ? SPLITTER_NOTHING_TO_STEAL : 0;
}

/* 15, and 20 in its place for a fold. */
static uint32_t name_refusal(const struct plain *machine, uint32_t kind, uint32_t field) {
    if (kind == SPLITTER_STEP_FOLD) {
        return field >= SPLITTER_REDUCERS ? SPLITTER_UNKNOWN_REDUCER : 0;
    }
    int names_splitter = kind == SPLITTER_STEP_READ || kind == SPLITTER_STEP_WRITE;
    return names_splitter && field >= machine->splitters ? SPLITTER_UNKNOWN_SPLITTER : 0;
}

/* Document 01's refusals 7 to 15, in its order, without 14 and with 20; 0 where none refuses. The last, 16, is the write's. */
static uint32_t refusal(const struct plain *machine, uint32_t kind, uint32_t worker, uint32_t field, uint32_t value) {
    int has_field = kind == SPLITTER_STEP_STEAL || kind >= SPLITTER_STEP_READ, has_value = kind >= SPLITTER_STEP_WRITE;
    if (kind < SPLITTER_STEP_SPAWN || kind > SPLITTER_STEP_FOLD || (field != 0 && !has_field) || (value != 0 && !has_value)) {
        return SPLITTER_BAD_RECORD;
    }
    if (worker >= machine->workers) {
        return SPLITTER_UNKNOWN_WORKER;
    }
    if (machine->live == 0) {
        return SPLITTER_RUN_IS_OVER;
    }
    if (kind == SPLITTER_STEP_STEAL) {
        return steal_refusal(machine, worker, field);
    }
    if (machine->lengths[worker] == 0) {
        return SPLITTER_WORKER_HAS_NO_FRAME;
    }
    if (kind == SPLITTER_STEP_SPAWN && machine->live == machine->places) {
        return SPLITTER_FRAMES_FULL;
    }
    return name_refusal(machine, kind, field);
}

/* "Each accepted spawn, sync, read, write and fold costs 1": the frame's clock and the work. */
static void cost_one(struct plain *machine, struct plain_frame *frame) {
    frame->clock += 1;
    machine->work += 1;
}

static uint64_t later(uint64_t one, uint64_t other) {
    return one > other ? one : other;
}

/* "The child inherits, the continuation begins with the identity." "A child's clock begins at its parent's after the spawn." */
static uint64_t spawn(struct plain *machine, unsigned worker) {
    unsigned parent = bottom(machine, worker), child = 0;
    while (machine->frames[child].live) {
        child += 1;
    }
    struct plain_frame *frame = &machine->frames[child];
    cost_one(machine, &machine->frames[parent]);
    *frame = machine->frames[parent];
    frame->latest = 0;
    frame->parent = parent;
    frame->depth += 1;
    frame->children = 0;
    frame->born = ++machine->spawns;
    machine->frames[parent].view = identity;
    machine->frames[parent].children += 1;
    machine->live += 1;
    push(machine, worker, child);
    return splitter_answer(SPLITTER_SPAWNED, frame->depth);
}

/* The eldest live child of the frame that was born after that spawn, or the frame itself if there is none. */
static unsigned eldest(const struct plain *machine, unsigned parent, unsigned after) {
    unsigned found = parent;
    for (unsigned place = 0; place < machine->places; place++) {
        const struct plain_frame *frame = &machine->frames[place];
        int younger = frame->live && frame->parent == parent && frame->born > after;
        if (younger && (found == parent || frame->born < machine->frames[found].born)) {
            found = place;
        }
    }
    return found;
}

/* The next one in the order of live frames, "siblings eldest first and each, after all below it, before its parent": the parent, or the
 * first of the next younger sibling and all below it. */
static unsigned next_in_order(const struct plain *machine, const struct plain_frame *frame) {
    unsigned next = eldest(machine, frame->parent, frame->born), below = next == frame->parent ? next : eldest(machine, next, 0);
    while (below != next) {
        next = below;
        below = eldest(machine, next, 0);
    }
    return next;
}

/* "The view of a frame that ends joins on the left of the next one's in that order." Main's is the totals. */
static void join_next(struct plain *machine, const struct plain_frame *frame) {
    if (machine->live == 0) {
        machine->totals = frame->view;
    } else {
        struct plain_frame *next = &machine->frames[next_in_order(machine, frame)];
        next->view = join(frame->view, next->view);
    }
}

/* "A return likewise waits but adds nothing": the frame's clock at its end, for its parent. "Span is Main's clock at its return." */
static void tell_clock(struct plain *machine, const struct plain_frame *frame, struct plain_frame *parent) {
    uint64_t clock = later(frame->clock, frame->latest);
    if (frame == parent) {
        machine->span = clock;
    } else {
        parent->latest = later(parent->latest, clock);
    }
}

/* "A sync moves the clock to the latest of its own and its ended children's, counted when it passes, then adds 1." Its cost is in the work
 * since it was accepted. */
static void pass_sync(struct plain_frame *frame) {
    frame->clock = later(frame->clock, frame->latest) + 1;
}

/* The frame, in no deque any more, ends. If it was the last child of a parent that waits as returning, the parent ends too (document 02,
 * R-3), and so on upward. The outcome tells where that stopped. */
static uint32_t end(struct plain *machine, unsigned worker, unsigned place) {
    struct plain_frame *frame = &machine->frames[place], *parent = &machine->frames[frame->parent];
    frame->live = 0;
    machine->live -= 1;
    join_next(machine, frame);
    tell_clock(machine, frame, parent);
    if (frame == parent) {
        return SPLITTER_FINISHED;
    }
    parent->children -= 1;
    if (machine->lengths[worker] > 0) {
        return SPLITTER_CONTINUED;
    }
    if (!parent->suspended || parent->children > 0) {
        return SPLITTER_BECAME_IDLE;
    }
    if (parent->returning) {
        return end(machine, worker, frame->parent);
    }
    parent->suspended = 0;
    pass_sync(parent);
    push(machine, worker, frame->parent);
    return SPLITTER_RESUMED;
}

/* The bottom frame ends, or, with a live child, waits as returning. */
static uint64_t return_from(struct plain *machine, unsigned worker) {
    unsigned place = bottom(machine, worker);
    struct plain_frame *frame = &machine->frames[place];
    machine->lengths[worker] -= 1;
    if (frame->children > 0) {
        frame->suspended = 1;
        frame->returning = 1;
        return splitter_answer(SPLITTER_RETURNED, SPLITTER_WAITS);
    }
    return splitter_answer(SPLITTER_RETURNED, end(machine, worker, place));
}

static uint64_t steal(struct plain *machine, unsigned thief, unsigned victim) {
    unsigned stolen = machine->deques[victim][0];
    machine->lengths[victim] -= 1;
    for (unsigned i = 0; i < machine->lengths[victim]; i++) {
        machine->deques[victim][i] = machine->deques[victim][i + 1];
    }
    push(machine, thief, stolen);
    return splitter_answer(SPLITTER_STOLEN, machine->frames[stolen].depth);
}

static uint64_t sync(struct plain *machine, unsigned worker) {
    struct plain_frame *frame = &machine->frames[bottom(machine, worker)];
    machine->work += 1;
    if (frame->children == 0) {
        pass_sync(frame);
        return splitter_answer(SPLITTER_SYNCED, SPLITTER_PASSED);
    }
    frame->suspended = 1;
    machine->lengths[worker] -= 1;
    return splitter_answer(SPLITTER_SYNCED, SPLITTER_SUSPENDED);
}

static uint64_t read(struct plain *machine, unsigned worker, unsigned splitter) {
    struct plain_frame *frame = &machine->frames[bottom(machine, worker)];
    cost_one(machine, frame);
    return splitter_answer(SPLITTER_VALUE, frame->values[splitter]);
}

/* Refused where more nodes would be in use than the pool has (document 02, R-2); then nothing has changed. */
static uint64_t write(struct plain *machine, unsigned worker, unsigned splitter, uint32_t value) {
    struct plain_frame *frame = &machine->frames[bottom(machine, worker)];
    unsigned before = frame->written[splitter];
    frame->written[splitter] = machine->writes + 1;
    unsigned used = used_nodes(machine);
    if (used > machine->nodes) {
        frame->written[splitter] = before;
        return splitter_answer(SPLITTER_POOL_FULL, 0);
    }
    machine->writes += 1;
    cost_one(machine, frame);
    frame->values[splitter] = value;
    return splitter_answer(SPLITTER_WRITTEN, machine->nodes - used);
}

/* "For reducer 2 the value divided by 65,536 is the multiplier and its remainder the addend." */
static uint64_t fold(struct plain *machine, unsigned worker, unsigned reducer, uint32_t value) {
    struct plain_frame *frame = &machine->frames[bottom(machine, worker)];
    struct plain_view folded = identity;
    if (reducer == SPLITTER_REDUCER_SUM) {
        folded.sum = value;
    } else if (reducer == SPLITTER_REDUCER_MIN) {
        folded.min = value;
    } else {
        folded.multiplier = value / 65536;
        folded.addend = value % 65536;
    }
    frame->view = join(frame->view, folded);
    cost_one(machine, frame);
    return splitter_answer(SPLITTER_FOLDED, 0);
}

uint64_t plain_step(struct plain *machine, uint32_t kind, uint32_t worker, uint32_t field, uint32_t value) {
    uint32_t refused = refusal(machine, kind, worker, field, value);
    if (refused) {
        return splitter_answer(refused, 0);
    }
    switch (kind) {
    case SPLITTER_STEP_SPAWN: return spawn(machine, worker);
    case SPLITTER_STEP_RETURN: return return_from(machine, worker);
    case SPLITTER_STEP_STEAL: return steal(machine, worker, field);
    case SPLITTER_STEP_SYNC: return sync(machine, worker);
    case SPLITTER_STEP_READ: return read(machine, worker, field);
    case SPLITTER_STEP_WRITE: return write(machine, worker, field, value);
    default: return fold(machine, worker, field, value);
    }
}
