/* The search: a branch for each choice of a spare. A branch marks its choice in its own view of the blocks, so nobody has to undo it.
 * The costs of the layouts are folded: their sum, the least of them, and a digest of them in the order of a search by one worker.
 * Each bad block needs a spare that passes its erase test. Of the small card's 16 blocks the factory marked 3 and 9 bad and 12 to 15
 * spare. The large card has 80 rows of three blocks: the first is bad, the others are its spares. */
#include <stdarg.h>
#include <stdio.h>

#include "search.h"

enum { MOST_BLOCKS = 240, MOST_BRANCHES = 96, BRANCH_WORDS = 6, SEARCH_WORDS = 9, DIGEST = 31, NAMED = 3 };

/* A block's state, kept in its splitter. A spare in use holds STANDS_FOR plus the number of the bad block. */
enum { GOOD = 0, BAD = 1, SPARE = 2, STANDS_FOR = 100 };

const struct card small_card = {.blocks = BLOCKS, .bad_blocks = 2, .first_bad = 3, .bad_apart = 6, .spares = 4, .first_spare = 12,
                                .strong = 14, .branches = 16};
const struct card large_card = {.blocks = MOST_BLOCKS, .bad_blocks = 80, .bad_apart = 3, .spares = 2, .first_spare = 1, .spares_apart = 3,
                                .strong = 234, .branches = MOST_BRANCHES};

/* The bad block that a branch of this depth chose a spare for. */
static unsigned bad_block(const struct card *card, unsigned depth) {
    return card->first_bad + (depth - 1) * card->bad_apart;
}

/* The first spare that a branch of this depth may choose from, for the next bad block. */
static unsigned first_spare(const struct card *card, unsigned depth) {
    return card->first_spare + depth * card->spares_apart;
}

const uint32_t *factory_marks(const struct card *card) {
    static uint32_t marks[MOST_BLOCKS];
    for (unsigned block = 0; block < card->blocks; block++) {
        marks[block] = GOOD;
    }
    for (unsigned depth = 0; depth < card->bad_blocks; depth++) {
        marks[bad_block(card, depth + 1)] = BAD;
        for (unsigned i = 0; i < card->spares; i++) {
            marks[first_spare(card, depth) + i] = SPARE;
        }
    }
    return marks;
}

/* The memory lent to the library, and what may be used of it. */
static struct splitter_state state;
static struct splitter_frame table[PLACES + 1]; /* one too many, to be refused */
static uint32_t pool[MOST_NODES * SPLITTER_NODE_WORDS], work[MOST_NODES];
struct checked run;

void lend(unsigned places, unsigned nodes) {
    struct splitter_lent lent = {&state, table, places, pool, nodes * SPLITTER_NODE_WORDS, work, nodes};
    run.lent = lent;
}

enum stage { TAKE, LOOK, WAIT, SCORE, END, RETURNED };

/* What the host keeps of a frame: how far this branch of the search has come. */
struct branch {
    struct branch *parent;
    enum stage stage;
    unsigned depth;  /* so many bad blocks have a spare */
    unsigned spare;  /* its own choice, for the last of them */
    unsigned next;   /* the spare to look at next */
    unsigned failed; /* a spare that failed its test here and was marked bad, or 0 */
};

static struct branch branches[MOST_BRANCHES];
static struct branch *runs[WORKERS]; /* the branch that a worker runs, or NULL */

struct search search;

/* The last choices of a branch, so many at most. */
static void print_choices(const struct branch *b, unsigned most) {
    if (most == 0) {
        printf("..");
        return;
    }
    if (b->depth > 1) {
        print_choices(b->parent, most - 1);
        printf(" ");
    }
    printf("%u>%u", bad_block(search.card, b->depth), b->spare);
}

static void print_name(const struct branch *b) {
    if (b->depth == 0) {
        printf("Main");
    } else {
        print_choices(b, NAMED);
    }
}

/* A line of the report: the turn, the worker, its branch, and what it did. */
static void tell(unsigned worker, const struct branch *b, const char *format, ...) {
    va_list arguments;
    if (!search.told) {
        return;
    }
    printf("%2u  worker %u, ", search.turn, worker);
    print_name(b);
    printf(": ");
    va_start(arguments, format);
    vprintf(format, arguments);
    va_end(arguments);
    printf("\n");
}

/* Stands for the controller's own test: of the weak blocks each third fails. */
static bool passes_erase_test(unsigned block) {
    return block >= search.card->strong || block % 3 != 1;
}

static unsigned read_block(unsigned worker, unsigned block) {
    return splitter_answer_number(checked_read(&run, worker, block));
}

/* False where the pool has no room; then nothing has changed. */
static bool write_block(unsigned worker, unsigned block, unsigned value) {
    uint64_t answer = checked_write(&run, worker, block, value);
    if (splitter_answer_kind(answer) == SPLITTER_POOL_FULL) {
        return false;
    }
    if (splitter_answer_number(answer) < search.least_free) {
        search.least_free = splitter_answer_number(answer);
    }
    return true;
}

/* An idle worker steals where it can. The answer's depth tells which frame it got: each frame in a deque is a child of the one above. */
static bool steal_turn(unsigned thief) {
    for (unsigned victim = 0; victim < WORKERS; victim++) {
        uint64_t answer = checked_steal(&run, thief, victim);
        if (splitter_answer_kind(answer) == SPLITTER_NOTHING_TO_STEAL) {
            continue;
        }
        struct branch *stolen = runs[victim];
        while (stolen->depth > splitter_answer_number(answer)) {
            stolen = stolen->parent;
        }
        runs[thief] = stolen;
        tell(thief, stolen, "stolen from worker %u", victim);
        return true;
    }
    return false;
}

/* A new branch marks its choice. Where the pool has no room it tries again in its next turn: other branches end and free their nodes. */
static bool take_turn(unsigned worker, struct branch *b) {
    if (!write_block(worker, b->spare, STANDS_FOR + bad_block(search.card, b->depth))) {
        search.waits += 1;
        tell(worker, b, "no room in the pool, waits");
        return false;
    }
    b->stage = b->depth < search.card->bad_blocks ? LOOK : SCORE;
    tell(worker, b, "takes %u", b->spare);
    return true;
}

/* How deep the search has come, and how wide. */
static void measure(unsigned depth) {
    unsigned live = splitter_lent_live_frames(&run.lent);
    search.deepest = depth > search.deepest ? depth : search.deepest;
    search.most_live = live > search.most_live ? live : search.most_live;
}

/* Where the table has no place, the search goes on without this branch and all below it. */
static void spawn_branch(unsigned worker, struct branch *parent, unsigned spare) {
    if (search.made == search.card->branches) {
        surprise("more branches than the host has places for");
    }
    uint64_t answer = checked_spawn(&run, worker);
    if (splitter_answer_kind(answer) == SPLITTER_FRAMES_FULL) {
        search.given_up += 1;
        return;
    }
    unsigned depth = splitter_answer_number(answer);
    struct branch *child = &branches[search.made++];
    struct branch begun = {parent, TAKE, depth, spare, first_spare(search.card, depth), 0};
    *child = begun;
    runs[worker] = child;
    measure(depth);
    tell(worker, parent, "%u is a good spare: spawns a branch", spare);
}

/* A spare that fails its test is marked bad, in this branch's view. The mark saves later branches the test; without room, no mark. */
static void mark_failed(unsigned worker, struct branch *b, unsigned spare) {
    bool marked = write_block(worker, spare, BAD);
    if (marked) {
        b->failed = spare;
    }
    tell(worker, b, "%u fails its erase test: %s", spare, marked ? "marks it bad" : "no room for a mark");
}

/* Must this branch sync before it returns? */
static bool syncs(const struct branch *b) {
    return search.syncs == ALL_SYNC || (search.syncs == MAIN_SYNCS && b->depth == 0);
}

static bool look_turn(unsigned worker, struct branch *b) {
    unsigned spare = b->next++;
    unsigned is = read_block(worker, spare);
    if (b->next == first_spare(search.card, b->depth) + search.card->spares) {
        b->stage = syncs(b) ? WAIT : END;
    }
    if (is != SPARE) {
        tell(worker, b, "%u is %s", spare, is == BAD ? "bad" : "taken");
    } else if (passes_erase_test(spare)) {
        spawn_branch(worker, b, spare);
    } else {
        mark_failed(worker, b, spare);
    }
    return true;
}

static bool wait_turn(unsigned worker, struct branch *b) {
    uint64_t answer = checked_sync(&run, worker);
    b->stage = END;
    if (splitter_answer_number(answer) == SPLITTER_SUSPENDED) {
        runs[worker] = NULL;
        tell(worker, b, "waits for its branches");
    } else {
        tell(worker, b, "all its branches have ended");
    }
    return true;
}

/* ---- shown */
/* Takes a cost into the reducers. Which worker does so, and when, makes no difference to the totals. The map of the digest multiplies by
 * DIGEST and adds the cost: its total tells the order of the costs in a search by one worker. */
static void fold_cost(unsigned worker, unsigned cost) {
    const uint64_t folded = splitter_answer(SPLITTER_FOLDED, 0);
    same("fold", checked_fold(&run, worker, SPLITTER_REDUCER_SUM, cost), folded);
    same("fold", checked_fold(&run, worker, SPLITTER_REDUCER_MIN, cost), folded);
    same("fold", checked_fold(&run, worker, SPLITTER_REDUCER_AFFINE, splitter_affine(DIGEST, (uint16_t)cost)), folded);
}
/* ---- end */

/* A whole layout, read from the branch's own view. The cost is the sum of the squared moves: no block should be far from its spare. */
static bool score_turn(unsigned worker, struct branch *b) {
    unsigned cost = 0;
    for (unsigned spare = search.card->first_spare; spare < search.card->blocks; spare++) {
        unsigned is = read_block(worker, spare);
        unsigned move = is >= STANDS_FOR ? spare - (is - STANDS_FOR) : 0;
        cost += move * move;
    }
    fold_cost(worker, cost);
    search.layouts += 1;
    if (search.best == NULL || cost < search.least_cost) {
        search.least_cost = cost;
        search.best = b;
    }
    b->stage = END;
    tell(worker, b, "a layout, cost %u", cost);
    return true;
}

/* The branch that a worker runs after a return. Branches above that had returned and waited so have ended too: where one resumes, it is the
 * first above that had not. */
static struct branch *next_after(const struct branch *b, unsigned outcome) {
    if (outcome != SPLITTER_CONTINUED && outcome != SPLITTER_RESUMED) {
        return NULL;
    }
    struct branch *next = b->parent;
    while (next->stage == RETURNED) {
        next = next->parent;
    }
    return next;
}

static bool end_turn(unsigned worker, struct branch *b) {
    static const char *const outcomes[] = {"ends; its parent goes on here", "ends; the worker is idle", "ends; its parent resumes here",
                                           "ends; the search is over", "returns; waits for its branches"};
    if (b->failed != 0) {
        same("own mark", read_block(worker, b->failed), BAD);
        tell(worker, b, "%u still reads bad", b->failed);
    }
    unsigned outcome = splitter_answer_number(checked_return(&run, worker));
    b->stage = RETURNED;
    runs[worker] = next_after(b, outcome);
    search.finished = outcome == SPLITTER_FINISHED;
    bool further = outcome == SPLITTER_RESUMED && runs[worker] != b->parent;
    tell(worker, b, "%s", further ? "ends; a branch above its parent resumes here" : outcomes[outcome]);
    return true;
}

/* True if the worker got something done. */
static bool take_a_turn(unsigned worker) {
    struct branch *b = runs[worker];
    if (b == NULL) {
        return steal_turn(worker);
    }
    switch (b->stage) {
    case TAKE: return take_turn(worker, b);
    case LOOK: return look_turn(worker, b);
    case WAIT: return wait_turn(worker, b);
    case SCORE: return score_turn(worker, b);
    default: return end_turn(worker, b);
    }
}

/* Every running branch waits for room, so none will end: one must, without its search. */
static void give_up_a_branch(void) {
    for (unsigned worker = 0; worker < WORKERS; worker++) {
        if (runs[worker] != NULL) {
            runs[worker]->stage = END;
            search.given_up += 1;
            return;
        }
    }
    surprise("no worker runs a branch");
}

void begin(const struct card *card, unsigned workers, unsigned places, unsigned nodes, enum syncs syncs, bool told) {
    struct search begun = {.told = told, .syncs = syncs, .card = card, .workers = workers, .made = 1,
                           .least_free = nodes - (unsigned)splitter_tree_nodes(card->blocks)};
    struct branch main_branch = {.stage = LOOK, .next = first_spare(card, 0)};
    lend(places, nodes);
    same("start", checked_start(&run, workers, factory_marks(card), card->blocks), SPLITTER_OK);
    search = begun;
    branches[0] = main_branch;
    runs[0] = &branches[0];
}

void take_turns(void) {
    bool moved = false;
    search.turn += 1;
    for (unsigned worker = 0; worker < search.workers && !search.finished; worker++) {
        moved = take_a_turn(worker) || moved;
    }
    if (!moved) {
        give_up_a_branch();
    }
}

void print_totals(const struct splitter_totals *totals) {
    printf("reduced %u %u %u %u\n", totals->sum, totals->min, totals->multiplier, totals->addend);
}

void tell_result(void) {
    const struct splitter_totals totals = checked_totals(&run);
    printf("nodes %u, workers %u: least free %u, waits %u, given up %u, layouts %u, best ", run.lent.state->numbers[SPLITTER_NUMBER_NODES],
           search.workers, search.least_free, search.waits, search.given_up, search.layouts);
    if (search.best == NULL) {
        printf("none\n");
    } else {
        print_name(search.best);
        printf(", cost %u\n", search.least_cost);
    }
    same("least cost", totals.min, search.best == NULL ? SPLITTER_NONE : search.least_cost);
    print_totals(&totals);
}

/* A branch as a word: its place and 1, or 0 for none. */
static uint32_t branch_word(const struct branch *b) {
    return b == NULL ? 0 : (uint32_t)(b - branches) + 1;
}

static struct branch *branch_of(uint32_t word) {
    return word == 0 ? NULL : &branches[word - 1];
}

void put_search(uint32_t *words) {
    const uint32_t numbers[SEARCH_WORDS] = {search.made, search.turn, search.waits, search.given_up, search.least_free,
                                            search.layouts, search.least_cost, branch_word(search.best), (uint32_t)search.syncs};
    for (unsigned i = 0; i < SEARCH_WORDS; i++) {
        *words++ = numbers[i];
    }
    for (unsigned worker = 0; worker < WORKERS; worker++) {
        *words++ = branch_word(runs[worker]);
    }
    for (const struct branch *b = branches; b < branches + search.made; b++) {
        const uint32_t branch[BRANCH_WORDS] = {branch_word(b->parent), (uint32_t)b->stage, b->depth, b->spare, b->next, b->failed};
        for (unsigned i = 0; i < BRANCH_WORDS; i++) {
            *words++ = branch[i];
        }
    }
}

void get_search(const uint32_t *words, bool told) {
    struct search read = {.told = told, .card = &small_card, .workers = splitter_lent_workers(&run.lent), .made = words[0],
                          .turn = words[1], .waits = words[2], .given_up = words[3], .least_free = words[4], .layouts = words[5],
                          .least_cost = words[6], .best = branch_of(words[7]), .syncs = (enum syncs)words[8]};
    search = read;
    words += SEARCH_WORDS;
    for (unsigned worker = 0; worker < WORKERS; worker++) {
        runs[worker] = branch_of(*words++);
    }
    for (struct branch *b = branches; b < branches + search.made; b++, words += BRANCH_WORDS) {
        struct branch branch = {branch_of(words[0]), (enum stage)words[1], words[2], words[3], words[4], words[5]};
        *b = branch;
    }
}
