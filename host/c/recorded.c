/* A change-over at many points of searches that the library before R-8 ran, with four-word nodes (document 02, R-9). Usage: recorded FILE.
 * The file has what that library was given, answered and left (tests/recorded/old.txt; record.c beside it has the form).
 *
 * From each point two runs go on with the records that were left: one changed over from the recorded state, table and pool, and one that
 * had two-word nodes from its start. Every answer must be the recorded one, and after every call both runs must have the same state, table
 * and nodes, word for word. The change-over leaves zeros in the old nodes' other words and all else as it was; refused, it leaves the pool. */
#include <stdio.h>
#include <stdlib.h>
#include <string.h>

#include "checked.h"

enum { NODES = 1024, PAST = 16, PLACES = SPLITTER_MAX_PLACES, RECORDS = 1024, POINTS = 24, TAPE = 9, GUARD = 3 };
enum { POOL = NODES * (int)SPLITTER_NODE_WORDS_OLD + PAST };
#define GUARD_WORD 0xdeadbeefu

/* ---- the file */

struct record {
    uint32_t kind, worker, field, value;
    uint64_t answer;
};

/* What was lent between two calls, after so many records. */
struct point {
    size_t at;
    struct splitter_state state;
    struct splitter_frame table[PLACES];
    uint32_t pool[POOL];
};

static struct {
    unsigned workers, splitters, places, nodes;
    size_t lent; /* words of the pool */
    uint32_t values[SPLITTER_MAX_SPLITTERS];
    struct record records[RECORDS];
    struct point points[POINTS];
    size_t records_len, points_len;
} search;

static FILE *file;
static char token[32];

static void next_token(void) {
    if (fscanf(file, "%31s", token) != 1) {
        surprise("the file is cut short");
    }
}

static uint32_t number(const char *text) {
    char *end;
    unsigned long value = strtoul(text, &end, 10);
    if (*text < '0' || *text > '9' || *end != '\0' || value > UINT32_MAX) {
        surprise("a word of the file is not a number");
    }
    return (uint32_t)value;
}

static uint32_t next_number(unsigned long most) {
    next_token();
    uint32_t value = number(token);
    if (value > most) {
        surprise("the file has a larger search than there is room for");
    }
    return value;
}

/* So many words after their name. */
static void read_words(const char *name, uint32_t *words, size_t len) {
    if (strcmp(token, name) != 0) {
        surprise("the file has other words than were expected");
    }
    for (size_t i = 0; i < len;) {
        next_token();
        size_t zeros = token[0] == 'z' ? number(token + 1) : 0;
        if (zeros > len - i) {
            surprise("the file has more words than were expected");
        }
        memset(words + i, 0, zeros * sizeof words[0]);
        i += zeros;
        if (zeros == 0) {
            words[i++] = strcmp(token, "-") == 0 ? SPLITTER_NONE : number(token);
        }
    }
    next_token();
}

static void read_record(void) {
    struct record *record = &search.records[search.records_len++];
    if (search.records_len > RECORDS) {
        surprise("the file has too many records");
    }
    record->kind = number(token);
    record->worker = next_number(UINT32_MAX);
    record->field = next_number(UINT32_MAX);
    record->value = next_number(UINT32_MAX);
    uint32_t first = next_number(UINT32_MAX);
    record->answer = splitter_answer(first, next_number(UINT32_MAX));
    next_token();
}

static void read_point(void) {
    struct point *point = &search.points[search.points_len++];
    static uint32_t words[PLACES * SPLITTER_FRAME_RECORD_WORDS];
    if (search.points_len > POINTS) {
        surprise("the file has too many points");
    }
    point->at = search.records_len;
    read_words("numbers", point->state.numbers, SPLITTER_NUMBERS_WORDS);
    read_words("deques", point->state.deques, SPLITTER_DEQUES_WORDS);
    read_words("table", words, search.places * SPLITTER_FRAME_RECORD_WORDS);
    memcpy(point->table, words, search.places * sizeof point->table[0]);
    read_words("pool", point->pool, search.lent);
}

static void read_search(void) {
    search.workers = next_number(SPLITTER_MAX_WORKERS);
    search.splitters = next_number(SPLITTER_MAX_SPLITTERS);
    search.places = next_number(PLACES);
    search.nodes = next_number(POOL) / SPLITTER_NODE_WORDS_OLD;
    search.lent = next_number(POOL);
    search.records_len = search.points_len = 0;
    next_token();
    read_words("values", search.values, search.splitters);
    while (strcmp(token, "end") != 0) {
        if (token[0] >= '0' && token[0] <= '9') {
            read_record();
        } else {
            read_point();
        }
    }
}

/* ---- the two runs */

struct run {
    struct splitter_state state;
    struct splitter_frame table[PLACES];
    uint32_t pool[POOL], work[NODES + GUARD];
    struct splitter_lent lent;
};

static struct run changed, begun; /* changed over at a point; with two-word nodes from its start */
static const struct point *from;

static struct {
    unsigned long points, answers, nodes, refused, suspended, returning, full, returned, twice_refused, twice_unchanged, unconverted;
    unsigned seen_splitters[SPLITTER_MAX_SPLITTERS + 1], seen_workers[SPLITTER_MAX_WORKERS + 1];
    unsigned long kinds[SPLITTER_FOLDED + 1];
} counts;

static void lend(struct run *run, size_t pool_len) {
    const struct splitter_lent lent = {&run->state, run->table, search.places, run->pool, pool_len, run->work, search.nodes};
    run->lent = lent;
}

/* The check must not rely on what the work slice holds. */
static void soil_work(struct run *run) {
    for (size_t i = 0; i < NODES + GUARD; i++) {
        run->work[i] = GUARD_WORD;
    }
}

/* So many zeros, and then what it held. */
static void check_work(const struct run *run, size_t zeros) {
    for (size_t i = 0; i < NODES + GUARD; i++) {
        same("work", run->work[i], i < zeros ? 0 : GUARD_WORD);
    }
}

static void same_words(const char *what, const void *got, const void *wanted, size_t len) {
    if (memcmp(got, wanted, len * sizeof(uint32_t)) != 0) {
        surprise(what);
    }
}

/* The same state and table. */
static void same_state(const char *what, const struct run *run, const struct splitter_state *state, const struct splitter_frame *table) {
    same_words(what, &run->state, state, SPLITTER_NUMBERS_WORDS + SPLITTER_DEQUES_WORDS);
    same_words(what, run->table, table, search.places * SPLITTER_FRAME_RECORD_WORDS);
}

/* Records from the first on, of which the next so many are made by steps, or by one tape. */
static void make_steps(struct run *run, size_t first, size_t len) {
    for (const struct record *record = search.records + first; record < search.records + first + len; record++) {
        uint64_t got = splitter_lent_step(&run->lent, record->kind, record->worker, record->field, record->value);
        same("step", got, record->answer);
    }
}

static void make_tape(struct run *run, size_t first, size_t len) {
    static uint8_t tape[RECORDS * SPLITTER_RECORD_BYTES];
    static uint32_t answers[2 * RECORDS];
    uint8_t *at = tape;
    for (size_t i = 0; i < len; i++) {
        const struct record *record = &search.records[first + i];
        at = splitter_put_record(at, (uint8_t)record->kind, (uint8_t)record->worker, (uint16_t)record->field, record->value);
    }
    same("tape", splitter_lent_tape(&run->lent, tape, len * SPLITTER_RECORD_BYTES, answers, 2 * len), SPLITTER_OK);
    for (size_t i = 0; i < len; i++) {
        same("record", splitter_answer(answers[2 * i], answers[2 * i + 1]), search.records[first + i].answer);
    }
}

/* A start with as many nodes, and the records before the point: the same answers, state and table as the old library's. */
static void begin(void) {
    memset(begun.pool, 0xa5, sizeof begun.pool);
    memset(begun.table, 0xa5, sizeof begun.table);
    lend(&begun, search.nodes * SPLITTER_NODE_WORDS);
    same("start", splitter_lent_start(&begun.lent, search.workers, search.values, search.splitters), SPLITTER_OK);
    make_tape(&begun, 0, from->at);
    same_state("the old library left another state or table", &begun, &from->state, from->table);
}

/* The recorded words, as the old library left them. */
static void take_over(void) {
    changed.state = from->state;
    memcpy(changed.table, from->table, sizeof changed.table);
    memcpy(changed.pool, from->pool, sizeof changed.pool);
    lend(&changed, search.lent);
    soil_work(&changed);
}

/* ---- change-overs that are refused */

/* By 5 and 99 nothing has changed; by 6 the work slice's words are zero. */
static void refused(const struct splitter_lent *lent, size_t numbers_len, uint32_t wanted) {
    static uint32_t old[POOL];
    memcpy(old, changed.pool, sizeof old);
    soil_work(&changed);
    same("refused", splitter_convert(lent->state->numbers, numbers_len, lent->state->deques, SPLITTER_DEQUES_WORDS, lent->frames,
                                     lent->places, lent->pool, lent->pool_len, lent->work, lent->work_len), wanted);
    same_state("a refused change-over changed the state", &changed, &from->state, from->table);
    same_words("a refused change-over changed the pool", changed.pool, old, POOL);
    check_work(&changed, wanted == SPLITTER_UNSOUND ? search.nodes : 0);
    counts.refused += 1;
}

/* A bit of a word that is never sound with another: a count of holders, in use or free. */
static void refused_damage(const struct splitter_lent *lent, size_t chance) {
    uint32_t *word = &changed.pool[chance % search.nodes * SPLITTER_NODE_WORDS_OLD], bit = 1u << chance % 32;
    *word ^= bit;
    refused(lent, SPLITTER_NUMBERS_WORDS, SPLITTER_UNSOUND);
    *word ^= bit;
}

static void refused_change_overs(size_t chance) {
    struct splitter_lent lent = changed.lent;
    lent.work_len -= 1 + chance % search.nodes;
    refused(&lent, SPLITTER_NUMBERS_WORDS, SPLITTER_SHORT_WORK);
    lent = changed.lent;
    lent.pool_len = search.nodes * SPLITTER_NODE_WORDS_OLD - 1;
    refused(&lent, SPLITTER_NUMBERS_WORDS, SPLITTER_UNSOUND);
    lent = changed.lent;
    lent.places -= 1;
    refused(&lent, SPLITTER_NUMBERS_WORDS, SPLITTER_UNSOUND);
    refused(&changed.lent, SPLITTER_NUMBERS_WORDS - 1, SPLITTER_BAD_STATE);
    refused_damage(&changed.lent, chance);
}

/* Present nodes, in a pool that has room for no old ones. */
static void refused_present(void) {
    static uint32_t old[POOL];
    memcpy(old, begun.pool, sizeof old);
    soil_work(&begun);
    same("present nodes", splitter_lent_convert(&begun.lent), SPLITTER_UNSOUND);
    same_state("refused, present nodes: the state changed", &begun, &from->state, from->table);
    same_words("refused, present nodes: the pool changed", begun.pool, old, POOL);
    counts.refused += 1;
}

/* ---- the change-over, and what follows */

/* The nodes of the run that had these words from its start, then zeros, then the words past the old nodes. */
static void check_pool(void) {
    const size_t front = search.nodes * SPLITTER_NODE_WORDS, end = search.nodes * SPLITTER_NODE_WORDS_OLD;
    same_words("other nodes than with two-word nodes from the start", changed.pool, begun.pool, front);
    for (size_t i = front; i < end; i++) {
        same("the old nodes' other words", changed.pool[i], 0);
    }
    same_words("words past the old nodes changed", changed.pool + end, from->pool + end, POOL - end);
    counts.nodes += search.nodes;
}

/* A second change-over changes nothing. */
static void change_over_again(void) {
    static uint32_t old[POOL];
    memcpy(old, changed.pool, sizeof old);
    uint32_t result = splitter_lent_convert(&changed.lent);
    same_words("a second change-over changed the pool", changed.pool, old, POOL);
    counts.twice_refused += result == SPLITTER_UNSOUND;
    counts.twice_unchanged += result == SPLITTER_OK;
    same("a second change-over", result == SPLITTER_UNSOUND || (result == SPLITTER_OK && search.nodes <= 2), 1);
}

static void change_over(void) {
    soil_work(&changed);
    same("change-over", splitter_lent_convert(&changed.lent), SPLITTER_OK);
    same_state("a change-over changed the state", &changed, &from->state, from->table);
    check_work(&changed, search.nodes);
    check_pool();
    change_over_again();
}

/* Without a change-over the old words pass for present nodes only if they happen to be sound. */
static void without_change_over(void) {
    uint32_t result = splitter_lent_tape(&changed.lent, NULL, 0, NULL, 0);
    counts.unconverted += result == SPLITTER_OK;
    same("old nodes", result == SPLITTER_UNSOUND || search.nodes == 1 || splitter_main_returned(&changed.state), 1);
}

/* The records that are left, by steps or by tapes; both runs have the same words after each call. */
static void go_on(bool by_tapes) {
    for (size_t at = from->at, len; at < search.records_len; at += len) {
        len = by_tapes ? 1 + at % TAPE : 1;
        len = len < search.records_len - at ? len : search.records_len - at;
        soil_work(&changed);
        (by_tapes ? make_tape : make_steps)(&changed, at, len);
        check_work(&changed, search.nodes);
        make_steps(&begun, at, len);
        same_state("the run goes on otherwise", &changed, &begun.state, begun.table);
        check_pool();
        counts.answers += len;
    }
}

/* Both images are the same; after Main's return every node is free. */
static void check_end(void) {
    static uint8_t image[SPLITTER_IMAGE_BYTES(PLACES, NODES)], other[SPLITTER_IMAGE_BYTES(PLACES, NODES)];
    same("save", splitter_lent_save(&changed.lent, image, sizeof image), SPLITTER_OK);
    same("save", splitter_lent_save(&begun.lent, other, sizeof other), SPLITTER_OK);
    same("image", (uint64_t)memcmp(image, other, sizeof image), 0);
    same("free nodes", splitter_lent_free_nodes(&changed.lent), splitter_lent_free_nodes(&begun.lent));
    if (splitter_main_returned(&changed.state)) {
        same("free nodes", splitter_lent_free_nodes(&changed.lent), search.nodes);
    }
}

/* What is met at a point. */
static void count_point(void) {
    unsigned suspended = 0, returning = 0;
    for (unsigned place = 0; place < search.places; place++) {
        suspended += from->table[place].waiting == 1 && from->table[place].returning == 0;
        returning += from->table[place].returning == 1;
    }
    counts.points += 1;
    counts.suspended += suspended > 0;
    counts.returning += returning > 0;
    counts.full += from->state.numbers[SPLITTER_NUMBER_FREE_NODE] == SPLITTER_NONE;
    counts.returned += splitter_main_returned(&from->state);
}

static void try_point(size_t chance) {
    count_point();
    begin();
    refused_present();
    take_over();
    refused_change_overs(chance * 7 + search.nodes);
    without_change_over();
    take_over();
    change_over();
    if (chance % 2 == 0) {
        changed.lent.pool_len = search.nodes * SPLITTER_NODE_WORDS; /* only the front is lent from now on */
    }
    go_on(chance / 2 % 2 == 0);
    check_end();
}

static void try_search(void) {
    for (size_t i = 0; i < search.points_len; i++) {
        from = &search.points[i];
        try_point(i + search.nodes);
    }
    for (size_t i = 0; i < search.records_len; i++) {
        uint32_t kind = splitter_answer_kind(search.records[i].answer);
        counts.kinds[kind <= SPLITTER_FOLDED ? kind : 0] += 1;
    }
    counts.seen_splitters[search.splitters] += 1;
    counts.seen_workers[search.workers] += 1;
}

/* The file must have each answer of a record, 1 to 8 workers, small and large trees, and points of each sort. */
static void check_counts(void) {
    static const unsigned sizes[] = {1, 2, 5, 16, 256};
    for (uint32_t kind = SPLITTER_BAD_RECORD; kind <= SPLITTER_FOLDED; kind++) {
        int comes = (kind <= SPLITTER_POOL_FULL && kind != 14) || kind == SPLITTER_UNKNOWN_REDUCER || kind >= SPLITTER_SPAWNED;
        same("answers of this kind", (counts.kinds[kind] > 0) == comes, 1);
    }
    for (unsigned workers = 1; workers <= SPLITTER_MAX_WORKERS; workers++) {
        same("searches with so many workers", counts.seen_workers[workers] > 0, 1);
    }
    for (size_t i = 0; i < sizeof sizes / sizeof sizes[0]; i++) {
        same("searches of so many splitters", counts.seen_splitters[sizes[i]] > 0, 1);
    }
    same("points of each sort", counts.suspended > 0 && counts.returning > 0 && counts.full > 0 && counts.returned > 0, 1);
}

int main(int argc, char **argv) {
    unsigned long searches = 0;
    if (argc != 2 || (file = fopen(argv[1], "r")) == NULL) {
        fprintf(stderr, "usage: recorded FILE; the file is tests/recorded/old.txt\n");
        return 2;
    }
    while (fscanf(file, "%31s", token) == 1) {
        same("search", (uint64_t)strcmp(token, "search"), 0);
        read_search();
        try_search();
        searches += 1;
    }
    fclose(file);
    check_counts();
    printf("recorded: %lu searches of the library with four-word nodes, changed over at %lu points: %lu answers as recorded and as with two-word "
           "nodes from the start, %lu nodes word for word; frames suspended at %lu points, waiting as returning at %lu, no node free at %lu, "
           "Main returned at %lu; %lu change-overs refused; a second one refused at %lu points, without effect at %lu; old nodes sound as "
           "present ones at %lu\n",
           searches, counts.points, counts.answers, counts.nodes, counts.suspended, counts.returning, counts.full, counts.returned,
           counts.refused, counts.twice_refused, counts.twice_unchanged, counts.unconverted);
    return 0;
}
