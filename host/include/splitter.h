/* The splitter engine: splitters over stolen work, proved. C interface of libsplitter.a (make lib). C99 or later, C++11 or later.
 * docs/FORMATS.md has the bytes of tapes and images, the state's words, and every refusal with its condition, in order.
 *
 * The library keeps nothing between calls, allocates nothing and calls no system function: all it reads and writes is the memory
 * that a call lends. A slice is a pointer and its length in elements (words of 32 bits, frame records, bytes, or the words of 64 bits of
 * clocks and report). The slices of one call must not overlap. One call at a time may use a state, its table and its pool: locking is the
 * host's.
 *
 * NULL: the exported functions take none, also not with length 0, and a pointer is aligned for its elements. The calls over struct
 * splitter_state and struct splitter_lent take NULL for an empty slice: a call that needs more is refused, whatever length was given
 * (values 1, table 21 or 6, pool 3 or 6, answers and tape 4, work 5, image 17, target 19, clocks 99). State and structs must be there.
 *
 * Memory to lend, and its owner is always the host:
 *   state     two slices, the members of struct splitter_state: numbers, deques; 8,264 bytes. A call changes them in place; what they hold
 *             between calls is the engine's. Each must have just its length, or the call is refused (SPLITTER_BAD_STATE).
 *   table     an array of struct splitter_frame, 1 to SPLITTER_MAX_PLACES places: as many frames can live at a time. 48 bytes a place,
 *             3 KiB for 64, 12 KiB for 256. A call changes the records where they are and makes no copy of the table. A start takes it
 *             whatever it holds and records its length; every later call of the run gets the same table with the same length.
 *   pool      SPLITTER_NODE_WORDS words for each node, 8 bytes, T(n) to SPLITTER_MAX_NODES nodes: splitter_tree_nodes(n) gives T(n). A
 *             frame's view is a tree of T(n) nodes, and frames share what neither has written since the spawn. A spawn takes no node. On
 *             the path to its splitter, a write alters in place the nodes that only its frame has; from the first shared one on, the rest
 *             is new. A node's first word is its holders, the links to it. Its level tells the second: an inner node's left link plus
 *             65,536 times its right one, SPLITTER_NO_LINK for none; a leaf's value; a free node's next one, or SPLITTER_NONE. Nodes from
 *             before, of SPLITTER_NODE_WORDS_OLD words, are for splitter_convert alone.
 *   work      a word for each node of the pool, for the check of state, table and pool; the words are zero afterwards.
 *   answers   two words for each record of a tape.
 *   target    the bytes of an image, to save a run in: splitter_image_bytes(places, nodes), SPLITTER_IMAGE_BYTES(places, nodes) for an
 *             array.
 *   clocks    for splitter_report only: two words of 64 bits for each place of the table, SPLITTER_CLOCKS_WORDS(places) for an array.
 *             16 bytes a place, 1 KiB for 64, 4 KiB for 256. It takes them whatever they hold; no other call needs them.
 *   report    for splitter_report only: four words of 64 bits, or a struct splitter_parallelism. Clocks and report must have just their
 *             length, as the parts of the state.
 *
 * Order of calls: splitter_start, splitter_load or splitter_report, then any of splitter_step, splitter_tape and splitter_save, each with
 * the state, the table and the pool as the call before left them. Every call but the first three checks what it is handed: what is not
 * sound is refused (SPLITTER_UNSOUND), not used, and so is a table of another length than recorded. A foreign change that leaves all
 * sound, such as another value in a leaf, cannot be seen. A run that the library of header 0.2 has begun takes splitter_convert first.
 *
 * A return with a live child is no mistake: the frame waits for its children and ends when the last of them ends (SPLITTER_WAITS). So a
 * frame that has nothing to do after its children needs no sync.
 *
 * Three reducers add up what all frames find: a sum, a minimum, and an affine map (SPLITTER_REDUCER_SUM to SPLITTER_REDUCER_AFFINE). A
 * fold takes a value into one of them. Nobody reads a reducer while Main lives. Once Main has returned, splitter_get_totals gives the
 * totals: the values folded by all frames, in the order in which one worker would have folded them, whatever was stolen.
 *
 * How parallel was a search? splitter_report runs its tape from a start and tells work and span. Each accepted spawn, sync, read, write
 * and fold costs 1, returns and steals cost 0. The work is the sum of these costs: the time of one core. The span is Main's clock at its
 * return: the time with as many cores as can be of use. A child's clock begins at its parent's after the spawn. A sync takes its frame's
 * clock to the latest of its own and its ended children's, when it passes, and adds 1; a return waits likewise and adds nothing. Work
 * divided by span is how many cores the search can keep busy, on average. Two tapes in which the frames take the same steps give the
 * same pair, however many workers there were and whatever was stolen.
 *
 * An image is a whole run between two calls: its state, its table and its pool's nodes, the same bytes on every machine. splitter_load goes
 * on from it, in another process or on another day, as at the save, in a table of as many places; what came after the save is forgotten.
 * The table's length is the image's word SPLITTER_NUMBER_PLACES, bytes 36 to 39, little-endian. The host's own part of the search is
 * not in it. Each block has a check, a sum: it finds a changed byte, but not blocks that changed places, nor words that did within a
 * block. Such an image is read if it is sound. A host that needs more keeps a sequence number and a CRC of its own around the image
 * (docs/INTEGRATION.md, host/c/kept.c). A save writes version 4: the workers plus 1,024 in the first word, as many records and deque
 * places as the table has, and two words for each node. A reading takes no other: images from before, of versions 0 to 3, are refused by
 * SPLITTER_BAD_BLOCKS.
 *
 * A search that is under way when this library takes the place of the one with header 0.2, whose nodes have four words, can go on: state and
 * table are the same in both, and splitter_convert turns the pool's nodes into the present ones, in the same slice. It is safe to call
 * after the last call to the old library and before the first one to this, for state, table and pool as the old one left them; the run must
 * be in memory, for old images are refused. An earlier call would take the old words for present nodes and refuse them by SPLITTER_UNSOUND
 * or, where they happen to be sound, as of a pool of 1 node, go on with other values. A second change-over of the same pool changes nothing:
 * it is refused by SPLITTER_UNSOUND, unless Main has returned and the pool has 1 or 2 nodes. It is not for a pool that never had old nodes.
 * While the call runs the pool is of neither kind: where memory outlives a reset, keep a copy of the pool until it has returned.
 *
 * The ten functions are the library. Below them are inline helpers: the same calls over struct splitter_state and over struct
 * splitter_lent, a call for each kind of step, queries, records, texts. A host needs no others than those over struct splitter_lent.
 */
#ifndef SPLITTER_H
#define SPLITTER_H

#include <stdbool.h>
#include <stddef.h>
#include <stdint.h>

#ifdef __cplusplus
extern "C" {
#endif

/* The version of this header, to compare in an #if. The major number grows when a host that compiled has to change, the minor one when
 * something is added; while the major number is 0, nothing is released and any of them may change anything. The archive has no number:
 * link the one that came with this header. The form of images is counted apart, by SPLITTER_IMAGE_VERSION. */
#define SPLITTER_VERSION_MAJOR 0u
#define SPLITTER_VERSION_MINOR 4u
#define SPLITTER_VERSION (SPLITTER_VERSION_MAJOR * 1000u + SPLITTER_VERSION_MINOR)

/* The length of a slice: 64 bits on every machine, also where size_t has 32. */
typedef uint64_t splitter_len;

/* On each pointer of an exported function: the slices of one call do not overlap. */
#ifndef __cplusplus
#define SPLITTER_RESTRICT restrict
#elif defined(__GNUC__) || defined(_MSC_VER)
#define SPLITTER_RESTRICT __restrict
#else
#define SPLITTER_RESTRICT
#endif

#define SPLITTER_NONE 4294967295u       /* none, where a place or a number could be */
#define SPLITTER_NUMBERS_WORDS 10u      /* SPLITTER_NUMBER_WORKERS to SPLITTER_NUMBER_PLACES */
#define SPLITTER_DEQUE_PLACES 256u      /* of each worker's deque, whatever the table's length */
#define SPLITTER_DEQUES_WORDS 2056u     /* for each of 8 workers its deque's length, then SPLITTER_DEQUE_PLACES places from the top */
#define SPLITTER_FRAME_RECORD_WORDS 12u /* of struct splitter_frame */
#define SPLITTER_NODE_WORDS 2u          /* holders, then what the node's level tells */
#define SPLITTER_NODE_WORDS_OLD 4u      /* of the library with header 0.2: holders, left, right, value; free: 0, the next one, 0, 0 */
#define SPLITTER_NO_LINK 65535u         /* in the place of an inner node's left or right link */
#define SPLITTER_MAX_NODES 16384u
#define SPLITTER_MAX_SPLITTERS 256u
#define SPLITTER_MAX_WORKERS 8u
#define SPLITTER_MAX_PLACES 256u        /* of a frame table */
#define SPLITTER_REDUCERS 3u            /* SPLITTER_REDUCER_SUM to SPLITTER_REDUCER_AFFINE */
#define SPLITTER_RECORD_BYTES 8u
#define SPLITTER_BLOCK_BYTES 512u       /* of an image: data, then a check of 4 bytes */
#define SPLITTER_BLOCK_WORDS 127u       /* of a block's data */
#define SPLITTER_IMAGE_VERSION 1024u    /* added to the workers in an image's first word */
#define SPLITTER_REPORT_WORDS 4u        /* of 64 bits: struct splitter_parallelism */
#define SPLITTER_STACK_BYTES 2048u      /* a call takes at most this much stack; measured (host/c/stack.c, make cross-test) */

/* splitter_image_bytes as a constant, to size an array: for 0 to SPLITTER_MAX_PLACES places and 0 to SPLITTER_MAX_NODES nodes. */
#define SPLITTER_IMAGE_WORDS(places, nodes) \
    (SPLITTER_NUMBERS_WORDS + SPLITTER_MAX_WORKERS + (SPLITTER_MAX_WORKERS + SPLITTER_FRAME_RECORD_WORDS) * (size_t)(places) \
     + SPLITTER_NODE_WORDS * (size_t)(nodes))
#define SPLITTER_IMAGE_BYTES(places, nodes) \
    ((SPLITTER_IMAGE_WORDS(places, nodes) + SPLITTER_BLOCK_WORDS - 1u) / SPLITTER_BLOCK_WORDS * SPLITTER_BLOCK_BYTES)

/* The words of 64 bits that a report's clocks have, as a constant: two for each place of the table. */
#define SPLITTER_CLOCKS_WORDS(places) ((size_t)2u * (size_t)(places))

/* The state of a run. The calls write it; a host may read and copy it, together with its table and its pool. */
struct splitter_state {
    uint32_t numbers[SPLITTER_NUMBERS_WORDS];
    uint32_t deques[SPLITTER_DEQUES_WORDS];
};

/* A record of the frame table, in the order of an image's words. In a free place all but the parent is zero. None is SPLITTER_NONE. */
struct splitter_frame {
    uint32_t live;            /* 1, or 0 in a free place */
    uint32_t parent;          /* the parent's place, none for Main; in a free place the next free one, or none */
    uint32_t depth;
    uint32_t outstanding;     /* its live children */
    uint32_t waiting;         /* 1 on a suspended frame: it waits, at a sync or as returning; else 0 */
    uint32_t root;            /* the root of its tree in the pool */
    uint32_t returning;       /* 1 on a suspended frame that waits as returning, else 0 */
    uint32_t view_sum;        /* this and the next three: what was folded and has come to this frame */
    uint32_t view_min;
    uint32_t view_multiplier;
    uint32_t view_addend;
    uint32_t younger;         /* the place of the next younger live child of the same parent, or none */
};

/* What a report tells, in the order of its words. (In C++ a struct splitter_report would be hidden by the function.) */
struct splitter_parallelism {
    uint64_t work;      /* the accepted spawns, syncs, reads, writes and folds of the tape */
    uint64_t span;      /* Main's clock at its return; not 0, and at most the work */
    uint64_t quotient;  /* work divided by span, rounded down */
    uint64_t remainder; /* work less quotient times span, below the span */
};

/* The places of the numbers. None is SPLITTER_NONE. */
enum {
    SPLITTER_NUMBER_WORKERS = 0,
    SPLITTER_NUMBER_SPLITTERS = 1,
    SPLITTER_NUMBER_NODES = 2,      /* the recorded nodes of the pool */
    SPLITTER_NUMBER_FREE_NODE = 3,  /* the first free node, or none */
    SPLITTER_NUMBER_FREE_FRAME = 4, /* the first free frame place, or none */
    SPLITTER_NUMBER_TOTAL_SUM = 5,  /* this and the next three: the totals once Main has returned, zero while it lives */
    SPLITTER_NUMBER_TOTAL_MIN = 6,
    SPLITTER_NUMBER_TOTAL_MULTIPLIER = 7,
    SPLITTER_NUMBER_TOTAL_ADDEND = 8,
    SPLITTER_NUMBER_PLACES = 9      /* the recorded length of the frame table */
};

/* Kinds of steps: a record's first byte, and splitter_step's kind. */
enum {
    SPLITTER_STEP_SPAWN = 1,
    SPLITTER_STEP_RETURN = 2,
    SPLITTER_STEP_STEAL = 3,
    SPLITTER_STEP_SYNC = 4,
    SPLITTER_STEP_READ = 5,
    SPLITTER_STEP_WRITE = 6,
    SPLITTER_STEP_FOLD = 7
};

/* The reducers: the field of a fold. All arithmetic is modulo 4,294,967,296. */
enum {
    SPLITTER_REDUCER_SUM = 0,   /* adds the values; nothing folded: 0 */
    SPLITTER_REDUCER_MIN = 1,   /* keeps the least value; nothing folded: SPLITTER_NONE */
    SPLITTER_REDUCER_AFFINE = 2 /* maps x to multiplier times x plus addend, the earlier map first: splitter_affine gives a fold's value;
                                 * nothing folded: 1 and 0 */
};

/* Results of a call that was not refused, and the first answer word of an accepted step. */
enum {
    SPLITTER_OK = 0,
    SPLITTER_SPAWNED = 101,  /* second word: the child's depth */
    SPLITTER_RETURNED = 102, /* second word: SPLITTER_CONTINUED to SPLITTER_WAITS */
    SPLITTER_STOLEN = 103,   /* second word: the stolen frame's depth */
    SPLITTER_SYNCED = 104,   /* second word: SPLITTER_PASSED or SPLITTER_SUSPENDED */
    SPLITTER_VALUE = 105,    /* second word: the value read */
    SPLITTER_WRITTEN = 106,  /* second word: the free nodes left */
    SPLITTER_FOLDED = 107    /* second word: 0 */
};

/* Outcomes of a return. If the worker's deque is empty and the parent waits as returning, with no other live child, the parent ends too,
 * and so on upward: 1, 2 and 3 tell where that stopped. */
enum {
    SPLITTER_CONTINUED = 0,   /* the parent is now the bottom frame of the same deque */
    SPLITTER_BECAME_IDLE = 1, /* the worker is idle: the frame above those that ended has other live children, or is in a deque */
    SPLITTER_RESUMED = 2,     /* the frame above those that ended waited at a sync: it goes on, on this worker, with its own view */
    SPLITTER_FINISHED = 3,    /* Main has ended */
    SPLITTER_WAITS = 4        /* the frame has a live child: it has not ended, but waits as returning; the worker is idle */
};

/* Outcomes of a sync. */
enum {
    SPLITTER_PASSED = 0,   /* the frame has no live child and goes on */
    SPLITTER_SUSPENDED = 1 /* the frame waits for its children; its worker is idle */
};

/* Refusals, all below 100. Of a whole call: nothing has changed but the work slice's words (zero), the state after a start refused by 1, 2,
 * 21 or 3, after a report refused by 1, 2, 21, 3, 4 or 5 and after a reading refused by 17, 18, 5 or 6 (zeros), and every record of the
 * lent table and the pool's whole nodes after a reading refused by 6 (zeros). But by 22 the tape of a report has run. */
enum {
    SPLITTER_BAD_VALUE_COUNT = 1,      /* start, report: 0 or more than 256 initial values */
    SPLITTER_BAD_WORKER_COUNT = 2,     /* start, report: 0 or more than 8 workers */
    SPLITTER_BAD_PLACE_COUNT = 21,     /* start, report: the table has 0 or more than 256 places; after 2 */
    SPLITTER_BAD_NODE_COUNT = 3,       /* start, report: the pool has fewer than T(n) or more than 16,384 nodes */
    SPLITTER_BAD_TAPE = 4,             /* tape, report: not a multiple of 8 bytes, or fewer than two answer words for each record */
    SPLITTER_SHORT_WORK = 5,           /* the work slice has fewer words than the state's nodes; a report: than the pool's; a reading: than
                                        * the image's */
    SPLITTER_UNSOUND = 6,              /* state, table and pool are not sound, or the image's are not; the table has another length than
                                        * recorded; a reading: the pool has fewer nodes than the image; a change-over: they are not
                                        * sound with old nodes */
    /* Of one step or record: state, table and pool are as they were. */
    SPLITTER_BAD_RECORD = 7,           /* the kind is not 1 to 7, or an unused field is not zero */
    SPLITTER_UNKNOWN_WORKER = 8,       /* the worker does not exist */
    SPLITTER_RUN_IS_OVER = 9,          /* Main has returned: it has ended, and no frame lives */
    SPLITTER_WORKER_HAS_NO_FRAME = 10, /* not a steal, and the worker is idle */
    SPLITTER_THIEF_BUSY = 11,          /* a steal, and the thief is not idle */
    SPLITTER_NOTHING_TO_STEAL = 12,    /* a steal, and the victim does not exist or has fewer than two frames */
    SPLITTER_FRAMES_FULL = 13,         /* a spawn, and as many frames live as the table has places */
    /* 14 no longer comes: such a return is accepted, SPLITTER_WAITS. */
    SPLITTER_UNKNOWN_SPLITTER = 15,    /* a read or write, and the splitter is not below n */
    SPLITTER_UNKNOWN_REDUCER = 20,     /* a fold, and the reducer is not below SPLITTER_REDUCERS; in the place of 15 */
    SPLITTER_POOL_FULL = 16,           /* a write, and fewer nodes are free than the shared rest of its path has */
    /* Of a reading, before 5 and 6, and of a save, after 6. */
    SPLITTER_BAD_BLOCKS = 17,          /* the image is not just as many whole blocks as its first block calls for, has no whole block, or
                                        * its first word is not 1,024 to 1,279: a version that this library does not read */
    SPLITTER_BAD_CHECK = 18,           /* a check is wrong or the rest of the last block is not zero */
    SPLITTER_SHORT_TARGET = 19,        /* the target is too short */
    /* Of a report, known when its tape has run: only the report is withheld. State, table, pool, work, answers and clocks are the run's. */
    SPLITTER_NO_SPAN = 22,             /* Main has not returned, or the span is 0 */
    /* Of the interface, before all others: a part of the state, the clocks or the report have another length than they must have; nothing
     * at all has changed. */
    SPLITTER_BAD_STATE = 99
};

/* Begins a run with n = values_len splitters in a table of so many places, whatever state, table and pool hold. SPLITTER_OK, or a refusal:
 * 99, 1, 2, 21, 3. Refused by 99 nothing has changed; refused by another, the state is zero, table and pool are as they were. */
uint32_t splitter_start(uint32_t *SPLITTER_RESTRICT numbers, splitter_len numbers_len,
                        uint32_t *SPLITTER_RESTRICT deques, splitter_len deques_len,
                        struct splitter_frame *SPLITTER_RESTRICT frames, splitter_len places,
                        uint32_t workers,
                        const uint32_t *SPLITTER_RESTRICT values, splitter_len values_len,
                        uint32_t *SPLITTER_RESTRICT pool, splitter_len pool_len);

/* One step. field is the splitter of a read or write, the victim of a steal, the reducer of a fold, else 0; value is a write's or a
 * fold's, else 0. The low half of the result is the first answer word (101 to 107, or a refusal: 99, 5, 6, then 7 to 13, 15, 20, 16), the
 * high half the second. */
uint64_t splitter_step(uint32_t *SPLITTER_RESTRICT numbers, splitter_len numbers_len,
                       uint32_t *SPLITTER_RESTRICT deques, splitter_len deques_len,
                       struct splitter_frame *SPLITTER_RESTRICT frames, splitter_len places,
                       uint32_t *SPLITTER_RESTRICT pool, splitter_len pool_len,
                       uint32_t *SPLITTER_RESTRICT work, splitter_len work_len,
                       uint32_t kind, uint32_t worker, uint32_t field, uint32_t value);

/* A tape of records, 8 bytes each: kind, worker, field (2 bytes), value (4 bytes), little-endian. SPLITTER_OK, with two answer words for
 * each record, or a refusal: 99, 4, 5, 6. A refused record gives its refusal and 0, and the tape goes on. */
uint32_t splitter_tape(uint32_t *SPLITTER_RESTRICT numbers, splitter_len numbers_len,
                       uint32_t *SPLITTER_RESTRICT deques, splitter_len deques_len,
                       struct splitter_frame *SPLITTER_RESTRICT frames, splitter_len places,
                       uint32_t *SPLITTER_RESTRICT pool, splitter_len pool_len,
                       uint32_t *SPLITTER_RESTRICT work, splitter_len work_len,
                       const uint8_t *SPLITTER_RESTRICT tape, splitter_len tape_len,
                       uint32_t *SPLITTER_RESTRICT answers, splitter_len answers_len);

/* A start, one tape from it, and the report of this run: what splitter_start and then splitter_tape leave and answer, whatever state,
 * table and pool hold; then work, span, quotient and remainder in the report. clocks has just SPLITTER_CLOCKS_WORDS(places) words, report
 * just SPLITTER_REPORT_WORDS. SPLITTER_OK, or a refusal: 99, 1, 2, 21, 3, 4, 5, 22. Refused by 99 nothing has changed. Refused by 1 to 5 or
 * 21 no step was taken: the state is zero, all else is as it was. Refused by 22 the tape has run, and only the report's words are as they
 * were; the run may go on, but no later call reports it. After a run, with 0 or 22, the clocks have two words for each place: of the frame
 * that has it, or was the last to have it, its clock and the latest of its ended children's (of one that has ended, as they were before the
 * return that ended it); zeros where no frame ever was. */
uint32_t splitter_report(uint32_t *SPLITTER_RESTRICT numbers, splitter_len numbers_len,
                         uint32_t *SPLITTER_RESTRICT deques, splitter_len deques_len,
                         struct splitter_frame *SPLITTER_RESTRICT frames, splitter_len places,
                         uint32_t workers,
                         const uint32_t *SPLITTER_RESTRICT values, splitter_len values_len,
                         uint32_t *SPLITTER_RESTRICT pool, splitter_len pool_len,
                         uint32_t *SPLITTER_RESTRICT work, splitter_len work_len,
                         const uint8_t *SPLITTER_RESTRICT tape, splitter_len tape_len,
                         uint32_t *SPLITTER_RESTRICT answers, splitter_len answers_len,
                         uint64_t *SPLITTER_RESTRICT clocks, splitter_len clocks_len,
                         uint64_t *SPLITTER_RESTRICT report, splitter_len report_len);

/* Saves the run: its image, of version 4, in the front of the target. State, table and pool are only read. SPLITTER_OK, or a refusal: 99,
 * 5, 6, 19; then nothing has changed but the work slice. Target bytes past the image never change. */
uint32_t splitter_save(const uint32_t *SPLITTER_RESTRICT numbers, splitter_len numbers_len,
                       const uint32_t *SPLITTER_RESTRICT deques, splitter_len deques_len,
                       const struct splitter_frame *SPLITTER_RESTRICT frames, splitter_len places,
                       const uint32_t *SPLITTER_RESTRICT pool, splitter_len pool_len,
                       uint32_t *SPLITTER_RESTRICT work, splitter_len work_len,
                       uint8_t *SPLITTER_RESTRICT target, splitter_len target_len);

/* Reads an image of just image_len bytes, of version 4, whatever state, table and pool hold. SPLITTER_OK, and the run goes on as at its
 * save, or a refusal: 99, 17, 18, 5, 6. The table must have the image's length. Refused by 99 nothing has changed. Refused by another, the
 * state is zero, and by 6 every record of the lent table and every whole node of the pool too. The pool may be longer than the image's
 * nodes: pool words past these never change but by 6. */
uint32_t splitter_load(uint32_t *SPLITTER_RESTRICT numbers, splitter_len numbers_len,
                       uint32_t *SPLITTER_RESTRICT deques, splitter_len deques_len,
                       struct splitter_frame *SPLITTER_RESTRICT frames, splitter_len places,
                       uint32_t *SPLITTER_RESTRICT pool, splitter_len pool_len,
                       uint32_t *SPLITTER_RESTRICT work, splitter_len work_len,
                       const uint8_t *SPLITTER_RESTRICT image, splitter_len image_len);

/* The change-over: turns a pool of old nodes, SPLITTER_NODE_WORDS_OLD words each, into one of as many present nodes in the front of the same
 * slice. The old nodes' other words are zero then, and words past the old nodes never change. State and table are only read. SPLITTER_OK, and
 * the run goes on as if it had begun with the present nodes; or a refusal: 99, 5, 6; then nothing has changed but, by 6, the work slice. The
 * later calls may be lent the whole slice, or only its front, SPLITTER_NODE_WORDS words for each node. */
uint32_t splitter_convert(const uint32_t *SPLITTER_RESTRICT numbers, splitter_len numbers_len,
                          const uint32_t *SPLITTER_RESTRICT deques, splitter_len deques_len,
                          const struct splitter_frame *SPLITTER_RESTRICT frames, splitter_len places,
                          uint32_t *SPLITTER_RESTRICT pool, splitter_len pool_len,
                          uint32_t *SPLITTER_RESTRICT work, splitter_len work_len);

/* The bytes of an image that a save writes, of so many places and nodes, for any numbers: whole blocks. */
uint64_t splitter_image_bytes(uint32_t places, uint32_t nodes);

/* T(n): the nodes that one full view of n splitters takes, the least that a pool can have. The sum over the tree's levels for any n, 0
 * for 0; a start takes 1 to SPLITTER_MAX_SPLITTERS splitters. */
uint64_t splitter_tree_nodes(uint32_t n);

/* The free nodes of a sound state and its pool, as a write's answer tells them, asked without one. It follows the free nodes one by one.
 * 0 if numbers has another length than SPLITTER_NUMBERS_WORDS or the pool holds fewer nodes than recorded; of a state that is not sound
 * some number, after at most nodes + 1 steps. Only reads, and needs no work slice. */
uint64_t splitter_free_nodes(const uint32_t *SPLITTER_RESTRICT numbers, splitter_len numbers_len,
                             const uint32_t *SPLITTER_RESTRICT pool, splitter_len pool_len);

/* The two halves of splitter_step's result: the first answer word, and the second. */
static inline uint32_t splitter_answer_kind(uint64_t answer) {
    return (uint32_t)(answer & 0xffffffffu);
}

static inline uint32_t splitter_answer_number(uint64_t answer) {
    return (uint32_t)(answer >> 32);
}

/* The result that has these halves, to compare with. */
static inline uint64_t splitter_answer(uint32_t kind, uint32_t number) {
    return (uint64_t)number << 32 | kind;
}

/* Is this number a refusal? For the result of a start, a tape, a report, a save, a reading or a change-over, and for a first answer
 * word. */
static inline bool splitter_refused(uint32_t number) {
    return number != SPLITTER_OK && number < 100;
}

/* Was this step refused? For the whole result of a step. */
static inline bool splitter_answer_refused(uint64_t answer) {
    return splitter_refused(splitter_answer_kind(answer));
}

/* The length of a slice that may be NULL, and then is empty. */
static inline splitter_len splitter_slice_len(const void *slice, splitter_len len) {
    return slice != NULL ? len : 0;
}

/* The calls over a whole state: SPLITTER_BAD_STATE never comes, but for clocks. The library is handed an address also of an empty slice. */
static inline uint32_t splitter_state_start(struct splitter_state *state, struct splitter_frame *frames, splitter_len places,
                                            uint32_t workers, const uint32_t *values, splitter_len values_len,
                                            uint32_t *pool, splitter_len pool_len) {
    struct splitter_frame record = {0, 0, 0, 0, 0, 0, 0, 0, 0, 0, 0, 0};
    uint32_t word = 0;
    return splitter_start(state->numbers, SPLITTER_NUMBERS_WORDS, state->deques, SPLITTER_DEQUES_WORDS,
                          frames != NULL ? frames : &record, splitter_slice_len(frames, places), workers,
                          values != NULL ? values : &word, splitter_slice_len(values, values_len),
                          pool != NULL ? pool : &word, splitter_slice_len(pool, pool_len));
}

static inline uint64_t splitter_state_step(struct splitter_state *state, struct splitter_frame *frames, splitter_len places,
                                           uint32_t *pool, splitter_len pool_len,
                                           uint32_t *work, splitter_len work_len,
                                           uint32_t kind, uint32_t worker, uint32_t field, uint32_t value) {
    struct splitter_frame record = {0, 0, 0, 0, 0, 0, 0, 0, 0, 0, 0, 0};
    uint32_t word = 0;
    return splitter_step(state->numbers, SPLITTER_NUMBERS_WORDS, state->deques, SPLITTER_DEQUES_WORDS,
                         frames != NULL ? frames : &record, splitter_slice_len(frames, places),
                         pool != NULL ? pool : &word, splitter_slice_len(pool, pool_len),
                         work != NULL ? work : &word, splitter_slice_len(work, work_len), kind, worker, field, value);
}

static inline uint32_t splitter_state_tape(struct splitter_state *state, struct splitter_frame *frames, splitter_len places,
                                           uint32_t *pool, splitter_len pool_len,
                                           uint32_t *work, splitter_len work_len,
                                           const uint8_t *tape, splitter_len tape_len, uint32_t *answers, splitter_len answers_len) {
    struct splitter_frame record = {0, 0, 0, 0, 0, 0, 0, 0, 0, 0, 0, 0};
    uint32_t word = 0;
    uint8_t byte = 0;
    if (tape == NULL && tape_len != 0) {
        return SPLITTER_BAD_TAPE;
    }
    return splitter_tape(state->numbers, SPLITTER_NUMBERS_WORDS, state->deques, SPLITTER_DEQUES_WORDS,
                         frames != NULL ? frames : &record, splitter_slice_len(frames, places),
                         pool != NULL ? pool : &word, splitter_slice_len(pool, pool_len),
                         work != NULL ? work : &word, splitter_slice_len(work, work_len),
                         tape != NULL ? tape : &byte, splitter_slice_len(tape, tape_len),
                         answers != NULL ? answers : &word, splitter_slice_len(answers, answers_len));
}

/* Writes the report only if it is SPLITTER_OK. Without a table there are no clocks to count: it is refused by 21, after 1 and 2. */
static inline uint32_t splitter_state_report(struct splitter_state *state, struct splitter_frame *frames, splitter_len places,
                                             uint32_t workers, const uint32_t *values, splitter_len values_len,
                                             uint32_t *pool, splitter_len pool_len,
                                             uint32_t *work, splitter_len work_len,
                                             const uint8_t *tape, splitter_len tape_len, uint32_t *answers, splitter_len answers_len,
                                             uint64_t *clocks, splitter_len clocks_len, struct splitter_parallelism *report) {
    struct splitter_frame record = {0, 0, 0, 0, 0, 0, 0, 0, 0, 0, 0, 0};
    uint64_t words[SPLITTER_REPORT_WORDS] = {0, 0, 0, 0}, clock = 0;
    uint32_t word = 0, result;
    uint8_t byte = 0;
    result = splitter_report(state->numbers, SPLITTER_NUMBERS_WORDS, state->deques, SPLITTER_DEQUES_WORDS,
                             frames != NULL ? frames : &record, splitter_slice_len(frames, places), workers,
                             values != NULL ? values : &word, splitter_slice_len(values, values_len),
                             pool != NULL ? pool : &word, splitter_slice_len(pool, pool_len),
                             work != NULL ? work : &word, splitter_slice_len(work, work_len),
                             tape != NULL ? tape : &byte, tape != NULL || tape_len == 0 ? tape_len : 1, /* a byte is no record: 4 */
                             answers != NULL ? answers : &word, splitter_slice_len(answers, answers_len),
                             clocks != NULL ? clocks : &clock, frames != NULL ? splitter_slice_len(clocks, clocks_len) : 0,
                             words, SPLITTER_REPORT_WORDS);
    if (result == SPLITTER_OK) {
        report->work = words[0];
        report->span = words[1];
        report->quotient = words[2];
        report->remainder = words[3];
    }
    return result;
}

static inline uint32_t splitter_state_save(const struct splitter_state *state, const struct splitter_frame *frames, splitter_len places,
                                           const uint32_t *pool, splitter_len pool_len,
                                           uint32_t *work, splitter_len work_len, uint8_t *target, splitter_len target_len) {
    struct splitter_frame record = {0, 0, 0, 0, 0, 0, 0, 0, 0, 0, 0, 0};
    uint32_t word = 0;
    uint8_t byte = 0;
    return splitter_save(state->numbers, SPLITTER_NUMBERS_WORDS, state->deques, SPLITTER_DEQUES_WORDS,
                         frames != NULL ? frames : &record, splitter_slice_len(frames, places),
                         pool != NULL ? pool : &word, splitter_slice_len(pool, pool_len),
                         work != NULL ? work : &word, splitter_slice_len(work, work_len),
                         target != NULL ? target : &byte, splitter_slice_len(target, target_len));
}

static inline uint32_t splitter_state_load(struct splitter_state *state, struct splitter_frame *frames, splitter_len places,
                                           uint32_t *pool, splitter_len pool_len,
                                           uint32_t *work, splitter_len work_len, const uint8_t *image, splitter_len image_len) {
    struct splitter_frame record = {0, 0, 0, 0, 0, 0, 0, 0, 0, 0, 0, 0};
    uint32_t word = 0;
    uint8_t byte = 0;
    return splitter_load(state->numbers, SPLITTER_NUMBERS_WORDS, state->deques, SPLITTER_DEQUES_WORDS,
                         frames != NULL ? frames : &record, splitter_slice_len(frames, places),
                         pool != NULL ? pool : &word, splitter_slice_len(pool, pool_len),
                         work != NULL ? work : &word, splitter_slice_len(work, work_len),
                         image != NULL ? image : &byte, splitter_slice_len(image, image_len));
}

static inline uint32_t splitter_state_convert(const struct splitter_state *state, const struct splitter_frame *frames, splitter_len places,
                                              uint32_t *pool, splitter_len pool_len, uint32_t *work, splitter_len work_len) {
    struct splitter_frame record = {0, 0, 0, 0, 0, 0, 0, 0, 0, 0, 0, 0};
    uint32_t word = 0;
    return splitter_convert(state->numbers, SPLITTER_NUMBERS_WORDS, state->deques, SPLITTER_DEQUES_WORDS,
                            frames != NULL ? frames : &record, splitter_slice_len(frames, places),
                            pool != NULL ? pool : &word, splitter_slice_len(pool, pool_len),
                            work != NULL ? work : &word, splitter_slice_len(work, work_len));
}

static inline uint64_t splitter_state_free_nodes(const struct splitter_state *state, const uint32_t *pool, splitter_len pool_len) {
    uint32_t word = 0;
    return splitter_free_nodes(state->numbers, SPLITTER_NUMBERS_WORDS, pool != NULL ? pool : &word, splitter_slice_len(pool, pool_len));
}

/* What a host lends to every call of a run. places is the length of its array of frame records; the other lengths are in words. */
struct splitter_lent {
    struct splitter_state *state;
    struct splitter_frame *frames;
    splitter_len places;
    uint32_t *pool;
    splitter_len pool_len;
    uint32_t *work;
    splitter_len work_len;
};

/* The calls over lent memory, then one for each kind of step. */
static inline uint32_t splitter_lent_start(const struct splitter_lent *lent, uint32_t workers,
                                           const uint32_t *values, splitter_len values_len) {
    return splitter_state_start(lent->state, lent->frames, lent->places, workers, values, values_len, lent->pool, lent->pool_len);
}

static inline uint64_t splitter_lent_step(const struct splitter_lent *lent, uint32_t kind, uint32_t worker, uint32_t field,
                                          uint32_t value) {
    return splitter_state_step(lent->state, lent->frames, lent->places, lent->pool, lent->pool_len, lent->work, lent->work_len,
                               kind, worker, field, value);
}

static inline uint32_t splitter_lent_tape(const struct splitter_lent *lent, const uint8_t *tape, splitter_len tape_len,
                                          uint32_t *answers, splitter_len answers_len) {
    return splitter_state_tape(lent->state, lent->frames, lent->places, lent->pool, lent->pool_len, lent->work, lent->work_len,
                               tape, tape_len, answers, answers_len);
}

static inline uint32_t splitter_lent_report(const struct splitter_lent *lent, uint32_t workers,
                                            const uint32_t *values, splitter_len values_len,
                                            const uint8_t *tape, splitter_len tape_len, uint32_t *answers, splitter_len answers_len,
                                            uint64_t *clocks, splitter_len clocks_len, struct splitter_parallelism *report) {
    return splitter_state_report(lent->state, lent->frames, lent->places, workers, values, values_len, lent->pool, lent->pool_len,
                                 lent->work, lent->work_len, tape, tape_len, answers, answers_len, clocks, clocks_len, report);
}

static inline uint32_t splitter_lent_save(const struct splitter_lent *lent, uint8_t *target, splitter_len target_len) {
    return splitter_state_save(lent->state, lent->frames, lent->places, lent->pool, lent->pool_len, lent->work, lent->work_len,
                               target, target_len);
}

static inline uint32_t splitter_lent_load(const struct splitter_lent *lent, const uint8_t *image, splitter_len image_len) {
    return splitter_state_load(lent->state, lent->frames, lent->places, lent->pool, lent->pool_len, lent->work, lent->work_len,
                               image, image_len);
}

static inline uint32_t splitter_lent_convert(const struct splitter_lent *lent) {
    return splitter_state_convert(lent->state, lent->frames, lent->places, lent->pool, lent->pool_len, lent->work, lent->work_len);
}

static inline uint64_t splitter_lent_free_nodes(const struct splitter_lent *lent) {
    return splitter_state_free_nodes(lent->state, lent->pool, lent->pool_len);
}

static inline uint64_t splitter_spawn(const struct splitter_lent *lent, uint32_t worker) {
    return splitter_lent_step(lent, SPLITTER_STEP_SPAWN, worker, 0, 0);
}

static inline uint64_t splitter_return(const struct splitter_lent *lent, uint32_t worker) {
    return splitter_lent_step(lent, SPLITTER_STEP_RETURN, worker, 0, 0);
}

static inline uint64_t splitter_steal(const struct splitter_lent *lent, uint32_t worker, uint32_t victim) {
    return splitter_lent_step(lent, SPLITTER_STEP_STEAL, worker, victim, 0);
}

static inline uint64_t splitter_sync(const struct splitter_lent *lent, uint32_t worker) {
    return splitter_lent_step(lent, SPLITTER_STEP_SYNC, worker, 0, 0);
}

static inline uint64_t splitter_read(const struct splitter_lent *lent, uint32_t worker, uint32_t splitter) {
    return splitter_lent_step(lent, SPLITTER_STEP_READ, worker, splitter, 0);
}

static inline uint64_t splitter_write(const struct splitter_lent *lent, uint32_t worker, uint32_t splitter, uint32_t value) {
    return splitter_lent_step(lent, SPLITTER_STEP_WRITE, worker, splitter, value);
}

static inline uint64_t splitter_fold(const struct splitter_lent *lent, uint32_t worker, uint32_t reducer, uint32_t value) {
    return splitter_lent_step(lent, SPLITTER_STEP_FOLD, worker, reducer, value);
}

/* The value to fold into SPLITTER_REDUCER_AFFINE: its multiplier in the high 16 bits, its addend in the low ones. */
static inline uint32_t splitter_affine(uint16_t multiplier, uint16_t addend) {
    return (uint32_t)multiplier << 16 | addend;
}

/* Queries over a state, or its table. They read words and call nothing; lock as for a call. Of what is not sound each gives some number,
 * and none reads outside of it. Before a start, with state and table zero, all give 0, SPLITTER_NONE or false. */
static inline uint32_t splitter_workers(const struct splitter_state *state) {
    return state->numbers[SPLITTER_NUMBER_WORKERS];
}

static inline uint32_t splitter_splitters(const struct splitter_state *state) {
    return state->numbers[SPLITTER_NUMBER_SPLITTERS];
}

/* All recorded nodes, in use and free. */
static inline uint32_t splitter_nodes(const struct splitter_state *state) {
    return state->numbers[SPLITTER_NUMBER_NODES];
}

/* The recorded length of the frame table: the most frames that can live. */
static inline uint32_t splitter_places(const struct splitter_state *state) {
    return state->numbers[SPLITTER_NUMBER_PLACES];
}

/* The live frames of a table, those that wait among them: 0 to its places. */
static inline uint32_t splitter_live_frames(const struct splitter_frame *frames, splitter_len places) {
    uint32_t live = 0;
    for (splitter_len place = 0; place < splitter_slice_len(frames, places); place++) {
        live += frames[place].live != 0 ? 1u : 0u;
    }
    return live;
}

/* The frames in the worker's deque, 0 to SPLITTER_DEQUE_PLACES: 0 if it is idle or does not exist; from 2 on it can be stolen from. */
static inline uint32_t splitter_deque_length(const struct splitter_state *state, uint32_t worker) {
    uint32_t length;
    if (worker >= SPLITTER_MAX_WORKERS) {
        return 0;
    }
    length = state->deques[worker * (1u + SPLITTER_DEQUE_PLACES)];
    return length < SPLITTER_DEQUE_PLACES ? length : SPLITTER_DEQUE_PLACES;
}

/* The depth of the frame that the worker executes, or SPLITTER_NONE if it is idle or does not exist. */
static inline uint32_t splitter_bottom_depth(const struct splitter_state *state, const struct splitter_frame *frames, splitter_len places,
                                             uint32_t worker) {
    uint32_t length = splitter_deque_length(state, worker), place;
    if (length == 0) {
        return SPLITTER_NONE;
    }
    place = state->deques[worker * (1u + SPLITTER_DEQUE_PLACES) + length];
    return place < splitter_slice_len(frames, places) ? frames[place].depth : SPLITTER_NONE;
}

/* Has Main returned? Then a run was started and no worker has a frame: steps are refused by SPLITTER_RUN_IS_OVER. */
static inline bool splitter_main_returned(const struct splitter_state *state) {
    for (uint32_t worker = 0; worker < SPLITTER_MAX_WORKERS; worker++) {
        if (splitter_deque_length(state, worker) != 0) {
            return false;
        }
    }
    return splitter_workers(state) != 0;
}

/* What was folded into each reducer. */
struct splitter_totals {
    uint32_t sum, min;
    uint32_t multiplier, addend; /* of the affine map */
};

/* Gives the totals if Main has returned; else false, and zeros. */
static inline bool splitter_get_totals(const struct splitter_state *state, struct splitter_totals *totals) {
    const bool returned = splitter_main_returned(state);
    totals->sum = returned ? state->numbers[SPLITTER_NUMBER_TOTAL_SUM] : 0;
    totals->min = returned ? state->numbers[SPLITTER_NUMBER_TOTAL_MIN] : 0;
    totals->multiplier = returned ? state->numbers[SPLITTER_NUMBER_TOTAL_MULTIPLIER] : 0;
    totals->addend = returned ? state->numbers[SPLITTER_NUMBER_TOTAL_ADDEND] : 0;
    return returned;
}

/* The same over lent memory. */
static inline uint32_t splitter_lent_workers(const struct splitter_lent *lent) {
    return splitter_workers(lent->state);
}

static inline uint32_t splitter_lent_splitters(const struct splitter_lent *lent) {
    return splitter_splitters(lent->state);
}

static inline uint32_t splitter_lent_nodes(const struct splitter_lent *lent) {
    return splitter_nodes(lent->state);
}

static inline uint32_t splitter_lent_places(const struct splitter_lent *lent) {
    return splitter_places(lent->state);
}

static inline uint32_t splitter_lent_live_frames(const struct splitter_lent *lent) {
    return splitter_live_frames(lent->frames, lent->places);
}

static inline uint32_t splitter_lent_deque_length(const struct splitter_lent *lent, uint32_t worker) {
    return splitter_deque_length(lent->state, worker);
}

static inline uint32_t splitter_lent_bottom_depth(const struct splitter_lent *lent, uint32_t worker) {
    return splitter_bottom_depth(lent->state, lent->frames, lent->places, worker);
}

static inline bool splitter_lent_main_returned(const struct splitter_lent *lent) {
    return splitter_main_returned(lent->state);
}

static inline bool splitter_lent_get_totals(const struct splitter_lent *lent, struct splitter_totals *totals) {
    return splitter_get_totals(lent->state, totals);
}

/* Writes a record of SPLITTER_RECORD_BYTES bytes, on any machine, and gives the place after it. */
static inline uint8_t *splitter_put_record(uint8_t *to, uint8_t kind, uint8_t worker, uint16_t field, uint32_t value) {
    to[0] = kind;
    to[1] = worker;
    to[2] = (uint8_t)(field & 0xffu);
    to[3] = (uint8_t)(field >> 8);
    to[4] = (uint8_t)(value & 0xffu);
    to[5] = (uint8_t)(value >> 8 & 0xffu);
    to[6] = (uint8_t)(value >> 16 & 0xffu);
    to[7] = (uint8_t)(value >> 24);
    return to + SPLITTER_RECORD_BYTES;
}

/* A short text for a first answer word or the result of a call: an accepted step, or a refusal. */
static inline const char *splitter_name(uint32_t number) {
    switch (number) {
    case SPLITTER_OK: return "ok";
    case SPLITTER_SPAWNED: return "spawned";
    case SPLITTER_RETURNED: return "returned";
    case SPLITTER_STOLEN: return "stolen";
    case SPLITTER_SYNCED: return "synced";
    case SPLITTER_VALUE: return "value";
    case SPLITTER_WRITTEN: return "written";
    case SPLITTER_FOLDED: return "folded";
    case SPLITTER_BAD_VALUE_COUNT: return "0 or more than 256 initial values";
    case SPLITTER_BAD_WORKER_COUNT: return "0 or more than 8 workers";
    case SPLITTER_BAD_PLACE_COUNT: return "0 or more than 256 places in the frame table";
    case SPLITTER_BAD_NODE_COUNT: return "too few or too many nodes in the pool";
    case SPLITTER_BAD_TAPE: return "not whole records, or too few answer words";
    case SPLITTER_SHORT_WORK: return "the work slice is too short";
    case SPLITTER_UNSOUND: return "state, table and pool are not sound";
    case SPLITTER_BAD_RECORD: return "no such kind, or an unused field is not zero";
    case SPLITTER_UNKNOWN_WORKER: return "no such worker";
    case SPLITTER_RUN_IS_OVER: return "Main has returned";
    case SPLITTER_WORKER_HAS_NO_FRAME: return "the worker is idle";
    case SPLITTER_THIEF_BUSY: return "the thief is not idle";
    case SPLITTER_NOTHING_TO_STEAL: return "the victim has no frame to steal";
    case SPLITTER_FRAMES_FULL: return "every place of the frame table is taken";
    case SPLITTER_UNKNOWN_SPLITTER: return "no such splitter";
    case SPLITTER_UNKNOWN_REDUCER: return "no such reducer";
    case SPLITTER_POOL_FULL: return "too few free nodes";
    case SPLITTER_BAD_BLOCKS: return "the image is not just as many whole blocks as it calls for, or of no readable form";
    case SPLITTER_BAD_CHECK: return "a check is wrong or the rest of the last block is not zero";
    case SPLITTER_SHORT_TARGET: return "the target is too short";
    case SPLITTER_NO_SPAN: return "Main has not returned, or the span is 0";
    case SPLITTER_BAD_STATE: return "state, clocks or report have another length than they must have";
    default: return "unknown number";
    }
}

#ifdef __cplusplus
}
#endif
#endif
