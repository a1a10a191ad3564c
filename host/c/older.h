/* Images of the forms before R-8, as document 02's have them, all of 64 places and with four words to a node.
 * Version 0 has the workers alone in the first word and six words to a frame record, version 1 has 256 added and seven words, version 2
 * has 512 added, twelve words and the totals, version 3 has 768 added and the table's length. The library neither writes nor reads them. */
#ifndef OLDER_H
#define OLDER_H

#include "splitter.h"

enum { OLDER_VERSIONS = 4, OLDER_PLACES = 64, OLDER_VERSION = 256 /* added to the first word, times the version */ };
#define OLDER_NODE_WORDS 4u /* holders, left, right, value; a free node is 0, the next one, 0, 0 */
#define OLDER_NUMBERS_WORDS(version) ((version) < 2u ? 5u : (version) < 3u ? 9u : 10u)
#define OLDER_FRAME_RECORD_WORDS(version) ((version) < 2u ? 6u + (version) : 12u)
#define OLDER_IMAGE_WORDS(nodes, version) \
    (OLDER_NUMBERS_WORDS(version) + SPLITTER_MAX_WORKERS * (1u + OLDER_PLACES) + OLDER_PLACES * OLDER_FRAME_RECORD_WORDS(version) \
     + OLDER_NODE_WORDS * (size_t)(nodes))
#define OLDER_IMAGE_BYTES(nodes, version) \
    ((OLDER_IMAGE_WORDS(nodes, version) + SPLITTER_BLOCK_WORDS - 1u) / SPLITTER_BLOCK_WORDS * SPLITTER_BLOCK_BYTES)

/* Writes such an image of a run with a table of 64 places, without what its form has no words for; gives its bytes. */
size_t older_image(const struct splitter_state *state, const struct splitter_frame *table, const uint32_t *pool, unsigned version,
                   uint8_t *target);

#endif
