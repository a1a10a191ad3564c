/* Images kept in two files by turns, so that a save that is cut short spoils only the older one. A file is a block of the host's own, then
 * the image. The block's words, little-endian: a sequence number, the host's own words, a CRC of everything else in the file. */
#ifndef KEPT_H
#define KEPT_H

#include <stdbool.h>

#include "splitter.h"

enum { KEPT_FILES = 2, KEPT_PLACES = 256, KEPT_NODES = 72 /* the search's */ };
enum { KEPT_IMAGE = SPLITTER_BLOCK_BYTES, KEPT_BYTES = KEPT_IMAGE + SPLITTER_IMAGE_BYTES(KEPT_PLACES, KEPT_NODES) };

/* The words of the block. */
enum { KEPT_SEQUENCE = 0, KEPT_OWN = 1, KEPT_CRC = 127 };

struct kept {
    uint8_t bytes[KEPT_BYTES]; /* the image begins at KEPT_IMAGE */
    size_t len;
};

uint32_t kept_word(const struct kept *kept, unsigned word);
void kept_put_word(struct kept *kept, unsigned word, uint32_t value);

/* The name of the file for a sequence number: A, B, A, .. from 1 on. */
char kept_name(uint32_t sequence);

/* Sets the CRC and writes the file; false if it cannot. */
bool kept_write(const char *folder, struct kept *kept);

/* Reads a file, whole or not; false if there is none. */
bool kept_read(const char *folder, char name, struct kept *kept);

/* Is everything as it was written? */
bool kept_right(const struct kept *kept);

#endif
