#define _POSIX_C_SOURCE 200112L
#include "kept.h"

#include <stdio.h>
#include <string.h>
#include <unistd.h>

uint32_t kept_word(const struct kept *kept, unsigned word) {
    const uint8_t *from = kept->bytes + 4 * word;
    return from[0] | (uint32_t)from[1] << 8 | (uint32_t)from[2] << 16 | (uint32_t)from[3] << 24;
}

void kept_put_word(struct kept *kept, unsigned word, uint32_t value) {
    for (unsigned i = 0; i < 4; i++) {
        kept->bytes[4 * word + i] = (uint8_t)(value >> 8 * i & 0xffu);
    }
}

char kept_name(uint32_t sequence) {
    return "BA"[sequence % KEPT_FILES];
}

/* CRC-32 (IEEE 802.3), gone on with; 0 at first. */
static uint32_t crc32(uint32_t crc, const uint8_t *bytes, size_t len) {
    crc = ~crc;
    for (size_t i = 0; i < len; i++) {
        crc ^= bytes[i];
        for (unsigned bit = 0; bit < 8; bit++) {
            crc = crc >> 1 ^ (crc & 1 ? 0xedb88320u : 0);
        }
    }
    return ~crc;
}

/* Of all but the CRC itself. */
static uint32_t crc_of(const struct kept *kept) {
    return crc32(crc32(0, kept->bytes, 4 * KEPT_CRC), kept->bytes + KEPT_IMAGE, kept->len - KEPT_IMAGE);
}

bool kept_right(const struct kept *kept) {
    return kept->len > KEPT_IMAGE && kept_word(kept, KEPT_CRC) == crc_of(kept);
}

static FILE *open_file(const char *folder, char name, const char *mode) {
    char path[4096];
    int len = snprintf(path, sizeof path, "%s/%c", folder, name);
    return len < 0 || (size_t)len >= sizeof path ? NULL : fopen(path, mode);
}

/* The bytes must be on the medium before the next save begins, which writes over the other file. */
bool kept_write(const char *folder, struct kept *kept) {
    FILE *to = open_file(folder, kept_name(kept_word(kept, KEPT_SEQUENCE)), "wb");
    if (to == NULL) {
        return false;
    }
    kept_put_word(kept, KEPT_CRC, crc_of(kept));
    bool written = fwrite(kept->bytes, 1, kept->len, to) == kept->len && fflush(to) == 0 && fsync(fileno(to)) == 0;
    return fclose(to) == 0 && written;
}

bool kept_read(const char *folder, char name, struct kept *kept) {
    FILE *from = open_file(folder, name, "rb");
    memset(kept, 0, sizeof *kept);
    if (from == NULL) {
        return false;
    }
    kept->len = fread(kept->bytes, 1, KEPT_BYTES, from);
    fclose(from);
    return true;
}
