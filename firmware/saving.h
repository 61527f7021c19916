/* Saving a state, held to its image, for the programs that go through images and blocks. */
#ifndef SAVING_H
#define SAVING_H

#include "records.h"
#include "tigbulode.h"

#include <stdbool.h>

enum { AFTER = 16 /* bytes behind the longest image */ };

static inline bool all_sentinels(const uint8_t *bytes, size_t length) {
    for (size_t i = 0; i < length; i++)
        if (bytes[i] != SENTINEL) return false;
    return true;
}

/* What is wrong with saving a state whose image is known, or NULL. */
static inline const char *saving_differs(const tigbulode_equaliser *state, const uint8_t *image, size_t length) {
    const tigbulode_equaliser before = *state;
    uint8_t buffer[TIGBULODE_IMAGE_BYTES + AFTER];
    memset(buffer, SENTINEL, sizeof buffer);
    tigbulode_saved s = tigbulode_save(state, buffer, length - 1);
    if (s.number != TIGBULODE_BUFFER || s.length != 0) return "a short buffer is not turned down";
    if (!all_sentinels(buffer, sizeof buffer)) return "a short buffer is written to";
    s = tigbulode_save(state, buffer, sizeof buffer);
    if (s.number != TIGBULODE_ACCEPTED) return "saving it is turned down";
    if (s.length != length) return "saved with another length";
    if (memcmp(buffer, image, length) != 0) return "saved with other bytes";
    if (!all_sentinels(buffer + length, sizeof buffer - length)) return "bytes after the saved image are changed";
    if (memcmp(state, &before, sizeof before) != 0) return "a save changes the record";
    return NULL;
}

#endif
