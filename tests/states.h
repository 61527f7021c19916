/* Records byte by byte, and saves held to their images. C99 and C++98. */
#ifndef STATES_H
#define STATES_H

#include "expected.h"
#include "tigbulode.h"

enum { RECORD_BYTES = 140, PAST = 76, BEYOND = 16 /* bytes behind the longest image */ };

/* A byte of a record's fields, which a vector file has one after the other. */
static inline uint8_t *record_byte(tigbulode_equaliser *s, size_t i) {
    static const struct {
        size_t place, bytes;
    } fields[] = {
        {offsetof(tigbulode_equaliser, p), 8},
        {offsetof(tigbulode_equaliser, step), 4},
        {offsetof(tigbulode_equaliser, weights), 2 * TIGBULODE_SLOTS},
        {offsetof(tigbulode_equaliser, past), 2 * TIGBULODE_SLOTS},
    };
    int k = 0;
    while (i >= fields[k].bytes) i -= fields[k++].bytes;
    return (uint8_t *)s + fields[k].place + i;
}

/* Writes the image that a save should write; gives its length. */
static inline size_t write_image(tigbulode_equaliser s, uint8_t *image) {
    const size_t half = 2 * ((size_t)s.p + s.q);
    size_t i;
    for (i = 0; i < TIGBULODE_HEADER_BYTES + half; i++) image[i] = *record_byte(&s, i);
    for (i = 0; i < half; i++) image[TIGBULODE_HEADER_BYTES + half + i] = *record_byte(&s, PAST + i);
    return TIGBULODE_HEADER_BYTES + 2 * half;
}

/* What is wrong with a save into a buffer of so many bytes, or NULL: it writes the image, or nothing where that is
 * longer, and the record stays. */
static inline const char *save_differs(tigbulode_equaliser s, const uint8_t *image, size_t image_length,
                                       size_t length) {
    const tigbulode_equaliser before = s;
    const int fits = length >= image_length;
    uint8_t buffer[TIGBULODE_IMAGE_BYTES + BEYOND], expected[sizeof buffer];
    tigbulode_saved saved;
    memset(buffer, SENTINEL, sizeof buffer);
    memset(expected, SENTINEL, sizeof expected);
    if (fits) memcpy(expected, image, image_length);
    saved = tigbulode_save(&s, buffer, length);
    if (saved.number != (fits ? TIGBULODE_ACCEPTED : TIGBULODE_BUFFER)) return "saving gives another answer";
    if (saved.length != (fits ? image_length : 0)) return "saved with another length";
    if (memcmp(buffer, expected, sizeof buffer) != 0) return "saved with other bytes, or what is behind them";
    return tigbulode_same_state(&s, &before) ? NULL : "a save changes the record";
}

/* The same with a byte too few, and with more than enough. */
static inline const char *saves_differ(const tigbulode_equaliser *s, const uint8_t *image, size_t image_length) {
    const char *difference = save_differs(*s, image, image_length, image_length - 1);
    return difference ? difference : save_differs(*s, image, image_length, TIGBULODE_IMAGE_BYTES + BEYOND);
}

#endif
