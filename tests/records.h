/* What the programs that go through a vector file of the second implementation have in common: the file's bytes, its
 * records one after the other, and changed expectations. */
#ifndef RECORDS_H
#define RECORDS_H

#include "expected.h"

#include <stdbool.h>

enum {
    MOST_FILE = 1 << 20,
    MOST_VALUES = UINT16_MAX /* of a list whose length is two bytes of the file */
};

static uint8_t file[MOST_FILE];
static size_t file_length;

static inline void give_up(const char *about, const char *name) {
    fprintf(stderr, "%s: %s\n", name, about);
    exit(2);
}

static inline void read_file(const char *name) {
    FILE *f = fopen(name, "rb");
    if (f == NULL) give_up("can't be opened", name);
    file_length = fread(file, 1, sizeof file, f);
    if (ferror(f) || !feof(f) || file_length == 0) give_up("can't be read, is empty or too long", name);
    fclose(f);
}

/* Ends where the file has fewer bytes left than a record needs. */
static inline void need(size_t place, size_t bytes) {
    if (bytes > file_length - place) give_up("it breaks off", "the file");
}

/* The number in so many bytes of the file. */
static inline uint64_t number_at(size_t place, int bytes) {
    uint64_t number = 0;
    for (int i = 0; i < bytes; i++) number |= (uint64_t)file[place + i] << 8 * i;
    return number;
}

/* What each program has: the call that the record at a place asks for, of which so many were before, with changed
 * expectations. It tells the record's length, and gives what is wrong, or NULL. */
static const char *compare(size_t place, unsigned before, size_t *bytes);

/* And what is wrong with what the last call left, or NULL. */
static const char *differs(void);

/* The count of the records. The first that differs ends the program with 1. */
static inline unsigned compare_records(const char *name) {
    unsigned count = 0;
    size_t bytes = 0;
    for (size_t place = 0; place < file_length; place += bytes, count++) {
        const char *difference = compare(place, count, &bytes);
        if (difference == NULL) continue;
        printf("%s %u at byte %zu: %s\n", name, count, place, difference);
        exit(EXIT_FAILURE);
    }
    return count;
}

/* A bit changed of what is expected. */
static inline void try_bit(void *bytes, size_t bit) {
    uint8_t *byte = (uint8_t *)bytes + bit / 8;
    *byte ^= (uint8_t)(1 << bit % 8);
    count_change(differs() != NULL);
    *byte ^= (uint8_t)(1 << bit % 8);
}

/* A bit of so many bytes, where there are any. */
static inline void try_some_bit(void *bytes, size_t length, size_t bit) {
    if (length > 0) try_bit(bytes, bit % (8 * length));
}

/* Each byte of so many. */
static inline void try_bytes(void *bytes, size_t length) {
    for (size_t i = 0; i < length; i++) try_bit(bytes, 8 * i);
}

/* Each other number that a call could answer with. */
static inline void try_numbers(uint8_t *number, const uint8_t *all, size_t count) {
    const uint8_t own = *number;
    for (size_t i = 0; i < count; i++) {
        *number = all[i];
        if (all[i] != own) count_change(differs() != NULL);
    }
    *number = own;
}

/* How many records have each answer. */
static inline void print_answers(const unsigned *counts, int numbers) {
    for (int number = 0; number < numbers; number++)
        if (counts[number] > 0) printf("answer %d: %u\n", number, counts[number]);
}

#endif
