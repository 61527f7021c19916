/* What the programs that go through a file of the second implementation have in common: the file's bytes, its records one
 * after the other, and changed expectations, which must be told apart. */
#ifndef RECORDS_H
#define RECORDS_H

#include "arguments.h"

#include <stdint.h>

enum {
    SENTINEL = 0x55, /* what lent memory holds before a call */
    MOST_FILE = 1 << 20,
    MOST_VALUES = UINT16_MAX /* of a list whose length is two bytes of the file */
};

static const char *program;
static uint8_t file[MOST_FILE];
static size_t file_length;

/* Changed expectations, and those of them that were told apart. */
static unsigned tried, told;

/* A changed expectation is told apart where it makes a difference. */
static inline void count_tried(const char *difference) {
    tried++;
    told += difference != NULL;
}

static inline void read_records(const char *own_name, const char *name) {
    program = own_name;
    file_length = read_whole(program, name, file, sizeof file);
}

/* Ends where the file has fewer bytes left than a record needs. */
static inline void need(size_t place, size_t bytes) {
    if (bytes <= file_length - place) return;
    fprintf(stderr, "%s: the file breaks off at byte %zu\n", program, file_length);
    exit(2);
}

/* The number in so many bytes of the file. */
static inline uint64_t number_at(size_t place, int bytes) {
    uint64_t number = 0;
    for (int i = 0; i < bytes; i++) number |= (uint64_t)file[place + i] << 8 * i;
    return number;
}

/* Compares the record at a place, before which there are so many others, and tells its length in the file. Gives what is
 * wrong, or NULL. */
typedef const char *comparison(size_t place, unsigned before, size_t *bytes);

/* The count of the records. The first that differs ends the program with 1. */
static inline unsigned compare_records(const char *name, comparison *compare) {
    unsigned count = 0;
    size_t bytes = 0;
    for (size_t place = 0; place < file_length; place += bytes, count++) {
        const char *difference = compare(place, count, &bytes);
        if (difference == NULL) continue;
        printf("%s %u at byte %zu: %s\n", name, count, place, difference);
        exit(1);
    }
    return count;
}

/* How many records have each answer. */
static inline void print_answers(const unsigned *counts, int numbers) {
    for (int number = 0; number < numbers; number++)
        if (counts[number] > 0) printf("answer %d: %u\n", number, counts[number]);
}

/* The last lines, and the exit status. */
static inline int end_of_records(const char *difference) {
    printf("changed expectations told apart: %u of %u\n", told, tried);
    if (told != tried) return 1;
    printf("%s\n", difference == NULL ? "no difference" : difference);
    return difference != NULL;
}

#endif
