/* What the C programs here expect: the first difference ends a program, and changed expectations have to be told apart.
 * C99 and C++98. */
#ifndef EXPECTED_H
#define EXPECTED_H

#include <stdint.h>
#include <stdio.h>
#include <stdlib.h>
#include <string.h>

enum { SENTINEL = 0x55 }; /* what lent memory holds before a call */

static unsigned changes, told;

/* A changed expectation, and whether it was told apart. */
static inline void count_change(int is_told) {
    changes++;
    told += is_told != 0;
}

static inline void expect(int holds, const char *about, unsigned place) {
    if (holds) return;
    printf("%s, case %u: not as expected\n", about, place);
    exit(EXIT_FAILURE);
}

/* The last lines of a program that found no difference, and its exit status. */
static inline int end_of_program(void) {
    printf("changed expectations told apart: %u of %u\n", told, changes);
    if (told != changes || changes == 0) return EXIT_FAILURE;
    printf("no difference\n");
    return EXIT_SUCCESS;
}

/* The version of an interface, and its text. */
static inline void try_version(int major, int minor, const char *version) {
    char text[32];
    sprintf(text, "%d.%d", major, minor);
    expect(strcmp(text, version) == 0, "version", 0);
    printf("version %s\n", version);
}

/* The generator of the programs here. */
static inline uint32_t any_number(uint32_t *random) {
    *random = *random * 1664525u + 1013904223u;
    return *random >> 8;
}

/* The arguments of a program: so many, none of which begins with -; otherwise its usage. */
static inline void take_arguments(int argc, char **argv, int wanted, const char *usage) {
    const int asked = argc == 2 && strcmp(argv[1], "--help") == 0;
    int i;
    for (i = 1; i < argc && argv[i][0] != '-'; i++) {}
    if (i == argc && argc == 1 + wanted) return;
    fprintf(asked ? stdout : stderr, "usage: %s\n", usage);
    exit(asked ? EXIT_SUCCESS : 2);
}

#endif
