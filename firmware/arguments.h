/* The arguments of the C programs here: --help, a count that is wanted, and nothing else; and a file, read whole. */
#ifndef ARGUMENTS_H
#define ARGUMENTS_H

#include <stdio.h>
#include <stdlib.h>
#include <string.h>

/* Goes on with `wanted` arguments, none of which begins with -. Otherwise prints the usage and ends: with 0 where that
 * was asked for, with 2 and what is wrong where it was not. */
static inline void take_arguments(int argc, char **argv, int wanted, const char *usage) {
    int i;
    if (argc == 2 && (strcmp(argv[1], "--help") == 0 || strcmp(argv[1], "-h") == 0)) {
        printf("usage: %s\n", usage);
        exit(EXIT_SUCCESS);
    }
    for (i = 1; i < argc && argv[i][0] != '-'; i++) {}
    if (i == argc && argc == 1 + wanted) return;
    if (i < argc)
        fprintf(stderr, "no such option: %s\n", argv[i]);
    else
        fprintf(stderr, "arguments given: %d, wanted: %d\n", argc - 1, wanted);
    fprintf(stderr, "usage: %s\n", usage);
    exit(2);
}

/* The length of a file that is read into a room. One that can't be read, is empty or fills the room ends the program with 2. */
static inline size_t read_whole(const char *program, const char *name, unsigned char *room, size_t most) {
    size_t length;
    FILE *f = fopen(name, "rb");
    if (f == NULL) {
        fprintf(stderr, "%s: can't open %s\n", program, name);
        exit(2);
    }
    length = fread(room, 1, most, f);
    if (ferror(f) || !feof(f) || length == 0) {
        fprintf(stderr, "%s: can't read %s, or it does not have 1 to %lu bytes\n", program, name, (unsigned long)most - 1);
        exit(2);
    }
    fclose(f);
    return length;
}

#endif
