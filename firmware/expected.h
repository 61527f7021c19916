/* What the C programs here expect: differences, and changed expectations that have to be told apart. */
#ifndef EXPECTED_H
#define EXPECTED_H

#include <stdio.h>
#include <string.h>

static unsigned differences, changes, told;

/* The first difference is printed, with its place. */
static void expect(int holds, const char *about, unsigned place) {
    if (holds) return;
    if (differences == 0) fprintf(stderr, "interface: %s, case %u: not as expected\n", about, place);
    differences++;
}

/* A changed expectation, which must be told apart. */
static void try_changed(int holds) {
    changes++;
    told += !holds;
}

/* The version of an interface, and its text. */
static void try_version(int major, int minor, const char *version) {
    char text[16];
    sprintf(text, "%d.%d", major, minor);
    expect(strcmp(text, version) == 0, "version", 0);
    printf("version %s\n", version);
}

#endif
