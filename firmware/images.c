/* Loads every image of a file that the second implementation made and compares: `images FILE`. A good image is saved again,
 * byte for byte; a damaged one gives its number and the fresh state. Each image is also compared with changed
 * expectations, which must be told apart. Exit status 1: a difference, with its place; 2: no such file, or one that
 * breaks off. */
#include "saving.h"

enum { NUMBERS = 10 };

/* An image as it is lent, and what is expected of it. */
typedef struct {
    const uint8_t *lent;
    size_t length;
    uint8_t number;
    const uint8_t *bytes;        /* the lent bytes after loading */
    const uint8_t *saved;        /* what saving gives, where it is accepted */
    tigbulode_equaliser refused; /* the state, where it is not */
} image;

/* Of the file's bytes, which are lent to every load, a copy that no call sees. */
static uint8_t copy[MOST_FILE];

/* What is wrong with loading an image, or NULL. */
static const char *differs(const image *i) {
    tigbulode_answer a = tigbulode_load(i->lent, i->length);
    if (a.number != i->number) return "another answer";
    if (memcmp(i->lent, i->bytes, i->length) != 0) return "the lent bytes are changed";
    if (a.number == TIGBULODE_ACCEPTED) return saving_differs(&a.state, i->saved, i->length);
    if (memcmp(&a.state, &i->refused, sizeof a.state) != 0) return "not the fresh state";
    return NULL;
}

static void try_changed(const image *i) {
    count_tried(differs(i));
}

static void try_other_numbers(image i) {
    static const uint8_t numbers[] = {0, 1, 2, 8, 9};
    const uint8_t number = i.number;
    for (size_t k = 0; k < sizeof numbers; k++) {
        i.number = numbers[k];
        if (i.number != number) try_changed(&i);
    }
}

/* One bit changed in the lent bytes, and in the saved bytes or the fresh state. */
static void try_other_bytes(const image *i, size_t place) {
    static uint8_t changed[UINT16_MAX];
    image other = *i;
    memcpy(changed, i->bytes, i->length);
    if (i->length > 0) {
        changed[place % i->length] ^= 1;
        other.bytes = changed;
        try_changed(&other);
    }
    other = *i;
    if (i->number == TIGBULODE_ACCEPTED)
        other.saved = changed;
    else
        ((uint8_t *)&other.refused)[place % sizeof other.refused] ^= 1;
    try_changed(&other);
}

/* The image at a place of the file: its length, its bytes, its number. */
static image image_at(size_t place) {
    image i = {0};
    need(place, 2);
    i.length = copy[place] + 256u * copy[place + 1];
    need(place, 3 + i.length);
    i.lent = file + place + 2;
    i.bytes = i.saved = copy + place + 2;
    i.number = copy[place + 2 + i.length];
    i.refused.p = i.refused.q = i.refused.n = 1;
    return i;
}

/* Images by their answers. */
static unsigned counts[NUMBERS];

static void print_counts(unsigned count) {
    printf("images %u: good %u, damaged %u\n", count, counts[0], count - counts[0]);
    print_answers(counts, NUMBERS);
}

static const char *compare(size_t place, unsigned before, size_t *bytes) {
    const image i = image_at(place);
    const char *difference = i.number < NUMBERS ? differs(&i) : "no number of a load";
    if (difference != NULL) return difference;
    try_other_numbers(i);
    try_other_bytes(&i, before);
    counts[i.number]++;
    *bytes = 3 + i.length;
    return NULL;
}

int main(int argc, char **argv) {
    take_arguments(argc, argv, 1, "images FILE: loads every image of a file such as firmware/images.bin, and compares");
    read_records("images", argv[1]);
    memcpy(copy, file, sizeof copy);
    print_counts(compare_records("image", compare));
    return end_of_records(memcmp(file, copy, sizeof file) == 0 ? NULL : "the file's bytes are changed");
}
