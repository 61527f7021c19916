/* Loads every image of a file that the second implementation made and compares: `images FILE`. A good image is saved
 * again, byte for byte; a damaged one gives its number and the fresh state. Each image is also compared with changed
 * expectations, which must be told apart. Exit status 1: a difference, with its place; 2: no such file, or one that
 * breaks off. */
#include "records.h"
#include "states.h"

static const uint8_t numbers[] = {0, 1, 2, 8, 9};
enum { NUMBERS = 10 };

/* An image as it is lent, and what is expected of it. */
static struct {
    const uint8_t *lent;
    size_t length;
    uint8_t number;
    uint8_t bytes[MOST_VALUES]; /* the lent bytes after loading */
    uint8_t saved[MOST_VALUES]; /* what saving gives, where it is accepted */
    tigbulode_equaliser fresh;  /* the state, where it is not */
} image;

/* Of the file's bytes, which are lent to every load, a copy that no call sees. */
static uint8_t copy[MOST_FILE];

static unsigned counts[NUMBERS];

static const char *differs(void) {
    const tigbulode_answer a = tigbulode_load(image.lent, image.length);
    if (a.number != image.number) return "another answer";
    if (memcmp(image.lent, image.bytes, image.length) != 0) return "the lent bytes are changed";
    if (a.number == TIGBULODE_ACCEPTED) return saves_differ(&a.state, image.saved, image.length);
    return tigbulode_same_state(&a.state, &image.fresh) ? NULL : "not the fresh state";
}

/* One bit changed in the lent bytes, and in the saved bytes or the fresh state. */
static void try_other_bytes(size_t before) {
    try_some_bit(image.bytes, image.length, 8 * before);
    if (image.number == TIGBULODE_ACCEPTED)
        try_some_bit(image.saved, image.length, 8 * before);
    else
        try_bit(record_byte(&image.fresh, before % RECORD_BYTES), 0);
}

/* The image at a place of the file: its length, its bytes, its number. */
static void take_image(size_t place) {
    need(place, 2);
    image.length = number_at(place, 2);
    need(place, 3 + image.length);
    image.lent = file + place + 2;
    memcpy(image.bytes, image.lent, image.length);
    memcpy(image.saved, image.lent, image.length);
    image.number = file[place + 2 + image.length];
    image.fresh.p = image.fresh.q = image.fresh.n = 1;
}

static const char *compare(size_t place, unsigned before, size_t *bytes) {
    take_image(place);
    const char *difference = image.number < NUMBERS ? differs() : "no number of a load";
    if (difference != NULL) return difference;
    try_numbers(&image.number, numbers, sizeof numbers);
    try_other_bytes(before);
    counts[image.number]++;
    *bytes = 3 + image.length;
    return NULL;
}

int main(int argc, char **argv) {
    take_arguments(argc, argv, 1, "images FILE: loads every image of a file such as target/vectors/images.bin");
    read_file(argv[1]);
    memcpy(copy, file, sizeof copy);
    const unsigned count = compare_records("image");
    expect(memcmp(file, copy, sizeof file) == 0, "the bytes around the images", 0);
    printf("images %u: good %u, damaged %u\n", count, counts[0], count - counts[0]);
    print_answers(counts, NUMBERS);
    return end_of_program();
}
