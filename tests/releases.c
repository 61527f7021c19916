/* Loads the images of earlier releases: `releases FILE..`, texts with an image a line in lower-case hexadecimal digits,
 * and comments after #. Each image loads with 0 and is saved to the same bytes; with any digit changed it must be told
 * apart. Exit status 1: a difference, or a file without images; 2: a file that can't be read. */
#include "states.h"

enum { MOST_LINE = 1024 };

static void give_up(const char *about, const char *name, unsigned line) {
    fprintf(stderr, "%s, line %u: %s\n", name, line, about);
    exit(2);
}

/* What is wrong with loading some bytes and saving them to an image, or NULL. */
static const char *differs(const uint8_t *bytes, const uint8_t *image, size_t length) {
    const tigbulode_answer a = tigbulode_load(bytes, length);
    if (a.number != TIGBULODE_ACCEPTED) return tigbulode_number_text(a.number);
    return saves_differ(&a.state, image, length);
}

/* The bytes of a line of digits; gives how many, or 0 where it is something else. */
static size_t bytes_of(const char *line, uint8_t *bytes) {
    static const char digits[] = "0123456789abcdef";
    const size_t length = strspn(line, digits);
    if (length % 2 != 0 || length > 2 * TIGBULODE_IMAGE_BYTES || strcmp(line + length, "\n") != 0) return 0;
    for (size_t i = 0; i < length; i += 2)
        bytes[i / 2] = (uint8_t)(16 * (strchr(digits, line[i]) - digits) + (strchr(digits, line[i + 1]) - digits));
    return length / 2;
}

static void try_image(const char *name, unsigned line, const uint8_t *image, size_t length) {
    uint8_t bytes[TIGBULODE_IMAGE_BYTES];
    const char *difference = differs(image, image, length);
    if (difference != NULL) {
        printf("%s, line %u: %s\n", name, line, difference);
        exit(EXIT_FAILURE);
    }
    memcpy(bytes, image, length);
    for (size_t digit = 0; digit < 2 * length; digit++) {
        const uint8_t bit = digit % 2 ? 0x10 : 0x01;
        bytes[digit / 2] ^= bit;
        count_change(differs(bytes, image, length) != NULL);
        bytes[digit / 2] ^= bit;
    }
}

/* The images of a file, and how many they are. */
static void try_file(const char *path) {
    const char *slash = strrchr(path, '/'), *name = slash ? slash + 1 : path;
    char text[MOST_LINE];
    uint8_t image[TIGBULODE_IMAGE_BYTES];
    unsigned line = 0, count = 0;
    FILE *f = fopen(path, "r");
    if (f == NULL) give_up("can't be opened", name, 0);
    while (fgets(text, sizeof text, f) != NULL) {
        line++;
        if (text[0] == '#') continue;
        const size_t length = bytes_of(text, image);
        if (length == 0) give_up("no image", name, line);
        try_image(name, line, image, length);
        count++;
    }
    fclose(f);
    expect(count > 0, name, 0);
    printf("%s: %u images, each loads and is saved to the same bytes\n", name, count);
}

int main(int argc, char **argv) {
    take_arguments(argc, argv, argc < 2 ? 1 : argc - 1, "releases FILE..: loads images of earlier releases");
    for (int i = 1; i < argc; i++) try_file(argv[i]);
    return end_of_program();
}
