/* read_obj FILE: reads a shape model in Wavefront OBJ, checks its mesh and prints how many vertices and faces it has, and its volume.
   What of OBJ is read, and how other files are brought into that form: docs/FOR-AUTHORS.md.
   Build, at the repository's root, after `sh tools/library.sh`: sh examples/build.sh
   Run: target/examples/read_obj FILE */
#include <stdlib.h>
#include <string.h>

#include "refusals.h"

/* Room for every mesh that the library reads. */
static double verts[3 * 20000];
static uint32_t faces[3 * 32768], work[3 * 32768];

/* A file's bytes, of any length, in memory that is not freed; null where that fails. A directory opens too: that it cannot be read shows in ferror. */
static uint8_t *read_file(const char *name, size_t *length) {
    FILE *file = fopen(name, "rb");
    uint8_t *bytes = NULL;
    size_t room = 1 << 16;
    int good = file != NULL;
    *length = 0;
    while (good && (bytes == NULL || *length == room)) {
        room *= 2;
        uint8_t *more = realloc(bytes, room);
        good = more != NULL;
        if (good) {
            bytes = more;
            *length += fread(bytes + *length, 1, room - *length, file);
            good = !ferror(file);
        }
    }
    if (!good) perror(name);
    if (file) fclose(file);
    return good ? bytes : NULL;
}

/* The line, counted from 1, for which the text is refused by 21 or 22: the first that is refused so by itself. */
static size_t bad_line(const uint8_t *text, size_t length) {
    const uint8_t *at = text, *end = text + length;
    uint32_t counts[2], values[2];
    for (size_t line = 1;; line++) {
        const uint8_t *newline = memchr(at, '\n', (size_t)(end - at));
        size_t bytes = (size_t)((newline ? newline : end) - at);
        uint32_t number = physica_read_obj(at, bytes, verts, 3, faces, 3, counts, values);
        if (number == PHYSICA_WRONG_LINE || number == PHYSICA_TOO_MANY_DIGITS || !newline) return line;
        at = newline + 1;
    }
}

static int refused(uint32_t number, const uint32_t values[2]) {
    print_refusal(stdout, number, values);
    return 1;
}

int main(int argc, char **argv) {
    if (argc != 2) {
        fprintf(stderr, "usage: read_obj FILE\n");
        return 2;
    }
    size_t length;
    uint8_t *text = read_file(argv[1], &length);
    if (!text) return 2;
    uint32_t counts[2], values[2];
    uint32_t number = physica_read_obj(text, length, verts, 3 * 20000, faces, 3 * 32768, counts, values);
    if (number == PHYSICA_WRONG_LINE || number == PHYSICA_TOO_MANY_DIGITS) printf("line %zu: ", bad_line(text, length));
    if (number != 0) return refused(number, values);
    double volume;
    number = physica_check_mesh(verts, 3 * counts[0], faces, 3 * counts[1], work, 3 * counts[1], &volume, values);
    if (number != 0) return refused(number, values);
    printf("%" PRIu32 " vertices, %" PRIu32 " faces, volume %.16e m^3\n", counts[0], counts[1], volume);
    return 0;
}
