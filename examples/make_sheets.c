/* make_sheets FOLDER: writes the sheets of examples/sheets into FOLDER: a mesh and a prism with their stations, and damaged copies of the mesh's.
   Build, at the repository's root, after `sh tools/library.sh`: sh examples/build.sh
   Run: target/examples/make_sheets FOLDER */
#include <string.h>

#include "refusals.h"

/* Room for the longer of the two sheets, the mesh's, of 4 vertices, 4 faces and 2 stations. */
enum { MOST = 24 * 4 + 36 * 4 + 88 * 2 + 80 };

/* The tetrahedron of volume 1/6; corners counter-clockwise seen from outside. */
static const double VERTS[12] = {0, 0, 0, 1, 0, 0, 0, 1, 0, 0, 0, 1};
static const uint32_t FACES[12] = {0, 2, 1, 0, 1, 3, 0, 3, 2, 1, 2, 3};

/* A prism from its least corner to its greatest. */
static const double CORNERS[6] = {-1, -2, -3, 1, 2, 0};

static const double STATIONS[6] = {2, 0.25, 0.25, 9, -3, 4};
static const double MAGNETISATION[3] = {1, 2, -2};    /* A/m */
static const double AMBIENT[3] = {2e-5, 0, 4.5e-5};   /* T */

static int refused(uint32_t number, const uint32_t values[2]) {
    print_refusal(stdout, number, values);
    return 1;
}

static int save(const char *folder, const char *name, const uint8_t *bytes, size_t length) {
    char path[4096];
    snprintf(path, sizeof path, "%s/%s", folder, name);
    FILE *file = fopen(path, "wb");
    if (!file || fwrite(bytes, 1, length, file) != length || fclose(file) != 0) {
        perror(path);
        return 1;
    }
    return 0;
}

/* The mesh's sheet with the byte at a place changed by an exclusive or. */
static int save_changed(const char *folder, const char *name, const uint8_t *sheet, size_t length, size_t place, uint8_t change) {
    uint8_t copy[MOST];
    memcpy(copy, sheet, length);
    copy[place] ^= change;
    return save(folder, name, copy, length);
}

int main(int argc, char **argv) {
    if (argc != 2) {
        fprintf(stderr, "usage: make_sheets FOLDER\n");
        return 2;
    }
    const char *folder = argv[1];
    uint8_t mesh[MOST], prism[MOST];
    uint32_t work[12], values[2];
    size_t length, prism_length;

    uint32_t number = physica_write_sheet(1, VERTS, 12, FACES, 12, MAGNETISATION, AMBIENT, STATIONS, 6, work, 12, mesh, MOST, &length, values);
    if (number != 0) return refused(number, values);
    number = physica_write_sheet(2, CORNERS, 6, FACES, 0, MAGNETISATION, AMBIENT, STATIONS, 6, work, 0, prism, MOST, &prism_length, values);
    if (number != 0) return refused(number, values);

    size_t mates = 24 * 4 + 24 * 4, rows = length - 80 - 2 * 64, volume = length - 16;
    return save(folder, "mesh.sheet", mesh, length)
        || save(folder, "prism.sheet", prism, prism_length)
        || save(folder, "cut.sheet", mesh, length - 1)
        || save_changed(folder, "mate.sheet", mesh, length, mates, 1)
        || save_changed(folder, "volume.sheet", mesh, length, volume, 1)
        || save_changed(folder, "row.sheet", mesh, length, rows + 64, 1);
}
