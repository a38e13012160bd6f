/* body_sheet BODY STATIONS SHEET: makes the sheet of a body of triangles.
   BODY and STATIONS are text: lines `v x y z`, a point in metres, and `f a b c`, a triangle of the points with these numbers, counted from 1 and
   counter-clockwise seen from outside. examples/make_body.py makes both files.
   Build, at the repository's root, after `sh tools/library.sh`: sh examples/build.sh
   Run: target/examples/body_sheet BODY STATIONS SHEET */
#include <stdlib.h>
#include <string.h>

#include "refusals.h"

/* Room for a few more than a sheet holds, so that it is the library that refuses them. */
enum { POINTS = 65600, FACES = 32800 };

struct shape {
    double points[3 * POINTS];
    uint32_t faces[3 * FACES];
    size_t points_len, faces_len;
};

static struct shape body, stations;
static uint32_t work[3 * FACES];

static const double MAGNETISATION[3] = {1, 2, -2};   /* A/m */
static const double AMBIENT[3] = {2e-5, 0, 4.5e-5};  /* T */

/* Adds a line to the shape; 0 where it is no such line, or has no room. */
static int add_line(struct shape *shape, const char *line) {
    double *p = shape->points + shape->points_len;
    uint32_t *f = shape->faces + shape->faces_len;
    char more;
    if (shape->points_len < 3 * POINTS && sscanf(line, " v %lf %lf %lf %c", p, p + 1, p + 2, &more) == 3) {
        shape->points_len += 3;
        return 1;
    }
    if (shape->faces_len < 3 * FACES && sscanf(line, " f %9" SCNu32 " %9" SCNu32 " %9" SCNu32 " %c", f, f + 1, f + 2, &more) == 3) {
        /* the library counts from 0 */
        f[0]--;
        f[1]--;
        f[2]--;
        shape->faces_len += 3;
        return 1;
    }
    line += strspn(line, " \r\n");
    return *line == '#' || *line == 0;
}

static int read_shape(struct shape *shape, const char *name) {
    FILE *file = fopen(name, "r");
    if (!file) {
        perror(name);
        return 0;
    }
    char line[256];
    int number = 0, good = 1;
    while (good && fgets(line, sizeof line, file)) {
        good = add_line(shape, line);
        number++;
    }
    if (!good) fprintf(stderr, "%s, line %d: not `v x y z` or `f a b c`, or too many of them\n", name, number);
    if (ferror(file)) {
        perror(name);
        good = 0;
    }
    fclose(file);
    return good;
}

static int save(const char *name, const uint8_t *bytes, size_t length) {
    FILE *file = fopen(name, "wb");
    if (file && fwrite(bytes, 1, length, file) == length && fclose(file) == 0) return 1;
    perror(name);
    return 0;
}

int main(int argc, char **argv) {
    if (argc != 4) {
        fprintf(stderr, "usage: body_sheet BODY STATIONS SHEET\n");
        return 2;
    }
    if (!read_shape(&body, argv[1]) || !read_shape(&stations, argv[2])) return 2;
    /* 0 where a count is over its limit; the writer then says so */
    size_t length = physica_sheet_length(1, body.points_len / 3, body.faces_len / 3, stations.points_len / 3);
    uint8_t *sheet = malloc(length + 1);
    if (!sheet) {
        perror("body_sheet");
        return 2;
    }
    uint32_t values[2], counts[4];
    double numbers[7];
    uint32_t number = physica_write_sheet(1, body.points, body.points_len, body.faces, body.faces_len, MAGNETISATION, AMBIENT, stations.points,
                                          stations.points_len, work, body.faces_len, sheet, length, &length, values);
    if (number != 0) {
        print_refusal(stdout, number, values);
        return 1;
    }
    if (!save(argv[3], sheet, length)) return 2;
    physica_sheet_trailer(sheet, length, counts, numbers);
    printf("%" PRIu32 " vertices, %" PRIu32 " faces, %" PRIu32 " stations, volume %.16e m^3\n", counts[1], counts[2], counts[3], numbers[6]);
    free(sheet);
    return 0;
}
