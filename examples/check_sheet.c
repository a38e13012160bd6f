/* check_sheet FILE: checks a sheet, prints the line that `recheck` prints and, if it is accepted, each station with its row.
   Build, at the repository's root, after `sh tools/library.sh`: sh examples/build.sh
   Run: target/examples/check_sheet FILE */
#include <stdlib.h>

#include "refusals.h"

/* Reads a file's bytes, up to `most`; 0 where that fails. A directory opens too: that it cannot be read shows in ferror. */
static int read_file(const char *name, uint8_t *bytes, size_t most, size_t *length) {
    FILE *file = fopen(name, "rb");
    *length = file ? fread(bytes, 1, most, file) : 0;
    int good = file && !ferror(file);
    if (!good) perror(name);
    if (file) fclose(file);
    return good;
}

static void print_numbers(const double *numbers, int count) {
    for (int k = 0; k < count; k++) printf(",%.16e", numbers[k]);
}

/* The potential V and its gradient g are at G rho = 1; B is the magnetic field, dF the total-field anomaly. */
static void print_rows(const uint8_t *sheet, size_t length, uint32_t stations) {
    double station[3], row[8];
    puts("station,x[m],y[m],z[m],V[m^2],gx[m],gy[m],gz[m],Bx[T],By[T],Bz[T],dF[T]");
    for (uint32_t i = 0; i < stations; i++) {
        physica_sheet_station(sheet, length, i, station);
        physica_sheet_row(sheet, length, i, row);
        printf("%" PRIu32, i);
        print_numbers(station, 3);
        print_numbers(row, 8);
        puts("");
    }
}

int main(int argc, char **argv) {
    if (argc != 2) {
        fprintf(stderr, "usage: check_sheet FILE\n");
        return 2;
    }
    /* one byte more than the longest sheet, so that a longer file is not taken for it */
    size_t most = physica_sheet_length(1, 20000, 32768, 65536) + 1, length;
    uint8_t *sheet = malloc(most);
    if (!sheet) {
        perror("check_sheet");
        return 2;
    }
    if (!read_file(argv[1], sheet, most, &length)) return 2;
    uint32_t found[2], values[2];
    uint32_t number = physica_check_sheet(sheet, length, found, values);
    if (number != 0) {
        print_refusal(stdout, number, values);
    } else {
        printf("accepted %" PRIu32 " %" PRIu32 "\n", found[0], found[1]);
        print_rows(sheet, length, found[1]);
    }
    free(sheet);
    if (fflush(stdout) != 0) {
        perror("check_sheet");
        return 2;
    }
    return number != 0;
}
