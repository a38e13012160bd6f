/* refusals.h: a refusal in words, for the C programs here: the line that `recheck` prints and the sentence of docs/FOR-READERS.md. */
#ifndef REFUSALS_H
#define REFUSALS_H

#include <inttypes.h>
#include <stdio.h>

#include "physica.h"

/* # stands for a value. */
static const char *const SENTENCES[] = {
    [PHYSICA_MALFORMED] = "the kind is not 1 or 2, or a prism has other than two corners, or a list's length is no multiple of 3",
    [PHYSICA_TOO_MANY] = "too many vertices (20,000), faces (32,768) or stations (65,536)",
    [PHYSICA_OUT_OF_LIMITS] = "a number such as a coordinate, the magnetisation or the ambient field is not finite, or over 10^9; or a coordinate to be written as OBJ is not whole",
    [PHYSICA_NO_SUCH_VERTEX] = "the face # names a vertex that is not there",
    [PHYSICA_FLIPPED] = "the edge from # to # occurs twice",
    [PHYSICA_OPEN] = "the edge from # to # has no reverse",
    [PHYSICA_DEGENERATE] = "the face # has no area",
    [PHYSICA_INVERTED] = "the volume is not above zero",
    [PHYSICA_TOO_THIN] = "a side of the prism is below 10^-6, or min and max are exchanged",
    [PHYSICA_TOO_DEEP] = "the field at station # cannot be computed within the limits (32 bisections of a prism; 64 edges through a station)",
    [PHYSICA_TOO_MANY_EDGES] = "the field at station # cannot be computed within the limits (32 bisections of a prism; 64 edges through a station)",
    [PHYSICA_TOO_SHORT] = "a lent list is too short",
    [PHYSICA_NOT_FINITE] = "the computed row at station # is infinite or no number, as at an edge of the body, or where the ambient field and the body's are both zero",
    [PHYSICA_OUTSIDE_DOMAIN] = "outside the call's domain",
    [PHYSICA_TOO_MANY_ROUNDS] = "Carlson's loop has not ended after 64 rounds",
    [PHYSICA_WRONG_LENGTH] = "the length, or the pointer at the end, does not fit the counts",
    [PHYSICA_WRONG_ORDER] = "the order list is not that of the faces: it is wrong, or an edge occurs twice",
    [PHYSICA_WRONG_MATE] = "a mate is not the reverse edge: it is wrong, or the mesh is open",
    [PHYSICA_WRONG_VOLUME] = "the stored volume is not the mesh's",
    [PHYSICA_WRONG_ROW] = "the row of station # is not what the formulas give",
    [PHYSICA_WRONG_LINE] = "a line of the text is not `v` and three numbers, `f` and three indices from 1, a comment or blank",
    [PHYSICA_TOO_MANY_DIGITS] = "a number or an index of the text has more than 15 digits",
};

/* The place is the face or the station; an edge stands in the sentence alone. */
static void print_refusal(FILE *file, uint32_t number, const uint32_t values[2]) {
    int edge = number == PHYSICA_FLIPPED || number == PHYSICA_OPEN;
    const char *c = number < sizeof SENTENCES / sizeof *SENTENCES ? SENTENCES[number] : "a refusal of a newer version";
    fprintf(file, "refused %" PRIu32 " %" PRIu32 ": ", number, edge ? 0 : values[0]);
    for (; *c; c++) {
        if (*c == '#') fprintf(file, "%" PRIu32, *values++);
        else fputc(*c, file);
    }
    fputc('\n', file);
}

#endif
