/* physica.h: gravity and magnetic fields of meshes and prisms, shape models as text, result sheets and their check.

   Build the library with `sh tools/library.sh` (target/staticlib/libphysica.a, x86-64 Linux) and link it: cc program.c target/staticlib/libphysica.a
   examples/ has whole programs.

   A call that returns uint32_t, but for physica_version, returns 0 for an answer, or the number of a refusal (enum physica_refusal); calls that return
   size_t say what it is. A call tries its refusals in the order given at it, and the first that holds answers. Stations, faces and vertices are counted
   from 0; a call for a single station names it 0.

   Buffers. A parameter such as out[13] must point to at least that many numbers; `values` to two. Lists come with their length, counted in
   elements (not bytes, points or faces). A null pointer is allowed nowhere, not even with length 0. Buffers that a call writes (work, out, fields,
   nodes, weights, size, found, values, counts, numbers; verts and faces of read_obj, text of write_obj) must not overlap any other buffer of the call.
   Alignment is that of the element's type.
   Under a refusal everything is left as it was, but for `values`, for `work` where a call says so, for profile's fields and for write_sheet's out.
   `values` is written at every call that has it: the refusal's values, zeros after them, zeros after an answer.

   Numbers in are any doubles. A field may hold infinities or NaNs (at an edge, say); that is an answer and no refusal. Which of
   its bit patterns a NaN has is not promised; all else is, bit for bit, by the definitions in crates/NAME/specs.

   The calls keep nothing between them and may run in several threads. check_sheet takes up to 1.4 MB of stack, write_sheet, profile,
   polyhedron and check_mesh 0.5 MB; a thread that has less ends by a fault, so give your own threads 2 MB or more. Rounding must be to nearest, with
   subnormal numbers, as a C program starts.
*/
#ifndef PHYSICA_H
#define PHYSICA_H

#include <stddef.h>
#include <stdint.h>

#ifdef __cplusplus
extern "C" {
#endif

/* 100 * major + minor of this header's version, 0.2. */
#define PHYSICA_VERSION 2

/* The same of the library. Header and library belong together where the two are equal. */
uint32_t physica_version(void);

/* The refusals, and what stands in the front of `values`. Later versions have further numbers. examples/refusals.h has a sentence for each. */
enum physica_refusal {
    PHYSICA_MALFORMED = 1,        /* a list's length is no multiple of 3; the kind is not 1 or 2; kind 2 without two vertices and no faces */
    PHYSICA_TOO_MANY = 2,         /* a count over its limit: 20,000 vertices, 32,768 faces, 65,536 stations */
    PHYSICA_OUT_OF_LIMITS = 3,    /* a number that is not finite, or of magnitude over 1e9; for write_obj: or not whole */
    PHYSICA_NO_SUCH_VERTEX = 4,   /* a face index of no vertex. values[0]: the face */
    PHYSICA_FLIPPED = 5,          /* an edge that occurs twice, the smallest. values: from, to */
    PHYSICA_OPEN = 6,             /* an edge whose reverse does not occur, the smallest. values: from, to */
    PHYSICA_DEGENERATE = 7,       /* a face whose computed normal is zero, the first. values[0]: the face */
    PHYSICA_INVERTED = 8,         /* the computed volume is not above zero, or there are no faces */
    PHYSICA_TOO_THIN = 9,         /* a prism's side, max - min, below 1e-6 */
    PHYSICA_TOO_DEEP = 10,        /* the field would take a 33rd bisection. values[0]: the station */
    PHYSICA_TOO_MANY_EDGES = 11,  /* a 65th edge through the station. values[0]: the station */
    PHYSICA_TOO_SHORT = 12,       /* work has under 3F entries, fields under 13S numbers, out fewer bytes than the sheet; verts of read_obj has under
                                     3V numbers or faces under 3F, text of write_obj fewer bytes than what is written */
    PHYSICA_NOT_FINITE = 13,      /* the computed row of a station is not finite. values[0]: the station */
    PHYSICA_OUTSIDE_DOMAIN = 14,  /* outside the call's domain, given at the call */
    PHYSICA_TOO_MANY_ROUNDS = 15, /* Carlson's loop has not ended after 64 rounds */
    PHYSICA_WRONG_LENGTH = 16,    /* a sheet's length or its pointer is not what its counts give */
    PHYSICA_WRONG_ORDER = 17,     /* a sheet's order list is not that of its faces */
    PHYSICA_WRONG_MATE = 18,      /* a sheet's mate is not the reverse edge use */
    PHYSICA_WRONG_VOLUME = 19,    /* a sheet's volume is not, bit for bit, the computed one */
    PHYSICA_WRONG_ROW = 20,       /* a sheet's row is not, bit for bit, the computed one. values[0]: the station */
    PHYSICA_WRONG_LINE = 21,      /* a line of a shape model's text is of no form that is read, or has an index 0 */
    PHYSICA_TOO_MANY_DIGITS = 22  /* a number or an index of more than 15 digits, in a line that is else of a right form */
};

/* ---- elliptic integrals, ring, quadrature ---- */

/* Carlson's R_C(x, y): x and y finite, x >= 0; infinite at y = 0, the principal value at y < 0. Refusals: 14, 15. */
uint32_t physica_carlson_rc(double x, double y, double *out);

/* Carlson's R_F(x, y, z): finite, >= 0, at most one of them zero. Refusals: 14, 15. */
uint32_t physica_carlson_rf(double x, double y, double z, double *out);

/* Carlson's R_D(x, y, z): as R_F, and z > 0. Refusals: 14, 15. */
uint32_t physica_carlson_rd(double x, double y, double z, double *out);

/* Carlson's R_J(x, y, z, p): as R_F, and p finite; infinite at p = 0, the principal value at p < 0. Refusals: 14, 15. */
uint32_t physica_carlson_rj(double x, double y, double z, double p, double *out);

/* The complete elliptic integrals of parameter m, 0 <= m < 1. out: K(m), E(m). Refusal: 14. */
uint32_t physica_complete_elliptic(double m, double out[2]);

/* Bulirsch's cel(kc, p, a, b): all finite, p > 0. Refusal: 14. */
uint32_t physica_cel(double kc, double p, double a, double b, double *out);

/* The average of 1/r over a ring of that radius about the z axis, at (rho, z). out: the average, its derivatives by rho and by z.
   Domain: radius > 0, rho >= 0, not on the ring. Refusals: 3, 14. */
uint32_t physica_ring(double radius, double rho, double z, double out[3]);

/* The Gauss-Legendre rule of an order from 1 to 16: nodes ascending, weights; zeros after the first `order` of each. Refusal: 14. */
uint32_t physica_gauss_legendre(uint32_t order, double nodes[16], double weights[16]);

/* ---- bodies ----
   A field is 13 numbers at G rho = 1: the potential V (m^2), its gradient (m), its Hessian row by row (no unit); times G rho m^2/s^2, m/s^2, 1/s^2. V is
   the integral of 1/r over the body: V > 0, and the attraction is +gradient. Lengths are in metres.
   A mesh is verts, three coordinates to a vertex, and faces, three vertex numbers to a face, wound so that normals point outwards.
   work is lent: at least as many entries as faces has. After an answer, and after 5, 6, 7, 8 and 11, its front is the mesh's order list (edge use
   3k+j runs from corner j of face k to the next corner; all uses by from, to, number); entries past that, and all of it after any other refusal, are
   as they were. */

/* The field of the rectangular prism from min to max at a station. Near a prism whose longest side is over twice its shortest it may be the sum over
   two halves, and these over theirs: cut across the longest side, of equal ones the first of x, y, z. Sheets of kind 2 cut the last, so that where a
   piece has equal longest sides, as a square plate has, their rows may differ from this by rounding, and 10 may refuse other stations.
   Refusals: 3, 9, 10. */
uint32_t physica_prism(const double station[3], const double min[3], const double max[3], double out[13], uint32_t values[2]);

/* Is the mesh closed, wound consistently and outwards? out: its volume. Refusals: 1, 2, 12, 3, 4, 5, 6, 7, 8. */
uint32_t physica_check_mesh(const double *verts, size_t verts_len, const uint32_t *faces, size_t faces_len, uint32_t *work, size_t work_len,
                            double *out, uint32_t values[2]);

/* The field of a mesh at a station; the mesh is checked first. Refusals: 1, 2, 12, 3, 4, 5, 6, 7, 8, 11. */
uint32_t physica_polyhedron(const double station[3], const double *verts, size_t verts_len, const uint32_t *faces, size_t faces_len, uint32_t *work,
                            size_t work_len, double out[13], uint32_t values[2]);

/* The fields of a mesh at S stations, three coordinates to each; the mesh is checked once. fields, at least 13S numbers, is filled from the front with
   a record for each station, the thirteen numbers that polyhedron gives there. Refusals: 1, 2, 12, 3, 4, 5, 6, 7, 8, then 11 for the first station
   that polyhedron refuses.

      after                work                          fields
      an answer            order list, rest as it was    13S numbers, rest as they were
      1, 2, 12, 3, 4       as it was                     as they were
      5, 6, 7, 8           order list, rest as it was    as they were
      11 at station i      order list, rest as it was    13i numbers, the records before i; rest as they were

   3 is given for any station, also for one after a station that 11 would refuse. S = 0 is no refusal. */
uint32_t physica_profile(const double *stations, size_t stations_len, const double *verts, size_t verts_len, const uint32_t *faces, size_t faces_len,
                         uint32_t *work, size_t work_len, double *fields, size_t fields_len, uint32_t values[2]);

/* ---- shape models ----
   Text in a part of the Wavefront OBJ format, as bytes, without a zero at the end. A line ends at a newline (byte 10) or at the text's end. Its fields
   are separated by one or more spaces (byte 32), and by nothing else: a tab or a carriage return is a part of a field. Spaces at a line's ends count for
   nothing. The lines that are read:

      v x y z       a vertex, by three numbers: a minus or nothing, one or more digits and, optionally, a point and one or more digits
      f a b c       a face, by three vertices counted from 1, in digits alone. It may stand before the lines of its vertices
      # ..          a comment: its first field begins with #, whatever follows
                    a blank line: no field

   A number is read as its digits, a whole number, divided once by the power of ten; that is the nearest double. After a minus it is negated: -0 is minus
   zero. A number or an index has at most 15 digits; zeros in front and after the point count, sign and point do not. docs/FOR-AUTHORS.md says how
   other OBJ files are brought into this form. */

/* Reads a mesh. counts: V and F, how many lines v and f the text has. verts and faces begin with the 3V coordinates and the 3F vertex numbers, counted
   from 0, and are as they were past them; 60,000 and 98,304 entries always suffice. Refusals: 21 or 22, by the first line that has either (21 goes before
   22 in one line), 2, 12, 3, 4; values[0] of 4 is counted among the lines f. Under each refusal verts, faces and counts are as they were. A text without
   such lines, an empty one too, is no refusal. It does not check the mesh: physica_check_mesh does. */
uint32_t physica_read_obj(const uint8_t *text, size_t text_len, double *verts, size_t verts_len, uint32_t *faces, size_t faces_len, uint32_t counts[2],
                          uint32_t values[2]);

/* Writes a mesh whose coordinates are whole numbers into the front of text: the lines v, then the lines f, with single spaces, no point, no zero in
   front of another digit, and a newline after each; minus zero is -0. size: the text's length in bytes; 38 V + 20 F bytes always suffice. What is written
   is read again as the same mesh, bit for bit. Refusals: 1, 2, 3, 4, and only then 12. Under each refusal text and size are as they were; bytes of text
   past what is written never change. It does not check the mesh. */
uint32_t physica_write_obj(const double *verts, size_t verts_len, const uint32_t *faces, size_t faces_len, uint8_t *text, size_t text_len, size_t *size,
                           uint32_t values[2]);

/* ---- magnetic fields ----
   Magnetisation and field strength in A/m, fields in T. */

/* The field B of a uniformly magnetised body from the Hessian (9 numbers, row by row) of its potential, outside the body or inside, where it is
   B = mu0 (H + M) and not mu0 H. Refusal: 3. */
uint32_t physica_body(const double hessian[9], const double magnetisation[3], double out[3]);

/* The total-field anomaly |F + B| - |F|: by how much an anomaly B changes what a total-field magnetometer reads in the ambient field F. NaN where both
   are zero. Refusal: 3. */
uint32_t physica_total_field(const double ambient[3], const double anomaly[3], double *out);

/* The field at p of a sphere. Domain: radius > 0. Refusals: 3, 14. */
uint32_t physica_sphere(const double p[3], const double centre[3], double radius, const double magnetisation[3], double out[3]);

/* The field at p of an endless cylinder through a point along an axis of any length above 0. Domain: radius > 0. Refusals: 3, 14. */
uint32_t physica_cylinder(const double p[3], const double point[3], const double axis[3], double radius, const double magnetisation[3], double out[3]);

/* The demagnetising factors of an ellipsoid of semi-axes a, b, c > 0. Refusals: 3, 14, 15. */
uint32_t physica_ellipsoid_factors(double a, double b, double c, double out[3]);

/* The magnetisation of a body of susceptibility chi and demagnetising tensor n (9 numbers, row by row) in the field h0, with a remanence. Refusal: 3. */
uint32_t physica_magnetisation(double chi, const double h0[3], const double remanent[3], const double n[9], double out[3]);

/* Koenigsberger's ratio of remanent to induced magnetisation. Refusal: 3. */
uint32_t physica_koenigsberger(const double remanent[3], double chi, const double h0[3], double *out);

/* ---- sheets ----
   A sheet of V vertices, F faces and S stations has 24V + 36F + 88S + 80 bytes; docs/FOR-AUTHORS.md lists its parts. The row of a station is eight
   doubles:

      numbers   what                                unit   times G rho   sign and meaning
      0         potential V                         m^2    m^2/s^2       V > 0: the integral of 1/r over the body
      1 to 3    gradient of V                       m      m/s^2         the attraction is +gradient
      4 to 6    magnetic field B of the body        T      stays         B inside the body too: mu0 (H + M), not mu0 H
      7         total-field anomaly |F + B| - |F|   T      stays         F is the ambient field; below 0 where B weakens it

   The first four are at G rho = 1, G the gravitational constant and rho the density, which a sheet does not have. */

/* The length of a sheet in bytes, for write_sheet's out; 0 where a count is over its limit or the kind is unknown, and for a prism with other than two
   vertices and no faces. */
size_t physica_sheet_length(uint32_t kind, size_t vertices, size_t faces, size_t stations);

/* Writes the sheet of a body, kind 1 (a mesh) or kind 2 (a prism: verts are min and max, no faces), and of the stations, three coordinates to each,
   into the front of out. size: the sheet's length in bytes. Refusals: 1, 2, 12, 3, 4, then 5, 6, 7, 8 or 9, then station by station 10 or 11, 13.
   After 10, 11 and 13 the sheet's length in out is zeroed; after every other refusal out is as it was. Bytes of out past the sheet never change.
   work: as for a mesh above; after 13 too it holds the order list. With a magnetisation and an ambient field of zero every row's last number is 0/0,
   and the first station is refused by 13. Kind 2 cuts the last of equal longest sides, physica_prism the first. */
uint32_t physica_write_sheet(uint32_t kind, const double *verts, size_t verts_len, const uint32_t *faces, size_t faces_len,
                             const double magnetisation[3], const double ambient[3], const double *stations, size_t stations_len, uint32_t *work,
                             size_t work_len, uint8_t *out, size_t out_len, size_t *size, uint32_t values[2]);

/* Is every byte of the sheet what the definitions give? 0: accepted; found: the kind and S. Refusals: 16, 1, 2, 3, 4, 17, 18, then 7, 8 or 9, 19, then
   station by station 10 or 11, 13, 20. It only reads the sheet. */
uint32_t physica_check_sheet(const uint8_t *sheet, size_t sheet_len, uint32_t found[2], uint32_t values[2]);

/* What the trailer holds. counts: the kind, V, F, S; numbers: magnetisation (A/m), ambient field (T), volume (m^3). Refusals: 16, 1, 2. It does not
   check the sheet. */
uint32_t physica_sheet_trailer(const uint8_t *sheet, size_t sheet_len, uint32_t counts[4], double numbers[7]);

/* The three coordinates of station i. Returns 3, or 0 past the last station and where 16, 1 or 2 refuses the sheet; out is then as it was. It does not
   check the sheet. */
size_t physica_sheet_station(const uint8_t *sheet, size_t sheet_len, size_t i, double out[3]);

/* How many bytes the rows take: 64 S, and 0 where 16, 1 or 2 refuses the sheet. The rows are those bytes, up to the trailer: they begin at
   sheet + sheet_len - 80 - rows and each has 64 bytes, little-endian. It does not check the sheet. */
size_t physica_sheet_rows(const uint8_t *sheet, size_t sheet_len);

/* The eight numbers that row i begins with, which are all of it in kinds 1 and 2. Returns 8, or 0 past the last row and where 16, 1 or 2 refuses the
   sheet; out is then as it was. It does not check the sheet. */
size_t physica_sheet_row(const uint8_t *sheet, size_t sheet_len, size_t i, double out[8]);

#ifdef __cplusplus
}
#endif
#endif
