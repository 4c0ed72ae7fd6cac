/* Rusketja: the calls of the library for C and C++.
 *
 * Link with crates/capi/out/libcapi.a, which `rt lib` writes in crates/capi (x86-64 Linux); it needs memcpy and memset of the C
 * library and nothing else. examples/square.c makes every call. The contracts are in crates/capi/src, and every call meets its
 * contract for every input; what C itself must keep to is this:
 *
 * - A list is passed as a pointer to its first element and its length, which counts elements. The pointer is not null and is
 *   aligned, also where the length is 0, and that many elements may be read (and written, where it is not const).
 * - A pointer to a single number (a count, a coordinate, a place, a mark) is not null and is aligned, and the number may be read and written,
 *   also where the call leaves it alone.
 * - No two things that a call is handed overlap, where the call writes one of them.
 *
 * Nothing else is asked: sizes, numbers and lengths that do not fit are refused.
 *
 * State: none. A call keeps nothing between calls, allocates nothing and has no data of its own that is written; it may be made again
 * before another has returned, and from several threads at once, as long as none writes a list or a number that another is handed.
 *
 * Stack: have 64 KiB free. Found by how much of a painted stack the calls wrote over, with the archive of this version, on closed
 * and open meshes of 16 to 256 faces, all of which took the same. rusketja_patches takes fewer than 41,600 bytes,
 * rusketja_tangents fewer than 26,000, rusketja_mirror fewer than 6,600, rusketja_check fewer than 4,500, rusketja_edge_weight and
 * rusketja_face_weight fewer than 1,000, the others fewer than 256; no call recurses. The arrays in crates/mesh/src,
 * crates/patch/src and crates/tangent/src make up nearly all of it.
 *
 * Lengths, for V vertices, F faces and n steps:
 *
 *     positions  3V      x, y, z of vertex p at 3p, 3p + 1, 3p + 2, in micrometres, from -1048576 to 1048576
 *     tags        V      0 smooth, 1 corner (boundary vertices only)
 *     indices    4F      the vertices of face f at 4f to 4f + 3, counterclockwise
 *     twins      4F      at least; place 4f + s is that of the half-edge from corner s of face f to the next corner
 *     patches   48F      at least; coordinate k of control point i + 4j of face f at 48f + 3(i + 4j) + k, in 1/256 micrometre
 *     exact     16F      at least; the mark of control point i + 4j of face f at 16f + i + 4j: 1 where rounding left nothing, else 0
 *     line     3(n + 1)  at least; x, y, z of the sample at (a, b), for one b, at 3a, 3a + 1, 3a + 2, in 1/256 micrometre
 *     tangents   72      x, y, z of u(i, j) from 3(i + 3j) on, of v(i, j) from 3(12 + i + 4j) on, in 1/256 micrometre
 *
 * out_positions, out_tags and out_indices, the lists of a mesh that is written, are exactly as long as positions, tags and indices.
 *
 * Names, with those of the user's document: half-edge (side), twin (mate), boundary (rim), control value (patch number). Rules are
 * those of docs/SPECIFICATION.md.
 *
 * A call that returns uint8_t returns 0, or the number of the first cause of refusal that is met, in this order; the others refuse
 * nothing:
 *
 *      1  V is not from 4 to 512, F is not from 1 to 256, or positions, tags or indices has another length than 3V, V, 4F
 *      2  twins is shorter than 4F, or, where the call writes them, patches than 48F or exact than 16F
 *      3  a coordinate is not from -1048576 to 1048576
 *      4  a tag is above 1
 *      5  a face names a vertex of V or above
 *      6  a face names a vertex twice
 *      7  a half-edge occurs twice: two faces run from one vertex to another the same way round
 *      8  a vertex is in no face
 *      9  the corners at a vertex form neither one closed turn nor one chain
 *     10  an inner vertex has fewer than 3 or more than 16 faces, or a boundary vertex more than 8
 *     11  an inner vertex is tagged 1
 *     12  patches is shorter than 48f + 48, or exact, where the call takes it, than 16f + 16; for tangents, face g is F or above
 *     13  a control value of face f is beyond 268435456 either way
 *     14  n is not from 1 to 32, or a or b is above n (a where the call is passed one)
 *     16  out_positions has another length than positions, out_tags than tags, or out_indices than indices
 *     17  line is shorter than 3(n + 1)
 *     18  a corner of face g is on the boundary, or tangents has not exactly 72 places
 *
 * 15 belongs to files alone (docs/REFUSALS.md): no call here returns it.
 */
#ifndef RUSKETJA_H
#define RUSKETJA_H

#include <stddef.h>
#include <stdint.h>

#ifdef __cplusplus
extern "C" {
#endif

/* The version of these calls: a landing raises it by 1 where a prototype changes, and leaves it where calls are only added. From 1 to 2,
 * rusketja_patches was given the list exact. */
#define RUSKETJA_VERSION 2

/* The twin of a boundary half-edge, which has none. */
#define RUSKETJA_NO_TWIN 65535

/* The control values of one face. */
#define RUSKETJA_PATCH_VALUES 48

/* The marks of one face, one for each control point. */
#define RUSKETJA_PATCH_MARKS 16

/* The numbers of the tangent vectors of one face: 24 vectors of three coordinates. */
#define RUSKETJA_TANGENT_VALUES 72

/* The check of a whole mesh of v vertices and f faces.
 *
 * Returns: 0 for an accepted mesh, or the number of the refusal.
 * Writes: accepted, the twin of each half-edge into the first 4f places of twins, RUSKETJA_NO_TWIN for a boundary half-edge, and
 *     the counts: *vertices (V), *faces (F), *edges (E: pairs of vertices joined by a half-edge) and *boundary (B: boundary
 *     half-edges), so that 4F + B = 2E. After a refusal from 8 to 11, RUSKETJA_NO_TWIN into the first 4f places of twins.
 * Leaves alone: twins from place 4f on; all of twins after a refusal from 1 to 7; the four counts after a refusal.
 * Refuses: 1 to 11, in this order.
 * Lengths: positions 3v, tags v, indices 4f; twins 4f or more. */
uint8_t rusketja_check(
    size_t v,
    size_t f,
    const int32_t *positions, size_t positions_len,
    const uint8_t *tags, size_t tags_len,
    const uint16_t *indices, size_t indices_len,
    uint16_t *twins, size_t twins_len,
    size_t *vertices,
    size_t *faces,
    size_t *edges,
    size_t *boundary);

/* The bicubic patches of a mesh of v vertices and f faces, which is checked first.
 *
 * Returns: 0 for an accepted mesh, or the number of the refusal.
 * Writes: accepted, the patch of each face g into places 48g to 48g + 47 of patches, and its marks into places 16g to 16g + 15 of exact:
 *     for control point i + 4j the byte 1 where rounding left nothing in x, y and z, else 0; twins and the four counts as
 *     rusketja_check does.
 * Leaves alone: patches from place 48f on, and exact from place 16f on; all of both after a refusal; twins and the four counts as
 *     rusketja_check does.
 * Refuses: 1 to 11, in this order; 2 also where patches is shorter than 48f, or exact than 16f.
 * Lengths: positions 3v, tags v, indices 4f; twins 4f or more, patches 48f or more, exact 16f or more.
 * Units: positions in micrometres, patches in 1/256 micrometre, each rounded once to the nearest, halves to the even one. */
uint8_t rusketja_patches(
    size_t v,
    size_t f,
    const int32_t *positions, size_t positions_len,
    const uint8_t *tags, size_t tags_len,
    const uint16_t *indices, size_t indices_len,
    uint16_t *twins, size_t twins_len,
    int32_t *patches, size_t patches_len,
    uint8_t *exact, size_t exact_len,
    size_t *vertices,
    size_t *faces,
    size_t *edges,
    size_t *boundary);

/* The sample of face f at (a, b) of n by n steps (n is the N of rule S1): the point of the patch at u = a/n, v = b/n.
 *
 * Returns: 0, or the number of the refusal.
 * Writes: the sample into *x, *y and *z.
 * Leaves alone: *x, *y and *z after a refusal.
 * Refuses: 12, 13, 14, in this order.
 * Lengths: patches 48f + 48 or more, of which the 48 numbers from place 48f on are read.
 * Units: patches and sample in 1/256 micrometre; each coordinate is rounded once to the nearest, halves to the even one. */
uint8_t rusketja_sample(
    const int32_t *patches, size_t patches_len,
    size_t f,
    size_t n,
    size_t a,
    size_t b,
    int32_t *x,
    int32_t *y,
    int32_t *z);

/* The sample of face f at (a, b) of n by n steps, and whether it is exact. Where one call of rusketja_patches wrote both lists, and
 * nothing has been written to them since, a sample marked 1 is a point of the exact surface itself, and not only near it (rule C12).
 *
 * Returns: 0, or the number of the refusal.
 * Writes: the sample into *x, *y and *z, as rusketja_sample does; its mark into *mark: 1 where the sixteen marks of face f are all 1 and
 *     the sample's own rounding left nothing in x, y and z, else 0.
 * Leaves alone: *x, *y, *z and *mark after a refusal.
 * Refuses: 12, 13, 14, in this order; 12 also where exact is shorter than 16f + 16.
 * Lengths: patches as rusketja_sample; exact 16f + 16 or more, of which the 16 bytes from place 16f on are read.
 * Units: as rusketja_sample. */
uint8_t rusketja_marked_sample(
    const int32_t *patches, size_t patches_len,
    const uint8_t *exact, size_t exact_len,
    size_t f,
    size_t n,
    size_t a,
    size_t b,
    int32_t *x,
    int32_t *y,
    int32_t *z,
    uint8_t *mark);

/* The sample of face f at (a, b) of n by n steps, in micrometres.
 *
 * Returns: 0, or the number of the refusal.
 * Writes: three doubles into *x, *y and *z, each exactly the coordinate of the sample over 256.
 * Leaves alone: *x, *y and *z after a refusal.
 * Refuses: 12, 13, 14, in this order.
 * Lengths: as rusketja_sample.
 * Units: patches in 1/256 micrometre, reading in micrometres. */
uint8_t rusketja_reading(
    const int32_t *patches, size_t patches_len,
    size_t f,
    size_t n,
    size_t a,
    size_t b,
    double *x,
    double *y,
    double *z);

/* All samples of face f with one b of n by n steps: a line of n + 1 points of the patch at v = b/n, a rising from 0 to n.
 *
 * Returns: 0 where the line is written, or the number of the refusal.
 * Writes: for each a, the sample at (a, b) into places 3a, 3a + 1 and 3a + 2 of line: x, y and z, each the very number that
 *     rusketja_sample gives there.
 * Leaves alone: line from place 3(n + 1) on; all of line after a refusal.
 * Refuses: 12, 13, 14, 17, in this order.
 * Lengths: patches as rusketja_sample; line 3(n + 1) or more, for which 99 always do.
 * Units: as rusketja_sample. */
uint8_t rusketja_sample_line(
    const int32_t *patches, size_t patches_len,
    size_t f,
    size_t n,
    size_t b,
    int32_t *line, size_t line_len);

/* The mirror image of a mesh of v vertices and f faces, which is checked first: the last of the other foot. The image is accepted
 * too, with the same four counts, and its sample of a face at (b, a) is that of the mesh at (a, b) with the sign of x changed.
 *
 * Returns: 0 where the image is written, or the number of the refusal.
 * Writes: the positions into out_positions, x with its sign changed, y and z as they are; the tags into out_tags; each face g into
 *     places 4g to 4g + 3 of out_indices, from its first corner the other way round: corners 0, 3, 2, 1.
 * Leaves alone: all of out_positions, out_tags and out_indices after a refusal.
 * Refuses: 1, 3 to 11, 16, in this order; never 2, since no list of twins is lent.
 * Lengths: positions 3v, tags v, indices 4f; out_positions 3v, out_tags v, out_indices 4f, no more.
 * Units: positions and out_positions in micrometres. */
uint8_t rusketja_mirror(
    size_t v,
    size_t f,
    const int32_t *positions, size_t positions_len,
    const uint8_t *tags, size_t tags_len,
    const uint16_t *indices, size_t indices_len,
    int32_t *out_positions, size_t out_positions_len,
    uint8_t *out_tags, size_t out_tags_len,
    uint16_t *out_indices, size_t out_indices_len);

/* The tangent vectors of face g of a mesh of v vertices and f faces, which is checked first: the control vectors of two Bezier patches,
 * 3 by 4 for u and 4 by 3 for v, which stand in for the derivatives of the patch along u and along v where the surface is shaded. How
 * near those of two faces come to one tangent plane along their common edge is rule D10.
 *
 * Returns: 0 where the vectors are written, or the number of the refusal.
 * Writes: all of tangents. u(i, j), i from 0 to 2 and j from 0 to 3, is vector i + 3j; v(i, j), i from 0 to 3 and j from 0 to 2, is
 *     vector 12 + i + 4j; x, y and z of vector m go into places 3m, 3m + 1 and 3m + 2.
 * Leaves alone: all of tangents after a refusal.
 * Refuses: 1, 3 to 12, 18, in this order; never 2, since no list of twins is lent.
 * Lengths: positions 3v, tags v, indices 4f; tangents RUSKETJA_TANGENT_VALUES, no more.
 * Units: positions in micrometres, tangents in 1/256 micrometre, each rounded once to the nearest, halves to the even one. */
uint8_t rusketja_tangents(
    size_t v,
    size_t f,
    const int32_t *positions, size_t positions_len,
    const uint8_t *tags, size_t tags_len,
    const uint16_t *indices, size_t indices_len,
    size_t g,
    int64_t *tangents, size_t tangents_len);

/* The corners of face f, as a part of indices.
 *
 * Returns: the number of corners: 4, or 0 where 4f + 4 is above the length of indices.
 * Writes: the place of the first corner, 4f, into *first; the corners are indices[*first] to indices[*first + 3].
 * Leaves alone: *first where it returns 0.
 * Refuses: nothing.
 * Lengths: indices of any length. */
size_t rusketja_face_corners(
    const uint16_t *indices, size_t indices_len,
    size_t f,
    size_t *first);

/* The cosine of an m-th of the full turn, 2 pi / m, as a whole number: of all whole numbers the nearest to 1048576 times it.
 *
 * Returns: that number, from -524288 (m = 3) to 1028428 (m = 32); 0 where m is below 3 or above 32, and for m = 4, whose cosine is 0.
 * Writes: nothing.
 * Refuses: nothing.
 * Units: 1/2^20, so that 1048576 stands for the cosine 1. */
int32_t rusketja_cosine(size_t m);

/* The weight of an edge in the tangent at an inner vertex of n faces. Number the n edges of the vertex around it, beginning with the
 * one that the tangent runs along, 0: this is the weight of the far end of edge i (A of rule D4).
 *
 * Returns: the weight, from i = 1 on the same for i and n - i; 0 where n is below 3 or above 16, or i is n or above.
 * Writes: nothing.
 * Refuses: nothing.
 * Units: 1/2^20. Each weight is within one unit of the exact one, equation (2) of [LS] (tested for all of them, not proved). */
int32_t rusketja_edge_weight(size_t n, size_t i);

/* The weight of a face in the same tangent: of the vertex across the face that lies between edges i and i + 1, and for i = n - 1
 * between the last edge and edge 0 (B of rule D4).
 *
 * Returns: the weight, the same for i and n - 1 - i; 0 where n is below 3 or above 16, or i is n or above.
 * Writes: nothing.
 * Refuses: nothing.
 * Units: as rusketja_edge_weight. */
int32_t rusketja_face_weight(size_t n, size_t i);

#ifdef __cplusplus
}
#endif

#endif
