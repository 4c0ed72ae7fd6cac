/* The square of rule X1 (docs/SPECIFICATION.md), by every call of rusketja.h that takes a mesh or patches, the tangents of a cube, since a
 * square has none, and some entries of the tables for tangents, by the others: prints what the library gives, and returns 0 where it is
 * right.
 *
 *     (cd crates/capi && rt lib)
 *     cc -std=c99 -Wall -Wextra -Wconversion -Werror -Iinclude examples/square.c crates/capi/out/libcapi.a -o square
 *     ./square */
#include <stdio.h>

#include "rusketja.h"

static int wrong;

/* A number that was returned or written, and the one that is due. */
static void expect(const char *what, long found, long wanted)
{
    printf("%-24s %ld\n", what, found);
    if (found != wanted) {
        printf("    wanted %ld\n", wanted);
        wrong = 1;
    }
}

/* The same for a count or a place. */
static void expect_size(const char *what, size_t found, size_t wanted)
{
    expect(what, (long)found, (long)wanted);
}

/* The same in micrometres, which are exact: they can be compared. */
static void expect_micrometres(const char *what, double found, double wanted)
{
    printf("%-24s %g\n", what, found);
    if (found != wanted) {
        printf("    wanted %g\n", wanted);
        wrong = 1;
    }
}

static const int32_t positions[12] = {0, 0, 0, 21, 0, 0, 21, 21, 0, 0, 21, 0};
static const uint8_t tags[4] = {0, 0, 0, 0};
static const uint16_t indices[4] = {0, 1, 2, 3};

/* The samples with b = 1, N = 2: refused where there is a place too few, then written, and not beyond them. */
static void line(const int32_t *patches)
{
    int32_t points[10] = {7, 7, 7, 7, 7, 7, 7, 7, 7, 7};

    expect("line b = 3, N = 2", rusketja_sample_line(patches, 48, 0, 2, 3, points, 10), 14);
    expect("line b = 1, 8 places", rusketja_sample_line(patches, 48, 0, 2, 1, points, 8), 17);
    expect("x of (0,1) after it", points[0], 7);

    expect("line b = 1, N = 2", rusketja_sample_line(patches, 48, 0, 2, 1, points, 10), 0);
    expect("x of (0,1)", points[0], 0);
    expect("y of (0,1)", points[1], 2688);
    expect("z of (0,1)", points[2], 0);
    expect("x of (1,1)", points[3], 2688);
    expect("y of (1,1)", points[3 + 1], 2688);
    expect("z of (1,1)", points[3 + 2], 0);
    expect("x of (2,1)", points[3 * 2], 5376);
    expect("y of (2,1)", points[3 * 2 + 1], 2688);
    expect("z of (2,1)", points[3 * 2 + 2], 0);
    expect("line beyond 3(N + 1)", points[3 * 3], 7);
}

/* The marked sample of the square at (a, 1), N = n, with these marks. */
static uint8_t marked(const int32_t *patches, const uint8_t *exact, size_t exact_len, size_t n, size_t a, int32_t *x, uint8_t *mark)
{
    int32_t y = 0, z = 0;

    return rusketja_marked_sample(patches, 48, exact, exact_len, 0, n, a, 1, x, &y, &z, mark);
}

/* The samples with b = 1, each with its mark: refused where there is a mark too few; exact with N = 2, not with N = 5, which does not divide
 * 5376; and not where a byte is another than 1. */
static void marks(const int32_t *patches, uint8_t *exact)
{
    int32_t x = 7;
    uint8_t mark = 7;

    expect("mark of b(1,1)", exact[5], 1);
    expect("marks beyond 16F", exact[16], 7);
    expect("marked, 15 marks", marked(patches, exact, 15, 2, 1, &x, &mark), 12);
    expect("x after it", x, 7);
    expect("mark after it", mark, 7);

    expect("marked (1,1), N = 2", marked(patches, exact, 17, 2, 1, &x, &mark), 0);
    expect("x", x, 2688);
    expect("its mark", mark, 1);
    expect("marked (1,1), N = 5", marked(patches, exact, 17, 5, 1, &x, &mark), 0);
    expect("x", x, 1075);
    expect("its mark", mark, 0);
    exact[5] = 2;
    expect("marked, a byte 2", marked(patches, exact, 17, 2, 1, &x, &mark), 0);
    expect("its mark", mark, 0);
}

/* The mirror image of the square into these lists, tags_len tags among them. */
static uint8_t mirror_into(int32_t *out_positions, uint8_t *out_tags, size_t tags_len, uint16_t *out_indices)
{
    return rusketja_mirror(4, 1, positions, 12, tags, 4, indices, 4, out_positions, 12, out_tags, tags_len, out_indices, 4);
}

/* The mirror image: refused where there is room for a tag too many, then written, and one of its samples. */
static void mirror(void)
{
    int32_t image[12] = {7, 7, 7, 7, 7, 7, 7, 7, 7, 7, 7, 7}, patches[48] = {0}, x = 0, y = 0, z = 0;
    uint8_t smooth[5] = {7, 7, 7, 7, 7}, exact[16] = {0};
    uint16_t corners[4] = {7, 7, 7, 7}, twins[4] = {0};
    size_t v = 0, f = 0, e = 0, b = 0;

    expect("mirror, 5 tags", mirror_into(image, smooth, 5, corners), 16);
    expect("x of vertex 2 after it", image[3 * 2], 7);
    expect("tag of vertex 2 after it", smooth[2], 7);
    expect("corner 2 after it", corners[2], 7);

    expect("mirror", mirror_into(image, smooth, 4, corners), 0);
    expect("x of vertex 2", image[3 * 2], -21);
    expect("y of vertex 2", image[3 * 2 + 1], 21);
    expect("z of vertex 2", image[3 * 2 + 2], 0);
    expect("tag of vertex 2", smooth[2], 0);
    expect("corner 0", corners[0], 0);
    expect("corner 1", corners[1], 3);
    expect("corner 2", corners[2], 2);
    expect("corner 3", corners[3], 1);

    expect("patches of the image",
        rusketja_patches(4, 1, image, 12, smooth, 4, corners, 4, twins, 4, patches, 48, exact, 16, &v, &f, &e, &b), 0);
    expect("sample (0,1), N = 2", rusketja_sample(patches, 48, 0, 2, 0, 1, &x, &y, &z), 0);
    expect("x", x, -2688);
    expect("y", y, 0);
    expect("z", z, 0);
}

/* The cube of rule X3: no vertex is on a boundary. */
static const int32_t cube[24] = {
    -24, -24, -24, 24, -24, -24, -24, 24, -24, 24, 24, -24, -24, -24, 24, 24, -24, 24, -24, 24, 24, 24, 24, 24};
static const uint16_t cube_faces[24] = {7, 6, 4, 5, 0, 2, 3, 1, 0, 1, 5, 4, 2, 6, 7, 3, 0, 4, 6, 2, 1, 3, 7, 5};

/* The tangents: refused for the square, whose corners are on the boundary, and for a face that is not there; then those of a face of the
 * cube. */
static void tangents(void)
{
    static const uint8_t smooth[8] = {0, 0, 0, 0, 0, 0, 0, 0};
    int64_t vectors[RUSKETJA_TANGENT_VALUES] = {7};

    expect("tangents of the square", rusketja_tangents(4, 1, positions, 12, tags, 4, indices, 4, 0, vectors, 72), 18);
    expect("tangents of face 1", rusketja_tangents(4, 1, positions, 12, tags, 4, indices, 4, 1, vectors, 72), 12);
    expect("tangents, 71 places", rusketja_tangents(8, 6, cube, 24, smooth, 8, cube_faces, 24, 0, vectors, 71), 18);
    expect("x of u(0,0) after it", (long)vectors[0], 7);

    expect("tangents of the cube", rusketja_tangents(8, 6, cube, 24, smooth, 8, cube_faces, 24, 0, vectors, 72), 0);
    expect("x of u(0,0)", (long)vectors[0], -7076);
    expect("y of u(0,0)", (long)vectors[1], 3538);
    expect("z of u(0,0)", (long)vectors[2], 3538);
    expect("x of u(1,0)", (long)vectors[3 * 1], -9216);
    expect("x of v(1,0)", (long)vectors[3 * (12 + 1)], 1893);
    expect("y of v(1,0)", (long)vectors[3 * (12 + 1) + 1], -6322);
    expect("z of v(1,0)", (long)vectors[3 * (12 + 1) + 2], 7502);
}

/* Some cosines, and the weights at a vertex of four faces: thirds and twelfths. 0 where the tables have no such entry. */
static void tables(void)
{
    expect("cosine of a third", rusketja_cosine(3), -524288);
    expect("cosine of a fifth", rusketja_cosine(5), 324028);
    expect("cosine, m = 33", rusketja_cosine(33), 0);

    expect("weight of edge 0 of 4", rusketja_edge_weight(4, 0), 349525);
    expect("weight of edge 1 of 4", rusketja_edge_weight(4, 1), 0);
    expect("weight of edge 2 of 4", rusketja_edge_weight(4, 2), -349525);
    expect("weight of edge 4 of 4", rusketja_edge_weight(4, 4), 0);
    expect("weight of edge 0 of 17", rusketja_edge_weight(17, 0), 0);

    expect("weight of face 0 of 4", rusketja_face_weight(4, 0), 87381);
    expect("weight of face 1 of 4", rusketja_face_weight(4, 1), -87381);
    expect("weight of face 3 of 4", rusketja_face_weight(4, 3), 87381);
    expect("weight of face 0 of 2", rusketja_face_weight(2, 0), 0);
}

int main(void)
{
    uint16_t twins[5] = {7, 7, 7, 7, 7};
    int32_t patches[49] = {0};
    uint8_t exact[17] = {0};
    size_t v = 0, f = 0, e = 0, b = 0, first = 0;
    int32_t x = 0, y = 0, z = 0;
    double rx = 0, ry = 0, rz = 0;

    patches[48] = exact[16] = 7;
    expect("check", rusketja_check(4, 1, positions, 12, tags, 4, indices, 4, twins, 5, &v, &f, &e, &b), 0);
    expect_size("V", v, 4);
    expect_size("F", f, 1);
    expect_size("E", e, 4);
    expect_size("B", b, 4);
    expect("twin of half-edge 3", twins[3], RUSKETJA_NO_TWIN);
    expect("twins beyond 4F", twins[4], 7);

    v = f = e = b = 9;
    expect("check, V = 3", rusketja_check(3, 1, positions, 9, tags, 3, indices, 4, twins, 5, &v, &f, &e, &b), 1);
    expect_size("V after it", v, 9);
    expect("check, 3 twins", rusketja_check(4, 1, positions, 12, tags, 4, indices, 4, twins, 3, &v, &f, &e, &b), 2);

    expect("patches, 15 marks",
        rusketja_patches(4, 1, positions, 12, tags, 4, indices, 4, twins, 5, patches, 49, exact, 15, &v, &f, &e, &b), 2);
    expect("patches", rusketja_patches(4, 1, positions, 12, tags, 4, indices, 4, twins, 5, patches, 49, exact, 17, &v, &f, &e, &b), 0);
    expect_size("E", e, 4);
    expect("b(1,0) x", patches[3 * 1], 1792);
    expect("b(1,1) y", patches[3 * 5 + 1], 1792);
    expect("b(2,1) x", patches[3 * 6], 3584);
    expect("patches beyond 48F", patches[48], 7);

    expect("sample (1,1), N = 2", rusketja_sample(patches, 49, 0, 2, 1, 1, &x, &y, &z), 0);
    expect("x", x, 2688);
    expect("y", y, 2688);
    expect("z", z, 0);
    expect("sample of face 1", rusketja_sample(patches, 49, 1, 2, 1, 1, &x, &y, &z), 12);
    expect("sample, N = 33", rusketja_sample(patches, 49, 0, 33, 1, 1, &x, &y, &z), 14);
    expect("x after it", x, 2688);

    expect("reading (1,0), N = 2", rusketja_reading(patches, 49, 0, 2, 1, 0, &rx, &ry, &rz), 0);
    expect_micrometres("x in micrometres", rx, 10.5);
    expect_micrometres("y in micrometres", ry, 0);
    expect_micrometres("z in micrometres", rz, 0);

    line(patches);
    marks(patches, exact);

    first = 9;
    expect_size("corners of face 1", rusketja_face_corners(indices, 4, 1, &first), 0);
    expect_size("first corner's place", first, 9);
    expect_size("corners of face 0", rusketja_face_corners(indices, 4, 0, &first), 4);
    expect_size("first corner's place", first, 0);

    mirror();
    tangents();
    tables();
    return wrong;
}
