/* Tests the C interface.

   usage: test [SEQUENCES [PROGRAM]]

   SEQUENCES is how many random sequences of calls are made, 100000 where it is missing. PROGRAM is the program `far`, whose text has to be that of
   drillolive_run. The last line is `the C interface: N checks passed`, and the status 0; it is 1 where a check fails. */
#define _POSIX_C_SOURCE 200809L

#include "check.h"

#include <math.h>
#include <stdio.h>
#include <stdlib.h>
#include <string.h>

static unsigned long passed, failed;

void check(bool holds, const char *what, const char *file, int line) {
    if (holds) {
        passed++;
        return;
    }
    failed++;
    if (failed <= 40) printf("FAILED %s:%d: %s\n", file, line, what);
}

const double CUBE_POINTS[24] = {-1, -1, 1, 1, -1, 1, -1, 1, 1, 1, 1, 1, -1, 1, -1, 1, 1, -1, -1, -1, -1, 1, -1, -1};
const uint32_t CUBE_SIZES[6] = {4, 4, 4, 4, 4, 4};
const uint32_t CUBE_CORNERS[24] = {0, 1, 3, 2, 2, 3, 5, 4, 4, 5, 7, 6, 6, 7, 1, 0, 1, 7, 5, 3, 6, 0, 2, 4};
const char CUBE_TEXT[] = "v -1 -1 1\nv 1 -1 1\nv -1 1 1\nv 1 1 1\nv -1 1 -1\nv 1 1 -1\nv -1 -1 -1\nv 1 -1 -1\n"
                         "f 1 2 4 3\nf 3 4 6 5\nf 5 6 8 7\nf 7 8 2 1\nf 2 8 6 4\nf 7 1 3 5\n";

drillolive_faces cube_faces(void) {
    drillolive_faces faces = {CUBE_SIZES, 6, CUBE_CORNERS, 24};
    return faces;
}

drillolive_mesh *cube(void) {
    drillolive_mesh *mesh = NULL;
    DONE(drillolive_mesh_new_doubles(CUBE_POINTS, 8, cube_faces(), &mesh));
    return mesh;
}

static uint64_t bits_of(double number) {
    uint64_t bits;
    memcpy(&bits, &number, sizeof bits);
    return bits;
}

static uint32_t bits_of_float(float number) {
    uint32_t bits;
    memcpy(&bits, &number, sizeof bits);
    return bits;
}

/* Whether the weights of each row sum to 1, but for rounding. */
static bool sums_are_one(const drillolive_table *table) {
    drillolive_table_counts counts;
    DONE(drillolive_table_count(table, &counts));
    for (size_t row = 0; row < counts.rows; row++) {
        double sum = 0;
        for (uint32_t e = drillolive_table_starts(table)[row]; e < drillolive_table_starts(table)[row + 1]; e++) sum += drillolive_table_doubles(table)[e];
        if (fabs(sum - 1) > 1e-14) return false;
    }
    return true;
}

/* Row 0 is that of point 0, as README.md has it; row 8 that of face 0, and row 14 that of the edge 0 1. */
static void check_cube_rows(const drillolive_table *table) {
    static const uint32_t controls[] = {0, 1, 2, 3, 4, 6, 7}, face[] = {0, 1, 2, 3};
    static const double shares[] = {15, 6, 6, 1, 1, 6, 1};
    const uint32_t *starts = drillolive_table_starts(table), *indices = drillolive_table_indices(table);
    const double *weights = drillolive_table_doubles(table);
    CHECK(starts[0] == 0 && starts[1] == 7 && memcmp(indices, controls, sizeof controls) == 0);
    for (int i = 0; i < 7; i++) CHECK(bits_of(weights[i]) == bits_of(shares[i] / 36));
    CHECK(bits_of(weights[1]) == UINT64_C(0x3FC5555555555555));
    CHECK(starts[9] - starts[8] == 4 && memcmp(indices + starts[8], face, sizeof face) == 0);
    for (uint32_t e = starts[8]; e < starts[9]; e++) CHECK(weights[e] == 0.25);
    CHECK(starts[15] - starts[14] == 6 && starts[26] == 152);
}

static void test_cube_table(void) {
    drillolive_mesh *mesh = cube();
    drillolive_table *table = NULL;
    drillolive_table_counts counts;
    DONE(drillolive_table_new_doubles(mesh, 1, &table));
    DONE(drillolive_table_count(table, &counts));
    CHECK(counts.controls == 8 && counts.rows == 26 && counts.entries == 152);
    check_cube_rows(table);
    CHECK(sums_are_one(table));
    CHECK(!drillolive_table_floats(table) && !drillolive_table_numerators(table) && !drillolive_table_denominators(table));
    drillolive_table_free(table);
    drillolive_mesh_free(mesh);
}

static void test_forms_of_tables(void) {
    drillolive_mesh *mesh = cube();
    drillolive_table *doubles, *floats, *exact;
    drillolive_table_counts counts;
    for (uint32_t depth = 0; depth <= 3; depth++) {
        DONE(drillolive_table_new_doubles(mesh, depth, &doubles));
        DONE(drillolive_table_new_floats(mesh, depth, &floats));
        DONE(drillolive_table_new_exact(mesh, depth, &exact));
        DONE(drillolive_table_count(exact, &counts));
        bool same = memcmp(drillolive_table_indices(doubles), drillolive_table_indices(exact), 4 * counts.entries) == 0;
        for (size_t row = 0; row < counts.rows; row++) {
            for (uint32_t e = drillolive_table_starts(exact)[row]; e < drillolive_table_starts(exact)[row + 1]; e++) {
                drillolive_wide num = drillolive_table_numerators(exact)[e], den = drillolive_table_denominators(exact)[row];
                if (num.high || den.high || den.low >> 53) continue;
                same = same && drillolive_table_doubles(doubles)[e] == (double)num.low / (double)den.low;
                same = same && fabs(drillolive_table_floats(floats)[e] - (double)num.low / (double)den.low) < 6e-8;
            }
        }
        CHECK(same && sums_are_one(doubles));
        drillolive_table_free(doubles);
        drillolive_table_free(floats);
        drillolive_table_free(exact);
    }
    drillolive_mesh_free(mesh);
}

/* The points of the cube after a step: 5/9 at its corners, as README.md has it. */
static void test_points(void) {
    drillolive_mesh *mesh = cube();
    drillolive_points *points = NULL;
    DONE(drillolive_refine_doubles(mesh, 1, &points));
    CHECK(drillolive_points_count(points) == 26);
    CHECK(bits_of(drillolive_points_doubles(points)[0]) == UINT64_C(0xBFE1C71C71C71C72));
    CHECK(bits_of(drillolive_points_doubles(points)[2]) == UINT64_C(0x3FE1C71C71C71C72));
    CHECK(drillolive_points_doubles(points)[3 * 8 + 2] == 1.0 && !drillolive_points_floats(points));
    drillolive_points_free(points);
    DONE(drillolive_refine_floats(mesh, 1, &points));
    CHECK(bits_of_float(drillolive_points_floats(points)[0]) == UINT32_C(0xBF0E38E4));
    drillolive_points_free(points);
    DONE(drillolive_refine_exact(mesh, 1, &points));
    drillolive_wide num = drillolive_points_numerators(points)[2], den = drillolive_points_denominators(points)[0];
    CHECK(9 * num.low == 5 * den.low && num.high == 0 && den.high == 0);
    CHECK(drillolive_points_numerators(points)[0].high == UINT64_MAX);
    drillolive_points_free(points);
    drillolive_mesh_free(mesh);
}

/* Sharp edges around a face of the cube: the points of these edges are their middles. */
static void test_creases(void) {
    static const uint32_t ends[] = {0, 1, 1, 3, 3, 2, 2, 0};
    static const double sharp[] = {10, INFINITY, 1e300, 11}, half[] = {0.5, 0.5, 0.5, 0x1p-60};
    drillolive_mesh *mesh = cube();
    drillolive_table *table = NULL;
    DONE(drillolive_mesh_set_creases(mesh, ends, sharp, 4));
    DONE(drillolive_table_new_doubles(mesh, 1, &table));
    const uint32_t *starts = drillolive_table_starts(table);
    int middles = 0;
    for (int row = 14; row < 26; row++) middles += starts[row + 1] - starts[row] == 2 && drillolive_table_doubles(table)[starts[row]] == 0.5;
    CHECK(middles == 4);
    drillolive_table_free(table);
    DONE(drillolive_mesh_set_creases(mesh, ends, half, 4));
    DONE(drillolive_mesh_set_creases(mesh, NULL, NULL, 0));
    CHECK(!drillolive_mesh_creases(mesh) && !drillolive_mesh_corner_tags(mesh) && !drillolive_mesh_holes(mesh));
    DONE(drillolive_mesh_set_corner_tags(mesh, ends, sharp, 2));
    DONE(drillolive_table_new_doubles(mesh, 2, &table));
    CHECK(drillolive_table_starts(table)[1] == 1 && drillolive_table_doubles(table)[0] == 1.0);
    drillolive_table_free(table);
    drillolive_mesh_free(mesh);
}

static bool are_same_tables(const drillolive_table *a, const drillolive_table *b) {
    drillolive_table_counts m, n;
    DONE(drillolive_table_count(a, &m));
    DONE(drillolive_table_count(b, &n));
    return m.controls == n.controls && m.rows == n.rows && m.entries == n.entries &&
           memcmp(drillolive_table_starts(a), drillolive_table_starts(b), 4 * (m.rows + 1)) == 0 &&
           memcmp(drillolive_table_indices(a), drillolive_table_indices(b), 4 * m.entries) == 0 &&
           memcmp(drillolive_table_doubles(a), drillolive_table_doubles(b), 8 * m.entries) == 0;
}

/* A mesh gives its tags back: a crease of 3/2, a corner of 3 and a hole. */
static void check_tags(const drillolive_mesh *mesh) {
    const drillolive_crease *crease = drillolive_mesh_creases(mesh);
    const drillolive_corner_tag *corner = drillolive_mesh_corner_tags(mesh);
    CHECK(crease->first == 0 && crease->second == 1 && 2 * crease->sharpness_num == 3 * crease->sharpness_den);
    CHECK(corner->point == 3 && corner->sharpness_num == 3 * corner->sharpness_den);
    CHECK(drillolive_mesh_holes(mesh)[0] == 2);
}

/* The same mesh by text and by arrays, with a crease, a corner and a hole. */
static void test_obj(void) {
    static const uint32_t ends[] = {0, 1}, corner = 3, hole = 2;
    static const double sharpness[] = {1.5}, at_corner[] = {3};
    char text[400];
    int length = snprintf(text, sizeof text, "%st crease 2/1/0 0 1 3/2\nt corner 1/1/0 3 3\nt hole 1/0/0 2\n", CUBE_TEXT);
    drillolive_mesh *mesh = cube(), *read = NULL;
    drillolive_table *a, *b;
    drillolive_mesh_counts counts;
    DONE(drillolive_mesh_set_creases(mesh, ends, sharpness, 1));
    DONE(drillolive_mesh_set_corner_tags(mesh, &corner, at_corner, 1));
    DONE(drillolive_mesh_set_holes(mesh, &hole, 1));
    DONE(drillolive_mesh_new_obj(text, (size_t)length, &read));
    DONE(drillolive_mesh_count(read, &counts));
    CHECK(counts.points == 8 && counts.faces == 6 && counts.corners == 24 && counts.creases == 1 && counts.corner_tags == 1 && counts.holes == 1);
    CHECK(memcmp(drillolive_mesh_corners(read), CUBE_CORNERS, sizeof CUBE_CORNERS) == 0);
    check_tags(mesh);
    check_tags(read);
    DONE(drillolive_table_new_doubles(mesh, 2, &a));
    DONE(drillolive_table_new_doubles(read, 2, &b));
    CHECK(are_same_tables(a, b));
    drillolive_table_free(a);
    drillolive_table_free(b);
    drillolive_mesh_free(mesh);
    drillolive_mesh_free(read);
    drillolive_fault fault = drillolive_mesh_new_obj("v 0 0 0\nq\n", 10, &read);
    CHECK(fault.status == DRILLOLIVE_OBJ && fault.first == 2 && !read);
}

static void test_exact_and_grid(void) {
    int64_t numerators[24];
    double third[24];
    float floats[24];
    drillolive_mesh *mesh = NULL;
    drillolive_points *points = NULL;
    uint64_t changed = 7;
    for (int i = 0; i < 24; i++) {
        numerators[i] = (int64_t)CUBE_POINTS[i];
        third[i] = CUBE_POINTS[i] / 3;
        floats[i] = (float)CUBE_POINTS[i];
    }
    DONE(drillolive_mesh_new_exact(numerators, 3, 8, cube_faces(), &mesh));
    DONE(drillolive_refine_doubles(mesh, 0, &points));
    CHECK(bits_of(drillolive_points_doubles(points)[2]) == UINT64_C(0x3FD5555555555555));
    drillolive_points_free(points);
    drillolive_mesh_free(mesh);
    DONE(drillolive_mesh_new_grid_doubles(third, 8, cube_faces(), 20, &changed, &mesh));
    CHECK(changed == 24);
    DONE(drillolive_refine_doubles(mesh, 0, &points));
    CHECK(drillolive_points_doubles(points)[2] == 349525 / 1048576.0);
    drillolive_points_free(points);
    drillolive_mesh_free(mesh);
    DONE(drillolive_mesh_new_grid_floats(floats, 8, cube_faces(), 0, NULL, &mesh));
    drillolive_mesh_free(mesh);
    DONE(drillolive_mesh_new_floats(floats, 8, cube_faces(), &mesh));
    DONE(drillolive_refine_floats(mesh, 0, &points));
    CHECK(memcmp(drillolive_points_floats(points), floats, sizeof floats) == 0);
    drillolive_points_free(points);
    drillolive_mesh_free(mesh);
}

static void test_level(void) {
    static const uint32_t hole = 4;
    drillolive_mesh *mesh = cube();
    drillolive_level *level = NULL;
    drillolive_level_counts counts;
    DONE(drillolive_mesh_set_holes(mesh, &hole, 1));
    DONE(drillolive_mesh_check(mesh));
    for (uint32_t depth = 0; depth <= 2; depth++) {
        size_t parent, children = (size_t)1 << 2 * depth;
        DONE(drillolive_level_new(mesh, depth, &level));
        DONE(drillolive_level_count(level, &counts));
        CHECK(counts.faces == 6 * children && counts.corners == 24 * children && counts.edges == 12 * children);
        CHECK(counts.points == 2 + counts.edges - counts.faces);
        bool right = true;
        for (size_t face = 0; face < counts.faces; face++) {
            DONE(drillolive_level_face_parent(level, face, &parent));
            right = right && parent == face / children && drillolive_level_holes(level)[face] == (parent == hole);
            right = right && drillolive_level_face_sizes(level)[face] == 4;
        }
        CHECK(right);
        for (size_t i = 0; i < 2 * counts.edges; i++) right = right && drillolive_level_edges(level)[i] < counts.points;
        for (size_t i = 0; i < counts.corners; i++) right = right && drillolive_level_corners(level)[i] < counts.points;
        CHECK(right);
        drillolive_level_free(level);
    }
    drillolive_mesh_free(mesh);
}

/* The parents of a mesh with a triangle, a quad and a pentagon: n * 4^(d - 1) faces of each. */
static void test_parents(void) {
    static const double points[] = {0, 0, 0, 1, 0, 0, 0, 1, 0, 1, 1, 0, 2, 0, 0, 2, 1, 0, 3, 0, 0, 4, 1, 0, 3, 2, 0};
    static const uint32_t sizes[] = {3, 3, 4, 5}, corners[] = {0, 1, 2, 2, 1, 3, 1, 4, 5, 3, 4, 6, 7, 8, 5};
    drillolive_faces faces = {sizes, 4, corners, 15};
    drillolive_mesh *mesh = NULL;
    drillolive_level *level = NULL;
    DONE(drillolive_mesh_new_doubles(points, 9, faces, &mesh));
    DONE(drillolive_level_new(mesh, 2, &level));
    size_t face = 0, parent;
    for (size_t cage = 0; cage < 4; cage++) {
        for (uint32_t child = 0; child < 4 * sizes[cage]; child++) {
            DONE(drillolive_level_face_parent(level, face++, &parent));
            CHECK(parent == cage);
        }
    }
    CHECK(drillolive_level_face_parent(level, face, &parent).status == DRILLOLIVE_RANGE);
    drillolive_level_free(level);
    drillolive_mesh_free(mesh);
}

static void test_apply(void) {
    drillolive_mesh *mesh = cube();
    drillolive_table *table = NULL;
    drillolive_points *points = NULL;
    static double controls[8 * 16], all[98 * 16], parts[98 * 16];
    DONE(drillolive_table_new_doubles(mesh, 2, &table));
    DONE(drillolive_refine_doubles(mesh, 2, &points));
    DONE(drillolive_table_apply_doubles(table, CUBE_POINTS, 8, 3, 0, 98, all));
    bool near = true;
    for (int i = 0; i < 3 * 98; i++) near = near && fabs(all[i] - drillolive_points_doubles(points)[i]) < 1e-14;
    CHECK(near);
    for (size_t n = 1; n <= 16; n++) {
        for (size_t i = 0; i < 8 * n; i++) controls[i] = CUBE_POINTS[i % n % 3 + i / n * 3];
        DONE(drillolive_table_apply_doubles(table, controls, 8, n, 0, 98, all));
        for (size_t from = 0; from < 98; from += 7) DONE(drillolive_table_apply_doubles(table, controls, 8, n, from, from + 7, parts + from * n));
        CHECK(memcmp(all, parts, 98 * n * sizeof *all) == 0);
        for (size_t row = 0; row < 98; row++) near = near && fabs(all[row * n] - drillolive_points_doubles(points)[3 * row]) < 1e-14;
        CHECK(near);
    }
    DONE(drillolive_table_apply_doubles(table, controls, 8, 3, 98, 98, NULL));
    drillolive_points_free(points);
    drillolive_table_free(table);
    drillolive_mesh_free(mesh);
}

static void test_apply_floats(void) {
    drillolive_mesh *mesh = cube();
    drillolive_table *table = NULL;
    float controls[24], out[26 * 3];
    for (int i = 0; i < 24; i++) controls[i] = (float)CUBE_POINTS[i];
    DONE(drillolive_table_new_floats(mesh, 1, &table));
    DONE(drillolive_table_apply_floats(table, controls, 8, 3, 0, 26, out));
    CHECK(fabs(out[2] - 5 / 9.0) < 1e-6 && fabs(out[3 * 8 + 2] - 1) < 1e-6);
    drillolive_table_free(table);
    drillolive_mesh_free(mesh);
}

static void test_texture(void) {
    static const double uv[] = {0, 0, 1, 0, 1, 1, 0, 1};
    static const float uv_floats[] = {0, 0, 0.5f, 0, 1, 1, 0, 1};
    uint32_t corners[24];
    drillolive_mesh_counts counts;
    drillolive_mesh *mesh = cube();
    for (uint32_t i = 0; i < 24; i++) corners[i] = i % 4;
    DONE(drillolive_mesh_set_texture_doubles(mesh, uv, 4, corners, 24));
    DONE(drillolive_mesh_set_texture_floats(mesh, uv_floats, 4, corners, 24));
    DONE(drillolive_mesh_count(mesh, &counts));
    CHECK(counts.texture_values == 4 && counts.texture_corners == 24);
    CHECK(memcmp(drillolive_mesh_texture_corners(mesh), corners, sizeof corners) == 0);
    DONE(drillolive_mesh_check(mesh));
    corners[5] = 4;
    DONE(drillolive_mesh_set_texture_doubles(mesh, uv, 4, corners, 24));
    drillolive_fault fault = drillolive_mesh_check(mesh);
    CHECK(fault.status == DRILLOLIVE_BAD_ARRAYS && fault.kind == 9 && fault.first == 5);
    drillolive_mesh_free(mesh);
}

/* A mesh without points and faces is one. */
static void test_empty(void) {
    drillolive_faces none = {NULL, 0, NULL, 0};
    drillolive_mesh *mesh = NULL;
    drillolive_table *table = NULL;
    drillolive_level *level = NULL;
    drillolive_table_counts counts;
    DONE(drillolive_mesh_new_doubles(NULL, 0, none, &mesh));
    DONE(drillolive_table_new_exact(mesh, 3, &table));
    DONE(drillolive_table_count(table, &counts));
    CHECK(counts.rows == 0 && counts.entries == 0);
    DONE(drillolive_level_new(mesh, 3, &level));
    drillolive_level_free(level);
    drillolive_table_free(table);
    drillolive_mesh_free(mesh);
}

/* A cone of 200 sides has rows so long at depth 2 that the first room for a table is too short. */
static void test_long_rows(void) {
    enum { SIDES = 200 };
    static double points[3 * (SIDES + 1)] = {1};
    static uint32_t sizes[SIDES + 1], corners[4 * SIDES];
    drillolive_mesh *mesh = NULL;
    drillolive_table *table = NULL;
    drillolive_table_counts counts;
    for (uint32_t i = 0; i < SIDES; i++) {
        points[3 * i] = i % 7;
        points[3 * i + 1] = i % 5;
        sizes[i] = 3;
        corners[3 * i] = i;
        corners[3 * i + 1] = (i + 1) % SIDES;
        corners[3 * i + 2] = SIDES;
        corners[3 * SIDES + i] = SIDES - 1 - i;
    }
    sizes[SIDES] = SIDES;
    drillolive_faces cone = {sizes, SIDES + 1, corners, 4 * SIDES};
    DONE(drillolive_mesh_new_doubles(points, SIDES + 1, cone, &mesh));
    for (uint32_t depth = 0; depth <= 2; depth++) {
        DONE(drillolive_table_new_doubles(mesh, depth, &table));
        DONE(drillolive_table_count(table, &counts));
        CHECK(sums_are_one(table) && (depth < 2 || counts.entries > 16 * 22 * SIDES));
        drillolive_table_free(table);
    }
    drillolive_mesh_free(mesh);
}

static void test_faults(void) {
    static const drillolive_fault known[] = {
        {1, 0, 0, 0}, {5, 2, 7, 0}, {6, 0, 3, 0}, {7, 0, 9, 0}, {8, 3, 1, 0}, {11, 0, 0, 0}, {17, 8, 4, 0}, {17, 18, 4, 0}, {18, 0, 5, 0},
        {18, 1, 5, 0}, {8, 16, 5, 0}, {19, 0, 0, 0}, {19, 1, 0, 0}, {20, 0, 1, 0}, {21, 0, 1, 0}, {22, 0, 1, 9}, {22, 1, 9, 8}, {22, 2, 0, 0}, {22, 3, 17, 0},
    };
    char line[200], cut[9];
    for (size_t i = 0; i < sizeof known / sizeof *known; i++) {
        size_t length = drillolive_fault_line(known[i], line, sizeof line);
        CHECK(length > 5 && strlen(line) == length && strncmp(line, "far: ", 5) == 0 && !strchr(line, '\n'));
        CHECK(drillolive_fault_line(known[i], cut, sizeof cut) == length && strlen(cut) == 8 && strncmp(cut, line, 8) == 0);
        CHECK(drillolive_fault_line(known[i], NULL, 0) == length);
        CHECK(strlen(drillolive_fault_advice(known[i])) > 10);
    }
    drillolive_fault memory = {DRILLOLIVE_MEMORY, 0, 0, 0}, none = {DRILLOLIVE_DONE, 0, 0, 0}, strange = {99, 3, 1, 2};
    drillolive_fault_line(memory, line, sizeof line);
    CHECK(strcmp(line, "far: out of memory") == 0);
    CHECK(drillolive_fault_line(none, line, sizeof line) == 0 && line[0] == 0 && drillolive_fault_advice(none)[0] == 0);
    CHECK(drillolive_fault_line(strange, line, sizeof line) > 0 && drillolive_fault_advice(strange)[0] == 0);
    CHECK(strcmp(drillolive_version(), DRILLOLIVE_VERSION) == 0);
}

static void test_run(void) {
    static const char *const levels[] = {"levels", "depth=1"}, *const unknown[] = {"refine", "depth=x"};
    drillolive_output *output = NULL;
    size_t length, text_length = strlen(CUBE_TEXT);
    DONE(drillolive_run(2, levels, CUBE_TEXT, text_length, &output));
    CHECK(drillolive_output_status(output) == 0);
    const char *text = drillolive_output_text(output, &length);
    CHECK(strncmp(text, "level 0 points 8 edges 12 faces 6 ", 34) == 0 && strlen(text) == length);
    CHECK(drillolive_output_error(output, &length)[0] == 0 && length == 0);
    drillolive_output_free(output);
    DONE(drillolive_run(2, unknown, CUBE_TEXT, text_length, &output));
    CHECK(drillolive_output_status(output) == DRILLOLIVE_USAGE && drillolive_output_text(output, NULL)[0] == 0);
    CHECK(strcmp(drillolive_output_error(output, NULL), "far: word 1 is not understood\n") == 0);
    drillolive_output_free(output);
    DONE(drillolive_run(0, NULL, NULL, 0, &output));
    CHECK(drillolive_output_status(output) == DRILLOLIVE_USAGE);
    drillolive_output_free(output);
}

/* At depth 5 the text is longer than the first room. */
static void test_long_run(void) {
    static const char *const words[] = {"refine", "depth=5"};
    drillolive_output *output = NULL;
    size_t length, lines = 0;
    DONE(drillolive_run(2, words, CUBE_TEXT, strlen(CUBE_TEXT), &output));
    const char *text = drillolive_output_text(output, &length);
    for (size_t i = 0; i < length; i++) lines += text[i] == '\n';
    CHECK(lines == 6146 + 6144 && length > 100000 && text[length - 1] == '\n' && text[length] == 0);
    drillolive_output_free(output);
}

/* Runs the program on the cube, and compares its text with that of the call. */
static void test_program(const char *program) {
    static const char *const depths[] = {"depth=0", "depth=2", "depth=5"};
    for (int i = 0; i < 3; i++) {
        const char *words[] = {"refine", depths[i], "decimals=6"};
        char command[1000];
        drillolive_output *output = NULL;
        size_t length, at = 0;
        snprintf(command, sizeof command, "printf '%s' | '%s' refine %s decimals=6", CUBE_TEXT, program, depths[i]);
        DONE(drillolive_run(3, words, CUBE_TEXT, strlen(CUBE_TEXT), &output));
        const char *text = drillolive_output_text(output, &length);
        FILE *pipe = popen(command, "r");
        bool same = pipe != NULL;
        for (int byte; same && (byte = getc(pipe)) != EOF; at++) same = at < length && text[at] == (char)byte;
        CHECK(same && at == length && length > 0 && pclose(pipe) == 0);
        drillolive_output_free(output);
    }
}

int main(int count, char **words) {
    static void (*const tests[])(void) = {
        test_cube_table, test_forms_of_tables, test_points, test_creases, test_obj, test_exact_and_grid, test_level, test_parents, test_apply,
        test_apply_floats, test_texture, test_empty, test_long_rows, test_faults, test_run, test_long_run, test_rows, test_misuse,
        test_refusals,
    };
    for (size_t i = 0; i < sizeof tests / sizeof *tests; i++) tests[i]();
    if (count > 2) test_program(words[2]);
    test_random(count > 1 ? strtoul(words[1], NULL, 10) : 100000);
    if (failed) {
        printf("the C interface: %lu checks failed\n", failed);
        return 1;
    }
    printf("the C interface: %lu checks passed\n", passed);
    return 0;
}
