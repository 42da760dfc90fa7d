/* Tests the rows of limit points, patches and texture, exact sums, stored tables, origins, sparse levels, sessions and lists of faults. */
#include "check.h"

#include <math.h>
#include <stdio.h>
#include <stdlib.h>
#include <string.h>

static bool same_bits(const double *a, const double *b, size_t count) {
    return memcmp(a, b, count * sizeof *a) == 0;
}

/* A flat grid of 5 by 5 quads over 6 by 6 points, whose middle face is 12. */
static drillolive_mesh *flat_grid(void) {
    static double points[108];
    static uint32_t sizes[25], corners[100];
    drillolive_mesh *mesh = NULL;
    for (int i = 0; i < 36; i++) points[3 * i] = i % 6, points[3 * i + 1] = i / 6, points[3 * i + 2] = 0;
    for (uint32_t f = 0; f < 25; f++) {
        uint32_t corner = 6 * (f / 5) + f % 5, around[] = {corner, corner + 1, corner + 7, corner + 6};
        sizes[f] = 4;
        memcpy(corners + 4 * f, around, sizeof around);
    }
    drillolive_faces faces = {sizes, 25, corners, 100};
    DONE(drillolive_mesh_new_doubles(points, 36, faces, &mesh));
    return mesh;
}

/* A further step leaves the limit points of the points that there were before as they are. */
static void test_limit(void) {
    drillolive_mesh *mesh = cube();
    drillolive_points *first, *third;
    drillolive_table *table;
    drillolive_table_counts counts;
    double applied[78];
    DONE(drillolive_points_new_limit(mesh, 1, DRILLOLIVE_DOUBLES, &first));
    DONE(drillolive_points_new_limit(mesh, 3, DRILLOLIVE_DOUBLES, &third));
    CHECK(drillolive_points_count(first) == 26 && drillolive_points_components(first) == 3);
    CHECK(same_bits(drillolive_points_doubles(first), drillolive_points_doubles(third), 78));
    DONE(drillolive_table_new_limit(mesh, 1, DRILLOLIVE_DOUBLES, &table));
    DONE(drillolive_table_count(table, &counts));
    CHECK(counts.rows == 26 && counts.controls == 8);
    DONE(drillolive_table_apply_doubles(table, CUBE_POINTS, 8, 3, 0, 26, applied));
    bool near = true;
    for (int i = 0; i < 78; i++) near = near && fabs(applied[i] - drillolive_points_doubles(first)[i]) < 1e-14;
    CHECK(near);
    drillolive_points_free(first);
    drillolive_points_free(third);
    drillolive_table_free(table);
    CHECK(drillolive_points_new_limit(mesh, 0, DRILLOLIVE_EXACT, &first).status == DRILLOLIVE_BAD_ARGUMENT && !first);
    drillolive_mesh_free(mesh);
}

static void test_patch(void) {
    drillolive_mesh *mesh = flat_grid();
    drillolive_points *points = NULL;
    drillolive_table *table = NULL;
    drillolive_table_counts counts;
    DONE(drillolive_points_new_patch(mesh, 0, 12, 4, DRILLOLIVE_DOUBLES, &points));
    CHECK(drillolive_points_count(points) == 25);
    bool right = true;
    for (int k = 0; k < 25; k++) {
        const double *point = drillolive_points_doubles(points) + 3 * k;
        right = right && point[0] == 2 + k % 5 / 4.0 && point[1] == 2 + k / 5 / 4.0 && point[2] == 0;
    }
    CHECK(right);
    drillolive_points_free(points);
    DONE(drillolive_table_new_patch(mesh, 0, 12, 2, DRILLOLIVE_FLOATS, &table));
    DONE(drillolive_table_count(table, &counts));
    CHECK(counts.rows == 9 && counts.controls == 36 && drillolive_table_floats(table)[0] == 1 / 36.0f);
    drillolive_table_free(table);
    drillolive_fault fault = drillolive_points_new_patch(mesh, 0, 25, 4, DRILLOLIVE_DOUBLES, &points);
    CHECK(fault.status == DRILLOLIVE_PLACE && fault.kind == 0 && fault.first == 25 && !points);
    fault = drillolive_points_new_patch(mesh, 0, 0, 4, DRILLOLIVE_DOUBLES, &points);
    CHECK(fault.status == DRILLOLIVE_PLACE && fault.kind == 1 && fault.first == 0);
    CHECK(drillolive_points_new_patch(mesh, 0, 12, 0, DRILLOLIVE_DOUBLES, &points).status == DRILLOLIVE_BAD_ARGUMENT);
    CHECK(drillolive_points_new_patch(mesh, 0, 12, 65, DRILLOLIVE_DOUBLES, &points).status == DRILLOLIVE_BAD_ARGUMENT);
    drillolive_mesh_free(mesh);
}

/* Each face of the cube has the whole texture, so that each edge is a seam: the cut mesh has a point for each corner. */
static void test_texture_rows(void) {
    static const double uv[] = {0, 0, 1, 0, 1, 1, 0, 1};
    uint32_t corners[24];
    drillolive_mesh *mesh = cube();
    drillolive_points *values = NULL, *points = NULL;
    drillolive_table *table = NULL;
    drillolive_level *level = NULL;
    drillolive_level_counts counts;
    CHECK(drillolive_table_new_texture(mesh, 1, DRILLOLIVE_SEAMS_SMOOTH, DRILLOLIVE_EXACT, &table).status == DRILLOLIVE_BAD_ARGUMENT && !table);
    for (uint32_t i = 0; i < 24; i++) corners[i] = i % 4;
    DONE(drillolive_mesh_set_texture_doubles(mesh, uv, 4, corners, 24));
    for (int seams = DRILLOLIVE_SEAMS_SMOOTH; seams <= DRILLOLIVE_SEAMS_LINEAR; seams++) {
        DONE(drillolive_points_new_texture(mesh, 0, (enum drillolive_seams)seams, DRILLOLIVE_DOUBLES, &values));
        DONE(drillolive_points_new_texture(mesh, 2, (enum drillolive_seams)seams, DRILLOLIVE_DOUBLES, &points));
        DONE(drillolive_table_new_texture(mesh, 2, (enum drillolive_seams)seams, DRILLOLIVE_DOUBLES, &table));
        DONE(drillolive_level_new_texture(mesh, 2, (enum drillolive_seams)seams, &level));
        DONE(drillolive_level_count(level, &counts));
        CHECK(drillolive_points_count(values) == 24 && drillolive_points_components(values) == 2);
        CHECK(counts.faces == 96 && counts.points == 150 && drillolive_points_count(points) == 150);
        double *out = malloc(300 * sizeof *out);
        DONE(drillolive_table_apply_doubles(table, drillolive_points_doubles(values), 24, 2, 0, 150, out));
        bool near = out != NULL;
        for (int i = 0; i < 300 && near; i++) near = fabs(out[i] - drillolive_points_doubles(points)[i]) < 1e-15;
        CHECK(near && drillolive_level_corners(level)[0] == 0);
        CHECK((drillolive_points_doubles(points)[0] == drillolive_points_doubles(values)[0]) == (seams != DRILLOLIVE_SEAMS_SMOOTH));
        free(out);
        drillolive_points_free(values);
        drillolive_points_free(points);
        drillolive_table_free(table);
        drillolive_level_free(level);
    }
    CHECK(drillolive_level_new_texture(mesh, 0, (enum drillolive_seams)4, &level).status == DRILLOLIVE_BAD_ARGUMENT && !level);
    drillolive_mesh_free(mesh);
}

/* Exact sums over the points of the cube, whose common denominator is 1, are the numerators of its refined points. */
static void test_exact_sums(void) {
    drillolive_mesh *mesh = cube();
    drillolive_table *table = NULL;
    drillolive_points *points = NULL;
    drillolive_wide controls[24], all[294], parts[294];
    double rounded[294];
    for (int i = 0; i < 24; i++) controls[i] = (drillolive_wide){(uint64_t)(int64_t)CUBE_POINTS[i], CUBE_POINTS[i] < 0 ? UINT64_MAX : 0};
    DONE(drillolive_table_new_exact(mesh, 2, &table));
    DONE(drillolive_refine_exact(mesh, 2, &points));
    DONE(drillolive_table_apply_exact(table, controls, 8, 3, 0, 98, all));
    CHECK(memcmp(all, drillolive_points_numerators(points), sizeof all) == 0);
    for (size_t from = 0; from < 98; from += 7) DONE(drillolive_table_apply_exact(table, controls, 8, 3, from, from + 7, parts + 3 * from));
    CHECK(memcmp(all, parts, sizeof all) == 0);
    drillolive_fractions fractions = {all, 294, drillolive_points_denominators(points), 3, {1, 0}};
    DONE(drillolive_nearest_doubles(fractions, rounded));
    drillolive_points_free(points);
    DONE(drillolive_refine_doubles(mesh, 2, &points));
    CHECK(same_bits(rounded, drillolive_points_doubles(points), 294));
    controls[5] = (drillolive_wide){0, UINT64_C(1) << 62};
    drillolive_fault fault = drillolive_table_apply_exact(table, controls, 8, 3, 0, 98, all);
    CHECK(fault.status == DRILLOLIVE_OVERFLOW && fault.first < 98);
    drillolive_points_free(points);
    drillolive_table_free(table);
    drillolive_mesh_free(mesh);
}

static void test_nearest(void) {
    static const drillolive_wide numerators[] = {{1, 0}, {2, 0}, {UINT64_MAX, UINT64_MAX}, {0, 0}}, denominators[] = {{3, 0}, {1, 0}, {0, 0}};
    double doubles[4] = {7, 7, 7, 7};
    float floats[4];
    drillolive_fractions fractions = {numerators, 4, denominators, 2, {1, 0}};
    DONE(drillolive_nearest_doubles(fractions, doubles));
    CHECK(doubles[0] == 1 / 3.0 && doubles[1] == 2 / 3.0 && doubles[2] == -1 && doubles[3] == 0 && !signbit(doubles[3]));
    DONE(drillolive_nearest_floats(fractions, floats));
    CHECK(floats[0] == 1 / 3.0f && floats[2] == -1);
    fractions.denominators = denominators + 1;
    drillolive_fault fault = drillolive_nearest_doubles(fractions, doubles);
    CHECK(fault.status == DRILLOLIVE_BAD_ARRAYS && fault.kind == 18 && fault.first == 1 && doubles[0] == 1 / 3.0);
    fractions.per = 0;
    CHECK(drillolive_nearest_doubles(fractions, doubles).status == DRILLOLIVE_RANGE);
}

static bool are_same_exact(const drillolive_table *a, const drillolive_table *b) {
    drillolive_table_counts m, n;
    DONE(drillolive_table_count(a, &m));
    DONE(drillolive_table_count(b, &n));
    return m.controls == n.controls && m.rows == n.rows && m.entries == n.entries &&
           memcmp(drillolive_table_starts(a), drillolive_table_starts(b), 4 * (m.rows + 1)) == 0 &&
           memcmp(drillolive_table_indices(a), drillolive_table_indices(b), 4 * m.entries) == 0 &&
           memcmp(drillolive_table_numerators(a), drillolive_table_numerators(b), 16 * m.entries) == 0 &&
           memcmp(drillolive_table_denominators(a), drillolive_table_denominators(b), 16 * m.rows) == 0;
}

/* A table written and read is the same, and its text is that of the command `stencils`. */
static void test_stored(void) {
    static const char *const words[] = {"stencils", "depth=2"};
    drillolive_mesh *mesh = cube();
    drillolive_table *table = NULL, *read = NULL;
    drillolive_output *written = NULL, *run = NULL;
    size_t length, run_length, used = 0;
    DONE(drillolive_table_new_exact(mesh, 2, &table));
    DONE(drillolive_table_write(table, &written));
    DONE(drillolive_run(2, words, CUBE_TEXT, strlen(CUBE_TEXT), &run));
    const char *text = drillolive_output_text(written, &length), *of_run = drillolive_output_text(run, &run_length);
    CHECK(length == run_length && memcmp(text, of_run, length) == 0 && drillolive_output_status(written) == 0);
    DONE(drillolive_table_new_stored(text, length, &used, &read));
    CHECK(used == length && are_same_exact(table, read));
    DONE(drillolive_table_check(mesh, 2, text, length));
    CHECK(drillolive_table_check(mesh, 1, text, length).status == DRILLOLIVE_DIFFERS);
    drillolive_fault fault = drillolive_table_check(mesh, 2, text, length - 1);
    CHECK(fault.status == DRILLOLIVE_TABLE && fault.first == 99);
    drillolive_table_free(read);
    fault = drillolive_table_new_stored(text, length / 2, &used, &read);
    CHECK(fault.status == DRILLOLIVE_TABLE && !read);
    CHECK(drillolive_table_new_stored("table", 5, &used, &read).status == DRILLOLIVE_TABLE);
    drillolive_output_free(written);
    drillolive_output_free(run);
    drillolive_table_free(table);
    drillolive_mesh_free(mesh);
}

/* A cube at depth 2: 8 points on points, 3 on each of 12 edges, 9 in each of 6 faces. */
static void test_origins(void) {
    drillolive_mesh *mesh = cube();
    drillolive_origins *origins = NULL;
    size_t kinds[3] = {0, 0, 0}, of_edges[12] = {0}, of_faces[6] = {0};
    DONE(drillolive_origins_new(mesh, 2, &origins));
    CHECK(drillolive_origins_points(origins) == 98 && drillolive_origins_faces(origins) == 96);
    for (size_t i = 0; i < 98; i++) {
        uint8_t kind = drillolive_origins_kinds(origins)[i];
        uint32_t number = drillolive_origins_numbers(origins)[i];
        CHECK(kind <= DRILLOLIVE_ON_FACE && number < (kind == DRILLOLIVE_ON_POINT ? 8u : kind == DRILLOLIVE_ON_EDGE ? 12u : 6u));
        kinds[kind]++;
        if (kind == DRILLOLIVE_ON_EDGE) of_edges[number]++;
        if (kind == DRILLOLIVE_ON_FACE) of_faces[number]++;
        if (kind == DRILLOLIVE_ON_POINT) CHECK(number == i);
    }
    CHECK(kinds[0] == 8 && kinds[1] == 36 && kinds[2] == 54);
    for (int i = 0; i < 12; i++) CHECK(of_edges[i] == 3);
    for (int i = 0; i < 6; i++) CHECK(of_faces[i] == 9);
    for (size_t f = 0; f < 96; f++) CHECK(drillolive_origins_face_parents(origins)[f] == f / 16);
    drillolive_origins_free(origins);
    drillolive_mesh_free(mesh);
}

/* Where all faces are selected the sparse levels are the uniform ones. */
static void test_sparse(void) {
    drillolive_mesh *mesh = cube();
    drillolive_sparse *all = NULL, *features = NULL;
    drillolive_points *points = NULL;
    drillolive_sparse_counts counts, fewer;
    DONE(drillolive_sparse_new(mesh, 2, DRILLOLIVE_SELECT_ALL, DRILLOLIVE_DOUBLES, &all));
    DONE(drillolive_sparse_count(all, &counts));
    CHECK(counts.levels == 3 && counts.faces == 6 + 24 + 96 && counts.points == 8 + 26 + 98 && counts.corners == 4 * counts.faces);
    CHECK(drillolive_sparse_kinds(all)[0] == DRILLOLIVE_KIND_SELECTED && drillolive_sparse_kinds(all)[125] == DRILLOLIVE_KIND_LEAF);
    DONE(drillolive_refine_doubles(mesh, 1, &points));
    double sums[2] = {0, 0};
    for (int i = 0; i < 78; i++) {
        sums[0] += fabs(drillolive_points_doubles(points)[i]);
        sums[1] += fabs(drillolive_sparse_doubles(all)[24 + i]);
    }
    CHECK(fabs(sums[0] - sums[1]) < 1e-12 && !drillolive_sparse_numerators(all));
    DONE(drillolive_sparse_new(mesh, 4, DRILLOLIVE_SELECT_FEATURES, DRILLOLIVE_EXACT, &features));
    DONE(drillolive_sparse_count(features, &fewer));
    CHECK(fewer.levels == 5 && fewer.faces < 6 + 24 + 96 + 384 + 1536 && drillolive_sparse_level_faces(features)[0] == 6);
    CHECK(drillolive_sparse_denominators(features)[0].low == 1 && !drillolive_sparse_doubles(features));
    uint64_t faces = 0;
    for (int k = 0; k < 5; k++) faces += drillolive_sparse_level_faces(features)[k];
    CHECK(faces == fewer.faces && drillolive_sparse_numbers(features)[6] == 0 && drillolive_sparse_face_sizes(features)[6] == 4);
    CHECK(drillolive_sparse_corners(features)[0] == 0 && drillolive_sparse_level_points(features)[0] == 8);
    drillolive_points_free(points);
    drillolive_sparse_free(features);
    DONE(drillolive_sparse_new(mesh, 1, DRILLOLIVE_SELECT_FEATURES, DRILLOLIVE_FLOATS, &features));
    CHECK(drillolive_sparse_floats(features)[0] == -1);
    drillolive_sparse_free(features);
    drillolive_sparse_free(all);
    CHECK(drillolive_sparse_new(mesh, 2, (enum drillolive_select)2, DRILLOLIVE_EXACT, &all).status == DRILLOLIVE_BAD_ARGUMENT && !all);
    drillolive_mesh_free(mesh);
}

/* How many rows of a table have one of two controls. */
static size_t rows_with(const drillolive_table *table, uint32_t first, uint32_t second) {
    const uint32_t *starts = drillolive_table_starts(table), *indices = drillolive_table_indices(table);
    drillolive_table_counts counts;
    size_t found = 0;
    DONE(drillolive_table_count(table, &counts));
    for (size_t row = 0; row < counts.rows; row++) {
        bool has = false;
        for (uint32_t e = starts[row]; e < starts[row + 1]; e++) has = has || indices[e] == first || indices[e] == second;
        found += has;
    }
    return found;
}

/* The points of a session are those of the mesh with moved points, to the bit. */
static void test_session(void) {
    static const uint32_t moved[] = {3, 0, 3};
    static const double to[] = {9, 9, 9, -1.25, -1, 2, 1.5, 0.75, 1}, third[] = {1 / 3.0, 0, 0};
    double points[24], read[294];
    drillolive_mesh *mesh = cube(), *other = NULL;
    drillolive_session *session = NULL;
    drillolive_points *refined = NULL;
    drillolive_table *table = NULL;
    uint64_t rounded = 9;
    size_t count;
    DONE(drillolive_session_new(mesh, 2, 10, &session));
    CHECK(drillolive_session_points(session) == 98 && drillolive_session_controls(session) == 8);
    CHECK(drillolive_session_denominator(session).low == 1024);
    CHECK(drillolive_session_take_changed(session, &count) && count == 0);
    DONE(drillolive_session_move_doubles(session, moved, to, 3, &rounded));
    CHECK(rounded == 0);
    memcpy(points, CUBE_POINTS, sizeof points);
    memcpy(points, to + 3, 24);
    memcpy(points + 9, to + 6, 24);
    DONE(drillolive_mesh_new_doubles(points, 8, cube_faces(), &other));
    DONE(drillolive_refine_doubles(other, 2, &refined));
    DONE(drillolive_session_read_doubles(session, NULL, 98, read));
    CHECK(same_bits(read, drillolive_points_doubles(refined), 294));
    const uint32_t *changed = drillolive_session_take_changed(session, &count);
    DONE(drillolive_table_new_exact(mesh, 2, &table));
    CHECK(count == rows_with(table, 0, 3) && changed[0] == 0);
    drillolive_table_free(table);
    for (size_t i = 1; i < count; i++) CHECK(changed[i] > changed[i - 1]);
    DONE(drillolive_session_move_doubles(session, moved, third, 1, &rounded));
    CHECK(rounded == 1);
    DONE(drillolive_session_read_doubles(session, moved, 1, read));
    drillolive_points_free(refined);
    drillolive_mesh_free(other);
    drillolive_session_free(session);
    drillolive_mesh_free(mesh);
}

/* A move that is refused leaves all as it was. */
static void test_refused_moves(void) {
    static const uint32_t one = 1, nine = 9;
    static const char thirds[] = "v 1/3 0 0\nv 1 0 0\nv 0 1 0\nf 1 2 3\n";
    static const drillolive_wide great[] = {{0, UINT64_C(1) << 62}, {0, 0}, {0, 0}}, fine[] = {{3, 0}, {0, 0}, {0, 0}};
    drillolive_mesh *mesh = cube();
    drillolive_session *session = NULL;
    drillolive_wide before[294], after[294], denominators[98];
    size_t count;
    double bad[3] = {0, 0, NAN};
    DONE(drillolive_session_new(mesh, 2, 0, &session));
    DONE(drillolive_session_read_exact(session, NULL, 98, before, denominators));
    CHECK(drillolive_session_move_exact(session, &one, great, 1).status == DRILLOLIVE_OVERFLOW);
    CHECK(drillolive_session_move_exact(session, &nine, fine, 1).status == DRILLOLIVE_RANGE);
    CHECK(drillolive_session_move_doubles(session, &one, bad, 1, NULL).status == DRILLOLIVE_BAD_NUMBER);
    DONE(drillolive_session_read_exact(session, NULL, 98, after, denominators));
    CHECK(memcmp(before, after, sizeof before) == 0);
    CHECK(drillolive_session_take_changed(session, &count) && count == 0);
    DONE(drillolive_session_move_exact(session, &one, fine, 1));
    DONE(drillolive_session_read_exact(session, NULL, 98, after, denominators));
    CHECK(memcmp(before, after, sizeof before) != 0);
    drillolive_session_free(session);
    drillolive_mesh_free(mesh);
    DONE(drillolive_mesh_new_obj(thirds, sizeof thirds - 1, &mesh));
    DONE(drillolive_session_new(mesh, 1, 1, &session));
    CHECK(drillolive_session_denominator(session).low == 6);
    CHECK(drillolive_session_move_doubles(session, &one, CUBE_POINTS, 1, NULL).status == DRILLOLIVE_BAD_ARGUMENT);
    drillolive_session_free(session);
    CHECK(drillolive_session_new(mesh, 1, 127, &session).status == DRILLOLIVE_BAD_ARRAYS && !session);
    drillolive_mesh_free(mesh);
}

/* A face of two corners, one that repeats a point, and an edge of three faces, which two have in one direction. */
static void test_all_faults(void) {
    static const uint32_t sizes[] = {3, 2, 3, 3, 3}, corners[] = {0, 1, 2, 3, 4, 5, 6, 5, 0, 1, 3, 1, 0, 4};
    static const uint32_t two_fans[] = {0, 1, 2, 0, 3, 4}, triangles[] = {3, 3};
    drillolive_faces broken = {sizes, 5, corners, 14}, pinched = {triangles, 2, two_fans, 6};
    drillolive_mesh *mesh = NULL;
    drillolive_fault list[8];
    size_t count = 9;
    DONE(drillolive_mesh_new_doubles(CUBE_POINTS, 8, broken, &mesh));
    DONE(drillolive_mesh_faults(mesh, list, 8, &count));
    CHECK(count == 4 && list[0].kind == 0 && list[0].first == 1 && list[1].kind == 1 && list[1].first == 2);
    CHECK(list[2].kind == 2 && list[2].first == 0 && list[2].second == 1 && list[3].kind == 3 && list[3].first == 0 && list[3].second == 1);
    CHECK(list[0].status == DRILLOLIVE_MESH && drillolive_mesh_check(mesh).kind == 0);
    list[1].status = 77;
    DONE(drillolive_mesh_faults(mesh, list, 1, &count));
    CHECK(count == 4 && list[1].status == 77);
    drillolive_mesh_free(mesh);
    DONE(drillolive_mesh_new_doubles(CUBE_POINTS, 8, pinched, &mesh));
    DONE(drillolive_mesh_faults(mesh, list, 8, &count));
    CHECK(count == 1 && list[0].kind == 4 && list[0].first == 0);
    drillolive_mesh_free(mesh);
    mesh = cube();
    DONE(drillolive_mesh_faults(mesh, NULL, 0, &count));
    CHECK(count == 0);
    drillolive_mesh_free(mesh);
}

/* More faults than a first guess has room for: two hundred faces of two corners. */
static void test_many_faults(void) {
    uint32_t sizes[200], corners[400] = {0};
    drillolive_faces faces = {sizes, 200, corners, 400};
    drillolive_fault list[400];
    drillolive_mesh *mesh = NULL;
    size_t count = 0;
    for (int i = 0; i < 200; i++) sizes[i] = 2;
    DONE(drillolive_mesh_new_doubles(CUBE_POINTS, 8, faces, &mesh));
    DONE(drillolive_mesh_faults(mesh, list, 400, &count));
    CHECK(count >= 400 && list[199].kind == 0 && list[199].first == 199 && list[200].kind == 1);
    drillolive_mesh_free(mesh);
}

void test_rows(void) {
    test_limit();
    test_patch();
    test_texture_rows();
    test_exact_sums();
    test_nearest();
    test_stored();
    test_origins();
    test_sparse();
    test_session();
    test_refused_moves();
    test_all_faults();
    test_many_faults();
}
