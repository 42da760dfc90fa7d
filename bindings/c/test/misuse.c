/* Each misuse of a call is refused by its status, and leaves NULL in the place of a new handle. */
#include "check.h"

#include <float.h>
#include <math.h>
#include <stdint.h>

/* What a call answered, and what it should. */
static void refused(drillolive_fault fault, uint32_t status, uint32_t kind, uint64_t first, const char *what, int line) {
    check(fault.status == status && fault.kind == kind && fault.first == first, what, __FILE__, line);
}

#define REFUSED(call, status, kind, first) refused(call, status, kind, first, #call, __LINE__)

static void misuse_new_meshes(void) {
    static const double bad[] = {0, 0, NAN, INFINITY, 0, 0}, wide[] = {DBL_MAX, DBL_MIN, 0};
    drillolive_mesh *mesh = (drillolive_mesh *)&bad;
    drillolive_faces no_sizes = {NULL, 6, CUBE_CORNERS, 24}, no_corners = {CUBE_SIZES, 6, NULL, 24}, long_faces = cube_faces();
    long_faces.count = SIZE_MAX;
    REFUSED(drillolive_mesh_new_doubles(CUBE_POINTS, 8, cube_faces(), NULL), DRILLOLIVE_NULL, 0, 3);
    REFUSED(drillolive_mesh_new_doubles(NULL, 8, cube_faces(), &mesh), DRILLOLIVE_NULL, 0, 0);
    CHECK(!mesh);
    REFUSED(drillolive_mesh_new_doubles(CUBE_POINTS, 8, no_sizes, &mesh), DRILLOLIVE_NULL, 0, 2);
    REFUSED(drillolive_mesh_new_floats(NULL, 0, no_corners, &mesh), DRILLOLIVE_NULL, 0, 2);
    REFUSED(drillolive_mesh_new_doubles(CUBE_POINTS, SIZE_MAX / 3, cube_faces(), &mesh), DRILLOLIVE_RANGE, DRILLOLIVE_RANGE_LENGTH, 1);
    REFUSED(drillolive_mesh_new_doubles(CUBE_POINTS, 8, long_faces, &mesh), DRILLOLIVE_RANGE, DRILLOLIVE_RANGE_LENGTH, 2);
    REFUSED(drillolive_mesh_new_doubles(bad, 1, cube_faces(), &mesh), DRILLOLIVE_BAD_NUMBER, 0, 2);
    CHECK(drillolive_mesh_new_doubles(wide, 1, cube_faces(), &mesh).status == DRILLOLIVE_BAD_NUMBER && !mesh);
    REFUSED(drillolive_mesh_new_grid_doubles(CUBE_POINTS, 8, cube_faces(), 127, NULL, &mesh), DRILLOLIVE_BAD_ARGUMENT, 0, 0);
    REFUSED(drillolive_mesh_new_grid_floats(NULL, 0, cube_faces(), UINT32_MAX, NULL, &mesh), DRILLOLIVE_BAD_ARGUMENT, 0, 0);
    REFUSED(drillolive_mesh_new_exact(NULL, 1, 8, cube_faces(), &mesh), DRILLOLIVE_NULL, 0, 0);
    REFUSED(drillolive_mesh_new_exact(NULL, 1, 0, cube_faces(), NULL), DRILLOLIVE_NULL, 0, 4);
    REFUSED(drillolive_mesh_new_obj(NULL, 3, &mesh), DRILLOLIVE_NULL, 0, 0);
    REFUSED(drillolive_mesh_new_obj("v", 1, NULL), DRILLOLIVE_NULL, 0, 2);
    REFUSED(drillolive_mesh_new_obj("v", ((size_t)1 << 28) + 1, &mesh), DRILLOLIVE_LONG, 0, 0);
}

static void misuse_setters(void) {
    static const uint32_t points[] = {0, 1, 2, 8};
    static const double nan[] = {1, NAN}, negative[] = {0, -1}, fine[] = {0x1p-60, 0x1p-61}, minus_zero[] = {-0.0};
    drillolive_mesh *mesh = cube();
    REFUSED(drillolive_mesh_set_creases(NULL, points, nan, 1), DRILLOLIVE_NULL, 0, 0);
    REFUSED(drillolive_mesh_set_creases(mesh, NULL, nan, 1), DRILLOLIVE_NULL, 0, 1);
    REFUSED(drillolive_mesh_set_creases(mesh, points, NULL, 1), DRILLOLIVE_NULL, 0, 2);
    REFUSED(drillolive_mesh_set_creases(mesh, points, nan, SIZE_MAX), DRILLOLIVE_RANGE, DRILLOLIVE_RANGE_LENGTH, 3);
    REFUSED(drillolive_mesh_set_creases(mesh, points, nan, 2), DRILLOLIVE_BAD_NUMBER, 0, 1);
    REFUSED(drillolive_mesh_set_creases(mesh, points, fine, 2), DRILLOLIVE_BAD_NUMBER, 1, 1);
    REFUSED(drillolive_mesh_set_corner_tags(mesh, points, negative, 2), DRILLOLIVE_RANGE, DRILLOLIVE_RANGE_SHARPNESS, 1);
    REFUSED(drillolive_mesh_set_corner_tags(mesh, points, nan, 2), DRILLOLIVE_BAD_NUMBER, 0, 1);
    DONE(drillolive_mesh_set_creases(mesh, points, fine, 1));
    DONE(drillolive_mesh_set_corner_tags(mesh, points, minus_zero, 1));
    REFUSED(drillolive_mesh_set_holes(mesh, NULL, 1), DRILLOLIVE_NULL, 0, 1);
    REFUSED(drillolive_mesh_set_holes(mesh, points, SIZE_MAX), DRILLOLIVE_RANGE, DRILLOLIVE_RANGE_LENGTH, 2);
    REFUSED(drillolive_mesh_set_boundary(mesh, (enum drillolive_boundary)3), DRILLOLIVE_BAD_ARGUMENT, 0, 0);
    REFUSED(drillolive_mesh_set_method(mesh, (enum drillolive_method)2), DRILLOLIVE_BAD_ARGUMENT, 0, 0);
    REFUSED(drillolive_mesh_set_texture_doubles(mesh, NULL, 1, points, 1), DRILLOLIVE_NULL, 0, 1);
    REFUSED(drillolive_mesh_set_texture_floats(mesh, NULL, 0, NULL, 1), DRILLOLIVE_NULL, 0, 3);
    REFUSED(drillolive_mesh_set_texture_doubles(mesh, nan, 1, points, 4), DRILLOLIVE_BAD_NUMBER, 0, 1);
    DONE(drillolive_mesh_set_holes(mesh, points + 3, 1));
    REFUSED(drillolive_mesh_check(mesh), DRILLOLIVE_BAD_ARRAYS, 12, 0);
    DONE(drillolive_mesh_set_holes(mesh, NULL, 0));
    DONE(drillolive_mesh_set_creases(mesh, points + 2, nan, 1));
    REFUSED(drillolive_mesh_check(mesh), DRILLOLIVE_BAD_ARRAYS, 10, 0);
    REFUSED(drillolive_mesh_count(mesh, NULL), DRILLOLIVE_NULL, 0, 1);
    drillolive_mesh_free(mesh);
}

/* Meshes that only refinement refuses: nothing of the fault is the C code's. */
static void misuse_refinement(void) {
    static const uint32_t twice[] = {0, 1, 0}, size_two = 2, size_three = 3, far_corner[] = {0, 1, 8};
    drillolive_faces repeats = {&size_three, 1, twice, 3}, small = {&size_two, 1, twice, 2}, outside = {&size_three, 1, far_corner, 3};
    drillolive_faces uneven = {&size_two, 1, twice, 3};
    drillolive_mesh *mesh = NULL;
    drillolive_table *table = NULL;
    drillolive_points *points = NULL;
    drillolive_level *level = NULL;
    DONE(drillolive_mesh_new_doubles(CUBE_POINTS, 8, repeats, &mesh));
    REFUSED(drillolive_table_new_doubles(mesh, 1, &table), DRILLOLIVE_MESH, 1, 0);
    drillolive_mesh_free(mesh);
    DONE(drillolive_mesh_new_doubles(CUBE_POINTS, 8, small, &mesh));
    REFUSED(drillolive_refine_doubles(mesh, 1, &points), DRILLOLIVE_MESH, 0, 0);
    drillolive_mesh_free(mesh);
    DONE(drillolive_mesh_new_doubles(CUBE_POINTS, 8, outside, &mesh));
    REFUSED(drillolive_level_new(mesh, 1, &level), DRILLOLIVE_BAD_ARRAYS, 8, 2);
    drillolive_mesh_free(mesh);
    DONE(drillolive_mesh_new_doubles(CUBE_POINTS, 8, uneven, &mesh));
    REFUSED(drillolive_mesh_check(mesh), DRILLOLIVE_BAD_ARRAYS, 6, 0);
    drillolive_mesh_free(mesh);
    mesh = cube();
    REFUSED(drillolive_table_new_doubles(mesh, 11, &table), DRILLOLIVE_BAD_ARGUMENT, 0, 0);
    CHECK(drillolive_table_new_exact(mesh, 10, &table).status == DRILLOLIVE_TOO_LARGE && !table);
    CHECK(drillolive_refine_floats(mesh, UINT32_MAX, &points).status == DRILLOLIVE_BAD_ARGUMENT && !points);
    CHECK(drillolive_level_new(mesh, 11, &level).status == DRILLOLIVE_BAD_ARGUMENT && !level);
    drillolive_mesh_free(mesh);
}

static void misuse_handles(void) {
    drillolive_mesh *mesh = cube();
    drillolive_table *table = NULL, *none = NULL;
    drillolive_table_counts counts;
    drillolive_level_counts level_counts;
    drillolive_output *output = NULL;
    size_t place = 0;
    DONE(drillolive_table_new_doubles(mesh, 1, &table));
    drillolive_mesh *wrong = (drillolive_mesh *)table;
    REFUSED(drillolive_table_new_doubles(wrong, 1, &none), DRILLOLIVE_KIND, 0, 0);
    REFUSED(drillolive_table_new_doubles(NULL, 1, &none), DRILLOLIVE_NULL, 0, 0);
    REFUSED(drillolive_table_new_doubles(mesh, 1, NULL), DRILLOLIVE_NULL, 0, 2);
    REFUSED(drillolive_refine_doubles(mesh, 1, NULL), DRILLOLIVE_NULL, 0, 2);
    REFUSED(drillolive_level_new(mesh, 1, NULL), DRILLOLIVE_NULL, 0, 2);
    REFUSED(drillolive_mesh_check(wrong), DRILLOLIVE_KIND, 0, 0);
    REFUSED(drillolive_table_count((drillolive_table *)mesh, &counts), DRILLOLIVE_KIND, 0, 0);
    REFUSED(drillolive_level_count((drillolive_level *)mesh, &level_counts), DRILLOLIVE_KIND, 0, 0);
    REFUSED(drillolive_level_face_parent((drillolive_level *)mesh, 0, &place), DRILLOLIVE_KIND, 0, 0);
    REFUSED(drillolive_run(1, NULL, NULL, 0, &output), DRILLOLIVE_NULL, 0, 1);
    REFUSED(drillolive_run(1, (const char *const[]){NULL}, NULL, 0, &output), DRILLOLIVE_NULL, 0, 1);
    REFUSED(drillolive_run(0, NULL, NULL, 5, &output), DRILLOLIVE_NULL, 0, 2);
    REFUSED(drillolive_run(0, NULL, NULL, 0, NULL), DRILLOLIVE_NULL, 0, 4);
    REFUSED(drillolive_run(0, NULL, "", SIZE_MAX, &output), DRILLOLIVE_RANGE, DRILLOLIVE_RANGE_LENGTH, 3);
    drillolive_table_free(table);
    drillolive_mesh_free(mesh);
}

/* Accessors have nothing for a handle of another kind, and freeing it by the call of another kind leaves it as it is. */
static void misuse_accessors(void) {
    drillolive_mesh *mesh = cube();
    drillolive_table *table = NULL;
    drillolive_table_counts counts;
    size_t place = 0;
    DONE(drillolive_table_new_doubles(mesh, 1, &table));
    drillolive_mesh *wrong = (drillolive_mesh *)table;
    CHECK(!drillolive_table_starts((drillolive_table *)mesh) && !drillolive_mesh_corners(wrong) && !drillolive_level_edges(NULL));
    CHECK(drillolive_points_count((drillolive_points *)mesh) == 0 && !drillolive_points_doubles((drillolive_points *)mesh));
    CHECK(drillolive_output_status((drillolive_output *)mesh) == DRILLOLIVE_KIND && !drillolive_output_text(NULL, &place) && place == 0);
    drillolive_table_free((drillolive_table *)mesh);
    drillolive_mesh_free(wrong);
    drillolive_level_free((drillolive_level *)mesh);
    drillolive_points_free((drillolive_points *)mesh);
    drillolive_output_free((drillolive_output *)mesh);
    DONE(drillolive_mesh_check(mesh));
    DONE(drillolive_table_count(table, &counts));
    drillolive_table_free(table);
    drillolive_mesh_free(mesh);
    drillolive_mesh_free(NULL);
    drillolive_table_free(NULL);
    drillolive_level_free(NULL);
    drillolive_points_free(NULL);
    drillolive_output_free(NULL);
}

static void misuse_apply(void) {
    drillolive_mesh *mesh = cube();
    drillolive_table *table = NULL, *exact = NULL;
    double out[26 * 3] = {0};
    float floats[24] = {0};
    DONE(drillolive_table_new_doubles(mesh, 1, &table));
    DONE(drillolive_table_new_exact(mesh, 1, &exact));
    REFUSED(drillolive_table_apply_doubles(NULL, CUBE_POINTS, 8, 3, 0, 26, out), DRILLOLIVE_NULL, 0, 0);
    REFUSED(drillolive_table_apply_doubles(table, NULL, 8, 3, 0, 26, out), DRILLOLIVE_NULL, 0, 1);
    REFUSED(drillolive_table_apply_doubles(table, CUBE_POINTS, 7, 3, 0, 26, out), DRILLOLIVE_RANGE, DRILLOLIVE_RANGE_LENGTH, 2);
    REFUSED(drillolive_table_apply_doubles(table, CUBE_POINTS, 8, 0, 0, 26, out), DRILLOLIVE_RANGE, DRILLOLIVE_RANGE_COMPONENTS, 0);
    REFUSED(drillolive_table_apply_doubles(table, CUBE_POINTS, 8, 17, 0, 26, out), DRILLOLIVE_RANGE, DRILLOLIVE_RANGE_COMPONENTS, 17);
    REFUSED(drillolive_table_apply_doubles(table, CUBE_POINTS, 8, 3, 0, 27, out), DRILLOLIVE_RANGE, DRILLOLIVE_RANGE_INDEX, 27);
    REFUSED(drillolive_table_apply_doubles(table, CUBE_POINTS, 8, 3, 5, 4, out), DRILLOLIVE_RANGE, DRILLOLIVE_RANGE_INDEX, 5);
    REFUSED(drillolive_table_apply_doubles(table, CUBE_POINTS, 8, 3, 0, 26, NULL), DRILLOLIVE_NULL, 0, 6);
    REFUSED(drillolive_table_apply_floats(table, floats, 8, 3, 0, 1, floats), DRILLOLIVE_KIND, 0, 0);
    REFUSED(drillolive_table_apply_doubles(exact, CUBE_POINTS, 8, 3, 0, 26, out), DRILLOLIVE_KIND, 0, 0);
    drillolive_table_free(table);
    drillolive_table_free(exact);
    drillolive_mesh_free(mesh);
}

static void misuse_rows(void) {
    drillolive_mesh *mesh = cube();
    drillolive_table *table = NULL, *none = NULL;
    drillolive_points *points = NULL;
    drillolive_wide wides[78] = {{0, 0}};
    drillolive_output *output = NULL;
    size_t used;
    DONE(drillolive_table_new_doubles(mesh, 1, &table));
    REFUSED(drillolive_table_new_limit(NULL, 1, DRILLOLIVE_EXACT, &none), DRILLOLIVE_NULL, 0, 0);
    REFUSED(drillolive_table_new_limit(mesh, 1, DRILLOLIVE_EXACT, NULL), DRILLOLIVE_NULL, 0, 3);
    REFUSED(drillolive_table_new_limit(mesh, 1, (enum drillolive_form)3, &none), DRILLOLIVE_BAD_ARGUMENT, 0, 0);
    REFUSED(drillolive_table_new_patch(mesh, 1, 0, 1, DRILLOLIVE_EXACT, NULL), DRILLOLIVE_NULL, 0, 5);
    REFUSED(drillolive_table_new_texture(mesh, 1, DRILLOLIVE_SEAMS_LINEAR, DRILLOLIVE_EXACT, NULL), DRILLOLIVE_NULL, 0, 4);
    REFUSED(drillolive_points_new_limit((drillolive_mesh *)table, 1, DRILLOLIVE_EXACT, &points), DRILLOLIVE_KIND, 0, 0);
    REFUSED(drillolive_points_new_limit(mesh, 1, (enum drillolive_form)3, &points), DRILLOLIVE_BAD_ARGUMENT, 0, 0);
    REFUSED(drillolive_table_apply_exact(table, wides, 8, 3, 0, 26, wides), DRILLOLIVE_KIND, 0, 0);
    REFUSED(drillolive_table_apply_exact(table, NULL, 8, 3, 0, 26, wides), DRILLOLIVE_NULL, 0, 1);
    REFUSED(drillolive_table_write(table, &output), DRILLOLIVE_KIND, 0, 0);
    REFUSED(drillolive_table_write(table, NULL), DRILLOLIVE_NULL, 0, 1);
    REFUSED(drillolive_table_new_stored(NULL, 1, &used, &none), DRILLOLIVE_NULL, 0, 0);
    REFUSED(drillolive_table_new_stored("", 0, NULL, &none), DRILLOLIVE_NULL, 0, 2);
    REFUSED(drillolive_table_new_stored("", 0, &used, NULL), DRILLOLIVE_NULL, 0, 3);
    REFUSED(drillolive_table_check(mesh, 1, NULL, 1), DRILLOLIVE_NULL, 0, 2);
    REFUSED(drillolive_table_check(mesh, 11, "", 0), DRILLOLIVE_BAD_ARGUMENT, 0, 0);
    drillolive_table_free(table);
    drillolive_mesh_free(mesh);
}

static void misuse_parts(void) {
    drillolive_mesh *mesh = cube();
    drillolive_session *session = NULL;
    drillolive_sparse *sparse = NULL;
    drillolive_origins *origins = NULL;
    drillolive_level *level = NULL;
    static const uint32_t far_away = 26;
    double numbers[78];
    size_t count;
    REFUSED(drillolive_origins_new(mesh, 1, NULL), DRILLOLIVE_NULL, 0, 2);
    REFUSED(drillolive_origins_new(mesh, 11, &origins), DRILLOLIVE_BAD_ARGUMENT, 0, 0);
    REFUSED(drillolive_sparse_new(mesh, 1, DRILLOLIVE_SELECT_ALL, DRILLOLIVE_EXACT, NULL), DRILLOLIVE_NULL, 0, 4);
    REFUSED(drillolive_sparse_new(mesh, 1, DRILLOLIVE_SELECT_ALL, (enum drillolive_form)3, &sparse), DRILLOLIVE_BAD_ARGUMENT, 0, 0);
    REFUSED(drillolive_level_new_texture(mesh, 1, DRILLOLIVE_SEAMS_SMOOTH, NULL), DRILLOLIVE_NULL, 0, 3);
    REFUSED(drillolive_level_new_texture(mesh, 1, DRILLOLIVE_SEAMS_SMOOTH, &level), DRILLOLIVE_BAD_ARGUMENT, 0, 0);
    REFUSED(drillolive_mesh_faults(mesh, NULL, 1, &count), DRILLOLIVE_NULL, 0, 1);
    REFUSED(drillolive_mesh_faults(mesh, NULL, 0, NULL), DRILLOLIVE_NULL, 0, 3);
    REFUSED(drillolive_session_new(mesh, 1, 0, NULL), DRILLOLIVE_NULL, 0, 3);
    REFUSED(drillolive_session_new(mesh, 11, 0, &session), DRILLOLIVE_BAD_ARGUMENT, 0, 0);
    DONE(drillolive_session_new(mesh, 1, 0, &session));
    REFUSED(drillolive_session_move_doubles(NULL, NULL, NULL, 0, NULL), DRILLOLIVE_NULL, 0, 0);
    REFUSED(drillolive_session_move_doubles(session, NULL, numbers, 1, NULL), DRILLOLIVE_NULL, 0, 1);
    REFUSED(drillolive_session_move_doubles(session, &far_away, NULL, 1, NULL), DRILLOLIVE_NULL, 0, 2);
    REFUSED(drillolive_session_read_doubles(session, NULL, 27, numbers), DRILLOLIVE_RANGE, DRILLOLIVE_RANGE_LENGTH, 2);
    REFUSED(drillolive_session_read_doubles(session, &far_away, 1, numbers), DRILLOLIVE_RANGE, DRILLOLIVE_RANGE_INDEX, 26);
    REFUSED(drillolive_session_read_doubles(session, NULL, 26, NULL), DRILLOLIVE_NULL, 0, 3);
    CHECK(!drillolive_session_take_changed(session, NULL) && !drillolive_session_take_changed(NULL, &count));
    CHECK(drillolive_session_points((drillolive_session *)mesh) == 0 && drillolive_session_denominator(NULL).low == 0);
    CHECK(!drillolive_origins_kinds((drillolive_origins *)mesh) && !drillolive_sparse_kinds((drillolive_sparse *)mesh));
    drillolive_session_free((drillolive_session *)mesh);
    drillolive_sparse_free((drillolive_sparse *)mesh);
    drillolive_origins_free((drillolive_origins *)mesh);
    drillolive_sparse_free(NULL);
    drillolive_origins_free(NULL);
    drillolive_session_free(NULL);
    drillolive_session_free(session);
    drillolive_mesh_free(mesh);
}

/* Reading a freed handle is no promise of C, and AddressSanitizer refuses it; it is tried where memory is as the C library leaves it. */
static void misuse_freed(void) {
#if !defined(__SANITIZE_ADDRESS__) && !defined(__clang__)
    drillolive_mesh *mesh = cube();
    uintptr_t address = (uintptr_t)mesh;
    drillolive_mesh_free(mesh);
    REFUSED(drillolive_mesh_check((drillolive_mesh *)address), DRILLOLIVE_KIND, 0, 0);
#endif
}

void test_misuse(void) {
    misuse_new_meshes();
    misuse_setters();
    misuse_refinement();
    misuse_handles();
    misuse_accessors();
    misuse_apply();
    misuse_rows();
    misuse_parts();
    misuse_freed();
}
