/* Refuses each allocation of each call in turn, alone and with all that follow. The program is linked with --wrap=malloc and --wrap=realloc. */
#include "check.h"

#include <stdlib.h>
#include <string.h>

void *__real_malloc(size_t size);
void *__real_realloc(void *room, size_t size);
void *__wrap_malloc(size_t size);
void *__wrap_realloc(void *room, size_t size);

static unsigned long made, first_refused;
static bool refuse_rest;

static bool is_refused(void) {
    made++;
    return first_refused && (refuse_rest ? made >= first_refused : made == first_refused);
}

void *__wrap_malloc(size_t size) {
    return is_refused() ? NULL : __real_malloc(size);
}

void *__wrap_realloc(void *room, size_t size) {
    return is_refused() ? NULL : __real_realloc(room, size);
}

void refuse_from(unsigned long first, bool all_that_follow) {
    made = 0;
    first_refused = first;
    refuse_rest = all_that_follow;
}

unsigned long allocations(void) {
    return made;
}

static drillolive_mesh *mesh;
static const uint32_t INDICES[24] = {0, 1, 2, 3};
static const double NUMBERS[8] = {1, 2, 3, 4};
static const char TEXT[] = "v 0 0 0\nv 1 0 0\nv 0 1 0\nvt 0\nf 1/1 2/1 3/1\nt crease 2/1/0 0 1 2\n";

/* Each call makes a handle, frees it, and gives its fault. */
static drillolive_fault make_doubles_mesh(void) {
    drillolive_mesh *made_mesh;
    drillolive_fault fault = drillolive_mesh_new_doubles(CUBE_POINTS, 8, cube_faces(), &made_mesh);
    CHECK((fault.status == 0) == (made_mesh != NULL));
    drillolive_mesh_free(made_mesh);
    return fault;
}

static drillolive_fault make_grid_mesh(void) {
    drillolive_mesh *made_mesh;
    uint64_t changed;
    drillolive_fault fault = drillolive_mesh_new_grid_doubles(CUBE_POINTS, 8, cube_faces(), 5, &changed, &made_mesh);
    CHECK((fault.status == 0) == (made_mesh != NULL));
    drillolive_mesh_free(made_mesh);
    return fault;
}

static drillolive_fault make_exact_mesh(void) {
    static const int64_t zeros[24];
    drillolive_mesh *made_mesh;
    drillolive_fault fault = drillolive_mesh_new_exact(zeros, 1, 8, cube_faces(), &made_mesh);
    CHECK((fault.status == 0) == (made_mesh != NULL));
    drillolive_mesh_free(made_mesh);
    return fault;
}

static drillolive_fault make_obj_mesh(void) {
    drillolive_mesh *made_mesh;
    drillolive_fault fault = drillolive_mesh_new_obj(TEXT, sizeof TEXT - 1, &made_mesh);
    CHECK((fault.status == 0) == (made_mesh != NULL));
    drillolive_mesh_free(made_mesh);
    return fault;
}

static drillolive_fault set_creases(void) {
    return drillolive_mesh_set_creases(mesh, INDICES, NUMBERS, 2);
}

static drillolive_fault set_corner_tags(void) {
    return drillolive_mesh_set_corner_tags(mesh, INDICES, NUMBERS, 2);
}

static drillolive_fault set_holes(void) {
    return drillolive_mesh_set_holes(mesh, INDICES, 2);
}

static drillolive_fault set_texture(void) {
    return drillolive_mesh_set_texture_doubles(mesh, NUMBERS, 4, INDICES, 24);
}

static drillolive_fault check_mesh(void) {
    return drillolive_mesh_check(mesh);
}

static drillolive_fault make_table(void) {
    drillolive_table *table;
    drillolive_fault fault = drillolive_table_new_doubles(mesh, 1, &table);
    CHECK((fault.status == 0) == (table != NULL));
    drillolive_table_free(table);
    return fault;
}

static drillolive_fault make_exact_table(void) {
    drillolive_table *table;
    drillolive_fault fault = drillolive_table_new_exact(mesh, 1, &table);
    CHECK((fault.status == 0) == (table != NULL));
    drillolive_table_free(table);
    return fault;
}

static drillolive_fault make_points(void) {
    drillolive_points *points;
    drillolive_fault fault = drillolive_refine_exact(mesh, 1, &points);
    CHECK((fault.status == 0) == (points != NULL));
    drillolive_points_free(points);
    return fault;
}

static drillolive_fault make_level(void) {
    drillolive_level *level;
    drillolive_fault fault = drillolive_level_new(mesh, 1, &level);
    CHECK((fault.status == 0) == (level != NULL));
    drillolive_level_free(level);
    return fault;
}

static drillolive_fault make_limit_table(void) {
    drillolive_table *table;
    drillolive_fault fault = drillolive_table_new_limit(mesh, 2, DRILLOLIVE_FLOATS, &table);
    CHECK((fault.status == 0) == (table != NULL));
    drillolive_table_free(table);
    return fault;
}

static drillolive_fault make_limit_points(void) {
    drillolive_points *points;
    drillolive_fault fault = drillolive_points_new_limit(mesh, 2, DRILLOLIVE_DOUBLES, &points);
    CHECK((fault.status == 0) == (points != NULL));
    drillolive_points_free(points);
    return fault;
}

static drillolive_fault make_texture_points(void) {
    drillolive_points *points;
    drillolive_fault fault = drillolive_points_new_texture(mesh, 1, DRILLOLIVE_SEAMS_CORNERS, DRILLOLIVE_EXACT, &points);
    CHECK((fault.status == 0) == (points != NULL));
    drillolive_points_free(points);
    return fault;
}

static drillolive_fault make_texture_level(void) {
    drillolive_level *level;
    drillolive_fault fault = drillolive_level_new_texture(mesh, 1, DRILLOLIVE_SEAMS_SMOOTH, &level);
    CHECK((fault.status == 0) == (level != NULL));
    drillolive_level_free(level);
    return fault;
}

static drillolive_fault make_origins(void) {
    drillolive_origins *origins;
    drillolive_fault fault = drillolive_origins_new(mesh, 2, &origins);
    CHECK((fault.status == 0) == (origins != NULL));
    drillolive_origins_free(origins);
    return fault;
}

static drillolive_fault make_sparse(void) {
    drillolive_sparse *sparse;
    drillolive_fault fault = drillolive_sparse_new(mesh, 2, DRILLOLIVE_SELECT_FEATURES, DRILLOLIVE_DOUBLES, &sparse);
    CHECK((fault.status == 0) == (sparse != NULL));
    drillolive_sparse_free(sparse);
    return fault;
}

/* A session, a move of it and a read; none of them keeps anything where memory runs out. */
static drillolive_fault use_session(void) {
    drillolive_session *session;
    double read[3];
    drillolive_fault fault = drillolive_session_new(mesh, 1, 4, &session);
    CHECK((fault.status == 0) == (session != NULL));
    if (!fault.status) fault = drillolive_session_move_doubles(session, INDICES, NUMBERS, 1, NULL);
    if (!fault.status) fault = drillolive_session_read_doubles(session, INDICES, 1, read);
    drillolive_session_free(session);
    return fault;
}

static drillolive_fault list_faults(void) {
    size_t count;
    return drillolive_mesh_faults(mesh, NULL, 0, &count);
}

static drillolive_fault write_and_read_table(void) {
    drillolive_table *table, *read = NULL;
    drillolive_output *output = NULL;
    size_t length, used;
    drillolive_fault fault = drillolive_table_new_exact(mesh, 1, &table);
    if (!fault.status) fault = drillolive_table_write(table, &output);
    const char *text = drillolive_output_text(output, &length);
    if (!fault.status) fault = drillolive_table_new_stored(text, length, &used, &read);
    if (!fault.status) fault = drillolive_table_check(mesh, 1, text, length);
    drillolive_table_free(table);
    drillolive_table_free(read);
    drillolive_output_free(output);
    return fault;
}

/* A run that cannot have memory answers that in its own line. */
static drillolive_fault run_program(void) {
    static const char *const words[] = {"refine", "depth=1"};
    drillolive_output *output;
    drillolive_fault fault = drillolive_run(2, words, CUBE_TEXT, strlen(CUBE_TEXT), &output);
    CHECK((fault.status == 0) == (output != NULL));
    if (output && drillolive_output_status(output) == DRILLOLIVE_MEMORY) fault.status = DRILLOLIVE_MEMORY;
    drillolive_output_free(output);
    return fault;
}

static unsigned long refused_in_turn(drillolive_fault (*call)(void)) {
    refuse_from(0, false);
    drillolive_fault fault = call();
    unsigned long all = allocations();
    CHECK(fault.status == DRILLOLIVE_DONE);
    for (unsigned long first = 1; first <= all; first++) {
        for (int rest = 0; rest < 2; rest++) {
            refuse_from(first, rest);
            fault = call();
            refuse_from(0, false);
            CHECK(fault.status == DRILLOLIVE_DONE || fault.status == DRILLOLIVE_MEMORY);
        }
    }
    return all;
}

void test_refusals(void) {
    static drillolive_fault (*const calls[])(void) = {
        make_doubles_mesh, make_grid_mesh, make_exact_mesh, make_obj_mesh, set_creases, set_corner_tags, set_holes, set_texture,
        check_mesh, make_table, make_exact_table, make_points, make_level, make_limit_table, make_limit_points, make_texture_points,
        make_texture_level, make_origins, make_sparse, use_session, list_faults, write_and_read_table, run_program,
    };
    unsigned long all = 0;
    mesh = cube();
    for (size_t i = 0; i < sizeof calls / sizeof *calls; i++) all += refused_in_turn(calls[i]);
    CHECK(all > 200);
    drillolive_mesh_free(mesh);
}
