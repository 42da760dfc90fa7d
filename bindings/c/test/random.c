/* Random sequences of calls, with good and bad arguments. Each call answers a known fault, and a handle exactly where it is done. */
#include "check.h"

#include <math.h>
#include <stdlib.h>
#include <string.h>

enum { HANDLES = 3, MOST_POINTS = 12, MOST_FACES = 8, MOST_CORNERS = 40 };

static uint64_t state = 88172645463325252u;

static uint32_t below(uint32_t limit) {
    state ^= state << 13;
    state ^= state >> 7;
    state ^= state << 17;
    return (uint32_t)(state >> 32) % limit;
}

static drillolive_mesh *meshes[HANDLES];
static drillolive_table *tables[HANDLES];
static drillolive_points *points[HANDLES];
static drillolive_level *levels[HANDLES];
static drillolive_output *outputs[HANDLES];
static drillolive_origins *origins[HANDLES];
static drillolive_sparse *sparses[HANDLES];
static drillolive_session *sessions[HANDLES];

static void judge(drillolive_fault fault) {
    char line[64];
    bool is_known = fault.status <= DRILLOLIVE_RANGE && fault.status != DRILLOLIVE_TOO_SHORT && fault.status != 12;
    CHECK(is_known);
    size_t length = drillolive_fault_line(fault, line, below(sizeof line));
    CHECK((length > 0) == (fault.status != DRILLOLIVE_DONE));
    CHECK((drillolive_fault_advice(fault)[0] != 0) == (fault.status != DRILLOLIVE_DONE));
}

static double any_number(void) {
    static const double strange[] = {0, -0.0, 1e300, -1e-300, INFINITY, NAN, 0.1, 1.0 / 3, 5e-324, 1e10};
    return below(20) ? (int)below(2001) / 8.0 - 125 : strange[below(10)];
}

static const double *any_numbers(void) {
    static double numbers[3 * MOST_POINTS];
    for (int i = 0; i < 3 * MOST_POINTS; i++) numbers[i] = any_number();
    return below(40) ? numbers : NULL;
}

static const float *any_floats(void) {
    static float numbers[3 * MOST_POINTS];
    for (int i = 0; i < 3 * MOST_POINTS; i++) numbers[i] = (float)any_number();
    return below(40) ? numbers : NULL;
}

static const uint32_t *any_indices(uint32_t limit) {
    static uint32_t indices[MOST_CORNERS];
    for (int i = 0; i < MOST_CORNERS; i++) indices[i] = below(50) ? below(limit) : below(UINT32_MAX);
    return below(40) ? indices : NULL;
}

/* The faces of the cube, those of a strip of quads, or any. */
static drillolive_faces any_faces(void) {
    static uint32_t sizes[MOST_FACES], corners[MOST_CORNERS];
    drillolive_faces faces = cube_faces();
    uint32_t choice = below(4);
    if (choice < 2) return faces;
    faces.sizes = sizes;
    faces.corners = corners;
    faces.count = 1 + below(choice == 2 ? 5 : MOST_FACES);
    faces.corner_count = 0;
    for (uint32_t f = 0; f < faces.count; f++) {
        sizes[f] = choice == 2 ? 4 : 1 + below(5);
        for (uint32_t c = 0; c < sizes[f]; c++) corners[faces.corner_count++] = choice == 2 ? 2 * f + (c ^ (c >> 1)) : below(MOST_POINTS);
    }
    if (below(30) == 0) faces.corner_count = below(MOST_CORNERS);
    return faces;
}

static void new_mesh(void) {
    static const int64_t numerators[3 * MOST_POINTS] = {1, -2, 3, INT64_MIN, INT64_MAX};
    char text[200] = "v 0 0 0\nv 1 0 0\nv 1 1/3 0\nv 0 1 0.5\nvt 0\nf 1/1 2/1 3/1 4/1\nt crease 3/1/0 0 1 2 1.5\nt hole 1/0/0 0\n";
    drillolive_mesh **mesh = &meshes[below(HANDLES)];
    drillolive_faces faces = any_faces();
    size_t count = below(3) ? MOST_POINTS : below(MOST_POINTS + 1);
    uint64_t changed;
    drillolive_fault fault;
    drillolive_mesh_free(*mesh);
    switch (below(6)) {
    case 0: fault = drillolive_mesh_new_doubles(any_numbers(), count, faces, mesh); break;
    case 1: fault = drillolive_mesh_new_floats(any_floats(), count, faces, mesh); break;
    case 2: fault = drillolive_mesh_new_exact(numerators, below(9), count, faces, mesh); break;
    case 3: fault = drillolive_mesh_new_grid_doubles(any_numbers(), count, faces, below(130), &changed, mesh); break;
    case 4: fault = drillolive_mesh_new_grid_floats(any_floats(), count, faces, below(30), NULL, mesh); break;
    default:
        if (below(2)) text[below((uint32_t)strlen(text))] = (char)below(256);
        fault = drillolive_mesh_new_obj(text, strlen(text), mesh);
    }
    judge(fault);
    CHECK((fault.status == DRILLOLIVE_DONE) == (*mesh != NULL));
}

static void set_mesh(void) {
    drillolive_mesh *mesh = below(30) ? meshes[below(HANDLES)] : (drillolive_mesh *)tables[0];
    size_t count = below(MOST_POINTS / 2);
    switch (below(8)) {
    case 0: judge(drillolive_mesh_set_creases(mesh, any_indices(MOST_POINTS), any_numbers(), count)); break;
    case 1: judge(drillolive_mesh_set_corner_tags(mesh, any_indices(MOST_POINTS), any_numbers(), count)); break;
    case 2: judge(drillolive_mesh_set_holes(mesh, any_indices(6), count)); break;
    case 3: judge(drillolive_mesh_set_boundary(mesh, (enum drillolive_boundary)below(4))); break;
    case 4: judge(drillolive_mesh_set_method(mesh, (enum drillolive_method)below(3))); break;
    case 5: judge(drillolive_mesh_set_texture_doubles(mesh, any_numbers(), MOST_POINTS, any_indices(MOST_POINTS), 24)); break;
    case 6: judge(drillolive_mesh_set_texture_floats(mesh, any_floats(), MOST_POINTS, any_indices(MOST_POINTS), below(MOST_CORNERS))); break;
    default: judge(drillolive_mesh_check(mesh));
    }
}

static void new_table(void) {
    drillolive_mesh *mesh = meshes[below(HANDLES)];
    drillolive_table **table = &tables[below(HANDLES)];
    uint32_t depth = below(30) ? below(3) : below(13);
    uint32_t form = below(3);
    drillolive_table_free(*table);
    drillolive_fault fault = form == 0   ? drillolive_table_new_doubles(mesh, depth < 5 ? depth : 11, table)
                             : form == 1 ? drillolive_table_new_floats(mesh, depth < 5 ? depth : 11, table)
                                         : drillolive_table_new_exact(mesh, depth < 5 ? depth : 11, table);
    judge(fault);
    CHECK((fault.status == DRILLOLIVE_DONE) == (*table != NULL));
}

static void apply(void) {
    const drillolive_table *table = tables[below(HANDLES)];
    drillolive_table_counts counts = {0, 0, 0};
    judge(drillolive_table_count(table, &counts));
    size_t components = below(18), from = below((uint32_t)counts.rows + 2), to = below((uint32_t)counts.rows + 2);
    size_t rows = to > from ? to - from : 0;
    double *controls = calloc(counts.controls * 17 + 1, sizeof *controls), *out = calloc(rows * 17 + 1, sizeof *out);
    float *float_controls = (float *)calloc(counts.controls * 17 + 1, sizeof *float_controls), *float_out = calloc(rows * 17 + 1, sizeof *float_out);
    drillolive_wide *wide_controls = calloc(counts.controls * 17 + 1, sizeof *wide_controls), *wide_out = calloc(rows * 17 + 1, sizeof *wide_out);
    judge(drillolive_table_apply_doubles(table, controls, counts.controls, components, from, to, out));
    judge(drillolive_table_apply_floats(table, float_controls, counts.controls, components, from, to, float_out));
    judge(drillolive_table_apply_exact(table, wide_controls, counts.controls, components, from, to, wide_out));
    free(controls);
    free(out);
    free(float_controls);
    free(float_out);
    free(wide_controls);
    free(wide_out);
}

static void refine(void) {
    drillolive_mesh *mesh = meshes[below(HANDLES)];
    drillolive_points **at = &points[below(HANDLES)];
    uint32_t depth = below(3), form = below(3);
    drillolive_points_free(*at);
    drillolive_fault fault = form == 0   ? drillolive_refine_doubles(mesh, depth, at)
                             : form == 1 ? drillolive_refine_floats(mesh, depth, at)
                                         : drillolive_refine_exact(mesh, depth, at);
    judge(fault);
    CHECK((fault.status == DRILLOLIVE_DONE) == (*at != NULL));
    size_t count = drillolive_points_count(*at);
    if (count && drillolive_points_doubles(*at)) CHECK(isfinite(drillolive_points_doubles(*at)[3 * count - 1]));
    const drillolive_wide *denominators = drillolive_points_denominators(*at);
    if (count && denominators) CHECK(denominators[count - 1].low | denominators[count - 1].high);
}

static void new_level(void) {
    drillolive_level **level = &levels[below(HANDLES)];
    drillolive_level_counts counts = {0, 0, 0, 0};
    size_t parent;
    drillolive_level_free(*level);
    drillolive_fault fault = drillolive_level_new(meshes[below(HANDLES)], below(3), level);
    judge(fault);
    CHECK((fault.status == DRILLOLIVE_DONE) == (*level != NULL));
    judge(drillolive_level_count(*level, &counts));
    judge(drillolive_level_face_parent(*level, below((uint32_t)counts.faces + 2), &parent));
    if (counts.edges) CHECK(drillolive_level_edges(*level)[2 * counts.edges - 1] < counts.points);
    if (counts.faces) CHECK(drillolive_level_holes(*level)[counts.faces - 1] <= 1);
}

static void new_rows(void) {
    drillolive_mesh *mesh = meshes[below(HANDLES)];
    drillolive_table **table = &tables[below(HANDLES)];
    enum drillolive_form form = (enum drillolive_form)below(4);
    drillolive_fault fault;
    drillolive_table_free(*table);
    switch (below(3)) {
    case 0: fault = drillolive_table_new_limit(mesh, below(3), form, table); break;
    case 1: fault = drillolive_table_new_patch(mesh, below(3), below(30), below(5), form, table); break;
    default: fault = drillolive_table_new_texture(mesh, below(3), (enum drillolive_seams)below(5), form, table);
    }
    judge(fault);
    CHECK((fault.status == DRILLOLIVE_DONE) == (*table != NULL));
}

static void new_row_points(void) {
    drillolive_mesh *mesh = meshes[below(HANDLES)];
    drillolive_points **at = &points[below(HANDLES)];
    enum drillolive_form form = (enum drillolive_form)below(4);
    drillolive_fault fault;
    drillolive_points_free(*at);
    switch (below(3)) {
    case 0: fault = drillolive_points_new_limit(mesh, below(3), form, at); break;
    case 1: fault = drillolive_points_new_patch(mesh, below(3), below(30), below(5), form, at); break;
    default: fault = drillolive_points_new_texture(mesh, below(3), (enum drillolive_seams)below(5), form, at);
    }
    judge(fault);
    CHECK((fault.status == DRILLOLIVE_DONE) == (*at != NULL));
}

static void new_parts(void) {
    drillolive_mesh *mesh = meshes[below(HANDLES)];
    drillolive_origins **origin = &origins[below(HANDLES)];
    drillolive_sparse **sparse = &sparses[below(HANDLES)];
    drillolive_fault list[4];
    size_t count = 0;
    drillolive_origins_free(*origin);
    drillolive_sparse_free(*sparse);
    judge(drillolive_origins_new(mesh, below(3), origin));
    judge(drillolive_sparse_new(mesh, below(4), (enum drillolive_select)below(3), (enum drillolive_form)below(4), sparse));
    judge(drillolive_mesh_faults(mesh, list, below(5), &count));
    size_t all = drillolive_origins_points(*origin);
    if (all) CHECK(drillolive_origins_kinds(*origin)[all - 1] <= DRILLOLIVE_ON_FACE);
    drillolive_sparse_counts counts = {0, 0, 0, 0};
    judge(drillolive_sparse_count(*sparse, &counts));
    if (counts.faces) CHECK(drillolive_sparse_kinds(*sparse)[counts.faces - 1] <= DRILLOLIVE_KIND_LEAF);
}

static void use_session(void) {
    drillolive_session **session = &sessions[below(HANDLES)];
    double read[3 * MOST_POINTS];
    size_t count;
    if (below(3) == 0) {
        drillolive_session_free(*session);
        drillolive_fault fault = drillolive_session_new(meshes[below(HANDLES)], below(3), below(20) ? below(8) : below(140), session);
        judge(fault);
        CHECK((fault.status == DRILLOLIVE_DONE) == (*session != NULL));
    }
    judge(drillolive_session_move_doubles(*session, any_indices(MOST_POINTS), any_numbers(), below(MOST_POINTS), NULL));
    judge(drillolive_session_read_doubles(*session, any_indices(20), below(MOST_POINTS), read));
    const uint32_t *changed = drillolive_session_take_changed(*session, &count);
    if (count) CHECK(changed[count - 1] < drillolive_session_points(*session));
}

static void store_table(void) {
    const drillolive_table *table = tables[below(HANDLES)];
    drillolive_output **output = &outputs[below(HANDLES)];
    drillolive_table *read = NULL;
    size_t length, used;
    drillolive_output_free(*output);
    judge(drillolive_table_write(table, output));
    const char *text = drillolive_output_text(*output, &length);
    if (text && below(4) == 0 && length) length -= below((uint32_t)length);
    judge(drillolive_table_new_stored(text, length, &used, &read));
    judge(drillolive_table_check(meshes[below(HANDLES)], below(3), text, length));
    drillolive_table_free(read);
}

static void run(void) {
    static const char *const words[] = {"refine", "depth=1", "levels", "depth=2", "help", "tags=yes"};
    const char *given[3] = {words[below(6)], words[below(6)], words[below(6)]};
    drillolive_output **output = &outputs[below(HANDLES)];
    drillolive_output_free(*output);
    judge(drillolive_run(below(4), given, CUBE_TEXT, below(2) ? strlen(CUBE_TEXT) : below(100), output));
    size_t length;
    const char *text = drillolive_output_text(*output, &length);
    CHECK(text && strlen(text) == length);
    CHECK((drillolive_output_status(*output) == 0) == (drillolive_output_error(*output, NULL)[0] == 0));
}

void test_random(unsigned long sequences) {
    static void (*const calls[])(void) = {
        new_mesh, set_mesh, new_table, apply, refine, new_level, new_rows, new_row_points, new_parts, use_session, store_table, run,
    };
    for (unsigned long i = 0; i < sequences; i++) {
        new_mesh();
        for (uint32_t length = below(8); length > 0; length--) calls[below(below(8) ? 11 : 12)]();
    }
    for (int i = 0; i < HANDLES; i++) {
        drillolive_mesh_free(meshes[i]);
        drillolive_table_free(tables[i]);
        drillolive_points_free(points[i]);
        drillolive_level_free(levels[i]);
        drillolive_output_free(outputs[i]);
        drillolive_origins_free(origins[i]);
        drillolive_sparse_free(sparses[i]);
        drillolive_session_free(sessions[i]);
    }
}
