/* Tables of stencils, and their evaluation. */
#include "private.h"

#include <stdlib.h>

/* At most how many entries the first step makes. The point of a face of n corners has n. The point of an edge has n1 + n2 - 2 at most, by its two
   faces. The point of a point has 3, or 1 and n - 2 for each face. */
static uint64_t entries_of_one_step(const struct far_mesh *mesh) {
    uint64_t entries = 3 * (uint64_t)mesh->points_len;
    for (size_t face = 0; face < mesh->face_sizes_len && entries < ENTRY_LIMIT; face++) {
        uint64_t size = mesh->face_sizes[face];
        entries += 2 * size * size;
    }
    return entries;
}

/* At most how many rows there are. A cut mesh has at most a point more for each corner. */
static size_t bound_of_rows(const struct far_mesh *mesh, const struct far_rows *request) {
    size_t side = (size_t)request->grid + 1;
    if (request->kind == PATCH_ROWS) return request->grid < 1 << 12 ? side * side : 0;
    size_t points = bound_of_level(mesh, request->depth).points;
    return request->kind == TEXTURE_ROWS && points ? points + mesh->corners_len : points;
}

/* A guess at the entries of a table. From the second step on a row of a regular mesh has at most 16, and one of a limit point or a patch 25. */
static size_t guess_entries(const struct far_mesh *mesh, const struct far_rows *request, size_t rows) {
    bool is_level = request->kind == POINT_ROWS || request->kind == TEXTURE_ROWS;
    uint64_t entries = (is_level ? 16 : 25) * (uint64_t)rows;
    if (is_level && request->depth == 0) entries = rows;
    if (is_level && request->depth == 1) entries = entries_of_one_step(mesh);
    return entries < ENTRY_LIMIT ? (size_t)entries : ENTRY_LIMIT;
}

void drillolive_table_free(drillolive_table *table) {
    if (!is_handle(table, TABLE_WORD)) return;
    free(table->starts);
    free(table->indices);
    free(table->weights);
    free(table->denominators);
    release(table);
}

drillolive_table *take_table(enum form form, size_t rows, size_t entries) {
    drillolive_table *table = take(1, sizeof *table);
    if (!table) return NULL;
    *table = (drillolive_table){.word = TABLE_WORD, .form = form, .rows = rows, .entries = entries};
    table->starts = take(rows + 1, sizeof *table->starts);
    table->indices = take(entries, sizeof *table->indices);
    table->weights = take(entries, size_of(form));
    table->denominators = form == EXACT ? take(rows, sizeof *table->denominators) : NULL;
    if (table->starts && table->indices && table->weights && (form != EXACT || table->denominators)) return table;
    drillolive_table_free(table);
    return NULL;
}

struct far_exact_places places_of(drillolive_table *table) {
    struct far_exact_places places = {
        table->starts, table->rows + 1, table->indices, table->entries, table->weights, table->entries, table->denominators, table->rows,
    };
    return places;
}

static uint32_t fill(drillolive_table *t, const struct far_mesh *mesh, const struct far_rows *request, struct far_table_counts *counts,
                     struct far_fault *held) {
    if (t->form == EXACT) {
        struct far_exact_places to = places_of(t);
        return far_table_exact(mesh, request, counts, &to, held);
    }
    if (t->form == FLOATS) {
        struct far_float_places to = {t->starts, t->rows + 1, t->indices, t->entries, t->weights, t->entries};
        return far_table_floats(mesh, request, counts, &to, held);
    }
    struct far_double_places to = {t->starts, t->rows + 1, t->indices, t->entries, t->weights, t->entries};
    return far_table_doubles(mesh, request, counts, &to, held);
}

void fit_table(drillolive_table *table, const struct far_table_counts *counts) {
    table->controls = counts->controls;
    table->rows = counts->rows;
    table->entries = (size_t)counts->entries;
    table->starts = shrink(table->starts, table->rows + 1, sizeof *table->starts);
    table->indices = shrink(table->indices, table->entries, sizeof *table->indices);
    table->weights = shrink(table->weights, table->entries, size_of(table->form));
    if (table->form == DOUBLES) make_doubles(table->weights, table->entries);
    if (table->form == FLOATS) make_floats(table->weights, table->entries);
    if (table->form == EXACT) table->denominators = shrink(table->denominators, table->rows, sizeof *table->denominators);
}

/* Makes a table in as much room as the counts say, which become those that it needs. */
static drillolive_fault make_once(const struct far_mesh *mesh, const struct far_rows *request, enum form form, struct far_table_counts *counts,
                                  drillolive_table **out) {
    struct far_fault held = {0, 0, 0, 0};
    drillolive_table *table = take_table(form, counts->rows, (size_t)counts->entries);
    if (!table) return memory_fault();
    drillolive_fault fault = fault_of_export(fill(table, mesh, request, counts, &held), &held);
    if (fault.status) {
        drillolive_table_free(table);
        return fault;
    }
    fit_table(table, counts);
    *out = table;
    return fault;
}

drillolive_fault make_table(const struct far_mesh *mesh, const struct far_rows *request, enum form form, drillolive_table **out) {
    size_t rows = bound_of_rows(mesh, request);
    struct far_table_counts counts = {0, (uint32_t)rows, guess_entries(mesh, request, rows)};
    drillolive_fault fault = make_once(mesh, request, form, &counts, out);
    return fault.status == DRILLOLIVE_TOO_SHORT ? make_once(mesh, request, form, &counts, out) : fault;
}

/* The table that a caller asks for. `out` is the argument with this number. */
static drillolive_fault new_table(const drillolive_mesh *mesh, struct far_rows request, enum drillolive_form form, uint64_t out_at,
                                  drillolive_table **out) {
    if (!out) return fault_of(DRILLOLIVE_NULL, 0, out_at, 0);
    *out = NULL;
    drillolive_fault fault = check_handle(mesh, MESH_WORD, 0);
    if (fault.status) return fault;
    if (!is_form(form)) return fault_of(DRILLOLIVE_BAD_ARGUMENT, 0, 0, 0);
    struct far_mesh view = view_of(mesh);
    return make_table(&view, &request, (enum form)form, out);
}

drillolive_fault drillolive_table_new_doubles(const drillolive_mesh *mesh, uint32_t depth, drillolive_table **out) {
    return new_table(mesh, (struct far_rows){POINT_ROWS, depth, 0, 0, 0}, DRILLOLIVE_DOUBLES, 2, out);
}

drillolive_fault drillolive_table_new_floats(const drillolive_mesh *mesh, uint32_t depth, drillolive_table **out) {
    return new_table(mesh, (struct far_rows){POINT_ROWS, depth, 0, 0, 0}, DRILLOLIVE_FLOATS, 2, out);
}

drillolive_fault drillolive_table_new_exact(const drillolive_mesh *mesh, uint32_t depth, drillolive_table **out) {
    return new_table(mesh, (struct far_rows){POINT_ROWS, depth, 0, 0, 0}, DRILLOLIVE_EXACT, 2, out);
}

drillolive_fault drillolive_table_new_limit(const drillolive_mesh *mesh, uint32_t depth, enum drillolive_form form, drillolive_table **out) {
    return new_table(mesh, (struct far_rows){LIMIT_ROWS, depth, 0, 0, 0}, form, 3, out);
}

drillolive_fault drillolive_table_new_patch(const drillolive_mesh *mesh, uint32_t depth, uint32_t face, uint32_t grid, enum drillolive_form form,
                                            drillolive_table **out) {
    return new_table(mesh, (struct far_rows){PATCH_ROWS, depth, 0, face, grid}, form, 5, out);
}

drillolive_fault drillolive_table_new_texture(const drillolive_mesh *mesh, uint32_t depth, enum drillolive_seams seams, enum drillolive_form form,
                                              drillolive_table **out) {
    return new_table(mesh, (struct far_rows){TEXTURE_ROWS, depth, (uint32_t)seams, 0, 0}, form, 4, out);
}

drillolive_fault drillolive_table_count(const drillolive_table *table, drillolive_table_counts *out) {
    drillolive_fault fault = check_handle(table, TABLE_WORD, 0);
    if (fault.status) return fault;
    if (!out) return fault_of(DRILLOLIVE_NULL, 0, 1, 0);
    drillolive_table_counts counts = {table->controls, table->rows, table->entries};
    *out = counts;
    return fault;
}

static bool has_form(const drillolive_table *table, enum form form) {
    return is_handle(table, TABLE_WORD) && table->form == form;
}

const uint32_t *drillolive_table_starts(const drillolive_table *table) {
    return is_handle(table, TABLE_WORD) ? table->starts : NULL;
}

const uint32_t *drillolive_table_indices(const drillolive_table *table) {
    return is_handle(table, TABLE_WORD) ? table->indices : NULL;
}

const double *drillolive_table_doubles(const drillolive_table *table) {
    return has_form(table, DOUBLES) ? table->weights : NULL;
}

const float *drillolive_table_floats(const drillolive_table *table) {
    return has_form(table, FLOATS) ? table->weights : NULL;
}

const drillolive_wide *drillolive_table_numerators(const drillolive_table *table) {
    return has_form(table, EXACT) ? table->weights : NULL;
}

const drillolive_wide *drillolive_table_denominators(const drillolive_table *table) {
    return has_form(table, EXACT) ? (const drillolive_wide *)table->denominators : NULL;
}

/* ---- Evaluation ---- */

#define NUMBER double
#define SUM_ROWS sum_rows_of_doubles
#define APPLY_ROWS apply_doubles
#include "apply_rows.h"
#undef NUMBER
#undef SUM_ROWS
#undef APPLY_ROWS

#define NUMBER float
#define SUM_ROWS sum_rows_of_floats
#define APPLY_ROWS apply_floats
#include "apply_rows.h"

drillolive_fault apply_exact(const drillolive_table *table, const struct far_wide *controls, size_t components, size_t from, size_t to,
                             struct far_wide *out) {
    struct far_fault held = {0, 0, 0, 0};
    struct far_row_arrays rows = {table->starts, table->rows + 1, table->indices, table->entries, table->weights, table->entries};
    struct far_control_arrays over = {address_of(controls), table->controls * components, (uint32_t)components};
    struct far_row_range range = {(uint32_t)from, (uint32_t)to};
    return fault_of_export(far_apply_rows(&rows, &over, &range, address_of(out), (to - from) * components, &held), &held);
}

static drillolive_fault check_apply(const drillolive_table *table, enum form form, const void *controls, size_t control_count, size_t components,
                                    size_t from, size_t to, const void *out) {
    drillolive_fault fault = check_handle(table, TABLE_WORD, 0);
    if (fault.status) return fault;
    if (control_count != table->controls) return length_fault(2, control_count);
    if (components == 0 || components > COMPONENT_LIMIT) return fault_of(DRILLOLIVE_RANGE, DRILLOLIVE_RANGE_COMPONENTS, components, 0);
    if (to > table->rows) return fault_of(DRILLOLIVE_RANGE, DRILLOLIVE_RANGE_INDEX, to, table->rows);
    if (from > to) return fault_of(DRILLOLIVE_RANGE, DRILLOLIVE_RANGE_INDEX, from, to);
    fault = check_array(controls, control_count, 1);
    if (!fault.status) fault = check_array(out, to - from, 6);
    return fault.status || table->form == form ? fault : fault_of(DRILLOLIVE_KIND, 0, 0, 0);
}

drillolive_fault drillolive_table_apply_doubles(const drillolive_table *table, const double *controls, size_t control_count, size_t components,
                                                size_t from, size_t to, double *out) {
    drillolive_fault fault = check_apply(table, DOUBLES, controls, control_count, components, from, to, out);
    if (!fault.status) apply_doubles(table, controls, components, from, to, out);
    return fault;
}

drillolive_fault drillolive_table_apply_floats(const drillolive_table *table, const float *controls, size_t control_count, size_t components,
                                               size_t from, size_t to, float *out) {
    drillolive_fault fault = check_apply(table, FLOATS, controls, control_count, components, from, to, out);
    if (!fault.status) apply_floats(table, controls, components, from, to, out);
    return fault;
}

drillolive_fault drillolive_table_apply_exact(const drillolive_table *table, const drillolive_wide *controls, size_t control_count,
                                              size_t components, size_t from, size_t to, drillolive_wide *out) {
    drillolive_fault fault = check_apply(table, EXACT, controls, control_count, components, from, to, out);
    return fault.status ? fault : apply_exact(table, (const struct far_wide *)controls, components, from, to, (struct far_wide *)out);
}
