/* Points: of a level, of the limit surface, of a patch, and of texture. */
#include "private.h"

#include <stdlib.h>

void drillolive_points_free(drillolive_points *points) {
    if (!is_handle(points, POINTS_WORD)) return;
    free(points->numbers);
    free(points->denominators);
    release(points);
}

drillolive_points *take_points(enum form form, size_t count, size_t components) {
    drillolive_points *points = count <= PTRDIFF_MAX / components ? take(1, sizeof *points) : NULL;
    if (!points) return NULL;
    *points = (drillolive_points){.word = POINTS_WORD, .form = form, .count = count, .components = components};
    points->numbers = take(components * count, size_of(form));
    points->denominators = form == EXACT ? take(count, sizeof *points->denominators) : NULL;
    if (points->numbers && (form != EXACT || points->denominators)) return points;
    drillolive_points_free(points);
    return NULL;
}

/* ---- Points of a level, each by one export ---- */

static uint32_t fill_points(drillolive_points *points, const struct far_mesh *mesh, uint32_t depth, uint64_t *count, struct far_fault *held) {
    size_t room = 3 * points->count;
    if (points->form == DOUBLES) return far_points_doubles(mesh, depth, count, points->numbers, room, held);
    if (points->form == FLOATS) return far_points_floats(mesh, depth, count, points->numbers, room, held);
    return far_points_exact(mesh, depth, count, points->numbers, room, points->denominators, points->count, held);
}

/* Gives back the room that is not needed, and makes numbers of the bits. */
static void fit_points(drillolive_points *points, size_t count) {
    points->count = count;
    points->numbers = shrink(points->numbers, 3 * count, size_of(points->form));
    if (points->form == DOUBLES) make_doubles(points->numbers, 3 * count);
    if (points->form == FLOATS) make_floats(points->numbers, 3 * count);
    if (points->form == EXACT) points->denominators = shrink(points->denominators, count, sizeof *points->denominators);
}

static drillolive_fault refine_once(const struct far_mesh *mesh, uint32_t depth, enum form form, uint64_t *count, drillolive_points **out) {
    struct far_fault held = {0, 0, 0, 0};
    drillolive_points *points = take_points(form, (size_t)*count, 3);
    if (!points) return memory_fault();
    drillolive_fault fault = fault_of_export(fill_points(points, mesh, depth, count, &held), &held);
    if (fault.status) {
        drillolive_points_free(points);
        return fault;
    }
    fit_points(points, (size_t)*count);
    *out = points;
    return fault;
}

static drillolive_fault refine(const drillolive_mesh *mesh, uint32_t depth, enum form form, drillolive_points **out) {
    if (!out) return fault_of(DRILLOLIVE_NULL, 0, 2, 0);
    *out = NULL;
    drillolive_fault fault = check_handle(mesh, MESH_WORD, 0);
    if (fault.status) return fault;
    struct far_mesh view = view_of(mesh);
    uint64_t count = bound_of_level(&view, depth).points;
    fault = refine_once(&view, depth, form, &count, out);
    return fault.status == DRILLOLIVE_TOO_SHORT ? refine_once(&view, depth, form, &count, out) : fault;
}

drillolive_fault drillolive_refine_doubles(const drillolive_mesh *mesh, uint32_t depth, drillolive_points **out) {
    return refine(mesh, depth, DOUBLES, out);
}

drillolive_fault drillolive_refine_floats(const drillolive_mesh *mesh, uint32_t depth, drillolive_points **out) {
    return refine(mesh, depth, FLOATS, out);
}

drillolive_fault drillolive_refine_exact(const drillolive_mesh *mesh, uint32_t depth, drillolive_points **out) {
    return refine(mesh, depth, EXACT, out);
}

/* ---- Points of other rows: an exact table, evaluated over the exact points of the mesh or of its texture ---- */

/* What a table is evaluated over. `own` is the caller's to free. */
struct controls {
    const struct far_wide *numbers;
    struct far_wide *own, scale;
    size_t components;
};

/* The values of the points of the cut mesh, of which there are so many. */
static drillolive_fault texture_controls(const struct far_mesh *mesh, uint32_t seams, size_t count, struct controls *out) {
    struct far_fault held = {0, 0, 0, 0};
    uint64_t found = 0;
    out->own = take(2 * count, sizeof *out->own);
    if (!out->own) return memory_fault();
    *out = (struct controls){out->own, out->own, mesh->texture_scale, 2};
    return fault_of_export(far_texture_values(mesh, seams, &found, out->own, 2 * count, &held), &held);
}

static drillolive_fault controls_of(const struct far_mesh *mesh, const struct far_rows *request, size_t count, struct controls *out) {
    *out = (struct controls){(const struct far_wide *)mesh->points, NULL, mesh->scale, 3};
    return request->kind == TEXTURE_ROWS ? texture_controls(mesh, request->seams, count, out) : fault_of(DRILLOLIVE_DONE, 0, 0, 0);
}

/* Rounds exact points, or gives each its whole denominator. */
static drillolive_fault finish_points(drillolive_points **exact, const drillolive_table *table, struct far_wide scale, enum form form) {
    drillolive_points *points = *exact;
    size_t numbers = points->components * points->count;
    struct far_fraction_arrays fractions = {
        points->numbers, numbers, table->denominators, table->rows, (uint32_t)points->components, scale,
    };
    if (form == EXACT) {
        for (size_t i = 0; i < points->count; i++) points->denominators[i] = product_of(table->denominators[i], scale);
        return fault_of(DRILLOLIVE_DONE, 0, 0, 0);
    }
    drillolive_points *rounded = take_points(form, points->count, points->components);
    if (!rounded) return memory_fault();
    drillolive_fault fault = round_to(form, &fractions, rounded->numbers);
    *exact = fault.status ? points : rounded;
    drillolive_points_free(fault.status ? rounded : points);
    return fault;
}

static drillolive_fault evaluate(const drillolive_table *table, const struct controls *controls, enum form form, drillolive_points **out) {
    drillolive_points *points = take_points(EXACT, table->rows, controls->components);
    if (!points) return memory_fault();
    drillolive_fault fault = apply_exact(table, controls->numbers, controls->components, 0, table->rows, points->numbers);
    if (!fault.status) fault = finish_points(&points, table, controls->scale, form);
    if (fault.status) drillolive_points_free(points);
    else *out = points;
    return fault;
}

/* The points of the rows that a caller asks for. `out` is the argument with this number. */
static drillolive_fault new_points(const drillolive_mesh *mesh, struct far_rows request, enum drillolive_form form, uint64_t out_at,
                                   drillolive_points **out) {
    drillolive_table *table = NULL;
    struct controls controls = {NULL, NULL, {1, 0}, 3};
    if (!out) return fault_of(DRILLOLIVE_NULL, 0, out_at, 0);
    *out = NULL;
    drillolive_fault fault = check_handle(mesh, MESH_WORD, 0);
    if (fault.status) return fault;
    if (!is_form(form)) return fault_of(DRILLOLIVE_BAD_ARGUMENT, 0, 0, 0);
    struct far_mesh view = view_of(mesh);
    fault = make_table(&view, &request, EXACT, &table);
    if (!fault.status) fault = controls_of(&view, &request, table->controls, &controls);
    if (!fault.status) fault = evaluate(table, &controls, (enum form)form, out);
    free(controls.own);
    drillolive_table_free(table);
    return fault;
}

drillolive_fault drillolive_points_new_limit(const drillolive_mesh *mesh, uint32_t depth, enum drillolive_form form, drillolive_points **out) {
    return new_points(mesh, (struct far_rows){LIMIT_ROWS, depth, 0, 0, 0}, form, 3, out);
}

drillolive_fault drillolive_points_new_patch(const drillolive_mesh *mesh, uint32_t depth, uint32_t face, uint32_t grid, enum drillolive_form form,
                                             drillolive_points **out) {
    return new_points(mesh, (struct far_rows){PATCH_ROWS, depth, 0, face, grid}, form, 5, out);
}

drillolive_fault drillolive_points_new_texture(const drillolive_mesh *mesh, uint32_t depth, enum drillolive_seams seams, enum drillolive_form form,
                                               drillolive_points **out) {
    return new_points(mesh, (struct far_rows){TEXTURE_ROWS, depth, (uint32_t)seams, 0, 0}, form, 4, out);
}

/* ---- What points have ---- */

size_t drillolive_points_count(const drillolive_points *points) {
    return is_handle(points, POINTS_WORD) ? points->count : 0;
}

size_t drillolive_points_components(const drillolive_points *points) {
    return is_handle(points, POINTS_WORD) ? points->components : 0;
}

static bool has_form(const drillolive_points *points, enum form form) {
    return is_handle(points, POINTS_WORD) && points->form == form;
}

const double *drillolive_points_doubles(const drillolive_points *points) {
    return has_form(points, DOUBLES) ? points->numbers : NULL;
}

const float *drillolive_points_floats(const drillolive_points *points) {
    return has_form(points, FLOATS) ? points->numbers : NULL;
}

const drillolive_wide *drillolive_points_numerators(const drillolive_points *points) {
    return has_form(points, EXACT) ? points->numbers : NULL;
}

const drillolive_wide *drillolive_points_denominators(const drillolive_points *points) {
    return has_form(points, EXACT) ? (const drillolive_wide *)points->denominators : NULL;
}
