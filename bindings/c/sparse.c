/* Sparse levels: the faces and points that refinement keeps where it goes on only at features. */
#include "private.h"

#include <stdlib.h>

void drillolive_sparse_free(drillolive_sparse *sparse) {
    if (!is_handle(sparse, SPARSE_WORD)) return;
    struct far_sparse_places *of = &sparse->of;
    free(of->level_points);
    free(of->level_faces);
    free(of->kinds);
    free(of->numbers);
    free(of->sizes);
    free(of->corners);
    free(of->numerators);
    free(of->denominators);
    free(sparse->rounded);
    release(sparse);
}

/* Sparse levels with room for so many items, or NULL. */
static drillolive_sparse *take_sparse(const struct far_sparse_counts *room) {
    drillolive_sparse *sparse = room->points <= PTRDIFF_MAX / 3 ? take(1, sizeof *sparse) : NULL;
    if (!sparse) return NULL;
    *sparse = (drillolive_sparse){.word = SPARSE_WORD, .form = EXACT};
    struct far_sparse_places *of = &sparse->of;
    *of = (struct far_sparse_places){
        take(room->levels, sizeof *of->level_points), room->levels,
        take(room->levels, sizeof *of->level_faces), room->levels,
        take(room->faces, sizeof *of->kinds), room->faces,
        take(room->faces, sizeof *of->numbers), room->faces,
        take(room->faces, sizeof *of->sizes), room->faces,
        take(room->corners, sizeof *of->corners), room->corners,
        take(3 * room->points, sizeof *of->numerators), 3 * room->points,
        take(room->points, sizeof *of->denominators), room->points,
    };
    bool faces = of->level_points && of->level_faces && of->kinds && of->numbers && of->sizes && of->corners;
    if (faces && of->numerators && of->denominators) return sparse;
    drillolive_sparse_free(sparse);
    return NULL;
}

static void fit_sparse(drillolive_sparse *sparse, const struct far_sparse_counts *counts) {
    struct far_sparse_places *of = &sparse->of;
    of->level_points_len = of->level_faces_len = counts->levels;
    of->kinds_len = of->numbers_len = of->sizes_len = (size_t)counts->faces;
    of->corners_len = (size_t)counts->corners;
    of->denominators_len = (size_t)counts->points;
    of->numerators_len = 3 * of->denominators_len;
    of->kinds = shrink(of->kinds, of->kinds_len, sizeof *of->kinds);
    of->numbers = shrink(of->numbers, of->numbers_len, sizeof *of->numbers);
    of->sizes = shrink(of->sizes, of->sizes_len, sizeof *of->sizes);
    of->corners = shrink(of->corners, of->corners_len, sizeof *of->corners);
    of->numerators = shrink(of->numerators, of->numerators_len, sizeof *of->numerators);
    of->denominators = shrink(of->denominators, of->denominators_len, sizeof *of->denominators);
}

/* Rounds the points, where they are not to be exact. */
static drillolive_fault finish_sparse(drillolive_sparse *sparse, enum form form) {
    struct far_sparse_places *of = &sparse->of;
    struct far_fraction_arrays fractions = {of->numerators, of->numerators_len, of->denominators, of->denominators_len, 3, {1, 0}};
    if (form == EXACT) return fault_of(DRILLOLIVE_DONE, 0, 0, 0);
    sparse->form = form;
    sparse->rounded = take(of->numerators_len, size_of(form));
    if (!sparse->rounded) return memory_fault();
    drillolive_fault fault = round_to(form, &fractions, sparse->rounded);
    free(of->numerators);
    free(of->denominators);
    of->numerators = of->denominators = NULL;
    return fault;
}

/* Makes sparse levels in as much room as the counts say, which become those that they need. */
static drillolive_fault make_once(const struct far_mesh *mesh, const struct far_sparse_request *request, enum form form,
                                  struct far_sparse_counts *counts, drillolive_sparse **out) {
    struct far_fault held = {0, 0, 0, 0};
    drillolive_sparse *sparse = take_sparse(counts);
    if (!sparse) return memory_fault();
    drillolive_fault fault = fault_of_export(far_sparse(mesh, request, counts, &sparse->of, &held), &held);
    if (!fault.status) {
        fit_sparse(sparse, counts);
        fault = finish_sparse(sparse, form);
    }
    if (fault.status) drillolive_sparse_free(sparse);
    else *out = sparse;
    return fault;
}

/* A guess at how many items the levels have: twice the faces of level 1 for each level. */
static struct far_sparse_counts guess_sparse(const struct far_mesh *mesh, uint32_t depth) {
    const struct far_sparse_counts none = {0, 0, 0, 0};
    if (depth > DEPTH_LIMIT || mesh->corners_len > LEVEL_FACE_LIMIT || mesh->points_len > POINT_LIMIT) return none;
    uint64_t faces = mesh->face_sizes_len + 2 * (uint64_t)depth * mesh->corners_len;
    struct far_sparse_counts counts = {depth + 1, mesh->points_len + faces, faces, 4 * faces};
    return counts;
}

drillolive_fault drillolive_sparse_new(const drillolive_mesh *mesh, uint32_t depth, enum drillolive_select select, enum drillolive_form form,
                                       drillolive_sparse **out) {
    struct far_sparse_request request = {depth, (uint32_t)select};
    if (!out) return fault_of(DRILLOLIVE_NULL, 0, 4, 0);
    *out = NULL;
    drillolive_fault fault = check_handle(mesh, MESH_WORD, 0);
    if (fault.status) return fault;
    if (!is_form(form)) return fault_of(DRILLOLIVE_BAD_ARGUMENT, 0, 0, 0);
    struct far_mesh view = view_of(mesh);
    struct far_sparse_counts counts = guess_sparse(&view, depth);
    fault = make_once(&view, &request, (enum form)form, &counts, out);
    return fault.status == DRILLOLIVE_TOO_SHORT ? make_once(&view, &request, (enum form)form, &counts, out) : fault;
}

/* ---- What sparse levels have ---- */

drillolive_fault drillolive_sparse_count(const drillolive_sparse *sparse, drillolive_sparse_counts *out) {
    drillolive_fault fault = check_handle(sparse, SPARSE_WORD, 0);
    if (fault.status) return fault;
    if (!out) return fault_of(DRILLOLIVE_NULL, 0, 1, 0);
    const struct far_sparse_places *of = &sparse->of;
    drillolive_sparse_counts counts = {of->level_points_len, of->denominators_len, of->kinds_len, of->corners_len};
    *out = counts;
    return fault;
}

const uint32_t *drillolive_sparse_level_points(const drillolive_sparse *sparse) {
    return is_handle(sparse, SPARSE_WORD) ? sparse->of.level_points : NULL;
}

const uint32_t *drillolive_sparse_level_faces(const drillolive_sparse *sparse) {
    return is_handle(sparse, SPARSE_WORD) ? sparse->of.level_faces : NULL;
}

const uint8_t *drillolive_sparse_kinds(const drillolive_sparse *sparse) {
    return is_handle(sparse, SPARSE_WORD) ? sparse->of.kinds : NULL;
}

const uint64_t *drillolive_sparse_numbers(const drillolive_sparse *sparse) {
    return is_handle(sparse, SPARSE_WORD) ? sparse->of.numbers : NULL;
}

const uint32_t *drillolive_sparse_face_sizes(const drillolive_sparse *sparse) {
    return is_handle(sparse, SPARSE_WORD) ? sparse->of.sizes : NULL;
}

const uint32_t *drillolive_sparse_corners(const drillolive_sparse *sparse) {
    return is_handle(sparse, SPARSE_WORD) ? sparse->of.corners : NULL;
}

static bool has_form(const drillolive_sparse *sparse, enum form form) {
    return is_handle(sparse, SPARSE_WORD) && sparse->form == form;
}

const double *drillolive_sparse_doubles(const drillolive_sparse *sparse) {
    return has_form(sparse, DOUBLES) ? sparse->rounded : NULL;
}

const float *drillolive_sparse_floats(const drillolive_sparse *sparse) {
    return has_form(sparse, FLOATS) ? sparse->rounded : NULL;
}

const drillolive_wide *drillolive_sparse_numerators(const drillolive_sparse *sparse) {
    return has_form(sparse, EXACT) ? (const drillolive_wide *)sparse->of.numerators : NULL;
}

const drillolive_wide *drillolive_sparse_denominators(const drillolive_sparse *sparse) {
    return has_form(sparse, EXACT) ? (const drillolive_wide *)sparse->of.denominators : NULL;
}
