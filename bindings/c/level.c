/* Levels: their faces and edges, and where their points and faces come from. */
#include "private.h"

#include <stdlib.h>

/* The level is that of the mesh itself, and of no texture. */
enum { NO_SEAMS = UINT8_MAX };

void drillolive_level_free(drillolive_level *level) {
    if (!is_handle(level, LEVEL_WORD)) return;
    free(level->of.face_sizes);
    free(level->of.corners);
    free(level->of.edges);
    free(level->of.holes);
    free(level->cage_starts);
    release(level);
}

/* Notes where the corners of each face of the mesh begin. */
static bool take_cage(drillolive_level *level, const struct far_mesh *mesh) {
    size_t faces = mesh->face_sizes_len;
    level->cage_faces = faces;
    level->cage_starts = take(faces + 1, sizeof *level->cage_starts);
    if (!level->cage_starts) return false;
    level->cage_starts[0] = 0;
    for (size_t face = 0; face < faces; face++) level->cage_starts[face + 1] = level->cage_starts[face] + mesh->face_sizes[face];
    return true;
}

/* A level with room for so many items, or NULL. */
static drillolive_level *take_level(const struct far_mesh *mesh, uint32_t depth, struct level_bound room) {
    drillolive_level *level = room.edges <= SIZE_MAX / 2 ? take(1, sizeof *level) : NULL;
    if (!level) return NULL;
    *level = (drillolive_level){.word = LEVEL_WORD, .depth = depth};
    level->of = (struct far_level_places){
        take(room.faces, sizeof *level->of.face_sizes), room.faces,
        take(room.corners, sizeof *level->of.corners), room.corners,
        take(2 * room.edges, sizeof *level->of.edges), 2 * room.edges,
        take(room.faces, sizeof *level->of.holes), room.faces,
    };
    bool taken = take_cage(level, mesh);
    if (taken && level->of.face_sizes && level->of.corners && level->of.edges && level->of.holes) return level;
    drillolive_level_free(level);
    return NULL;
}

static void fit_level(drillolive_level *level, const struct far_level_counts *counts) {
    struct far_level_places *of = &level->of;
    level->points = counts->points;
    of->face_sizes_len = of->holes_len = counts->faces;
    of->corners_len = counts->corners;
    of->edges_len = 2 * (size_t)counts->edges;
    of->face_sizes = shrink(of->face_sizes, of->face_sizes_len, sizeof *of->face_sizes);
    of->corners = shrink(of->corners, of->corners_len, sizeof *of->corners);
    of->edges = shrink(of->edges, of->edges_len, sizeof *of->edges);
    of->holes = shrink(of->holes, of->holes_len, sizeof *of->holes);
}

static uint32_t fill_level(drillolive_level *level, const struct far_mesh *mesh, uint32_t seams, struct far_level_counts *counts,
                           struct far_fault *held) {
    if (seams == NO_SEAMS) return far_level(mesh, level->depth, counts, &level->of, held);
    return far_texture_level(mesh, seams, level->depth, counts, &level->of, held);
}

static drillolive_fault make_level(const struct far_mesh *mesh, uint32_t seams, uint32_t depth, struct level_bound *room, drillolive_level **out) {
    struct far_fault held = {0, 0, 0, 0};
    struct far_level_counts counts = {0, 0, 0, 0};
    drillolive_level *level = take_level(mesh, depth, *room);
    if (!level) return memory_fault();
    drillolive_fault fault = fault_of_export(fill_level(level, mesh, seams, &counts, &held), &held);
    if (fault.status) {
        drillolive_level_free(level);
        *room = (struct level_bound){counts.points, counts.edges, counts.faces, counts.corners};
        return fault;
    }
    fit_level(level, &counts);
    *out = level;
    return fault;
}

static drillolive_fault new_level(const drillolive_mesh *mesh, uint32_t seams, uint32_t depth, drillolive_level **out) {
    *out = NULL;
    drillolive_fault fault = check_handle(mesh, MESH_WORD, 0);
    if (fault.status) return fault;
    struct far_mesh view = view_of(mesh);
    struct level_bound room = bound_of_level(&view, depth);
    fault = make_level(&view, seams, depth, &room, out);
    return fault.status == DRILLOLIVE_TOO_SHORT ? make_level(&view, seams, depth, &room, out) : fault;
}

drillolive_fault drillolive_level_new(const drillolive_mesh *mesh, uint32_t depth, drillolive_level **out) {
    return out ? new_level(mesh, NO_SEAMS, depth, out) : fault_of(DRILLOLIVE_NULL, 0, 2, 0);
}

drillolive_fault drillolive_level_new_texture(const drillolive_mesh *mesh, uint32_t depth, enum drillolive_seams seams, drillolive_level **out) {
    if (!out) return fault_of(DRILLOLIVE_NULL, 0, 3, 0);
    *out = NULL;
    if ((uint32_t)seams > DRILLOLIVE_SEAMS_LINEAR) return fault_of(DRILLOLIVE_BAD_ARGUMENT, 0, 0, 0);
    return new_level(mesh, (uint32_t)seams, depth, out);
}

/* Level 0 without room for anything: what is wrong with the mesh comes first, and else the want of room. */
drillolive_fault drillolive_mesh_check(const drillolive_mesh *mesh) {
    struct far_fault held = {0, 0, 0, 0};
    struct far_level_counts counts;
    uint32_t sizes, corners, edges;
    uint8_t holes;
    struct far_level_places none = {&sizes, 0, &corners, 0, &edges, 0, &holes, 0};
    drillolive_fault fault = check_handle(mesh, MESH_WORD, 0);
    if (fault.status) return fault;
    struct far_mesh view = view_of(mesh);
    fault = fault_of_export(far_level(&view, 0, &counts, &none, &held), &held);
    return fault.status == DRILLOLIVE_TOO_SHORT ? fault_of(DRILLOLIVE_DONE, 0, 0, 0) : fault;
}

drillolive_fault drillolive_level_count(const drillolive_level *level, drillolive_level_counts *out) {
    drillolive_fault fault = check_handle(level, LEVEL_WORD, 0);
    if (fault.status) return fault;
    if (!out) return fault_of(DRILLOLIVE_NULL, 0, 1, 0);
    drillolive_level_counts counts = {level->points, level->of.edges_len / 2, level->of.face_sizes_len, level->of.corners_len};
    *out = counts;
    return fault;
}

const uint32_t *drillolive_level_face_sizes(const drillolive_level *level) {
    return is_handle(level, LEVEL_WORD) ? level->of.face_sizes : NULL;
}

const uint32_t *drillolive_level_corners(const drillolive_level *level) {
    return is_handle(level, LEVEL_WORD) ? level->of.corners : NULL;
}

const uint32_t *drillolive_level_edges(const drillolive_level *level) {
    return is_handle(level, LEVEL_WORD) ? level->of.edges : NULL;
}

const uint8_t *drillolive_level_holes(const drillolive_level *level) {
    return is_handle(level, LEVEL_WORD) ? level->of.holes : NULL;
}

/* The face whose corners have this one among them: the last that begins at it or before. */
static size_t face_of_corner(const drillolive_level *level, size_t corner) {
    size_t low = 0, high = level->cage_faces;
    while (high - low > 1) {
        size_t middle = low + (high - low) / 2;
        if (level->cage_starts[middle] <= corner) low = middle;
        else high = middle;
    }
    return low;
}

drillolive_fault drillolive_level_face_parent(const drillolive_level *level, size_t face, size_t *out) {
    drillolive_fault fault = check_handle(level, LEVEL_WORD, 0);
    if (fault.status) return fault;
    if (!out) return fault_of(DRILLOLIVE_NULL, 0, 2, 0);
    if (face >= level->of.face_sizes_len) return fault_of(DRILLOLIVE_RANGE, DRILLOLIVE_RANGE_INDEX, face, level->of.face_sizes_len);
    *out = level->depth == 0 ? face : face_of_corner(level, face >> 2 * (level->depth - 1));
    return fault;
}

/* ---- Origins ---- */

void drillolive_origins_free(drillolive_origins *origins) {
    if (!is_handle(origins, ORIGINS_WORD)) return;
    free(origins->of.kinds);
    free(origins->of.numbers);
    free(origins->of.faces);
    release(origins);
}

/* Origins with room for so many points and faces, or NULL. */
static drillolive_origins *take_origins(const struct far_origin_counts *room) {
    drillolive_origins *origins = take(1, sizeof *origins);
    if (!origins) return NULL;
    *origins = (drillolive_origins){.word = ORIGINS_WORD};
    origins->of = (struct far_origin_places){
        take(room->points, sizeof *origins->of.kinds), room->points,
        take(room->points, sizeof *origins->of.numbers), room->points,
        take(room->faces, sizeof *origins->of.faces), room->faces,
    };
    if (origins->of.kinds && origins->of.numbers && origins->of.faces) return origins;
    drillolive_origins_free(origins);
    return NULL;
}

static void fit_origins(drillolive_origins *origins, const struct far_origin_counts *counts) {
    struct far_origin_places *of = &origins->of;
    of->kinds_len = of->numbers_len = counts->points;
    of->faces_len = counts->faces;
    of->kinds = shrink(of->kinds, of->kinds_len, sizeof *of->kinds);
    of->numbers = shrink(of->numbers, of->numbers_len, sizeof *of->numbers);
    of->faces = shrink(of->faces, of->faces_len, sizeof *of->faces);
}

static drillolive_fault make_origins(const struct far_mesh *mesh, uint32_t depth, struct far_origin_counts *counts, drillolive_origins **out) {
    struct far_fault held = {0, 0, 0, 0};
    drillolive_origins *origins = take_origins(counts);
    if (!origins) return memory_fault();
    drillolive_fault fault = fault_of_export(far_origins(mesh, depth, counts, &origins->of, &held), &held);
    if (fault.status) {
        drillolive_origins_free(origins);
        return fault;
    }
    fit_origins(origins, counts);
    *out = origins;
    return fault;
}

drillolive_fault drillolive_origins_new(const drillolive_mesh *mesh, uint32_t depth, drillolive_origins **out) {
    if (!out) return fault_of(DRILLOLIVE_NULL, 0, 2, 0);
    *out = NULL;
    drillolive_fault fault = check_handle(mesh, MESH_WORD, 0);
    if (fault.status) return fault;
    struct far_mesh view = view_of(mesh);
    struct level_bound bound = bound_of_level(&view, depth);
    struct far_origin_counts counts = {(uint32_t)bound.points, (uint32_t)bound.faces};
    fault = make_origins(&view, depth, &counts, out);
    return fault.status == DRILLOLIVE_TOO_SHORT ? make_origins(&view, depth, &counts, out) : fault;
}

size_t drillolive_origins_points(const drillolive_origins *origins) {
    return is_handle(origins, ORIGINS_WORD) ? origins->of.kinds_len : 0;
}

size_t drillolive_origins_faces(const drillolive_origins *origins) {
    return is_handle(origins, ORIGINS_WORD) ? origins->of.faces_len : 0;
}

const uint8_t *drillolive_origins_kinds(const drillolive_origins *origins) {
    return is_handle(origins, ORIGINS_WORD) ? origins->of.kinds : NULL;
}

const uint32_t *drillolive_origins_numbers(const drillolive_origins *origins) {
    return is_handle(origins, ORIGINS_WORD) ? origins->of.numbers : NULL;
}

const uint32_t *drillolive_origins_face_parents(const drillolive_origins *origins) {
    return is_handle(origins, ORIGINS_WORD) ? origins->of.faces : NULL;
}
