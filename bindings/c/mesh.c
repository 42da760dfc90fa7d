/* Meshes: made of arrays or of OBJ text, and given tags and texture. */
#include "private.h"

#include <stdlib.h>
#include <string.h>

enum { EXACT_POINTS = -1 };

/* A caller's doubles or floats, and the grid to which they are rounded, or EXACT_POINTS. */
struct numbers {
    const void *at;
    size_t count;
    bool are_floats;
    int grid_bits;
};

static const struct far_wide ONE = {1, 0};

static drillolive_fault convert(const struct numbers *numbers, const void *bits, struct far_wide *out, struct far_wide *scale, uint64_t *changed) {
    struct far_fault held = {0, 0, 0, 0};
    size_t count = numbers->count;
    uint32_t grid = (uint32_t)numbers->grid_bits, status;
    if (numbers->grid_bits == EXACT_POINTS) {
        status = numbers->are_floats ? far_scale_floats(bits, count, out, count, scale, &held)
                                     : far_scale_doubles(bits, count, out, count, scale, &held);
    } else {
        status = numbers->are_floats ? far_round_floats(bits, count, grid, out, count, changed, &held)
                                     : far_round_doubles(bits, count, grid, out, count, changed, &held);
        if (grid < 128) *scale = grid < 64 ? (struct far_wide){UINT64_C(1) << grid, 0} : (struct far_wide){0, UINT64_C(1) << (grid - 64)};
    }
    return fault_of_export(status, &held);
}

/* Makes numerators over one denominator of doubles or floats. *out is the caller's to free where there is no fault. */
static drillolive_fault convert_numbers(const struct numbers *numbers, struct far_wide **out, struct far_wide *scale, uint64_t *changed) {
    void *bits = copy_of(numbers->at, numbers->count, numbers->are_floats ? sizeof(float) : sizeof(double));
    drillolive_fault fault = memory_fault();
    *out = take(numbers->count, sizeof **out);
    if (bits && *out) fault = convert(numbers, bits, *out, scale, changed);
    free(bits);
    if (fault.status != DRILLOLIVE_DONE) {
        free(*out);
        *out = NULL;
    }
    return fault;
}

void drillolive_mesh_free(drillolive_mesh *mesh) {
    if (!is_handle(mesh, MESH_WORD)) return;
    struct far_mesh_places *of = &mesh->of;
    free(of->points);
    free(of->texture);
    free(of->face_sizes);
    free(of->corners);
    free(of->texture_corners);
    free(of->creases);
    free(of->corner_tags);
    free(of->holes);
    release(mesh);
}

static drillolive_mesh *empty_mesh(void) {
    drillolive_mesh *mesh = take(1, sizeof *mesh);
    if (!mesh) return NULL;
    *mesh = (drillolive_mesh){.word = MESH_WORD};
    mesh->options.scale = mesh->options.texture_scale = ONE;
    mesh->options.boundary = DRILLOLIVE_BOUNDARY_EDGE_ONLY;
    mesh->options.method = DRILLOLIVE_METHOD_NORMAL;
    return mesh;
}

/* Makes a mesh of points, which it owns from then on, also where there is a fault. */
static drillolive_fault mesh_of(struct far_wide *points, size_t point_count, struct far_wide scale, drillolive_faces faces, drillolive_mesh **out) {
    drillolive_mesh *mesh = empty_mesh();
    if (!mesh) {
        free(points);
        return memory_fault();
    }
    mesh->of.points = (struct far_point *)points;
    mesh->of.points_len = point_count;
    mesh->options.scale = scale;
    mesh->of.face_sizes = copy_of(faces.sizes, faces.count, sizeof *faces.sizes);
    mesh->of.face_sizes_len = faces.count;
    mesh->of.corners = copy_of(faces.corners, faces.corner_count, sizeof *faces.corners);
    mesh->of.corners_len = faces.corner_count;
    if (!mesh->of.face_sizes || !mesh->of.corners) {
        drillolive_mesh_free(mesh);
        return memory_fault();
    }
    *out = mesh;
    return fault_of(DRILLOLIVE_DONE, 0, 0, 0);
}

/* Judges the arguments of a call that makes a mesh: numbers, their count, and faces, which are arguments from `faces_at` on. */
static drillolive_fault check_new(const void *numbers, size_t point_count, drillolive_faces faces, uint64_t faces_at) {
    drillolive_fault fault = check_array(numbers, point_count, 0);
    if (fault.status) return fault;
    if (point_count > PTRDIFF_MAX / sizeof(struct far_point)) return length_fault(faces_at - 1, point_count);
    if (faces.count > PTRDIFF_MAX / sizeof(uint32_t)) return length_fault(faces_at, faces.count);
    if (faces.corner_count > PTRDIFF_MAX / sizeof(uint32_t)) return length_fault(faces_at, faces.corner_count);
    fault = check_array(faces.sizes, faces.count, faces_at);
    return fault.status ? fault : check_array(faces.corners, faces.corner_count, faces_at);
}

static drillolive_fault mesh_of_numbers(struct numbers numbers, size_t point_count, drillolive_faces faces, uint64_t *changed, drillolive_mesh **out) {
    struct far_wide *points, scale = ONE;
    uint64_t count = 0;
    if (!out) return fault_of(DRILLOLIVE_NULL, 0, numbers.grid_bits == EXACT_POINTS ? 3 : 5, 0);
    *out = NULL;
    drillolive_fault fault = check_new(numbers.at, point_count, faces, 2);
    if (fault.status) return fault;
    numbers.count = 3 * point_count;
    fault = convert_numbers(&numbers, &points, &scale, &count);
    if (!fault.status) fault = mesh_of(points, point_count, scale, faces, out);
    if (!fault.status && changed) *changed = count;
    return fault;
}

drillolive_fault drillolive_mesh_new_doubles(const double *xyz, size_t point_count, drillolive_faces faces, drillolive_mesh **out) {
    struct numbers numbers = {xyz, 0, false, EXACT_POINTS};
    return mesh_of_numbers(numbers, point_count, faces, NULL, out);
}

drillolive_fault drillolive_mesh_new_floats(const float *xyz, size_t point_count, drillolive_faces faces, drillolive_mesh **out) {
    struct numbers numbers = {xyz, 0, true, EXACT_POINTS};
    return mesh_of_numbers(numbers, point_count, faces, NULL, out);
}

/* A grid beyond the limit stays beyond it as an int. */
static int grid_of(uint32_t grid_bits) {
    return grid_bits > 127 ? 127 : (int)grid_bits;
}

drillolive_fault drillolive_mesh_new_grid_doubles(const double *xyz, size_t point_count, drillolive_faces faces, uint32_t grid_bits,
                                                  uint64_t *changed, drillolive_mesh **out) {
    struct numbers numbers = {xyz, 0, false, grid_of(grid_bits)};
    return mesh_of_numbers(numbers, point_count, faces, changed, out);
}

drillolive_fault drillolive_mesh_new_grid_floats(const float *xyz, size_t point_count, drillolive_faces faces, uint32_t grid_bits,
                                                 uint64_t *changed, drillolive_mesh **out) {
    struct numbers numbers = {xyz, 0, true, grid_of(grid_bits)};
    return mesh_of_numbers(numbers, point_count, faces, changed, out);
}

drillolive_fault drillolive_mesh_new_exact(const int64_t *numerators, uint64_t denominator, size_t point_count, drillolive_faces faces,
                                           drillolive_mesh **out) {
    if (!out) return fault_of(DRILLOLIVE_NULL, 0, 4, 0);
    *out = NULL;
    drillolive_fault fault = check_new(numerators, point_count, faces, 3);
    if (fault.status) return fault;
    struct far_wide *points = take(3 * point_count, sizeof *points), scale = {denominator, 0};
    if (!points) return memory_fault();
    for (size_t i = 0; i < 3 * point_count; i++) {
        points[i].low = (uint64_t)numerators[i];
        points[i].high = numerators[i] < 0 ? UINT64_MAX : 0;
    }
    return mesh_of(points, point_count, scale, faces, out);
}

/* ---- OBJ text ---- */

static bool is_blank(uint8_t byte) {
    return byte == ' ' || byte == '\t' || byte == '\r';
}

/* Counts the words of a line, and leaves `at` at its end. `first` is the first byte of the first word, and `second` the next. */
static uint64_t count_words(const uint8_t *text, size_t length, size_t *at, uint8_t *first, uint8_t *second) {
    uint64_t words = 0;
    bool inside = false;
    *first = *second = 0;
    for (; *at < length && text[*at] != '\n'; ++*at) {
        bool starts = !inside && !is_blank(text[*at]);
        inside = !is_blank(text[*at]);
        if (starts && words++ == 0) {
            *first = text[*at];
            *second = *at + 1 < length ? text[*at + 1] : 0;
        }
    }
    return words;
}

/* A guess at how many items each array of the mesh of a text has, which is seldom too low. */
static struct far_mesh_counts guess_counts(const uint8_t *text, size_t length) {
    struct far_mesh_counts counts = {0, 0, 0, 0, 0, 0, 0, 0};
    uint64_t tags = 0;
    for (size_t at = length >= 3 && memcmp(text, "\xef\xbb\xbf", 3) == 0 ? 3 : 0; at < length; at++) {
        uint8_t first, second;
        uint64_t words = count_words(text, length, &at, &first, &second);
        if (first == 'v' && second == 't') counts.texture++;
        else if (first == 'v' && second != 'n') counts.points++;
        else if (first == 'f') counts.faces++, counts.corners += words;
        else if (first == 't') tags += words;
    }
    counts.texture_corners = counts.texture ? counts.corners : 0;
    counts.creases = counts.corner_tags = counts.holes = tags;
    return counts;
}

/* Gives the arrays of a mesh room for so many items. */
static bool take_places(struct far_mesh_places *of, const struct far_mesh_counts *counts) {
    *of = (struct far_mesh_places){
        take(counts->points, sizeof *of->points), counts->points,
        take(counts->texture, sizeof *of->texture), counts->texture,
        take(counts->faces, sizeof *of->face_sizes), counts->faces,
        take(counts->corners, sizeof *of->corners), counts->corners,
        take(counts->texture_corners, sizeof *of->texture_corners), counts->texture_corners,
        take(counts->creases, sizeof *of->creases), counts->creases,
        take(counts->corner_tags, sizeof *of->corner_tags), counts->corner_tags,
        take(counts->holes, sizeof *of->holes), counts->holes,
    };
    return of->points && of->texture && of->face_sizes && of->corners && of->texture_corners && of->creases && of->corner_tags && of->holes;
}

static void shrink_places(struct far_mesh_places *of, const struct far_mesh_counts *counts) {
    *of = (struct far_mesh_places){
        shrink(of->points, counts->points, sizeof *of->points), counts->points,
        shrink(of->texture, counts->texture, sizeof *of->texture), counts->texture,
        shrink(of->face_sizes, counts->faces, sizeof *of->face_sizes), counts->faces,
        shrink(of->corners, counts->corners, sizeof *of->corners), counts->corners,
        shrink(of->texture_corners, counts->texture_corners, sizeof *of->texture_corners), counts->texture_corners,
        shrink(of->creases, counts->creases, sizeof *of->creases), counts->creases,
        shrink(of->corner_tags, counts->corner_tags, sizeof *of->corner_tags), counts->corner_tags,
        shrink(of->holes, counts->holes, sizeof *of->holes), counts->holes,
    };
}

/* Reads the text once into as much room as the counts say, which become those of the mesh. */
static drillolive_fault read_once(const uint8_t *text, size_t length, struct far_mesh_counts *counts, drillolive_mesh **out) {
    struct far_fault held = {0, 0, 0, 0};
    drillolive_mesh *mesh = empty_mesh();
    if (!mesh) return memory_fault();
    if (!take_places(&mesh->of, counts)) {
        drillolive_mesh_free(mesh);
        return memory_fault();
    }
    drillolive_fault fault = fault_of_export(far_read_obj(text, length, counts, &mesh->options, &mesh->of, &held), &held);
    if (fault.status) {
        drillolive_mesh_free(mesh);
        return fault;
    }
    shrink_places(&mesh->of, counts);
    *out = mesh;
    return fault;
}

drillolive_fault drillolive_mesh_new_obj(const void *text, size_t length, drillolive_mesh **out) {
    if (!out) return fault_of(DRILLOLIVE_NULL, 0, 2, 0);
    *out = NULL;
    drillolive_fault fault = check_array(text, length, 0);
    if (fault.status) return fault;
    if (length > TEXT_LIMIT) return fault_of(DRILLOLIVE_LONG, 0, 0, 0);
    const uint8_t *bytes = address_of(text);
    struct far_mesh_counts counts = guess_counts(bytes, length);
    fault = read_once(bytes, length, &counts, out);
    return fault.status == DRILLOLIVE_TOO_SHORT ? read_once(bytes, length, &counts, out) : fault;
}

/* ---- Tags and texture ---- */

/* The exact fraction of a sharpness, as a fault at this place where there is none. Times 2^60 a sharpness below 10 fits 64 bits, and is whole
   where it is a multiple of 2^-60. */
static drillolive_fault sharpness_of(double sharpness, size_t place, uint64_t *num, uint64_t *den) {
    double scaled = sharpness * 0x1p60;
    if (sharpness != sharpness) return fault_of(DRILLOLIVE_BAD_NUMBER, 0, place, 0);
    if (sharpness < 0) return fault_of(DRILLOLIVE_RANGE, DRILLOLIVE_RANGE_SHARPNESS, place, 0);
    *num = 10;
    *den = 1;
    if (sharpness >= 10) return fault_of(DRILLOLIVE_DONE, 0, 0, 0);
    *num = (uint64_t)scaled;
    *den = UINT64_C(1) << 60;
    if ((double)*num != scaled) return fault_of(DRILLOLIVE_BAD_NUMBER, 1, place, 0);
    for (; *den > 1 && *num % 2 == 0; *num /= 2) *den /= 2;
    return fault_of(DRILLOLIVE_DONE, 0, 0, 0);
}

static drillolive_fault check_setter(drillolive_mesh *mesh, const void *first, const void *second, size_t count, size_t size) {
    drillolive_fault fault = check_handle(mesh, MESH_WORD, 0);
    if (!fault.status) fault = check_array(first, count, 1);
    if (!fault.status) fault = check_array(second, count, 2);
    if (!fault.status && count > PTRDIFF_MAX / size) fault = length_fault(3, count);
    return fault;
}

drillolive_fault drillolive_mesh_set_creases(drillolive_mesh *mesh, const uint32_t *ends, const double *sharpness, size_t crease_count) {
    struct far_sharp_edge *creases;
    drillolive_fault fault = check_setter(mesh, ends, sharpness, crease_count, sizeof *creases);
    if (fault.status) return fault;
    creases = take(crease_count, sizeof *creases);
    if (!creases) return memory_fault();
    for (size_t i = 0; i < crease_count && !fault.status; i++) {
        creases[i].a = ends[2 * i];
        creases[i].b = ends[2 * i + 1];
        fault = sharpness_of(sharpness[i], i, &creases[i].sharpness_num, &creases[i].sharpness_den);
    }
    if (fault.status) {
        free(creases);
        return fault;
    }
    free(mesh->of.creases);
    mesh->of.creases = creases;
    mesh->of.creases_len = crease_count;
    return fault;
}

drillolive_fault drillolive_mesh_set_corner_tags(drillolive_mesh *mesh, const uint32_t *points, const double *sharpness, size_t tag_count) {
    struct far_sharp_point *tags;
    drillolive_fault fault = check_setter(mesh, points, sharpness, tag_count, sizeof *tags);
    if (fault.status) return fault;
    tags = take(tag_count, sizeof *tags);
    if (!tags) return memory_fault();
    for (size_t i = 0; i < tag_count && !fault.status; i++) {
        tags[i].point = points[i];
        fault = sharpness_of(sharpness[i], i, &tags[i].sharpness_num, &tags[i].sharpness_den);
    }
    if (fault.status) {
        free(tags);
        return fault;
    }
    free(mesh->of.corner_tags);
    mesh->of.corner_tags = tags;
    mesh->of.corner_tags_len = tag_count;
    return fault;
}

drillolive_fault drillolive_mesh_set_holes(drillolive_mesh *mesh, const uint32_t *faces, size_t hole_count) {
    drillolive_fault fault = check_handle(mesh, MESH_WORD, 0);
    if (!fault.status) fault = check_array(faces, hole_count, 1);
    if (!fault.status && hole_count > PTRDIFF_MAX / sizeof *faces) fault = length_fault(2, hole_count);
    if (fault.status) return fault;
    uint32_t *holes = copy_of(faces, hole_count, sizeof *faces);
    if (!holes) return memory_fault();
    free(mesh->of.holes);
    mesh->of.holes = holes;
    mesh->of.holes_len = hole_count;
    return fault;
}

drillolive_fault drillolive_mesh_set_boundary(drillolive_mesh *mesh, enum drillolive_boundary boundary) {
    drillolive_fault fault = check_handle(mesh, MESH_WORD, 0);
    if (fault.status) return fault;
    if ((uint32_t)boundary > DRILLOLIVE_BOUNDARY_EDGE_ONLY) return fault_of(DRILLOLIVE_BAD_ARGUMENT, 0, 0, 0);
    mesh->options.boundary = (uint32_t)boundary;
    return fault;
}

drillolive_fault drillolive_mesh_set_method(drillolive_mesh *mesh, enum drillolive_method method) {
    drillolive_fault fault = check_handle(mesh, MESH_WORD, 0);
    if (fault.status) return fault;
    if ((uint32_t)method > DRILLOLIVE_METHOD_CHAIKIN) return fault_of(DRILLOLIVE_BAD_ARGUMENT, 0, 0, 0);
    mesh->options.method = (uint32_t)method;
    return fault;
}

static drillolive_fault set_texture(drillolive_mesh *mesh, struct numbers uv, size_t value_count, const uint32_t *corners, size_t corner_count) {
    struct far_wide *values, scale = ONE;
    drillolive_fault fault = check_handle(mesh, MESH_WORD, 0);
    if (!fault.status) fault = check_array(uv.at, value_count, 1);
    if (!fault.status) fault = check_array(corners, corner_count, 3);
    if (!fault.status && value_count > PTRDIFF_MAX / sizeof(struct far_value)) fault = length_fault(2, value_count);
    if (!fault.status && corner_count > PTRDIFF_MAX / sizeof *corners) fault = length_fault(4, corner_count);
    if (fault.status) return fault;
    uv.count = 2 * value_count;
    fault = convert_numbers(&uv, &values, &scale, NULL);
    if (fault.status) return fault;
    uint32_t *copy = copy_of(corners, corner_count, sizeof *corners);
    if (!copy) {
        free(values);
        return memory_fault();
    }
    free(mesh->of.texture);
    free(mesh->of.texture_corners);
    mesh->of.texture = (struct far_value *)values;
    mesh->of.texture_len = value_count;
    mesh->of.texture_corners = copy;
    mesh->of.texture_corners_len = corner_count;
    mesh->options.texture_scale = scale;
    return fault;
}

drillolive_fault drillolive_mesh_set_texture_doubles(drillolive_mesh *mesh, const double *uv, size_t value_count,
                                                     const uint32_t *texture_corners, size_t corner_count) {
    struct numbers numbers = {uv, 0, false, EXACT_POINTS};
    return set_texture(mesh, numbers, value_count, texture_corners, corner_count);
}

drillolive_fault drillolive_mesh_set_texture_floats(drillolive_mesh *mesh, const float *uv, size_t value_count,
                                                    const uint32_t *texture_corners, size_t corner_count) {
    struct numbers numbers = {uv, 0, true, EXACT_POINTS};
    return set_texture(mesh, numbers, value_count, texture_corners, corner_count);
}

/* ---- What a mesh has ---- */

drillolive_fault drillolive_mesh_count(const drillolive_mesh *mesh, drillolive_mesh_counts *out) {
    drillolive_fault fault = check_handle(mesh, MESH_WORD, 0);
    if (fault.status) return fault;
    if (!out) return fault_of(DRILLOLIVE_NULL, 0, 1, 0);
    const struct far_mesh_places *of = &mesh->of;
    drillolive_mesh_counts counts = {
        of->points_len, of->face_sizes_len, of->corners_len, of->texture_len, of->texture_corners_len,
        of->creases_len, of->corner_tags_len, of->holes_len,
    };
    *out = counts;
    return fault;
}

const uint32_t *drillolive_mesh_face_sizes(const drillolive_mesh *mesh) {
    return is_handle(mesh, MESH_WORD) ? mesh->of.face_sizes : NULL;
}

const uint32_t *drillolive_mesh_corners(const drillolive_mesh *mesh) {
    return is_handle(mesh, MESH_WORD) ? mesh->of.corners : NULL;
}

const uint32_t *drillolive_mesh_texture_corners(const drillolive_mesh *mesh) {
    return is_handle(mesh, MESH_WORD) ? mesh->of.texture_corners : NULL;
}

const drillolive_crease *drillolive_mesh_creases(const drillolive_mesh *mesh) {
    return is_handle(mesh, MESH_WORD) && mesh->of.creases_len ? (const drillolive_crease *)mesh->of.creases : NULL;
}

const drillolive_corner_tag *drillolive_mesh_corner_tags(const drillolive_mesh *mesh) {
    return is_handle(mesh, MESH_WORD) && mesh->of.corner_tags_len ? (const drillolive_corner_tag *)mesh->of.corner_tags : NULL;
}

const uint32_t *drillolive_mesh_holes(const drillolive_mesh *mesh) {
    return is_handle(mesh, MESH_WORD) && mesh->of.holes_len ? mesh->of.holes : NULL;
}
