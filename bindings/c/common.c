/* Faults, memory, and the bounds of levels. */
#include "private.h"

#include <stdio.h>
#include <stdlib.h>
#include <string.h>

_Static_assert(sizeof(double) == 8 && sizeof(float) == 4, "doubles have 64 bits, and floats 32");
_Static_assert(sizeof(struct far_point) == 3 * sizeof(struct far_wide), "a point is three numbers");
_Static_assert(sizeof(struct far_value) == 2 * sizeof(struct far_wide), "a texture value is two numbers");
_Static_assert(sizeof(drillolive_wide) == sizeof(struct far_wide), "both have two words");
_Static_assert(sizeof(drillolive_crease) == sizeof(struct far_sharp_edge), "both have two points and a fraction");
_Static_assert(sizeof(drillolive_corner_tag) == sizeof(struct far_sharp_point), "both have a point and a fraction");

enum { LINE_ROOM = 160 };

const char *drillolive_version(void) {
    return DRILLOLIVE_VERSION;
}

drillolive_fault fault_of(uint32_t status, uint32_t kind, uint64_t first, uint64_t second) {
    drillolive_fault fault = {status, kind, first, second};
    return fault;
}

drillolive_fault fault_of_export(uint32_t status, const struct far_fault *held) {
    if (status == DRILLOLIVE_DONE || status == DRILLOLIVE_TOO_SHORT) return fault_of(status, 0, 0, 0);
    return fault_of(status, held->kind, held->first, held->second);
}

drillolive_fault memory_fault(void) {
    return fault_of(DRILLOLIVE_MEMORY, 0, 0, 0);
}

drillolive_fault length_fault(uint64_t argument, uint64_t length) {
    return fault_of(DRILLOLIVE_RANGE, DRILLOLIVE_RANGE_LENGTH, argument, length);
}

drillolive_fault check_array(const void *array, size_t length, uint64_t argument) {
    if (length && !array) return fault_of(DRILLOLIVE_NULL, 0, argument, 0);
    return fault_of(DRILLOLIVE_DONE, 0, 0, 0);
}

bool is_handle(const void *handle, uint64_t word) {
    return handle && *(const uint64_t *)handle == word;
}

drillolive_fault check_handle(const void *handle, uint64_t word, uint64_t argument) {
    if (!handle) return fault_of(DRILLOLIVE_NULL, 0, argument, 0);
    if (!is_handle(handle, word)) return fault_of(DRILLOLIVE_KIND, 0, argument, 0);
    return fault_of(DRILLOLIVE_DONE, 0, 0, 0);
}

void *take(size_t count, size_t size) {
    if (count > PTRDIFF_MAX / size) return NULL;
    return malloc(count ? count * size : 1);
}

void *shrink(void *room, size_t count, size_t size) {
    void *smaller = realloc(room, count ? count * size : 1);
    return smaller ? smaller : room;
}

void *copy_of(const void *array, size_t count, size_t size) {
    void *copy = take(count, size);
    if (copy && count) memcpy(copy, array, count * size);
    return copy;
}

/* Reading the bits and storing the number in their place is the way that the aliasing rules of C allow. It costs nothing. */
void make_doubles(void *bits, size_t count) {
    double *numbers = bits;
    for (size_t i = 0; i < count; i++) {
        double number;
        memcpy(&number, (const char *)bits + i * sizeof number, sizeof number);
        numbers[i] = number;
    }
}

void make_floats(void *bits, size_t count) {
    float *numbers = bits;
    for (size_t i = 0; i < count; i++) {
        float number;
        memcpy(&number, (const char *)bits + i * sizeof number, sizeof number);
        numbers[i] = number;
    }
}

size_t size_of(enum form form) {
    return form == DOUBLES ? sizeof(double) : form == FLOATS ? sizeof(float) : sizeof(struct far_wide);
}

bool is_form(enum drillolive_form form) {
    return (uint32_t)form <= DRILLOLIVE_EXACT;
}

/* The word is cleared by a volatile store, since a compiler drops one before a free. */
void release(void *handle) {
    *(volatile uint64_t *)handle = 0;
    free(handle);
}

void *address_of(const void *array) {
    static _Alignas(16) uint8_t nothing[16];
    return array ? (void *)array : nothing;
}

struct far_wide product_of(struct far_wide a, struct far_wide b) {
    uint64_t a_low = a.low & UINT32_MAX, a_high = a.low >> 32, b_low = b.low & UINT32_MAX, b_high = b.low >> 32;
    uint64_t middle = a_low * b_high, other = a_high * b_low, sum = (a_low * b_low >> 32) + (middle & UINT32_MAX) + (other & UINT32_MAX);
    struct far_wide product = {a.low * b.low, a_high * b_high + (middle >> 32) + (other >> 32) + (sum >> 32) + a.low * b.high + a.high * b.low};
    return product;
}

struct far_mesh view_of(const drillolive_mesh *mesh) {
    const struct far_mesh_places *of = &mesh->of;
    struct far_mesh view = {
        .points = address_of(of->points), .points_len = of->points_len,
        .scale = mesh->options.scale,
        .texture = address_of(of->texture), .texture_len = of->texture_len,
        .texture_scale = mesh->options.texture_scale,
        .face_sizes = address_of(of->face_sizes), .face_sizes_len = of->face_sizes_len,
        .corners = address_of(of->corners), .corners_len = of->corners_len,
        .texture_corners = address_of(of->texture_corners), .texture_corners_len = of->texture_corners_len,
        .creases = address_of(of->creases), .creases_len = of->creases_len,
        .corner_tags = address_of(of->corner_tags), .corner_tags_len = of->corner_tags_len,
        .holes = address_of(of->holes), .holes_len = of->holes_len,
        .boundary = mesh->options.boundary, .method = mesh->options.method,
    };
    return view;
}

/* A step makes a point of each point, edge and face, and a face of each corner. It makes two edges of each edge, and one of each corner. A mesh
   has at most as many edges as corners. */
struct level_bound bound_of_level(const struct far_mesh *mesh, uint32_t depth) {
    const struct level_bound none = {0, 0, 0, 0};
    size_t corners = mesh->corners_len;
    struct level_bound level = {mesh->points_len, corners, mesh->face_sizes_len, corners};
    if (depth > DEPTH_LIMIT || level.points > POINT_LIMIT || level.faces > FACE_LIMIT || corners > PTRDIFF_MAX / 64) return none;
    for (uint32_t step = 0; step < depth; step++) {
        if (level.corners > LEVEL_FACE_LIMIT) return none;
        level.points += level.edges + level.faces;
        level.edges = 2 * level.edges + level.corners;
        level.faces = level.corners;
        level.corners = 4 * level.faces;
    }
    return level;
}

/* The lines of faults that no run of the program has. */
static void write_own_line(drillolive_fault fault, char *out) {
    static const char *const parts[] = {
        "point denominator", "texture denominator", "coordinate of point", "texture value", "face count", "corner count", "sum of face sizes",
        "texture corner count", "corner", "texture corner", "crease", "corner tag", "hole", "boundary mode", "method", "crease sharpness",
        "corner tag sharpness", "row", "denominator",
    };
    static const char *const ranges[] = {"length of argument", "index", "sharpness", "number of components"};
    unsigned long long first = fault.first;
    switch (fault.status) {
    case DRILLOLIVE_DONE: out[0] = 0; return;
    case DRILLOLIVE_TOO_SHORT: snprintf(out, LINE_ROOM, "far: an array is too short"); return;
    case DRILLOLIVE_OVERFLOW: snprintf(out, LINE_ROOM, "far: the sum of row %llu has more than 128 bits", first); return;
    case DRILLOLIVE_BAD_ARRAYS:
        if (fault.kind >= sizeof parts / sizeof *parts) break;
        snprintf(out, LINE_ROOM, "far: bad %s at %llu", parts[fault.kind], first);
        return;
    case DRILLOLIVE_BAD_NUMBER:
        snprintf(out, LINE_ROOM, "far: number %llu is %s", first, fault.kind ? "too wide" : "not finite");
        return;
    case DRILLOLIVE_BAD_ARGUMENT: snprintf(out, LINE_ROOM, "far: an option is out of range"); return;
    case DRILLOLIVE_NULL: snprintf(out, LINE_ROOM, "far: argument %llu is null", first); return;
    case DRILLOLIVE_KIND: snprintf(out, LINE_ROOM, "far: argument %llu is another handle, or was freed", first); return;
    case DRILLOLIVE_RANGE:
        if (fault.kind >= sizeof ranges / sizeof *ranges) break;
        snprintf(out, LINE_ROOM, "far: %s %llu is out of range", ranges[fault.kind], first);
        return;
    default: break;
    }
    snprintf(out, LINE_ROOM, "far: unknown fault %u", (unsigned)fault.status);
}

size_t drillolive_fault_line(drillolive_fault fault, char *out, size_t size) {
    uint8_t line[LINE_ROOM] = {0};
    struct far_fault held = {fault.status, fault.kind, fault.first, fault.second};
    uint64_t length = fault.status ? far_fault_line(&held, line, LINE_ROOM - 1) : 0;
    if (length > LINE_ROOM - 1) length = LINE_ROOM - 1;
    if (length == 0) write_own_line(fault, (char *)line);
    length = strcspn((const char *)line, "\n");
    if (out && size) {
        size_t kept = length < size ? (size_t)length : size - 1;
        memcpy(out, line, kept);
        out[kept] = 0;
    }
    return (size_t)length;
}

const char *drillolive_fault_advice(drillolive_fault fault) {
    return advice_on(fault);
}
