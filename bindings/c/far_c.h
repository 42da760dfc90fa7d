/* The exports of the static library `crates/far_c`, which are proved. This header is private to the C code over them: it promises nothing to callers.

   A slice is a pointer and a length. No pointer may be NULL, whatever the length, and no output may overlap another argument. A status is 0 where the
   work is done. It is 1 where an array is too short: the counts are written then, and nothing else. Else it is that of the fault in *fault. */
#ifndef FAR_C_H
#define FAR_C_H

#include <stddef.h>
#include <stdint.h>

/* 128 bits: two's complement where the number has a sign. */
struct far_wide { uint64_t low, high; };
struct far_point { struct far_wide x, y, z; };
struct far_value { struct far_wide u, v; };
struct far_sharp_edge { uint32_t a, b; uint64_t sharpness_num, sharpness_den; };
struct far_sharp_point { uint32_t point; uint64_t sharpness_num, sharpness_den; };

struct far_mesh {
    const struct far_point *points; size_t points_len;
    struct far_wide scale;
    const struct far_value *texture; size_t texture_len;
    struct far_wide texture_scale;
    const uint32_t *face_sizes; size_t face_sizes_len;
    const uint32_t *corners; size_t corners_len;
    const uint32_t *texture_corners; size_t texture_corners_len;
    const struct far_sharp_edge *creases; size_t creases_len;
    const struct far_sharp_point *corner_tags; size_t corner_tags_len;
    const uint32_t *holes; size_t holes_len;
    uint32_t boundary, method;
};

struct far_fault { uint32_t status, kind; uint64_t first, second; };

struct far_mesh_counts { uint64_t points, texture, faces, corners, texture_corners, creases, corner_tags, holes; };
struct far_mesh_options { struct far_wide scale, texture_scale; uint32_t boundary, method; };
struct far_mesh_places {
    struct far_point *points; size_t points_len;
    struct far_value *texture; size_t texture_len;
    uint32_t *face_sizes; size_t face_sizes_len;
    uint32_t *corners; size_t corners_len;
    uint32_t *texture_corners; size_t texture_corners_len;
    struct far_sharp_edge *creases; size_t creases_len;
    struct far_sharp_point *corner_tags; size_t corner_tags_len;
    uint32_t *holes; size_t holes_len;
};

struct far_table_counts { uint32_t controls, rows; uint64_t entries; };
struct far_exact_places {
    uint32_t *starts; size_t starts_len;
    uint32_t *indices; size_t indices_len;
    struct far_wide *numerators; size_t numerators_len;
    struct far_wide *denominators; size_t denominators_len;
};
struct far_double_places {
    uint32_t *starts; size_t starts_len;
    uint32_t *indices; size_t indices_len;
    uint64_t *weights; size_t weights_len;
};
struct far_float_places {
    uint32_t *starts; size_t starts_len;
    uint32_t *indices; size_t indices_len;
    uint32_t *weights; size_t weights_len;
};

struct far_level_counts { uint32_t points, edges, faces, corners; };
struct far_level_places {
    uint32_t *face_sizes; size_t face_sizes_len;
    uint32_t *corners; size_t corners_len;
    uint32_t *edges; size_t edges_len;
    uint8_t *holes; size_t holes_len;
};

struct far_ran { uint8_t status; uint64_t written, reported; };

/* Which rows: those of the points of a level (kind 0), of their limit points (1), of the patch of a face (2), or of texture points (3). */
struct far_rows { uint32_t kind, depth, seams, face, grid; };

struct far_origin_counts { uint32_t points, faces; };
struct far_origin_places {
    uint8_t *kinds; size_t kinds_len;
    uint32_t *numbers; size_t numbers_len;
    uint32_t *faces; size_t faces_len;
};

struct far_row_arrays {
    const uint32_t *starts; size_t starts_len;
    const uint32_t *indices; size_t indices_len;
    const struct far_wide *numerators; size_t numerators_len;
};
struct far_control_arrays { const struct far_wide *numbers; size_t numbers_len; uint32_t components; };
struct far_row_range { uint32_t from, to; };

/* Number i is numerators[i] over denominators[i / per] times scale. */
struct far_fraction_arrays {
    const struct far_wide *numerators; size_t numerators_len;
    const struct far_wide *denominators; size_t denominators_len;
    uint32_t per;
    struct far_wide scale;
};

struct far_exact_rows {
    uint32_t controls;
    const uint32_t *starts; size_t starts_len;
    const uint32_t *indices; size_t indices_len;
    const struct far_wide *numerators; size_t numerators_len;
    const struct far_wide *denominators; size_t denominators_len;
};

struct far_sparse_request { uint32_t depth, select; };
struct far_sparse_counts { uint32_t levels; uint64_t points, faces, corners; };
struct far_sparse_places {
    uint32_t *level_points; size_t level_points_len;
    uint32_t *level_faces; size_t level_faces_len;
    uint8_t *kinds; size_t kinds_len;
    uint64_t *numbers; size_t numbers_len;
    uint32_t *sizes; size_t sizes_len;
    uint32_t *corners; size_t corners_len;
    struct far_wide *numerators; size_t numerators_len;
    struct far_wide *denominators; size_t denominators_len;
};

/* The bits of numbers as numerators over their least common denominator. */
uint32_t far_scale_doubles(const uint64_t *bits, size_t bits_len, struct far_wide *out, size_t out_len, struct far_wide *scale,
                           struct far_fault *fault);
uint32_t far_scale_floats(const uint32_t *bits, size_t bits_len, struct far_wide *out, size_t out_len, struct far_wide *scale,
                          struct far_fault *fault);

/* The bits of numbers, rounded to numerators over 2^grid_bits; and how many have another value. */
uint32_t far_round_doubles(const uint64_t *bits, size_t bits_len, uint32_t grid_bits, struct far_wide *out, size_t out_len, uint64_t *changed,
                           struct far_fault *fault);
uint32_t far_round_floats(const uint32_t *bits, size_t bits_len, uint32_t grid_bits, struct far_wide *out, size_t out_len, uint64_t *changed,
                          struct far_fault *fault);

uint32_t far_read_obj(const uint8_t *text, size_t text_len, struct far_mesh_counts *counts, struct far_mesh_options *options,
                      struct far_mesh_places *places, struct far_fault *fault);

uint32_t far_table_exact(const struct far_mesh *mesh, const struct far_rows *request, struct far_table_counts *counts,
                         struct far_exact_places *places, struct far_fault *fault);
uint32_t far_table_doubles(const struct far_mesh *mesh, const struct far_rows *request, struct far_table_counts *counts,
                           struct far_double_places *places, struct far_fault *fault);
uint32_t far_table_floats(const struct far_mesh *mesh, const struct far_rows *request, struct far_table_counts *counts,
                          struct far_float_places *places, struct far_fault *fault);

/* Three numerators and one denominator for each point: that of its row in the table, times the scale of the mesh. */
uint32_t far_points_exact(const struct far_mesh *mesh, uint32_t depth, uint64_t *count, struct far_wide *numerators, size_t numerators_len,
                          struct far_wide *denominators, size_t denominators_len, struct far_fault *fault);
/* The bits of x, y and z of each point. */
uint32_t far_points_doubles(const struct far_mesh *mesh, uint32_t depth, uint64_t *count, uint64_t *out, size_t out_len, struct far_fault *fault);
uint32_t far_points_floats(const struct far_mesh *mesh, uint32_t depth, uint64_t *count, uint32_t *out, size_t out_len, struct far_fault *fault);

/* An edge has two ends in the array of edges. */
uint32_t far_level(const struct far_mesh *mesh, uint32_t depth, struct far_level_counts *counts, struct far_level_places *places,
                   struct far_fault *fault);

/* The level of the cut mesh, and two numerators for each point of the cut mesh itself. */
uint32_t far_texture_level(const struct far_mesh *mesh, uint32_t seams, uint32_t depth, struct far_level_counts *counts,
                           struct far_level_places *places, struct far_fault *fault);
uint32_t far_texture_values(const struct far_mesh *mesh, uint32_t seams, uint64_t *count, struct far_wide *out, size_t out_len,
                            struct far_fault *fault);

/* All faults of a mesh that is no manifold. */
uint32_t far_mesh_faults(const struct far_mesh *mesh, uint64_t *count, struct far_fault *out, size_t out_len, struct far_fault *fault);

uint32_t far_origins(const struct far_mesh *mesh, uint32_t depth, struct far_origin_counts *counts, struct far_origin_places *places,
                     struct far_fault *fault);

/* The denominator of a point is that of its row in the table of the whole level, times the scale of the mesh. */
uint32_t far_sparse(const struct far_mesh *mesh, const struct far_sparse_request *request, struct far_sparse_counts *counts,
                    struct far_sparse_places *places, struct far_fault *fault);

/* The sums of the rows of a range. */
uint32_t far_apply_rows(const struct far_row_arrays *rows, const struct far_control_arrays *controls, const struct far_row_range *range,
                        struct far_wide *out, size_t out_len, struct far_fault *fault);

/* The bits of the numbers nearest to fractions. */
uint32_t far_nearest_doubles(const struct far_fraction_arrays *fractions, uint64_t *out, size_t out_len, struct far_fault *fault);
uint32_t far_nearest_floats(const struct far_fraction_arrays *fractions, uint32_t *out, size_t out_len, struct far_fault *fault);

/* Stored tables. `end` gets how many bytes the text of the table has, and `written` how many are wanted. */
uint32_t far_table_read(const uint8_t *text, size_t text_len, struct far_table_counts *counts, struct far_exact_places *places, uint64_t *end,
                        struct far_fault *fault);
uint32_t far_table_write(const struct far_exact_rows *rows, uint64_t *written, uint8_t *out, size_t out_len, struct far_fault *fault);
uint32_t far_table_check(const struct far_mesh *mesh, uint32_t depth, const uint8_t *text, size_t text_len, struct far_fault *fault);

/* Each word is ended by a zero byte. What does not fit into `out` or `errors` is counted and left out. */
struct far_ran far_run(const uint8_t *words, size_t words_len, const uint8_t *input, size_t input_len, uint8_t *out, size_t out_len,
                       uint8_t *errors, size_t errors_len);

/* The length of the line "far: ...\n", as much of which is written as fits; 0 where the record is no fault of a run. */
uint64_t far_fault_line(const struct far_fault *fault, uint8_t *out, size_t out_len);

#endif
