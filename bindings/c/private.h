/* What the C files of the library share, and no caller sees. */
#ifndef DRILLOLIVE_PRIVATE_H
#define DRILLOLIVE_PRIVATE_H

#include <stdbool.h>

#include "drillolive.h"
#include "far_c.h"

/* Limits of the definitions. Beyond them an export answers a fault, whatever room it is given. */
enum { DEPTH_LIMIT = 10, POINT_LIMIT = 1 << 20, FACE_LIMIT = 1 << 20, LEVEL_FACE_LIMIT = 1 << 22, ENTRY_LIMIT = 1 << 27, TEXT_LIMIT = 1 << 28 };

/* How many numbers a control may have. */
enum { COMPONENT_LIMIT = 16 };

/* The word with which a handle of each kind begins. */
#define MESH_WORD UINT64_C(0x6472696c6d657368)
#define TABLE_WORD UINT64_C(0x6472696c7461626c)
#define POINTS_WORD UINT64_C(0x6472696c706f696e)
#define LEVEL_WORD UINT64_C(0x6472696c6c657665)
#define OUTPUT_WORD UINT64_C(0x6472696c6f757470)
#define ORIGINS_WORD UINT64_C(0x6472696c6f726967)
#define SPARSE_WORD UINT64_C(0x6472696c73706172)
#define SESSION_WORD UINT64_C(0x6472696c73657373)

/* What the weights of a table, or the coordinates of points, are. */
enum form { DOUBLES = DRILLOLIVE_DOUBLES, FLOATS = DRILLOLIVE_FLOATS, EXACT = DRILLOLIVE_EXACT };

/* The kinds of rows. */
enum rows { POINT_ROWS, LIMIT_ROWS, PATCH_ROWS, TEXTURE_ROWS };

struct drillolive_mesh {
    uint64_t word;
    struct far_mesh_places of;
    struct far_mesh_options options;
};

struct drillolive_table {
    uint64_t word;
    enum form form;
    size_t controls, rows, entries;
    uint32_t *starts, *indices;
    void *weights; /* doubles, floats, or numerators */
    struct far_wide *denominators;
};

struct drillolive_points {
    uint64_t word;
    enum form form;
    size_t count, components;
    void *numbers; /* so many doubles, floats or numerators a point as there are components */
    struct far_wide *denominators;
};

struct drillolive_level {
    uint64_t word;
    struct far_level_places of;
    size_t points;
    uint32_t depth;
    size_t cage_faces;
    uint32_t *cage_starts; /* where the corners of each face of the mesh begin, and where the last ends */
};

struct drillolive_output {
    uint64_t word;
    uint32_t status;
    char *text, *error;
    size_t text_length, error_length;
};

struct drillolive_origins {
    uint64_t word;
    struct far_origin_places of;
};

struct drillolive_sparse {
    uint64_t word;
    enum form form;
    struct far_sparse_places of;
    void *rounded; /* doubles or floats, three a point; NULL where the points are exact */
};

struct drillolive_session {
    uint64_t word;
    drillolive_table *table; /* exact */
    struct far_wide *controls, *points; /* three numerators each */
    struct far_wide scale; /* the denominator of the controls */
    uint32_t grid_bits; /* it is 2^grid_bits, or NO_GRID */
    uint32_t *column_starts, *column_rows; /* for each control the rows that have it */
    uint8_t *is_affected, *is_changed; /* of each row; no row is affected between calls */
    uint32_t *changed; /* the marked rows, of which there is room for all */
    size_t changed_count;
};

enum { NO_GRID = 128 };

drillolive_fault fault_of(uint32_t status, uint32_t kind, uint64_t first, uint64_t second);

/* The fault of an export that ended with this status. */
drillolive_fault fault_of_export(uint32_t status, const struct far_fault *held);

drillolive_fault memory_fault(void);
drillolive_fault length_fault(uint64_t argument, uint64_t length);

/* Whether a pointer is NULL though it has items, and whether a handle has the word of its kind. */
drillolive_fault check_array(const void *array, size_t length, uint64_t argument);
drillolive_fault check_handle(const void *handle, uint64_t word, uint64_t argument);
bool is_handle(const void *handle, uint64_t word);

/* Room for so many items; NULL where there is none, or where their size has no number. It is not NULL for no item. */
void *take(size_t count, size_t size);

/* Room that was taken, for fewer items. It stays where it cannot be made smaller. */
void *shrink(void *room, size_t count, size_t size);

/* A copy of an array, or NULL. */
void *copy_of(const void *array, size_t count, size_t size);

/* Makes doubles, or floats, of their bits, in their place. */
void make_doubles(void *bits, size_t count);
void make_floats(void *bits, size_t count);

/* The size of a number of each form. */
size_t size_of(enum form form);

/* Whether this is a form. */
bool is_form(enum drillolive_form form);

/* Rounds numerators to the nearest doubles or floats. `out` has room for each. */
drillolive_fault round_to(enum form form, const struct far_fraction_arrays *fractions, void *out);

/* A table with room for so many rows and entries, or NULL; where an exact one is written; and what gives back the room that a table does not need, and
   makes numbers of the bits. */
drillolive_table *take_table(enum form form, size_t rows, size_t entries);
struct far_exact_places places_of(drillolive_table *table);
void fit_table(drillolive_table *table, const struct far_table_counts *counts);

/* Evaluates the rows of a range of an exact table. All arguments fit. */
drillolive_fault apply_exact(const drillolive_table *table, const struct far_wide *controls, size_t components, size_t from, size_t to,
                             struct far_wide *out);

/* Makes a table of the rows that are asked for. */
drillolive_fault make_table(const struct far_mesh *mesh, const struct far_rows *request, enum form form, drillolive_table **out);

/* An output with room for so many bytes and a zero byte behind each text, or NULL; and what gives back the room that it does not need. */
drillolive_output *take_output(size_t text_room, size_t error_room);
void fit_output(drillolive_output *output, struct far_ran ran);

/* Points of so many components with room for so many, or NULL. */
drillolive_points *take_points(enum form form, size_t count, size_t components);

/* The product of two numbers without signs, modulo 2^128. */
struct far_wide product_of(struct far_wide a, struct far_wide b);

/* Frees a handle after its word is cleared. */
void release(void *handle);

/* An address for an array without items, which no export reads or writes. */
void *address_of(const void *array);

/* The mesh as the exports take it. */
struct far_mesh view_of(const drillolive_mesh *mesh);

/* At most how many points, edges, faces and corners a level has. */
struct level_bound {
    size_t points, edges, faces, corners;
};

/* The bound of the level at this depth. All is 0 where the exports refuse the mesh or the depth. */
struct level_bound bound_of_level(const struct far_mesh *mesh, uint32_t depth);

/* The advice on a fault, which is empty where there is none. */
const char *advice_on(drillolive_fault fault);

#endif
