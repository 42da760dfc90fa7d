/* Drillolive: Catmull-Clark refinement of polygon meshes, with semi-sharp creases. The interface for C and C++.

   AN EXAMPLE

       drillolive_mesh *mesh = NULL;
       drillolive_table *table = NULL;
       drillolive_faces faces = {sizes, 6, corners, 24};
       drillolive_fault fault = drillolive_mesh_new_doubles(xyz, 8, faces, &mesh);
       if (fault.status == DRILLOLIVE_DONE) fault = drillolive_table_new_doubles(mesh, 2, &table);
       if (fault.status != DRILLOLIVE_DONE) fputs(drillolive_fault_advice(fault), stderr);

   RULES FOR EVERY CALL

   - Points, faces, edges, corners, rows, entries and places in arrays are counted from 0. Lines of text and levels of faults are counted from 1.

   - Coordinates have the caller's unit. The library keeps each as an exact fraction. Only results in doubles or floats are rounded.

   - A call that returns a `drillolive_fault` did its work if the status is DRILLOLIVE_DONE. Otherwise it changed no handle, and an out-pointer to a
     new handle is NULL.

   - Every such call may return DRILLOLIVE_NULL, DRILLOLIVE_KIND, DRILLOLIVE_RANGE or DRILLOLIVE_MEMORY. The comment of a call lists its other faults.

   - A pointer to an array may be NULL only if its length is 0. An output array overlaps no other argument.

   - The library copies its arguments. The caller may free an array as soon as the call returns.

   - The caller owns each handle, and frees it with the call `_free` of its kind, which accepts NULL. Arrays of accessors belong to the handle and end
     with it. Arrays of a mesh end with the next call that sets their part.

   - Each call tests that a handle has the right kind. This test finds most freed handles too, but not all: the memory may be in use again. A call
     `_free` ignores a handle of another kind.

   THREADS

   Calls on different handles may run at once. So may calls that take a `const` handle: any number of threads may evaluate one table. A call that takes
   a handle without `const` must run alone on it. No call takes a lock, starts a thread or keeps a global. Calls that allocate use malloc, realloc and
   free, so a signal handler may not call them.

   LIMITS

   A mesh has at most 2^20 points and 2^20 faces, a face 2^16 corners, and a point 2^16 edges. A level has at most 2^22 faces, a table 2^27 entries, and
   an OBJ text 2^28 bytes. The depth is from 0 to 10. Arithmetic is exact in 128 bits. A call refuses a number that does not fit.

   PROOF AND TEST

   The exports of `crates/far_c` are proved to meet their contracts. They give rows of tables, exact sums, refined points, faces and origins of levels,
   and sparse levels. They also give faults of a mesh, OBJ text, stored tables, runs, and nearest doubles and floats. The C code between these exports
   and this header (`bindings/c`) is tested. Tests also cover the sums of `drillolive_table_apply_doubles` and `_floats`, which round as C rounds, and
   which points a move of a session changes. */
#ifndef DRILLOLIVE_H
#define DRILLOLIVE_H

#include <stddef.h>
#include <stdint.h>

#ifdef __cplusplus
extern "C" {
#endif

#define DRILLOLIVE_VERSION "0.1.0"

/* The version of the library that is linked: its DRILLOLIVE_VERSION. */
const char *drillolive_version(void);

/* ---- Faults ---- */

/* The result of a call. The program `far` ends with 0 and with 2 to 16 of these. */
enum drillolive_status {
    DRILLOLIVE_DONE = 0,
    DRILLOLIVE_TOO_SHORT = 1,      /* an internal array was too short twice: a mistake of the library */
    DRILLOLIVE_USAGE = 2,          /* run: a word is not understood; first: the word */
    DRILLOLIVE_READ = 3,           /* run: a read failed; no call here returns it */
    DRILLOLIVE_LONG = 4,           /* the text is longer than 2^28 bytes */
    DRILLOLIVE_OBJ = 5,            /* OBJ text; first: the line */
    DRILLOLIVE_MESH = 6,           /* the mesh is not a manifold; first, second: the face, the point, or both ends of the edge */
    DRILLOLIVE_TOO_LARGE = 7,      /* a count passes its limit */
    DRILLOLIVE_OVERFLOW = 8,       /* an exact number does not fit; first: the level, or the row of a sum (kind 16) */
    DRILLOLIVE_LIMIT = 9,          /* a point has no limit mask; first: the point */
    DRILLOLIVE_WRITE = 10,         /* run: a write failed; no call here returns it */
    DRILLOLIVE_MEMORY = 11,        /* memory ran out */
    DRILLOLIVE_PLACE = 13,         /* the face does not exist, is a hole, or has no such place or patch; first: the face, or the number of faces */
    DRILLOLIVE_TABLE = 14,         /* a stored table is malformed; first: the line */
    DRILLOLIVE_DIFFERS = 15,       /* a stored table belongs to another mesh; first: the row */
    DRILLOLIVE_CONTROLS = 16,      /* run: the number of points is wrong; first: the number */
    DRILLOLIVE_BAD_ARRAYS = 17,    /* an array is wrong; kind: which one; first: the place, or the row */
    DRILLOLIVE_BAD_NUMBER = 18,    /* a double or float is not finite (kind 0), or its fraction too wide (kind 1); first: the place */
    DRILLOLIVE_BAD_ARGUMENT = 19,  /* an option such as the depth is out of range, or the mesh has no texture for a call that needs it */
    DRILLOLIVE_NULL = 20,          /* a pointer is NULL; first: the argument, counted from 0 */
    DRILLOLIVE_KIND = 21,          /* a handle has another kind, or was freed; first: the argument, counted from 0 */
    DRILLOLIVE_RANGE = 22          /* an index, a length or a number is out of range; kind: see drillolive_range */
};

/* The kinds of DRILLOLIVE_RANGE, with the meaning of `first` and `second`. */
enum drillolive_range {
    DRILLOLIVE_RANGE_LENGTH = 0,     /* a length; first: the argument, second: the length */
    DRILLOLIVE_RANGE_INDEX = 1,      /* an index; first: the index, second: the number of items */
    DRILLOLIVE_RANGE_SHARPNESS = 2,  /* a sharpness below 0; first: its place in the array */
    DRILLOLIVE_RANGE_COMPONENTS = 3  /* the number of components; first: the number */
};

/* A fault: its status, its kind among the faults of that status, and the two numbers that it names. Unused fields are 0. */
typedef struct drillolive_fault {
    uint32_t status, kind;
    uint64_t first, second;
} drillolive_fault;

/* Writes the line of a fault as a string without a line feed, cut to `size` - 1 bytes. Returns the length of the whole line. `out` may be NULL if `size`
   is 0. The line of DRILLOLIVE_DONE is empty. */
size_t drillolive_fault_line(drillolive_fault fault, char *out, size_t size);

/* Returns one sentence of advice on a fault, a string that the library keeps. It is empty for DRILLOLIVE_DONE. */
const char *drillolive_fault_advice(drillolive_fault fault);

/* ---- Meshes ---- */

/* A mesh: points, faces and tags. A call that checks or refines the mesh judges it as a whole. So a face that names a missing point is a fault of that
   call, and not of the call that made the mesh. */
typedef struct drillolive_mesh drillolive_mesh;

enum drillolive_boundary { DRILLOLIVE_BOUNDARY_NONE = 0, DRILLOLIVE_BOUNDARY_EDGE_AND_CORNER = 1, DRILLOLIVE_BOUNDARY_EDGE_ONLY = 2 };
enum drillolive_method { DRILLOLIVE_METHOD_NORMAL = 0, DRILLOLIVE_METHOD_CHAIKIN = 1 };

typedef struct drillolive_mesh_counts {
    size_t points, faces, corners, texture_values, texture_corners, creases, corner_tags, holes;
} drillolive_mesh_counts;

/* The faces of a mesh: the number of corners of each, and the points of these corners, face after face. */
typedef struct drillolive_faces {
    const uint32_t *sizes;
    size_t count;
    const uint32_t *corners;
    size_t corner_count;
} drillolive_faces;

/* Makes a mesh. `xyz` has three numbers for each of `point_count` points. The mesh has no tags, the boundary mode edge only, and the method normal.

   Doubles and floats are taken exactly. DRILLOLIVE_BAD_NUMBER: a number is not finite, or the numbers have no common denominator of at most 2^126, as
   1e30 beside 1e-30. A place counts numbers: point i has the places 3i to 3i + 2. A common denominator above 2^122 is DRILLOLIVE_BAD_ARRAYS when the
   mesh is checked or refined. A grid avoids both faults. */
drillolive_fault drillolive_mesh_new_doubles(const double *xyz, size_t point_count, drillolive_faces faces, drillolive_mesh **out);
drillolive_fault drillolive_mesh_new_floats(const float *xyz, size_t point_count, drillolive_faces faces, drillolive_mesh **out);

/* Makes a mesh of whole numerators over one denominator. A denominator of 0 is DRILLOLIVE_BAD_ARRAYS when the mesh is checked or refined. */
drillolive_fault drillolive_mesh_new_exact(const int64_t *numerators, uint64_t denominator, size_t point_count, drillolive_faces faces,
                                           drillolive_mesh **out);

/* Makes a mesh on a grid: rounds each coordinate to the nearest multiple of 2^-grid_bits, half to even. `grid_bits` is from 0 to 126. `changed`
   receives the number of coordinates that changed, and may be NULL. Errors: DRILLOLIVE_BAD_NUMBER, DRILLOLIVE_BAD_ARGUMENT. */
drillolive_fault drillolive_mesh_new_grid_doubles(const double *xyz, size_t point_count, drillolive_faces faces, uint32_t grid_bits,
                                                  uint64_t *changed, drillolive_mesh **out);
drillolive_fault drillolive_mesh_new_grid_floats(const float *xyz, size_t point_count, drillolive_faces faces, uint32_t grid_bits,
                                                 uint64_t *changed, drillolive_mesh **out);

/* Makes the mesh of OBJ text of `length` bytes, with its tags and texture. docs/guide/formats.md has the grammar. Errors: DRILLOLIVE_OBJ,
   DRILLOLIVE_LONG. */
drillolive_fault drillolive_mesh_new_obj(const void *text, size_t length, drillolive_mesh **out);

void drillolive_mesh_free(drillolive_mesh *mesh);

/* Each setter replaces everything of its kind that was set before.

   A crease has two points, `ends[2i]` and `ends[2i + 1]`, and a sharpness. A corner tag has a point and a sharpness. A sharpness is taken exactly, and
   is infinite from 10 on. The last of several tags of one edge or point counts.
   Errors: DRILLOLIVE_RANGE (DRILLOLIVE_RANGE_SHARPNESS) for a sharpness below 0. DRILLOLIVE_BAD_NUMBER of kind 0 for a NaN, of kind 1 for a
   denominator above 2^60: round the sharpness to a multiple of 2^-60 or more. */
drillolive_fault drillolive_mesh_set_creases(drillolive_mesh *mesh, const uint32_t *ends, const double *sharpness, size_t crease_count);
drillolive_fault drillolive_mesh_set_corner_tags(drillolive_mesh *mesh, const uint32_t *points, const double *sharpness, size_t tag_count);

/* Sets the faces that are holes. */
drillolive_fault drillolive_mesh_set_holes(drillolive_mesh *mesh, const uint32_t *faces, size_t hole_count);

/* Errors: DRILLOLIVE_BAD_ARGUMENT for a value that the enum lacks. */
drillolive_fault drillolive_mesh_set_boundary(drillolive_mesh *mesh, enum drillolive_boundary boundary);
drillolive_fault drillolive_mesh_set_method(drillolive_mesh *mesh, enum drillolive_method method);

/* Sets the texture: `uv` has two numbers for each of `value_count` values, and `texture_corners` the value of each corner of the mesh, in the order of
   the corners. Errors: DRILLOLIVE_BAD_NUMBER; DRILLOLIVE_BAD_ARRAYS when the mesh is checked or refined. */
drillolive_fault drillolive_mesh_set_texture_doubles(drillolive_mesh *mesh, const double *uv, size_t value_count,
                                                     const uint32_t *texture_corners, size_t corner_count);
drillolive_fault drillolive_mesh_set_texture_floats(drillolive_mesh *mesh, const float *uv, size_t value_count,
                                                    const uint32_t *texture_corners, size_t corner_count);

/* Checks a mesh without refining it. Errors: DRILLOLIVE_BAD_ARRAYS, DRILLOLIVE_MESH with the first fault of the mesh, DRILLOLIVE_TOO_LARGE. */
drillolive_fault drillolive_mesh_check(const drillolive_mesh *mesh);

/* Lists all faults of a mesh that is not a manifold, and none of a manifold. `out` receives the first `room` faults, and `count` the number of all. Each
   has the status DRILLOLIVE_MESH. Faces with fewer than three corners (kind 0) come first, then faces that repeat a point (1), in their order. Edges
   of three or more faces (2) follow, then edges of two faces in one direction (3), both as faces first name them. Points that join more than one fan
   of faces (4) are listed only if no face and no edge has a fault. Errors: DRILLOLIVE_BAD_ARRAYS. */
drillolive_fault drillolive_mesh_faults(const drillolive_mesh *mesh, drillolive_fault *out, size_t room, size_t *count);

drillolive_fault drillolive_mesh_count(const drillolive_mesh *mesh, drillolive_mesh_counts *out);

/* Return the arrays of the mesh, as long as its counts say. NULL if `mesh` is not a mesh or the array is empty. */
const uint32_t *drillolive_mesh_face_sizes(const drillolive_mesh *mesh);
const uint32_t *drillolive_mesh_corners(const drillolive_mesh *mesh);
const uint32_t *drillolive_mesh_texture_corners(const drillolive_mesh *mesh);

/* A crease and a corner tag: points, and a sharpness as a fraction. A sharpness of 10 or more is infinite. */
typedef struct drillolive_crease {
    uint32_t first, second;
    uint64_t sharpness_num, sharpness_den;
} drillolive_crease;
typedef struct drillolive_corner_tag {
    uint32_t point;
    uint64_t sharpness_num, sharpness_den;
} drillolive_corner_tag;

/* Return the tags of the mesh in the order in which they were set, as many as its counts say. NULL if `mesh` is not a mesh or has none. */
const drillolive_crease *drillolive_mesh_creases(const drillolive_mesh *mesh);
const drillolive_corner_tag *drillolive_mesh_corner_tags(const drillolive_mesh *mesh);
const uint32_t *drillolive_mesh_holes(const drillolive_mesh *mesh);

/* ---- Tables ---- */

/* The stencil table of a level. Row r gives point r of the level: entry e, from starts[r] to starts[r + 1], gives the weight weights[e] of the control
   indices[e]. The controls are the points of the mesh. The first rows are those of the points of the mesh, in their order. A table depends on the faces
   and the tags only, and serves every pose of the mesh. */
typedef struct drillolive_table drillolive_table;

/* An integer of 128 bits in two's complement. */
typedef struct drillolive_wide {
    uint64_t low, high;
} drillolive_wide;

/* The numbers of tables, points or sparse levels: nearest doubles, nearest floats, or exact numerators over a denominator of each row or point. */
enum drillolive_form { DRILLOLIVE_DOUBLES = 0, DRILLOLIVE_FLOATS = 1, DRILLOLIVE_EXACT = 2 };

/* Which texture points stay fixed: none, the corners of charts, their whole rims, or every point. */
enum drillolive_seams {
    DRILLOLIVE_SEAMS_SMOOTH = 0,
    DRILLOLIVE_SEAMS_CORNERS = 1,
    DRILLOLIVE_SEAMS_BOUNDARIES = 2,
    DRILLOLIVE_SEAMS_LINEAR = 3
};

typedef struct drillolive_table_counts {
    size_t controls, rows, entries;
} drillolive_table_counts;

/* Makes the table of the level at this depth, from 0 to 10. A weight is the nearest double or float, or a numerator over the denominator of its row.
   Errors: DRILLOLIVE_BAD_ARRAYS, DRILLOLIVE_MESH, DRILLOLIVE_TOO_LARGE, DRILLOLIVE_OVERFLOW, DRILLOLIVE_BAD_ARGUMENT. */
drillolive_fault drillolive_table_new_doubles(const drillolive_mesh *mesh, uint32_t depth, drillolive_table **out);
drillolive_fault drillolive_table_new_floats(const drillolive_mesh *mesh, uint32_t depth, drillolive_table **out);
drillolive_fault drillolive_table_new_exact(const drillolive_mesh *mesh, uint32_t depth, drillolive_table **out);

/* Makes the table of the limit points of the level at a depth from 1 to 10. Errors as for a table, and DRILLOLIVE_LIMIT with the least point that has no
   limit mask. */
drillolive_fault drillolive_table_new_limit(const drillolive_mesh *mesh, uint32_t depth, enum drillolive_form form, drillolive_table **out);

/* Makes the table of (grid + 1)^2 points of the limit surface over a face of the level at this depth. Row i + j * (grid + 1) lies at i / grid along
   the first side of the face, and at j / grid along its last. `grid` is from 1 to 64. The face is a quad inside the mesh with four quads around each
   corner and nothing sharp. Errors as for a table, and DRILLOLIVE_PLACE: the level has no such face (kind 0), or the face has no patch (kind 1). */
drillolive_fault drillolive_table_new_patch(const drillolive_mesh *mesh, uint32_t depth, uint32_t face, uint32_t grid, enum drillolive_form form,
                                            drillolive_table **out);

/* Makes the table of the texture points of a level. Its controls are the points of the cut mesh: the mesh, cut along the seams of its texture.
   `drillolive_points_new_texture` at depth 0 gives their values. Errors as for a table, and DRILLOLIVE_BAD_ARGUMENT if the mesh has no texture. */
drillolive_fault drillolive_table_new_texture(const drillolive_mesh *mesh, uint32_t depth, enum drillolive_seams seams, enum drillolive_form form,
                                              drillolive_table **out);
void drillolive_table_free(drillolive_table *table);

drillolive_fault drillolive_table_count(const drillolive_table *table, drillolive_table_counts *out);

/* Return the arrays of the table: rows + 1 starts; for each entry an index, and a weight or a numerator; for each row a denominator. NULL if `table` is
   not a table or has other weights. */
const uint32_t *drillolive_table_starts(const drillolive_table *table);
const uint32_t *drillolive_table_indices(const drillolive_table *table);
const double *drillolive_table_doubles(const drillolive_table *table);
const float *drillolive_table_floats(const drillolive_table *table);
const drillolive_wide *drillolive_table_numerators(const drillolive_table *table);
const drillolive_wide *drillolive_table_denominators(const drillolive_table *table);

/* Evaluates the rows from `from` up to, but without, `to`. `controls` has `components` numbers, 1 to 16, for each of `control_count` controls, which is
   the count of the table. `out` has room for `components` numbers for each row of the range. Each sum follows the order of the entries, so that every
   division into ranges gives the same numbers. Threads may write disjoint ranges at once.
   Errors: DRILLOLIVE_KIND of argument 0 if the table has other weights; DRILLOLIVE_RANGE for a range or a count that does not fit. */
drillolive_fault drillolive_table_apply_doubles(const drillolive_table *table, const double *controls, size_t control_count, size_t components,
                                                size_t from, size_t to, double *out);
drillolive_fault drillolive_table_apply_floats(const drillolive_table *table, const float *controls, size_t control_count, size_t components,
                                               size_t from, size_t to, float *out);

/* Evaluates rows of an exact table over exact controls. `controls` has `components` numerators for each control, over one denominator of the caller.
   `out` receives `components` numerators for each row of the range, over the denominator of the row times that of the controls. Errors as for doubles,
   and DRILLOLIVE_OVERFLOW with the first row whose sum has more than 128 bits; the rows before it are written. */
drillolive_fault drillolive_table_apply_exact(const drillolive_table *table, const drillolive_wide *controls, size_t control_count,
                                              size_t components, size_t from, size_t to, drillolive_wide *out);

/* Fractions: number i is numerators[i] over denominators[i / per] times `scale`. Denominators and `scale` are unsigned, and each of their products is at
   least 1 and below 2^127. */
typedef struct drillolive_fractions {
    const drillolive_wide *numerators;
    size_t count;
    const drillolive_wide *denominators;
    size_t per;
    drillolive_wide scale;
} drillolive_fractions;

/* Writes the double or float nearest to each fraction, half to even. Errors: DRILLOLIVE_BAD_ARRAYS of kind 18 with the place of a bad denominator;
   DRILLOLIVE_BAD_NUMBER with the place of a numerator that is -2^127. Then nothing is written. */
drillolive_fault drillolive_nearest_doubles(drillolive_fractions fractions, double *out);
drillolive_fault drillolive_nearest_floats(drillolive_fractions fractions, float *out);

/* ---- Stored tables ---- */

/* Makes an exact table of its text, as the command `stencils` of `far` writes it. `used` receives the number of bytes of the table. Text behind it is not
   read. Errors: DRILLOLIVE_LONG, DRILLOLIVE_TABLE with the first bad line. */
drillolive_fault drillolive_table_new_stored(const void *text, size_t length, size_t *used, drillolive_table **out);

/* Checks that a text is exactly the stored table of the mesh at this depth. Errors as for a table, and DRILLOLIVE_LONG, DRILLOLIVE_TABLE,
   DRILLOLIVE_DIFFERS. */
drillolive_fault drillolive_table_check(const drillolive_mesh *mesh, uint32_t depth, const void *text, size_t length);

/* ---- Points ---- */

/* Points of a level, limit points, points of a patch, or texture points. The first points of a level are those of the mesh, in their order. */
typedef struct drillolive_points drillolive_points;

/* Refine the points of the mesh exactly, and round each coordinate once, to the nearest double or float. An exact point has three numerators over one
   denominator: that of its row in the exact table, times the common denominator of the mesh. It is not always in lowest terms. Errors as for a table. */
drillolive_fault drillolive_refine_doubles(const drillolive_mesh *mesh, uint32_t depth, drillolive_points **out);
drillolive_fault drillolive_refine_floats(const drillolive_mesh *mesh, uint32_t depth, drillolive_points **out);
drillolive_fault drillolive_refine_exact(const drillolive_mesh *mesh, uint32_t depth, drillolive_points **out);

/* Make the points of the rows of `drillolive_table_new_limit`, `_patch` and `_texture`, with the same errors. A texture point has two numbers. */
drillolive_fault drillolive_points_new_limit(const drillolive_mesh *mesh, uint32_t depth, enum drillolive_form form, drillolive_points **out);
drillolive_fault drillolive_points_new_patch(const drillolive_mesh *mesh, uint32_t depth, uint32_t face, uint32_t grid, enum drillolive_form form,
                                             drillolive_points **out);
drillolive_fault drillolive_points_new_texture(const drillolive_mesh *mesh, uint32_t depth, enum drillolive_seams seams, enum drillolive_form form,
                                               drillolive_points **out);
void drillolive_points_free(drillolive_points *points);

/* Return the number of points, and of numbers in each point: 3, or 2 for texture. Both are 0 if `points` is not a handle of points. */
size_t drillolive_points_count(const drillolive_points *points);
size_t drillolive_points_components(const drillolive_points *points);

/* Return the numbers of each point, or its denominator. NULL if `points` is not a handle of points or has other numbers. */
const double *drillolive_points_doubles(const drillolive_points *points);
const float *drillolive_points_floats(const drillolive_points *points);
const drillolive_wide *drillolive_points_numerators(const drillolive_points *points);
const drillolive_wide *drillolive_points_denominators(const drillolive_points *points);

/* ---- Levels ---- */

/* The faces and edges of a level. */
typedef struct drillolive_level drillolive_level;

typedef struct drillolive_level_counts {
    size_t points, edges, faces, corners;
} drillolive_level_counts;

/* Makes the level at this depth. Errors as for a table, which the call makes on the way. */
drillolive_fault drillolive_level_new(const drillolive_mesh *mesh, uint32_t depth, drillolive_level **out);

/* Makes the level of the cut mesh, whose corners name texture points. Its faces are those of the level of the mesh. */
drillolive_fault drillolive_level_new_texture(const drillolive_mesh *mesh, uint32_t depth, enum drillolive_seams seams, drillolive_level **out);
void drillolive_level_free(drillolive_level *level);

drillolive_fault drillolive_level_count(const drillolive_level *level, drillolive_level_counts *out);

/* Return the number of corners of each face, and the points of all corners, face after face. Return the two ends of each edge, and for each face 1 if it
   is a hole, else 0. NULL if `level` is not a level. */
const uint32_t *drillolive_level_face_sizes(const drillolive_level *level);
const uint32_t *drillolive_level_corners(const drillolive_level *level);
const uint32_t *drillolive_level_edges(const drillolive_level *level);
const uint8_t *drillolive_level_holes(const drillolive_level *level);

/* Writes the face of the mesh from which a face of the level comes. A face of the mesh with n corners has n * 4^(depth - 1) faces of the level, which are
   consecutive. */
drillolive_fault drillolive_level_face_parent(const drillolive_level *level, size_t face, size_t *out);

/* The origins of the points and faces of a level in the mesh. */
typedef struct drillolive_origins drillolive_origins;

enum drillolive_origin { DRILLOLIVE_ON_POINT = 0, DRILLOLIVE_ON_EDGE = 1, DRILLOLIVE_ON_FACE = 2 };

/* Makes the origins of the level at this depth. Errors as for a table, except those of its rows. */
drillolive_fault drillolive_origins_new(const drillolive_mesh *mesh, uint32_t depth, drillolive_origins **out);
void drillolive_origins_free(drillolive_origins *origins);

size_t drillolive_origins_points(const drillolive_origins *origins);
size_t drillolive_origins_faces(const drillolive_origins *origins);

/* Return for each point of the level the part of the mesh on which it lies: its kind, a value of drillolive_origin, and its number. The part is a point,
   an edge of level 0, or a face. Return for each face of the level the face of the mesh from which it comes. */
const uint8_t *drillolive_origins_kinds(const drillolive_origins *origins);
const uint32_t *drillolive_origins_numbers(const drillolive_origins *origins);
const uint32_t *drillolive_origins_face_parents(const drillolive_origins *origins);

/* ---- Sparse levels ---- */

/* The sparse levels of a mesh from 0 to a depth. Each keeps only the faces near the selected faces of the level before. */
typedef struct drillolive_sparse drillolive_sparse;

/* The faces that are selected for further refinement: those at features, or all. */
enum drillolive_select { DRILLOLIVE_SELECT_FEATURES = 0, DRILLOLIVE_SELECT_ALL = 1 };

/* The kind of a face of a sparse level: a hole, a child of an unselected face, a selected face, or one not refined further. */
enum drillolive_kind { DRILLOLIVE_KIND_HOLE = 0, DRILLOLIVE_KIND_OUTER = 1, DRILLOLIVE_KIND_SELECTED = 2, DRILLOLIVE_KIND_LEAF = 3 };

typedef struct drillolive_sparse_counts {
    size_t levels, points, faces, corners;
} drillolive_sparse_counts;

/* Makes the sparse levels from 0 to a depth of at most 10. Each point has the value that it has in the whole level. The denominator of an exact point
   is that of its row in the exact table of that level, times the common denominator of the mesh. Errors as for a table, for the kept faces and points. */
drillolive_fault drillolive_sparse_new(const drillolive_mesh *mesh, uint32_t depth, enum drillolive_select select, enum drillolive_form form,
                                       drillolive_sparse **out);
void drillolive_sparse_free(drillolive_sparse *sparse);

/* Writes the number of levels, and of their points, faces and corners together. */
drillolive_fault drillolive_sparse_count(const drillolive_sparse *sparse, drillolive_sparse_counts *out);

/* Return the number of points and of faces of each level. The other arrays go level after level. A face has its kind, a value of drillolive_kind, its
   number in the whole level, and its number of corners. A corner has the number of its point within the level. A point has three numbers, and an
   exact one a denominator. NULL if `sparse` is not a handle of sparse levels or has other numbers. */
const uint32_t *drillolive_sparse_level_points(const drillolive_sparse *sparse);
const uint32_t *drillolive_sparse_level_faces(const drillolive_sparse *sparse);
const uint8_t *drillolive_sparse_kinds(const drillolive_sparse *sparse);
const uint64_t *drillolive_sparse_numbers(const drillolive_sparse *sparse);
const uint32_t *drillolive_sparse_face_sizes(const drillolive_sparse *sparse);
const uint32_t *drillolive_sparse_corners(const drillolive_sparse *sparse);
const double *drillolive_sparse_doubles(const drillolive_sparse *sparse);
const float *drillolive_sparse_floats(const drillolive_sparse *sparse);
const drillolive_wide *drillolive_sparse_numerators(const drillolive_sparse *sparse);
const drillolive_wide *drillolive_sparse_denominators(const drillolive_sparse *sparse);

/* ---- Sessions ---- */

/* The points of a level, which follow the points of the mesh, the controls, when these move. */
typedef struct drillolive_session drillolive_session;

/* Makes a session over the level at this depth. Its controls, and so the moves, are multiples of 1 over the common denominator of the mesh times
   2^finer_bits. Errors as for a table, with that denominator. */
drillolive_fault drillolive_session_new(const drillolive_mesh *mesh, uint32_t depth, uint32_t finer_bits, drillolive_session **out);
void drillolive_session_free(drillolive_session *session);

size_t drillolive_session_controls(const drillolive_session *session);
size_t drillolive_session_points(const drillolive_session *session);

/* Returns the denominator of the controls; 0 if `session` is not a session. */
drillolive_wide drillolive_session_denominator(const drillolive_session *session);

/* Move `count` controls, one after another. Control controls[i] moves to three numerators over the denominator of the session, or to three numbers of
   `xyz`, each rounded to such a numerator. `rounded` receives the number of coordinates that changed by rounding, and may be NULL.
   The call evaluates the points that depend on a moved control again, and marks them as changed. Errors: DRILLOLIVE_RANGE for a missing control;
   DRILLOLIVE_BAD_NUMBER; DRILLOLIVE_BAD_ARGUMENT for doubles if the denominator is not a power of two; DRILLOLIVE_OVERFLOW with a point whose
   numerators do not fit. After an error no control has moved. */
drillolive_fault drillolive_session_move_doubles(drillolive_session *session, const uint32_t *controls, const double *xyz, size_t count,
                                                 uint64_t *rounded);
drillolive_fault drillolive_session_move_exact(drillolive_session *session, const uint32_t *controls, const drillolive_wide *numerators,
                                               size_t count);

/* Returns the points that are marked as changed, ascending, writes their number to `count`, and clears the marks. The list lasts until the next call on the
   session without `const`. NULL if `session` is not a session or `count` is NULL. */
const uint32_t *drillolive_session_take_changed(drillolive_session *session, size_t *count);

/* Read the points of the session with these numbers, or its first `count` points if `points` is NULL. A point has three nearest doubles or floats, or three
   numerators and a denominator. Errors: DRILLOLIVE_RANGE for a missing point. */
drillolive_fault drillolive_session_read_doubles(const drillolive_session *session, const uint32_t *points, size_t count, double *out);
drillolive_fault drillolive_session_read_floats(const drillolive_session *session, const uint32_t *points, size_t count, float *out);
drillolive_fault drillolive_session_read_exact(const drillolive_session *session, const uint32_t *points, size_t count,
                                               drillolive_wide *numerators, drillolive_wide *denominators);

/* ---- Runs of the program ---- */

/* The answer of a run: its text, its line on standard error, and its status. */
typedef struct drillolive_output drillolive_output;

/* Runs the program `far` on these words, the first of which is the command, and on these bytes of input, in memory. The fault is DRILLOLIVE_DONE for
   every answer, refusals included: see drillolive_output_status. Words that are not UTF-8 are refused as words. */
drillolive_fault drillolive_run(size_t word_count, const char *const *words, const void *input, size_t input_length, drillolive_output **out);

/* Writes an exact table as the command `stencils` does: the text of the output. Errors: DRILLOLIVE_KIND of argument 0 if the table has other weights. */
drillolive_fault drillolive_table_write(const drillolive_table *table, drillolive_output **out);
void drillolive_output_free(drillolive_output *output);

/* Returns the status with which the program ends, 0 to 16; DRILLOLIVE_KIND if `output` is not an output. */
uint32_t drillolive_output_status(const drillolive_output *output);

/* Return the text on standard output and the line on standard error, each followed by a zero byte that its length does not count. `length` may be NULL. The
   result is NULL, and the length 0, if `output` is not an output. */
const char *drillolive_output_text(const drillolive_output *output, size_t *length);
const char *drillolive_output_error(const drillolive_output *output, size_t *length);

#ifdef __cplusplus
}
#endif

#endif
