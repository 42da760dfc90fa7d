/* Sessions: the points of a level that follow the points of the mesh as these move. Rows are evaluated by the exports. Which rows a move affects is
   found here: those that have the moved point. */
#include "private.h"

#include <stdlib.h>
#include <string.h>

void drillolive_session_free(drillolive_session *session) {
    if (!is_handle(session, SESSION_WORD)) return;
    drillolive_table_free(session->table);
    free(session->controls);
    free(session->points);
    free(session->column_starts);
    free(session->column_rows);
    free(session->is_affected);
    free(session->is_changed);
    free(session->changed);
    release(session);
}

/* ---- A new session ---- */

/* The exponent of a power of two, or NO_GRID. */
static uint32_t exponent_of(struct far_wide number) {
    for (uint32_t bits = 0; bits < NO_GRID; bits++) {
        uint64_t low = bits < 64 ? UINT64_C(1) << bits : 0, high = bits < 64 ? 0 : UINT64_C(1) << (bits - 64);
        if (number.low == low && number.high == high) return bits;
    }
    return NO_GRID;
}

/* Doubles a number so many times, and returns whether it still fits in 127 bits with a sign. */
static bool shift(struct far_wide *number, uint32_t bits) {
    for (uint32_t i = 0; i < bits; i++) {
        uint64_t high = number->high << 1 | number->low >> 63;
        if ((high ^ number->high) >> 63 || (high ^ number->high) >> 62 & 1) return false;
        number->high = high;
        number->low <<= 1;
    }
    return true;
}

/* The controls over 2^finer_bits times the denominator of the mesh. Numbers that do not fit are refused as those of a mesh are. */
static drillolive_fault take_controls(drillolive_session *session, const struct far_mesh *mesh, uint32_t finer_bits) {
    size_t numbers = 3 * mesh->points_len;
    session->scale = mesh->scale;
    session->controls = copy_of(mesh->points, numbers, sizeof *session->controls);
    if (!session->controls) return memory_fault();
    if (finer_bits > 126 || !shift(&session->scale, finer_bits)) return fault_of(DRILLOLIVE_BAD_ARRAYS, 0, 0, 0);
    for (size_t i = 0; i < numbers; i++) {
        if (!shift(&session->controls[i], finer_bits)) return fault_of(DRILLOLIVE_BAD_ARRAYS, 2, i / 3, 0);
    }
    session->grid_bits = exponent_of(session->scale);
    return fault_of(DRILLOLIVE_DONE, 0, 0, 0);
}

/* The table of the mesh over the session's controls, so that their bounds are judged with it. */
static drillolive_fault take_rows(drillolive_session *session, struct far_mesh mesh, uint32_t depth) {
    struct far_rows request = {POINT_ROWS, depth, 0, 0, 0};
    mesh.points = (const struct far_point *)session->controls;
    mesh.scale = session->scale;
    drillolive_fault fault = make_table(&mesh, &request, EXACT, &session->table);
    if (fault.status) return fault;
    session->points = take(3 * session->table->rows, sizeof *session->points);
    if (!session->points) return memory_fault();
    return apply_exact(session->table, session->controls, 3, 0, session->table->rows, session->points);
}

/* For each control the rows that have it, ascending. */
static drillolive_fault take_columns(drillolive_session *session) {
    const drillolive_table *table = session->table;
    uint32_t *starts = session->column_starts = take(table->controls + 2, sizeof *starts);
    uint32_t *rows = session->column_rows = take(table->entries, sizeof *rows);
    if (!starts || !rows) return memory_fault();
    memset(starts, 0, (table->controls + 2) * sizeof *starts);
    for (size_t entry = 0; entry < table->entries; entry++) starts[table->indices[entry] + 2]++;
    for (size_t control = 2; control < table->controls + 2; control++) starts[control] += starts[control - 1];
    for (uint32_t row = 0; row < table->rows; row++) {
        for (size_t entry = table->starts[row]; entry < table->starts[row + 1]; entry++) rows[starts[table->indices[entry] + 1]++] = row;
    }
    return fault_of(DRILLOLIVE_DONE, 0, 0, 0);
}

static drillolive_fault take_marks(drillolive_session *session) {
    size_t rows = session->table->rows;
    session->is_affected = take(rows, sizeof *session->is_affected);
    session->is_changed = take(rows, sizeof *session->is_changed);
    session->changed = take(rows, sizeof *session->changed);
    if (!session->is_affected || !session->is_changed || !session->changed) return memory_fault();
    memset(session->is_affected, 0, rows);
    memset(session->is_changed, 0, rows);
    return fault_of(DRILLOLIVE_DONE, 0, 0, 0);
}

drillolive_fault drillolive_session_new(const drillolive_mesh *mesh, uint32_t depth, uint32_t finer_bits, drillolive_session **out) {
    if (!out) return fault_of(DRILLOLIVE_NULL, 0, 3, 0);
    *out = NULL;
    drillolive_fault fault = check_handle(mesh, MESH_WORD, 0);
    if (fault.status) return fault;
    struct far_mesh view = view_of(mesh);
    drillolive_session *session = take(1, sizeof *session);
    if (!session) return memory_fault();
    *session = (drillolive_session){.word = SESSION_WORD};
    fault = take_controls(session, &view, finer_bits);
    if (!fault.status) fault = take_rows(session, view, depth);
    if (!fault.status) fault = take_columns(session);
    if (!fault.status) fault = take_marks(session);
    if (fault.status) drillolive_session_free(session);
    else *out = session;
    return fault;
}

/* ---- Moves ---- */

static int by_number(const void *a, const void *b) {
    uint32_t first = *(const uint32_t *)a, second = *(const uint32_t *)b;
    return (first > second) - (first < second);
}

/* The rows that have one of these controls, ascending, and none twice. */
static drillolive_fault affected_rows(drillolive_session *session, const uint32_t *controls, size_t count, uint32_t **rows, size_t *found) {
    size_t room = 0;
    *found = 0;
    for (size_t i = 0; i < count; i++) room += session->column_starts[controls[i] + 1] - session->column_starts[controls[i]];
    if (room > session->table->rows) room = session->table->rows;
    *rows = take(room, sizeof **rows);
    if (!*rows) return memory_fault();
    for (size_t i = 0; i < count; i++) {
        for (size_t at = session->column_starts[controls[i]]; at < session->column_starts[controls[i] + 1]; at++) {
            uint32_t row = session->column_rows[at];
            if (!session->is_affected[row]) (*rows)[(*found)++] = row;
            session->is_affected[row] = 1;
        }
    }
    for (size_t i = 0; i < *found; i++) session->is_affected[(*rows)[i]] = 0;
    qsort(*rows, *found, sizeof **rows, by_number);
    return fault_of(DRILLOLIVE_DONE, 0, 0, 0);
}

/* Evaluates rows that ascend, as many neighbours at a time as there are. */
static drillolive_fault evaluate_rows(const drillolive_session *session, const uint32_t *rows, size_t count, struct far_wide *out) {
    drillolive_fault fault = fault_of(DRILLOLIVE_DONE, 0, 0, 0);
    for (size_t from = 0, to; from < count && !fault.status; from = to) {
        for (to = from + 1; to < count && rows[to] == rows[to - 1] + 1; to++) {}
        fault = apply_exact(session->table, session->controls, 3, rows[from], rows[to - 1] + 1, out + 3 * from);
    }
    return fault;
}

/* Gives rows their new values, and marks them. */
static void keep_rows(drillolive_session *session, const uint32_t *rows, size_t count, const struct far_wide *values) {
    for (size_t i = 0; i < count; i++) {
        memcpy(session->points + 3 * (size_t)rows[i], values + 3 * i, 3 * sizeof *values);
        if (!session->is_changed[rows[i]]) session->changed[session->changed_count++] = rows[i];
        session->is_changed[rows[i]] = 1;
    }
}

/* Exchanges the numbers of a control with those of a move. */
static void exchange(struct far_wide *control, struct far_wide *move) {
    for (int i = 0; i < 3; i++) {
        struct far_wide old = control[i];
        control[i] = move[i];
        move[i] = old;
    }
}

/* Makes moves, which get what the controls had. Where a row has no value then, each control gets its own back, the last move first. */
static drillolive_fault make_moves(drillolive_session *session, const uint32_t *controls, struct far_wide *moves, size_t count) {
    uint32_t *rows = NULL;
    size_t found;
    drillolive_fault fault = affected_rows(session, controls, count, &rows, &found);
    struct far_wide *values = fault.status ? NULL : take(3 * found, sizeof *values);
    if (!values) {
        free(rows);
        return memory_fault();
    }
    for (size_t i = 0; i < count; i++) exchange(session->controls + 3 * (size_t)controls[i], moves + 3 * i);
    fault = evaluate_rows(session, rows, found, values);
    if (fault.status) {
        for (size_t i = count; i > 0; i--) exchange(session->controls + 3 * (size_t)controls[i - 1], moves + 3 * (i - 1));
    } else {
        keep_rows(session, rows, found, values);
    }
    free(values);
    free(rows);
    return fault;
}

static drillolive_fault check_moves(const drillolive_session *session, const uint32_t *controls, const void *numbers, size_t count) {
    drillolive_fault fault = check_handle(session, SESSION_WORD, 0);
    if (!fault.status) fault = check_array(controls, count, 1);
    if (!fault.status) fault = check_array(numbers, count, 2);
    if (!fault.status && count > PTRDIFF_MAX / (3 * sizeof(struct far_wide))) fault = length_fault(3, count);
    for (size_t i = 0; i < count && !fault.status; i++) {
        size_t all = session->table->controls;
        if (controls[i] >= all) fault = fault_of(DRILLOLIVE_RANGE, DRILLOLIVE_RANGE_INDEX, controls[i], all);
    }
    return fault;
}

drillolive_fault drillolive_session_move_exact(drillolive_session *session, const uint32_t *controls, const drillolive_wide *numerators,
                                               size_t count) {
    drillolive_fault fault = check_moves(session, controls, numerators, count);
    if (fault.status) return fault;
    struct far_wide *moves = copy_of(numerators, 3 * count, sizeof *moves);
    if (!moves) return memory_fault();
    fault = make_moves(session, controls, moves, count);
    free(moves);
    return fault;
}

drillolive_fault drillolive_session_move_doubles(drillolive_session *session, const uint32_t *controls, const double *xyz, size_t count,
                                                 uint64_t *rounded) {
    struct far_fault held = {0, 0, 0, 0};
    uint64_t changed = 0;
    drillolive_fault fault = check_moves(session, controls, xyz, count);
    if (fault.status) return fault;
    if (session->grid_bits > 126) return fault_of(DRILLOLIVE_BAD_ARGUMENT, 0, 0, 0);
    uint64_t *bits = copy_of(xyz, 3 * count, sizeof *bits);
    struct far_wide *moves = take(3 * count, sizeof *moves);
    fault = memory_fault();
    if (bits && moves) fault = fault_of_export(far_round_doubles(bits, 3 * count, session->grid_bits, moves, 3 * count, &changed, &held), &held);
    if (!fault.status) fault = make_moves(session, controls, moves, count);
    if (!fault.status && rounded) *rounded = changed;
    free(bits);
    free(moves);
    return fault;
}

/* ---- What a session has ---- */

size_t drillolive_session_points(const drillolive_session *session) {
    return is_handle(session, SESSION_WORD) ? session->table->rows : 0;
}

size_t drillolive_session_controls(const drillolive_session *session) {
    return is_handle(session, SESSION_WORD) ? session->table->controls : 0;
}

drillolive_wide drillolive_session_denominator(const drillolive_session *session) {
    drillolive_wide none = {0, 0};
    if (!is_handle(session, SESSION_WORD)) return none;
    drillolive_wide scale = {session->scale.low, session->scale.high};
    return scale;
}

const uint32_t *drillolive_session_take_changed(drillolive_session *session, size_t *count) {
    if (count) *count = 0;
    if (!count || !is_handle(session, SESSION_WORD)) return NULL;
    qsort(session->changed, session->changed_count, sizeof *session->changed, by_number);
    for (size_t i = 0; i < session->changed_count; i++) session->is_changed[session->changed[i]] = 0;
    *count = session->changed_count;
    session->changed_count = 0;
    return session->changed;
}

/* Copies the exact points with these numbers, or all where `points` is NULL: three numerators each, and a denominator. */
static void gather(const drillolive_session *session, const uint32_t *points, size_t count, struct far_wide *numerators,
                   struct far_wide *denominators) {
    for (size_t i = 0; i < count; i++) {
        size_t point = points ? points[i] : i;
        memcpy(numerators + 3 * i, session->points + 3 * point, 3 * sizeof *numerators);
        denominators[i] = product_of(session->table->denominators[point], session->scale);
    }
}

static drillolive_fault check_read(const drillolive_session *session, const uint32_t *points, size_t count, const void *out) {
    drillolive_fault fault = check_handle(session, SESSION_WORD, 0);
    if (!fault.status) fault = check_array(out, count, 3);
    if (fault.status) return fault;
    size_t all = session->table->rows;
    if (!points && count > all) return length_fault(2, count);
    if (count > PTRDIFF_MAX / (3 * sizeof(struct far_wide))) return length_fault(2, count);
    for (size_t i = 0; points && i < count; i++) {
        if (points[i] >= all) return fault_of(DRILLOLIVE_RANGE, DRILLOLIVE_RANGE_INDEX, points[i], all);
    }
    return fault;
}

drillolive_fault drillolive_session_read_exact(const drillolive_session *session, const uint32_t *points, size_t count,
                                               drillolive_wide *numerators, drillolive_wide *denominators) {
    drillolive_fault fault = check_read(session, points, count, numerators);
    if (!fault.status) fault = check_array(denominators, count, 4);
    if (!fault.status) gather(session, points, count, (struct far_wide *)numerators, (struct far_wide *)denominators);
    return fault;
}

static drillolive_fault read_rounded(const drillolive_session *session, const uint32_t *points, size_t count, enum form form, void *out) {
    drillolive_fault fault = check_read(session, points, count, out);
    if (fault.status) return fault;
    struct far_wide *numerators = take(3 * count, sizeof *numerators), *denominators = take(count, sizeof *denominators);
    fault = memory_fault();
    if (numerators && denominators) {
        gather(session, points, count, numerators, denominators);
        struct far_fraction_arrays fractions = {numerators, 3 * count, denominators, count, 3, {1, 0}};
        fault = round_to(form, &fractions, address_of(out));
    }
    free(numerators);
    free(denominators);
    return fault;
}

drillolive_fault drillolive_session_read_doubles(const drillolive_session *session, const uint32_t *points, size_t count, double *out) {
    return read_rounded(session, points, count, DOUBLES, out);
}

drillolive_fault drillolive_session_read_floats(const drillolive_session *session, const uint32_t *points, size_t count, float *out) {
    return read_rounded(session, points, count, FLOATS, out);
}
