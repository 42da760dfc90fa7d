/* All faults of a mesh, numbers nearest to fractions, and stored tables. */
#include "private.h"

#include <stdlib.h>
#include <string.h>

/* ---- All faults of a mesh ---- */

enum { FEW_FAULTS = 64 };

/* Lists all faults in as much room as `count` says, which gets how many there are. */
static drillolive_fault list_once(const struct far_mesh *mesh, uint64_t *count, struct far_fault **out) {
    struct far_fault held = {0, 0, 0, 0};
    size_t room = (size_t)*count;
    *out = take(room, sizeof **out);
    if (!*out) return memory_fault();
    drillolive_fault fault = fault_of_export(far_mesh_faults(mesh, count, *out, room, &held), &held);
    if (fault.status) {
        free(*out);
        *out = NULL;
    }
    return fault;
}

drillolive_fault drillolive_mesh_faults(const drillolive_mesh *mesh, drillolive_fault *out, size_t room, size_t *count) {
    struct far_fault *found = NULL;
    uint64_t all = FEW_FAULTS;
    drillolive_fault fault = check_handle(mesh, MESH_WORD, 0);
    if (!fault.status) fault = check_array(out, room, 1);
    if (!fault.status && !count) fault = fault_of(DRILLOLIVE_NULL, 0, 3, 0);
    if (fault.status) return fault;
    struct far_mesh view = view_of(mesh);
    fault = list_once(&view, &all, &found);
    if (fault.status == DRILLOLIVE_TOO_SHORT) fault = list_once(&view, &all, &found);
    if (fault.status) return fault;
    for (size_t i = 0; i < room && i < all; i++) out[i] = fault_of(found[i].status, found[i].kind, found[i].first, found[i].second);
    free(found);
    *count = (size_t)all;
    return fault;
}

/* ---- Numbers nearest to fractions ---- */

drillolive_fault round_to(enum form form, const struct far_fraction_arrays *fractions, void *out) {
    struct far_fault held = {0, 0, 0, 0};
    size_t count = fractions->numerators_len;
    if (form == FLOATS) {
        uint32_t status = far_nearest_floats(fractions, out, count, &held);
        if (!status) make_floats(out, count);
        return fault_of_export(status, &held);
    }
    uint32_t status = far_nearest_doubles(fractions, out, count, &held);
    if (!status) make_doubles(out, count);
    return fault_of_export(status, &held);
}

/* Judges the arguments of both calls, and rounds. */
static drillolive_fault nearest(enum form form, drillolive_fractions fractions, void *out) {
    if (fractions.per == 0) return length_fault(0, 0);
    size_t denominators = fractions.count / fractions.per + (fractions.count % fractions.per != 0);
    drillolive_fault fault = check_array(fractions.numerators, fractions.count, 0);
    if (!fault.status) fault = check_array(fractions.denominators, denominators, 0);
    if (!fault.status) fault = check_array(out, fractions.count, 1);
    bool fits = fractions.count <= PTRDIFF_MAX / sizeof(struct far_wide) && fractions.per <= UINT32_MAX;
    if (!fault.status && !fits) fault = length_fault(0, fractions.count);
    if (fault.status) return fault;
    struct far_fraction_arrays arrays = {
        address_of(fractions.numerators), fractions.count, address_of(fractions.denominators), denominators, (uint32_t)fractions.per,
        {fractions.scale.low, fractions.scale.high},
    };
    return round_to(form, &arrays, address_of(out));
}

drillolive_fault drillolive_nearest_doubles(drillolive_fractions fractions, double *out) {
    return nearest(DOUBLES, fractions, out);
}

drillolive_fault drillolive_nearest_floats(drillolive_fractions fractions, float *out) {
    return nearest(FLOATS, fractions, out);
}

/* ---- Stored tables ---- */

/* The number behind these words at the beginning of a text, and 0 where there is none of at most nine digits. */
static uint64_t number_behind(const char *text, const char *words) {
    const char *at = strstr(text, words);
    uint64_t number = 0;
    int digits = 0;
    if (!at) return 0;
    for (at += strlen(words); *at >= '0' && *at <= '9' && digits < 10; at++, digits++) number = 10 * number + (uint64_t)(*at - '0');
    return digits < 10 ? number : 0;
}

/* The counts that the first line of a stored table says, as far as the text can have so many. */
static struct far_table_counts guess_stored(const char *text, size_t length) {
    char line[96] = {0};
    memcpy(line, text, length < sizeof line - 1 ? length : sizeof line - 1);
    line[strcspn(line, "\n")] = 0;
    uint64_t rows = number_behind(line, " rows "), entries = number_behind(line, " entries ");
    struct far_table_counts counts = {0, (uint32_t)(rows < length ? rows : length), entries < length ? entries : length};
    return counts;
}

static drillolive_fault read_once(const void *text, size_t length, struct far_table_counts *counts, uint64_t *end, drillolive_table **out) {
    struct far_fault held = {0, 0, 0, 0};
    drillolive_table *table = take_table(EXACT, counts->rows, (size_t)counts->entries);
    if (!table) return memory_fault();
    struct far_exact_places places = places_of(table);
    drillolive_fault fault = fault_of_export(far_table_read(text, length, counts, &places, end, &held), &held);
    if (fault.status) {
        drillolive_table_free(table);
        return fault;
    }
    fit_table(table, counts);
    *out = table;
    return fault;
}

drillolive_fault drillolive_table_new_stored(const void *text, size_t length, size_t *used, drillolive_table **out) {
    uint64_t end = 0;
    if (!out) return fault_of(DRILLOLIVE_NULL, 0, 3, 0);
    *out = NULL;
    drillolive_fault fault = check_array(text, length, 0);
    if (fault.status) return fault;
    if (!used) return fault_of(DRILLOLIVE_NULL, 0, 2, 0);
    if (length > TEXT_LIMIT) return fault_of(DRILLOLIVE_LONG, 0, 0, 0);
    struct far_table_counts counts = guess_stored(address_of(text), length);
    fault = read_once(address_of(text), length, &counts, &end, out);
    if (fault.status == DRILLOLIVE_TOO_SHORT) fault = read_once(address_of(text), length, &counts, &end, out);
    if (!fault.status) *used = (size_t)end;
    return fault;
}

/* Writes the text of a table into as much room as `written` says, which gets the length of the text. */
static drillolive_fault write_once(const struct far_exact_rows *rows, uint64_t *written, drillolive_output **out) {
    struct far_fault held = {0, 0, 0, 0};
    drillolive_output *output = *written < PTRDIFF_MAX ? take_output((size_t)*written, 0) : NULL;
    if (!output) return memory_fault();
    drillolive_fault fault = fault_of_export(far_table_write(rows, written, (uint8_t *)output->text, output->text_length, &held), &held);
    if (fault.status) {
        drillolive_output_free(output);
        return fault;
    }
    fit_output(output, (struct far_ran){0, *written, 0});
    *out = output;
    return fault;
}

drillolive_fault drillolive_table_write(const drillolive_table *table, drillolive_output **out) {
    if (!out) return fault_of(DRILLOLIVE_NULL, 0, 1, 0);
    *out = NULL;
    drillolive_fault fault = check_handle(table, TABLE_WORD, 0);
    if (fault.status) return fault;
    if (table->form != EXACT) return fault_of(DRILLOLIVE_KIND, 0, 0, 0);
    struct far_exact_rows rows = {
        (uint32_t)table->controls, table->starts, table->rows + 1, table->indices, table->entries, table->weights, table->entries,
        table->denominators, table->rows,
    };
    uint64_t written = 64 + 32 * (uint64_t)table->rows + 24 * (uint64_t)table->entries;
    fault = write_once(&rows, &written, out);
    return fault.status == DRILLOLIVE_TOO_SHORT ? write_once(&rows, &written, out) : fault;
}

drillolive_fault drillolive_table_check(const drillolive_mesh *mesh, uint32_t depth, const void *text, size_t length) {
    struct far_fault held = {0, 0, 0, 0};
    drillolive_fault fault = check_handle(mesh, MESH_WORD, 0);
    if (!fault.status) fault = check_array(text, length, 2);
    if (fault.status) return fault;
    if (length > PTRDIFF_MAX) return length_fault(3, length);
    struct far_mesh view = view_of(mesh);
    return fault_of_export(far_table_check(&view, depth, address_of(text), length, &held), &held);
}
