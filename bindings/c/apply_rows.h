/* The loops that evaluate rows of a table. The file is included once for doubles and once for floats: NUMBER is the type, and SUM_ROWS and APPLY_ROWS are
   the names of the functions. */

/* `components` is a constant wherever this is called but for the last, so that the sums stay in registers. */
static inline void SUM_ROWS(const drillolive_table *table, const NUMBER *restrict controls, const size_t components, size_t from, size_t to,
                            NUMBER *restrict out) {
    const uint32_t *restrict starts = table->starts, *restrict indices = table->indices;
    const NUMBER *restrict weights = table->weights;
    for (size_t row = from; row < to; row++, out += components) {
        NUMBER sums[COMPONENT_LIMIT] = {0};
        for (size_t entry = starts[row]; entry < starts[row + 1]; entry++) {
            const NUMBER weight = weights[entry];
            const NUMBER *control = controls + indices[entry] * components;
            for (size_t i = 0; i < components; i++) sums[i] += weight * control[i];
        }
        for (size_t i = 0; i < components; i++) out[i] = sums[i];
    }
}

static void APPLY_ROWS(const drillolive_table *table, const NUMBER *controls, size_t components, size_t from, size_t to, NUMBER *out) {
    switch (components) {
    case 1: SUM_ROWS(table, controls, 1, from, to, out); break;
    case 2: SUM_ROWS(table, controls, 2, from, to, out); break;
    case 3: SUM_ROWS(table, controls, 3, from, to, out); break;
    case 4: SUM_ROWS(table, controls, 4, from, to, out); break;
    default: SUM_ROWS(table, controls, components, from, to, out); break;
    }
}
