/* Evaluates one table by four threads over disjoint ranges of rows, and compares that with one thread. The last line is `the same points`.

   cc -std=c11 -O2 -Iinclude examples/c/threads.c build/lib/libdrillolive.a -pthread -o threads */
#include <pthread.h>
#include <stdbool.h>
#include <stdio.h>
#include <stdlib.h>
#include <string.h>

#include "drillolive.h"

enum { THREADS = 4, SIDE = 32, POINTS = (SIDE + 1) * (SIDE + 1), FACES = SIDE * SIDE, DEPTH = 2 };

struct part {
    const drillolive_table *table;
    const double *controls;
    size_t from, to;
    double *out;
    drillolive_fault fault;
};

static void *evaluate(void *argument) {
    struct part *part = argument;
    part->fault = drillolive_table_apply_doubles(part->table, part->controls, POINTS, 3, part->from, part->to, part->out + 3 * part->from);
    return NULL;
}

/* A sheet of quads, bent along one side. */
static void make_sheet(double *xyz, uint32_t *sizes, uint32_t *corners) {
    for (uint32_t i = 0; i < POINTS; i++) {
        uint32_t column = i % (SIDE + 1), row = i / (SIDE + 1);
        xyz[3 * i] = column;
        xyz[3 * i + 1] = row;
        xyz[3 * i + 2] = column * column / 16.0;
    }
    for (uint32_t f = 0; f < FACES; f++) {
        uint32_t first = f / SIDE * (SIDE + 1) + f % SIDE;
        uint32_t of_face[4] = {first, first + 1, first + SIDE + 2, first + SIDE + 1};
        sizes[f] = 4;
        memcpy(corners + 4 * f, of_face, sizeof of_face);
    }
}

static int complain(drillolive_fault fault) {
    char line[200];
    drillolive_fault_line(fault, line, sizeof line);
    fprintf(stderr, "%s\n%s\n", line, drillolive_fault_advice(fault));
    return 1;
}

/* Evaluates all rows by four threads. */
static drillolive_fault evaluate_in_parts(const drillolive_table *table, const double *controls, size_t rows, double *out) {
    pthread_t threads[THREADS];
    struct part parts[THREADS];
    drillolive_fault fault = {DRILLOLIVE_DONE, 0, 0, 0};
    bool started[THREADS];
    for (size_t i = 0; i < THREADS; i++) {
        parts[i] = (struct part){table, controls, rows * i / THREADS, rows * (i + 1) / THREADS, out, fault};
        started[i] = pthread_create(&threads[i], NULL, evaluate, &parts[i]) == 0;
        if (!started[i]) evaluate(&parts[i]);
    }
    for (size_t i = 0; i < THREADS; i++) {
        if (started[i]) pthread_join(threads[i], NULL);
        if (parts[i].fault.status != DRILLOLIVE_DONE) fault = parts[i].fault;
    }
    return fault;
}

int main(void) {
    static double xyz[3 * POINTS];
    static uint32_t sizes[FACES], corners[4 * FACES];
    drillolive_faces faces = {sizes, FACES, corners, 4 * FACES};
    drillolive_mesh *mesh;
    drillolive_table *table;
    drillolive_table_counts counts;
    make_sheet(xyz, sizes, corners);
    drillolive_fault fault = drillolive_mesh_new_doubles(xyz, POINTS, faces, &mesh);
    if (fault.status) return complain(fault);
    fault = drillolive_table_new_doubles(mesh, DEPTH, &table);
    if (!fault.status) fault = drillolive_table_count(table, &counts);
    if (fault.status) return complain(fault);
    double *one = malloc(counts.rows * 3 * sizeof *one), *four = malloc(counts.rows * 3 * sizeof *four);
    if (!one || !four) return 1;
    fault = drillolive_table_apply_doubles(table, xyz, POINTS, 3, 0, counts.rows, one);
    if (!fault.status) fault = evaluate_in_parts(table, xyz, counts.rows, four);
    if (fault.status) return complain(fault);
    int same = memcmp(one, four, counts.rows * 3 * sizeof *one) == 0;
    printf("%zu rows, %zu entries\n%s\n", counts.rows, counts.entries, same ? "the same points" : "other points");
    free(one);
    free(four);
    drillolive_table_free(table);
    drillolive_mesh_free(mesh);
    return !same;
}
