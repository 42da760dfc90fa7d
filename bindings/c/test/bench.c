/* Times a torus of 20,000 quads: arrays to a mesh, a mesh to a table of doubles, and the evaluation of three components, at depth 2 and 3.

   usage: bench [FRAMES]   how often a table is evaluated; 20 where it is missing */
#define _POSIX_C_SOURCE 200809L

#include <math.h>
#include <stdio.h>
#include <stdlib.h>
#include <time.h>

#include "drillolive.h"

enum { AROUND = 200, ACROSS = 100, QUADS = AROUND * ACROSS };

static double xyz[3 * QUADS];
static uint32_t sizes[QUADS], corners[4 * QUADS];

static double seconds(void) {
    struct timespec now;
    clock_gettime(CLOCK_MONOTONIC, &now);
    return (double)now.tv_sec + (double)now.tv_nsec * 1e-9;
}

/* Coordinates are multiples of 2^-20, so that exact numbers fit at each depth. */
static double rounded(double number) {
    return round(number * 0x1p20) * 0x1p-20;
}

static void make_torus(void) {
    const double turn = 2 * acos(-1.0);
    for (uint32_t i = 0; i < QUADS; i++) {
        uint32_t a = i / ACROSS, b = i % ACROSS;
        double far_out = 3 + cos(turn * b / ACROSS);
        xyz[3 * i] = rounded(far_out * cos(turn * a / AROUND));
        xyz[3 * i + 1] = rounded(far_out * sin(turn * a / AROUND));
        xyz[3 * i + 2] = rounded(sin(turn * b / ACROSS));
        uint32_t next_a = (a + 1) % AROUND * ACROSS, next_b = (b + 1) % ACROSS;
        sizes[i] = 4;
        corners[4 * i] = i;
        corners[4 * i + 1] = next_a + b;
        corners[4 * i + 2] = next_a + next_b;
        corners[4 * i + 3] = a * ACROSS + next_b;
    }
}

static void stop_at(drillolive_fault fault) {
    char line[200];
    if (fault.status == DRILLOLIVE_DONE) return;
    drillolive_fault_line(fault, line, sizeof line);
    fprintf(stderr, "%s\n%s\n", line, drillolive_fault_advice(fault));
    exit(1);
}

static void time_table(const drillolive_mesh *mesh, uint32_t depth, int frames) {
    drillolive_table *table;
    drillolive_table_counts counts;
    double began = seconds(), least = 1e9;
    stop_at(drillolive_table_new_doubles(mesh, depth, &table));
    double made = seconds() - began;
    stop_at(drillolive_table_count(table, &counts));
    double *out = malloc(counts.rows * 3 * sizeof *out);
    if (!out) exit(1);
    for (int frame = 0; frame < frames; frame++) {
        began = seconds();
        stop_at(drillolive_table_apply_doubles(table, xyz, QUADS, 3, 0, counts.rows, out));
        double took = seconds() - began;
        least = took < least ? took : least;
    }
    printf("depth %u: %zu rows, %zu entries, table %.3f s, a frame %.4f s\n", (unsigned)depth, counts.rows, counts.entries, made, least);
    free(out);
    drillolive_table_free(table);
}

int main(int count, char **words) {
    int frames = count > 1 ? atoi(words[1]) : 20;
    drillolive_faces faces = {sizes, QUADS, corners, 4 * QUADS};
    drillolive_mesh *mesh;
    make_torus();
    double began = seconds();
    stop_at(drillolive_mesh_new_doubles(xyz, QUADS, faces, &mesh));
    printf("mesh %.4f s\n", seconds() - began);
    for (uint32_t depth = 2; depth <= 3; depth++) time_table(mesh, depth, frames);
    drillolive_mesh_free(mesh);
    return 0;
}
