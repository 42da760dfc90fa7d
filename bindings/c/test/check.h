/* What the files of the C tests share. */
#ifndef CHECK_H
#define CHECK_H

#include <stdbool.h>

#include "drillolive.h"

/* Counts a check, and prints it where it fails. */
void check(bool holds, const char *what, const char *file, int line);

#define CHECK(condition) check((condition), #condition, __FILE__, __LINE__)
#define DONE(call) CHECK((call).status == DRILLOLIVE_DONE)

/* The cube of examples/cube.obj: corners at -1 and 1. */
extern const double CUBE_POINTS[24];
extern const uint32_t CUBE_SIZES[6], CUBE_CORNERS[24];
extern const char CUBE_TEXT[];

drillolive_faces cube_faces(void);
drillolive_mesh *cube(void);

void test_misuse(void);
void test_rows(void);
void test_refusals(void);
void test_random(unsigned long sequences);

/* Allocations since the last call of refuse_from, and those that are refused: from one on, alone or all that follow. */
void refuse_from(unsigned long first, bool all_that_follow);
unsigned long allocations(void);

#endif
