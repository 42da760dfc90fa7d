// Preloaded into a program, it refuses the calls of malloc and realloc whose numbers lie in a range. They are counted from
// 1, and those before main are not. REFUSE="FIRST LAST" is the range. When the program ends, the count of all calls is
// written to the file that REFUSE_COUNT names.

#include <stddef.h>
#include <stdio.h>
#include <stdlib.h>

extern void *__libc_malloc(size_t size);
extern void *__libc_realloc(void *block, size_t size);

static int is_counting;
static long calls, first, last;

__attribute__((constructor)) static void begin(void) {
    const char *range = getenv("REFUSE");
    if (range != NULL && sscanf(range, "%ld %ld", &first, &last) == 2)
        is_counting = 1;
}

__attribute__((destructor)) static void end(void) {
    const char *path = getenv("REFUSE_COUNT");
    FILE *file;
    is_counting = 0;
    file = path == NULL ? NULL : fopen(path, "w");
    if (file != NULL) {
        fprintf(file, "%ld\n", calls);
        fclose(file);
    }
}

static int is_refused(void) {
    if (!is_counting)
        return 0;
    ++calls;
    return first <= calls && calls <= last;
}

void *malloc(size_t size) {
    return is_refused() ? NULL : __libc_malloc(size);
}

void *realloc(void *block, size_t size) {
    return is_refused() ? NULL : __libc_realloc(block, size);
}
