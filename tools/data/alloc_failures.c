/* Refuses one request for memory: the one whose number stands in REFUSE_AT, the first being 1. Where the program ends, how many
 * requests it made is written to the file that REFUSE_COUNT names. Loaded before the C library by tools/alloc_failures. */
#include <errno.h>
#include <stdio.h>
#include <stdlib.h>

void *__libc_malloc(size_t);
void *__libc_calloc(size_t, size_t);
void *__libc_realloc(void *, size_t);

static unsigned long refused_at, requests;

__attribute__((constructor)) static void begin(void) {
    const char *at = getenv("REFUSE_AT");
    refused_at = at ? strtoul(at, 0, 10) : 0;
    requests = 0;
}

__attribute__((destructor)) static void end(void) {
    const char *path = getenv("REFUSE_COUNT");
    unsigned long count = requests;
    FILE *file = path ? fopen(path, "w") : 0;
    if (file) {
        fprintf(file, "%lu\n", count);
        fclose(file);
    }
}

static int is_refused(void) {
    requests++;
    if (requests != refused_at) return 0;
    errno = ENOMEM;
    return 1;
}

void *malloc(size_t size) { return is_refused() ? 0 : __libc_malloc(size); }
void *calloc(size_t count, size_t size) { return is_refused() ? 0 : __libc_calloc(count, size); }
void *realloc(void *place, size_t size) { return is_refused() ? 0 : __libc_realloc(place, size); }
