/* Lets each allocation of each function fail in turn: out_of_memory MANIFEST. Linked with --wrap for malloc, realloc and free. The
 * status has to be CIDERGLEN_OUT_OF_MEMORY, the buffer unchanged and all memory freed. One allocation of ciderglen_normalize and of ciderglen_pretty is done
 * without where it fails, since it only reserves what grows otherwise: its text is then the same. */
#include <ciderglen.h>

#include <stdio.h>
#include <stdlib.h>
#include <string.h>

void *__real_malloc(size_t);
void *__real_realloc(void *, size_t);
void __real_free(void *);

static long allocations, failing, live;

void *__wrap_malloc(size_t size) {
    if (++allocations == failing) return 0;
    live++;
    return __real_malloc(size);
}

void *__wrap_realloc(void *block, size_t size) {
    if (++allocations == failing) return 0;
    if (!block) live++;
    return __real_realloc(block, size);
}

void __wrap_free(void *block) {
    if (block) live--;
    __real_free(block);
}

static uint8_t document[1 << 20], buffer[1 << 20], text[1 << 20];
static size_t document_len, output_len, text_len;

enum { CALLS = 8 };

static uint32_t call(int which) {
    static const uint8_t name[] = "registry.example.com:5000/team/app:v1.2";
    static const uint8_t json[] = "{\"mediaType\":\"a/b\",\"size\":1,\"digest\":\"x:y\",\"annotations\":{\"a\":\"b\"}}";
    size_t count, len = sizeof name - 1;
    struct ciderglen_reference parts;
    switch (which) {
    case 0: return ciderglen_normalize(CIDERGLEN_KIND_MANIFEST, document, document_len, buffer, sizeof buffer, &output_len);
    case 1: return ciderglen_pretty(CIDERGLEN_KIND_MANIFEST, document, document_len, buffer, sizeof buffer, &output_len);
    case 2: return ciderglen_violations(CIDERGLEN_KIND_INDEX, document, document_len, buffer, sizeof buffer, &output_len, &count);
    case 3: return ciderglen_reference(name, len, buffer, sizeof buffer, &output_len, &parts);
    case 4: return ciderglen_resolve_registry(name, len, buffer, sizeof buffer, &output_len);
    case 5: return ciderglen_pin(name, len, json, sizeof json - 1, buffer, sizeof buffer, &output_len);
    case 6: return ciderglen_broken_rules(CIDERGLEN_KIND_MANIFEST, CIDERGLEN_LEVEL_HOST, CIDERGLEN_PLATFORM_LINUX, document, document_len, buffer, sizeof buffer, &output_len, &count);
    default: return ciderglen_digest_check((const uint8_t *)"foo:bar", 7);
    }
}

/* Whether the answer to a call in which an allocation failed is as it has to be. */
static int is_right(uint32_t status, int *reservations) {
    if (status == CIDERGLEN_OUT_OF_MEMORY) return buffer[0] == '.' && !output_len;
    return (*reservations)-- > 0 && status == CIDERGLEN_DONE && output_len == text_len && !memcmp(buffer, text, text_len);
}

int main(int argc, char **argv) {
    long failures = 0;
    FILE *file = argc == 2 ? fopen(argv[1], "rb") : 0;
    if (!file) return 2;
    document_len = fread(document, 1, sizeof document, file);
    fclose(file);
    for (int which = 0; which < CALLS; which++) {
        failing = allocations = live = 0;
        uint32_t status = call(which);
        long all = allocations;
        int reservations = which < 2;
        memcpy(text, buffer, text_len = output_len);
        failures += live != 0 || status != CIDERGLEN_DONE;
        for (failing = 1; failing <= all; failing++) {
            allocations = live = 0;
            memset(buffer, '.', 64);
            output_len = 7;
            uint32_t failed = call(which);
            if (live || !is_right(failed, &reservations)) {
                failures++;
                printf("call %d, allocation %ld: status %u, %ld blocks live, output_len %zu\n", which, failing, failed, live, output_len);
            }
        }
        failing = 0;
        printf("call %d: status %u, %ld allocations\n", which, status, all);
    }
    printf("%ld failures\n", failures);
    return failures != 0;
}
