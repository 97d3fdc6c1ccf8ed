/* Prints the parts of each reference among its arguments.
 *
 *   cc reference.c $(pkg-config --cflags --libs ciderglen) -o reference
 *   ./reference busybox registry.example.com:5000/team/app:v1.2
 */
#include <ciderglen.h>

#include <stdio.h>
#include <string.h>

/* Prints a part, and returns the place behind it and the mark that follows. */
static const char *print(const char *name, const char *at, size_t len) {
    if (!len) return at;
    printf("  %s %.*s\n", name, (int)len, at);
    return at + len + 1;
}

int main(int argc, char **argv) {
    int failed = 0;
    for (int i = 1; i < argc; i++) {
        uint8_t buffer[1024];
        size_t output_len;
        struct ciderglen_reference parts;
        uint32_t status = ciderglen_reference((const uint8_t *)argv[i], strlen(argv[i]), buffer, sizeof buffer, &output_len, &parts);
        if (status != CIDERGLEN_DONE) {
            printf("%s: status %u\n", argv[i], status);
            failed = 1;
            continue;
        }
        const char *at = (const char *)buffer;
        printf("%.*s\n", (int)output_len, at);
        at = print("registry", at, parts.registry);
        at = print("repository", at, parts.repository);
        at = print("tag", at, parts.tag);
        print("digest", at, parts.digest);
    }
    return failed;
}
