/* Makes a call of the library for C so often as is asked: bench CALL FILE COUNT, of manifest, spec, reference, digest and none. */
#include <ciderglen.h>

#include <stdio.h>
#include <stdlib.h>
#include <string.h>

int main(int argc, char **argv) {
    static uint8_t input[1 << 16], buffer[1 << 16];
    FILE *file = argc == 4 ? fopen(argv[2], "rb") : 0;
    if (!file) return 2;
    size_t input_len = fread(input, 1, sizeof input, file), len;
    uint32_t status = 0, kind = strcmp(argv[1], "spec") ? CIDERGLEN_KIND_MANIFEST : CIDERGLEN_KIND_SPEC;
    struct ciderglen_reference parts;
    for (long i = atol(argv[3]); i > 0; i--) {
        switch (argv[1][0]) {
        case 'r': status |= ciderglen_reference(input, input_len, buffer, sizeof buffer, &len, &parts); break;
        case 'd': status |= ciderglen_digest_check(input, input_len); break;
        case 'n': status |= ciderglen_normalize(99, input, input_len, buffer, sizeof buffer, &len) != CIDERGLEN_UNKNOWN_KIND; break;
        default: status |= ciderglen_normalize(kind, input, input_len, buffer, sizeof buffer, &len);
        }
    }
    return status != CIDERGLEN_DONE;
}
