/* Writes the canonical form of a manifest from standard input to standard output. If there is none, writes the violations of the
 * schema, or the status, to standard error.
 *
 *   cc normalize.c $(pkg-config --cflags --libs ciderglen) -o normalize
 *   ./normalize < manifest.json
 */
#include <ciderglen.h>

#include <stdio.h>
#include <stdlib.h>

typedef uint32_t call(const uint8_t *document, size_t document_len, uint8_t *buffer, size_t capacity, size_t *output_len);
typedef void printer(const uint8_t *output, size_t output_len);

static uint32_t normalize(const uint8_t *document, size_t document_len, uint8_t *buffer, size_t capacity, size_t *output_len) {
    return ciderglen_normalize(CIDERGLEN_KIND_MANIFEST, document, document_len, buffer, capacity, output_len);
}

static uint32_t violations(const uint8_t *document, size_t document_len, uint8_t *buffer, size_t capacity, size_t *output_len) {
    size_t count;
    return ciderglen_violations(CIDERGLEN_KIND_MANIFEST, document, document_len, buffer, capacity, output_len, &count);
}

static void print_text(const uint8_t *output, size_t output_len) {
    fwrite(output, 1, output_len, stdout);
}

/* A name in a document may hold what moves a terminal's cursor: all but printable ASCII is \xXX. */
static void print_escaped(struct ciderglen_field field) {
    for (size_t i = 0; i < field.text_len; i++)
        fprintf(stderr, field.text[i] >= ' ' && field.text[i] <= '~' && field.text[i] != '\\' ? "%c" : "\\x%02x", field.text[i]);
}

static void print_violations(const uint8_t *output, size_t output_len) {
    const uint8_t *end = output + output_len;
    struct ciderglen_field pointer, expected;
    while (ciderglen_next_field(&output, end, &pointer) && ciderglen_next_field(&output, end, &expected)) {
        print_escaped(pointer);
        fputs(": ", stderr);
        print_escaped(expected);
        fputc('\n', stderr);
    }
}

/* Prints the output of a call. A first guess of the capacity saves most calls the second one. */
static uint32_t print(call *function, const uint8_t *document, size_t document_len, printer *print_output) {
    size_t output_len = document_len + 64;
    uint32_t status = CIDERGLEN_BUFFER_TOO_SMALL;
    while (status == CIDERGLEN_BUFFER_TOO_SMALL) {
        size_t capacity = output_len;
        uint8_t *buffer = malloc(capacity);
        if (!buffer) return CIDERGLEN_OUT_OF_MEMORY;
        status = function(document, document_len, buffer, capacity, &output_len);
        if (status == CIDERGLEN_DONE) print_output(buffer, output_len);
        free(buffer);
    }
    return status;
}

int main(void) {
    static uint8_t document[4 << 20]; /* the limit of registries for a manifest */
    size_t document_len = fread(document, 1, sizeof document, stdin);
    uint32_t status = print(normalize, document, document_len, print_text);
    if (status == CIDERGLEN_INVALID_DOCUMENT) print(violations, document, document_len, print_violations);
    else if (status != CIDERGLEN_DONE) fprintf(stderr, "status %u\n", status);
    return status != CIDERGLEN_DONE;
}
