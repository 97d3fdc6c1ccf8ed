/* A target of libFuzzer, which tools/fuzz --coverage builds and runs. With REPLAY defined it is a program, replay FOLDER, that runs each
 * file of a folder in the order of their names, and prints a sum of all statuses and outputs, by which two archives are compared.
 *
 * The first byte of an input, modulo CASES, says what the others are: from 0 a document of the kind of that number, then a reference,
 * a reference and a descriptor with a zero byte between them, and a digest. What has to hold is in the functions below; the program
 * aborts where it does not. */
#include <ciderglen.h>

#include <stdio.h>
#include <stdlib.h>
#include <string.h>

#define CHECK(it)                                                                    \
    do {                                                                             \
        if (!(it)) fprintf(stderr, "%s:%d: %s\n", __FILE__, __LINE__, #it), abort(); \
    } while (0)

enum { KINDS = 14, REFERENCE = KINDS, PIN, DIGEST, CASES, MARK = 0xa5, UNSET = 7 };

struct bytes {
    uint8_t *at;
    size_t len;
};

/* FNV-1a of all statuses and outputs. */
static uint64_t sum = 14695981039346656037u;

static void add(uint32_t status, const uint8_t *bytes, size_t len) {
    sum = (sum ^ status ^ len) * 1099511628211u;
    for (size_t i = 0; i < len; i++) sum = (sum ^ bytes[i]) * 1099511628211u;
}

/* A call that writes to a buffer, with what it takes and gives beside. */
struct call {
    enum { NORMALIZE, PRETTY, VIOLATIONS, WHOLE, RESOLVE, PINNED } function;
    uint32_t kind;
    struct bytes input, descriptor;
    size_t count;
    struct ciderglen_reference parts;
};

static uint32_t made(struct call *call, uint8_t *buffer, size_t capacity, size_t *output_len) {
    const uint8_t *at = call->input.at;
    size_t len = call->input.len;
    switch (call->function) {
    case NORMALIZE: return ciderglen_normalize(call->kind, at, len, buffer, capacity, output_len);
    case PRETTY: return ciderglen_pretty(call->kind, at, len, buffer, capacity, output_len);
    case VIOLATIONS: return ciderglen_violations(call->kind, at, len, buffer, capacity, output_len, &call->count);
    case WHOLE: return ciderglen_reference(at, len, buffer, capacity, output_len, &call->parts);
    case RESOLVE: return ciderglen_resolve_registry(at, len, buffer, capacity, output_len);
    default: return ciderglen_pin(at, len, call->descriptor.at, call->descriptor.len, buffer, capacity, output_len);
    }
}

/* Makes a call with a buffer that is too small, and then with one of just the length that is needed. */
static uint32_t output(struct call *call, struct bytes *found) {
    uint8_t small[] = {MARK, MARK};
    size_t needed = UNSET, len = UNSET;
    uint32_t status = made(call, small + 1, 0, &needed);
    CHECK(small[0] == MARK && small[1] == MARK);
    CHECK(status == CIDERGLEN_BUFFER_TOO_SMALL ? needed > 0 : needed == 0);
    uint8_t *buffer = malloc(needed + 1);
    memset(buffer, MARK, needed + 1);
    if (status == CIDERGLEN_BUFFER_TOO_SMALL) {
        status = made(call, buffer, needed, &len);
        CHECK(status == CIDERGLEN_DONE && len == needed && buffer[needed] == MARK);
    }
    add(status, buffer, needed);
    *found = (struct bytes){buffer, needed};
    return status;
}

static int same(struct bytes one, struct bytes other) {
    return one.len == other.len && !memcmp(one.at, other.at, one.len);
}

static uint32_t document(int function, uint32_t kind, struct bytes input, struct bytes *found) {
    struct call call = {.function = function, .kind = kind, .input = input};
    return output(&call, found);
}

/* The number of fields of a list, which they fill. */
static size_t fields(struct bytes list) {
    const uint8_t *cursor = list.at, *end = list.at + list.len;
    struct ciderglen_field field;
    size_t found = 0;
    while (ciderglen_next_field(&cursor, end, &field)) found++;
    CHECK(cursor == end);
    return found;
}

/* A document has a canonical form exactly if it has no violation, and that form is its own, compact and pretty. */
static void document_holds(uint32_t kind, struct bytes input) {
    struct bytes normal, again, pretty, from_pretty, list;
    struct call violations = {.function = VIOLATIONS, .kind = kind, .input = input, .count = UNSET};
    uint32_t status = document(NORMALIZE, kind, input, &normal), listed = output(&violations, &list);
    CHECK(document(PRETTY, kind, input, &pretty) == status);
    if (status == CIDERGLEN_DONE) {
        CHECK(listed == CIDERGLEN_DONE && violations.count == 0 && list.len == 0);
        CHECK(document(NORMALIZE, kind, normal, &again) == CIDERGLEN_DONE && same(again, normal));
        CHECK(document(NORMALIZE, kind, pretty, &from_pretty) == CIDERGLEN_DONE && same(from_pretty, normal));
        free(again.at);
        CHECK(document(PRETTY, kind, normal, &again) == CIDERGLEN_DONE && same(again, pretty));
        free(again.at);
        free(from_pretty.at);
    } else if (status == CIDERGLEN_INVALID_JSON) {
        CHECK(listed == CIDERGLEN_INVALID_JSON && violations.count == 0);
    } else {
        CHECK(status == CIDERGLEN_INVALID_DOCUMENT && listed == CIDERGLEN_DONE && violations.count > 0);
        CHECK(fields(list) == 2 * violations.count);
    }
    free(normal.at);
    free(list.at);
    free(pretty.at);
}

static int is_reason(uint32_t status) {
    return status == CIDERGLEN_INVALID_UTF8 || (status >= CIDERGLEN_NAME_EMPTY && status <= CIDERGLEN_REFERENCE_INVALID_FORMAT);
}

/* A canonical reference is its own, of the same parts, which fill it. */
static void reference_holds(struct bytes input) {
    struct bytes whole, again, registry, other;
    struct call first = {.function = WHOLE, .input = input}, resolve = {.function = RESOLVE, .input = input};
    uint32_t status = output(&first, &whole);
    CHECK(output(&resolve, &registry) == status);
    if (status == CIDERGLEN_DONE) {
        struct call second = {.function = WHOLE, .input = whole}, resolve_whole = {.function = RESOLVE, .input = whole};
        struct ciderglen_reference parts = first.parts;
        CHECK(output(&second, &again) == CIDERGLEN_DONE && same(again, whole));
        CHECK(!memcmp(&parts, &second.parts, sizeof parts));
        CHECK(output(&resolve_whole, &other) == CIDERGLEN_DONE && same(other, registry));
        size_t len = parts.registry + 1 + parts.repository;
        CHECK(parts.registry && parts.repository && whole.at[parts.registry] == '/' && (parts.tag || parts.digest));
        CHECK(!parts.tag || whole.at[len] == ':');
        len += parts.tag ? 1 + parts.tag : 0;
        CHECK(!parts.digest || whole.at[len] == '@');
        CHECK(len + (parts.digest ? 1 + parts.digest : 0) == whole.len);
        free(again.at);
        free(other.at);
    } else {
        CHECK(is_reason(status));
    }
    free(whole.at);
    free(registry.at);
}

static int holds(struct bytes text, const uint8_t *part, size_t len) {
    for (size_t i = 0; i + len <= text.len; i++) {
        if (!memcmp(text.at + i, part, len)) return 1;
    }
    return 0;
}

/* A pinned reference is registry and repository of the reference and the digest of the descriptor, and is there where both are. */
static void pin_holds(struct bytes input, struct bytes descriptor) {
    struct bytes pinned, whole, normal;
    struct call pin = {.function = PINNED, .input = input, .descriptor = descriptor}, first = {.function = WHOLE, .input = input};
    uint32_t status = output(&pin, &pinned), reference = output(&first, &whole);
    uint32_t described = document(NORMALIZE, CIDERGLEN_KIND_DESCRIPTOR, descriptor, &normal);
    CHECK(status == (reference == CIDERGLEN_DONE ? described : reference));
    if (status == CIDERGLEN_DONE) {
        size_t name = first.parts.registry + 1 + first.parts.repository, digest = pinned.len - name - 1;
        CHECK(pinned.len > name && !memcmp(pinned.at, whole.at, name) && pinned.at[name] == '@');
        CHECK(ciderglen_digest_check(pinned.at + name + 1, digest) == CIDERGLEN_DONE);
        CHECK(holds(normal, pinned.at + name + 1, digest));
    }
    free(pinned.at);
    free(whole.at);
    free(normal.at);
}

/* A text is a digest exactly if a descriptor can have it as one. */
static void digest_holds(struct bytes text) {
    static const char begin[] = "{\"mediaType\":\"a/b\",\"size\":1,\"digest\":\"", end[] = "\"}";
    struct bytes normal, descriptor = {malloc(sizeof begin + sizeof end + text.len), sizeof begin - 1 + text.len + sizeof end - 1};
    uint32_t status = ciderglen_digest_check(text.at, text.len);
    memcpy(descriptor.at, begin, sizeof begin - 1);
    memcpy(descriptor.at + sizeof begin - 1, text.at, text.len);
    memcpy(descriptor.at + sizeof begin - 1 + text.len, end, sizeof end - 1);
    int escaped = memchr(text.at, '"', text.len) || memchr(text.at, '\\', text.len);
    for (size_t i = 0; i < text.len; i++) escaped |= text.at[i] < ' ';
    uint32_t found = document(NORMALIZE, CIDERGLEN_KIND_DESCRIPTOR, descriptor, &normal);
    CHECK(status == CIDERGLEN_DONE || status == CIDERGLEN_INVALID_DIGEST || status == CIDERGLEN_INVALID_UTF8);
    CHECK(escaped || (status == CIDERGLEN_DONE) == (found == CIDERGLEN_DONE));
    CHECK(escaped || (status == CIDERGLEN_INVALID_UTF8) == (found == CIDERGLEN_INVALID_JSON));
    add(status, 0, 0);
    free(descriptor.at);
    free(normal.at);
}

int LLVMFuzzerTestOneInput(const uint8_t *data, size_t size) {
    if (size == 0) return 0;
    struct bytes input = {malloc(size), size - 1};
    memcpy(input.at, data + 1, size - 1);
    uint32_t which = data[0] % CASES;
    uint8_t *zero = which == PIN ? memchr(input.at, 0, input.len) : 0;
    if (which < KINDS) document_holds(which, input);
    if (which == REFERENCE) reference_holds(input);
    if (zero) pin_holds((struct bytes){input.at, (size_t)(zero - input.at)}, (struct bytes){zero + 1, (size_t)(input.at + input.len - zero - 1)});
    if (which == DIGEST) digest_holds(input);
    free(input.at);
    return 0;
}

#ifdef REPLAY
#include <dirent.h>

int main(int argc, char **argv) {
    static uint8_t data[1 << 20];
    struct dirent **entries;
    int all = argc == 2 ? scandir(argv[1], &entries, 0, alphasort) : -1, files = 0;
    if (all < 0) return 2;
    for (int i = 0; i < all; i++) {
        char path[4096];
        snprintf(path, sizeof path, "%s/%s", argv[1], entries[i]->d_name);
        FILE *file = entries[i]->d_name[0] == '.' ? 0 : fopen(path, "rb");
        if (!file) continue;
        LLVMFuzzerTestOneInput(data, fread(data, 1, sizeof data, file));
        fclose(file);
        files++;
    }
    printf("%d inputs, sum %016llx\n", files, (unsigned long long)sum);
    return files == 0;
}
#endif
