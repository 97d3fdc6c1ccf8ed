/* Checks all functions: golden FOLDER, with files NAME.KIND.json and, for a document that has a canonical form, NAME.KIND.expected
 * (tools/test_bindings writes them). A document is normalized into a buffer of each length up to that of its text. */
#include <ciderglen.h>

#include <dirent.h>
#include <pthread.h>
#include <stdio.h>
#include <stdlib.h>
#include <string.h>

static int failures;

#define CHECK(it)                                                              \
    do {                                                                       \
        if (!(it) && failures++ < 20) printf("%s:%d: %s\n", __FILE__, __LINE__, #it); \
    } while (0)

/* A literal, as a pointer and a length. */
#define TEXT(it) (const uint8_t *)(it), sizeof(it) - 1

enum { SLACK = 8 };

static uint8_t *read_file(const char *folder, const char *name, const char *suffix, size_t *len) {
    char path[4096];
    snprintf(path, sizeof path, "%s/%s%s", folder, name, suffix);
    FILE *file = fopen(path, "rb");
    if (!file) return 0;
    uint8_t *bytes = malloc(1 << 20);
    *len = fread(bytes, 1, 1 << 20, file);
    fclose(file);
    return bytes;
}

static int is_filled(const uint8_t *bytes, size_t len) {
    while (len && bytes[len - 1] == '.') len--;
    return len == 0;
}

/* A buffer of each length: all is written where it fits, and else nothing. */
static void each_capacity(uint32_t kind, const uint8_t *document, size_t document_len, const uint8_t *text, size_t text_len) {
    for (size_t capacity = 0; capacity <= text_len + SLACK; capacity++) {
        uint8_t *buffer = malloc(capacity + 1); /* valgrind sees what is read or written past it */
        size_t output_len = 7;
        memset(buffer, '.', capacity);
        uint32_t status = ciderglen_normalize(kind, document, document_len, buffer, capacity, &output_len);
        CHECK(output_len == text_len);
        if (capacity < text_len) {
            CHECK(status == CIDERGLEN_BUFFER_TOO_SMALL);
            CHECK(is_filled(buffer, capacity));
        } else {
            CHECK(status == CIDERGLEN_DONE);
            CHECK(!memcmp(buffer, text, text_len));
            CHECK(is_filled(buffer + text_len, capacity - text_len));
        }
        free(buffer);
    }
}

/* A random number, the same in each run. */
static uint32_t draw(void) {
    static uint64_t state = 1;
    state = state * 6364136223846793005u + 1442695040888963407u;
    return (uint32_t)(state >> 33);
}

/* A document with some bytes changed: a canonical text is its own canonical text and violates nothing, and after a failure the
 * buffer is unchanged. */
static void changed(uint32_t kind, const uint8_t *document, size_t document_len, int times) {
    uint8_t *bytes = malloc(document_len + 1), *buffer = malloc(1 << 20), *again = malloc(1 << 20);
    for (int i = 0; i < times; i++) {
        size_t output_len = 7, again_len, count;
        memcpy(bytes, document, document_len);
        for (int j = 0; j < 3 && document_len; j++) {
            size_t at = draw() % document_len;
            bytes[at] = draw() % 2 ? (uint8_t)"0\"{}[],:-e\\nt "[draw() % 14] : (uint8_t)draw();
        }
        memset(buffer, '.', 64);
        uint32_t status = ciderglen_normalize(kind, bytes, document_len, buffer, 1 << 20, &output_len);
        if (status == CIDERGLEN_DONE) {
            CHECK(ciderglen_violations(kind, bytes, document_len, again, 1 << 20, &again_len, &count) == CIDERGLEN_DONE && count == 0);
            CHECK(ciderglen_normalize(kind, buffer, output_len, again, 1 << 20, &again_len) == CIDERGLEN_DONE);
            CHECK(again_len == output_len && !memcmp(again, buffer, output_len));
        } else {
            CHECK(status == CIDERGLEN_INVALID_JSON || status == CIDERGLEN_INVALID_DOCUMENT);
            CHECK(output_len == 0 && is_filled(buffer, 64));
            uint32_t listed = ciderglen_violations(kind, bytes, document_len, again, 1 << 20, &again_len, &count);
            CHECK(listed == (status == CIDERGLEN_INVALID_JSON ? CIDERGLEN_INVALID_JSON : CIDERGLEN_DONE));
        }
    }
    free(again);
    free(buffer);
    free(bytes);
}

static void golden(const char *folder, const char *name, int is_short) {
    size_t document_len, text_len, output_len, count = 7;
    uint32_t kind = (uint32_t)atoi(strrchr(name, '.') + 1);
    uint8_t *document = read_file(folder, name, ".json", &document_len);
    uint8_t *text = read_file(folder, name, ".expected", &text_len);
    uint8_t *buffer = malloc(1 << 20);
    uint32_t status = ciderglen_normalize(kind, document, document_len, buffer, 1 << 20, &output_len);
    if (text) {
        CHECK(status == CIDERGLEN_DONE && output_len == text_len && !memcmp(buffer, text, text_len));
        CHECK(ciderglen_violations(kind, document, document_len, buffer, 1 << 20, &output_len, &count) == CIDERGLEN_DONE && count == 0 && output_len == 0);
        CHECK(ciderglen_pretty(kind, document, document_len, buffer, 1 << 20, &output_len) == CIDERGLEN_DONE);
        /* the pretty text has the same canonical form */
        uint8_t *again = malloc(text_len);
        size_t again_len;
        CHECK(ciderglen_normalize(kind, buffer, output_len, again, text_len, &again_len) == CIDERGLEN_DONE);
        CHECK(again_len == text_len && !memcmp(again, text, text_len));
        free(again);
        if (!is_short) each_capacity(kind, document, document_len, text, text_len);
    } else {
        CHECK((status == CIDERGLEN_INVALID_DOCUMENT || status == CIDERGLEN_INVALID_JSON) && output_len == 0);
        status = ciderglen_violations(kind, document, document_len, buffer, 1 << 20, &output_len, &count);
        CHECK(status == CIDERGLEN_INVALID_JSON ? count == 0 && output_len == 0 : status == CIDERGLEN_DONE);
    }
    changed(kind, document, document_len, is_short ? 10 : 1000);
    free(buffer);
    free(text);
    free(document);
}

/* References with some bytes changed: a whole text is its own whole text, and has a registry. */
static void changed_references(int times) {
    static const char text[] = "test.io:5000/team/app:v1.2@sha256:e692418e4cbaf90ca69d05a66403747baa33ee08806650b51fab815ad7fc331f";
    int accepted = 0;
    for (int i = 0; i < times; i++) {
        uint8_t bytes[sizeof text], whole[256], again[256];
        size_t begin = draw() % 30, len = draw() % 2 ? sizeof text - 1 - begin : draw() % 30, whole_len, again_len;
        struct ciderglen_reference parts, same;
        memcpy(bytes, text + begin, len);
        for (uint32_t j = draw() % 3; j && len; j--) bytes[draw() % len] = (uint8_t)"ab0/:.@-_A"[draw() % 10];
        uint32_t status = ciderglen_reference(bytes, len, whole, sizeof whole, &whole_len, &parts);
        uint32_t resolved = ciderglen_resolve_registry(bytes, len, again, sizeof again, &again_len);
        CHECK(status == resolved);
        if (status != CIDERGLEN_DONE) {
            CHECK(status >= CIDERGLEN_NAME_EMPTY && whole_len == 0 && again_len == 0);
            continue;
        }
        accepted++;
        CHECK(ciderglen_reference(whole, whole_len, again, sizeof again, &again_len, &same) == CIDERGLEN_DONE);
        CHECK(again_len == whole_len && !memcmp(again, whole, whole_len) && !memcmp(&parts, &same, sizeof parts));
    }
    CHECK(accepted > times / 20);
}

static void others(void) {
    static const uint8_t none[1] = {0};
    uint8_t buffer[256];
    size_t output_len, count;
    struct ciderglen_reference parts;
    CHECK(ciderglen_interface() == CIDERGLEN_INTERFACE);
    CHECK(ciderglen_normalize(14, TEXT("{}"), buffer, sizeof buffer, &output_len) == CIDERGLEN_UNKNOWN_KIND && output_len == 0);
    CHECK(ciderglen_pretty(UINT32_MAX, TEXT("{}"), buffer, sizeof buffer, &output_len) == CIDERGLEN_UNKNOWN_KIND);
    CHECK(ciderglen_violations(14, TEXT("{}"), buffer, sizeof buffer, &output_len, &count) == CIDERGLEN_UNKNOWN_KIND && count == 0);
    CHECK(ciderglen_normalize(CIDERGLEN_KIND_LAYOUT, none, 0, buffer, sizeof buffer, &output_len) == CIDERGLEN_INVALID_JSON);
    CHECK(ciderglen_violations(CIDERGLEN_KIND_LAYOUT, TEXT("{}"), buffer, sizeof buffer, &output_len, &count) == CIDERGLEN_DONE && count == 1);
    CHECK(ciderglen_reference(TEXT("busybox"), buffer, sizeof buffer, &output_len, &parts) == CIDERGLEN_DONE);
    CHECK(output_len == 32 && !memcmp(buffer, "docker.io/library/busybox:latest", 32));
    CHECK(parts.registry == 9 && parts.repository == 15 && parts.tag == 6 && parts.digest == 0);
    CHECK(ciderglen_reference(TEXT("Uppercase/repo"), buffer, sizeof buffer, &output_len, &parts) == CIDERGLEN_NAME_CONTAINS_UPPERCASE);
    CHECK(ciderglen_reference(TEXT("\xff"), buffer, sizeof buffer, &output_len, &parts) == CIDERGLEN_INVALID_UTF8);
    CHECK(ciderglen_reference(none, 0, buffer, sizeof buffer, &output_len, &parts) == CIDERGLEN_NAME_EMPTY);
    CHECK(ciderglen_resolve_registry(TEXT("busybox"), buffer, sizeof buffer, &output_len) == CIDERGLEN_DONE);
    CHECK(output_len == 15 && !memcmp(buffer, "index.docker.io", 15));
    CHECK(ciderglen_digest_check(TEXT("foo:bar")) == CIDERGLEN_DONE);
    CHECK(ciderglen_digest_check(TEXT("sha256:abc")) == CIDERGLEN_INVALID_DIGEST);
    CHECK(ciderglen_digest_check(TEXT("\xff")) == CIDERGLEN_INVALID_UTF8);
    CHECK(ciderglen_verify(TEXT("sha256:ba7816bf8f01cfea414140de5dae2223b00361a396177a9cb410ff61f20015ad"), 3, TEXT("abc")) == CIDERGLEN_DONE);
    CHECK(ciderglen_verify(TEXT("sha256:ba7816bf8f01cfea414140de5dae2223b00361a396177a9cb410ff61f20015ad"), 3, TEXT("abd")) == CIDERGLEN_OTHER_DIGEST);
    CHECK(ciderglen_verify(TEXT("sha256:abc"), 3, TEXT("abc")) == CIDERGLEN_INVALID_DIGEST);
    CHECK(ciderglen_verify(TEXT("sha256:ba7816bf8f01cfea414140de5dae2223b00361a396177a9cb410ff61f20015ad"), 4, TEXT("abc")) == CIDERGLEN_OTHER_SIZE);
    CHECK(ciderglen_verify(TEXT("md5:900150983cd24fb0"), 3, TEXT("abc")) == CIDERGLEN_UNKNOWN_ALGORITHM);
    CHECK(ciderglen_verify(TEXT("\xff"), 3, TEXT("abc")) == CIDERGLEN_INVALID_UTF8);
    CHECK(ciderglen_verify(TEXT("sha256:e3b0c44298fc1c149afbf4c8996fb92427ae41e4649b934ca495991b7852b855"), 0, none, 0) == CIDERGLEN_DONE);
    CHECK(ciderglen_pin(TEXT("busybox:1"), TEXT("{\"mediaType\":\"a/b\",\"size\":1,\"digest\":\"x:y\"}"), buffer, sizeof buffer, &output_len) == CIDERGLEN_DONE);
    CHECK(output_len == 29 && !memcmp(buffer, "docker.io/library/busybox@x:y", 29));
    CHECK(ciderglen_pin(TEXT("busybox:1"), TEXT("{}"), buffer, sizeof buffer, &output_len) == CIDERGLEN_INVALID_DOCUMENT);
    CHECK(ciderglen_pin(TEXT("busybox:1"), TEXT("{"), buffer, sizeof buffer, &output_len) == CIDERGLEN_INVALID_JSON);
    CHECK(ciderglen_pin(TEXT("busybox:"), TEXT("{"), buffer, sizeof buffer, &output_len) == CIDERGLEN_REFERENCE_INVALID_FORMAT);
}

/* The next field of a list is this text. */
static int is_next(const uint8_t **cursor, const uint8_t *end, const uint8_t *text, size_t text_len) {
    struct ciderglen_field field;
    return ciderglen_next_field(cursor, end, &field) && field.text_len == text_len && !memcmp(field.text, text, text_len);
}

/* Nothing more can be read. */
static int is_end(const uint8_t *cursor, const uint8_t *end) {
    struct ciderglen_field field = {0, 7};
    const uint8_t *before = cursor;
    return !ciderglen_next_field(&cursor, end, &field) && cursor == before && !field.text && field.text_len == 7;
}

/* Fields that are cut off or longer than what is there: nothing is read past the end, which valgrind sees. */
static void fields(void) {
    static const uint8_t list[] = "\x03\0\0\0\0\0\0\0a\0b\0\0\0\0\0\0\0\0\x01\0\0\0\0\0\0\0c";
    size_t wholes[] = {0, 11, 19, 28}, len = sizeof list - 1;
    CHECK(len == 28);
    for (size_t cut = 0; cut <= len; cut++) {
        uint8_t *copy = malloc(cut + !cut);
        const uint8_t *cursor = copy, *end = copy + cut;
        memcpy(copy, list, cut);
        if (cut >= wholes[1]) CHECK(is_next(&cursor, end, TEXT("a\0b")));
        if (cut >= wholes[2]) CHECK(is_next(&cursor, end, TEXT("")));
        if (cut >= wholes[3]) CHECK(is_next(&cursor, end, TEXT("c")) && cursor == end);
        CHECK(is_end(cursor, end));
        free(copy);
    }
    /* each byte of the length counts, and no sum of it with an address or with 8 wraps around */
    for (int byte = 0; byte < 8; byte++) {
        uint8_t one[16] = {8};
        one[byte] = 9;
        CHECK(is_end(one, one + sizeof one));
    }
    uint8_t largest[16];
    memset(largest, 0xff, sizeof largest);
    for (int low = 0xff; low >= 0; low--) {
        largest[0] = (uint8_t)low;
        CHECK(is_end(largest, largest + sizeof largest));
    }
}

/* A name with a newline, an escape sequence, a NUL and U+202E stands in a field as it is. */
static void violations(void) {
    static const char document[] = "{\"schemaVersion\":2,\"manifests\":[],\"annotations\":{\"a\\n\\u001b[2J\\u0000\xe2\x80\xae\":1,\"c~/\":1}}";
    uint8_t buffer[256];
    size_t output_len, count, needed;
    CHECK(ciderglen_violations(CIDERGLEN_KIND_INDEX, TEXT(document), buffer, sizeof buffer, &output_len, &count) == CIDERGLEN_DONE && count == 2);
    const uint8_t *cursor = buffer, *end = buffer + output_len;
    CHECK(is_next(&cursor, end, TEXT("/annotations/a\n\x1b[2J\0\xe2\x80\xae")));
    CHECK(is_next(&cursor, end, TEXT("a string")));
    CHECK(is_next(&cursor, end, TEXT("/annotations/c~0~1")));
    CHECK(is_next(&cursor, end, TEXT("a string")));
    CHECK(cursor == end && is_end(cursor, end));
    needed = output_len;
    CHECK(ciderglen_violations(CIDERGLEN_KIND_INDEX, TEXT(document), buffer, needed - 1, &output_len, &count) == CIDERGLEN_BUFFER_TOO_SMALL);
    CHECK(count == 2 && output_len == needed);
    CHECK(ciderglen_violations(CIDERGLEN_KIND_LAYOUT, TEXT("{}"), buffer, sizeof buffer, &output_len, &count) == CIDERGLEN_DONE && count == 1);
    cursor = buffer, end = buffer + output_len;
    CHECK(is_next(&cursor, end, TEXT("/imageLayoutVersion")));
    CHECK(is_next(&cursor, end, TEXT("required member is missing (a string)")));
    CHECK(is_end(cursor, end));
}

/* The next fields of a list are those of the layout's broken rule. */
static int is_version_rule(const uint8_t **cursor, const uint8_t *end) {
    return is_next(cursor, end, TEXT("/imageLayoutVersion")) && is_next(cursor, end, TEXT("layout-version")) && is_next(cursor, end, TEXT("stated"))
        && is_next(cursor, end, TEXT("image image-layout.md#oci-layout-file")) && is_next(cursor, end, TEXT("1.0.0"));
}

static void rules(void) {
    uint8_t buffer[256];
    size_t output_len, count, needed;
    CHECK(ciderglen_broken_rules(CIDERGLEN_KIND_LAYOUT, CIDERGLEN_LEVEL_STATED, CIDERGLEN_PLATFORM_OF_DOCUMENT, TEXT("{\"imageLayoutVersion\":\"1.0.1\"}"), buffer, sizeof buffer, &output_len, &count) == CIDERGLEN_DONE);
    const uint8_t *cursor = buffer, *end = buffer + output_len;
    CHECK(count == 1 && is_version_rule(&cursor, end) && is_end(cursor, end) && cursor == end);
    needed = output_len;
    CHECK(ciderglen_broken_rules(CIDERGLEN_KIND_LAYOUT, CIDERGLEN_LEVEL_HOST, CIDERGLEN_PLATFORM_FREEBSD, TEXT("{\"imageLayoutVersion\":\"1.0.1\"}"), buffer, 1, &output_len, &count) == CIDERGLEN_BUFFER_TOO_SMALL);
    CHECK(count == 1 && output_len == needed);
    CHECK(ciderglen_broken_rules(CIDERGLEN_KIND_LAYOUT, CIDERGLEN_LEVEL_MUST, CIDERGLEN_PLATFORM_LINUX, TEXT("{\"imageLayoutVersion\":\"1.0.1\"}"), buffer, sizeof buffer, &output_len, &count) == CIDERGLEN_DONE);
    CHECK(count == 0 && output_len == 0);
    CHECK(ciderglen_broken_rules(14, CIDERGLEN_LEVEL_MUST, CIDERGLEN_PLATFORM_LINUX, TEXT("{}"), buffer, sizeof buffer, &output_len, &count) == CIDERGLEN_UNKNOWN_KIND && count == 0);
    CHECK(ciderglen_broken_rules(CIDERGLEN_KIND_LAYOUT, 4, CIDERGLEN_PLATFORM_LINUX, TEXT("{}"), buffer, sizeof buffer, &output_len, &count) == CIDERGLEN_UNKNOWN_LEVEL && count == 0);
    CHECK(ciderglen_broken_rules(CIDERGLEN_KIND_LAYOUT, CIDERGLEN_LEVEL_MUST, 7, TEXT("{}"), buffer, sizeof buffer, &output_len, &count) == CIDERGLEN_UNKNOWN_PLATFORM && output_len == 0);
    CHECK(ciderglen_broken_rules(CIDERGLEN_KIND_LAYOUT, CIDERGLEN_LEVEL_MUST, CIDERGLEN_PLATFORM_LINUX, TEXT("{"), buffer, sizeof buffer, &output_len, &count) == CIDERGLEN_INVALID_JSON && output_len == 0);
}

/* Documents that nest as deep as the parser allows. */
static void deep(void) {
    static const struct {
        uint32_t kind;
        const char *begin, *end;
    } documents[] = {
        {CIDERGLEN_KIND_LAYOUT, "{\"imageLayoutVersion\":\"1.0.0\",\"x\":", "}"},
        {CIDERGLEN_KIND_ERROR, "{\"errors\":[{\"code\":\"DENIED\",\"detail\":", "}]}"},
        {CIDERGLEN_KIND_SPEC, "{\"ociVersion\":\"1.0.0\",\"windows\":{\"layerFolders\":[],\"credentialSpec\":{\"x\":", "}}}"},
    };
    for (size_t i = 0; i < sizeof documents / sizeof *documents; i++) {
        uint32_t last = CIDERGLEN_INVALID_JSON;
        for (int depth = 130; depth > 100; depth--) {
            uint8_t document[1024], buffer[1024];
            size_t output_len, count;
            char brackets[2][132];
            memset(brackets[0], '[', 131);
            memset(brackets[1], ']', 131);
            int len = snprintf((char *)document, sizeof document, "%s%.*s%.*s%s", documents[i].begin, depth, brackets[0], depth, brackets[1], documents[i].end);
            uint32_t status = ciderglen_normalize(documents[i].kind, document, (size_t)len, buffer, sizeof buffer, &output_len);
            CHECK(ciderglen_violations(documents[i].kind, document, (size_t)len, buffer, sizeof buffer, &output_len, &count) <= CIDERGLEN_INVALID_JSON);
            ciderglen_pretty(documents[i].kind, document, (size_t)len, buffer, sizeof buffer, &output_len);
            /* too deep, and below some depth not */
            CHECK(status == last || last == CIDERGLEN_INVALID_JSON);
            last = status;
        }
        CHECK(last == CIDERGLEN_DONE);
    }
}

static void *in_thread(void *unused) {
    (void)unused;
    others();
    fields();
    violations();
    rules();
    deep();
    return 0;
}

int main(int argc, char **argv) {
    int is_short = argc > 2, documents = 0;
    pthread_t threads[8];
    DIR *folder = argc > 1 ? opendir(argv[1]) : 0;
    if (!folder) return 2;
    for (struct dirent *entry; (entry = readdir(folder));) {
        char name[sizeof entry->d_name];
        strcpy(name, entry->d_name);
        char *suffix = strstr(name, ".json");
        if (!suffix) continue;
        *suffix = 0;
        golden(argv[1], name, is_short);
        documents++;
    }
    closedir(folder);
    others();
    changed_references(is_short ? 1000 : 100000);
    pthread_attr_t small_stack;
    pthread_attr_init(&small_stack);
    pthread_attr_setstacksize(&small_stack, 256 << 10);
    for (int i = 0; i < 8; i++) pthread_create(&threads[i], &small_stack, in_thread, 0);
    for (int i = 0; i < 8; i++) pthread_join(threads[i], 0);
    printf("%d documents, %d failures\n", documents, failures);
    return failures != 0 || documents == 0;
}
