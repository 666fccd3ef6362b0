/* What bad input and want of memory are answered: bad_input, linked with --wrap=malloc and --wrap=realloc. It ends
 * with 0, or names the line of the first answer that is another one. */
#include <stdio.h>
#include <stdlib.h>
#include <string.h>

#include "../tera.h"

#define HOLDS(fact) \
    do { \
        if (!(fact)) { \
            fprintf(stderr, "bad_input.c:%d: %s does not hold\n", __LINE__, #fact); \
            exit(1); \
        } \
    } while (0)

/* The calls that still find memory; below 0 each does. */
static long granted = -1;

void *__real_malloc(size_t size);
void *__real_realloc(void *at, size_t size);

static int is_granted(void) {
    if (granted == 0) return 0;
    if (granted > 0) granted--;
    return 1;
}

void *__wrap_malloc(size_t size) { return is_granted() ? __real_malloc(size) : NULL; }

void *__wrap_realloc(void *at, size_t size) { return is_granted() ? __real_realloc(at, size) : NULL; }

static const char GREETING[] = "hi {{ a }}";
static const char GREETING_TREE[] = "text \"hi \"\nexpr a\n";
static const char GREETING_JSON[] =
    "{\"parent\":null,\"component_definitions\":[],\"nodes\":[{\"kind\":\"Content\",\"text\":\"hi \"},"
    "{\"kind\":\"Expression\",\"expr\":{\"kind\":\"Var\",\"span\":{\"start_line\":1,\"start_col\":6,\"end_line\":1,"
    "\"end_col\":7,\"start\":6,\"end\":7},\"name\":\"a\"}}]}";
static const char TWICE[] = "{% component a() %}{% endcomponent a %}{% component a() %}{% endcomponent %}";
static const char TWICE_FAULT[] = "Template already contains a component named `a`";

static struct tera_source source_of(const char *text) {
    struct tera_source source = {text, strlen(text), NULL, NULL};
    return source;
}

static int is_left(const char *buffer, size_t from, size_t to) {
    for (size_t i = from; i < to; i++)
        if (buffer[i] != '*') return 0;
    return 1;
}

static void buffers_of_trees(void) {
    struct tera_source source = source_of(GREETING);
    size_t length = strlen(GREETING_TREE), needed = 0;
    char buffer[64];
    HOLDS(tera_tree(&source, NULL, 0, &needed) == TERA_SHORT && needed == length);
    HOLDS(tera_tree(&source, NULL, sizeof buffer, &needed) == TERA_SHORT && needed == length);
    for (size_t room = 0; room < sizeof buffer; room++) {
        memset(buffer, '*', sizeof buffer);
        enum tera_status status = tera_tree(&source, buffer, room, &needed);
        HOLDS(needed == length);
        if (room < length) {
            HOLDS(status == TERA_SHORT && is_left(buffer, 0, sizeof buffer));
        } else {
            HOLDS(status == TERA_WRITTEN && memcmp(buffer, GREETING_TREE, length) == 0);
            HOLDS(is_left(buffer, length, sizeof buffer));
        }
    }
    HOLDS(tera_tree(&source, buffer, sizeof buffer, NULL) == TERA_WRITTEN);
    struct tera_source nothing = {NULL, 5, NULL, NULL};
    HOLDS(tera_tree(&nothing, NULL, 0, &needed) == TERA_WRITTEN && needed == 0);
}

static void buffers_of_json(void) {
    struct tera_source source = source_of(GREETING), twice = source_of(TWICE);
    size_t length = strlen(GREETING_JSON), needed = 0;
    char buffer[512];
    memset(buffer, '*', sizeof buffer);
    HOLDS(tera_json(&source, NULL, 0, &needed) == TERA_SHORT && needed == length);
    HOLDS(tera_json(&source, buffer, length - 1, &needed) == TERA_SHORT && needed == length);
    HOLDS(tera_json(&twice, buffer, sizeof buffer, &needed) == TERA_FAULTY && needed == 0);
    HOLDS(is_left(buffer, 0, sizeof buffer));
    HOLDS(tera_json(&source, buffer, length, &needed) == TERA_WRITTEN && needed == length);
    HOLDS(memcmp(buffer, GREETING_JSON, length) == 0 && is_left(buffer, length, sizeof buffer));
}

static void buffers_of_faults(void) {
    struct tera_source source = source_of(TWICE);
    size_t length = strlen(TWICE_FAULT), needed = 0;
    char buffer[64];
    struct tera_fault fault = {{0, 0, 0, 0, 0, 0}, 9};
    memset(buffer, '*', sizeof buffer);
    HOLDS(tera_tree(&source, buffer, sizeof buffer, &needed) == TERA_FAULTY && needed == 0);
    HOLDS(tera_fault(&source, buffer, length - 1, &needed, NULL) == TERA_SHORT && needed == length);
    HOLDS(is_left(buffer, 0, sizeof buffer));
    HOLDS(tera_fault(&source, buffer, length - 1, &needed, &fault) == TERA_SHORT && fault.notes == 1);
    HOLDS(tera_fault(&source, buffer, length, &needed, &fault) == TERA_WRITTEN && needed == length);
    HOLDS(memcmp(buffer, TWICE_FAULT, length) == 0 && is_left(buffer, length, sizeof buffer));
    HOLDS(fault.span.start_line == 1 && fault.span.start_col == 52 && fault.span.start == 52);
    HOLDS(fault.span.end_line == 1 && fault.span.end_col == 53 && fault.span.end == 53);
    struct tera_source whole = source_of(GREETING);
    fault.notes = 9;
    HOLDS(tera_fault(&whole, buffer, sizeof buffer, &needed, &fault) == TERA_NOTHING && needed == 0);
    HOLDS(fault.notes == 9);
}

static void notes(void) {
    struct tera_source source = source_of(TWICE), whole = source_of(GREETING);
    static const char label[] = "first defined here";
    size_t length = strlen(label), needed = 0;
    char buffer[64];
    struct tera_span place = {0, 0, 0, 0, 0, 9};
    memset(buffer, '*', sizeof buffer);
    HOLDS(tera_note(&source, 0, NULL, 0, &needed, NULL) == TERA_SHORT && needed == length);
    HOLDS(tera_note(&source, 1, buffer, sizeof buffer, &needed, &place) == TERA_NOTHING && needed == 0);
    HOLDS(tera_note(&whole, 0, buffer, sizeof buffer, &needed, &place) == TERA_NOTHING && needed == 0);
    HOLDS(place.end == 9 && is_left(buffer, 0, sizeof buffer));
    HOLDS(tera_note(&source, 0, buffer, length, &needed, &place) == TERA_WRITTEN && needed == length);
    HOLDS(memcmp(buffer, label, length) == 0 && is_left(buffer, length, sizeof buffer));
    HOLDS(place.start_line == 1 && place.start_col == 13 && place.start == 13 && place.end == 14);
}

/* Each call answers this, and writes nothing. */
static void refused(const struct tera_source *source, enum tera_status status) {
    char buffer[64];
    size_t needed = 9;
    struct tera_fault fault = {{0, 0, 0, 0, 0, 0}, 9};
    memset(buffer, '*', sizeof buffer);
    HOLDS(tera_tree(source, buffer, sizeof buffer, &needed) == status && needed == 0);
    needed = 9;
    HOLDS(tera_json(source, buffer, sizeof buffer, &needed) == status && needed == 0);
    needed = 9;
    HOLDS(tera_fault(source, buffer, sizeof buffer, &needed, &fault) == status && needed == 0);
    needed = 9;
    HOLDS(tera_note(source, 0, buffer, sizeof buffer, &needed, &fault.span) == status && needed == 0);
    HOLDS(fault.notes == 9 && fault.span.end == 0 && is_left(buffer, 0, sizeof buffer));
}

static void refusals(void) {
    static const char *const bytes[] = {"\xff", "a\xc3", "\xed\xa0\x80", "{{ \x80 }}"};
    for (size_t i = 0; i < sizeof bytes / sizeof *bytes; i++) {
        struct tera_source source = source_of(bytes[i]);
        refused(&source, TERA_NOT_UTF8);
    }
    static const char *const markers[] = {"", "{%%}{{}}{##", "{%%}{{}}{##}}", "{%%}{%}}{##}", "{{%}{{}}{{#}",
                                          "{%%}{{}}{%#}", "{%%}{{}}\xff##}", "\xc3%\x97}{{}}{##}"};
    for (size_t i = 0; i < sizeof markers / sizeof *markers; i++) {
        struct tera_source source = source_of(GREETING);
        source.markers = markers[i];
        refused(&source, TERA_BAD_MARKERS);
    }
    static const struct tera_limits limits[] = {{0, 256, 4, 2, 40}, {101, 256, 4, 2, 40}, {40, 4097, 4, 2, 40},
                                                {40, 256, 17, 2, 40}, {40, 256, 4, 9, 40}, {40, 256, 4, 2, 101}};
    for (size_t i = 0; i < sizeof limits / sizeof *limits; i++) {
        struct tera_source source = source_of(GREETING);
        source.limits = &limits[i];
        refused(&source, TERA_BAD_LIMITS);
    }
}

static void others(void) {
    static const struct tera_limits narrow = {1, 1, 1, 1, 1};
    struct tera_source marked = {"hi <<a>>", 8, "<%%><<>><##>", NULL};
    struct tera_source letters = {"hi \xc3\x97 a\xc3\xb7", 9, "{%%}\xc3\x97\xc3\xb7{##}", NULL};
    struct tera_source deep = {"{{ (a) }}", 9, NULL, &narrow};
    char buffer[64];
    size_t needed = 0;
    HOLDS(tera_tree(&marked, buffer, sizeof buffer, &needed) == TERA_WRITTEN);
    HOLDS(needed == strlen(GREETING_TREE) && memcmp(buffer, GREETING_TREE, needed) == 0);
    HOLDS(tera_tree(&letters, buffer, sizeof buffer, &needed) == TERA_WRITTEN);
    HOLDS(needed == strlen(GREETING_TREE) && memcmp(buffer, GREETING_TREE, needed) == 0);
    HOLDS(tera_tree(&deep, buffer, sizeof buffer, &needed) == TERA_FAULTY);
    deep.limits = NULL;
    HOLDS(tera_tree(&deep, buffer, sizeof buffer, &needed) == TERA_WRITTEN);
}

static char *append(char *at, const char *text) {
    size_t length = strlen(text);
    memcpy(at, text, length + 1);
    return at + length;
}

/* A chain of more `elif`s than a stack has room for calls. */
static void long_chain(void) {
    static const char first[] = "{% if a %}", more[] = "{% elif a %}", last[] = "{% endif %}";
    static const char branch[] = "{\"expr\":{\"kind\":\"Var\"";
    const size_t elifs = 100000;
    char *text = malloc(sizeof first + elifs * strlen(more) + sizeof last), *at = text;
    HOLDS(text != NULL);
    at = append(at, first);
    for (size_t i = 0; i < elifs; i++) at = append(at, more);
    append(at, last);
    struct tera_source source = source_of(text);
    size_t needed = 0, branches = 0;
    HOLDS(tera_json(&source, NULL, 0, &needed) == TERA_SHORT);
    char *json = calloc(needed + 1, 1);
    HOLDS(json != NULL && tera_json(&source, json, needed, &needed) == TERA_WRITTEN && strlen(json) == needed);
    for (const char *found = json; (found = strstr(found, branch)) != NULL; found++) branches++;
    HOLDS(branches == elifs + 1);
    static const char end[] = ",\"body\":[]}],\"false_body\":[]}]}";
    HOLDS(strcmp(json + needed - strlen(end), end) == 0);
    free(json);
    free(text);
}

static const char LAID_OUT[] = "hi {{ a | b }}";

static void layouts(void) {
    struct tera_source source = source_of("hi {{a|b}}"), open = source_of("{{ a"), text = source_of("{{ 'a }}");
    size_t length = strlen(LAID_OUT), needed = 0;
    char buffer[64];
    memset(buffer, '*', sizeof buffer);
    HOLDS(tera_format(&source, buffer, length - 1, &needed) == TERA_SHORT && needed == length);
    HOLDS(tera_format(&open, buffer, sizeof buffer, &needed) == TERA_FAULTY && needed == 0);
    HOLDS(tera_format(&text, buffer, sizeof buffer, &needed) == TERA_FAULTY && needed == 0);
    HOLDS(is_left(buffer, 0, sizeof buffer));
    HOLDS(tera_format(&source, buffer, length, &needed) == TERA_WRITTEN && needed == length);
    HOLDS(memcmp(buffer, LAID_OUT, length) == 0 && is_left(buffer, length, sizeof buffer));
    struct tera_source latin = source_of("\xff"), letters = source_of("a");
    HOLDS(tera_format(&latin, buffer, sizeof buffer, &needed) == TERA_NOT_UTF8 && needed == 0);
    letters.markers = "aabb{{}}{##}";
    HOLDS(tera_tree(&letters, buffer, sizeof buffer, &needed) == TERA_WRITTEN);
    HOLDS(tera_format(&letters, buffer, sizeof buffer, &needed) == TERA_BAD_MARKERS && needed == 0);
}

static struct tera_file file_of(const char *name, const char *text) {
    struct tera_file file = {name, strlen(name), text, strlen(text)};
    return file;
}

/* What a call writes of files. */
typedef uint32_t telling(const struct tera_file *files, size_t count, void *text, size_t length, size_t *needed);

static uint32_t check_first(const struct tera_file *files, size_t count, void *text, size_t length, size_t *needed) {
    return tera_check(files, count, count > 0, TERA_USUAL_FAULTS, text, length, needed);
}

static void buffers_of_files(telling *call, const char *begin, const char *of_none) {
    struct tera_file files[] = {file_of("page.html", "{{ <ui.button/> }}"),
                                file_of("ui.html", "{% component ui.button(label: string) %}{% endcomponent %}")};
    char text[2048];
    size_t needed = 0, length;
    HOLDS(call(files, 2, NULL, 0, &length) == TERA_SHORT && length > strlen(begin) && length < sizeof text);
    memset(text, '*', sizeof text);
    HOLDS(call(files, 2, text, length - 1, &needed) == TERA_SHORT && needed == length);
    HOLDS(is_left(text, 0, sizeof text));
    HOLDS(call(files, 2, text, length, &needed) == TERA_WRITTEN && needed == length);
    HOLDS(memcmp(text, begin, strlen(begin)) == 0 && is_left(text, length, sizeof text));
    HOLDS(call(NULL, 2, text, sizeof text, &needed) == TERA_WRITTEN && needed == strlen(of_none));
    HOLDS(memcmp(text, of_none, needed) == 0);
    files[1].name = "\xff";
    files[1].name_length = 1;
    memset(text, '*', sizeof text);
    HOLDS(call(files, 2, text, sizeof text, &needed) == TERA_NOT_UTF8 && needed == 0);
    files[1] = file_of("ui.html", "\xff");
    HOLDS(call(files, 2, text, sizeof text, &needed) == TERA_NOT_UTF8 && is_left(text, 0, sizeof text));
}

static void files_together(void) {
    buffers_of_files(check_first, "{\"file\":\"page.html\",\"line\":1,\"column\":4,", "");
    buffers_of_files(tera_components, "[", "[]\n");
    struct tera_file library = file_of("ui.html", "{{ a b }}");
    size_t needed = 0;
    HOLDS(tera_check(&library, 1, 0, TERA_USUAL_FAULTS, NULL, 0, &needed) == TERA_SHORT && needed > 0);
    struct tera_file wrong = file_of("a.html", "{{ a b }}{{ c d }}");
    size_t first = 0;
    HOLDS(tera_check(&wrong, 1, 1, 0, NULL, 0, &first) == TERA_SHORT);
    HOLDS(tera_check(&wrong, 1, 1, TERA_USUAL_FAULTS, NULL, 0, &needed) == TERA_SHORT && needed > first);
}

static int begins(const char *text, const char *front) { return memcmp(text, front, strlen(front)) == 0; }

static void trees_with_faults(void) {
    static const char empty[] = "{\"tree\":{\"parent\":null,\"component_definitions\":[],\"nodes\":[]},"
                                "\"faults\":[],\"more\":false}\n";
    struct tera_file page = file_of("page.html", "{{ a b }}{{ c }}"), latin = file_of("page.html", "\xff");
    struct tera_file unnamed = {"\xff", 1, "a", 1};
    char text[1024];
    size_t needed = 0, length;
    HOLDS(tera_mend(&page, TERA_USUAL_FAULTS, NULL, 0, &length) == TERA_SHORT && length < sizeof text);
    memset(text, '*', sizeof text);
    HOLDS(tera_mend(&page, TERA_USUAL_FAULTS, text, length - 1, &needed) == TERA_SHORT && needed == length);
    HOLDS(tera_mend(&latin, TERA_USUAL_FAULTS, text, sizeof text, &needed) == TERA_NOT_UTF8 && needed == 0);
    HOLDS(tera_mend(&unnamed, TERA_USUAL_FAULTS, text, sizeof text, &needed) == TERA_NOT_UTF8 && needed == 0);
    HOLDS(is_left(text, 0, sizeof text));
    HOLDS(tera_mend(&page, TERA_USUAL_FAULTS, text, length, &needed) == TERA_WRITTEN && needed == length);
    HOLDS(begins(text, "{\"tree\":{\"parent\":null,") && is_left(text, length, sizeof text));
    HOLDS(tera_mend(&page, 0, text, sizeof text, NULL) == TERA_WRITTEN && begins(text, "{\"tree\":null,\"faults\":[{"));
    HOLDS(tera_mend(NULL, TERA_USUAL_FAULTS, text, sizeof text, &needed) == TERA_WRITTEN);
    HOLDS(needed == strlen(empty) && begins(text, empty));
}

/* A call that writes a tree. */
typedef uint32_t writing(const struct tera_source *source, void *text, size_t length, size_t *needed);

/* Refuses memory to the call, one grant later each time, until it is written with a grant left; the times that came
 * before. Each of them is answered by the text, or by want of memory, and then nothing is written. */
static long refusals_of(writing *call, const struct tera_source *source, char *text, size_t length, size_t *needed) {
    for (long grants = 0;; grants++) {
        memset(text, '*', length);
        granted = grants;
        uint32_t told = call(source, text, length, needed);
        int left = granted != 0;
        granted = -1;
        if (told == TERA_WRITTEN && left) return grants;
        HOLDS(told == TERA_WRITTEN || (told == TERA_NO_MEMORY && *needed == 0 && is_left(text, 0, length)));
    }
}

/* What is found in one file, and its components. */
static uint32_t check_source(const struct tera_source *source, void *text, size_t length, size_t *needed) {
    struct tera_file file = {"a.html", 6, source->bytes, source->length};
    return tera_check(&file, 1, 1, TERA_USUAL_FAULTS, text, length, needed);
}

static uint32_t components_of_source(const struct tera_source *source, void *text, size_t length, size_t *needed) {
    struct tera_file file = {"a.html", 6, source->bytes, source->length};
    return tera_components(&file, 1, text, length, needed);
}

static uint32_t mend_source(const struct tera_source *source, void *text, size_t length, size_t *needed) {
    struct tera_file file = {"a.html", 6, source->bytes, source->length};
    return tera_mend(&file, TERA_USUAL_FAULTS, text, length, needed);
}

/* Each call that may find no memory is answered so, or as ever, where the memory that is refused is not needed. */
static void scarce_memory(void) {
    struct tera_source source = source_of(TWICE), whole = source_of(GREETING);
    char buffer[64], json[512];
    size_t needed = 0;
    struct tera_fault fault = {{0, 0, 0, 0, 0, 0}, 0};
    HOLDS(refusals_of(tera_tree, &whole, buffer, sizeof buffer, &needed) > 6);
    HOLDS(needed == strlen(GREETING_TREE) && memcmp(buffer, GREETING_TREE, needed) == 0);
    HOLDS(refusals_of(tera_json, &whole, json, sizeof json, &needed) > 6);
    HOLDS(needed == strlen(GREETING_JSON) && memcmp(json, GREETING_JSON, needed) == 0);
    struct tera_source loose = source_of("hi {{a|b}}");
    HOLDS(refusals_of(tera_format, &loose, buffer, sizeof buffer, &needed) > 1);
    HOLDS(needed == strlen(LAID_OUT) && memcmp(buffer, LAID_OUT, needed) == 0);
    HOLDS(refusals_of(check_source, &source, json, sizeof json, &needed) > 6 && needed > 0);
    HOLDS(refusals_of(components_of_source, &whole, json, sizeof json, &needed) > 1 && needed > 0);
    struct tera_source faulty = source_of("{{ a b }}");
    HOLDS(refusals_of(mend_source, &faulty, json, sizeof json, &needed) > 6 && needed > 0);
    for (long calls = 0;; calls++) {
        granted = calls;
        enum tera_status told = tera_fault(&source, buffer, sizeof buffer, &needed, &fault);
        int left = granted != 0;
        granted = -1;
        if (told == TERA_WRITTEN && left) break;
        HOLDS(told == TERA_WRITTEN || (told == TERA_NO_MEMORY && needed == 0));
    }
    HOLDS(memcmp(buffer, TWICE_FAULT, needed) == 0);
}

int main(void) {
    buffers_of_trees();
    buffers_of_json();
    buffers_of_faults();
    notes();
    refusals();
    others();
    layouts();
    files_together();
    trees_with_faults();
    long_chain();
    scarce_memory();
    return 0;
}
