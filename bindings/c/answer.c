/* Prints the tree of each template, with --json as JSON, or its fault: answer [--json] [--markers TWELVE] FILE.. */
#include <stdio.h>
#include <stdlib.h>
#include <string.h>

#include "../tera.h"

struct bytes {
    char *at;
    size_t length;
};

/* All that the file holds, or no place where it cannot be read. */
static struct bytes read_file(const char *name) {
    struct bytes all = {NULL, 0};
    FILE *file = fopen(name, "rb");
    if (file == NULL) return all;
    size_t room = 1 << 16;
    char *at = malloc(room);
    size_t length = 0;
    while (at != NULL) {
        size_t count = fread(at + length, 1, room - length, file);
        length += count;
        if (length < room) break;
        room *= 2;
        char *more = realloc(at, room);
        if (more == NULL) free(at);
        at = more;
    }
    if (at != NULL && ferror(file)) {
        free(at);
        at = NULL;
    }
    fclose(file);
    all.at = at;
    all.length = length;
    return all;
}

/* Which text is asked for: the tree, also as JSON; the fault; or, from 0, a note of it. */
enum { JSON = -3, TREE = -2, FAULT = -1 };

static enum tera_status ask(const struct tera_source *source, long what, struct bytes *text, size_t *needed,
                            struct tera_fault *fault) {
    if (what == JSON) return tera_json(source, text->at, text->length, needed);
    if (what == TREE) return tera_tree(source, text->at, text->length, needed);
    if (what == FAULT) return tera_fault(source, text->at, text->length, needed, fault);
    return tera_note(source, (size_t)what, text->at, text->length, needed, &fault->span);
}

/* The same, into a buffer that is made as long as it has to be. */
static enum tera_status written(const struct tera_source *source, long what, struct bytes *text,
                                struct tera_fault *fault) {
    size_t needed;
    enum tera_status status = ask(source, what, text, &needed, fault);
    if (status == TERA_SHORT) {
        char *more = realloc(text->at, needed);
        if (more == NULL) return TERA_NO_MEMORY;
        text->at = more;
        text->length = needed;
        status = ask(source, what, text, &needed, fault);
    }
    if (status == TERA_WRITTEN) text->length = needed;
    return status;
}

static void print_fault(const struct tera_source *source, struct bytes *text, const struct tera_fault *fault) {
    const struct tera_span *p = &fault->span;
    printf("syntax error at %zu:%zu (%zu..%zu): ", p->start_line, p->start_col, p->start, p->end);
    fwrite(text->at, 1, text->length, stdout);
    printf("\nends at %zu:%zu\n", p->end_line, p->end_col);
    for (size_t i = 0; i < fault->notes; i++) {
        struct bytes label = {NULL, 0};
        struct tera_fault note = {{0, 0, 0, 0, 0, 0}, 0};
        if (written(source, (long)i, &label, &note) == TERA_WRITTEN) {
            p = &note.span;
            printf("note ");
            fwrite(label.at, 1, label.length, stdout);
            printf(" at %zu:%zu-%zu:%zu %zu..%zu\n", p->start_line, p->start_col, p->end_line, p->end_col,
                   p->start, p->end);
        }
        free(label.at);
    }
}

static const char *reason(enum tera_status status) {
    switch (status) {
    case TERA_NOT_UTF8: return "not UTF-8";
    case TERA_BAD_MARKERS: return "no markers of a template";
    case TERA_BAD_LIMITS: return "no limits of a template";
    case TERA_NO_MEMORY: return "out of memory";
    default: return "no answer";
    }
}

/* Prints the answer to one file: 0 for a tree, 1 for a fault, 2 if there was no answer. */
static int answer(const char *name, const char *markers, long what) {
    struct bytes file = read_file(name);
    if (file.at == NULL) {
        fprintf(stderr, "%s: cannot be read\n", name);
        return 2;
    }
    struct tera_source source = {file.at, file.length, markers, NULL};
    struct bytes text = {NULL, 0};
    struct tera_fault fault = {{0, 0, 0, 0, 0, 0}, 0};
    enum tera_status status = written(&source, what, &text, &fault);
    int came = 2;
    if (status == TERA_WRITTEN) {
        fwrite(text.at, 1, text.length, stdout);
        if (what == JSON) printf("\n");
        came = 0;
    } else if (status == TERA_FAULTY && (status = written(&source, FAULT, &text, &fault)) == TERA_WRITTEN) {
        print_fault(&source, &text, &fault);
        came = 1;
    } else {
        fprintf(stderr, "%s: %s\n", name, reason(status));
    }
    free(text.at);
    free(file.at);
    return came;
}

int main(int count, char **words) {
    const char *markers = NULL;
    long what = TREE;
    int first = 1;
    if (count > first && strcmp(words[first], "--json") == 0) {
        what = JSON;
        first += 1;
    }
    if (count > first + 1 && strcmp(words[first], "--markers") == 0) {
        markers = words[first + 1];
        first += 2;
    }
    int worst = 0;
    for (int i = first; i < count; i++) {
        printf("== %s\n", words[i]);
        int came = answer(words[i], markers, what);
        if (came > worst) worst = came;
    }
    return worst;
}
