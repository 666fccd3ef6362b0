/* The tree of a Tera template as text or as JSON, or its fault, its layout, and what is found in several templates,
 * from the library tera_parser.
 *
 * Each call parses its sources and writes one text into a buffer of the caller's. No call keeps anything, and what it
 * takes from malloc it gives back. Calls may run at the same time in several threads, if their buffers differ.
 *
 * The text that is written has no zero after it. `needed` gets its length, also if there was no room for it; so a call
 * with no buffer asks for the length alone. If the buffer is too short, nothing is written. Bytes of the buffer after
 * the text stay as they were.
 *
 * Link with the shared library by `pkg-config --cflags --libs tera_parser`, or with libtera_parser.a. Either needs the
 * C library alone. Call nothing here from a signal handler, nor from the forked child of a process with threads.
 */
#ifndef TERA_H
#define TERA_H

#include <stddef.h>
#include <stdint.h>
#include <string.h>

#ifdef __cplusplus
extern "C" {
#endif

/* What a call comes to. The numbers never change. */
enum tera_status {
    TERA_WRITTEN = 0,     /* the text is in the buffer */
    TERA_SHORT = 1,       /* the buffer is too short: nothing was written, and `needed` is what the text needs */
    TERA_FAULTY = 2,      /* the source has a fault, so it has no tree, or for tera_format no layout */
    TERA_NOTHING = 3,     /* tera_fault, tera_note: the source has a tree, or its fault has no such note */
    TERA_NOT_UTF8 = 4,    /* the source is not UTF-8 */
    TERA_BAD_MARKERS = 5, /* not twelve bytes that are six texts of two bytes, of which the three starts differ */
    TERA_BAD_LIMITS = 6,  /* a limit is 0, or greater than the greatest that is taken */
    TERA_NO_MEMORY = 7    /* malloc gave none */
};

/* How far a template may go. Each is at least 1; the greatest that are taken are 100, 4096, 16, 8 and 100. */
struct tera_limits {
    size_t depth;      /* expressions that are open one in another */
    size_t links;      /* operators, tests, filters, dots and subscripts of one expression */
    size_t subscripts; /* subscripts that are open one in another */
    size_t arrays;     /* arrays that are open one in another */
    size_t bodies;     /* bodies that are open one in another */
};

/* A place in the source: lines from 1, columns from 0 in characters, and the range in bytes. */
struct tera_span {
    size_t start_line;
    size_t start_col;
    size_t end_line;
    size_t end_col;
    size_t start;
    size_t end;
};

/* Where a fault is, and how many notes on other places it has. */
struct tera_fault {
    struct tera_span span;
    size_t notes;
};

/* A source, and how it is to be read. */
struct tera_source {
    const void *bytes; /* where it begins; null is an empty source */
    size_t length;     /* its length in bytes */
    const char *markers;              /* see TERA_USUAL_MARKERS, which null stands for */
    const struct tera_limits *limits; /* null stands for TERA_USUAL_LIMITS */
};

/* A template and the name of its file, which is in what is written. Both are UTF-8. No pointer is null. */
struct tera_file {
    const void *name;
    size_t name_length;
    const void *bytes;
    size_t length;
};

/* The six markers, of two bytes each: the start and the end of a statement, of an expression and of a comment. */
#define TERA_USUAL_MARKERS "{%%}{{}}{##}"

/* The limits that Tera has. */
#define TERA_USUAL_LIMITS {40, 256, 4, 2, 40}

/* How many faults of a file the program finds at most. */
#define TERA_USUAL_FAULTS 100

/* The functions of the library. No pointer may be null, also where its length is 0: other languages call these, and C
 * the ones below. What is written to may not overlap anything else that is passed, and holds some value before, as
 * zeros. */
uint32_t tera_c_tree(const uint8_t *source, size_t source_length, const uint8_t *markers, size_t markers_length,
                     const struct tera_limits *limits, uint8_t *text, size_t text_length, size_t *needed);
uint32_t tera_c_json(const uint8_t *source, size_t source_length, const uint8_t *markers, size_t markers_length,
                     const struct tera_limits *limits, uint8_t *text, size_t text_length, size_t *needed);
uint32_t tera_c_fault(const uint8_t *source, size_t source_length, const uint8_t *markers, size_t markers_length,
                      const struct tera_limits *limits, uint8_t *text, size_t text_length, size_t *needed,
                      struct tera_fault *fault);
uint32_t tera_c_note(const uint8_t *source, size_t source_length, const uint8_t *markers, size_t markers_length,
                     const struct tera_limits *limits, size_t index, uint8_t *text, size_t text_length, size_t *needed,
                     struct tera_span *span);
uint32_t tera_c_format(const uint8_t *source, size_t source_length, const uint8_t *markers, size_t markers_length,
                       uint8_t *text, size_t text_length, size_t *needed);
uint32_t tera_c_check(const struct tera_file *files, size_t count, size_t checked, size_t faults, uint8_t *text,
                      size_t text_length, size_t *needed);
uint32_t tera_c_components(const struct tera_file *files, size_t count, uint8_t *text, size_t text_length,
                           size_t *needed);
uint32_t tera_c_mend(const struct tera_file *file, size_t faults, uint8_t *text, size_t text_length, size_t *needed);

/* A source without nulls. */
static inline struct tera_source tera_source_given(const struct tera_source *source) {
    static const struct tera_limits usual = TERA_USUAL_LIMITS;
    struct tera_source given = *source;
    if (given.bytes == NULL) {
        given.bytes = "";
        given.length = 0;
    }
    if (given.markers == NULL) given.markers = TERA_USUAL_MARKERS;
    if (given.limits == NULL) given.limits = &usual;
    return given;
}

/* Writes the text of the tree: TERA_WRITTEN, TERA_SHORT, TERA_FAULTY or an error. `text` and `needed` may be null. */
static inline uint32_t tera_tree(const struct tera_source *source, void *text, size_t length, size_t *needed) {
    struct tera_source given = tera_source_given(source);
    uint8_t none = 0;
    size_t untold = 0;
    return tera_c_tree((const uint8_t *)given.bytes, given.length, (const uint8_t *)given.markers,
                       strlen(given.markers), given.limits, text == NULL ? &none : (uint8_t *)text,
                       text == NULL ? 0 : length, needed == NULL ? &untold : needed);
}

/* Writes the JSON of the tree, with the places of its expressions, in the same way. */
static inline uint32_t tera_json(const struct tera_source *source, void *text, size_t length, size_t *needed) {
    struct tera_source given = tera_source_given(source);
    uint8_t none = 0;
    size_t untold = 0;
    return tera_c_json((const uint8_t *)given.bytes, given.length, (const uint8_t *)given.markers,
                       strlen(given.markers), given.limits, text == NULL ? &none : (uint8_t *)text,
                       text == NULL ? 0 : length, needed == NULL ? &untold : needed);
}

/* Writes the text of the fault, and where it is: TERA_WRITTEN, TERA_SHORT, TERA_NOTHING or an error. The place is
 * written also if the buffer is too short, and stays as it was with the other answers. `text`, `needed` and
 * `fault` may be null. */
static inline uint32_t tera_fault(const struct tera_source *source, void *text, size_t length, size_t *needed,
                                  struct tera_fault *fault) {
    struct tera_source given = tera_source_given(source);
    uint8_t none = 0;
    size_t untold = 0;
    struct tera_fault unwanted = {{0, 0, 0, 0, 0, 0}, 0};
    return tera_c_fault((const uint8_t *)given.bytes, given.length, (const uint8_t *)given.markers,
                        strlen(given.markers), given.limits, text == NULL ? &none : (uint8_t *)text,
                        text == NULL ? 0 : length, needed == NULL ? &untold : needed,
                        fault == NULL ? &unwanted : fault);
}

/* Writes the text of a note of the fault, counted from 0, and where it is, in the same way. */
static inline uint32_t tera_note(const struct tera_source *source, size_t index, void *text, size_t length,
                                 size_t *needed, struct tera_span *span) {
    struct tera_source given = tera_source_given(source);
    uint8_t none = 0;
    size_t untold = 0;
    struct tera_span unwanted = {0, 0, 0, 0, 0, 0};
    return tera_c_note((const uint8_t *)given.bytes, given.length, (const uint8_t *)given.markers,
                       strlen(given.markers), given.limits, index, text == NULL ? &none : (uint8_t *)text,
                       text == NULL ? 0 : length, needed == NULL ? &untold : needed,
                       span == NULL ? &unwanted : span);
}

/* Writes the source in its layout, as the program does: TERA_WRITTEN, TERA_SHORT, TERA_FAULTY if a token of it is
 * faulty or a tag has no end, or an error. The limits are not read. The start and the end of a statement, and the end
 * of an expression, may not begin with a letter, a digit, an underscore, a dash or white space. The two ends have no
 * white space. For other markers the answer is TERA_BAD_MARKERS. */
static inline uint32_t tera_format(const struct tera_source *source, void *text, size_t length, size_t *needed) {
    struct tera_source given = tera_source_given(source);
    uint8_t none = 0;
    size_t untold = 0;
    return tera_c_format((const uint8_t *)given.bytes, given.length, (const uint8_t *)given.markers,
                         strlen(given.markers), text == NULL ? &none : (uint8_t *)text, text == NULL ? 0 : length,
                         needed == NULL ? &untold : needed);
}

/* Writes what is found in the files, an object of JSON a line. The files after the first `checked` are a library: their
 * components may be called, and only their faults are found. At most `faults` faults are found in each file, as
 * TERA_USUAL_FAULTS. With 0 it is the first fault of a file, and nothing else in it. Markers and limits are the usual
 * ones. */
static inline uint32_t tera_check(const struct tera_file *files, size_t count, size_t checked, size_t faults,
                                  void *text, size_t length, size_t *needed) {
    static const struct tera_file no_file = {"", 0, "", 0};
    uint8_t none = 0;
    size_t untold = 0;
    return tera_c_check(files == NULL ? &no_file : files, files == NULL ? 0 : count, checked, faults,
                        text == NULL ? &none : (uint8_t *)text, text == NULL ? 0 : length,
                        needed == NULL ? &untold : needed);
}

/* Writes the components that the files define, as an array of JSON, in the same way. */
static inline uint32_t tera_components(const struct tera_file *files, size_t count, void *text, size_t length,
                                       size_t *needed) {
    static const struct tera_file no_file = {"", 0, "", 0};
    uint8_t none = 0;
    size_t untold = 0;
    return tera_c_components(files == NULL ? &no_file : files, files == NULL ? 0 : count,
                             text == NULL ? &none : (uint8_t *)text, text == NULL ? 0 : length,
                             needed == NULL ? &untold : needed);
}

/* Writes the tree of the file, whatever faults it has, and these, as a line of JSON. Its `tree` is null if there is
 * none. Its `faults` are objects as those of tera_check. Its `more` is true if there are more faults than these. At
 * most `faults` faults are found, as TERA_USUAL_FAULTS. With 0 it is the first fault, and no tree beside it. Markers
 * and limits are the usual ones. `file`, `text` and `needed` may be null. */
static inline uint32_t tera_mend(const struct tera_file *file, size_t faults, void *text, size_t length,
                                 size_t *needed) {
    static const struct tera_file no_file = {"", 0, "", 0};
    uint8_t none = 0;
    size_t untold = 0;
    return tera_c_mend(file == NULL ? &no_file : file, faults, text == NULL ? &none : (uint8_t *)text,
                       text == NULL ? 0 : length, needed == NULL ? &untold : needed);
}

#ifdef __cplusplus
}
#endif

#endif
