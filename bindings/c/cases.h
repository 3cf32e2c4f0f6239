/* cases.h: reads the file bindings/cases.txt, for the tests. */
#ifndef CASES_H
#define CASES_H

#include "checked.h"
#include "expect.h"

#include <stdlib.h>

enum { MOST_LINES = 64, LINE_ROOM = 512, WASM_ROOM = 1 << 20, TEXT_ROOM = 4096 };

/* The flags of the words in the file of cases. */
static const struct {
    const char *word;
    uint32_t flag;
} OPTIONS[] = {
    {"offsets", WASMPRINTER_OFFSETS},
    {"skeleton", WASMPRINTER_SKELETON},
    {"name_unnamed", WASMPRINTER_NAME_UNNAMED},
    {"fold", WASMPRINTER_FOLD},
};

/* A case: the input and the expected results. */
typedef struct Case {
    char title[LINE_ROOM];
    Input input;
    uint8_t indent[LINE_ROOM];
    char omitted[LINE_ROOM]; /* the list of names */
    bool has_places;
    Outcome outcome;
    char error[LINE_ROOM];
    char text[TEXT_ROOM]; /* the text in the buffer after the call */
    size_t text_len;
    WasmprinterEvent lines[MOST_LINES];
} Case;

/* The names of the errors in the file of cases. */
static const struct {
    const char *name;
    WasmprinterStatus status;
} ERRORS[] = {
    {"Malformed", WASMPRINTER_MALFORMED},
    {"Component", WASMPRINTER_COMPONENT},
    {"TooManyLocals", WASMPRINTER_TOO_MANY_LOCALS},
    {"TooManyFunctions", WASMPRINTER_TOO_MANY_FUNCTIONS},
    {"EmptyTableInit", WASMPRINTER_EMPTY_TABLE_INIT},
    {"FoldLegacy", WASMPRINTER_FOLD_LEGACY},
    {"FoldHint", WASMPRINTER_FOLD_HINT},
    {"DylinkSubsection", WASMPRINTER_DYLINK_SUBSECTION},
    {"InvalidIndent", WASMPRINTER_INVALID_INDENT},
};

/* The bytes of the case. */
static uint8_t wasm[WASM_ROOM];

/* Stops the test if the file of cases itself is wrong. */
static inline void expect_file(bool is_right, const char *line) {
    if (!is_right) {
        fprintf(stderr, LANGUAGE ": the file of cases can't be read at: %s\n", line);
        exit(2);
    }
}

/* Returns the rest of a line after its first word and a space, or null if the line starts with another word. */
static const char *after(const char *word, const char *line) {
    size_t len = strlen(word);
    if (strncmp(line, word, len) != 0 || (line[len] != ' ' && line[len] != '\0')) {
        return NULL;
    }
    return line + len + (line[len] == ' ');
}

/* Appends bytes in hexadecimal to a buffer, and returns its new length. */
static inline size_t read_bytes(const char *words, uint8_t *bytes, size_t len, size_t room) {
    for (;;) {
        char *end;
        unsigned long byte = strtoul(words, &end, 16);
        if (end == words) {
            expect_file(*words == '\0', words);
            return len;
        }
        expect_file(len < room && byte <= UINT8_MAX, words);
        bytes[len++] = (uint8_t)byte;
        words = end;
    }
}

/* Adds options to the flags. */
static inline void read_options(const char *words, uint32_t *flags) {
    while (*words != '\0') {
        const char *rest = NULL;
        for (size_t i = 0; i < sizeof OPTIONS / sizeof OPTIONS[0] && rest == NULL; i++) {
            rest = after(OPTIONS[i].word, words);
            *flags |= rest != NULL ? OPTIONS[i].flag : 0;
        }
        expect_file(rest != NULL, words);
        words = rest;
    }
}

/* Appends bytes to the text. */
static inline void add_text(Case *test_case, const char *text, size_t len) {
    expect_file(len <= TEXT_ROOM - test_case->text_len, text);
    memcpy(test_case->text + test_case->text_len, text, len);
    test_case->text_len += len;
}

/* Appends a line of the text, with its place. */
static inline void read_text(Case *test_case, const char *line) {
    const char *bar = strchr(line, '|');
    expect_file(bar != NULL && test_case->outcome.stored.count < MOST_LINES, line);
    WasmprinterEvent *entry = &test_case->lines[test_case->outcome.stored.count++];
    entry->start = test_case->text_len;
    entry->place = bar == line ? 0 : strtoull(line, NULL, 16);
    entry->kind = bar == line ? WASMPRINTER_LINE : WASMPRINTER_LINE_AT_PLACE;
    add_text(test_case, bar + 1, strlen(bar + 1));
    add_text(test_case, "\n", 1);
    test_case->outcome.stored.length = test_case->text_len;
}

/* Reads an error with its detail and its description. */
static inline void read_error(Case *test_case, const char *words) {
    const char *rest = NULL;
    for (size_t i = 0; i < sizeof ERRORS / sizeof ERRORS[0] && rest == NULL; i++) {
        rest = after(ERRORS[i].name, words);
        test_case->outcome.status = ERRORS[i].status;
    }
    expect_file(rest != NULL, words);
    char *end;
    test_case->outcome.stored.detail = strtoull(rest, &end, 10);
    expect_file(end != rest && *end == ' ', words);
    strcpy(test_case->error, end + 1);
}

/* Appends this number of zero bytes to the module. */
static inline void add_zeros(Input *input, size_t zeros) {
    expect_file(zeros <= sizeof wasm - input->wasm.len, "zeros");
    memset(wasm + input->wasm.len, 0, zeros);
    input->wasm.len += zeros;
}

/* Adds a name to the list of names. */
static inline void add_omitted(Case *test_case, const char *name) {
    WasmprinterBytes *list = &test_case->input.options.omitted;
    const WasmprinterBuffer buffer = {test_case->omitted, sizeof test_case->omitted};
    *list = wasmprinter_bytes(test_case->omitted, wasmprinter_add_name(buffer, list->len, name, strlen(name)));
    expect_file(list->len <= sizeof test_case->omitted, name);
}

/* Reads a line of a case. */
static inline void read_line(Case *test_case, const char *line) {
    Input *input = &test_case->input;
    const char *words;
    if ((words = after("set", line)) != NULL) {
        read_options(words, &input->options.flags);
    } else if ((words = after("indent", line)) != NULL) {
        input->options.indent = wasmprinter_bytes(test_case->indent, read_bytes(words, test_case->indent, 0, sizeof test_case->indent));
    } else if ((words = after("omit", line)) != NULL) {
        add_omitted(test_case, words);
    } else if ((words = after("wasm", line)) != NULL) {
        input->wasm.len = read_bytes(words, wasm, input->wasm.len, sizeof wasm);
    } else if ((words = after("zeros", line)) != NULL) {
        add_zeros(input, strtoul(words, NULL, 10));
    } else if (after("places", line) != NULL) {
        test_case->has_places = true;
    } else if ((words = after("error", line)) != NULL) {
        read_error(test_case, words);
    } else if ((words = after("left", line)) != NULL) {
        add_text(test_case, words, strlen(words));
    } else {
        read_text(test_case, line);
    }
}

/* Starts a case with the default options. */
static inline void start_case(Case *test_case, const char *title) {
    memset(test_case, 0, sizeof *test_case);
    strcpy(test_case->title, title);
    test_case->input.wasm.ptr = wasm;
}

/* Compares the outcome of a call with that of the case. */
static inline bool expect_outcome(const Case *test_case, Outcome outcome) {
    const Outcome *typed = &test_case->outcome;
    return expect(outcome.status == typed->status, test_case->title, "status") &&
           expect(outcome.stored.detail == typed->stored.detail, test_case->title, "detail") &&
           expect(outcome.stored.length == typed->stored.length, test_case->title, "length") &&
           expect(outcome.stored.count == typed->stored.count, test_case->title, "count of lines");
}

/* Returns the input of a case with another limit. */
static inline Input limited(const Case *test_case, size_t limit) {
    Input input = test_case->input;
    input.options.limit = limit;
    return input;
}

/* Reads the cases of a file, and calls the function for each. Returns the number of cases. */
static inline unsigned check_file(const char *path, void (*check)(Case *test_case)) {
    static Case test_case;
    FILE *file = path != NULL ? fopen(path, "r") : NULL;
    char line[LINE_ROOM];
    unsigned cases = 0;
    expect_file(file != NULL, "its start");
    while (fgets(line, sizeof line, file) != NULL) {
        char *end = strchr(line, '\n');
        expect_file(end != NULL, line);
        *end = '\0';
        const char *title = after("case", line);
        if (title != NULL) {
            if (cases > 0) {
                check(&test_case);
            }
            start_case(&test_case, title);
            cases++;
        } else if (line[0] != '\0' && line[0] != '#') {
            expect_file(cases > 0, line);
            read_line(&test_case, line);
        }
    }
    fclose(file);
    expect_file(cases > 0, "its end");
    check(&test_case);
    return cases;
}

#endif
