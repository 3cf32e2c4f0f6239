/* test FILE: checks every case of bindings/cases.txt, and calls that no case describes. Prints each difference and the counts; the status
 * is 1 if there is a difference. For C99 and C++. */
#include "cases.h"

enum { ERROR_ROOM = WASMPRINTER_ERROR_TEXT_LEN + 2 };

/* The block that wasmprinter_print_alloc printed to. Each case uses that of the case before. */
static WasmprinterBuffer block;

/* Prints with a limit that the text does not exceed, to a buffer of each size from 0 to one byte more than the text. */
static void check_text(const Case *test_case, size_t limit) {
    static uint8_t out[TEXT_ROOM + 1];
    const Input input = limited(test_case, limit);
    bool is_right = true;
    for (size_t room = 0; is_right && room <= test_case->text_len + 1; room++) {
        memset(out, GUARD, sizeof out);
        is_right = expect_outcome(test_case, print_text(&input, out, room)) &&
                   expect(is_over(out, sizeof out, room, test_case->text, test_case->text_len), test_case->title, "text");
    }
}

/* Compares the first entries of the table. */
static bool expect_lines(const Case *test_case, const WasmprinterEvent *lines, size_t count) {
    bool is_right = true;
    for (size_t i = 0; is_right && i < count; i++) {
        const WasmprinterEvent *typed = &test_case->lines[i];
        bool is_place = lines[i].place == typed->place && lines[i].kind == typed->kind;
        is_right = expect(lines[i].start == typed->start, test_case->title, "start of a line") &&
                   expect(is_place || !test_case->has_places, test_case->title, "place");
    }
    return is_right;
}

/* Prints with a table of each size from 0 to one line more than the text has. */
static void check_lines(const Case *test_case) {
    static uint8_t out[TEXT_ROOM];
    WasmprinterEvent lines[MOST_LINES + 1];
    const char *title = test_case->title;
    size_t count = test_case->outcome.stored.count;
    bool is_right = true;
    for (size_t room = 0; is_right && room <= count + 1; room++) {
        memset(out, GUARD, sizeof out);
        memset(lines, GUARD, sizeof lines);
        Outcome outcome = print_lines(&test_case->input, out, sizeof out, lines, room);
        size_t fits = room < count ? room : count;
        /* after an error the entries of the table are not specified */
        size_t written = test_case->outcome.status == WASMPRINTER_OK ? fits : room;
        is_right = expect_outcome(test_case, outcome) && expect_lines(test_case, lines, fits) &&
                   expect(is_over(out, sizeof out, sizeof out, test_case->text, test_case->text_len), title, "text of the lines") &&
                   expect(is_unchanged(lines, written * sizeof *lines, sizeof lines), title, "entry after the last line");
    }
}

/* Prints with each limit from 1 to two bytes more than the text, and with a table. An error that is found before printing does not depend on
 * the limit. */
static void check_limits(const Case *test_case) {
    static uint8_t out[TEXT_ROOM];
    WasmprinterEvent lines[MOST_LINES];
    const char *title = test_case->title;
    const size_t length = test_case->text_len;
    bool is_right = true;
    for (size_t limit = 1; is_right && limit <= length + 2; limit++) {
        const Input input = limited(test_case, limit);
        memset(out, GUARD, sizeof out);
        Outcome outcome = print_lines(&input, out, sizeof out, lines, MOST_LINES);
        if (limit < length) {
            is_right = expect(is_same(outcome, too_long()), title, "outcome of a text that is too long") &&
                       expect(is_prefix(out, sizeof out, limit, test_case->text, length), title, "prefix of a text that is too long");
        } else {
            is_right = expect_outcome(test_case, outcome) && expect_lines(test_case, lines, test_case->outcome.stored.count) &&
                       expect(is_over(out, sizeof out, sizeof out, test_case->text, length), title, "text with a limit");
        }
    }
}

/* Prints with a limit that the text does not exceed, to memory from `realloc`. */
static void check_alloc(const Case *test_case, size_t limit) {
    const char *title = test_case->title;
    const Input input = limited(test_case, limit);
    size_t length = test_case->outcome.stored.length;
    block.len = GUARD;
    if (expect_outcome(test_case, print_alloc(&input, &block)) && expect(block.len == length, title, "length of the block") &&
        test_case->outcome.status == WASMPRINTER_OK) {
        expect(memcmp(block.ptr, test_case->text, length) == 0 && block.ptr[length] == '\0', title, "text of the block");
    }
}

/* Prints with flags that have unknown bits. Nothing may be written. */
static bool check_unknown_options(const Case *test_case, uint32_t flags, size_t limit) {
    uint8_t out[LINE_ROOM];
    WasmprinterEvent lines[MOST_LINES];
    Input input = limited(test_case, limit);
    input.options.flags = flags;
    memset(out, GUARD, sizeof out);
    memset(lines, GUARD, sizeof lines);
    Outcome outcome = print_lines(&input, out, sizeof out, lines, MOST_LINES);
    return expect(outcome.status == WASMPRINTER_UNKNOWN_OPTION, test_case->title, "status of an unknown option") &&
           expect(outcome.stored.detail == (flags & ~(uint32_t)ALL_OPTIONS), test_case->title, "detail of an unknown option") &&
           expect(outcome.stored.length == 0 && outcome.stored.count == 0, test_case->title, "length or count after an unknown option") &&
           expect(is_unchanged(out, 0, sizeof out), test_case->title, "buffer after an unknown option") &&
           expect(is_unchanged(lines, 0, sizeof lines), test_case->title, "table after an unknown option");
}

/* Sets each unknown bit of the flags, with each set of known options, and all bits, without and with a limit. */
static void check_unknown_bits(const Case *test_case) {
    bool is_right = check_unknown_options(test_case, UINT32_MAX, 0);
    for (unsigned bit = FIRST_UNKNOWN_BIT; is_right && bit < BITS; bit++) {
        for (uint32_t known = 0; is_right && known <= ALL_OPTIONS; known++) {
            const uint32_t flags = (uint32_t)1 << bit | known;
            is_right = check_unknown_options(test_case, flags, 0) && check_unknown_options(test_case, flags, 1);
        }
    }
}

/* Returns whether the first `room` bytes of a buffer hold as much of a text as fits with a zero byte, and the other bytes are unchanged. */
static bool is_terminated(const char *buffer, size_t len, size_t room, const char *text) {
    if (room == 0) {
        return is_unchanged(buffer, 0, len);
    }
    size_t fits = strlen(text) < room ? strlen(text) : room - 1;
    return memcmp(buffer, text, fits) == 0 && buffer[fits] == '\0' && is_unchanged(buffer, fits + 1, len);
}

/* Writes the description of a status, null-terminated, to a buffer of each size. */
static void check_terminated_text(const char *title, WasmprinterStatus status, uint64_t detail, const char *text) {
    char out[ERROR_ROOM];
    bool is_right = true;
    for (size_t room = 0; is_right && room <= sizeof out; room++) {
        memset(out, GUARD, sizeof out);
        size_t length = wasmprinter_error_text(status, detail, wasmprinter_buffer(out, room));
        is_right = expect(length == strlen(text), title, "length of the description") &&
                   expect(is_terminated(out, sizeof out, room, text), title, "description");
    }
}

/* Does the same without a zero byte. */
static void check_raw_text(const char *title, WasmprinterStatus status, uint64_t detail, const char *text) {
    uint8_t out[ERROR_ROOM];
    bool is_right = true;
    for (size_t room = 0; is_right && room <= sizeof out; room++) {
        memset(out, GUARD, sizeof out);
        size_t length = wasmprinter_raw_error_text(status, detail, out, room);
        is_right = expect(length == strlen(text), title, "length of the raw description") &&
                   expect(is_over(out, sizeof out, room, text, length), title, "raw description");
    }
}

static void check_error_text(const char *title, WasmprinterStatus status, uint64_t detail, const char *text) {
    expect(strlen(text) <= WASMPRINTER_ERROR_TEXT_LEN, title, "longest description");
    check_terminated_text(title, status, detail, text);
    check_raw_text(title, status, detail, text);
}

/* Prints a case in each way. */
static void check_printing(const Case *test_case) {
    check_text(test_case, 0);
    check_text(test_case, test_case->text_len);
    check_lines(test_case);
    check_limits(test_case);
    check_alloc(test_case, 0);
    check_alloc(test_case, test_case->text_len);
    check_unknown_bits(test_case);
}

static void check(Case *test_case) {
    WasmprinterBytes *indent = &test_case->input.options.indent;
    check_printing(test_case);
    if (indent->ptr == NULL) {
        /* the default in full */
        *indent = wasmprinter_bytes("  ", 2);
        check_printing(test_case);
    }
    if (test_case->outcome.status != WASMPRINTER_OK) {
        check_error_text(test_case->title, test_case->outcome.status, test_case->outcome.stored.detail, test_case->error);
    }
}

/* Returns a small module and its length. The last byte is the zero byte at the end of the string. */
static WasmprinterBytes one_type(void) {
    static const char module[] = "\0asm\1\0\0\0\1\4\1\x60\0";
    return wasmprinter_bytes(module, sizeof module);
}

/* Checks that a null pointer counts as empty, whatever length is passed with it, and that a null indent is the default. */
static void check_null(const char *title, size_t len) {
    static const char text[] = "(module\n  (type (;0;) (func))\n)\n";
    const WasmprinterBytes no_bytes = {NULL, len};
    const WasmprinterBuffer no_text = {NULL, len};
    const WasmprinterTable no_lines = {NULL, len};
    const WasmprinterOptions options = {0, {NULL, len}, 0, {NULL, 0}};
    WasmprinterResult result = {GUARD, GUARD, GUARD};
    expect(wasmprinter_print(no_bytes, NULL, no_text, NULL) == WASMPRINTER_MALFORMED, title, "status of no bytes");
    expect(wasmprinter_print_lines(no_bytes, &options, no_text, no_lines, NULL) == WASMPRINTER_MALFORMED, title, "status of no bytes");
    expect(wasmprinter_print(one_type(), NULL, no_text, NULL) == WASMPRINTER_OK, title, "status without a result");
    expect(wasmprinter_print(one_type(), NULL, no_text, &result) == WASMPRINTER_OK, title, "status");
    expect(result.length == strlen(text) && result.count == 3 && result.detail == 0, title, "result");
    result = no_outcome().stored;
    expect(wasmprinter_print_lines(one_type(), &options, no_text, no_lines, &result) == WASMPRINTER_OK, title, "status of the lines");
    expect(result.length == strlen(text) && result.count == 3 && result.detail == 0, title, "result of the lines");
    expect(wasmprinter_error_text(WASMPRINTER_OK, 0, no_text) == strlen("success"), title, "length of a description");
}

/* Checks wasmprinter_print_alloc with null pointers. */
static void check_null_alloc(void) {
    const char *title = "null pointers, allocated";
    WasmprinterBuffer text = {NULL, GUARD};
    expect(wasmprinter_print_alloc(wasmprinter_bytes(NULL, GUARD), NULL, NULL, NULL, &text, NULL) == WASMPRINTER_MALFORMED, title,
           "status of no bytes");
    expect(text.len == 0, title, "length after an error");
    if (expect(wasmprinter_print_alloc(one_type(), NULL, NULL, NULL, &text, NULL) == WASMPRINTER_OK, title, "status")) {
        expect(strcmp(text.ptr, "(module\n  (type (;0;) (func))\n)\n") == 0, title, "text");
    }
    free(text.ptr);
}

/* Checks an indent with a zero byte, which the file of cases can't hold. */
static void check_zero_byte(void) {
    static const char indent[] = {'\0', '\t'};
    static const char text[] = "(module\n\0\t(type (;0;) (func))\n)\n";
    static Case test_case;
    start_case(&test_case, "an indent with a zero byte");
    test_case.input.wasm = one_type();
    test_case.input.options.indent = wasmprinter_bytes(indent, sizeof indent);
    add_text(&test_case, text, sizeof text - 1);
    test_case.outcome.stored.length = test_case.text_len;
    test_case.outcome.stored.count = 3;
    check_text(&test_case, 0);
    check_text(&test_case, test_case.text_len);
    check_alloc(&test_case, 0);
}

/* Checks which of several errors is returned, for cases that the file can't hold. */
static void check_precedence(void) {
    static Case test_case;
    start_case(&test_case, "no bytes and an indent that is not UTF-8");
    test_case.input.options.indent = wasmprinter_bytes("\xff", 1);
    test_case.outcome.status = WASMPRINTER_INVALID_INDENT;
    check_printing(&test_case);
    start_case(&test_case, "no bytes, an indent that is not UTF-8 and a list that is cut off");
    test_case.input.options.indent = wasmprinter_bytes("\xff", 1);
    test_case.input.options.omitted = wasmprinter_bytes("\1", 1);
    test_case.outcome.status = WASMPRINTER_INVALID_INDENT;
    check_printing(&test_case);
    start_case(&test_case, "no bytes and a list that is cut off");
    test_case.input.options.omitted = wasmprinter_bytes("\1\0\0\0a\1", 6);
    test_case.outcome.status = WASMPRINTER_INVALID_LIST;
    test_case.outcome.stored.detail = 5;
    check_printing(&test_case);
}

/* Checks the descriptions of statuses that no case has. */
static void check_other_statuses(void) {
    const char *title = "statuses that no case has";
    check_error_text(title, WASMPRINTER_OK, 0, "success");
    check_error_text(title, WASMPRINTER_UNREADABLE, 0, "the file can't be read");
    check_error_text(title, WASMPRINTER_TOO_LONG, 0, "the text is too long");
    check_error_text(title, WASMPRINTER_MEMORY, 0, "out of memory");
    check_error_text(title, WASMPRINTER_UNKNOWN_OPTION, 0x20, "unknown options 0x20");
    check_error_text(title, WASMPRINTER_UNKNOWN_OPTION, 0xffffffe0, "unknown options 0xffffffe0");
    check_error_text(title, WASMPRINTER_INVALID_LIST, 0, "the list of names is cut off at byte 0x0");
    check_error_text(title, WASMPRINTER_INVALID_LIST, UINT64_MAX, "the list of names is cut off at byte 0xffffffffffffffff");
    check_error_text(title, WASMPRINTER_INVALID_LIST + 1, 0, "unknown status");
    check_error_text(title, UINT32_MAX, 0, "unknown status");
    check_error_text(title, WASMPRINTER_MALFORMED, UINT64_MAX, "malformed module at byte 0xffffffffffffffff");
    check_error_text(title, WASMPRINTER_TOO_MANY_FUNCTIONS, UINT64_MAX, "module has 18446744073709551615 functions, more than 1000000");
}

static void check_status_names(void) {
    static const char *const names[] = {
        "success",
        "malformed module",
        "component",
        "too many locals",
        "too many functions",
        "empty initialiser of a table",
        "legacy exception operator can't be folded",
        "branch hint can't be folded",
        "unknown dylink.0 subsection",
        "unreadable file",
        "text too long",
        "out of memory",
        "indent is not UTF-8",
        "unknown options",
        "list of names is cut off",
        "unknown status",
    };
    for (uint32_t status = 0; status < sizeof names / sizeof names[0]; status++) {
        expect(strcmp(wasmprinter_status_name(status), names[status]) == 0, names[status], "name");
    }
    expect(strcmp(wasmprinter_status_name(UINT32_MAX), "unknown status") == 0, "the greatest status", "name");
}

int main(int argc, char **argv) {
    const unsigned cases = check_file(argc == 2 ? argv[1] : NULL, check);
    check_null("null pointers", 0);
    check_null("null pointers with lengths", TEXT_ROOM);
    check_null_alloc();
    check_zero_byte();
    check_precedence();
    check_other_statuses();
    check_status_names();
    expect(wasmprinter_version() == WASMPRINTER_VERSION, "the library", "version");
    expect(wasmprinter_revision() == WASMPRINTER_REVISION, "the library", "revision");
    free(block.ptr);
    printf(LANGUAGE ": %u cases, %u differences\n", cases, failed);
    return failed == 0 ? 0 : 1;
}
