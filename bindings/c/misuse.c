/* misuse FILE: makes calls that include/wasmprinter.h refuses, and calls at the limits of what it allows, for every case of bindings/cases.txt. Each
 * check names the sentence of the header. Prints each difference and the counts; the status is 1 if there is a difference. For C99 and C++.
 *
 * Other programs test null pointers (wrappers.c, test.c, faults.c), objects next to each other and next to no memory (guard.c), and limits from 1 byte
 * to more than the text (test.c, limit.c). What the header leaves undefined can't be tested: objects that overlap, invalid pointers, signal handlers. */
#include "cases.h"

/* The objects that calls write to. */
static uint8_t out[TEXT_ROOM];
static WasmprinterEvent events[MOST_LINES];

static unsigned calls;

/* ---- Ways to print */

typedef Outcome (*Way)(const Input *input);

static Outcome by_print(const Input *input) { return print_text(input, out, sizeof out); }

static Outcome by_lines(const Input *input) { return print_lines(input, out, sizeof out, events, MOST_LINES); }

static Outcome by_events(const Input *input) { return print_events(input, out, sizeof out, events, MOST_LINES); }

/* Prints to a block of an earlier call. "After an error text->ptr holds the block, if there is one, as an empty string, and text->len is 0." */
static Outcome by_alloc(const Input *input) {
    WasmprinterBuffer text = {(char *)malloc(1), GUARD};
    if (text.ptr == NULL) {
        exit(2);
    }
    text.ptr[0] = 'x';
    Outcome outcome = print_alloc(input, &text);
    expect(outcome.status == WASMPRINTER_OK || (text.len == 0 && text.ptr[0] == '\0'), "a block", "text after an error");
    free(text.ptr);
    return outcome;
}

/* Prints in each way, and expects an error after which `out` is unchanged. */
static void expect_refused(const char *title, const Input *input, Outcome expected) {
    static const Way ways[] = {by_print, by_lines, by_events, by_alloc};
    for (size_t i = 0; i < sizeof ways / sizeof ways[0]; i++) {
        memset(out, GUARD, sizeof out);
        expect(is_same(ways[i](input), expected), title, "outcome of a call that is refused");
        expect(is_unchanged(out, 0, sizeof out), title, "buffer of a call that is refused");
        calls++;
    }
}

static Outcome refused(WasmprinterStatus status, uint64_t detail) {
    Outcome outcome = {status, {0, 0, detail}};
    return outcome;
}

/* ---- Checks of each case */

/* "The flags have bits that this library does not know; detail: these bits." "WASMPRINTER_UNKNOWN_OPTION is returned first." */
static void check_unknown_options(const Case *test_case) {
    Input input = limited(test_case, 1);
    input.options.indent = wasmprinter_bytes("\xff", 1);
    for (unsigned bit = FIRST_UNKNOWN_BIT; bit < BITS; bit++) {
        const uint32_t unknown = (uint32_t)1 << bit;
        input.options.flags = test_case->input.options.flags | unknown;
        expect_refused(test_case->title, &input, refused(WASMPRINTER_UNKNOWN_OPTION, unknown));
    }
}

/* "Then WASMPRINTER_COMPONENT, then WASMPRINTER_INVALID_INDENT." The indents are cut off, too long or reserved, as UTF-8. */
static void check_wrong_indents(const Case *test_case) {
    static const char *const indents[] = {"\xff", " \xc3", "\xe2\x82", "\xf0\x9f\x98", "\xed\xa0\x80", "\xc0\x80", "\xf4\x90\x80\x80", "\x80 "};
    const bool is_component = test_case->outcome.status == WASMPRINTER_COMPONENT;
    const Outcome expected = refused(is_component ? WASMPRINTER_COMPONENT : WASMPRINTER_INVALID_INDENT, 0);
    for (size_t i = 0; i < sizeof indents / sizeof indents[0]; i++) {
        for (size_t limit = 0; limit <= 1; limit++) {
            Input input = limited(test_case, limit);
            input.options.indent = wasmprinter_bytes(indents[i], strlen(indents[i]));
            expect_refused(test_case->title, &input, expected);
        }
    }
}

/* "Then WASMPRINTER_COMPONENT, then WASMPRINTER_INVALID_INDENT, then WASMPRINTER_INVALID_LIST, then any other." Each list is cut off at this
 * place: in a length, after it, or in a name. */
static void check_wrong_lists(const Case *test_case) {
    static const struct {
        const char *list;
        size_t len;
        uint64_t place;
    } lists[] = {
        {"\1", 1, 0},
        {"\0\0\0", 3, 0},
        {"\1\0\0\0", 4, 0},
        {"\3\0\0\0ab", 6, 0},
        {"\0\0\0\0\0\0\0", 7, 4},
        {"\1\0\0\0a\2\0\0\0b", 10, 5},
        {"\0\1\0\0a", 5, 0},
        {"\0\0\0\1a", 5, 0},
        {"\xff\xff\xff\xff", 4, 0},
        {"\0\0\0\0\0\0\0\0\xff\xff\xff\xff\0", 13, 8},
    };
    const WasmprinterStatus status = test_case->outcome.status;
    const bool is_earlier = status == WASMPRINTER_COMPONENT || status == WASMPRINTER_INVALID_INDENT;
    for (size_t i = 0; i < sizeof lists / sizeof lists[0]; i++) {
        for (size_t limit = 0; limit <= 1; limit++) {
            Input input = limited(test_case, limit);
            input.options.omitted = wasmprinter_bytes(lists[i].list, lists[i].len);
            expect_refused(test_case->title, &input, is_earlier ? refused(status, 0) : refused(WASMPRINTER_INVALID_LIST, lists[i].place));
        }
    }
}

/* Calls the exported function with a limit, and with lengths 0 of the buffer and of the table. */
static Outcome print_raw(const Case *test_case, size_t limit) {
    const WasmprinterOptions *options = &test_case->input.options;
    const WasmprinterBytes indent = options->indent.ptr != NULL ? options->indent : wasmprinter_bytes("  ", 2);
    const WasmprinterBytes list = options->omitted.ptr != NULL ? options->omitted : wasmprinter_bytes("", 0);
    Outcome outcome = no_outcome();
    memset(out, GUARD, sizeof out);
    memset(events, GUARD, sizeof events);
    outcome.status = wasmprinter_raw_print(wasm, test_case->input.wasm.len, options->flags, (const uint8_t *)indent.ptr, indent.len, limit,
                                           (const uint8_t *)list.ptr, list.len, out, 0, events, 0, &outcome.stored);
    expect(is_unchanged(out, 0, sizeof out) && is_unchanged(events, 0, sizeof events), test_case->title, "object of length 0");
    calls++;
    return outcome;
}

/* "SIZE_MAX means no limit. With limit 0 every module that would be printed gives WASMPRINTER_TOO_LONG." An error while printing comes later. */
static void check_raw_limits(const Case *test_case) {
    const WasmprinterStatus status = test_case->outcome.status;
    const bool is_printing = status == WASMPRINTER_OK || status == WASMPRINTER_DYLINK_SUBSECTION;
    expect(is_same(print_raw(test_case, SIZE_MAX), test_case->outcome), test_case->title, "outcome without a limit");
    expect(is_same(print_raw(test_case, 0), is_printing ? too_long() : test_case->outcome), test_case->title, "outcome of limit 0");
}

/* The greatest limit of the options is as good as none. */
static void check_greatest_limit(const Case *test_case) {
    static const Way ways[] = {by_print, by_lines, by_alloc};
    const Input input = limited(test_case, SIZE_MAX);
    for (size_t i = 0; i < sizeof ways / sizeof ways[0]; i++) {
        expect(is_same(ways[i](&input), test_case->outcome), test_case->title, "outcome with the greatest limit");
        calls++;
    }
}

static void check(Case *test_case) {
    check_unknown_options(test_case);
    check_wrong_indents(test_case);
    check_wrong_lists(test_case);
    check_raw_limits(test_case);
    check_greatest_limit(test_case);
}

/* ---- Other checks */

/* "An object that a function writes to must not overlap any other object": the module and the indent, which are only read, may. */
static void check_shared_input(void) {
    /* The last byte of the module is the zero byte of the string. The indent is the module's two spaces, the name of a custom section. */
    static const char module[] = "\0asm\1\0\0\0\0\3\2  \1\4\1\x60\0";
    static const char text[] = "(module\n  (@custom \"  \" (before first) \"\")\n  (type (;0;) (func))\n)\n";
    enum { PLACE = 11 };
    const Input input = {{module, sizeof module}, {0, {module + PLACE, 2}, 0, {NULL, 0}}};
    memset(out, GUARD, sizeof out);
    expect(by_print(&input).status == WASMPRINTER_OK, "an indent in the module", "status");
    expect(is_over(out, sizeof out, sizeof out, text, strlen(text)), "an indent in the module", "text");
}

/* "If the `ptr` of a module, a list of names, a buffer or a table is null, it counts as empty, whatever its `len` is." */
static void check_greatest_lengths(void) {
    static const uint8_t empty[] = {0x00, 0x61, 0x73, 0x6d, 0x01, 0x00, 0x00, 0x00};
    const WasmprinterOptions options = {0, {NULL, SIZE_MAX}, 0, {NULL, SIZE_MAX}};
    const Input nothing = {{NULL, SIZE_MAX}, options}, module = {{empty, sizeof empty}, options};
    const Outcome malformed = {WASMPRINTER_MALFORMED, {0, 0, 0}}, printed = {WASMPRINTER_OK, {strlen("(module)\n"), 1, 0}};
    WasmprinterBuffer text = {NULL, SIZE_MAX};
    expect(is_same(print_lines(&nothing, NULL, SIZE_MAX, NULL, SIZE_MAX), malformed), "null pointers", "outcome of no bytes");
    expect(is_same(print_lines(&module, NULL, SIZE_MAX, NULL, SIZE_MAX), printed), "null pointers", "outcome of a module");
    expect(is_same(print_alloc(&nothing, &text), malformed) && text.len == 0, "null pointers", "outcome of a block");
    free(text.ptr);
    expect(wasmprinter_error_text(WASMPRINTER_OK, 0, wasmprinter_buffer(NULL, SIZE_MAX)) == strlen("success"), "null pointers", "description");
}

/* A list has any length. This one has 20001 names, of which only the last is that of a section. */
static void check_long_list(void) {
    static const char module[] = "\0asm\1\0\0\0\0\3\2ab\0\3\2ac", text[] = "(module\n  (@custom \"ac\" (before first) \"\")\n)\n";
    enum { NAMES = 20000, EACH = 6 };
    static char list[(NAMES + 1) * EACH];
    size_t len = 0;
    for (int i = 0; i < NAMES; i++) {
        len = wasmprinter_add_name(wasmprinter_buffer(list, sizeof list), len, i % 2 == 0 ? "aa" : "ad", 2);
    }
    len = wasmprinter_add_name(wasmprinter_buffer(list, sizeof list), len, "ab", 2);
    const Input input = {{module, sizeof module - 1}, {0, {NULL, 0}, 0, {list, len}}};
    memset(out, GUARD, sizeof out);
    expect(len == sizeof list && by_print(&input).status == WASMPRINTER_OK, "a long list", "status");
    expect(is_over(out, sizeof out, sizeof out, text, strlen(text)), "a long list", "text");
}

/* An indent has any length. This one is longer than the text that is expected of the module. */
static void check_long_indent(void) {
    static const char before[] = "(module\n", after[] = "(type (;0;) (func))\n)\n", module[] = "\0asm\1\0\0\0\1\4\1\x60\0";
    enum { LEVEL = 100000 };
    static char indent[LEVEL];
    WasmprinterBuffer text = {NULL, 0};
    memset(indent, ' ', sizeof indent);
    const Input input = {{module, sizeof module}, {0, {indent, sizeof indent}, 0, {NULL, 0}}};
    if (expect(print_alloc(&input, &text).status == WASMPRINTER_OK, "a long indent", "status")) {
        expect(text.len == strlen(before) + sizeof indent + strlen(after), "a long indent", "length");
        expect(memcmp(text.ptr + strlen(before), indent, sizeof indent) == 0, "a long indent", "indent");
        expect(strcmp(text.ptr + strlen(before) + sizeof indent, after) == 0, "a long indent", "text");
    }
    free(text.ptr);
}

int main(int argc, char **argv) {
    const unsigned cases = check_file(argc == 2 ? argv[1] : NULL, check);
    check_shared_input();
    check_greatest_lengths();
    check_long_indent();
    check_long_list();
    printf(LANGUAGE ": %u cases with %u calls that are refused or at a limit, %u differences\n", cases, calls, failed);
    return failed == 0 ? 0 : 1;
}
