/* guard FILE: prints every prefix of a module, with every size of buffer, of table and of limit, and every prefix of the modules of
 * bindings/cases.txt, those that are printed with every size of buffer and of table. Each object that a call is given is next to a page that can't be
 * accessed, once before and once after it: a read or write outside of the objects ends the program with a signal. For Linux, in C99 and C++. */
#define _DEFAULT_SOURCE /* for MAP_ANONYMOUS */

#include "cases.h"

#include <sys/mman.h>
#include <unistd.h>

enum { MODULE_LINES = 7, STATUSES = WASMPRINTER_INVALID_LIST + 2 };

/* A module with a type, a function, an export and a body, as in bindings/cases.txt. */
static const uint8_t MODULE[] = {
    0x00, 0x61, 0x73, 0x6d, 0x01, 0x00, 0x00, 0x00, /* the preamble */
    0x01, 0x06, 0x01, 0x60, 0x01, 0x7f, 0x01, 0x7f, /* the types */
    0x03, 0x02, 0x01, 0x00,                         /* the functions */
    0x07, 0x05, 0x01, 0x01, 0x66, 0x00, 0x00,       /* the exports */
    0x0a, 0x06, 0x01, 0x04, 0x00, 0x20, 0x00, 0x0b, /* the bodies */
};

/* A prefix of the module, with its text. */
typedef struct Prefix {
    size_t len;
    const char *text;
    size_t count;
    uint64_t places[MODULE_LINES];
} Prefix;

/* The prefixes that are modules. Any other prefix is malformed. */
static const Prefix PRINTED[] = {
    {8, "(module)\n", 1, {0}},
    {16,
     "(module\n"
     "  (type (;0;) (func (param i32) (result i32)))\n"
     ")\n",
     3,
     {0, 0xb, 0x10}},
    {sizeof MODULE,
     "(module\n"
     "  (type (;0;) (func (param i32) (result i32)))\n"
     "  (export \"f\" (func 0))\n"
     "  (func (;0;) (type 0) (param i32) (result i32)\n"
     "    local.get 0\n"
     "  )\n"
     ")\n",
     MODULE_LINES,
     {0, 0xb, 0x17, 0x1f, 0x20, 0x22, 0x23}},
};

/* The characters of indents, with one to four bytes, and the lengths of the prefixes that are UTF-8. */
static const char INDENT[] = "\t\xc3\xa9\xe2\x82\xac\xf0\x9f\x98\x80";
static const size_t WHOLE_INDENTS[] = {0, 1, 3, 6, 10};

/* The end of a page that an object is at. */
typedef enum End { FIRST, LAST } End;

/* Pages for the objects of a call, each between two pages that can't be accessed. */
static struct {
    size_t size;
    uint8_t *wasm;
    uint8_t *indent;
    uint8_t *omitted;
    uint8_t *out;
    uint8_t *lines;
    uint8_t *result;
} pages;

static unsigned prints;

/* Stops the test if the system refuses a page. */
static void require_page(bool is_right) {
    if (!is_right) {
        perror(LANGUAGE ": guard");
        exit(2);
    }
}

/* Returns a page between two pages that can't be accessed. */
static uint8_t *new_page(void) {
    void *start = mmap(NULL, 3 * pages.size, PROT_NONE, MAP_PRIVATE | MAP_ANONYMOUS, -1, 0);
    require_page(start != MAP_FAILED);
    uint8_t *page = (uint8_t *)start + pages.size;
    require_page(mprotect(page, pages.size, PROT_READ | PROT_WRITE) == 0);
    return page;
}

static void make_pages(void) {
    pages.size = (size_t)sysconf(_SC_PAGESIZE);
    pages.wasm = new_page();
    pages.indent = new_page();
    pages.omitted = new_page();
    pages.out = new_page();
    pages.lines = new_page();
    pages.result = new_page();
}

/* Returns the place of an object at an end of a page. */
static uint8_t *place(uint8_t *page, size_t len, End end) { return end == FIRST ? page : page + pages.size - len; }

/* Copies input to an end of a page, which a call can only read. */
static const uint8_t *place_input(uint8_t *page, const void *input, size_t len, End end) {
    require_page(mprotect(page, pages.size, PROT_READ | PROT_WRITE) == 0);
    uint8_t *start = place(page, len, end);
    memcpy(start, input, len);
    require_page(mprotect(page, pages.size, PROT_READ) == 0);
    return start;
}

/* The objects of a call. */
typedef struct Objects {
    End end;
    const uint8_t *wasm;
    size_t wasm_len;
    uint32_t flags;
    const uint8_t *indent;
    size_t indent_len;
    size_t limit;
    const uint8_t *omitted;
    size_t omitted_len;
    uint8_t *out;
    size_t out_len;
    WasmprinterEvent *lines;
    size_t lines_len;
} Objects;

/* Returns the objects of a call with input at an end of its pages. */
static Objects objects(const void *wasm, size_t wasm_len, const void *indent, size_t indent_len, End end) {
    Objects placed = {end, NULL, wasm_len, 0, NULL, indent_len, SIZE_MAX, NULL, 0, NULL, 0, NULL, 0};
    placed.wasm = place_input(pages.wasm, wasm, wasm_len, end);
    placed.indent = place_input(pages.indent, indent, indent_len, end);
    placed.omitted = place_input(pages.omitted, "", 0, end);
    return placed;
}

/* Prints to a buffer and a table of these sizes, at the same end of their pages. */
static Outcome print_objects(Objects *placed, size_t out_len, size_t lines_len) {
    WasmprinterResult *stored = (WasmprinterResult *)(void *)place(pages.result, sizeof *stored, placed->end);
    Outcome outcome = no_outcome();
    placed->out = place(pages.out, out_len, placed->end);
    placed->out_len = out_len;
    placed->lines = (WasmprinterEvent *)(void *)place(pages.lines, lines_len * sizeof *placed->lines, placed->end);
    placed->lines_len = lines_len;
    memset(placed->out, GUARD, out_len);
    memset(placed->lines, GUARD, lines_len * sizeof *placed->lines);
    *stored = outcome.stored;
    outcome.status = wasmprinter_raw_print(placed->wasm, placed->wasm_len, placed->flags, placed->indent, placed->indent_len, placed->limit,
                                           placed->omitted, placed->omitted_len, placed->out, out_len, placed->lines, lines_len, stored);
    outcome.stored = *stored;
    prints++;
    return outcome;
}

/* Compares the lines of the table with those of a text. */
static bool is_table(const Objects *placed, const Prefix *prefix) {
    size_t start = 0;
    size_t fits = prefix->count < placed->lines_len ? prefix->count : placed->lines_len;
    for (size_t i = 0; i < fits; i++) {
        const WasmprinterEvent *line = &placed->lines[i];
        if (line->start != start || line->place != prefix->places[i] || line->kind != WASMPRINTER_LINE_AT_PLACE) {
            return false;
        }
        start += strcspn(prefix->text + start, "\n") + 1;
    }
    return is_unchanged(placed->lines, fits * sizeof *placed->lines, placed->lines_len * sizeof *placed->lines);
}

/* Checks a print of a prefix that is a module. */
static bool check_printed(const Objects *placed, Outcome outcome, const Prefix *prefix) {
    const Outcome printed = {WASMPRINTER_OK, {strlen(prefix->text), prefix->count, 0}};
    return expect(is_same(outcome, printed), "guard", "outcome of a module") &&
           expect(is_over(placed->out, placed->out_len, placed->out_len, prefix->text, strlen(prefix->text)), "guard", "text") &&
           expect(is_table(placed, prefix), "guard", "table");
}

/* Checks a print of a prefix that is malformed. */
static bool check_malformed(const Objects *placed, Outcome outcome) {
    const Outcome malformed = {WASMPRINTER_MALFORMED, {0, 0, outcome.stored.detail}};
    return expect(is_same(outcome, malformed), "guard", "outcome of a malformed module") &&
           expect(outcome.stored.detail <= placed->wasm_len, "guard", "place of an error") &&
           expect(is_unchanged(placed->out, 0, placed->out_len), "guard", "buffer after an error");
}

/* Returns the prefix of this length, or null if it is malformed. */
static const Prefix *find_printed(size_t len) {
    for (size_t i = 0; i < sizeof PRINTED / sizeof PRINTED[0]; i++) {
        if (PRINTED[i].len == len) {
            return &PRINTED[i];
        }
    }
    return NULL;
}

/* Prints a prefix with every size of buffer and of table, up to those of the module. */
static void check_prefix(size_t len, End end) {
    const size_t most = strlen(find_printed(sizeof MODULE)->text);
    const Prefix *prefix = find_printed(len);
    Objects placed = objects(MODULE, len, "  ", 2, end);
    bool is_right = true;
    for (size_t out_len = 0; is_right && out_len <= most; out_len++) {
        for (size_t lines_len = 0; is_right && lines_len <= MODULE_LINES; lines_len++) {
            Outcome outcome = print_objects(&placed, out_len, lines_len);
            is_right = prefix != NULL ? check_printed(&placed, outcome, prefix) : check_malformed(&placed, outcome);
        }
    }
}

/* Checks a print of a prefix that is a module, with a limit. */
static bool check_limited(const Objects *placed, Outcome outcome, const Prefix *prefix) {
    if (strlen(prefix->text) <= placed->limit) {
        return check_printed(placed, outcome, prefix);
    }
    return expect(is_same(outcome, too_long()), "guard", "outcome of a text that is too long") &&
           expect(is_prefix(placed->out, placed->out_len, placed->limit, prefix->text, strlen(prefix->text)), "guard",
                  "prefix of a text that is too long");
}

/* Prints a prefix with every limit up to two bytes more than its text, and every size of buffer. The table is empty or has room for all
 * lines. */
static void check_limits(size_t len, End end) {
    const Prefix *prefix = find_printed(len);
    const size_t most = prefix != NULL ? strlen(prefix->text) + 2 : 2;
    Objects placed = objects(MODULE, len, "  ", 2, end);
    bool is_right = true;
    for (placed.limit = 0; is_right && placed.limit <= most; placed.limit++) {
        for (size_t out_len = 0; is_right && out_len <= most; out_len++) {
            Outcome outcome = print_objects(&placed, out_len, out_len % 2 == 0 ? 0 : MODULE_LINES);
            is_right = prefix != NULL ? check_limited(&placed, outcome, prefix) : check_malformed(&placed, outcome);
        }
    }
}

/* Prints the module with a set of options, and every size of buffer and of table. */
static void check_options(uint32_t flags, End end) {
    Objects placed = objects(MODULE, sizeof MODULE, "  ", 2, end);
    placed.flags = flags;
    const Outcome whole = print_objects(&placed, 0, 0);
    bool is_right = expect(whole.status == WASMPRINTER_OK, "guard", "status with options");
    for (size_t out_len = 0; is_right && out_len <= whole.stored.length; out_len++) {
        is_right = expect(is_same(print_objects(&placed, out_len, whole.stored.count), whole), "guard", "outcome with options");
    }
    for (size_t lines_len = 0; is_right && lines_len <= whole.stored.count; lines_len++) {
        is_right = expect(is_same(print_objects(&placed, whole.stored.length, lines_len), whole), "guard", "outcome with a table");
    }
    for (placed.limit = 0; is_right && placed.limit < whole.stored.length; placed.limit++) {
        is_right = expect(is_same(print_objects(&placed, whole.stored.length, whole.stored.count), too_long()), "guard",
                          "outcome with options and a limit");
    }
    is_right = is_right && expect(is_same(print_objects(&placed, 0, 0), whole), "guard", "outcome with options and the least limit");
    placed.limit = 0;
    placed.flags |= ALL_OPTIONS + 1;
    expect(print_objects(&placed, 0, 0).status == WASMPRINTER_UNKNOWN_OPTION, "guard", "status with an unknown option and a limit");
}

/* Returns whether a prefix of the indent ends with a whole character. */
static bool is_whole(size_t len) {
    for (size_t i = 0; i < sizeof WHOLE_INDENTS / sizeof WHOLE_INDENTS[0]; i++) {
        if (WHOLE_INDENTS[i] == len) {
            return true;
        }
    }
    return false;
}

/* Prints the module with a prefix of the indent. */
static void check_indent(size_t len, End end) {
    Objects placed = objects(MODULE, sizeof MODULE, INDENT, len, end);
    WasmprinterStatus status = is_whole(len) ? WASMPRINTER_OK : WASMPRINTER_INVALID_INDENT;
    expect(print_objects(&placed, pages.size, MODULE_LINES).status == status, "guard", "status with an indent");
    placed.limit = 0;
    status = is_whole(len) ? WASMPRINTER_TOO_LONG : WASMPRINTER_INVALID_INDENT;
    expect(print_objects(&placed, pages.size, MODULE_LINES).status == status, "guard", "status with an indent and a limit");
}

/* A list of three names, of which the second is empty, and the lengths of the prefixes that are lists. */
static const char LIST[] = "\2\0\0\0ab\0\0\0\0\3\0\0\0abc";
static const size_t WHOLE_LISTS[] = {0, 6, 10, 17};

/* Returns the length of the longest list that is a prefix of the list with this length. */
static size_t whole_list(size_t len) {
    size_t whole = 0;
    for (size_t i = 0; i < sizeof WHOLE_LISTS / sizeof WHOLE_LISTS[0]; i++) {
        whole = WHOLE_LISTS[i] <= len ? WHOLE_LISTS[i] : whole;
    }
    return whole;
}

/* Prints a module with a custom section `abc`, without the names in a prefix of the list. */
static void check_list(size_t len, End end) {
    static const char module[] = "\0asm\1\0\0\0\0\4\3abc", kept[] = "(module\n  (@custom \"abc\" (before first) \"\")\n)\n";
    const size_t whole = whole_list(len);
    Objects placed = objects(module, sizeof module - 1, "  ", 2, end);
    placed.omitted = place_input(pages.omitted, LIST, len, end);
    placed.omitted_len = len;
    const Outcome outcome = print_objects(&placed, pages.size, MODULE_LINES);
    if (whole < len) {
        const Outcome cut = {WASMPRINTER_INVALID_LIST, {0, 0, whole}};
        expect(is_same(outcome, cut), "guard", "outcome of a list that is cut off");
        expect(is_unchanged(placed.out, 0, pages.size), "guard", "buffer after a list that is cut off");
        return;
    }
    const char *text = len < sizeof LIST - 1 ? kept : "(module)\n";
    expect(outcome.status == WASMPRINTER_OK && outcome.stored.length == strlen(text), "guard", "outcome with a list of names");
    expect(is_over(placed.out, pages.size, pages.size, text, strlen(text)), "guard", "text with a list of names");
}

/* Writes the description of a status to every size of buffer. */
static void check_error_text(WasmprinterStatus status, End end) {
    size_t length = wasmprinter_raw_error_text(status, UINT64_MAX, place(pages.out, 0, end), 0);
    for (size_t len = 0; len <= length; len++) {
        uint8_t *out = place(pages.out, len, end);
        expect(wasmprinter_raw_error_text(status, UINT64_MAX, out, len) == length, "guard", "length of a description");
    }
}

/* Makes all calls with objects at one end of their pages. */
static void check_end(End end) {
    for (size_t len = 0; len <= sizeof MODULE; len++) {
        check_prefix(len, end);
        check_limits(len, end);
    }
    for (uint32_t flags = 0; flags <= ALL_OPTIONS; flags++) {
        check_options(flags, end);
    }
    for (size_t len = 0; len < sizeof INDENT; len++) {
        check_indent(len, end);
    }
    for (size_t len = 0; len < sizeof LIST; len++) {
        check_list(len, end);
    }
    for (WasmprinterStatus status = 0; status < STATUSES; status++) {
        check_error_text(status, end);
    }
}

/* Prints to a buffer and a table of these sizes, and expects the outcome that the text has without them. */
static bool check_room(const char *title, Objects *placed, size_t out_len, size_t lines_len, Outcome whole) {
    return expect(is_same(print_objects(placed, out_len, lines_len), whole), title, "outcome between guard pages");
}

/* Prints with every size of buffer and of table. After an error, only with no room and with more than a text of this module needs. */
static void check_rooms(const char *title, Objects *placed) {
    const Outcome whole = print_objects(placed, 0, 0);
    const size_t length = whole.stored.length, count = whole.stored.count;
    bool is_right = whole.status == WASMPRINTER_OK || check_room(title, placed, pages.size, MOST_LINES, whole);
    for (size_t out_len = 0; is_right && out_len <= length; out_len++) {
        is_right = check_room(title, placed, out_len, count, whole);
    }
    for (size_t lines_len = 0; is_right && lines_len <= count; lines_len++) {
        is_right = check_room(title, placed, length, lines_len, whole);
    }
}

/* Prints every prefix of the module of a case, if it fits into a page. */
static void check_case(Case *test_case) {
    const WasmprinterOptions *options = &test_case->input.options;
    const WasmprinterBytes indent = options->indent.ptr != NULL ? options->indent : wasmprinter_bytes("  ", 2);
    const size_t most = test_case->input.wasm.len;
    for (size_t len = 0; most <= pages.size && len <= most; len++) {
        for (int end = FIRST; end <= LAST; end++) {
            Objects placed = objects(wasm, len, indent.ptr, indent.len, (End)end);
            placed.flags = options->flags;
            placed.omitted = place_input(pages.omitted, test_case->omitted, options->omitted.len, (End)end);
            placed.omitted_len = options->omitted.len;
            check_rooms(test_case->title, &placed);
        }
    }
}

int main(int argc, char **argv) {
    make_pages();
    check_end(FIRST);
    check_end(LAST);
    const unsigned cases = check_file(argc == 2 ? argv[1] : NULL, check_case);
    printf(LANGUAGE ": %u prints between guard pages, of %u cases and a module, %u differences\n", prints, cases, failed);
    return failed == 0 ? 0 : 1;
}
