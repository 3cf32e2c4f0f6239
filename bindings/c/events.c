/* events FILE: checks the events of every case of bindings/cases.txt, and all events of a module whose events are typed here. Prints each
 * difference and the counts; the status is 1 if there is a difference. For C99 and C++. */
#include "cases.h"

enum { MOST_EVENTS = 1024 };

static unsigned checked;

/* The outcome of a print with its text and its events. */
typedef struct Printed {
    Outcome outcome;
    uint8_t text[TEXT_ROOM];
    WasmprinterEvent events[MOST_EVENTS];
} Printed;

static bool is_line(WasmprinterEvent event) { return event.kind == WASMPRINTER_LINE || event.kind == WASMPRINTER_LINE_AT_PLACE; }

/* Returns whether the style of names, literals, keywords, types or comments starts. */
static bool is_style(WasmprinterEvent event) { return event.kind >= WASMPRINTER_NAME && event.kind <= WASMPRINTER_COMMENT; }

static bool is_same_event(WasmprinterEvent a, WasmprinterEvent b) { return a.start == b.start && a.place == b.place && a.kind == b.kind; }

static bool are_same_events(const WasmprinterEvent *a, const WasmprinterEvent *b, size_t count) {
    for (size_t i = 0; i < count; i++) {
        if (!is_same_event(a[i], b[i])) {
            return false;
        }
    }
    return true;
}

/* Prints with room for `room` events. Returns whether the buffer holds the text of the outcome, and all other bytes are unchanged. */
static bool print_whole(const Input *input, size_t room, Printed *printed) {
    memset(printed, GUARD, sizeof *printed);
    printed->outcome = print_events(input, printed->text, sizeof printed->text, printed->events, room);
    const WasmprinterResult *stored = &printed->outcome.stored;
    const size_t fits = stored->count < room ? stored->count : room;
    return printed->outcome.status != WASMPRINTER_OK ||
           (stored->count <= MOST_EVENTS && is_unchanged(printed->text, stored->length, sizeof printed->text) &&
            is_unchanged(printed->events, fits * sizeof printed->events[0], sizeof printed->events));
}

/* Checks an event: its kind, its start and its place. */
static bool expect_event(const char *title, const Input *input, const Printed *printed, size_t index) {
    const WasmprinterEvent event = printed->events[index];
    const size_t before = index == 0 ? 0 : printed->events[index - 1].start;
    const bool has_place = event.kind == WASMPRINTER_LINE_AT_PLACE || event.kind == WASMPRINTER_CUSTOM_SECTION;
    const bool starts_line = event.start == 0 || printed->text[event.start - 1] == '\n';
    return expect(event.kind <= WASMPRINTER_CUSTOM_SECTION, title, "kind of an event") &&
           expect(event.start >= before && event.start < printed->outcome.stored.length, title, "start of an event") &&
           expect(event.place <= (has_place ? input->wasm.len : 0), title, "place of an event") &&
           expect(!is_line(event) || starts_line, title, "line that starts after no line feed");
}

/* Checks that each style ends before the next one starts. No case has a style that starts in another one. */
static void expect_styles(const char *title, const Printed *printed) {
    bool is_open = false, is_right = true;
    for (size_t i = 0; is_right && i < printed->outcome.stored.count; i++) {
        const WasmprinterEvent event = printed->events[i];
        if (is_style(event) || event.kind == WASMPRINTER_RESET) {
            is_right = expect(is_open == (event.kind == WASMPRINTER_RESET), title, "alternation of styles");
            is_open = is_style(event);
        }
    }
    expect(!is_open, title, "style that does not end");
}

/* Compares the lines among the events with those that wasmprinter_print_lines stores. */
static void expect_lines(const Case *test_case, const Printed *printed) {
    static uint8_t out[TEXT_ROOM];
    WasmprinterEvent lines[MOST_LINES];
    const char *title = test_case->title;
    size_t count = 0;
    Outcome outcome = print_lines(&test_case->input, out, sizeof out, lines, MOST_LINES);
    bool is_right = expect(outcome.status == WASMPRINTER_OK && outcome.stored.count <= MOST_LINES, title, "outcome of the lines");
    for (size_t i = 0; is_right && i < printed->outcome.stored.count; i++) {
        if (is_line(printed->events[i])) {
            is_right = expect(count < outcome.stored.count && is_same_event(printed->events[i], lines[count]), title, "line of the events");
            count++;
        }
    }
    expect(!is_right || count == outcome.stored.count, title, "number of lines of the events");
}

/* Prints with room for every number of events, from none to one more than the text has. */
static void check_rooms(const Case *test_case, const Printed *whole) {
    static Printed part;
    const size_t count = whole->outcome.stored.count;
    bool is_right = true;
    for (size_t room = 0; is_right && room <= count + 1; room++) {
        is_right = expect(print_whole(&test_case->input, room, &part), test_case->title, "bytes after the events") &&
                   expect(is_same(part.outcome, whole->outcome), test_case->title, "outcome with a table") &&
                   expect(are_same_events(part.events, whole->events, room < count ? room : count), test_case->title, "events of a table");
    }
}

/* Prints with each limit from 1 to a byte more than the text. */
static void check_limits(const Case *test_case, const Printed *whole) {
    static Printed part;
    const size_t length = test_case->text_len;
    bool is_right = true;
    for (size_t limit = 1; is_right && limit <= length + 1; limit++) {
        const Input input = limited(test_case, limit);
        is_right = expect(print_whole(&input, MOST_EVENTS, &part), test_case->title, "bytes after the events with a limit");
        if (limit < length) {
            is_right = is_right && expect(is_same(part.outcome, too_long()), test_case->title, "outcome of events that are too long");
        } else {
            is_right = is_right && expect(is_same(part.outcome, whole->outcome), test_case->title, "outcome with a limit") &&
                       expect(are_same_events(part.events, whole->events, whole->outcome.stored.count), test_case->title, "limited events");
        }
    }
}

/* Prints with the option in place of the function. The option counts events where nothing is stored, too. */
static void check_option(const Case *test_case, const Printed *whole) {
    static WasmprinterEvent events[MOST_EVENTS];
    static uint8_t out[TEXT_ROOM];
    Input input = test_case->input;
    input.options.flags |= WASMPRINTER_EVENTS;
    Outcome outcome = print_lines(&input, out, sizeof out, events, MOST_EVENTS);
    expect(is_same(outcome, whole->outcome), test_case->title, "outcome with the option");
    expect(whole->outcome.status != WASMPRINTER_OK || are_same_events(events, whole->events, outcome.stored.count), test_case->title,
           "events with the option");
    expect(is_same(print_text(&input, NULL, 0), whole->outcome), test_case->title, "outcome of the option without a table");
}

/* Checks the events of a case. After an error there are none. */
static void check(Case *test_case) {
    static Printed whole;
    const Outcome *typed = &test_case->outcome;
    const char *title = test_case->title;
    bool is_right = expect(print_whole(&test_case->input, MOST_EVENTS, &whole), title, "bytes after the text or the events") &&
                    expect(whole.outcome.status == typed->status && whole.outcome.stored.detail == typed->stored.detail, title, "error") &&
                    expect(whole.outcome.stored.length == typed->stored.length, title, "length") &&
                    expect(memcmp(whole.text, test_case->text, test_case->text_len) == 0, title, "text");
    check_option(test_case, &whole);
    if (typed->status != WASMPRINTER_OK) {
        expect(whole.outcome.stored.count == 0, title, "number of events after an error");
        return;
    }
    for (size_t i = 0; is_right && i < whole.outcome.stored.count; i++) {
        is_right = expect_event(title, &test_case->input, &whole, i);
    }
    checked += (unsigned)whole.outcome.stored.count;
    expect_styles(title, &whole);
    expect_lines(test_case, &whole);
    check_rooms(test_case, &whole);
    check_limits(test_case, &whole);
}

/* ---- A module whose events are typed */

/* A function with a name that is no identifier, and a custom section. */
static const uint8_t TYPED[] = {
    0x00, 0x61, 0x73, 0x6d, 0x01, 0x00, 0x00, 0x00,             /* the preamble */
    0x01, 0x05, 0x01, 0x60, 0x00, 0x01, 0x7d,                   /* the type */
    0x03, 0x02, 0x01, 0x00,                                     /* the function */
    0x0a, 0x0c, 0x01, 0x0a, 0x00,                               /* the body */
    0x02, 0x7d, 0x43, 0x00, 0x00, 0x80, 0xff, 0x0b, 0x0b,       /* block, f32.const -inf, end, end */
    0x00, 0x0a, 0x04, 0x6e, 0x61, 0x6d, 0x65,                   /* the name section */
    0x01, 0x03, 0x01, 0x00, 0x00,                               /* an empty name for function 0 */
    0x00, 0x03, 0x01, 0x61, 0x01,                               /* a custom section */
};

static const char TYPED_TEXT[] = "(module\n"
                                 "  (type (;0;) (func (result f32)))\n"
                                 "  (func $\"#func0 \" (@name \"\") (;0;) (type 0) (result f32)\n"
                                 "    block (result f32) ;; label = @1\n"
                                 "      f32.const -inf (;=-inf;)\n"
                                 "    end\n"
                                 "  )\n"
                                 "  (@custom \"a\" (after code) \"\\01\")\n"
                                 ")\n";

/* The kinds. Styles start in another one twice: in a name, and in a literal. */
enum {
    LINE = WASMPRINTER_LINE_AT_PLACE,
    N = WASMPRINTER_NAME,
    L = WASMPRINTER_LITERAL,
    K = WASMPRINTER_KEYWORD,
    T = WASMPRINTER_TYPE,
    C = WASMPRINTER_COMMENT,
    R = WASMPRINTER_RESET,
    CUSTOM = WASMPRINTER_CUSTOM_SECTION
};

static const WasmprinterEvent TYPED_EVENTS[] = {
    {0, 0, LINE},    {1, 0, K},   {7, 0, R},                                                                 /* module */
    {8, 0xb, LINE},  {11, 0, K},  {16, 0, R},  {16, 0, N}, {21, 0, R},                                       /* type, (;0;) */
    {23, 0, K},      {27, 0, R},  {29, 0, K},  {35, 0, R}, {36, 0, T},  {39, 0, R},                          /* func, result, f32 */
    {43, 0x17, LINE}, {46, 0, K}, {51, 0, R},  {51, 0, N}, {63, 0, K},  {70, 0, R}, {78, 0, R},              /* func, $.. (;0;), @name */
    {80, 0, K},      {85, 0, R},  {85, 0, N},  {86, 0, R}, {89, 0, K},  {95, 0, R}, {96, 0, T}, {99, 0, R},  /* type, 0, result, f32 */
    {101, 0x18, LINE}, {112, 0, K}, {119, 0, R}, {119, 0, T}, {122, 0, R}, {124, 0, C}, {137, 0, R},         /* result, f32, label */
    {138, 0x1a, LINE}, {155, 0, L}, {159, 0, C}, {168, 0, R},                                                /* inf, its comment */
    {169, 0x1f, LINE},                                                                                       /* end */
    {177, 0x20, LINE}, {180, 0x28, CUSTOM}, {180, 0x31, CUSTOM},                                             /* the name section, a */
    {181, 0x2f, LINE}, {184, 0, K}, {192, 0, R}, {192, 0, L}, {195, 0, R}, {209, 0, L}, {214, 0, R},         /* @custom, "a", "\01" */
    {216, 0x32, LINE},                                                                                       /* ) */
};

/* Compares the events of the module with the typed ones. */
static void check_typed(void) {
    static Printed printed;
    const char *title = "typed events";
    const Input input = {{TYPED, sizeof TYPED}, {0, {NULL, 0}, 0, {NULL, 0}}};
    const size_t count = sizeof TYPED_EVENTS / sizeof TYPED_EVENTS[0], length = sizeof TYPED_TEXT - 1;
    const Outcome typed = {WASMPRINTER_OK, {length, count, 0}};
    bool is_right = expect(print_whole(&input, MOST_EVENTS, &printed), title, "bytes after the text or the events") &&
                    expect(is_same(printed.outcome, typed) && memcmp(printed.text, TYPED_TEXT, length) == 0, title, "text or number");
    for (size_t i = 0; is_right && i < count; i++) {
        is_right = expect(is_same_event(printed.events[i], TYPED_EVENTS[i]), title, "event");
    }
}

/* Checks null pointers: without options the defaults are chosen, and without a table and a result events are only counted. */
static void check_null(void) {
    static WasmprinterEvent events[MOST_EVENTS];
    const char *title = "events without options";
    const WasmprinterBytes bytes = {TYPED, sizeof TYPED};
    const WasmprinterBuffer no_text = {NULL, 0};
    const WasmprinterTable table = {events, MOST_EVENTS}, no_table = {NULL, MOST_EVENTS};
    const size_t count = sizeof TYPED_EVENTS / sizeof TYPED_EVENTS[0];
    WasmprinterResult result = no_outcome().stored;
    expect(wasmprinter_print_events(bytes, NULL, no_text, no_table, &result) == WASMPRINTER_OK && result.count == count, title, "number");
    expect(wasmprinter_print_events(bytes, NULL, no_text, table, NULL) == WASMPRINTER_OK, title, "status");
    expect(are_same_events(events, TYPED_EVENTS, count), title, "events");
}

int main(int argc, char **argv) {
    const unsigned cases = check_file(argc == 2 ? argv[1] : NULL, check);
    check_typed();
    check_null();
    printf(LANGUAGE ": %u cases with %u events, %u differences\n", cases, checked, failed);
    return failed == 0 ? 0 : 1;
}
