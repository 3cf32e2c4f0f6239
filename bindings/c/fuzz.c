/* A target for libFuzzer: prints any bytes with any options, whole, truncated, limited, with lines or events and to allocated memory, and checks
 * that the results are as the header says. The first byte of the input chooses the options and an unknown option, and the second one the indent.
 *
 * clang -fsanitize=fuzzer,address,undefined -Iinclude bindings/c/fuzz.c libwasmprinter.a */
#include "checked.h"

#include <stdlib.h>

/* The first bytes of an input choose the options and the indent. */
enum { CHOICES = 2 };

/* Longer texts are only measured. */
static const size_t MOST_TEXT = (size_t)1 << 24;

/* The last one is not UTF-8. */
static const struct {
    const char *text;
    size_t len;
} INDENTS[] = {{NULL, 0}, {"", 0}, {"\t", 1}, {"\xc3\xa9", 2}, {"\0", 1}, {"\xff", 1}};

static void require(bool holds) {
    if (!holds) {
        abort();
    }
}

/* Returns a buffer that is filled with the guard. */
static void *guarded(size_t len) {
    void *buffer = malloc(len);
    require(buffer != NULL);
    memset(buffer, GUARD, len);
    return buffer;
}

/* Checks the description of an error. */
static void check_error_text(Outcome outcome) {
    const size_t room = WASMPRINTER_ERROR_TEXT_LEN + 1;
    char *text = (char *)guarded(room);
    size_t length = wasmprinter_error_text(outcome.status, outcome.stored.detail, wasmprinter_buffer(text, room));
    require(length < room && strlen(text) == length && is_unchanged(text, length + 1, room));
    free(text);
}

/* Checks the results of an error. */
static void check_error(const Input *input, Outcome outcome) {
    require(outcome.status <= WASMPRINTER_INVALID_INDENT && outcome.status != WASMPRINTER_UNREADABLE);
    require(outcome.stored.length == 0 && outcome.stored.count == 0);
    check_error_text(outcome);
    require(is_same(print_lines(input, NULL, 0, NULL, 0), outcome));
    WasmprinterBuffer text = {NULL, 0};
    require(is_same(print_alloc(input, &text), outcome) && text.len == 0);
    free(text.ptr);
}

/* Prints half of a text, and checks that the bytes after it are unchanged. */
static void check_half(const Input *input, const uint8_t *text, Outcome whole) {
    const size_t length = whole.stored.length;
    uint8_t *half = (uint8_t *)guarded(length);
    require(is_same(print_text(input, half, length / 2), whole) && is_over(half, length, length / 2, text, length));
    free(half);
}

/* Prints with limits of all, of half and of all but the last byte of a text. */
static void check_limits(Input input, const uint8_t *text, Outcome whole) {
    const size_t length = whole.stored.length, limits[] = {length, length / 2, length - 1};
    for (size_t i = 0; i < sizeof limits / sizeof limits[0]; i++) {
        uint8_t *out = (uint8_t *)guarded(length);
        input.options.limit = limits[i];
        Outcome outcome = print_text(&input, out, length);
        if (limits[i] < length) {
            require(is_same(outcome, too_long()) && is_prefix(out, length, limits[i], text, length));
        } else {
            require(is_same(outcome, whole) && memcmp(out, text, length) == 0);
        }
        free(out);
    }
}

/* Prints to allocated memory. */
static void check_alloc(const Input *input, const uint8_t *text, Outcome whole) {
    WasmprinterBuffer again = {NULL, 0};
    require(is_same(print_alloc(input, &again), whole) && again.len == whole.stored.length);
    require(memcmp(again.ptr, text, again.len) == 0 && again.ptr[again.len] == '\0');
    free(again.ptr);
}

static bool is_line(WasmprinterEvent event) { return event.kind <= WASMPRINTER_LINE_AT_PLACE; }

/* Checks an event. The first one is the start of a line, and later lines start after a line feed. */
static void check_event(const Input *input, const uint8_t *text, const WasmprinterEvent *events, size_t index) {
    const WasmprinterEvent event = events[index];
    const bool has_place = event.kind == WASMPRINTER_LINE_AT_PLACE || event.kind == WASMPRINTER_CUSTOM_SECTION;
    require(event.kind <= WASMPRINTER_CUSTOM_SECTION && event.place <= (has_place ? input->wasm.len : 0));
    require(is_line(event) || (input->options.flags & WASMPRINTER_EVENTS) != 0);
    if (index == 0) {
        require(is_line(event) && event.start == 0);
    } else {
        require(event.start >= events[index - 1].start);
        require(!is_line(event) || (event.start > events[index - 1].start && text[event.start - 1] == '\n'));
    }
}

/* Prints with a table of the lines or of the events, and checks its entries. */
static void check_lines(const Input *input, const uint8_t *text, Outcome whole) {
    const size_t length = whole.stored.length, count = whole.stored.count;
    uint8_t *again = (uint8_t *)guarded(length);
    WasmprinterEvent *events = (WasmprinterEvent *)guarded(count * sizeof *events);
    require(is_same(print_lines(input, again, length, events, count), whole) && memcmp(again, text, length) == 0);
    for (size_t i = 0; i < count; i++) {
        require(events[i].start < length);
        check_event(input, text, events, i);
    }
    free(events);
    free(again);
}

/* Checks that an unknown option is reported for any input. */
static void check_unknown(Input input, uint32_t option) {
    const Outcome unknown = {WASMPRINTER_UNKNOWN_OPTION, {0, 0, option}};
    input.options.flags |= option;
    require(is_same(print_text(&input, NULL, 0), unknown));
}

/* Prints a text of this length. */
static void check_text(const Input *input, Outcome measured) {
    const size_t length = measured.stored.length;
    uint8_t *text = (uint8_t *)guarded(length);
    require(is_same(print_text(input, text, length), measured) && text[length - 1] == '\n');
    check_half(input, text, measured);
    check_limits(*input, text, measured);
    check_alloc(input, text, measured);
    check_lines(input, text, measured);
    free(text);
}

#ifdef __cplusplus
extern "C" {
#endif

int LLVMFuzzerTestOneInput(const uint8_t *data, size_t size);

#ifdef __cplusplus
}
#endif

int LLVMFuzzerTestOneInput(const uint8_t *data, size_t size) {
    if (size < CHOICES) {
        return 0;
    }
    const size_t indent = data[1] % (sizeof INDENTS / sizeof INDENTS[0]);
    const uint32_t known = data[0] & ALL_OPTIONS;
    const Input input = {{data + CHOICES, size - CHOICES}, {known, {INDENTS[indent].text, INDENTS[indent].len}, 0, {NULL, 0}}};
    check_unknown(input, (ALL_OPTIONS + 1u) << data[0] / (ALL_OPTIONS + 1));
    Outcome measured = print_text(&input, NULL, 0);
    if (measured.status != WASMPRINTER_OK) {
        check_error(&input, measured);
    } else if (measured.stored.length <= MOST_TEXT) {
        check_text(&input, measured);
    }
    return 0;
}
