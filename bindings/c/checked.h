/* checked.h: calls the printing functions on guarded buffers, for the tests. */
#ifndef CHECKED_H
#define CHECKED_H

#include "wasmprinter.h"

#include <stdbool.h>
#include <string.h>

/* Buffers are filled with this byte before a call. */
enum { GUARD = 0xa5 };

/* The flags with every known option. Each number up to it is a set of known options. */
enum { ALL_OPTIONS = WASMPRINTER_OFFSETS | WASMPRINTER_SKELETON | WASMPRINTER_NAME_UNNAMED | WASMPRINTER_FOLD | WASMPRINTER_EVENTS };

/* The bits of the flags, and the first of them that chooses no option. */
enum { FIRST_UNKNOWN_BIT = 5, BITS = 32 };

/* The input of the printing functions. */
typedef struct Input {
    WasmprinterBytes wasm;
    WasmprinterOptions options;
} Input;

/* The values that the printing functions return and store. */
typedef struct Outcome {
    WasmprinterStatus status;
    WasmprinterResult stored;
} Outcome;

/* Returns an outcome that no function returns. */
static inline Outcome no_outcome(void) {
    Outcome outcome = {GUARD, {GUARD, GUARD, GUARD}};
    return outcome;
}

/* Prints the text. */
static inline Outcome print_text(const Input *input, void *out, size_t out_len) {
    Outcome outcome = no_outcome();
    outcome.status = wasmprinter_print(input->wasm, &input->options, wasmprinter_buffer((char *)out, out_len), &outcome.stored);
    return outcome;
}

/* Prints the text and the table of its lines, or of its events if the options say so. */
static inline Outcome print_lines(const Input *input, void *out, size_t out_len, WasmprinterEvent *lines, size_t lines_len) {
    Outcome outcome = no_outcome();
    WasmprinterTable table = {lines, lines_len};
    outcome.status =
        wasmprinter_print_lines(input->wasm, &input->options, wasmprinter_buffer((char *)out, out_len), table, &outcome.stored);
    return outcome;
}

/* Prints the text and the table of its events. */
static inline Outcome print_events(const Input *input, void *out, size_t out_len, WasmprinterEvent *events, size_t events_len) {
    Outcome outcome = no_outcome();
    WasmprinterTable table = {events, events_len};
    outcome.status =
        wasmprinter_print_events(input->wasm, &input->options, wasmprinter_buffer((char *)out, out_len), table, &outcome.stored);
    return outcome;
}

/* Prints the text to memory from `realloc`. */
static inline Outcome print_alloc(const Input *input, WasmprinterBuffer *text) {
    Outcome outcome = no_outcome();
    outcome.status = wasmprinter_print_alloc(input->wasm, &input->options, NULL, NULL, text, &outcome.stored);
    return outcome;
}

/* Returns whether two calls returned and stored the same. */
static inline bool is_same(Outcome a, Outcome b) {
    return a.status == b.status && a.stored.length == b.stored.length && a.stored.count == b.stored.count &&
           a.stored.detail == b.stored.detail;
}

/* Returns whether a call left the bytes from `start` to `end` unchanged. */
static inline bool is_unchanged(const void *buffer, size_t start, size_t end) {
    const uint8_t *bytes = (const uint8_t *)buffer;
    for (size_t i = start; i < end; i++) {
        if (bytes[i] != GUARD) {
            return false;
        }
    }
    return true;
}

/* Returns whether the first `room` bytes of a buffer hold as much of a text as fits, and the other bytes are unchanged. */
static inline bool is_over(const void *buffer, size_t len, size_t room, const void *text, size_t length) {
    size_t fits = length < room ? length : room;
    return memcmp(buffer, text, fits) == 0 && is_unchanged(buffer, fits, len);
}

/* Returns whether a buffer holds a prefix of a text, of at most `most` bytes, and the other bytes are unchanged. */
static inline bool is_prefix(const void *buffer, size_t len, size_t most, const void *text, size_t length) {
    const uint8_t *bytes = (const uint8_t *)buffer, *expected = (const uint8_t *)text;
    size_t held = 0;
    while (held < most && held < len && held < length && bytes[held] == expected[held]) {
        held++;
    }
    return is_unchanged(buffer, held, len);
}

/* The outcome of a print whose text is longer than the limit. */
static inline Outcome too_long(void) {
    Outcome outcome = {WASMPRINTER_TOO_LONG, {0, 0, 0}};
    return outcome;
}

#endif
