/* color: writes the text of the module in standard input to standard output, in ANSI colors. The status is 1 after a failure. For C99 and
 * C++. */
#include "wasmprinter.h"

#include <stdio.h>

/* The escape sequences of the kinds of events, in the order of their numbers. Lines have none. */
static const char *const SEQUENCES[] = {
    "", "", "\x1b[0m\x1b[35m", "\x1b[0m\x1b[31m", "\x1b[0m\x1b[1m\x1b[38;5;11m", "\x1b[0m\x1b[1m\x1b[38;5;10m", "\x1b[0m\x1b[36m", "\x1b[0m",
};

/* Writes the text to standard output, each escape sequence at the start of its event. */
static void write_colored(WasmprinterBuffer text, WasmprinterTable events) {
    size_t written = 0;
    for (size_t i = 0; i < events.len; i++) {
        const WasmprinterEvent event = events.ptr[i];
        fwrite(text.ptr + written, 1, event.start - written, stdout);
        fputs(event.kind < sizeof SEQUENCES / sizeof SEQUENCES[0] ? SEQUENCES[event.kind] : "", stdout);
        written = event.start;
    }
    fwrite(text.ptr + written, 1, text.len - written, stdout);
}

/* Measures the text, and prints it to memory. */
static WasmprinterStatus print_colored(WasmprinterBytes wasm, WasmprinterResult *result) {
    WasmprinterBuffer text = {NULL, 0};
    WasmprinterTable events = {NULL, 0};
    WasmprinterStatus status = wasmprinter_print_events(wasm, NULL, text, events, result);
    if (status != WASMPRINTER_OK) {
        return status;
    }
    text = wasmprinter_buffer((char *)malloc(result->length), result->length);
    events.ptr = (WasmprinterEvent *)malloc(result->count * sizeof *events.ptr);
    events.len = result->count;
    status = WASMPRINTER_MEMORY;
    if (text.ptr != NULL && events.ptr != NULL) {
        status = wasmprinter_print_events(wasm, NULL, text, events, result);
    }
    if (status == WASMPRINTER_OK) {
        write_colored(text, events);
    }
    free(text.ptr);
    free(events.ptr);
    return status;
}

int main(void) {
    static char wasm[1 << 24]; /* of a longer module, only a prefix is read */
    WasmprinterResult result = {0, 0, 0};
    WasmprinterStatus status = print_colored(wasmprinter_bytes(wasm, fread(wasm, 1, sizeof wasm, stdin)), &result);
    if (status != WASMPRINTER_OK) {
        fprintf(stderr, "color: %s\n", wasmprinter_status_name(status));
    }
    return status == WASMPRINTER_OK && fflush(stdout) == 0 && !ferror(stdout) ? EXIT_SUCCESS : EXIT_FAILURE;
}
