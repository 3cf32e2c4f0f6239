/* texts FILE..: prints the module of each file with each set of options, and writes the results to standard output, for tools/fuzz.py. Each block of
 * memory has exactly the length that a call is given, so valgrind reports an access after its end. For C99 and C++.
 *
 * For each file and each number of flags from 0 to ALL_OPTIONS the output has a line `STATUS LENGTH COUNT`, then LENGTH bytes, which are the text or
 * the description of the error, and then COUNT events as the library stored them. COUNT is 0 without WASMPRINTER_EVENTS. The status is 2 if a file
 * can't be read, if memory is missing, or if two calls with the same input return different results. */
#include "checked.h"

#include <stdio.h>
#include <stdlib.h>

/* Stops the program. */
static void stop(const char *why) {
    fprintf(stderr, "texts: %s\n", why);
    exit(2);
}

/* Returns a block of this length. */
static void *new_block(size_t len) {
    void *block = malloc(len);
    if (block == NULL && len > 0) {
        stop("out of memory");
    }
    return block;
}

/* Reads a whole file into a block that the caller frees. */
static uint8_t *read_file(const char *path, size_t *len) {
    FILE *file = fopen(path, "rb");
    long size = file != NULL && fseek(file, 0, SEEK_END) == 0 ? ftell(file) : -1;
    if (size < 0) {
        stop("a file can't be read");
    }
    uint8_t *bytes = (uint8_t *)new_block((size_t)size);
    rewind(file);
    *len = fread(bytes, 1, (size_t)size, file);
    if (*len != (size_t)size) {
        stop("a file can't be read");
    }
    fclose(file);
    return bytes;
}

/* Writes a text or a message, to which `count` events are added. */
static void write_result(WasmprinterStatus status, const char *text, size_t length, size_t count) {
    printf("%u %lu %lu\n", (unsigned)status, (unsigned long)length, (unsigned long)count);
    fwrite(text, 1, length, stdout);
}

static void write_error(Outcome outcome) {
    char message[WASMPRINTER_ERROR_TEXT_LEN + 1];
    size_t length = wasmprinter_error_text(outcome.status, outcome.stored.detail, wasmprinter_buffer(message, sizeof message));
    write_result(outcome.status, message, length, 0);
}

/* Measures the text of a module with some options, prints it, and writes the result. */
static void print(const Input *input) {
    const Outcome measured = print_text(input, NULL, 0);
    if (measured.status != WASMPRINTER_OK) {
        write_error(measured);
        return;
    }
    const size_t length = measured.stored.length, count = input->options.flags & WASMPRINTER_EVENTS ? measured.stored.count : 0;
    char *text = (char *)new_block(length);
    WasmprinterEvent *events = (WasmprinterEvent *)new_block(count * sizeof *events);
    if (!is_same(print_lines(input, text, length, events, count), measured)) {
        stop("two calls return different results");
    }
    write_result(measured.status, text, length, count);
    fwrite(events, sizeof *events, count, stdout);
    free(events);
    free(text);
}

int main(int argc, char **argv) {
    for (int i = 1; i < argc; i++) {
        Input input = {{NULL, 0}, {0, {NULL, 0}, 0, {NULL, 0}}};
        uint8_t *bytes = read_file(argv[i], &input.wasm.len);
        input.wasm.ptr = bytes;
        for (input.options.flags = 0; input.options.flags <= ALL_OPTIONS; input.options.flags++) {
            print(&input);
        }
        free(bytes);
    }
    return fflush(stdout) == 0 && !ferror(stdout) ? 0 : 2;
}
