/* example FILE: writes the text of a module to standard output. The status is 2 after a wrong use, and 1 after any other failure. For C99
 * and C++. */
#include "wasmprinter.h"

#include <stdbool.h>
#include <stdio.h>
#include <stdlib.h>

enum { WRONG_USE = 2 };

/* Reads a whole file into a buffer that the caller frees. Returns null if that fails. */
static uint8_t *read_file(const char *path, size_t *len) {
    FILE *file = fopen(path, "rb");
    if (file == NULL) {
        return NULL;
    }
    long size = fseek(file, 0, SEEK_END) == 0 ? ftell(file) : -1;
    uint8_t *bytes = size < 0 ? NULL : (uint8_t *)malloc((size_t)size + 1);
    rewind(file);
    *len = bytes == NULL ? 0 : fread(bytes, 1, (size_t)size, file);
    if (bytes != NULL && *len != (size_t)size) {
        free(bytes);
        bytes = NULL;
    }
    fclose(file);
    return bytes;
}

/* Writes text to standard output. Returns whether all of it was written. */
static bool write_text(WasmprinterBuffer text) {
    if (fwrite(text.ptr, 1, text.len, stdout) != text.len || fflush(stdout) != 0) {
        fputs("example: the text can't be written\n", stderr);
        return false;
    }
    return true;
}

/* Writes the text of a module to standard output, or an error to standard error. Returns whether the text was written. */
static bool print(const void *bytes, size_t len) {
    WasmprinterBuffer text = {NULL, 0};
    WasmprinterResult result;
    WasmprinterStatus status = wasmprinter_print_alloc(wasmprinter_bytes(bytes, len), NULL, NULL, NULL, &text, &result);
    bool is_written = false;
    if (status == WASMPRINTER_OK) {
        is_written = write_text(text);
    } else {
        char message[WASMPRINTER_ERROR_TEXT_LEN + 1];
        wasmprinter_error_text(status, result.detail, wasmprinter_buffer(message, sizeof message));
        fprintf(stderr, "example: %s\n", message);
    }
    free(text.ptr);
    return is_written;
}

int main(int argc, char **argv) {
    if (argc != 2) {
        fputs("usage: example FILE\n", stderr);
        return WRONG_USE;
    }
    size_t len = 0;
    uint8_t *wasm = read_file(argv[1], &len);
    bool is_printed = false;
    if (wasm != NULL) {
        is_printed = print(wasm, len);
    } else {
        fputs("example: the file can't be read\n", stderr);
    }
    free(wasm);
    return is_printed ? EXIT_SUCCESS : EXIT_FAILURE;
}
