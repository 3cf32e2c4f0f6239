/* Stands in for the archive that `rt lib` makes: the functions that the header declares, over functions of the toolchain. */
#include "wasmprinter.h"

#include <string.h>

void *rattle_alloc(size_t len);
void *rattle_realloc(void *block, size_t len);
void rattle_dealloc(void *block);

size_t rattle_over(uint8_t *out, size_t out_len, const char *text);

/* Writes a text over `out`, through a block of memory. Returns the length of the text. */
size_t rattle_over(uint8_t *out, size_t out_len, const char *text) {
    size_t length = strlen(text);
    void *block = rattle_realloc(rattle_alloc(1), length);
    memcpy(block, text, length);
    memcpy(out, block, length < out_len ? length : out_len);
    rattle_dealloc(block);
    return length;
}

WasmprinterStatus wasmprinter_raw_print(const uint8_t *wasm, size_t wasm_len, uint32_t flags, const uint8_t *indent, size_t indent_len,
                                        size_t limit, const uint8_t *omitted, size_t omitted_len, uint8_t *out, size_t out_len,
                                        WasmprinterEvent *table, size_t table_len, WasmprinterResult *result) {
    (void)wasm, (void)wasm_len, (void)flags, (void)indent, (void)indent_len, (void)limit, (void)omitted, (void)omitted_len, (void)table;
    (void)table_len;
    result->length = rattle_over(out, out_len, "(module)\n");
    result->count = 1;
    result->detail = 0;
    return WASMPRINTER_OK;
}

size_t wasmprinter_raw_error_text(WasmprinterStatus status, uint64_t detail, uint8_t *out, size_t out_len) {
    (void)status, (void)detail;
    return rattle_over(out, out_len, "success");
}

uint32_t wasmprinter_version(void) { return WASMPRINTER_VERSION; }

#ifndef WITHOUT_REVISION
uint32_t wasmprinter_revision(void) { return WASMPRINTER_REVISION; }
#endif
