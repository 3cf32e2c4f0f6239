/* preview: shows the start of a module's text, in a buffer of a fixed length. For C99 and C++. */
#include "wasmprinter.h"

#include <stdio.h>

/* Shows the skeleton of a module, as much of it as fits. */
static void preview(WasmprinterBytes wasm) {
    const WasmprinterOptions options = {WASMPRINTER_SKELETON | WASMPRINTER_NAME_UNNAMED, {NULL, 0}, 0, {NULL, 0}};
    char text[500];
    WasmprinterResult result;
    WasmprinterStatus status = wasmprinter_print(wasm, &options, wasmprinter_buffer(text, sizeof text), &result);
    if (status != WASMPRINTER_OK) {
        printf("not shown: %s\n", wasmprinter_status_name(status));
    } else {
        size_t shown = result.length < sizeof text ? result.length : sizeof text;
        printf("%.*s(%zu of %zu bytes)\n", (int)shown, text, shown, result.length);
    }
}

int main(void) {
    /* The literal's zero byte is the last one of the module. */
    static const char wasm[] = "\0asm\1\0\0";
    preview(wasmprinter_bytes(wasm, sizeof wasm));
    return 0;
}
