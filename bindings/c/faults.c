/* faults: makes a fault that include/wasmprinter.h does not allow, to check that tools report it. FAULT is its number: 1 to 8 for a null pointer as one
 * of the arguments that can't be null, LEAK for a block that is not freed after an error, OVERRUN for a buffer that is shorter than its length, and 0 for
 * no fault. tools/bindings.sh checks that the C compiler warns of 1 to 8. In tools/bindings_long.sh FAULT is `argc - 1`, so that no compiler knows it. For
 * C99 and C++. */
#include "wasmprinter.h"

enum { LEAK = 9, OVERRUN = 10, ROOM = 4, LEN = 9 };

/* The number of blocks that are not freed. A tool may take the last one for used, if its address is still on the stack. */
enum { BLOCKS = 4 };

/* Returns null for the argument with this number, and otherwise a pointer. */
#define ARGUMENT(number, pointer) (FAULT == (number) ? NULL : (pointer))

int main(int argc, char **argv) {
    static const uint8_t wasm[] = {0x00, 0x61, 0x73, 0x6d, 0x01, 0x00, 0x00, 0x00}, indent[] = {' ', ' '}, omitted[] = {0, 0, 0, 0};
    uint8_t *out = (uint8_t *)malloc(ROOM);
    WasmprinterEvent table[1];
    WasmprinterResult result;
    WasmprinterStatus error = WASMPRINTER_OK;
    if (out == NULL) {
        return 2;
    }
    WasmprinterStatus status =
        wasmprinter_raw_print(ARGUMENT(1, wasm), sizeof wasm, 0, ARGUMENT(2, indent), sizeof indent, SIZE_MAX, ARGUMENT(3, omitted), sizeof omitted,
                              ARGUMENT(4, out), FAULT == OVERRUN ? LEN : ROOM, ARGUMENT(5, table), 1, ARGUMENT(6, &result));
    size_t length = wasmprinter_raw_error_text(status, 0, ARGUMENT(7, out), ROOM);
    free(out);
    for (int i = 0; i < BLOCKS; i++) {
        WasmprinterBuffer text = {NULL, 0};
        error = wasmprinter_print_alloc(wasmprinter_bytes(wasm, 1), NULL, NULL, NULL, ARGUMENT(8, &text), NULL);
        if (FAULT != LEAK) {
            free(text.ptr);
        }
    }
    (void)argc;
    (void)argv;
    return status == WASMPRINTER_OK && length > 0 && error == WASMPRINTER_MALFORMED ? 0 : 1;
}
