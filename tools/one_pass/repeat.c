/* repeat FILE N: prints the module in the file N times to memory, each time to a new block. For tools/one_pass.py. */
#include "wasmprinter.h"

#include <stdio.h>
#include <stdlib.h>

int main(int argc, char **argv) {
    static char bytes[1 << 26];
    if (argc != 3) {
        return 2;
    }
    FILE *file = fopen(argv[1], "rb");
    if (file == NULL) {
        return 1;
    }
    size_t len = fread(bytes, 1, sizeof bytes, file);
    fclose(file);
    for (int left = atoi(argv[2]); left > 0; left--) {
        WasmprinterBuffer text = {NULL, 0};
        if (wasmprinter_print_alloc(wasmprinter_bytes(bytes, len), NULL, NULL, NULL, &text, NULL) != WASMPRINTER_OK) {
            return 1;
        }
        free(text.ptr);
    }
    return 0;
}
