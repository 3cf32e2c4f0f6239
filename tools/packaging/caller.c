/* caller: prints a module by the library. It has functions with names of the toolchain's, which the library must not call. With WRAPS it is linked
 * with --wrap=malloc, and checks that the library allocates by the wrapper. */
#include "wasmprinter.h"

#include <stdio.h>

void *rattle_alloc(size_t len);
size_t rattle_over(uint8_t *out, size_t out_len, const char *text);

void *rattle_alloc(size_t len) {
    (void)len;
    abort();
}

size_t rattle_over(uint8_t *out, size_t out_len, const char *text) {
    (void)out, (void)out_len, (void)text;
    abort();
}

#ifdef WRAPS
static int has_allocated = 0;

void *__real_malloc(size_t len);
void *__wrap_malloc(size_t len);

void *__wrap_malloc(size_t len) {
    has_allocated = 1;
    return __real_malloc(len);
}
#else
static const int has_allocated = 1;
#endif

int main(void) {
    /* The library allocates for a copy of the indent. The zero byte of the literal below is the last one of the module. */
    const WasmprinterOptions options = {0, {"                                        ", 40}, 0, {NULL, 0}};
    WasmprinterBuffer text = {NULL, 0};
    WasmprinterStatus status = wasmprinter_print_alloc(wasmprinter_bytes("\0asm\1\0\0", 8), &options, NULL, NULL, &text, NULL);
    if (status == WASMPRINTER_OK && wasmprinter_version() == WASMPRINTER_VERSION && has_allocated) {
        fputs(text.ptr, stdout);
    }
    free(text.ptr);
    return 0;
}
