/* limit: prints a small module with a text of a million bytes, with limits, and checks which texts need a second block. For C99 and C++. */
#include "checked.h"
#include "expect.h"

#include <stdlib.h>

/* The name of the function has NAME_LEN bytes, or fewer, and its body has CALLS calls of itself. Each call shows the name. */
enum { NAME_LEN = 1000, CALLS = 1000, NAME_BYTE = 'n' };

/* The lengths of sections and of bodies have five bytes. */
enum { SIZE_LEN = 5, WASM_ROOM = 4096, TEXT_ROOM = 1 << 20 };

static uint8_t wasm[WASM_ROOM];
static char text[TEXT_ROOM];

/* Appends bytes to the module. Returns its new end. */
static uint8_t *add(uint8_t *end, const char *bytes, size_t len) {
    memcpy(end, bytes, len);
    return end + len;
}

/* Appends a number in LEB128, with SIZE_LEN bytes. Returns the new end of the module. */
static uint8_t *add_size(uint8_t *end, size_t size) {
    for (int i = 0; i < SIZE_LEN; i++) {
        *end++ = (uint8_t)((size >> 7 * i & 0x7f) | (i + 1 < SIZE_LEN ? 0x80 : 0));
    }
    return end;
}

/* Appends CALLS times `call 0`. Returns the new end of the module. */
static uint8_t *add_calls(uint8_t *end) {
    for (int i = 0; i < CALLS; i++) {
        end = add(end, "\x10\0", 2);
    }
    return end;
}

/* Writes the module with a name of this length. */
static WasmprinterBytes make_module(size_t name_len) {
    const size_t body = 1 + 2 * CALLS + 1, name = 1 + 1 + SIZE_LEN + name_len;
    uint8_t *end = add(wasm, "\0asm\1\0\0\0\1\4\1\x60\0\0\3\2\1\0\x0a", 19);
    end = add_size(end, 1 + SIZE_LEN + body);
    end = add(end, "\1", 1); /* a body */
    end = add_size(end, body);
    end = add_calls(add(end, "\0", 1)); /* no locals */
    end = add_size(add(end, "\x0b\0", 2), 5 + 1 + SIZE_LEN + name);
    end = add_size(add(end, "\4name\1", 6), name);
    end = add_size(add(end, "\1\0", 2), name_len); /* a name, of function 0 */
    memset(end, NAME_BYTE, name_len);
    return wasmprinter_bytes(wasm, (size_t)(end + name_len - wasm));
}

/* Appends text, the name and more text to the expected text, whose length is given. Returns its new length. */
static size_t add_text(size_t len, const char *before, const char *after) {
    memcpy(text + len, before, strlen(before));
    len += strlen(before);
    memset(text + len, NAME_BYTE, NAME_LEN);
    len += NAME_LEN;
    memcpy(text + len, after, strlen(after));
    return len + strlen(after);
}

/* Writes the text of the module. Returns its length. */
static size_t make_text(void) {
    size_t len = add_text(0, "(module\n  (type (;0;) (func))\n  (func $", " (;0;) (type 0)\n");
    for (int i = 0; i + 1 < CALLS; i++) {
        len = add_text(len, "    call $", "\n");
    }
    return add_text(len, "    call $", "\n  )\n)\n");
}

/* The requests of memory of a call: their number, the greatest one, and whether the first one fails. */
typedef struct Requests {
    unsigned count;
    size_t greatest;
    bool is_first_refused;
} Requests;

static void *resize(void *context, void *block, size_t len) {
    Requests *requests = (Requests *)context;
    requests->greatest = len > requests->greatest ? len : requests->greatest;
    return requests->count++ == 0 && requests->is_first_refused ? NULL : realloc(block, len);
}

/* The whole text of a module with some options, and its outcome. */
typedef struct Whole {
    const char *title;
    Input input;
    WasmprinterBuffer text;
    Outcome outcome;
} Whole;

/* Prints with a limit to a buffer. */
static void check_buffer(const Whole *whole, size_t limit) {
    static uint8_t out[2 * TEXT_ROOM];
    Input input = whole->input;
    input.options.limit = limit;
    memset(out, GUARD, sizeof out);
    Outcome outcome = print_text(&input, out, sizeof out);
    if (limit < whole->text.len) {
        expect(is_same(outcome, too_long()), whole->title, "outcome of a text that is too long");
        expect(is_prefix(out, sizeof out, limit, whole->text.ptr, whole->text.len), whole->title, "prefix");
    } else {
        expect(is_same(outcome, whole->outcome), whole->title, "outcome");
        expect(is_over(out, sizeof out, sizeof out, whole->text.ptr, whole->text.len), whole->title, "text");
    }
}

/* Prints with a limit to memory. The block never has more bytes than the limit and a zero byte. */
static void check_alloc(const Whole *whole, size_t limit, bool is_first_refused) {
    Requests requests = {0, 0, is_first_refused};
    WasmprinterBuffer block = {NULL, GUARD};
    Outcome outcome = no_outcome();
    WasmprinterOptions options = whole->input.options;
    options.limit = limit;
    outcome.status = wasmprinter_print_alloc(whole->input.wasm, &options, resize, &requests, &block, &outcome.stored);
    expect(requests.count > 0 && requests.greatest <= limit + 1, whole->title, "greatest request of memory");
    if (limit < whole->text.len) {
        expect(is_same(outcome, too_long()) && block.len == 0, whole->title, "outcome of a block that is too long");
        expect(requests.count == 1, whole->title, "number of requests for a text that is too long");
        expect(block.ptr == NULL || block.ptr[0] == '\0', whole->title, "block after an error");
    } else if (expect(is_same(outcome, whole->outcome) && block.len == whole->text.len, whole->title, "outcome of a block")) {
        expect(memcmp(block.ptr, whole->text.ptr, block.len) == 0 && block.ptr[block.len] == '\0', whole->title, "block");
    }
    free(block.ptr);
}

/* Prints a module without a limit, and with limits that are less than, equal to and greater than the length of its text. */
static void check(const char *title, WasmprinterBytes bytes, uint32_t flags) {
    Whole whole = {title, {bytes, {flags, {NULL, 0}, 0, {NULL, 0}}}, {NULL, 0}, no_outcome()};
    whole.outcome = print_alloc(&whole.input, &whole.text);
    if (expect(whole.outcome.status == WASMPRINTER_OK, title, "status without a limit")) {
        const size_t len = whole.text.len;
        const size_t limits[] = {1, 2, 7, 8, 9, 100, 4096, len / 2, len - 1, len, len + 1, 2 * len, SIZE_MAX - 1};
        for (size_t i = 0; i < sizeof limits / sizeof limits[0]; i++) {
            check_buffer(&whole, limits[i]);
            check_alloc(&whole, limits[i], false);
            check_alloc(&whole, limits[i], true);
        }
    }
    free(whole.text.ptr);
}

/* Compares the text of the module, printed with the least limit that it needs. */
static void check_typed(WasmprinterBytes bytes, size_t length) {
    const WasmprinterOptions options = {0, {NULL, 0}, length, {NULL, 0}};
    WasmprinterBuffer block = {NULL, 0};
    if (expect(wasmprinter_print_alloc(bytes, &options, NULL, NULL, &block, NULL) == WASMPRINTER_OK, "typed text", "status")) {
        expect(block.len == length && memcmp(block.ptr, text, length) == 0, "typed text", "text");
    }
    free(block.ptr);
}

/* Prints the module with a name of this length to memory. Checks the lengths of the module and of its text, and the requests of memory. */
static void check_requests(size_t name_len, size_t wasm_len, size_t length, unsigned count, size_t greatest) {
    const WasmprinterBytes bytes = make_module(name_len);
    Requests requests = {0, 0, false};
    WasmprinterBuffer block = {NULL, 0};
    WasmprinterStatus status = wasmprinter_print_alloc(bytes, NULL, resize, &requests, &block, NULL);
    expect(bytes.len == wasm_len, "requests", "length of the module");
    expect(status == WASMPRINTER_OK && block.len == length, "requests", "length of the text");
    expect(requests.count == count, "requests", "number of requests");
    expect(requests.greatest == greatest, "requests", "greatest request of memory");
    free(block.ptr);
}

/* The first request is for 32 bytes for each byte of the module, 4096, and the zero byte. A longer text needs a second one. */
static void check_all_requests(void) {
    check_requests(1, 2057, 12062, 1, 69921);
    check_requests(30, 2086, 41091, 1, 70849);
    check_requests(60, 2116, 71121, 1, 71809);
    check_requests(61, 2117, 72122, 2, 72123);
    check_requests(1000, 3056, 1012061, 2, 1012062);
}

/* Checks that the least limit does not change another error. */
static void check_precedence(WasmprinterBytes bytes) {
    const Outcome unknown = {WASMPRINTER_UNKNOWN_OPTION, {0, 0, ALL_OPTIONS + 1}}, no_utf8 = {WASMPRINTER_INVALID_INDENT, {0, 0, 0}};
    Input input = {bytes, {ALL_OPTIONS + 1, {NULL, 0}, 1, {NULL, 0}}};
    expect(is_same(print_text(&input, NULL, 0), unknown), "an unknown option and a limit", "outcome");
    input.options.flags = 0;
    input.options.indent = wasmprinter_bytes("\xff", 1);
    expect(is_same(print_text(&input, NULL, 0), no_utf8), "a wrong indent and a limit", "outcome");
    input.options.indent = wasmprinter_bytes(NULL, 0);
    expect(is_same(print_text(&input, NULL, 0), too_long()), "a limit", "outcome");
    input.wasm.len--;
    expect(print_text(&input, NULL, 0).status == WASMPRINTER_MALFORMED, "a module that is cut off and a limit", "status");
}

int main(void) {
    check_all_requests();
    const WasmprinterBytes bytes = make_module(NAME_LEN);
    const size_t length = make_text();
    check_typed(bytes, length);
    for (uint32_t flags = 0; flags <= ALL_OPTIONS; flags++) {
        check("a long text", bytes, flags);
    }
    check("a short text", wasmprinter_bytes("\0asm\1\0\0", 8), 0);
    check_precedence(bytes);
    printf(LANGUAGE ": a text of %lu bytes with limits, %u differences\n", (unsigned long)length, failed);
    return failed == 0 ? 0 : 1;
}
