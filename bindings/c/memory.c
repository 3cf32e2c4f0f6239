/* memory FILE: lets each allocation of a print fail in turn, for every case of bindings/cases.txt with each set of options, and for modules that are
 * typed here. Linked with --wrap=malloc, --wrap=realloc and --wrap=free, so that the allocations of the library and of the header call the functions
 * below. Checks also that printing stops at a limit. Prints each difference and the counts; the status is 1 if there is a difference. For C99 and
 * C++. */
#include "cases.h"

enum { ROOM = 1 << 14 };

/* Larger modules are printed only with the options of their case. */
enum { SMALL = 1 << 12 };

/* Forty spaces. */
#define INDENT "                                        "

#ifdef __cplusplus
extern "C" {
#endif

void *__real_malloc(size_t size);
void *__real_realloc(void *old, size_t size);
void __real_free(void *old);
void *__wrap_malloc(size_t size);
void *__wrap_realloc(void *old, size_t size);
void __wrap_free(void *old);

#ifdef __cplusplus
}
#endif

/* The requested length of each block is stored before it. */
enum { HEAD = 16 };

/* Which allocations fail: none, one, or one and all after it. A block that is made shorter gives back spare room: if that fails, no call fails. */
typedef enum Failing { NONE, ONE, ALL } Failing;
static Failing failing = NONE;
static unsigned allowed; /* the number of allocations that succeed before one fails */
static unsigned refused; /* the number of allocations that failed */
static unsigned spared;  /* the number of them that make a block shorter */
static long live;        /* the number of blocks that are not freed yet */
static unsigned asked;   /* the number of allocations, also those that failed */

static bool is_allowed(void) {
    asked++;
    if (failing == NONE || (failing == ONE && refused > 0)) {
        return true;
    }
    if (allowed > 0) {
        allowed--;
        return true;
    }
    refused++;
    return false;
}

/* Stores the length of a block, and returns its bytes after the head. */
static void *with_length(void *block, size_t size) {
    if (block == NULL) {
        return NULL;
    }
    memcpy(block, &size, sizeof size);
    return (char *)block + HEAD;
}

static size_t length_of(void *block) {
    size_t size;
    memcpy(&size, (char *)block - HEAD, sizeof size);
    return size;
}

void *__wrap_malloc(size_t size) {
    void *block = is_allowed() ? with_length(__real_malloc(HEAD + size), size) : NULL;
    live += block != NULL;
    return block;
}

void *__wrap_realloc(void *old, size_t size) {
    if (old == NULL) {
        return __wrap_malloc(size);
    }
    if (!is_allowed()) {
        spared += size < length_of(old);
        return NULL;
    }
    return with_length(__real_realloc((char *)old - HEAD, HEAD + size), size);
}

void __wrap_free(void *old) {
    if (old != NULL) {
        live--;
        __real_free((char *)old - HEAD);
    }
}

/* A way to print to a buffer of ROOM bytes. */
typedef Outcome (*Printer)(const Input *input, uint8_t *out);

static Outcome print_to_buffer(const Input *input, uint8_t *out) { return print_text(input, out, ROOM); }

static Outcome print_with_lines(const Input *input, uint8_t *out) {
    static WasmprinterEvent lines[ROOM];
    return print_lines(input, out, ROOM, lines, ROOM);
}

static Outcome print_with_events(const Input *input, uint8_t *out) {
    static WasmprinterEvent events[ROOM];
    return print_events(input, out, ROOM, events, ROOM);
}

/* Prints to a block, and copies the text to the buffer. */
static Outcome print_to_block(const Input *input, uint8_t *out) {
    WasmprinterBuffer text = {NULL, GUARD};
    Outcome outcome = print_alloc(input, &text);
    if (expect(text.len == outcome.stored.length && text.len <= ROOM, "a block", "length") && text.len > 0) {
        memcpy(out, text.ptr, text.len);
    }
    free(text.ptr);
    return outcome;
}

/* A print without a failure, to a buffer that is unchanged after the text. */
typedef struct Whole {
    const char *title;
    Printer print;
    Input input;
    Outcome outcome;
    uint8_t out[ROOM];
} Whole;

/* Prints while some allocations fail. Each failure must be reported, and every block freed. If only the first allocation of a block for the text
 * fails, the text is measured, and a block is allocated again. Returns whether an allocation failed. */
static bool check_failure(const Whole *whole, Failing way, unsigned successes) {
    static uint8_t out[ROOM];
    const Outcome memory = {WASMPRINTER_MEMORY, {0, 0, 0}};
    const long before = live;
    memset(out, GUARD, sizeof out);
    refused = spared = 0;
    allowed = successes;
    failing = way;
    Outcome outcome = whole->print(&whole->input, out);
    failing = NONE;
    const bool is_measured = whole->print == print_to_block && successes == 0 && refused == 1;
    expect(live == before, whole->title, "number of blocks that are not freed");
    if (refused == spared || is_measured) {
        expect(is_same(outcome, whole->outcome) && memcmp(out, whole->out, ROOM) == 0, whole->title, "outcome or text without a failure");
    } else {
        const size_t most = whole->input.options.flags & WASMPRINTER_FOLD ? ROOM : 0;
        expect(is_same(outcome, memory), whole->title, "outcome of a failure");
        expect(is_prefix(out, ROOM, most, whole->out, ROOM), whole->title, "buffer after a failure");
    }
    return refused > 0;
}

/* Prints without a failure, and then lets each allocation fail, alone and with all after it. Returns the number of allocations. */
static unsigned check_failures(Whole *whole) {
    unsigned allocations = 0;
    memset(whole->out, GUARD, ROOM);
    whole->outcome = whole->print(&whole->input, whole->out);
    expect(whole->outcome.stored.length <= ROOM, whole->title, "length of the text");
    while (check_failure(whole, ALL, allocations)) {
        check_failure(whole, ONE, allocations);
        allocations++;
    }
    return allocations;
}

/* ---- Cases */

static unsigned failures;

static void check_flags(const Case *test_case, uint32_t flags) {
    static const Printer printers[] = {print_to_buffer, print_with_lines, print_to_block};
    static Whole whole;
    whole.title = test_case->title;
    whole.input = test_case->input;
    whole.input.options.flags = flags;
    for (size_t i = 0; i < sizeof printers / sizeof printers[0]; i++) {
        whole.print = printers[i];
        failures += check_failures(&whole);
    }
}

static void check_case(Case *test_case) {
    const bool is_small = test_case->input.wasm.len <= SMALL;
    for (uint32_t flags = 0; is_small && flags <= ALL_OPTIONS; flags++) {
        check_flags(test_case, flags);
    }
    if (!is_small) {
        check_flags(test_case, test_case->input.options.flags);
    }
}

/* ---- Typed texts */

/* Checks the text of a module, and that a print of it makes at least this many allocations. */
static void check_typed(const char *title, Printer print, const Input *input, const char *text, unsigned at_least) {
    static Whole whole;
    whole.title = title;
    whole.print = print;
    whole.input = *input;
    const unsigned allocations = check_failures(&whole);
    expect(allocations >= at_least, title, "number of failures");
    expect(whole.outcome.status == WASMPRINTER_OK && whole.outcome.stored.length == strlen(text), title, "outcome");
    expect(is_over(whole.out, ROOM, ROOM, text, strlen(text)), title, "text");
    failures += allocations;
}

static void check_typed_texts(void) {
    /* Each module ends with the zero byte at the end of its string. */
    static const char empty[] = "\0asm\1\0\0";
    static const char typed[] = "\0asm\1\0\0\0\1\4\1\x60\0";
    static const char text[] = "(module\n" INDENT "(type (;0;) (func))\n)\n";
    const Input nothing = {{empty, sizeof empty}, {0, {INDENT, sizeof INDENT - 1}, 0, {NULL, 0}}};
    const Input flat = {{typed, sizeof typed}, {0, {INDENT, sizeof INDENT - 1}, 0, {NULL, 0}}};
    const Input folded = {{typed, sizeof typed}, {WASMPRINTER_FOLD, {INDENT, sizeof INDENT - 1}, 0, {NULL, 0}}};
    check_typed("a long indent and an empty module", print_to_buffer, &nothing, "(module)\n", 1);
    check_typed("a long indent and a type", print_to_buffer, &flat, text, 2);
    check_typed("the same with lines", print_with_lines, &flat, text, 2);
    check_typed("the same with events", print_with_events, &flat, text, 2);
    check_typed("the same, folded", print_to_buffer, &folded, text, 2);
    check_typed("the same, allocated", print_to_block, &flat, text, 3);
    check_typed("the same, folded and allocated", print_to_block, &folded, text, 3);
}

/* ---- Limits */

/* Prints with this limit, and returns the number of allocations. */
static unsigned allocations_with(Input input, size_t limit, WasmprinterStatus status) {
    static uint8_t out[ROOM];
    input.options.limit = limit;
    asked = 0;
    expect(print_text(&input, out, ROOM).status == status, "a limit", "status");
    return asked;
}

/* Folding allocates for each list of operators. After the limit nothing is folded, so that fewer allocations are made. */
static void check_limit_stops(void) {
    static const char wasm[] = "\0asm\1\0\0\0\1\4\1\x60\0\0\3\2\1\0\12\12\1\10\0\x41\1\x1a\x41\2\x1a\x0b";
    const Input folded = {{wasm, sizeof wasm - 1}, {WASMPRINTER_FOLD, {NULL, 0}, 0, {NULL, 0}}};
    const unsigned all = allocations_with(folded, 0, WASMPRINTER_OK);
    expect(allocations_with(folded, 1, WASMPRINTER_TOO_LONG) < all, "a limit", "number of allocations");
}

int main(int argc, char **argv) {
    const unsigned cases = check_file(argc == 2 ? argv[1] : NULL, check_case);
    check_typed_texts();
    check_limit_stops();
    printf(LANGUAGE ": %u failed allocations in %u cases, %u differences\n", failures, cases, failed);
    return failed == 0 ? 0 : 1;
}
