/* wrappers: checks the arguments that the inline functions of the header pass to the library, and their results. It defines the exported
 * functions that they call, and is linked without the library. For C99 and C++. */
#include "checked.h"
#include "expect.h"

#include <stdlib.h>

/* The arguments of a call. Their lengths differ from each other. */
enum { WASM_LEN = 4096, INDENT_LEN = 1024, OUT_LEN = 2048, LINES_LEN = 512, OMITTED_LEN = 256, LIMIT = 8192 };
static const uint32_t FLAGS = 0xffffffe5; /* known and unknown options, without WASMPRINTER_EVENTS */
static uint8_t wasm[WASM_LEN];
static uint8_t indent[INDENT_LEN];
static uint8_t omitted[OMITTED_LEN];
static char out[OUT_LEN];
static WasmprinterEvent lines[LINES_LEN];

/* The results of a call, and the bytes of a text. */
enum { LENGTH = 3, COUNT = 5, DETAIL = 7, TEXT = 'x' };

/* ---- The functions of the library */

/* A pointer with its length. */
typedef struct Part {
    const void *start;
    size_t len;
} Part;

/* The parts of a call, in the order of the arguments. */
enum { WASM, INDENT, OMITTED, OUT, LINES, PARTS };

/* The most calls that a function makes. */
enum { MOST_CALLS = 2 };

/* The arguments of the last call, and the buffers of all calls. */
static struct {
    unsigned calls;
    Part parts[PARTS];
    uint32_t flags;
    size_t limit;
    const void *result;
    Part buffers[MOST_CALLS];
} received;

/* The outcome of each call. */
static Outcome answers[MOST_CALLS];

static Part part_of(const void *start, size_t len) {
    Part part = {start, len};
    return part;
}

/* Writes as much of a text as fits. */
static void write_text(uint8_t *text, size_t room, size_t length) { memset(text, TEXT, length < room ? length : room); }

WasmprinterStatus wasmprinter_raw_print(const uint8_t *bytes, size_t bytes_len, uint32_t flags, const uint8_t *level, size_t level_len,
                                        size_t limit, const uint8_t *names, size_t names_len, uint8_t *text, size_t text_len,
                                        WasmprinterEvent *table, size_t table_len, WasmprinterResult *result) {
    const unsigned call = received.calls++ % MOST_CALLS;
    received.parts[WASM] = part_of(bytes, bytes_len);
    received.parts[INDENT] = part_of(level, level_len);
    received.parts[OMITTED] = part_of(names, names_len);
    received.parts[OUT] = received.buffers[call] = part_of(text, text_len);
    received.parts[LINES] = part_of(table, table_len);
    received.flags = flags;
    received.limit = limit;
    received.result = result;
    write_text(text, text_len, answers[call].stored.length);
    *result = answers[call].stored;
    return answers[call].status;
}

size_t wasmprinter_raw_error_text(WasmprinterStatus status, uint64_t detail, uint8_t *text, size_t text_len) {
    received.calls++;
    received.parts[OUT] = part_of(text, text_len);
    write_text(text, text_len, LENGTH);
    return status == WASMPRINTER_MALFORMED && detail == DETAIL ? LENGTH : 0;
}

/* Sets the outcomes of the next calls. */
static void answer(Outcome first, Outcome second) {
    memset(&received, 0, sizeof received);
    answers[0] = first;
    answers[1] = second;
}

/* ---- Null pointers */

/* The parts of a call that are left out, as bits: a pointer is then null. Without lengths, all lengths and the limit are 0. */
enum {
    NO_WASM = 1,
    NO_INDENT = 2,
    NO_OUT = 4,
    NO_LINES = 8,
    NO_OPTIONS = 16,
    NO_RESULT = 32,
    NO_LENGTHS = 64,
    NO_OMITTED = 128,
    COMBINATIONS = 256
};

/* Checks a part that the last call received. If a null pointer was given, the part is empty, and its pointer is not null. */
static void expect_part(int part, const void *start, size_t len, const char *function, const char *what) {
    Part got = received.parts[part];
    bool is_empty = got.start != NULL && got.len == 0;
    expect(start == NULL ? is_empty : got.start == start && got.len == len, function, what);
}

/* Checks the options that the last call received. */
static void expect_options(const WasmprinterOptions *options, const char *function) {
    if (options != NULL && options->indent.ptr != NULL) {
        expect_part(INDENT, options->indent.ptr, options->indent.len, function, "indent");
    } else {
        Part level = received.parts[INDENT];
        expect(level.len == 2 && memcmp(level.start, "  ", 2) == 0, function, "default indent");
    }
    if (options != NULL) {
        expect_part(OMITTED, options->omitted.ptr, options->omitted.len, function, "list of names");
    } else {
        expect_part(OMITTED, NULL, 0, function, "empty list of names");
    }
    expect(received.flags == (options != NULL ? options->flags : 0), function, "flags");
    expect(received.limit == (options != NULL && options->limit != 0 ? options->limit : SIZE_MAX), function, "limit");
}

/* Checks the result of the last call, and where it was stored. */
static void expect_outcome(WasmprinterStatus status, const WasmprinterResult *result, const char *function) {
    Outcome outcome = answers[0];
    expect(received.calls == 1, function, "number of calls");
    expect(status == outcome.status, function, "status");
    if (result != NULL) {
        outcome.stored = *result;
        expect(received.result == result && is_same(outcome, answers[0]), function, "result");
    } else {
        expect(received.result != NULL, function, "own result");
    }
}

/* Checks the arguments of the last call. */
static void expect_arguments(WasmprinterBytes bytes, const WasmprinterOptions *options, WasmprinterBuffer text, WasmprinterTable table,
                             const char *function) {
    expect_part(WASM, bytes.ptr, bytes.len, function, "module");
    expect_options(options, function);
    expect_part(OUT, text.ptr, text.len, function, "buffer");
    expect_part(LINES, table.ptr, table.len, function, "table");
}

/* Checks that the last call received the option for events, and takes it from the flags. */
static void expect_events(const char *function) {
    expect((received.flags & WASMPRINTER_EVENTS) != 0, function, "option for events");
    received.flags &= ~(uint32_t)WASMPRINTER_EVENTS;
}

/* Calls the three functions that print to a buffer. */
static void check_print(unsigned nulls) {
    const size_t some = nulls & NO_LENGTHS ? 0 : 1;
    const WasmprinterBytes bytes = {nulls & NO_WASM ? NULL : wasm, WASM_LEN * some};
    const WasmprinterOptions own_options = {FLAGS,
                                            {nulls & NO_INDENT ? NULL : indent, INDENT_LEN * some},
                                            LIMIT * some,
                                            {nulls & NO_OMITTED ? NULL : omitted, OMITTED_LEN * some}};
    const WasmprinterOptions *options = nulls & NO_OPTIONS ? NULL : &own_options;
    const WasmprinterBuffer text = {nulls & NO_OUT ? NULL : out, OUT_LEN * some};
    const WasmprinterTable table = {nulls & NO_LINES ? NULL : lines, LINES_LEN * some};
    const WasmprinterTable no_lines = {NULL, 0};
    WasmprinterResult own_result = no_outcome().stored;
    WasmprinterResult *result = nulls & NO_RESULT ? NULL : &own_result;
    const Outcome outcome = {WASMPRINTER_MALFORMED, {LENGTH, COUNT, DETAIL}};

    answer(outcome, outcome);
    expect_outcome(wasmprinter_print_lines(bytes, options, text, table, result), result, "print_lines");
    expect_arguments(bytes, options, text, table, "print_lines");

    answer(outcome, outcome);
    own_result = no_outcome().stored;
    expect_outcome(wasmprinter_print(bytes, options, text, result), result, "print");
    expect_arguments(bytes, options, text, no_lines, "print");

    answer(outcome, outcome);
    own_result = no_outcome().stored;
    expect_outcome(wasmprinter_print_events(bytes, options, text, table, result), result, "print_events");
    expect_events("print_events");
    expect_arguments(bytes, options, text, table, "print_events");
}

/* Calls the same functions with options that choose all events. */
static void check_events(void) {
    const WasmprinterBytes bytes = {wasm, WASM_LEN};
    const WasmprinterOptions options = {FLAGS | WASMPRINTER_EVENTS, {indent, INDENT_LEN}, LIMIT, {omitted, OMITTED_LEN}};
    const WasmprinterBuffer text = {out, OUT_LEN};
    const WasmprinterTable table = {lines, LINES_LEN}, no_lines = {NULL, 0};
    answer(no_outcome(), no_outcome());
    wasmprinter_print_lines(bytes, &options, text, table, NULL);
    expect_arguments(bytes, &options, text, table, "print_lines with the option for events");
    wasmprinter_print(bytes, &options, text, NULL);
    expect_arguments(bytes, &options, text, no_lines, "print with the option for events");
    wasmprinter_print_events(bytes, &options, text, table, NULL);
    expect_arguments(bytes, &options, text, table, "print_events with the option for events");
}

/* ---- Lists of names */

/* Adds a name to a list of `len` bytes in a buffer. `list` is the list after it, or null if nothing is written. */
static void check_add_name(size_t room, size_t len, const char *name, size_t name_len, const char *list) {
    const size_t new_len = len + 4 + name_len;
    memset(out, GUARD, sizeof out);
    expect(wasmprinter_add_name(wasmprinter_buffer(out, room), len, name, name_len) == new_len, "add_name", "length");
    if (list != NULL) {
        expect(memcmp(out + len, list, new_len - len) == 0, "add_name", "list");
    }
    expect(is_unchanged(out, 0, len) && is_unchanged(out, list != NULL ? new_len : len, sizeof out), "add_name", "bytes around the name");
    expect(wasmprinter_add_name(wasmprinter_buffer(NULL, room), len, name, name_len) == new_len, "add_name", "length for a null pointer");
}

static void check_add_names(void) {
    static char long_name[0x201], long_list[0x205] = {1, 2, 0, 0};
    check_add_name(5, 0, "a", 1, "\1\0\0\0a");
    check_add_name(6, 0, "a", 1, "\1\0\0\0a");
    check_add_name(4, 0, "a", 1, NULL);
    check_add_name(0, 0, "a", 1, NULL);
    check_add_name(14, 7, "a\0b", 3, "\3\0\0\0a\0b");
    check_add_name(13, 7, "a\0b", 3, NULL);
    check_add_name(7, 7, "a\0b", 3, NULL);
    check_add_name(4, 0, "", 0, "\0\0\0\0");
    check_add_name(4, 0, NULL, 0, "\0\0\0\0");
    check_add_name(3, 0, "", 0, NULL);
    memset(long_name, 'n', sizeof long_name);
    memset(long_list + 4, 'n', sizeof long_name);
    check_add_name(sizeof out, 1, long_name, sizeof long_name, long_list);
}

/* ---- Descriptions */

/* Writes a description to a buffer of this length. `text` is the part that fits, or null if nothing is written. */
static void check_error_text(size_t len, const char *text) {
    const size_t written = text != NULL ? strlen(text) + 1 : 0;
    answer(no_outcome(), no_outcome());
    memset(out, GUARD, sizeof out);
    size_t length = wasmprinter_error_text(WASMPRINTER_MALFORMED, DETAIL, wasmprinter_buffer(out, len));
    expect(length == LENGTH && received.calls == 1, "error_text", "length");
    expect_part(OUT, text != NULL ? out : NULL, len - 1, "error_text", "buffer");
    expect(text == NULL || memcmp(out, text, written) == 0, "error_text", "text");
    expect(is_unchanged(out, written, sizeof out), "error_text", "bytes after the text");
}

/* Passes a null pointer with this length. */
static void check_null_error_text(size_t len) {
    answer(no_outcome(), no_outcome());
    size_t length = wasmprinter_error_text(WASMPRINTER_MALFORMED, DETAIL, wasmprinter_buffer(NULL, len));
    expect(length == LENGTH && received.calls == 1, "error_text", "length for a null pointer");
    expect_part(OUT, NULL, 0, "error_text", "null pointer");
}

static void check_error_texts(void) {
    check_error_text(0, NULL);
    check_error_text(1, "");
    check_error_text(LENGTH, "xx");
    check_error_text(LENGTH + 1, "xxx");
    check_error_text(LENGTH + 2, "xxx");
    check_error_text(OUT_LEN, "xxx");
    for (size_t len = 0; len <= LENGTH + 2; len++) {
        check_null_error_text(len);
    }
}

/* ---- Allocated texts */

/* The length that the header expects of the text of this module: 32 bytes for each of its 4096 bytes, and 4096 more. And that of a longer text. */
enum { ROOM = 135168, LONG = 9 * ROOM };

/* The allocations that fail, as bits. */
enum { NONE = 0, FIRST = 1, SECOND = 2, BOTH = 3 };

/* The allocations of a call: which of them fail, their lengths, and the block that the last one returned. */
typedef struct Memory {
    unsigned failing;
    unsigned calls;
    size_t lens[MOST_CALLS];
    void *block;
} Memory;

static void *resize(void *context, void *block, size_t len) {
    Memory *memory = (Memory *)context;
    const unsigned call = memory->calls++ % MOST_CALLS;
    memory->lens[call] = len;
    expect(block == memory->block, "print_alloc", "block that is resized");
    expect(received.parts[OUT].len == 0 || received.parts[OUT].start == block, "print_alloc", "block that is printed to");
    if (memory->failing & 1u << call) {
        return NULL;
    }
    memory->block = realloc(block, len);
    return memory->block;
}

/* A call of wasmprinter_print_alloc, the outcomes of its prints, and the expected results. Unused lengths are 0. */
typedef struct Scenario {
    const char *title;
    size_t limit;     /* the limit of the options, 0 for none */
    Outcome first;    /* the outcome of the first print */
    Outcome second;   /* the outcome of the second print, if there is one */
    unsigned failing; /* the allocations that fail */
    unsigned allocations;
    size_t lens[MOST_CALLS]; /* the lengths of the allocations */
    unsigned prints;
    size_t rooms[MOST_CALLS]; /* the lengths of the buffers that are printed to */
    Outcome outcome;          /* the outcome of the call */
} Scenario;

/* The outcomes of prints and of calls. */
#define PRINTED(length) {WASMPRINTER_OK, {length, COUNT, 0}}
#define REFUSED {WASMPRINTER_DYLINK_SUBSECTION, {0, 0, DETAIL}}
#define TOO_LONG {WASMPRINTER_TOO_LONG, {0, 0, 0}}
#define OUT_OF_MEMORY {WASMPRINTER_MEMORY, {0, 0, 0}}
#define NOT_PRINTED {GUARD, {GUARD, GUARD, GUARD}}

static const Scenario SCENARIOS[] = {
    {"short", 0, PRINTED(LENGTH), NOT_PRINTED, NONE, 1, {ROOM + 1, 0}, 1, {ROOM, 0}, PRINTED(LENGTH)},
    {"as long as expected", 0, PRINTED(ROOM), NOT_PRINTED, NONE, 1, {ROOM + 1, 0}, 1, {ROOM, 0}, PRINTED(ROOM)},
    {"a byte longer", 0, PRINTED(ROOM + 1), PRINTED(ROOM + 1), NONE, 2, {ROOM + 1, ROOM + 2}, 2, {ROOM, ROOM + 1}, PRINTED(ROOM + 1)},
    {"much longer", 0, PRINTED(LONG), PRINTED(LONG), NONE, 2, {ROOM + 1, LONG + 1}, 2, {ROOM, LONG}, PRINTED(LONG)},
    {"24 bytes for each byte", 0, PRINTED(98304), NOT_PRINTED, NONE, 1, {135169, 0}, 1, {135168, 0}, PRINTED(98304)},
    {"48 bytes for each byte", 0, PRINTED(196608), PRINTED(196608), NONE, 2, {135169, 196609}, 2, {135168, 196608}, PRINTED(196608)},
    {"measured", 0, PRINTED(LENGTH), PRINTED(LENGTH), FIRST, 2, {ROOM + 1, LENGTH + 1}, 2, {0, LENGTH}, PRINTED(LENGTH)},
    {"measured, a long one", 0, PRINTED(LONG), PRINTED(LONG), FIRST, 2, {ROOM + 1, LONG + 1}, 2, {0, LONG}, PRINTED(LONG)},
    {"not reallocated", 0, PRINTED(ROOM + 1), NOT_PRINTED, SECOND, 2, {ROOM + 1, ROOM + 2}, 1, {ROOM, 0}, OUT_OF_MEMORY},
    {"not allocated", 0, PRINTED(LENGTH), NOT_PRINTED, BOTH, 2, {ROOM + 1, LENGTH + 1}, 1, {0, 0}, OUT_OF_MEMORY},
    {"too long for memory", 0, PRINTED(SIZE_MAX - 1), NOT_PRINTED, SECOND, 2, {ROOM + 1, SIZE_MAX}, 1, {ROOM, 0}, OUT_OF_MEMORY},
    {"too long for its zero byte", 0, PRINTED(SIZE_MAX), NOT_PRINTED, NONE, 1, {ROOM + 1, 0}, 1, {ROOM, 0}, OUT_OF_MEMORY},
    {"the same, measured", 0, PRINTED(SIZE_MAX), NOT_PRINTED, FIRST, 1, {ROOM + 1, 0}, 1, {0, 0}, OUT_OF_MEMORY},
    {"refused", 0, REFUSED, NOT_PRINTED, NONE, 1, {ROOM + 1, 0}, 1, {ROOM, 0}, REFUSED},
    {"refused when measured", 0, REFUSED, NOT_PRINTED, FIRST, 1, {ROOM + 1, 0}, 1, {0, 0}, REFUSED},
    {"refused at last", 0, PRINTED(ROOM + 1), REFUSED, NONE, 2, {ROOM + 1, ROOM + 2}, 2, {ROOM, ROOM + 1}, REFUSED},
    {"limited", LENGTH, PRINTED(LENGTH), NOT_PRINTED, NONE, 1, {LENGTH + 1, 0}, 1, {LENGTH, 0}, PRINTED(LENGTH)},
    {"limited to a byte", 1, TOO_LONG, NOT_PRINTED, NONE, 1, {2, 0}, 1, {1, 0}, TOO_LONG},
    {"limited, not reallocated", LONG, PRINTED(LONG), NOT_PRINTED, SECOND, 2, {ROOM + 1, LONG + 1}, 1, {ROOM, 0}, OUT_OF_MEMORY},
    {"limited, measured", LONG, PRINTED(LONG), PRINTED(LONG), FIRST, 2, {ROOM + 1, LONG + 1}, 2, {0, LONG}, PRINTED(LONG)},
    {"limited to less, measured", ROOM - 1, PRINTED(LENGTH), PRINTED(LENGTH), FIRST, 2, {ROOM, LENGTH + 1}, 2, {0, LENGTH}, PRINTED(LENGTH)},
    {"too long when measured", ROOM - 1, TOO_LONG, NOT_PRINTED, FIRST, 1, {ROOM, 0}, 1, {0, 0}, TOO_LONG},
    {"limited to the expected length", ROOM, PRINTED(ROOM), NOT_PRINTED, NONE, 1, {ROOM + 1, 0}, 1, {ROOM, 0}, PRINTED(ROOM)},
    {"limited to a byte more", ROOM + 1, PRINTED(ROOM + 1), PRINTED(ROOM + 1), NONE, 2, {ROOM + 1, ROOM + 2}, 2, {ROOM, ROOM + 1}, PRINTED(ROOM + 1)},
    {"too long for a high limit", LONG, TOO_LONG, NOT_PRINTED, NONE, 1, {ROOM + 1, 0}, 1, {ROOM, 0}, TOO_LONG},
    {"the greatest limit", SIZE_MAX, PRINTED(LENGTH), NOT_PRINTED, NONE, 1, {ROOM + 1, 0}, 1, {ROOM, 0}, PRINTED(LENGTH)},
};

/* Ways to make the call of a scenario, as bits. */
enum { WITHOUT_RESIZE = 1, WITHOUT_BLOCK = 2, WITHOUT_OPTIONS = 4, WITHOUT_RESULT = 8, WAYS = 16 };

/* Checks the prints, and the arguments of the last one. */
static void expect_prints(const Scenario *scenario, const WasmprinterOptions *options) {
    expect(received.calls == scenario->prints, scenario->title, "number of prints");
    for (unsigned i = 0; i < scenario->prints; i++) {
        expect(received.buffers[i].start != NULL && received.buffers[i].len == scenario->rooms[i], scenario->title, "buffer");
    }
    expect_part(WASM, wasm, WASM_LEN, scenario->title, "module");
    expect_options(options, scenario->title);
    expect_part(LINES, NULL, 0, scenario->title, "table");
}

static void expect_allocations(const Scenario *scenario, const Memory *memory) {
    expect(memory->calls == scenario->allocations, scenario->title, "number of allocations");
    for (unsigned i = 0; i < scenario->allocations; i++) {
        expect(memory->lens[i] == scenario->lens[i], scenario->title, "length of an allocation");
    }
}

/* Checks the text of a printed module, or that there is none after an error. */
static void expect_text(const Scenario *scenario, WasmprinterBuffer text) {
    if (scenario->outcome.status != WASMPRINTER_OK) {
        expect(text.len == 0, scenario->title, "length after an error");
        expect(text.ptr == NULL || text.ptr[0] == '\0', scenario->title, "bytes after an error");
        return;
    }
    expect(text.ptr == received.parts[OUT].start && text.len == scenario->outcome.stored.length, scenario->title, "text");
    expect(strlen(text.ptr) == text.len && text.ptr[0] == TEXT && text.ptr[text.len - 1] == TEXT, scenario->title, "bytes of the text");
}

/* Makes the call of a scenario, and checks it. Options are left out only if there is no limit. */
static void check_scenario(const Scenario *scenario, unsigned way) {
    const WasmprinterOptions own_options = {FLAGS, {indent, INDENT_LEN}, scenario->limit, {omitted, OMITTED_LEN}};
    const WasmprinterOptions *options = way & WITHOUT_OPTIONS && scenario->limit == 0 ? NULL : &own_options;
    Memory memory = {scenario->failing, 0, {0, 0}, way & WITHOUT_BLOCK ? NULL : malloc(LENGTH)};
    WasmprinterBuffer text = {(char *)memory.block, GUARD};
    Outcome outcome = no_outcome();

    answer(scenario->first, scenario->second);
    outcome.status = wasmprinter_print_alloc(wasmprinter_bytes(wasm, WASM_LEN), options, way & WITHOUT_RESIZE ? NULL : resize,
                                             way & WITHOUT_RESIZE ? NULL : &memory, &text, way & WITHOUT_RESULT ? NULL : &outcome.stored);
    expect(outcome.status == scenario->outcome.status, scenario->title, "status");
    expect(way & WITHOUT_RESULT || is_same(outcome, scenario->outcome), scenario->title, "outcome");
    expect_prints(scenario, options);
    expect_text(scenario, text);
    if (!(way & WITHOUT_RESIZE)) {
        expect_allocations(scenario, &memory);
        expect(text.ptr == memory.block, scenario->title, "block");
    }
    free(text.ptr);
}

/* Makes the call of each scenario in each way. `realloc` itself is used only where no allocation fails. Returns the number of calls. */
static unsigned check_scenarios(void) {
    unsigned calls = 0;
    for (size_t i = 0; i < sizeof SCENARIOS / sizeof SCENARIOS[0]; i++) {
        for (unsigned way = 0; way < WAYS; way++) {
            if (SCENARIOS[i].failing == NONE || !(way & WITHOUT_RESIZE)) {
                check_scenario(&SCENARIOS[i], way);
                calls++;
            }
        }
    }
    return calls;
}

/* Checks the expected length of the text of a module. */
static void check_room(const void *bytes, size_t len, size_t room) {
    Memory memory = {BOTH, 0, {0, 0}, NULL};
    WasmprinterBuffer text = {NULL, 0};
    const Outcome printed = PRINTED(LENGTH);
    answer(printed, no_outcome());
    wasmprinter_print_alloc(wasmprinter_bytes(bytes, len), NULL, resize, &memory, &text, NULL);
    expect(memory.lens[0] == room + 1, "print_alloc", "expected length");
}

/* Checks the expected lengths of texts, also of modules whose expected length a size_t can't hold. */
static void check_rooms(void) {
    const size_t too_long = SIZE_MAX / 64;
    check_room(NULL, WASM_LEN, 4096);
    check_room(wasm, 0, 4096);
    check_room(wasm, 1, 4128);
    check_room(wasm, 14000000, 448004096);
    check_room(wasm, too_long - 1, (too_long - 1) * 32 + 4096);
    check_room(wasm, too_long, 4096);
    check_room(wasm, SIZE_MAX, 4096);
}

int main(void) {
    for (unsigned nulls = 0; nulls < COMBINATIONS; nulls++) {
        check_print(nulls);
    }
    check_events();
    check_add_names();
    check_error_texts();
    unsigned calls = check_scenarios();
    check_rooms();
    printf(LANGUAGE ": %d combinations of null pointers, %u allocated texts, %u differences\n", COMBINATIONS, calls, failed);
    return failed == 0 ? 0 : 1;
}
