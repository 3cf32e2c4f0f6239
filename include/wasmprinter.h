/* wasmprinter.h: prints WebAssembly modules, from the binary format to the text format. For C99 and C++.
 *
 * Release 0.263.0-r1. Link libwasmprinter.so.1, for which `pkg-config wasmprinter` names the flags, or libwasmprinter.a (tools/install.sh
 * installs both). Both need a processor with the instructions of x86-64-v2, and Linux with glibc.
 *
 * Every length is a number of bytes, unless stated otherwise. No object that is passed has more than PTRDIFF_MAX bytes. Every place is a byte
 * offset from the start of the module. Texts are not null-terminated, unless stated otherwise.
 *
 * Threads: no function keeps state between calls, and none takes a lock of its own. Any number of threads may call any of them at the same
 * time, on buffers of their own. Threads may share the input of a call, as long as no thread writes to it.
 * Do not call a function from a signal handler, or in the forked child of a process with threads.
 *
 * Memory: the caller owns every buffer, and no function keeps a pointer after it returns. The functions that print
 * allocate with `malloc` and `realloc`, and free their blocks before they return, except the block of wasmprinter_print_alloc. They write the
 * text to the caller's buffer while they print. When operators are folded, they first collect the text of a list of operators, as that of a
 * body, in memory that they allocate.
 *
 * Pointers: if the `ptr` of a module, a list of names, a buffer or a table is null, it counts as empty, whatever its `len` is. `options`,
 * the `ptr` of an indent, `result`, `resize`, `context` and a name of length 0 may be null too. No other pointer may be null, and no pointer that is
 * passed to a function whose name starts with `wasmprinter_raw_`. An object that a function writes to must not overlap any other object that
 * is passed to it, nor the block of wasmprinter_print_alloc. */
#ifndef WASMPRINTER_H
#define WASMPRINTER_H

#include <stddef.h>
#include <stdint.h>
#include <stdlib.h>

#ifdef __cplusplus
extern "C" {
#endif

#ifdef __cplusplus
#define WASMPRINTER_INLINE inline
#else
#define WASMPRINTER_INLINE static inline
#endif
#if defined(__GNUC__)
#define WASMPRINTER_NONNULL __attribute__((nonnull))
#define WASMPRINTER_NONNULL_TEXT __attribute__((nonnull(5)))
#else
#define WASMPRINTER_NONNULL
#define WASMPRINTER_NONNULL_TEXT
#endif

/* The release that this header describes, as wasmprinter_version() and wasmprinter_revision() return it: 0.263.0-r1. */
#define WASMPRINTER_VERSION 263000
#define WASMPRINTER_REVISION 1

/* Input bytes, or a text in UTF-8 that is input. */
typedef struct WasmprinterBytes {
    const void *ptr;
    size_t len;
} WasmprinterBytes;

/* A buffer for text. */
typedef struct WasmprinterBuffer {
    char *ptr;
    size_t len;
} WasmprinterBuffer;

/* The options of printing, as bits of WasmprinterOptions.flags. */
enum {
    WASMPRINTER_OFFSETS = 1,      /* begin each line after the first with its place, or with spaces if it has none */
    WASMPRINTER_SKELETON = 2,     /* leave out bodies, items of element segments, and bytes of data segments and (@custom ..) */
    WASMPRINTER_NAME_UNNAMED = 4, /* synthesize identifiers for items and labels without a name */
    WASMPRINTER_FOLD = 8,         /* put operators in parentheses, around operands */
    WASMPRINTER_EVENTS = 16       /* fill the table with all events, not only with the starts of lines */
};

/* The options of printing. Initialise every field: `WasmprinterOptions options = {0};` is the default in C, `= {}` in C++. */
typedef struct WasmprinterOptions {
    uint32_t flags;          /* the sum of WASMPRINTER_OFFSETS and the others */
    WasmprinterBytes indent; /* the text of one level of nesting, in UTF-8; two spaces if `ptr` is null */
    size_t limit;            /* the greatest length of the text in bytes; 0: no limit */
    /* A list of the names of custom sections to leave out, as wasmprinter_add_name makes it. If it is empty, none is left out. Names are equal
     * if their bytes are. The names in a section `name` and the hints in a section `metadata.code.branch_hint` apply even if it is left out.
     * For each custom section the list is searched from its start, so the time of a call can grow with the number of custom sections times
     * the length of the list. */
    WasmprinterBytes omitted;
} WasmprinterOptions;

/* The statuses. Each error stores a detail, which is 0 unless stated otherwise. */
typedef uint32_t WasmprinterStatus;
enum {
    WASMPRINTER_OK = 0,
    WASMPRINTER_MALFORMED = 1,          /* not in the binary format; detail: a place, see below */
    WASMPRINTER_COMPONENT = 2,          /* a component, not a module */
    WASMPRINTER_TOO_MANY_LOCALS = 3,    /* more than 50,000 locals in a function; detail: the place of its body */
    WASMPRINTER_TOO_MANY_FUNCTIONS = 4, /* more than 1,000,000 functions that are not imported; detail: their number */
    WASMPRINTER_EMPTY_TABLE_INIT = 5,   /* a table whose initialiser has no operators; detail: the place of the table */
    WASMPRINTER_FOLD_LEGACY = 6,        /* only with WASMPRINTER_FOLD: a try, catch, catch_all or delegate; detail: its place */
    WASMPRINTER_FOLD_HINT = 7,          /* only with WASMPRINTER_FOLD: a branch hint that has no position in folded text; detail: its place */
    WASMPRINTER_DYLINK_SUBSECTION = 8,  /* an unknown subsection of a `dylink.0` that is not left out; detail: the id of the first */
    WASMPRINTER_UNREADABLE = 9,         /* never returned: no function reads a file */
    WASMPRINTER_TOO_LONG = 10,          /* the text is longer than the limit or, without a limit, than SIZE_MAX */
    WASMPRINTER_MEMORY = 11,            /* an allocation failed */
    WASMPRINTER_INVALID_INDENT = 12,    /* the indent is not UTF-8 */
    WASMPRINTER_UNKNOWN_OPTION = 13,    /* the flags have bits that this library does not know; detail: these bits */
    WASMPRINTER_INVALID_LIST = 14       /* the list of names is cut off; detail: the byte offset in it of the length of the name that is cut off */
};

/* The place of WASMPRINTER_MALFORMED is that of an unexpected byte or number (any one of several), or of bytes whose encoded length exceeds
 * the bytes that remain. In these cases it is another place:
 * - A number has too many bits or bytes: its last allowed byte.
 * - A byte or number is missing: the end of the body, of the section or of the module.
 * - A float, a vector or a list of lanes is cut off: its first byte.
 * - An opcode after a prefix is undefined: the prefix.
 * - The preamble is another one or is cut off: 0.
 * - A name is not UTF-8: the first byte of its length.
 * - Two sections disagree about a count: the end of the module. */

/* What a call that prints stores. */
typedef struct WasmprinterResult {
    size_t length;   /* the length of the whole text, or 0 after an error */
    size_t count;    /* the number of lines of the whole text, with WASMPRINTER_EVENTS of all its events, or 0 after an error */
    uint64_t detail; /* the detail of an error, or 0 */
} WasmprinterResult;

/* The kinds of events. A later release may add kinds: ignore events of unknown kinds.
 *
 * A line ends where the next one starts, or at the end of the text. Its last byte is a line feed. Line feeds of the indent start no line.
 * A style lasts until the next style event, one of the kinds WASMPRINTER_NAME to WASMPRINTER_RESET. WASMPRINTER_RESET does not bring back an
 * earlier style. With WASMPRINTER_FOLD the only style events inside the text of a folded operator are those of the places of its lines. An
 * offset or item of a segment that is a single operator is not folded. */
enum {
    WASMPRINTER_LINE = 0,          /* a line without a place starts */
    WASMPRINTER_LINE_AT_PLACE = 1, /* a line with a place starts */
    WASMPRINTER_NAME = 2,          /* the style of names and indices starts */
    WASMPRINTER_LITERAL = 3,       /* the style of numbers and strings starts */
    WASMPRINTER_KEYWORD = 4,       /* the style of keywords starts */
    WASMPRINTER_TYPE = 5,          /* the style of types starts */
    WASMPRINTER_COMMENT = 6,       /* the style of comments starts */
    WASMPRINTER_RESET = 7,         /* the style ends */
    WASMPRINTER_CUSTOM_SECTION = 8 /* a custom section, printed, left out or not shown; `start` is before a line feed or the last parenthesis */
};

/* An event of the text. The events are in the order of printing: no `start` is less than the one before, and several can be equal. */
typedef struct WasmprinterEvent {
    size_t start;   /* the byte offset of the event from the start of the text */
    uint64_t place; /* of a line with a place: its place; of a custom section: the place of its data; otherwise 0 */
    uint32_t kind;  /* WASMPRINTER_LINE or another kind */
} WasmprinterEvent;

/* A table for the events of a text. */
typedef struct WasmprinterTable {
    WasmprinterEvent *ptr;
    size_t len; /* the capacity in events */
} WasmprinterTable;

/* ---- The exported functions. To print, the inline functions after them are easier to call. */

/* Prints a module, as wasmprinter_print_lines does. `flags` are the options, and `table` has room for `table_len` lines or events. `limit` is the
 * greatest length of the text, and SIZE_MAX means no limit. With limit 0 every module that would be printed gives WASMPRINTER_TOO_LONG.
 * `omitted` is the list of names: each is preceded by its length as four bytes, the lowest first. No pointer may be null, even if its length
 * is 0. */
WASMPRINTER_NONNULL WasmprinterStatus wasmprinter_raw_print(const uint8_t *wasm, size_t wasm_len, uint32_t flags, const uint8_t *indent,
                                                            size_t indent_len, size_t limit, const uint8_t *omitted, size_t omitted_len,
                                                            uint8_t *out, size_t out_len, WasmprinterEvent *table, size_t table_len,
                                                            WasmprinterResult *result);

/* Writes the description of a status with its detail to `out`: as many of its first bytes as fit. Returns the length of the whole
 * description. `out` may not be null. Allocates nothing. */
WASMPRINTER_NONNULL size_t wasmprinter_raw_error_text(WasmprinterStatus status, uint64_t detail, uint8_t *out, size_t out_len);

/* Returns the version of the library: the major number times 1,000,000, plus the minor number times 1,000, plus the patch number.
 * Allocates nothing. */
uint32_t wasmprinter_version(void);

/* Returns the number N of the release 0.263.0-rN. Allocates nothing. */
uint32_t wasmprinter_revision(void);

/* ---- Printing */

/* Returns input of this length. */
WASMPRINTER_INLINE WasmprinterBytes wasmprinter_bytes(const void *ptr, size_t len) {
    WasmprinterBytes bytes;
    bytes.ptr = ptr;
    bytes.len = len;
    return bytes;
}

/* Returns a buffer of this length. */
WASMPRINTER_INLINE WasmprinterBuffer wasmprinter_buffer(char *ptr, size_t len) {
    WasmprinterBuffer buffer;
    buffer.ptr = ptr;
    buffer.len = len;
    return buffer;
}

/* Adds a name to a list of names for WasmprinterOptions.omitted. The list is the first `len` bytes of `list`, none at first. Returns its new
 * length. If that is greater than list.len, nothing is written. A name has at most UINT32_MAX bytes. */
WASMPRINTER_INLINE size_t wasmprinter_add_name(WasmprinterBuffer list, size_t len, const char *name, size_t name_len) {
    const size_t new_len = len + 4 + name_len;
    size_t i;
    if (list.ptr != NULL && new_len <= list.len) {
        for (i = 0; i < 4; i++) {
            list.ptr[len + i] = (char)(name_len >> (8 * i) & 0xff);
        }
        for (i = 0; i < name_len; i++) {
            list.ptr[len + 4 + i] = name[i];
        }
    }
    return new_len;
}

/* Prints the text of a module to `out`, as snprintf does: writes as many of the first bytes of the text as fit, and stores the length of
 * the whole text. The text is truncated if result->length > out.len. With an empty `out` the text is only measured,
 * also if out.ptr is null and result->length <= out.len. Writes a table of the starts of the lines to `lines`: as many of the first lines as fit,
 * none if lines.ptr is null. With WASMPRINTER_EVENTS it does the same with all events. What follows the text in `out` and the last entry in
 * `lines` is unchanged.
 *
 * wasm     the bytes of the module; any bytes are allowed
 * options  the options of printing, or null for the default
 * result   receives the lengths and the detail; may be null
 *
 * Returns WASMPRINTER_OK or the number of an error. If several errors apply, WASMPRINTER_UNKNOWN_OPTION is returned first, then
 * WASMPRINTER_COMPONENT, then WASMPRINTER_INVALID_INDENT, then WASMPRINTER_INVALID_LIST, then any other. After
 * WASMPRINTER_DYLINK_SUBSECTION, WASMPRINTER_TOO_LONG and, with WASMPRINTER_FOLD, WASMPRINTER_MEMORY, `out` may hold a prefix of the text,
 * which is not longer than the limit; the bytes after the prefix are unchanged. After any other error `out` is unchanged. After
 * WASMPRINTER_UNKNOWN_OPTION, WASMPRINTER_INVALID_INDENT and WASMPRINTER_INVALID_LIST `lines` is unchanged too. After any other error its
 * entries are not specified.
 *
 * The limit and out.len are independent. A text that is not longer than the limit is printed as without a limit. For any other text,
 * WASMPRINTER_TOO_LONG is returned, and no byte after the limit is written. The whole module is decoded before printing starts,
 * so the errors after which `out` is unchanged do not depend on the limit. With WASMPRINTER_FOLD the text of one list of operators
 * is collected before it is written, so the limit does not bound this memory.
 *
 * With an indent of spaces and tabs the text consists of printable ASCII characters, tabs and line feeds. If also
 * WASMPRINTER_SKELETON is not chosen, no custom section is left out, and every index that the module uses is declared and names an item of the
 * right kind, the text reads back as the module (docs/GUARANTEES.md of the repository says what that means). */
WASMPRINTER_INLINE WasmprinterStatus wasmprinter_print_lines(WasmprinterBytes wasm, const WasmprinterOptions *options, WasmprinterBuffer out,
                                                        WasmprinterTable lines, WasmprinterResult *result) {
    static const uint8_t default_indent[2] = {' ', ' '};
    uint8_t no_bytes[1] = {0};
    WasmprinterEvent no_lines[1] = {{0, 0, 0}};
    WasmprinterResult own_result = {0, 0, 0};
    WasmprinterBytes indent = wasmprinter_bytes(default_indent, sizeof default_indent);
    WasmprinterBytes omitted = wasmprinter_bytes(no_bytes, 0);
    void *text = out.ptr;
    size_t limit = SIZE_MAX;
    uint32_t flags = 0;
    if (options != NULL) {
        flags = options->flags;
        limit = options->limit != 0 ? options->limit : SIZE_MAX;
        indent = options->indent.ptr != NULL ? options->indent : indent;
        omitted = options->omitted.ptr != NULL ? options->omitted : omitted;
    }
    if (wasm.ptr == NULL) {
        wasm = wasmprinter_bytes(no_bytes, 0);
    }
    if (text == NULL) {
        text = no_bytes;
        out.len = 0;
    }
    if (lines.ptr == NULL) {
        lines.ptr = no_lines;
        lines.len = 0;
    }
#ifdef __cplusplus
    return wasmprinter_raw_print(static_cast<const uint8_t *>(wasm.ptr), wasm.len, flags, static_cast<const uint8_t *>(indent.ptr), indent.len,
                                 limit, static_cast<const uint8_t *>(omitted.ptr), omitted.len, static_cast<uint8_t *>(text), out.len,
                                 lines.ptr, lines.len, result != NULL ? result : &own_result);
#else
    return wasmprinter_raw_print(wasm.ptr, wasm.len, flags, indent.ptr, indent.len, limit, omitted.ptr, omitted.len, text, out.len, lines.ptr,
                                 lines.len, result != NULL ? result : &own_result);
#endif
}

/* Does the same as wasmprinter_print_lines, without a table of the lines. */
WASMPRINTER_INLINE WasmprinterStatus wasmprinter_print(WasmprinterBytes wasm, const WasmprinterOptions *options, WasmprinterBuffer out,
                                                  WasmprinterResult *result) {
    WasmprinterTable no_lines;
    no_lines.ptr = NULL;
    no_lines.len = 0;
    return wasmprinter_print_lines(wasm, options, out, no_lines, result);
}

/* Does the same as wasmprinter_print_lines with WASMPRINTER_EVENTS, whether `options` has this flag or not. */
WASMPRINTER_INLINE WasmprinterStatus wasmprinter_print_events(WasmprinterBytes wasm, const WasmprinterOptions *options, WasmprinterBuffer out,
                                                         WasmprinterTable events, WasmprinterResult *result) {
    WasmprinterOptions chosen;
    if (options != NULL) {
        chosen = *options;
    } else {
        chosen.flags = 0;
        chosen.indent = wasmprinter_bytes(NULL, 0);
        chosen.limit = 0;
        chosen.omitted = wasmprinter_bytes(NULL, 0);
    }
    chosen.flags |= WASMPRINTER_EVENTS;
    return wasmprinter_print_lines(wasm, &chosen, out, events, result);
}

/* Changes the length of a block, as realloc does: `block` may be null, and null is returned if memory is missing. `len` is not 0. */
typedef void *(*WasmprinterResize)(void *context, void *block, size_t len);

/* Prints the text of a module to memory from `resize`, and stores it in `text`. The text ends with a zero byte, which text->len does not
 * count. The first block has room for 32 bytes of text for each byte of the module, and for 4096 more. Nearly every text fits into it. A longer
 * text is printed again, to a longer block.
 *
 * `resize` is called with `context` and, if there is a limit, with a length of at most options->limit + 1. If it returns null for the first block,
 * the text is measured, and `resize` is called again. If `resize` is null, realloc is used, and the caller frees text->ptr with free.
 *
 * text->ptr must be null, or a block of an earlier call with the same `resize` and `context`, which is used again. After an error text->ptr holds
 * the block, if there is one, as an empty string, and text->len is 0. So the caller frees text->ptr in any case. The block is not shortened to
 * the text. */
WASMPRINTER_NONNULL_TEXT
WASMPRINTER_INLINE WasmprinterStatus wasmprinter_print_alloc(WasmprinterBytes wasm, const WasmprinterOptions *options, WasmprinterResize resize,
                                                        void *context, WasmprinterBuffer *text, WasmprinterResult *result) {
    /* Pages of a block that are not written to take no memory, so room that is not needed costs little. */
    const size_t expected = 32, least = 4096;
    WasmprinterResult own_result = {0, 0, 0};
    size_t room = wasm.ptr != NULL && wasm.len < SIZE_MAX / (2 * expected) ? wasm.len * expected + least : least;
    int is_measured = 0;
    if (options != NULL && options->limit != 0 && options->limit < room) {
        room = options->limit;
    }
    if (result == NULL) {
        result = &own_result;
    }
    text->len = 0;
    for (;;) {
        WasmprinterStatus status;
        void *block = NULL;
        if (room < SIZE_MAX) {
            block = resize != NULL ? resize(context, text->ptr, room + 1) : realloc(text->ptr, room + 1);
        }
        if (block == NULL && is_measured) {
            if (text->ptr != NULL) {
                text->ptr[0] = '\0';
            }
            result->length = 0;
            result->count = 0;
            result->detail = 0;
            return WASMPRINTER_MEMORY;
        }
        if (block != NULL) {
#ifdef __cplusplus
            text->ptr = static_cast<char *>(block);
#else
            text->ptr = block;
#endif
        }
        /* Without a block this only measures. */
        status = wasmprinter_print(wasm, options, wasmprinter_buffer(text->ptr, block != NULL ? room : 0), result);
        if (status != WASMPRINTER_OK) {
            if (text->ptr != NULL) {
                text->ptr[0] = '\0';
            }
            return status;
        }
        if (block != NULL && result->length <= room) {
            text->len = result->length;
            text->ptr[text->len] = '\0';
            return WASMPRINTER_OK;
        }
        room = result->length;
        is_measured = 1;
    }
}

/* ---- Errors */

/* The description of a status has at most this length, without the zero byte at its end. */
#define WASMPRINTER_ERROR_TEXT_LEN 200

/* Writes the description of a status with its detail to `out`, in English and ASCII, such as `malformed module at byte 0x1f`. As snprintf
 * does, it writes at most out.len - 1 of its first bytes and a zero byte, nothing if `out` is empty, and returns the length of the whole
 * description. The description of a status greater than 14 is `unknown status`. Allocates nothing. */
WASMPRINTER_INLINE size_t wasmprinter_error_text(WasmprinterStatus status, uint64_t detail, WasmprinterBuffer out) {
    uint8_t no_text[1] = {0};
    void *text = out.ptr;
    size_t room = 0, length;
    if (text == NULL || out.len == 0) {
        text = no_text;
    } else {
        room = out.len - 1;
    }
#ifdef __cplusplus
    length = wasmprinter_raw_error_text(status, detail, static_cast<uint8_t *>(text), room);
#else
    length = wasmprinter_raw_error_text(status, detail, text, room);
#endif
    if (text != no_text) {
        out.ptr[length < room ? length : room] = '\0';
    }
    return length;
}

/* Returns a name for the status, null-terminated, such as `malformed module`. */
WASMPRINTER_INLINE const char *wasmprinter_status_name(WasmprinterStatus status) {
    switch (status) {
    case WASMPRINTER_OK: return "success";
    case WASMPRINTER_MALFORMED: return "malformed module";
    case WASMPRINTER_COMPONENT: return "component";
    case WASMPRINTER_TOO_MANY_LOCALS: return "too many locals";
    case WASMPRINTER_TOO_MANY_FUNCTIONS: return "too many functions";
    case WASMPRINTER_EMPTY_TABLE_INIT: return "empty initialiser of a table";
    case WASMPRINTER_FOLD_LEGACY: return "legacy exception operator can't be folded";
    case WASMPRINTER_FOLD_HINT: return "branch hint can't be folded";
    case WASMPRINTER_DYLINK_SUBSECTION: return "unknown dylink.0 subsection";
    case WASMPRINTER_UNREADABLE: return "unreadable file";
    case WASMPRINTER_TOO_LONG: return "text too long";
    case WASMPRINTER_MEMORY: return "out of memory";
    case WASMPRINTER_INVALID_INDENT: return "indent is not UTF-8";
    case WASMPRINTER_UNKNOWN_OPTION: return "unknown options";
    case WASMPRINTER_INVALID_LIST: return "list of names is cut off";
    default: return "unknown status";
    }
}

#ifdef __cplusplus
}
#endif

#endif
