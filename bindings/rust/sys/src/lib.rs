//! Declarations of the proved library `libwasmprinter`, which prints WebAssembly modules in the text format.
//!
//! The crate `wasmprinter-proved` has safe functions for Rust. This crate has the constants and the exported functions of `wasmprinter.h`, and the
//! two records that these functions take, with its names. Every length is a number of bytes, at most `isize::MAX`, unless stated otherwise. Every
//! place is a byte offset from the start of the module.
//!
//! The build script links `libwasmprinter.a` from the folder that the environment variable `WASMPRINTER_LIB` names, or that
//! `pkg-config wasmprinter` names. Without both, `cargo check` and `cargo doc` work, but no program can be linked.
#![no_std]
#![deny(missing_docs)]

/// The release that this crate describes, as [`wasmprinter_version`] returns it.
pub const WASMPRINTER_VERSION: u32 = 263_000;

/// The release that this crate describes, as [`wasmprinter_revision`] returns it.
pub const WASMPRINTER_REVISION: u32 = 1;

/// A bit of the flags: begin each line after the first with its place.
pub const WASMPRINTER_OFFSETS: u32 = 1;

/// A bit of the flags: leave out bodies, items of element segments, and bytes of data segments and `(@custom ..)`.
pub const WASMPRINTER_SKELETON: u32 = 2;

/// A bit of the flags: synthesize identifiers for items and labels without a name.
pub const WASMPRINTER_NAME_UNNAMED: u32 = 4;

/// A bit of the flags: put each operator in parentheses with its operands.
pub const WASMPRINTER_FOLD: u32 = 8;

/// A bit of the flags: fill the table with all events, not only with the starts of lines.
pub const WASMPRINTER_EVENTS: u32 = 16;

/// A status: 0, or the number of an error. Each error stores a detail, which is 0 unless stated otherwise.
pub type WasmprinterStatus = u32;

/// The module was printed.
pub const WASMPRINTER_OK: WasmprinterStatus = 0;

/// The bytes are not in the binary format. The detail is a place, as `wasmprinter.h` describes it.
pub const WASMPRINTER_MALFORMED: WasmprinterStatus = 1;

/// The bytes are marked as a component.
pub const WASMPRINTER_COMPONENT: WasmprinterStatus = 2;

/// A function has more than 50,000 locals. The detail is the place of its body.
pub const WASMPRINTER_TOO_MANY_LOCALS: WasmprinterStatus = 3;

/// The module defines more than 1,000,000 functions. The detail is their number.
pub const WASMPRINTER_TOO_MANY_FUNCTIONS: WasmprinterStatus = 4;

/// The initialiser of a table has no operators. The detail is the place of the table.
pub const WASMPRINTER_EMPTY_TABLE_INIT: WasmprinterStatus = 5;

/// Only with [`WASMPRINTER_FOLD`]: the module has a `try`, `catch`, `catch_all` or `delegate`. The detail is its place.
pub const WASMPRINTER_FOLD_LEGACY: WasmprinterStatus = 6;

/// Only with [`WASMPRINTER_FOLD`]: a branch hint has no position in folded text. The detail is its place.
pub const WASMPRINTER_FOLD_HINT: WasmprinterStatus = 7;

/// A section `dylink.0` that is not left out has an unknown subsection. The detail is the id of the first one.
pub const WASMPRINTER_DYLINK_SUBSECTION: WasmprinterStatus = 8;

/// The file can't be read. Never returned: no function reads a file.
pub const WASMPRINTER_UNREADABLE: WasmprinterStatus = 9;

/// The text is longer than the limit or, without a limit, than `usize::MAX`.
pub const WASMPRINTER_TOO_LONG: WasmprinterStatus = 10;

/// An allocation failed.
pub const WASMPRINTER_MEMORY: WasmprinterStatus = 11;

/// The indent is not UTF-8.
pub const WASMPRINTER_INVALID_INDENT: WasmprinterStatus = 12;

/// The flags have bits that the library does not know. The detail is these bits.
pub const WASMPRINTER_UNKNOWN_OPTION: WasmprinterStatus = 13;

/// The list of names is cut off. The detail is the byte offset in it of the length of the name that is cut off.
pub const WASMPRINTER_INVALID_LIST: WasmprinterStatus = 14;

/// The description of a status has at most this length.
pub const WASMPRINTER_ERROR_TEXT_LEN: usize = 200;

/// The values that [`wasmprinter_raw_print`] stores.
#[repr(C)]
#[derive(Clone, Copy, Debug, Default)]
pub struct WasmprinterResult {
    /// The length of the whole text, or 0 after an error.
    pub length: usize,
    /// The number of lines of the whole text, with [`WASMPRINTER_EVENTS`] of all its events, or 0 after an error.
    pub count: usize,
    /// The detail of an error, or 0.
    pub detail: u64,
}

/// A kind of event: a line without a place starts.
pub const WASMPRINTER_LINE: u32 = 0;

/// A kind of event: a line with a place starts.
pub const WASMPRINTER_LINE_AT_PLACE: u32 = 1;

/// A kind of event: the style of names and indices starts.
pub const WASMPRINTER_NAME: u32 = 2;

/// A kind of event: the style of numbers and strings starts.
pub const WASMPRINTER_LITERAL: u32 = 3;

/// A kind of event: the style of keywords starts.
pub const WASMPRINTER_KEYWORD: u32 = 4;

/// A kind of event: the style of types starts.
pub const WASMPRINTER_TYPE: u32 = 5;

/// A kind of event: the style of comments starts.
pub const WASMPRINTER_COMMENT: u32 = 6;

/// A kind of event: the style ends.
pub const WASMPRINTER_RESET: u32 = 7;

/// A kind of event: the lines of a custom section follow, if it is printed.
pub const WASMPRINTER_CUSTOM_SECTION: u32 = 8;

/// An event of the text. The events are in the order of printing: no `start` is less than the one before, and several can be equal.
/// `wasmprinter.h` says more about lines and styles.
#[repr(C)]
#[derive(Clone, Copy, Debug, Default)]
pub struct WasmprinterEvent {
    /// The byte offset of the event from the start of the text.
    pub start: usize,
    /// Of a line with a place: its place. Of a custom section: the place of its data. Otherwise 0.
    pub place: u64,
    /// [`WASMPRINTER_LINE`] or another kind. A later release may add kinds: ignore events of unknown kinds.
    pub kind: u32,
}

extern "C" {
    /// Prints the text of a module to `out`: as many of its first bytes as fit. Writes a table of the starts of its lines to `table`: as many
    /// of the first lines as fit. With [`WASMPRINTER_EVENTS`] it does the same with all events. Stores the length of the whole text and the
    /// number of all lines or events in `result`, or the detail of an error. Returns [`WASMPRINTER_OK`] or the number of an error.
    ///
    /// `flags` is the sum of [`WASMPRINTER_OFFSETS`] and the others. `indent` is the text of one level of nesting, in UTF-8. `limit` is the
    /// greatest length of the text, and `usize::MAX` means no limit: printing stops with [`WASMPRINTER_TOO_LONG`] before the text gets longer.
    /// `omitted` is a list of the names of custom sections to leave out, each preceded by its length as four bytes, the lowest first.
    /// `table_len` is the capacity of the table in events. `wasmprinter.h` says what an error leaves in `out` and `table`.
    ///
    /// # Safety
    ///
    /// No pointer is null, even if its length is 0. Each pointer is valid for its length: `wasm`, `indent` and `omitted` for reads of
    /// initialised bytes, the others for writes, and aligned. What `out`, `table` and `result` point to overlaps nothing else. The library reads neither `out` nor `table`
    /// (only tested).
    pub fn wasmprinter_raw_print(
        wasm: *const u8,
        wasm_len: usize,
        flags: u32,
        indent: *const u8,
        indent_len: usize,
        limit: usize,
        omitted: *const u8,
        omitted_len: usize,
        out: *mut u8,
        out_len: usize,
        table: *mut WasmprinterEvent,
        table_len: usize,
        result: *mut WasmprinterResult,
    ) -> WasmprinterStatus;

    /// Writes the description of a status with its detail to `out`: as many of its first bytes as fit. Returns the length of the whole
    /// description, which is in ASCII. The description of a status greater than 14 is `unknown status`.
    ///
    /// # Safety
    ///
    /// `out` is not null, and valid for writes of `out_len` bytes.
    pub fn wasmprinter_raw_error_text(
        status: WasmprinterStatus,
        detail: u64,
        out: *mut u8,
        out_len: usize,
    ) -> usize;

    /// Returns the version of the library: the major number times 1,000,000, plus the minor number times 1,000, plus the patch number.
    ///
    /// # Safety
    ///
    /// This function has no requirements.
    pub fn wasmprinter_version() -> u32;

    /// Returns the number N of the release 0.263.0-rN.
    ///
    /// # Safety
    ///
    /// This function has no requirements.
    pub fn wasmprinter_revision() -> u32;
}
