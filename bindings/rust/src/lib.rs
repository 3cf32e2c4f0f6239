//! Prints WebAssembly modules, from the binary format to the text format.
//!
//! The crate `wasmprinter` has these names too: [`print_bytes`], [`print_file`], [`Config`] and [`Print`]. The printer itself is the
//! proved library `libwasmprinter`, which the crate `wasmprinter-proved-sys` links. There are no other dependencies.
//!
//! ```
//! let text = wasmprinter::print_bytes(b"\0asm\x01\0\0\0")?;
//! assert_eq!(text, "(module)\n");
//! # Ok::<(), wasmprinter::Error>(())
//! ```
#![deny(missing_docs, clippy::undocumented_unsafe_blocks)]

mod error;
mod print;

use std::io;
use std::mem::MaybeUninit;
use std::path::Path;
use wasmprinter_proved_sys as sys;

pub use error::{Error, PrintError};
pub use print::{Print, PrintFmtWrite, PrintIoWrite};

/// A [`Result`](std::result::Result) with the error of this crate.
pub type Result<T> = std::result::Result<T, Error>;

/// Prints a module with the defaults of [`Config`].
///
/// # Errors
///
/// The errors of [`Config::print_to_string`].
pub fn print_bytes(wasm: impl AsRef<[u8]>) -> Result<String> {
    Config::new().print_to_string(wasm)
}

/// Prints the module in a file with the defaults of [`Config`].
///
/// # Errors
///
/// - [`Error::Unreadable`]: the file can't be read.
/// - The errors of [`Config::print_to_string`].
pub fn print_file(path: impl AsRef<Path>) -> Result<String> {
    let wasm = std::fs::read(path).map_err(|_| Error::Unreadable)?;
    print_bytes(wasm)
}

/// The number of bytes of text that are expected for each byte of a module. Nearly every text has at most this number.
const TEXT_PER_BYTE: usize = 32;

/// A table is expected to be that of a text with this number of bytes for each byte of the module: a longer text mostly has longer lines, not
/// more of them.
const TABLE_TEXT_PER_BYTE: usize = 12;

/// The number of bytes of text that are expected in addition, also of an empty module.
const LEAST_TEXT: usize = 4096;

/// The entries of a table.
#[derive(Clone, Copy)]
enum Entries {
    /// There is no table.
    None,
    /// The starts of lines.
    Lines,
    /// All events.
    Events,
}

impl Entries {
    /// Returns the expected number of entries for a text of this length. Most lines have more than 16 bytes.
    fn expected(self, length: usize) -> usize {
        match self {
            Entries::None => 0,
            Entries::Lines => length / 16 + 64,
            Entries::Events => length / 4 + 64,
        }
    }
}

/// The options of printing.
///
/// ```
/// let wasm = b"\0asm\x01\0\0\0\x01\x04\x01\x60\0\0";
/// let text = wasmprinter::Config::new().indent_text("\t").print_to_string(wasm)?;
/// assert_eq!(text, "(module\n\t(type (;0;) (func))\n)\n");
/// # Ok::<(), wasmprinter::Error>(())
/// ```
#[derive(Clone, Debug)]
pub struct Config {
    flags: u32,
    indent: String,
    limit: usize,
    /// The list of names of custom sections to leave out, as the library reads it.
    omitted: Vec<u8>,
}

impl Default for Config {
    fn default() -> Config {
        Config::new()
    }
}

impl Config {
    /// Returns the defaults: every option is off, the indent is two spaces, the text has no limit, and no custom section is left out.
    pub fn new() -> Config {
        Config {
            flags: 0,
            indent: "  ".to_owned(),
            limit: usize::MAX,
            omitted: Vec::new(),
        }
    }

    /// Chooses whether each line after the first begins with its place.
    pub fn print_offsets(&mut self, print: bool) -> &mut Self {
        self.choose(sys::WASMPRINTER_OFFSETS, print)
    }

    /// Chooses whether bodies, items of element segments, and bytes of data segments and `(@custom ..)` are left out.
    pub fn print_skeleton(&mut self, print: bool) -> &mut Self {
        self.choose(sys::WASMPRINTER_SKELETON, print)
    }

    /// Chooses whether identifiers are synthesized for items and labels without a name.
    pub fn name_unnamed(&mut self, name: bool) -> &mut Self {
        self.choose(sys::WASMPRINTER_NAME_UNNAMED, name)
    }

    /// Chooses whether each operator is in parentheses with its operands.
    pub fn fold_instructions(&mut self, fold: bool) -> &mut Self {
        self.choose(sys::WASMPRINTER_FOLD, fold)
    }

    /// Sets the text of one level of nesting.
    pub fn indent_text(&mut self, text: impl Into<String>) -> &mut Self {
        self.indent = text.into();
        self
    }

    /// Sets the greatest length of the text in bytes, or no limit. Printing stops with [`Error::TooLong`] before the text gets longer. The
    /// whole module is decoded with any limit.
    ///
    /// ```
    /// let mut config = wasmprinter::Config::new();
    /// let text = config.limit(Some(8)).print_to_string(b"\0asm\x01\0\0\0");
    /// assert_eq!(text, Err(wasmprinter::Error::TooLong));
    /// ```
    pub fn limit(&mut self, bytes: Option<usize>) -> &mut Self {
        self.limit = bytes.unwrap_or(usize::MAX);
        self
    }

    /// Sets the names of custom sections to leave out, in place of those of earlier calls. Names are equal if their bytes are. The names in
    /// a section `name` and the hints in a section `metadata.code.branch_hint` apply even if it is left out.
    ///
    /// ```
    /// // a custom section `ab` without data
    /// let wasm = b"\0asm\x01\0\0\0\0\x03\x02ab";
    /// let text = wasmprinter::Config::new().omit_custom_sections(["ab"]).print_to_string(wasm)?;
    /// assert_eq!(text, "(module)\n");
    /// # Ok::<(), wasmprinter::Error>(())
    /// ```
    ///
    /// # Panics
    ///
    /// Panics if a name has 2^32 bytes or more.
    pub fn omit_custom_sections<N: AsRef<[u8]>>(
        &mut self,
        names: impl IntoIterator<Item = N>,
    ) -> &mut Self {
        self.omitted.clear();
        for name in names {
            let name = name.as_ref();
            let len = u32::try_from(name.len()).expect("a name has less than 2^32 bytes");
            self.omitted.extend_from_slice(&len.to_le_bytes());
            self.omitted.extend_from_slice(name);
        }
        self
    }

    /// Sets or clears a bit of the flags.
    fn choose(&mut self, bit: u32, is_chosen: bool) -> &mut Self {
        self.flags = if is_chosen {
            self.flags | bit
        } else {
            self.flags & !bit
        };
        self
    }

    /// Prints a module.
    ///
    /// # Errors
    ///
    /// Each variant of [`Error`] except [`Error::Unreadable`]. [`Error::FoldLegacy`] and [`Error::FoldHint`] only if operators are folded.
    pub fn print_to_string(&self, wasm: impl AsRef<[u8]>) -> Result<String> {
        let (mut text, _) = self.print_whole(wasm.as_ref(), Entries::None)?;
        text.shrink_to_fit();
        Ok(text)
    }

    /// Prints a module to a printer, call by call. The whole text is in memory before the first call.
    ///
    /// The text between two events is one call of [`Print::write_str`]. The line feed at the end of a line is a call of [`Print::newline`].
    ///
    /// ```
    /// let mut printer = wasmprinter::PrintFmtWrite(String::new());
    /// wasmprinter::Config::new().print(b"\0asm\x01\0\0\0", &mut printer)?;
    /// assert_eq!(printer.0, "(module)\n");
    /// # Ok::<(), wasmprinter::PrintError>(())
    /// ```
    ///
    /// # Errors
    ///
    /// - [`PrintError::Module`]: an error of [`Config::print_to_string`]. Then no call was made.
    /// - [`PrintError::Printer`]: a call failed. Then no call was made after it.
    pub fn print(
        &self,
        wasm: &[u8],
        printer: &mut (impl Print + ?Sized),
    ) -> std::result::Result<(), PrintError> {
        let (text, events) = self.print_whole(wasm, Entries::Events)?;
        print::replay(&text, &events, printer).map_err(PrintError::Printer)
    }

    /// Prints a module to a writer. The whole text is in memory before the first byte is written.
    ///
    /// ```
    /// let wasm = b"\0asm\x01\0\0\0";
    /// wasmprinter::Config::new().print_to(wasm, &mut std::io::stdout())?;
    /// # Ok::<(), std::io::Error>(())
    /// ```
    ///
    /// # Errors
    ///
    /// - The errors of the writer.
    /// - The errors of [`Config::print_to_string`], converted to an [`io::Error`]. Then nothing was written.
    pub fn print_to(&self, wasm: &[u8], out: &mut impl io::Write) -> io::Result<()> {
        out.write_all(self.print_to_string(wasm)?.as_bytes())
    }

    /// Appends the text of a module to `storage`, and returns an iterator over its lines. Each item is the place of a line, or `None` if it
    /// has none, and the line with its line feed.
    ///
    /// ```
    /// let mut storage = String::new();
    /// let mut lines = wasmprinter::Config::new().offsets_and_lines(b"\0asm\x01\0\0\0", &mut storage)?;
    /// assert_eq!(lines.next(), Some((Some(0), "(module)\n")));
    /// assert_eq!(lines.next(), None);
    /// # Ok::<(), wasmprinter::Error>(())
    /// ```
    ///
    /// # Errors
    ///
    /// The errors of [`Config::print_to_string`]. After an error `storage` is unchanged.
    pub fn offsets_and_lines<'a>(
        &self,
        wasm: &[u8],
        storage: &'a mut String,
    ) -> Result<impl Iterator<Item = (Option<u64>, &'a str)> + 'a> {
        let (text, lines) = self.print_whole(wasm, Entries::Lines)?;
        let before = storage.len();
        if before == 0 {
            *storage = text;
        } else {
            storage.try_reserve(text.len()).map_err(|_| Error::Memory)?;
            storage.push_str(&text);
        }
        let text = &storage[before..];
        let mut lines = lines.into_iter().peekable();
        Ok(std::iter::from_fn(move || {
            let line = lines.next()?;
            let end = lines.peek().map_or(text.len(), |next| next.start);
            Some((print::place_of(&line), &text[line.start..end]))
        }))
    }

    /// Writes as many of the first bytes of the text to `out` as fit, and returns the length of the whole text. With an empty `out` it only
    /// measures.
    ///
    /// # Errors
    ///
    /// The errors of [`Config::print_to_string`]. After an error `out` may hold a prefix of the text.
    pub fn print_over(&self, wasm: &[u8], out: &mut [u8]) -> Result<usize> {
        // SAFETY: the types have the same layout, and `print` writes only initialised bytes.
        let out = unsafe { &mut *(out as *mut [u8] as *mut [MaybeUninit<u8>]) };
        Ok(self.print_raw(wasm, Entries::None, out, &mut [])?.length)
    }

    /// Returns the text, and the table of these entries.
    ///
    /// Nearly every module is printed once. It is printed again if its text or its table is longer than expected, or if there is not enough
    /// memory for the expected lengths.
    fn print_whole(
        &self,
        wasm: &[u8],
        entries: Entries,
    ) -> Result<(String, Vec<sys::WasmprinterEvent>)> {
        let (mut text, mut table) = (Vec::new(), Vec::new());
        let (length, count) = self.expected_lengths(wasm.len(), entries);
        // If one of these allocations fails, the first round measures what it is for. Pages of an allocation that are not written to take no memory.
        let _ = text.try_reserve_exact(length);
        let _ = table.try_reserve_exact(count);
        loop {
            let printed = self.print_raw(
                wasm,
                entries,
                text.spare_capacity_mut(),
                table.spare_capacity_mut(),
            )?;
            let count = match entries {
                Entries::None => 0,
                Entries::Lines | Entries::Events => printed.count,
            };
            if printed.length <= text.capacity() && count <= table.capacity() {
                // SAFETY: this many bytes and entries fit, so the library has written all of them.
                unsafe {
                    text.set_len(printed.length);
                    table.set_len(count);
                }
                let text = String::from_utf8(text).expect("the text is UTF-8");
                return Ok((text, table));
            }
            text.try_reserve_exact(printed.length)
                .and_then(|()| table.try_reserve_exact(count))
                .map_err(|_| Error::Memory)?;
        }
    }

    /// Returns the expected length of the text of a module with this length, and that of the table of these entries.
    fn expected_lengths(&self, wasm_len: usize, entries: Entries) -> (usize, usize) {
        let text_with = |per_byte| {
            let length = wasm_len.saturating_mul(per_byte);
            length.saturating_add(LEAST_TEXT).min(self.limit)
        };
        let count = entries.expected(text_with(TABLE_TEXT_PER_BYTE));
        (text_with(TEXT_PER_BYTE), count)
    }

    /// Writes as much of the text and of the table of these entries as fits, and returns the lengths of the whole text and table.
    fn print_raw(
        &self,
        wasm: &[u8],
        entries: Entries,
        out: &mut [MaybeUninit<u8>],
        table: &mut [MaybeUninit<sys::WasmprinterEvent>],
    ) -> Result<sys::WasmprinterResult> {
        let mut result = sys::WasmprinterResult::default();
        let events = match entries {
            Entries::None | Entries::Lines => 0,
            Entries::Events => sys::WASMPRINTER_EVENTS,
        };
        // SAFETY: each pointer and length comes from a reference that is valid during the call, so no pointer is null. The library writes only
        // through mutable references, so they overlap nothing, and it reads neither `out` nor `table`.
        let status = unsafe {
            sys::wasmprinter_raw_print(
                wasm.as_ptr(),
                wasm.len(),
                self.flags | events,
                self.indent.as_ptr(),
                self.indent.len(),
                self.limit,
                self.omitted.as_ptr(),
                self.omitted.len(),
                out.as_mut_ptr().cast(),
                out.len(),
                table.as_mut_ptr().cast(),
                table.len(),
                &mut result,
            )
        };
        match status {
            sys::WASMPRINTER_OK => Ok(result),
            _ => Err(Error::of(status, result.detail)),
        }
    }
}

/// Returns the version of the library: the major, the minor and the patch number.
pub fn version() -> (u32, u32, u32) {
    const MAJOR: u32 = 1_000_000;
    const MINOR: u32 = 1_000;
    // SAFETY: the function has no requirements.
    let version = unsafe { sys::wasmprinter_version() };
    (version / MAJOR, version % MAJOR / MINOR, version % MINOR)
}

/// Returns the number N of the release 0.263.0-rN of the library.
pub fn revision() -> u32 {
    // SAFETY: the function has no requirements.
    unsafe { sys::wasmprinter_revision() }
}

#[cfg(test)]
mod tests {
    use super::{Config, Entries};

    #[test]
    fn expects_lengths() {
        for (wasm_len, limit, text, lines, events) in [
            (0, None, 4096, 320, 1088),
            (14, None, 4544, 330, 1130),
            (4026, None, 132928, 3339, 13166),
            (14000000, None, 448004096, 10500320, 42001088),
            (4026, Some(132929), 132928, 3339, 13166),
            (4026, Some(132927), 132927, 3339, 13166),
            (4026, Some(52400), 52400, 3339, 13164),
            (4026, Some(0), 0, 64, 64),
            (4026, Some(33), 33, 66, 72),
        ] {
            let mut config = Config::new();
            config.limit(limit);
            for (entries, count) in [
                (Entries::None, 0),
                (Entries::Lines, lines),
                (Entries::Events, events),
            ] {
                let expected = config.expected_lengths(wasm_len, entries);
                assert_eq!(expected, (text, count));
            }
        }
    }

    /// An expected length that a `usize` can't hold is the greatest one.
    #[test]
    fn expects_no_greater_length() {
        let mut config = Config::new();
        for wasm_len in [usize::MAX / 32, usize::MAX] {
            let (length, _) = config.expected_lengths(wasm_len, Entries::None);
            assert_eq!(length, usize::MAX);
        }
        let (_, count) = config.expected_lengths(usize::MAX, Entries::Events);
        assert_eq!(count, usize::MAX / 4 + 64);
        config.limit(Some(9));
        let lengths = config.expected_lengths(usize::MAX, Entries::Lines);
        assert_eq!(lengths, (9, 64));
    }
}

/// The example of the page for users.
#[cfg(doctest)]
#[doc = include_str!("../README.md")]
struct Readme;
