//! Prints modules that are typed here.

use std::io;
use std::path::PathBuf;
use wasmprinter::{print_bytes, print_file, revision, version, Config, Error};

/// The empty module.
const EMPTY: &[u8] = b"\0asm\x01\0\0\0";

/// A module with one type.
const ONE_TYPE: &[u8] = b"\0asm\x01\0\0\0\x01\x04\x01\x60\0\0";

/// The number of operators of the module `with_nops`. Its text has more lines than the first table has entries.
const NOPS: usize = 4000;

/// Returns a module with a function of many `nop`s.
fn with_nops() -> Vec<u8> {
    let mut wasm = ONE_TYPE.to_vec();
    wasm.extend(b"\x03\x02\x01\0\x0a\xa5\x1f\x01\xa2\x1f\0");
    wasm.extend([0x01; NOPS]);
    wasm.push(0x0b);
    wasm
}

/// Returns the lines of the module `with_nops`, with their places.
fn lines_with_nops() -> Vec<(Option<u64>, &'static str)> {
    let mut lines = vec![
        (Some(0), "(module\n"),
        (Some(11), "  (type (;0;) (func))\n"),
        (Some(24), "  (func (;0;) (type 0)\n"),
    ];
    lines.extend((25..4025).map(|place| (Some(place), "    nop\n")));
    lines.extend([(Some(4025), "  )\n"), (Some(4026), ")\n")]);
    lines
}

/// A file that is removed when the value is dropped.
struct File(PathBuf);

impl File {
    fn new(name: &str, bytes: &[u8]) -> File {
        let path = std::env::temp_dir().join(format!("{name}-{}.wasm", std::process::id()));
        std::fs::write(&path, bytes).expect("a file");
        File(path)
    }
}

impl Drop for File {
    fn drop(&mut self) {
        let _ = std::fs::remove_file(&self.0);
    }
}

/// A writer that refuses all bytes.
struct Full;

impl io::Write for Full {
    fn write(&mut self, _: &[u8]) -> io::Result<usize> {
        Err(io::ErrorKind::WriteZero.into())
    }

    fn flush(&mut self) -> io::Result<()> {
        Ok(())
    }
}

#[test]
fn prints_no_bytes() {
    assert!(matches!(print_bytes([]), Err(Error::Malformed { .. })));
}

#[test]
fn reports_the_place_of_an_error() {
    let error = print_bytes(b"\0asm\x01\0\0\0\x63\0").unwrap_err();
    assert_eq!(error, Error::Malformed { place: 8 });
    assert_eq!(error.to_string(), "malformed module at byte 0x8");
}

#[test]
fn reports_components() {
    let component = b"\0asm\x0d\0\x01\0";
    assert_eq!(print_bytes(component), Err(Error::Component));
}

#[test]
fn describes_errors_that_no_case_has() {
    assert_eq!(Error::Unreadable.to_string(), "the file can't be read");
    assert_eq!(Error::TooLong.to_string(), "the text is too long");
    assert_eq!(Error::Memory.to_string(), "out of memory");
}

#[test]
fn prints_with_an_option_and_without() {
    let mut config = Config::new();
    let printed = config.print_offsets(true).print_to_string(EMPTY);
    assert_eq!(printed.as_deref(), Ok("(module\n(;@8     ;))\n"));
    let printed = config.print_offsets(false).print_to_string(EMPTY);
    assert_eq!(printed.as_deref(), Ok("(module)\n"));
}

#[test]
fn prints_an_indent_with_a_zero_byte() {
    let text = Config::new().indent_text("\0é").print_to_string(ONE_TYPE);
    assert_eq!(text.as_deref(), Ok("(module\n\0é(type (;0;) (func))\n)\n"));
}

/// The text is longer than the first buffer.
#[test]
fn prints_a_long_indent() {
    let indent = " ".repeat(5000);
    let text = format!("(module\n{indent}(type (;0;) (func))\n)\n");
    let mut config = Config::new();
    config.indent_text(indent);
    assert_eq!(config.print_to_string(ONE_TYPE), Ok(text.clone()));
    let mut storage = String::new();
    let lines = config.offsets_and_lines(ONE_TYPE, &mut storage);
    assert_eq!(lines.expect("lines").count(), 3);
    assert_eq!(storage, text);
}

/// The text fits into the first buffer, but its lines don't fit into the first table.
#[test]
fn prints_many_lines() {
    let (wasm, typed) = (with_nops(), lines_with_nops());
    let text: String = typed.iter().map(|line| line.1).collect();
    assert_eq!(print_bytes(&wasm), Ok(text.clone()));
    let mut storage = String::new();
    let lines = Config::new().offsets_and_lines(&wasm, &mut storage);
    assert!(lines.expect("lines").eq(typed));
    assert_eq!(storage, text);
}

/// The line that closes a recursive group shows nothing of the module.
#[test]
fn prints_a_line_without_a_place() {
    let wasm = b"\0asm\x01\0\0\0\x01\x06\x01\x4e\x01\x60\0\0";
    let mut storage = String::new();
    let lines = Config::new().offsets_and_lines(wasm, &mut storage);
    assert!(lines.expect("lines").eq([
        (Some(0), "(module\n"),
        (Some(11), "  (rec\n"),
        (Some(13), "    (type (;0;) (func))\n"),
        (None, "  )\n"),
        (Some(16), ")\n"),
    ]));
}

/// The capacity of a text is not much larger than its length.
#[test]
fn frees_spare_memory() {
    let text = print_bytes(EMPTY).expect("a text");
    assert!(text.capacity() < 64);
}

#[test]
fn appends_to_a_storage() {
    let mut storage = "before\n".to_owned();
    let lines = Config::new().offsets_and_lines(EMPTY, &mut storage);
    assert!(lines.expect("lines").eq([(Some(0), "(module)\n")]));
    assert_eq!(storage, "before\n(module)\n");
    let refused = Config::new().offsets_and_lines(b"", &mut storage);
    assert!(refused.is_err());
    drop(refused);
    assert_eq!(storage, "before\n(module)\n");
}

/// The lines outlive the bytes of the module.
#[test]
fn keeps_lines_without_the_module() {
    let mut storage = String::new();
    let wasm = EMPTY.to_vec();
    let mut lines = Config::new()
        .offsets_and_lines(&wasm, &mut storage)
        .expect("lines");
    drop(wasm);
    assert_eq!(lines.next(), Some((Some(0), "(module)\n")));
    assert_eq!(lines.next(), None);
}

#[test]
fn prints_over_a_buffer() {
    let mut out = *b"0123456789ab";
    assert_eq!(Config::new().print_over(EMPTY, &mut out[..4]), Ok(9));
    assert_eq!(&out, b"(mod456789ab");
    assert_eq!(Config::new().print_over(EMPTY, &mut out), Ok(9));
    assert_eq!(&out, b"(module)\n9ab");
    assert_eq!(Config::new().print_over(EMPTY, &mut []), Ok(9));
}

#[test]
fn prints_with_a_limit_and_without() {
    let mut config = Config::new();
    assert_eq!(
        config.limit(Some(9)).print_to_string(EMPTY),
        print_bytes(EMPTY)
    );
    let printed = config.limit(Some(8)).print_to_string(EMPTY);
    assert_eq!(printed, Err(Error::TooLong));
    let printed = config.limit(Some(0)).print_to_string(EMPTY);
    assert_eq!(printed, Err(Error::TooLong));
    let printed = config.limit(None).print_to_string(EMPTY);
    assert_eq!(printed.as_deref(), Ok("(module)\n"));
}

/// Custom sections without data: `ab`, `a`, and one whose name is U+00E9.
const SECTIONS: &[u8] = b"\0asm\x01\0\0\0\0\x03\x02ab\0\x02\x01a\0\x03\x02\xc3\xa9";

/// Each call replaces the names of the call before.
#[test]
fn leaves_out_custom_sections() {
    let [ab, a, e] = [
        "  (@custom \"ab\" (before first) \"\")\n",
        "  (@custom \"a\" (before first) \"\")\n",
        "  (@custom \"\\u{e9}\" (before first) \"\")\n",
    ];
    let mut config = Config::new();
    config.omit_custom_sections(["a", "abc", "b"]);
    let printed = config.print_to_string(SECTIONS);
    assert_eq!(printed, Ok(format!("(module\n{ab}{e})\n")));
    config.omit_custom_sections(["", "\u{e9}", "ab"]);
    let printed = config.print_to_string(SECTIONS);
    assert_eq!(printed, Ok(format!("(module\n{a})\n")));
    config.omit_custom_sections([b"ab".to_vec(), b"\xc3".to_vec()]);
    let printed = config.clone().print_to_string(SECTIONS);
    assert_eq!(printed, Ok(format!("(module\n{a}{e})\n")));
    let mut storage = String::new();
    let lines = config.offsets_and_lines(SECTIONS, &mut storage);
    let lines: Vec<_> = lines.expect("a module").map(|line| line.1).collect();
    assert_eq!(lines, ["(module\n", a, e, ")\n"]);
    config.omit_custom_sections([""; 0]);
    let printed = config.print_to_string(SECTIONS);
    assert_eq!(printed, Ok(format!("(module\n{ab}{a}{e})\n")));
}

/// The limit is less than the length of the first buffer, greater than it, or much greater.
#[test]
fn stops_before_a_long_text() {
    let (wasm, typed) = (with_nops(), lines_with_nops());
    let text: String = typed.iter().map(|line| line.1).collect();
    let mut config = Config::new();
    for limit in [0, 1, 4096, text.len() - 1] {
        config.limit(Some(limit));
        assert_eq!(config.print_to_string(&wasm), Err(Error::TooLong));
        let mut storage = "before\n".to_owned();
        let lines = config.offsets_and_lines(&wasm, &mut storage);
        assert_eq!(lines.err(), Some(Error::TooLong));
        assert_eq!(storage, "before\n");
    }
    for limit in [text.len(), text.len() + 1, 100 * text.len()] {
        config.limit(Some(limit));
        assert_eq!(config.print_to_string(&wasm), Ok(text.clone()));
    }
}

/// A malformed module and a component have their own errors with any limit.
#[test]
fn reports_other_errors_with_a_limit() {
    let mut config = Config::new();
    config.limit(Some(0));
    let malformed = config.print_to_string(b"\0asm\x01\0\0\0\x63\0");
    assert_eq!(malformed, Err(Error::Malformed { place: 8 }));
    let component = config.print_to_string(b"\0asm\x0d\0\x01\0");
    assert_eq!(component, Err(Error::Component));
}

#[test]
fn prints_files() {
    let file = File::new("one-type", ONE_TYPE);
    let text = print_file(&file.0);
    assert_eq!(text.as_deref(), Ok("(module\n  (type (;0;) (func))\n)\n"));
    let file = File::new("no-module", b"(module)");
    assert_eq!(print_file(&file.0), Err(Error::Malformed { place: 0 }));
    let missing = file.0.with_extension("missing");
    assert_eq!(print_file(missing), Err(Error::Unreadable));
    assert_eq!(print_file("/"), Err(Error::Unreadable));
}

#[test]
fn prints_to_a_writer() {
    let mut out = b"before\n".to_vec();
    Config::new().print_to(EMPTY, &mut out).expect("a text");
    assert_eq!(out, b"before\n(module)\n");
    let error = Config::new().print_to(b"", &mut out).unwrap_err();
    assert_eq!(error.kind(), io::ErrorKind::InvalidData);
    assert_eq!(error.to_string(), "malformed module at byte 0x0");
    assert_eq!(out, b"before\n(module)\n");
    let error = Config::new()
        .limit(Some(8))
        .print_to(EMPTY, &mut out)
        .unwrap_err();
    assert_eq!(error.kind(), io::ErrorKind::Other);
    assert_eq!(error.to_string(), "the text is too long");
    assert_eq!(out, b"before\n(module)\n");
    let error = Config::new().print_to(EMPTY, &mut Full).unwrap_err();
    assert_eq!(error.kind(), io::ErrorKind::WriteZero);
}

#[test]
fn returns_this_version() {
    assert_eq!((version(), revision()), ((0, 263, 0), 1));
}

/// Several threads print the same module at once.
#[test]
fn prints_in_threads() {
    let printed: Vec<_> = (0..8)
        .map(|_| std::thread::spawn(|| print_bytes(EMPTY)))
        .collect();
    for text in printed {
        assert_eq!(text.join().expect("a thread").as_deref(), Ok("(module)\n"));
    }
}
