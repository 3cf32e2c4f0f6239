//! Prints modules call by call. The calls are typed by hand.

use std::{fmt, io};
use wasmprinter::{Config, Error, Print, PrintError, PrintFmtWrite, PrintIoWrite};

/// The empty module.
const EMPTY: &[u8] = b"\0asm\x01\0\0\0";

/// A function that returns its i32 parameter, exported as `f`.
const IDENTITY: &[u8] = b"\0asm\x01\0\0\0\x01\x06\x01\x60\x01\x7f\x01\x7f\x03\x02\x01\0\x07\x05\x01\x01f\0\0\x0a\x06\x01\x04\0\x20\0\x0b";

/// The text of `IDENTITY`.
const TEXT: &str = r#"(module
  (type (;0;) (func (param i32) (result i32)))
  (export "f" (func 0))
  (func (;0;) (type 0) (param i32) (result i32)
    local.get 0
  )
)
"#;

/// The calls for `IDENTITY`.
const CALLS: &str = r#"[0x0]({K}module{R}
[0xb]  ({K}type {R}{N}(;0;){R} ({K}func{R} ({K}param{R} {T}i32{R}) ({K}result{R} {T}i32{R})))
[0x17]  ({K}export {R}{L}"f"{R} ({K}func {R}{N}0{R}))
[0x1f]  ({K}func {R}{N}(;0;){R} ({K}type {R}{N}0{R}) ({K}param{R} {T}i32{R}) ({K}result{R} {T}i32{R})
[0x20]    local.get {N}0{R}
[0x22]  )
[0x23])
"#;

/// The number of calls for `IDENTITY` that can fail: 21 styles, each with its text and its end, 21 other pieces of text, and 7 line feeds.
const FALLIBLE: usize = 3 * 21 + 21 + 7;

/// The calls for `IDENTITY` with places and folded operators. Folded operators have no styles.
const FOLDED_CALLS: &str = r#"[0x0]({K}module{R}
[0xb]{C}(;@b     ;){R}  ({K}type {R}{N}(;0;){R} ({K}func{R} ({K}param{R} {T}i32{R}) ({K}result{R} {T}i32{R})))
[0x17]{C}(;@17    ;){R}  ({K}export {R}{L}"f"{R} ({K}func {R}{N}0{R}))
[0x1f]{C}(;@1f    ;){R}  ({K}func {R}{N}(;0;){R} ({K}type {R}{N}0{R}) ({K}param{R} {T}i32{R}) ({K}result{R} {T}i32{R})
[0x20]{C}(;@20    ;){R}    (local.get 0)
[0x22]{C}(;@22    ;){R}  )
[0x23]{C}(;@23    ;){R})
"#;

/// A recursive group, whose last line shows nothing of the module.
const GROUP: &[u8] = b"\0asm\x01\0\0\0\x01\x06\x01\x4e\x01\x60\0\0";

/// The calls for `GROUP`.
const GROUP_CALLS: &str = "[0x0]({K}module{R}
[0xb]  ({K}rec{R}
[0xd]    ({K}type {R}{N}(;0;){R} ({K}func{R}))
[]  )
[0x10])
";

/// Records all calls, and lets one fail.
#[derive(Default)]
struct Recorder {
    calls: String,
    made: usize,
    /// The number of the call that fails, counted from 1, or 0 for none.
    failing: usize,
}

impl Recorder {
    fn record(&mut self, call: &str) -> io::Result<()> {
        self.made += 1;
        if self.made == self.failing {
            return Err(io::Error::new(io::ErrorKind::BrokenPipe, "no reader"));
        }
        self.calls += call;
        Ok(())
    }
}

impl Print for Recorder {
    fn write_str(&mut self, s: &str) -> io::Result<()> {
        assert!(!s.is_empty() && !s.contains('\n'), "{s:?}");
        self.record(s)
    }

    fn newline(&mut self) -> io::Result<()> {
        self.record("\n")
    }

    fn start_line(&mut self, binary_offset: Option<u64>) {
        match binary_offset {
            Some(place) => self.calls += &format!("[{place:#x}]"),
            None => self.calls += "[]",
        }
    }

    fn start_literal(&mut self) -> io::Result<()> {
        self.record("{L}")
    }

    fn start_name(&mut self) -> io::Result<()> {
        self.record("{N}")
    }

    fn start_keyword(&mut self) -> io::Result<()> {
        self.record("{K}")
    }

    fn start_type(&mut self) -> io::Result<()> {
        self.record("{T}")
    }

    fn start_comment(&mut self) -> io::Result<()> {
        self.record("{C}")
    }

    fn reset_color(&mut self) -> io::Result<()> {
        self.record("{R}")
    }
}

/// A printer with the default methods.
struct Plain(String);

impl Print for Plain {
    fn write_str(&mut self, s: &str) -> io::Result<()> {
        self.0 += s;
        Ok(())
    }
}

/// A writer that refuses all text.
struct Full;

impl fmt::Write for Full {
    fn write_str(&mut self, _: &str) -> fmt::Result {
        Err(fmt::Error)
    }
}

impl io::Write for Full {
    fn write(&mut self, _: &[u8]) -> io::Result<usize> {
        Err(io::ErrorKind::WriteZero.into())
    }

    fn flush(&mut self) -> io::Result<()> {
        Ok(())
    }
}

/// Returns the calls for a module.
fn calls_of(config: &Config, wasm: &[u8]) -> String {
    let mut recorder = Recorder::default();
    config.print(wasm, &mut recorder).expect("a text");
    recorder.calls
}

#[test]
fn makes_each_call_in_order() {
    let mut config = Config::new();
    assert_eq!(calls_of(&config, EMPTY), "[0x0]({K}module{R})\n");
    assert_eq!(calls_of(&config, IDENTITY), CALLS);
    assert_eq!(calls_of(&config, GROUP), GROUP_CALLS);
    config.print_offsets(true).fold_instructions(true);
    assert_eq!(calls_of(&config, IDENTITY), FOLDED_CALLS);
}

#[test]
fn prints_to_a_trait_object() {
    let mut recorder = Recorder::default();
    let printer: &mut dyn Print = &mut recorder;
    Config::new().print(IDENTITY, printer).expect("a text");
    assert_eq!(recorder.calls, CALLS);
}

#[test]
fn prints_with_the_default_methods() {
    let mut plain = Plain(String::new());
    Config::new().print(IDENTITY, &mut plain).expect("a text");
    assert_eq!(plain.0, TEXT);
}

#[test]
fn prints_to_writers() {
    let mut printer = PrintIoWrite(b"before\n".to_vec());
    Config::new().print(IDENTITY, &mut printer).expect("a text");
    assert_eq!(printer.0, format!("before\n{TEXT}").into_bytes());
    let mut printer = PrintFmtWrite("before\n".to_owned());
    Config::new().print(IDENTITY, &mut printer).expect("a text");
    assert_eq!(printer.0, format!("before\n{TEXT}"));
}

/// Printing stops at each call that fails. No call is made after it, and its error is returned.
#[test]
fn stops_at_the_call_that_fails() {
    let mut whole = Recorder::default();
    Config::new().print(IDENTITY, &mut whole).expect("a text");
    assert_eq!(whole.made, FALLIBLE);
    let mut longest = 0;
    for failing in 1..=FALLIBLE {
        let mut recorder = Recorder {
            failing,
            ..Recorder::default()
        };
        match Config::new().print(IDENTITY, &mut recorder) {
            Err(PrintError::Printer(error)) => {
                assert_eq!(error.kind(), io::ErrorKind::BrokenPipe);
                assert_eq!(error.to_string(), "no reader");
            }
            other => panic!("{other:?}"),
        }
        assert_eq!(recorder.made, failing);
        assert!(CALLS.starts_with(&recorder.calls) && recorder.calls.len() >= longest);
        longest = recorder.calls.len();
    }
    assert_eq!(longest, CALLS.len() - 1);
}

#[test]
fn returns_errors_of_writers() {
    let error = Config::new().print(EMPTY, &mut PrintIoWrite(Full));
    let error = io::Error::from(error.unwrap_err());
    assert_eq!(error.kind(), io::ErrorKind::WriteZero);
    let error = Config::new().print(EMPTY, &mut PrintFmtWrite(Full));
    let error = io::Error::from(error.unwrap_err());
    assert_eq!(error.kind(), io::ErrorKind::Other);
    assert!(error.get_ref().expect("an error").is::<fmt::Error>());
}

/// If the module can't be printed, no call is made.
#[test]
fn returns_errors_of_modules() {
    let mut recorder = Recorder::default();
    let mut config = Config::new();
    let printed = config.print(b"\0asm\x01\0\0\0\x63\0", &mut recorder);
    assert!(matches!(
        printed,
        Err(PrintError::Module(Error::Malformed { place: 8 }))
    ));
    let limited = config.limit(Some(8)).print(EMPTY, &mut recorder);
    assert!(matches!(limited, Err(PrintError::Module(Error::TooLong))));
    assert_eq!((recorder.made, recorder.calls), (0, String::new()));
    let mut plain = Plain(String::new());
    config
        .limit(Some(9))
        .print(EMPTY, &mut plain)
        .expect("a text");
    assert_eq!(plain.0, "(module)\n");
}

/// The first buffer has the length of the text, and an event starts for less than 4 bytes. So the first table is too short.
#[test]
fn prints_many_events() {
    let mut wasm = b"\0asm\x01\0\0\0\x01\xda\x04\xc8\x01".to_vec();
    let mut text = "(module\n".to_owned();
    for index in 0..200 {
        wasm.extend(b"\x60\0\0");
        text += &format!("  (type (;{index};) (func))\n");
    }
    text += ")\n";
    let mut config = Config::new();
    let mut plain = Plain(String::new());
    config
        .limit(Some(text.len()))
        .print(&wasm, &mut plain)
        .expect("a text");
    assert_eq!(plain.0, text);
}
