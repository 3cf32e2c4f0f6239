//! Printers that receive a text call by call.

use std::{fmt, io};
use wasmprinter_proved_sys as sys;

/// A printer that receives a text call by call, from [`Config::print`](crate::Config::print).
///
/// The methods are those of the trait in the crate `wasmprinter`, except `write_fmt`, `supports_async_color` and `print_custom_section`. There a
/// printer claims custom sections with the last one. Here the whole text is printed before the first call, so a claim can't be honoured.
///
/// A style lasts until another one starts, or until [`Print::reset_color`]. In the text of folded operators, only places have styles.
///
/// ```
/// use std::io;
/// use wasmprinter::Print;
///
/// /// Writes a text as HTML, with bold keywords.
/// #[derive(Default)]
/// struct Html {
///     text: String,
///     is_bold: bool,
/// }
///
/// impl Print for Html {
///     fn write_str(&mut self, s: &str) -> io::Result<()> {
///         self.text += &s.replace('&', "&amp;").replace('<', "&lt;");
///         Ok(())
///     }
///
///     fn start_keyword(&mut self) -> io::Result<()> {
///         self.text += "<b>";
///         self.is_bold = true;
///         Ok(())
///     }
///
///     fn reset_color(&mut self) -> io::Result<()> {
///         if std::mem::take(&mut self.is_bold) {
///             self.text += "</b>";
///         }
///         Ok(())
///     }
/// }
///
/// let mut html = Html::default();
/// wasmprinter::Config::new().print(b"\0asm\x01\0\0\0", &mut html)?;
/// assert_eq!(html.text, "(<b>module</b>)\n");
/// # Ok::<(), wasmprinter::PrintError>(())
/// ```
pub trait Print {
    /// Writes a piece of text, which is not empty.
    ///
    /// # Errors
    ///
    /// The printer's error. Printing stops, and returns it.
    fn write_str(&mut self, s: &str) -> io::Result<()>;

    /// Ends a line. The default writes a line feed.
    ///
    /// # Errors
    ///
    /// The printer's error. Printing stops, and returns it.
    fn newline(&mut self) -> io::Result<()> {
        self.write_str("\n")
    }

    /// Starts a line. `binary_offset` is its place, or `None` if the line has none. The default does nothing.
    fn start_line(&mut self, binary_offset: Option<u64>) {
        let _ = binary_offset;
    }

    /// Starts the style of numbers and strings. The default does nothing.
    ///
    /// # Errors
    ///
    /// The printer's error. Printing stops, and returns it.
    fn start_literal(&mut self) -> io::Result<()> {
        Ok(())
    }

    /// Starts the style of names and indices. The default does nothing.
    ///
    /// # Errors
    ///
    /// The printer's error. Printing stops, and returns it.
    fn start_name(&mut self) -> io::Result<()> {
        Ok(())
    }

    /// Starts the style of keywords. The default does nothing.
    ///
    /// # Errors
    ///
    /// The printer's error. Printing stops, and returns it.
    fn start_keyword(&mut self) -> io::Result<()> {
        Ok(())
    }

    /// Starts the style of types. The default does nothing.
    ///
    /// # Errors
    ///
    /// The printer's error. Printing stops, and returns it.
    fn start_type(&mut self) -> io::Result<()> {
        Ok(())
    }

    /// Starts the style of comments. The default does nothing.
    ///
    /// # Errors
    ///
    /// The printer's error. Printing stops, and returns it.
    fn start_comment(&mut self) -> io::Result<()> {
        Ok(())
    }

    /// Ends the style. The text after it has none. The default does nothing.
    ///
    /// # Errors
    ///
    /// The printer's error. Printing stops, and returns it.
    fn reset_color(&mut self) -> io::Result<()> {
        Ok(())
    }
}

/// A printer over an [`io::Write`]. It writes the text without styles.
#[derive(Clone, Debug)]
pub struct PrintIoWrite<T>(
    /// The writer.
    pub T,
);

impl<T: io::Write> Print for PrintIoWrite<T> {
    fn write_str(&mut self, s: &str) -> io::Result<()> {
        self.0.write_all(s.as_bytes())
    }
}

/// A printer over a [`fmt::Write`]. It writes the text without styles.
#[derive(Clone, Debug)]
pub struct PrintFmtWrite<T>(
    /// The writer.
    pub T,
);

impl<T: fmt::Write> Print for PrintFmtWrite<T> {
    fn write_str(&mut self, s: &str) -> io::Result<()> {
        let written = self.0.write_str(s);
        written.map_err(|error| io::Error::new(io::ErrorKind::Other, error))
    }
}

/// Returns whether a line starts.
fn is_line(event: &sys::WasmprinterEvent) -> bool {
    matches!(
        event.kind,
        sys::WASMPRINTER_LINE | sys::WASMPRINTER_LINE_AT_PLACE
    )
}

/// Returns the place of a line, or `None` if the line has none.
pub(crate) fn place_of(line: &sys::WasmprinterEvent) -> Option<u64> {
    (line.kind == sys::WASMPRINTER_LINE_AT_PLACE).then_some(line.place)
}

/// Makes the calls for a text with these events.
pub(crate) fn replay<P>(text: &str, events: &[sys::WasmprinterEvent], out: &mut P) -> io::Result<()>
where
    P: Print + ?Sized,
{
    let mut written = 0;
    for event in events {
        let piece = &text[written..event.start];
        written = event.start;
        if is_line(event) {
            write_line_end(piece, out)?;
            out.start_line(place_of(event));
        } else {
            write_piece(piece, out)?;
            start_style(event.kind, out)?;
        }
    }
    write_line_end(&text[written..], out)
}

/// Writes a piece of text that ends with the line feed of a line. The piece before the first line is empty. Other line feeds are those of the
/// indent.
fn write_line_end<P: Print + ?Sized>(piece: &str, out: &mut P) -> io::Result<()> {
    match piece.strip_suffix('\n') {
        Some(line) => {
            write_piece(line, out)?;
            out.newline()
        }
        None => write_piece(piece, out),
    }
}

/// Writes a piece of text, unless it is empty.
fn write_piece<P: Print + ?Sized>(piece: &str, out: &mut P) -> io::Result<()> {
    if piece.is_empty() {
        Ok(())
    } else {
        out.write_str(piece)
    }
}

/// Makes the call for an event of this kind. No call is made for a custom section, and none for a kind that a later library has.
fn start_style<P: Print + ?Sized>(kind: u32, out: &mut P) -> io::Result<()> {
    match kind {
        sys::WASMPRINTER_NAME => out.start_name(),
        sys::WASMPRINTER_LITERAL => out.start_literal(),
        sys::WASMPRINTER_KEYWORD => out.start_keyword(),
        sys::WASMPRINTER_TYPE => out.start_type(),
        sys::WASMPRINTER_COMMENT => out.start_comment(),
        sys::WASMPRINTER_RESET => out.reset_color(),
        _ => Ok(()),
    }
}

#[cfg(test)]
mod tests {
    use super::{replay, Print};
    use std::io;
    use wasmprinter_proved_sys::WasmprinterEvent;

    /// Records calls. A line feed in a piece of text is recorded as `\n`, and the end of a line as a line feed.
    struct Recorder(String);

    impl Print for Recorder {
        fn write_str(&mut self, s: &str) -> io::Result<()> {
            self.0 += &s.replace('\n', "\\n");
            self.0 += "|";
            Ok(())
        }

        fn newline(&mut self) -> io::Result<()> {
            self.0 += "\n";
            Ok(())
        }

        fn start_line(&mut self, binary_offset: Option<u64>) {
            self.0 += &format!("{binary_offset:?}");
        }

        fn start_name(&mut self) -> io::Result<()> {
            self.0 += "{N}";
            Ok(())
        }
    }

    fn replayed(text: &str, events: &[(usize, u64, u32)]) -> String {
        let events: Vec<WasmprinterEvent> = events
            .iter()
            .map(|&(start, place, kind)| WasmprinterEvent { start, place, kind })
            .collect();
        let mut recorder = Recorder(String::new());
        replay(text, &events, &mut recorder).expect("no error");
        recorder.0
    }

    #[test]
    fn makes_calls_at_each_event() {
        let events = [
            (0, 8, 1),
            (1, 0, 2),
            (1, 0, 7),
            (2, 31, 8),
            (3, 0, 0),
            (3, 0, 2),
        ];
        assert_eq!(replayed("ab\nc\n", &events), "Some(8)a|{N}b|\nNone{N}c|\n");
    }

    #[test]
    fn writes_line_feeds_of_the_indent_as_text() {
        let events = [(0, 0, 1), (2, 8, 1), (6, 9, 1)];
        assert_eq!(
            replayed("a\n\n\nb\n)\n", &events),
            "Some(0)a|\nSome(8)\\n\\nb|\nSome(9))|\n"
        );
    }

    /// A later release of the library may have other kinds.
    #[test]
    fn ignores_unknown_kinds() {
        let events = [(0, 0, 1), (1, 5, 9), (1, 5, u32::MAX)];
        assert_eq!(replayed("ab\n", &events), "Some(0)a|b|\n");
    }
}
