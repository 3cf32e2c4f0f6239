//! Errors, and their numbers in `wasmprinter.h`.

use std::{fmt, io};
use wasmprinter_proved_sys as sys;

/// The reason why a module was not printed. Places are byte offsets from the start of the module.
#[derive(Clone, Copy, Debug, PartialEq, Eq, Hash)]
#[non_exhaustive]
pub enum Error {
    /// The bytes are not in the binary format.
    Malformed {
        /// The place of an unexpected byte or number, or another place that `wasmprinter.h` describes.
        place: u64,
    },
    /// The bytes are marked as a component.
    Component,
    /// A function has more than 50,000 locals.
    TooManyLocals {
        /// The place of its body.
        place: u64,
    },
    /// The module defines more than 1,000,000 functions.
    TooManyFunctions {
        /// Their number.
        count: u32,
    },
    /// The initialiser of a table has no operators.
    EmptyTableInit {
        /// The place of the table.
        place: u64,
    },
    /// Operators are folded, and one is a `try`, `catch`, `catch_all` or `delegate`.
    FoldLegacy {
        /// The place of the operator.
        place: u64,
    },
    /// Operators are folded, and a branch hint has no position in folded text.
    FoldHint {
        /// The place of the branch hint.
        place: u64,
    },
    /// A `dylink.0` section that is not left out has an unknown subsection.
    DylinkSubsection {
        /// The id of the first one.
        id: u8,
    },
    /// The file can't be read.
    Unreadable,
    /// The text is longer than the limit or, without a limit, than `usize::MAX`.
    TooLong,
    /// An allocation failed.
    Memory,
    /// Another error. This release of the library returns none to this crate; a later one may.
    Other {
        /// The status that the library returned.
        status: u32,
        /// The detail of the error, or 0 if it has none.
        detail: u64,
    },
}

impl Error {
    /// Returns the error with a status and a detail.
    pub(crate) fn of(status: u32, detail: u64) -> Error {
        let place = detail;
        let other = Error::Other { status, detail };
        match status {
            sys::WASMPRINTER_MALFORMED => Error::Malformed { place },
            sys::WASMPRINTER_COMPONENT => Error::Component,
            sys::WASMPRINTER_TOO_MANY_LOCALS => Error::TooManyLocals { place },
            sys::WASMPRINTER_TOO_MANY_FUNCTIONS => {
                u32::try_from(detail).map_or(other, |count| Error::TooManyFunctions { count })
            }
            sys::WASMPRINTER_EMPTY_TABLE_INIT => Error::EmptyTableInit { place },
            sys::WASMPRINTER_FOLD_LEGACY => Error::FoldLegacy { place },
            sys::WASMPRINTER_FOLD_HINT => Error::FoldHint { place },
            sys::WASMPRINTER_DYLINK_SUBSECTION => {
                u8::try_from(detail).map_or(other, |id| Error::DylinkSubsection { id })
            }
            sys::WASMPRINTER_UNREADABLE => Error::Unreadable,
            sys::WASMPRINTER_TOO_LONG => Error::TooLong,
            sys::WASMPRINTER_MEMORY => Error::Memory,
            _ => other,
        }
    }

    /// Returns the status of the error, and its detail, 0 if it has none.
    fn status_and_detail(self) -> (u32, u64) {
        match self {
            Error::Malformed { place } => (sys::WASMPRINTER_MALFORMED, place),
            Error::Component => (sys::WASMPRINTER_COMPONENT, 0),
            Error::TooManyLocals { place } => (sys::WASMPRINTER_TOO_MANY_LOCALS, place),
            Error::TooManyFunctions { count } => {
                (sys::WASMPRINTER_TOO_MANY_FUNCTIONS, count.into())
            }
            Error::EmptyTableInit { place } => (sys::WASMPRINTER_EMPTY_TABLE_INIT, place),
            Error::FoldLegacy { place } => (sys::WASMPRINTER_FOLD_LEGACY, place),
            Error::FoldHint { place } => (sys::WASMPRINTER_FOLD_HINT, place),
            Error::DylinkSubsection { id } => (sys::WASMPRINTER_DYLINK_SUBSECTION, id.into()),
            Error::Unreadable => (sys::WASMPRINTER_UNREADABLE, 0),
            Error::TooLong => (sys::WASMPRINTER_TOO_LONG, 0),
            Error::Memory => (sys::WASMPRINTER_MEMORY, 0),
            Error::Other { status, detail } => (status, detail),
        }
    }
}

/// Writes the description of the library, such as `malformed module at byte 0x1f`.
impl fmt::Display for Error {
    fn fmt(&self, f: &mut fmt::Formatter<'_>) -> fmt::Result {
        let (status, detail) = self.status_and_detail();
        let mut text = [0; sys::WASMPRINTER_ERROR_TEXT_LEN];
        // SAFETY: the pointer and the length are those of the array.
        let length = unsafe {
            sys::wasmprinter_raw_error_text(status, detail, text.as_mut_ptr(), text.len())
        };
        // A later library may have longer descriptions.
        let text = &text[..length.min(text.len())];
        f.pad(std::str::from_utf8(text).expect("descriptions are ASCII"))
    }
}

impl std::error::Error for Error {}

/// Wraps the error. The kind is `OutOfMemory` for [`Error::Memory`], and `InvalidData` for an error that is about the bytes of the module.
impl From<Error> for io::Error {
    fn from(error: Error) -> io::Error {
        let kind = match error {
            Error::Memory => io::ErrorKind::OutOfMemory,
            Error::Unreadable | Error::TooLong | Error::Other { .. } => io::ErrorKind::Other,
            _ => io::ErrorKind::InvalidData,
        };
        io::Error::new(kind, error)
    }
}

/// The reason why [`Config::print`](crate::Config::print) failed.
#[derive(Debug)]
pub enum PrintError {
    /// The module can't be printed.
    Module(Error),
    /// The printer returned this error.
    Printer(io::Error),
}

/// Writes the description of the error inside.
impl fmt::Display for PrintError {
    fn fmt(&self, f: &mut fmt::Formatter<'_>) -> fmt::Result {
        match self {
            PrintError::Module(error) => error.fmt(f),
            PrintError::Printer(error) => error.fmt(f),
        }
    }
}

impl std::error::Error for PrintError {
    fn source(&self) -> Option<&(dyn std::error::Error + 'static)> {
        match self {
            PrintError::Module(error) => error.source(),
            PrintError::Printer(error) => error.source(),
        }
    }
}

impl From<Error> for PrintError {
    fn from(error: Error) -> PrintError {
        PrintError::Module(error)
    }
}

/// Returns the printer's error, or wraps that of the module.
impl From<PrintError> for io::Error {
    fn from(error: PrintError) -> io::Error {
        match error {
            PrintError::Module(error) => error.into(),
            PrintError::Printer(error) => error,
        }
    }
}

#[cfg(test)]
mod tests {
    use super::{Error, PrintError};
    use std::error::Error as _;
    use std::io;

    #[test]
    fn keeps_each_status_and_detail() {
        for status in (1..20).chain([u32::MAX]) {
            let detail = if matches!(status, 2 | 9..=11) { 0 } else { 31 };
            assert_eq!(
                Error::of(status, detail).status_and_detail(),
                (status, detail)
            );
        }
    }

    #[test]
    fn keeps_details_that_are_too_large() {
        for (status, detail) in [(4, 1 << 32), (8, 256)] {
            assert_eq!(Error::of(status, detail), Error::Other { status, detail });
        }
        assert_eq!(
            Error::of(8, 256).to_string(),
            "unknown dylink.0 subsection 256"
        );
    }

    #[test]
    fn describes_other_statuses() {
        assert_eq!(Error::of(12, 0).to_string(), "the indent is not UTF-8");
        assert_eq!(Error::of(13, 48).to_string(), "unknown options 0x30");
        assert_eq!(
            Error::of(14, 31).to_string(),
            "the list of names is cut off at byte 0x1f"
        );
        assert_eq!(Error::of(99, 7).to_string(), "unknown status");
        assert_eq!(
            Error::of(99, 7),
            Error::Other {
                status: 99,
                detail: 7
            }
        );
    }

    #[test]
    fn keeps_the_error_inside() {
        let module = PrintError::from(Error::TooLong);
        assert!(matches!(module, PrintError::Module(Error::TooLong)));
        assert_eq!(module.to_string(), "the text is too long");
        assert!(module.source().is_none());
        assert_eq!(io::Error::from(module).kind(), io::ErrorKind::Other);
        let printer = PrintError::Printer(io::Error::new(io::ErrorKind::BrokenPipe, "no reader"));
        assert_eq!(printer.to_string(), "no reader");
        assert_eq!(io::Error::from(printer).kind(), io::ErrorKind::BrokenPipe);
    }

    #[test]
    fn converts_to_errors_of_writers() {
        let kind_of = |status| io::Error::from(Error::of(status, 0)).kind();
        assert_eq!(kind_of(1), io::ErrorKind::InvalidData);
        assert_eq!(kind_of(11), io::ErrorKind::OutOfMemory);
        assert_eq!(kind_of(99), io::ErrorKind::Other);
    }
}
