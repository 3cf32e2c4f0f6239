//! Calls each function of the library.

use wasmprinter_proved_sys::*;

/// Buffers are filled with this byte before a call.
const GUARD: u8 = 0xa5;

/// Prints a module with a limit over a buffer and a table of one event, and returns them with the status and the result.
fn print(
    wasm: &[u8],
    flags: u32,
    limit: usize,
) -> (u32, WasmprinterResult, [u8; 16], WasmprinterEvent) {
    print_without(wasm, flags, limit, b"")
}

/// Does the same without the custom sections whose names are in a list.
fn print_without(
    wasm: &[u8],
    flags: u32,
    limit: usize,
    omitted: &[u8],
) -> (u32, WasmprinterResult, [u8; 16], WasmprinterEvent) {
    let indent = b"  ";
    let mut out = [GUARD; 16];
    let mut line = WasmprinterEvent {
        start: 1,
        place: 1,
        kind: 99,
    };
    let mut result = WasmprinterResult::default();
    // SAFETY: each pointer and length comes from a reference.
    let status = unsafe {
        wasmprinter_raw_print(
            wasm.as_ptr(),
            wasm.len(),
            flags,
            indent.as_ptr(),
            indent.len(),
            limit,
            omitted.as_ptr(),
            omitted.len(),
            out.as_mut_ptr(),
            out.len(),
            &mut line,
            1,
            &mut result,
        )
    };
    (status, result, out, line)
}

#[test]
fn is_this_release() {
    // SAFETY: these functions have no requirements.
    let (version, revision) = unsafe { (wasmprinter_version(), wasmprinter_revision()) };
    assert_eq!(version, WASMPRINTER_VERSION);
    assert_eq!(revision, WASMPRINTER_REVISION);
}

#[test]
fn prints() {
    for limit in [9, 10, usize::MAX] {
        let (status, result, out, line) = print(b"\0asm\x01\0\0\0", 0, limit);
        assert_eq!(status, WASMPRINTER_OK);
        assert_eq!((result.length, result.count, result.detail), (9, 1, 0));
        assert_eq!(&out[..9], b"(module)\n");
        assert_eq!(out[9..], [GUARD; 7]);
        assert_eq!((line.start, line.place, line.kind), (0, 0, 1));
    }
}

#[test]
fn counts_events() {
    let (status, result, out, event) = print(b"\0asm\x01\0\0\0", WASMPRINTER_EVENTS, usize::MAX);
    assert_eq!(status, WASMPRINTER_OK);
    assert_eq!((result.length, result.count, result.detail), (9, 3, 0));
    assert_eq!(&out[..9], b"(module)\n");
    assert_eq!((event.start, event.place, event.kind), (0, 0, 1));
}

#[test]
fn stops_before_the_limit() {
    for limit in 0..9 {
        let (status, result, out, _) = print(b"\0asm\x01\0\0\0", 0, limit);
        assert_eq!(status, WASMPRINTER_TOO_LONG);
        assert_eq!((result.length, result.count, result.detail), (0, 0, 0));
        let len = out.iter().take_while(|byte| **byte != GUARD).count();
        assert!(len <= limit);
        assert_eq!(&out[..len], &b"(module)\n"[..len]);
        assert!(out[len..].iter().all(|byte| *byte == GUARD));
    }
}

#[test]
fn refuses_unknown_options() {
    let flags = 0x60 | WASMPRINTER_FOLD;
    for limit in [0, 1, usize::MAX] {
        let (status, result, out, _) = print(b"\0asm\x01\0\0\0", flags, limit);
        assert_eq!(status, WASMPRINTER_UNKNOWN_OPTION);
        assert_eq!((result.length, result.count, result.detail), (0, 0, 0x60));
        assert_eq!(out, [GUARD; 16]);
    }
}

#[test]
fn leaves_out_custom_sections() {
    // a custom section `ab` without data
    let wasm = b"\0asm\x01\0\0\0\0\x03\x02ab";
    let (status, result, out, _) = print_without(wasm, 0, 9, b"\x02\0\0\0ab");
    assert_eq!(status, WASMPRINTER_OK);
    assert_eq!((result.length, result.count, result.detail), (9, 1, 0));
    assert_eq!(&out[..9], b"(module)\n");
    let (status, ..) = print_without(wasm, 0, 9, b"\x01\0\0\0a");
    assert_eq!(status, WASMPRINTER_TOO_LONG);
}

#[test]
fn refuses_lists_that_are_cut_off() {
    let lists: [(&[u8], u64); 4] = [
        (b"\x01", 0),
        (b"\x03\0\0\0ab", 0),
        (b"\x02\0\0\0ab\x01\0\0\0", 6),
        (b"\0\0\0\0\xff\xff\xff\xff", 4),
    ];
    for (omitted, place) in lists {
        let (status, result, out, _) = print_without(b"\0asm\x01\0\0\0", 0, 9, omitted);
        assert_eq!(status, WASMPRINTER_INVALID_LIST);
        assert_eq!((result.length, result.count, result.detail), (0, 0, place));
        assert_eq!(out, [GUARD; 16]);
    }
}

#[test]
fn describes_errors() {
    let mut out = [GUARD; WASMPRINTER_ERROR_TEXT_LEN];
    // SAFETY: the pointer and the length are those of the array.
    let length = unsafe {
        wasmprinter_raw_error_text(WASMPRINTER_MALFORMED, 31, out.as_mut_ptr(), out.len())
    };
    assert_eq!(&out[..length], b"malformed module at byte 0x1f");
    assert!(out[length..].iter().all(|byte| *byte == GUARD));
}
