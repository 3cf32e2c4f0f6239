//! Lets large allocations of this crate fail, and measures its largest allocation.

use std::alloc::{GlobalAlloc, Layout, System};
use std::cell::Cell;
use wasmprinter::{Config, Error};

/// The empty module.
const EMPTY: &[u8] = b"\0asm\x01\0\0\0";

/// A module with one type.
const ONE_TYPE: &[u8] = b"\0asm\x01\0\0\0\x01\x04\x01\x60\0\0";

/// Returns a module with a function of 4000 `nop`s.
fn with_nops() -> Vec<u8> {
    let mut wasm = ONE_TYPE.to_vec();
    wasm.extend(b"\x03\x02\x01\0\x0a\xa5\x1f\x01\xa2\x1f\0");
    wasm.extend([0x01; 4000]);
    wasm.push(0x0b);
    wasm
}

thread_local! {
    /// Allocations of this thread that are longer than this number of bytes fail.
    static MOST: Cell<usize> = const { Cell::new(usize::MAX) };

    /// The length of the largest allocation of this thread.
    static LARGEST: Cell<usize> = const { Cell::new(0) };
}

/// The system's allocator, except that it refuses long allocations. A panic may allocate.
struct Limited;

// SAFETY: each call is passed to the system's allocator, or returns null, which means that the allocation failed.
unsafe impl GlobalAlloc for Limited {
    unsafe fn alloc(&self, layout: Layout) -> *mut u8 {
        if layout.size() > MOST.with(Cell::get) && !std::thread::panicking() {
            return std::ptr::null_mut();
        }
        LARGEST.with(|cell| cell.set(cell.get().max(layout.size())));
        // SAFETY: the requirements are the same.
        unsafe { System.alloc(layout) }
    }

    unsafe fn dealloc(&self, block: *mut u8, layout: Layout) {
        // SAFETY: the requirements are the same.
        unsafe { System.dealloc(block, layout) }
    }
}

#[global_allocator]
static ALLOCATOR: Limited = Limited;

/// Lets all allocations succeed when it is dropped.
struct Reset;

impl Drop for Reset {
    fn drop(&mut self) {
        MOST.with(|cell| cell.set(usize::MAX));
    }
}

/// Calls a function while allocations of more than `most` bytes fail.
fn with_most<T>(most: usize, call: impl FnOnce() -> T) -> T {
    let _reset = Reset;
    MOST.with(|cell| cell.set(most));
    call()
}

/// There is no memory for the first buffer, but for the text.
#[test]
fn prints_with_little_memory() {
    let config = Config::new();
    let text = with_most(64, || config.print_to_string(EMPTY));
    assert_eq!(text.as_deref(), Ok("(module)\n"));
    let mut storage = String::new();
    let lines = with_most(64, || config.offsets_and_lines(EMPTY, &mut storage));
    assert!(lines.expect("lines").eq([(Some(0), "(module)\n")]));
}

/// No allocation for the text is longer than the limit.
#[test]
fn allocates_no_more_than_the_limit() {
    let mut config = Config::new();
    for (limit, text) in [
        (8, Err(Error::TooLong)),
        (9, Ok("(module)\n")),
        (100, Ok("(module)\n")),
    ] {
        config.limit(Some(limit));
        LARGEST.with(|cell| cell.set(0));
        let printed = config.print_to_string(EMPTY);
        assert_eq!(LARGEST.with(Cell::get), limit);
        assert_eq!(printed.as_deref().map_err(|error| *error), text);
    }
}

/// The first allocation has 32 bytes for each of the 4026 bytes of the module, and 4096 more. Only a longer text needs a second one.
#[test]
fn allocates_again_for_a_long_text() {
    let wasm = with_nops();
    let mut config = Config::new();
    for (indent, length, largest) in [
        (2, 32059, 132928),
        (8, 80077, 132928),
        (14, 128095, 132928),
        (15, 136098, 136098),
    ] {
        config.indent_text(" ".repeat(indent));
        LARGEST.with(|cell| cell.set(0));
        let text = config.print_to_string(&wasm).expect("a text");
        assert_eq!(LARGEST.with(Cell::get), largest);
        assert_eq!(text.len(), length);
    }
}

#[test]
fn reports_that_memory_is_missing() {
    let mut config = Config::new();
    config.indent_text(" ".repeat(5000));
    let text = with_most(4999, || config.print_to_string(ONE_TYPE));
    assert_eq!(text, Err(Error::Memory));
    // There is memory for the text, but not to append it.
    let mut storage = "before\n".repeat(100);
    let lines = with_most(5200, || {
        config.offsets_and_lines(ONE_TYPE, &mut storage).err()
    });
    assert_eq!(lines, Some(Error::Memory));
    assert_eq!(storage, "before\n".repeat(100));
}
