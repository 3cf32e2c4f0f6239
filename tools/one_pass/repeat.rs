//! `repeat FILE N` prints the module in the file N times to a string. For tools/one_pass.py.

fn main() -> Result<(), Box<dyn std::error::Error>> {
    let words: Vec<String> = std::env::args().collect();
    let [_, path, count] = words.as_slice() else {
        return Err("usage: repeat FILE N".into());
    };
    let wasm = std::fs::read(path)?;
    for _ in 0..count.parse()? {
        std::hint::black_box(wasmprinter::print_bytes(&wasm)?);
    }
    Ok(())
}
