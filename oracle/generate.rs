// Writes inputs for the scanner: frames of u32 little-endian byte length, u32 little-endian size,
// the bytes.
//
// generate MODE COUNT SEED
//
// inputs.rs lists the modes.
#[rustfmt::skip]
mod inputs;

use std::io::{self, BufWriter, Write};

fn usage() -> ! {
    eprintln!("usage: generate MODE COUNT SEED; a mode is exhaustive, followed, edges, grown, long, damaged or limits");
    std::process::exit(1)
}

fn main() -> io::Result<()> {
    let words: Vec<String> = std::env::args().skip(1).collect();
    let numbers: Vec<usize> = words.iter().skip(1).flat_map(|w| w.parse()).collect();
    let ([mode, _, _], [count, seed]) = (&words[..], &numbers[..]) else { usage() };
    let mut output = BufWriter::new(io::stdout().lock());
    let known = inputs::make(mode, *count, *seed as u64, &mut |text, size| {
        let head = [(text.len() as u32).to_le_bytes(), (size as u32).to_le_bytes()].concat();
        output.write_all(&head).and_then(|()| output.write_all(text)).expect("the output is closed");
    });
    if !known {
        usage();
    }
    output.flush()
}
