// Runs the original scanner over many inputs and prints the listing of each, then a line with a
// dot.
//
// driver [record | replay] [starts] [base=N]
//
// Standard input holds frames: u32 little-endian byte length, u32 little-endian size, the bytes.
// record prints a line `I size bytes` before each listing; replay reads such lines in place of
// frames.
// starts adds what line_start answers for each line; base=N is for a base other than 0.
mod listing;
mod original;

use listing::{put_hex, recorded_input, End, Listing};
use std::io::{self, BufRead, Read, Write};

fn fail(what: &str) -> ! {
    eprintln!("driver: {what}");
    std::process::exit(1)
}

struct Options {
    echo: bool,
    replay: bool,
    starts: bool,
    base: usize,
}

fn options() -> Options {
    let mut o = Options { echo: false, replay: false, starts: false, base: 0 };
    for word in std::env::args().skip(1) {
        match word.as_str() {
            "record" => o.echo = true,
            "replay" => (o.echo, o.replay) = (true, true),
            "starts" => o.starts = true,
            _ => o.base = base_of(&word),
        }
    }
    o
}

fn base_of(word: &str) -> usize {
    match word.strip_prefix("base=").map(str::parse) {
        Some(Ok(base)) => base,
        _ => fail("usage: driver [record | replay] [starts] [base=N]"),
    }
}

fn put_starts(out: &mut Vec<u8>, source: &str, size: usize, base: usize) -> io::Result<()> {
    let Some(answers) = original::ask(source, base, size, &[]) else { return Ok(()) };
    let asked = answers.line_starts.len() - 1;
    for (line, start) in answers.line_starts.iter().enumerate().take(asked).skip(1) {
        match start {
            Some(start) => writeln!(out, "S {line} {start}")?,
            None => writeln!(out, "S {line} P")?,
        }
    }
    Ok(())
}

fn put_case(out: &mut Vec<u8>, bytes: &[u8], size: usize, o: &Options, listing: &mut Listing) -> io::Result<()> {
    if o.echo {
        write!(out, "I {size} ")?;
        put_hex(out, bytes);
        out.push(b'\n');
    }
    let source = std::str::from_utf8(bytes);
    match source {
        Ok(source) => original::list(source, o.base, size, listing),
        Err(_) => {
            listing.clear();
            listing.end = End::NotUtf8;
        }
    }
    listing.print(out);
    if let (Ok(source), true, End::Whole) = (source, o.starts, listing.end) {
        put_starts(out, source, size, o.base)?;
    }
    out.extend(b".\n");
    Ok(())
}

fn read_number(input: &mut impl Read) -> io::Result<usize> {
    let mut four = [0; 4];
    input.read_exact(&mut four)?;
    Ok(u32::from_le_bytes(four) as usize)
}

// The next frame's size, its bytes in bytes; nothing at the end of the input.
fn read_frame(input: &mut impl BufRead, bytes: &mut Vec<u8>) -> io::Result<Option<usize>> {
    if input.fill_buf()?.is_empty() {
        return Ok(None);
    }
    let length = read_number(input)?;
    let size = read_number(input)?;
    bytes.resize(length, 0);
    input.read_exact(bytes)?;
    Ok(Some(size))
}

// The next recorded input, read like a frame.
fn read_recorded(input: &mut impl BufRead, bytes: &mut Vec<u8>) -> io::Result<Option<usize>> {
    let mut line = String::new();
    while input.read_line(&mut line)? > 0 {
        if line.starts_with("I ") {
            let Some((size, read)) = recorded_input(line.trim_end()) else {
                fail("a recorded input that cannot be read")
            };
            *bytes = read;
            return Ok(Some(size));
        }
        line.clear();
    }
    Ok(None)
}

fn run(o: &Options, input: &mut impl BufRead, output: &mut impl Write) -> io::Result<()> {
    let mut bytes = Vec::new();
    let mut out = Vec::new();
    let mut listing = Listing::default();
    loop {
        let next = if o.replay { read_recorded(input, &mut bytes) } else { read_frame(input, &mut bytes) };
        let Some(size) = next? else { break };
        put_case(&mut out, &bytes, size, o, &mut listing)?;
        if out.len() > 1 << 16 {
            output.write_all(&out)?;
            out.clear();
        }
    }
    output.write_all(&out)
}

fn main() -> io::Result<()> {
    let o = options();
    original::catch_panics();
    run(&o, &mut io::stdin().lock(), &mut io::stdout().lock())
}
