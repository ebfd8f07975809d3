//! Lists the tokens of a file, then its errors.
//!
//!     cargo run --example list -- FILE
//!
//! The status is 1 if the file cannot be read or is refused, or if it has errors.

use cifgwezam::Scanner;
use std::error::Error;
use std::io::{self, BufWriter, Write};
use std::process::ExitCode;

/// Prints `line:column  KIND  text` for each token, and each error; tells whether there was none.
fn list(file: &str, source: &[u8], out: &mut impl Write) -> Result<bool, Box<dyn Error>> {
    let mut scanner = Scanner::new(source)?;
    for token in scanner.tokens() {
        let place = token.position.to_string();
        let text = if token.inserted { "(inserted)".into() } else { token.text.trim_end().replace('\n', "\\n") };
        let line = format!("{place:<6}  {:<7}  {text}", token.kind);
        writeln!(out, "{}", line.trim_end())?;
    }
    for error in scanner.errors() {
        writeln!(out, "{file}:{error}")?;
    }
    Ok(scanner.error_count() == 0)
}

/// Lists a file; tells whether it has no errors.
fn run(file: &str) -> Result<bool, Box<dyn Error>> {
    let source = std::fs::read(file)?;
    let mut out = BufWriter::new(io::stdout().lock());
    let clean = list(file, &source, &mut out)?;
    out.flush()?;
    Ok(clean)
}

fn main() -> ExitCode {
    let mut words = std::env::args().skip(1);
    let (Some(file), None) = (words.next(), words.next()) else {
        eprintln!("usage: list FILE");
        return ExitCode::from(2);
    };
    match run(&file) {
        Ok(true) => ExitCode::SUCCESS,
        Ok(false) => ExitCode::FAILURE,
        Err(error) => {
            eprintln!("list: {file}: {error}");
            ExitCode::FAILURE
        }
    }
}
