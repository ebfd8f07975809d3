//! Recorded cases: inputs, and the answer to each.

use crate::listing::{put_hex, recorded_input};
use std::collections::HashMap;

/// A case: `I size bytes`, the entries that explain a difference (`D name`, each), the answer, a
/// dot.
#[derive(Debug, Default)]
pub struct Case {
    /// The line `I size bytes`.
    pub input: String,
    pub names: Vec<String>,
    /// The lines of the listing.
    pub answer: String,
}

impl Case {
    /// The size and the bytes of its input.
    pub fn input(&self) -> (usize, Vec<u8>) {
        recorded_input(&self.input).unwrap_or_else(|| fail(&format!("no input: {}", self.input)))
    }
}

fn fail(what: &str) -> ! {
    eprintln!("oracle: {what}");
    std::process::exit(1)
}

/// The cases of a file.
pub fn read(file: &str) -> Vec<Case> {
    let text = std::fs::read_to_string(file).unwrap_or_else(|e| fail(&format!("{file}: {e}")));
    let mut cases = Vec::new();
    let mut case = Case::default();
    for line in text.lines().filter(|line| !line.starts_with('#')) {
        if line == "." {
            cases.push(std::mem::take(&mut case));
        } else if line.starts_with("I ") {
            case.input = line.into();
        } else if let Some(name) = line.strip_prefix("D ") {
            case.names.push(name.into());
        } else {
            case.answer += line;
            case.answer += "\n";
        }
    }
    cases
}

/// The cases by their inputs.
pub fn by_input(cases: &[Case]) -> HashMap<&str, &Case> {
    let map: HashMap<_, _> = cases.iter().map(|case| (case.input.as_str(), case)).collect();
    if map.len() != cases.len() {
        fail("an input is recorded twice");
    }
    map
}

/// The names that docs/DIFFERENCES.md has.
pub fn headings() -> Vec<String> {
    let file = "docs/DIFFERENCES.md";
    let text = std::fs::read_to_string(file).unwrap_or_else(|e| fail(&format!("{file}: {e}")));
    text.lines().filter_map(|line| line.strip_prefix("### ")).map(String::from).collect()
}

/// A line `I size bytes`.
pub fn input_line(size: usize, bytes: &[u8]) -> String {
    let mut line = format!("I {size} ").into_bytes();
    put_hex(&mut line, bytes);
    String::from_utf8_lossy(&line).into_owned()
}
