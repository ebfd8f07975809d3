//! Runs the program `tokens` over the recorded inputs whose size is their number of bytes, and over
//! texts at its limits. What it prints is the recorded answer: the original's (oracle/recorded.txt),
//! or where they differ ours (oracle/ours.txt). With `--names` it prints the same for people, as
//! docs/LISTING.md describes it. Status 1: it does not.
mod listing;
mod names;
mod recorded;

use names::Names;
use std::io::Write;
use std::process::{Command, Stdio};

const LONGEST: usize = 65_536;

fn printed(program: &str, words: &[&str], text: &[u8]) -> std::io::Result<String> {
    let mut child = Command::new(program).args(words).stdin(Stdio::piped()).stdout(Stdio::piped()).spawn()?;
    child.stdin.take().expect("it is piped").write_all(text)?;
    Ok(String::from_utf8_lossy(&child.wait_with_output()?.stdout).into_owned())
}

// A raw string with a CR, whose text of n + 2 bytes and value of n bytes go to the text area.
fn raw(n: usize) -> Vec<u8> {
    [b"`\r", "a".repeat(n).as_bytes(), b"`"].concat()
}

// Texts at the limits of input, line table, error list and text area, and one with control
// characters; and what the listing ends with.
fn limits() -> [(Vec<u8>, &'static str); 9] {
    [
        (" ".repeat(LONGEST).into(), "65536 1 65537 2 -\nL 1\n"),
        (" ".repeat(LONGEST + 1).into(), "R 2\n"),
        (("\n".repeat(16_383) + "x").into(), "L 16384\n"),
        (("\n".repeat(16_384) + "x").into(), "R 7\n"),
        ("''\n".repeat(1_024).into(), "L 1024\n"),
        ("''\n".repeat(1_025).into(), "R 8\n"),
        (raw(32_767), "L 1\n"),
        (raw(32_768), "R 9\n"),
        ("'\u{9b}\u{b5}\t\u{7f}\u{85}' 08\r\u{1b}\"".into(), "L 1\n"),
    ]
}

fn main() {
    let program = std::env::args().nth(1).expect("usage: program TOKENS");
    let run = |words: &[&str], text: &[u8]| printed(&program, words, text).unwrap_or_else(|e| panic!("{program}: {e}"));
    let names = Names::read();
    let (cases, others) = (recorded::read("oracle/recorded.txt"), recorded::read("oracle/ours.txt"));
    let others = recorded::by_input(&others);
    let (mut passed, mut failed) = (0, 0);
    let mut count = |input: &str, answer: &str, right: bool| {
        if right {
            passed += 1;
        } else {
            failed += 1;
            println!("{input}: the program prints\n{answer}");
        }
    };
    for case in &cases {
        let (size, bytes) = case.input();
        if size == bytes.len() && size <= LONGEST {
            let expected = others.get(case.input.as_str()).copied().unwrap_or(case);
            let (answer, named) = (run(&[], &bytes), run(&["--names"], &bytes));
            count(&case.input, &answer, answer == expected.answer);
            count(&case.input, &named, named == names.listing(&answer, &bytes));
        }
    }
    for (text, end) in limits() {
        let (answer, named) = (run(&[], &text), run(&["--names"], &text));
        let input = format!("{} bytes that end in {end:?}", text.len());
        count(&input, &answer, answer.ends_with(end));
        count(&input, &named, named == names.listing(&answer, &text));
    }
    println!("{passed} passed, {failed} failed");
    std::process::exit(i32::from(failed > 0));
}
