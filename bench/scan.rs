//! Times opening a source and scanning it to EOF: ours through the C functions and through the Rust crate, in each of the
//! ways that they can be called, the original and, where its program is given, go/scanner. In each round each of them makes
//! a few passes over each source, in turn; the quickest pass counts.
//!
//! scan [--go PROGRAM] NAME=FILE..
//! scan --plain FILE..    prints the names of the files that have no ILLEGAL token, as one with a letter above 127 has

mod passes;

/// The original's files; bench/scan makes the link to their folder.
#[allow(dead_code)]
#[path = "../target/bench/original"]
mod original {
    pub mod errors;
    pub mod position;
    pub mod scanner;
    pub mod token;
}

use passes::{timed, Pass};
use std::error::Error;
use std::hint::black_box;
use std::io::{BufRead, BufReader, Write};
use std::process::{Child, ChildStdin, ChildStdout, Command, Stdio};

const ROUNDS: usize = 20;
const PASSES: usize = 5;

type Outcome<T> = Result<T, Box<dyn Error>>;

/// Whether the source has no ILLEGAL token.
fn is_plain(source: &str) -> bool {
    use cifgwezam::{Kind, Scanner};
    Scanner::new(source).is_ok_and(|mut scanner| scanner.tokens().all(|token| token.kind != Kind::Illegal))
}

fn by_original(source: &str) -> usize {
    use original::{errors::ErrorList, position::FileSet, scanner::Scanner, token::Token};
    let mut files = FileSet::new();
    let errors = ErrorList::new();
    let file = files.add_file(String::new(), Some(0), source.len());
    let mut scanner = Scanner::new(file, source, &errors);
    let (mut tokens, mut sum) = (0, 0);
    loop {
        let (token, pos) = scanner.scan();
        tokens += 1;
        sum += pos;
        if black_box(token) == Token::EOF {
            black_box(sum);
            return tokens;
        }
    }
}

/// Number of tokens and nanoseconds of the quickest of a few passes.
fn best(pass: Pass, source: &str) -> (usize, f64) {
    let mut least = f64::INFINITY;
    let mut tokens = 0;
    for _ in 0..PASSES {
        let (taken, seen) = timed(pass, source);
        (least, tokens) = (least.min(taken), seen);
    }
    (tokens, least)
}

/// The program for go/scanner, which waits for the number of a source.
struct Go {
    child: Child,
    ask: ChildStdin,
    answers: BufReader<ChildStdout>,
}

impl Go {
    fn start(program: &str, texts: &[Text]) -> Outcome<Go> {
        let files = texts.iter().map(|text| &text.file);
        let mut child = Command::new(program).args(files).stdin(Stdio::piped()).stdout(Stdio::piped()).spawn()?;
        let ask = child.stdin.take().ok_or("no input")?;
        let answers = BufReader::new(child.stdout.take().ok_or("no output")?);
        Ok(Go { child, ask, answers })
    }

    fn best(&mut self, index: usize) -> Outcome<(usize, f64)> {
        writeln!(self.ask, "{index}")?;
        let mut line = String::new();
        self.answers.read_line(&mut line)?;
        let (tokens, least) = line.trim().split_once(' ').ok_or("no answer by go/scanner")?;
        Ok((tokens.parse()?, least.parse()?))
    }

    fn end(mut self) -> Outcome<()> {
        drop(self.ask);
        self.child.wait()?;
        Ok(())
    }
}

/// The scanners of this program, by short names, and the name of the one that is not of it. The first is ours.
const SCANNERS: [(&str, Pass); 7] = [
    ("C many", passes::c_batches),
    ("C next", passes::c_by_struct),
    ("C scan", passes::c_by_one),
    ("`batch`", passes::rust_batches),
    ("`tokens`", passes::rust_tokens),
    ("`scan`", passes::rust_scan),
    ("original", by_original),
];
const ORIGINAL: usize = 6;
const GO: &str = "Go";

/// A source, its tokens, and for each scanner the nanoseconds of the quickest pass.
struct Text {
    name: String,
    file: String,
    source: String,
    tokens: usize,
    best: Vec<f64>,
}

impl Text {
    fn read(word: &str) -> Outcome<Text> {
        let (name, file) = word.split_once('=').ok_or("usage: scan [--go PROGRAM] NAME=FILE..")?;
        let source = std::fs::read_to_string(file)?;
        let tokens = passes::c_batches(&source);
        if tokens == 0 {
            return Err(format!("{name}: refused").into());
        }
        Ok(Text { name: name.to_string(), file: file.to_string(), source, tokens, best: Vec::new() })
    }

    /// Takes in what a scanner did.
    fn add(&mut self, scanner: usize, (tokens, least): (usize, f64)) -> Outcome<()> {
        if tokens != self.tokens {
            let name = SCANNERS.get(scanner).map_or(GO, |(name, _)| name);
            return Err(format!("{}: {} tokens, {name} has {tokens}", self.name, self.tokens).into());
        }
        if self.best.len() == scanner {
            self.best.push(least);
        }
        self.best[scanner] = self.best[scanner].min(least);
        Ok(())
    }
}

fn measure(texts: &mut [Text], mut go: Option<Go>) -> Outcome<()> {
    for _ in 0..ROUNDS {
        for (index, text) in texts.iter_mut().enumerate() {
            for (scanner, (_, pass)) in SCANNERS.iter().enumerate() {
                text.add(scanner, best(*pass, &text.source))?;
            }
            if let Some(go) = &mut go {
                text.add(SCANNERS.len(), go.best(index)?)?;
            }
        }
    }
    go.map_or(Ok(()), Go::end)
}

fn print_row(text: &Text) {
    print!("| {} | {} | {} |", text.name, text.source.len(), text.tokens);
    for least in &text.best {
        print!(" {:.1} |", least / text.tokens as f64);
    }
    println!();
}

/// Prints nanoseconds a token for each source.
fn print_sources(texts: &[Text], names: &[&str]) {
    println!("Nanoseconds a token, opening and scanning to EOF, time of the scanning thread, the quickest of");
    println!("{} passes:\n", ROUNDS * PASSES);
    println!("| source | bytes | tokens | {} |", names.join(" | "));
    println!("|{}", "---|".repeat(3 + names.len()));
    texts.iter().for_each(print_row);
}

/// Prints for each scanner what it takes for all sources, and how it compares with the original and with Go's.
fn print_scanners(texts: &[Text], names: &[&str]) {
    let bytes: usize = texts.iter().map(|text| text.source.len()).sum();
    let tokens: usize = texts.iter().map(|text| text.tokens).sum();
    let total = |scanner: usize| texts.iter().map(|text| text.best[scanner]).sum::<f64>();
    let others = ORIGINAL..names.len();
    println!("\nAll sources, {bytes} bytes and {tokens} tokens:\n");
    println!("| scanner | ns a token | MB/s | {} |", names[others.clone()].join(" : it | ") + " : it");
    println!("|{}", "---|".repeat(3 + others.len()));
    for (scanner, name) in names.iter().enumerate() {
        let least = total(scanner);
        print!("| {name} | {:.1} | {:.0} |", least / tokens as f64, bytes as f64 * 1e3 / least);
        others.clone().for_each(|other| print!(" {:.2} |", total(other) / least));
        println!();
    }
}

fn print_plain(files: &[String]) -> Outcome<()> {
    for file in files {
        if is_plain(&std::fs::read_to_string(file)?) {
            println!("{file}");
        }
    }
    Ok(())
}

fn main() -> Outcome<()> {
    let mut words: Vec<String> = std::env::args().skip(1).collect();
    if words.first().is_some_and(|word| word == "--plain") {
        return print_plain(&words[1..]);
    }
    let mut program = None;
    if words.len() > 1 && words[0] == "--go" {
        program = Some(words[1].clone());
        words.drain(..2);
    }
    let mut texts = words.iter().map(|word| Text::read(word)).collect::<Outcome<Vec<Text>>>()?;
    if texts.is_empty() {
        return Err("usage: scan [--go PROGRAM] NAME=FILE..".into());
    }
    let go = program.map(|program| Go::start(&program, &texts)).transpose()?;
    measure(&mut texts, go)?;
    let names: Vec<&str> = SCANNERS.iter().map(|(name, _)| *name).chain([GO]).take(texts[0].best.len()).collect();
    print_sources(&texts, &names);
    print_scanners(&texts, &names);
    Ok(())
}
