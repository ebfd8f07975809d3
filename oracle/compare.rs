// Runs our scanner beside the original, and tells which entry of docs/DIFFERENCES.md explains each
// difference.
//
// compare COUNT [SEED]   the recorded inputs, and COUNT that are made
// compare record         prints oracle/ours.txt
//
// Status 1: a difference that no entry explains.
mod differences;
mod direct;
#[rustfmt::skip]
mod inputs;
mod listing;
mod original;
mod ours;
mod questions;
mod recorded;
mod zeros;

use differences::{Entry, Reasons, NAMES};
use listing::{End, Listing};
use std::time::Instant;

const MAX_SOURCE: usize = 1_048_576;
const MAX_POSITION: usize = u32::MAX as usize;

/// An input for which ours is not what it must be.
struct Fault {
    source: Vec<u8>,
    size: usize,
    /// Its number, by which the other base is chosen.
    number: usize,
    what: String,
}

#[derive(Default)]
struct Counts {
    inputs: usize,
    same: usize,
    explained: usize,
    unexplained: usize,
    tokens: usize,
    errors: usize,
    /// Inputs whose size is below, at and above the number of characters.
    sizes: [usize; 3],
    entries: [usize; NAMES.len()],
    questions: questions::Counts,
}

/// The listings of one input, kept for the next one.
#[derive(Default)]
struct Comparison {
    ours: Listing,
    theirs: Listing,
    raised: Listing,
    total: Counts,
    faults: Vec<Fault>,
}

// A listing in one line.
fn shown(listing: &Listing) -> String {
    let mut out = Vec::new();
    listing.print(&mut out);
    String::from_utf8_lossy(&out).trim_end().replace('\n', " | ")
}

impl Comparison {
    // Ours at base 0 beside the original.
    fn compare(&mut self, source: &[u8], size: usize) -> Result<Reasons, String> {
        ours::list(source, 0, size, &mut self.ours);
        if source.len() > MAX_SOURCE {
            return self.expect_refusal(2, 0, Entry::Length);
        }
        let text = match std::str::from_utf8(source) {
            Err(e) => return self.expect_refusal(1, e.valid_up_to(), Entry::NotUtf8),
            Ok(text) => text,
        };
        original::list(text, 0, size, &mut self.theirs);
        if size < text.chars().count() {
            if self.theirs.end != End::Panic {
                return Err(format!("original: {}", shown(&self.theirs)));
            }
            return self.expect_refusal(3, 0, Entry::Size);
        }
        let expected = differences::expected(text, size, &self.theirs, &self.ours).map_err(|what| {
            let [theirs, ours] = [&self.theirs, &self.ours].map(shown);
            format!("{what}\n  original: {theirs}\n  ours: {ours}")
        })?;
        let (listing, reasons) = match &expected {
            None => (&self.theirs, Reasons::default()),
            Some(expected) => (&expected.listing, expected.reasons),
        };
        if *listing == self.ours {
            return Ok(reasons);
        }
        let [theirs, expected, ours] = [&self.theirs, listing, &self.ours].map(shown);
        Err(format!("original: {theirs}\n  expected: {expected}\n  ours: {ours}"))
    }

    fn expect_refusal(&self, number: u8, place: usize, entry: Entry) -> Result<Reasons, String> {
        if self.ours.end == (End::Refused { number, place }) {
            return Ok(Reasons::of(entry));
        }
        Err(format!("expected: refusal {number}, place {place}\n  ours: {:?}, {}", self.ours.end, shown(&self.ours)))
    }

    // Ours at another base (1, the number of bytes or the largest), called directly and in small
    // buffers, beside ours at base 0. A base above the largest is refused.
    fn compare_bases(&mut self, source: &[u8], size: usize, number: usize) -> Result<(), String> {
        let room = MAX_POSITION - size;
        let base = [1, source.len(), room][number % 3].min(room);
        direct::list(source, base, size, &mut self.raised).map_err(|what| format!("ours at base {base}: {what}"))?;
        if self.raised != self.ours {
            return Err(format!("ours at base {base}: {}\n  at base 0: {}", shown(&self.raised), shown(&self.ours)));
        }
        if self.ours.end == End::Whole && !ours::is_refused(source, room + 1, size, 3) {
            return Err(format!("base {} is not refused", room + 1));
        }
        Ok(())
    }

    fn compare_all(&mut self, source: &[u8], size: usize, number: usize) -> Result<Reasons, String> {
        let reasons = self.compare(source, size)?;
        self.compare_bases(source, size, number)?;
        Ok(reasons)
    }

    // One input, counted. Each 64th short one is asked questions, too.
    fn count(&mut self, source: &[u8], size: usize) {
        let number = self.total.inputs;
        let mut result = self.compare_all(source, size, number);
        if number % 64 == 0 && self.ours.end == End::Whole && source.len() <= 1024 {
            let misplaces = !self.theirs.errors.is_empty();
            let asked = self.total.questions.ask(source, size, &self.ours, misplaces);
            result = result.and_then(|reasons| asked.map(|()| reasons));
        }
        let total = &mut self.total;
        total.inputs += 1;
        total.tokens += self.ours.rows.len();
        total.errors += self.ours.errors.len();
        let n = source.iter().filter(|b| **b & 0xc0 != 0x80).count();
        total.sizes[1 + usize::from(size > n) - usize::from(size < n)] += 1;
        match result {
            Ok(reasons) if reasons.is_empty() => total.same += 1,
            Ok(reasons) => {
                total.explained += 1;
                reasons.places().for_each(|place| total.entries[place] += 1);
            }
            Err(what) => {
                total.unexplained += 1;
                self.keep_fault(Fault { source: source.to_vec(), size, number, what });
            }
        }
    }

    // Keeps the ten smallest inputs.
    fn keep_fault(&mut self, fault: Fault) {
        let at = self.faults.partition_point(|kept| kept.source.len() <= fault.source.len());
        if at < 10 {
            self.faults.insert(at, fault);
            self.faults.truncate(10);
        }
    }

    // Leaves out bytes of an input as long as it stays unexplained.
    fn shrink(&mut self, mut fault: Fault) -> Fault {
        let mut chunk = fault.source.len();
        while chunk > 0 {
            let mut at = 0;
            while at + chunk <= fault.source.len() {
                let source = [&fault.source[..at], &fault.source[at + chunk..]].concat();
                let size = fault.size.saturating_sub(chunk);
                match self.compare_all(&source, size, fault.number) {
                    Err(what) => fault = Fault { source, size, what, ..fault },
                    Ok(_) => at += 1,
                }
            }
            chunk /= 2;
        }
        fault
    }

    fn print_faults(&mut self) {
        let mut seen = Vec::new();
        for fault in std::mem::take(&mut self.faults) {
            let fault = self.shrink(fault);
            let input = recorded::input_line(fault.size, &fault.source);
            if !seen.contains(&input) {
                println!("not explained: {input}\n  {}", fault.what);
                seen.push(input);
            }
        }
    }

    fn print_mode(&mut self, mode: &str, before: [usize; 4], start: Instant) {
        let now = self.numbers();
        let [inputs, same, explained, unexplained] = [0, 1, 2, 3].map(|i| now[i] - before[i]);
        let seconds = start.elapsed().as_secs_f64();
        println!("{mode:10} {inputs:>10} {same:>10} {explained:>10} {unexplained:>13} {seconds:>8.1}");
    }

    fn numbers(&self) -> [usize; 4] {
        [self.total.inputs, self.total.same, self.total.explained, self.total.unexplained]
    }

    fn print_totals(&self) {
        let total = &self.total;
        println!("{} tokens, {} errors of ours", total.tokens, total.errors);
        let [below, at, above] = total.sizes;
        println!("sizes: {below} below the number of characters, {at} equal to it, {above} above it");
        println!("inputs by the entry of docs/DIFFERENCES.md that explains them, some by more than one:");
        for (name, n) in NAMES.iter().zip(total.entries).filter(|(_, n)| *n > 0) {
            println!("{n:>10} {name}");
        }
        total.questions.print();
    }
}

// How many inputs of each mode make so many in all.
fn shares(count: usize) -> [(&'static str, usize); 7] {
    let edges = (count / 20).min(1957);
    let limits = (count / 1000).min(141);
    let exhaustive = (count / 4).min(757_933);
    let long = count / 1000;
    let rest = count - edges - limits - 2 * exhaustive - long;
    let (grown, damaged) = (rest - rest / 2, rest / 2);
    [
        ("edges", edges),
        ("exhaustive", exhaustive),
        ("followed", exhaustive),
        ("grown", grown),
        ("damaged", damaged),
        ("long", long),
        ("limits", limits),
    ]
}

fn run(count: usize, seed: u64) -> i32 {
    let start = Instant::now();
    let mut comparison = Comparison::default();
    println!(
        "{:10} {:>10} {:>10} {:>10} {:>13} {:>8}",
        "inputs", "number", "same", "explained", "not explained", "seconds"
    );
    for case in recorded::read("oracle/recorded.txt") {
        let (size, bytes) = case.input();
        comparison.count(&bytes, size);
    }
    comparison.print_mode("recorded", [0; 4], start);
    for (mode, number) in shares(count) {
        let (before, start) = (comparison.numbers(), Instant::now());
        inputs::make(mode, number, seed, &mut |text, size| comparison.count(text, size));
        comparison.print_mode(mode, before, start);
    }
    comparison.print_mode("all", [0; 4], start);
    comparison.print_totals();
    let unexplained = comparison.total.unexplained;
    comparison.print_faults();
    i32::from(unexplained > 0)
}

// A source as a reader sees it, in quotes.
fn readable(source: &[u8]) -> String {
    match std::str::from_utf8(source) {
        Ok(text) => format!("{text:?}"),
        Err(_) => format!("\"{}\"", source.escape_ascii()),
    }
}

// The recorded cases for which ours differs, with our answers and the entries that explain them.
fn record() -> i32 {
    println!("# Our answers where they differ from the original's. oracle/README.md says how to read them.");
    let mut comparison = Comparison::default();
    for case in recorded::read("oracle/recorded.txt") {
        let (size, bytes) = case.input();
        let result = comparison.compare(&bytes, size);
        let mut answer = Vec::new();
        comparison.ours.print(&mut answer);
        let answer = String::from_utf8_lossy(&answer);
        match result {
            Err(what) => {
                eprintln!("not explained: {}\n  {what}", case.input);
                return 1;
            }
            Ok(_) if answer == case.answer => {}
            Ok(reasons) => {
                let names: String = reasons.places().map(|place| format!("D {}\n", NAMES[place])).collect();
                print!("# {}\n{}\n{names}{answer}.\n", readable(&bytes), case.input);
            }
        }
    }
    0
}

fn main() {
    original::catch_panics();
    let headings = recorded::headings();
    if let Some(name) = NAMES.iter().find(|name| !headings.iter().any(|heading| heading == *name)) {
        eprintln!("compare: docs/DIFFERENCES.md has no entry \"{name}\"");
        std::process::exit(1);
    }
    let words: Vec<String> = std::env::args().skip(1).collect();
    let numbers: Vec<usize> = words.iter().flat_map(|word| word.parse()).collect();
    let status = match (words.first().map(String::as_str), &numbers[..]) {
        (Some("record"), []) => record(),
        (_, [count]) => run(*count, 1),
        (_, [count, seed]) => run(*count, *seed as u64),
        _ => {
            eprintln!("usage: compare COUNT [SEED] | compare record");
            2
        }
    };
    std::process::exit(status);
}
