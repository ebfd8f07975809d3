//! Compares the scanner, called through the Rust crate, with go/scanner: kinds, offsets, texts,
//! values and inserted semicolons. Standard input is the stream of oracle/gotokens.go. Every
//! difference must have a reason that docs/DIFFERENCES.md gives. If one has none, the smallest
//! source with such a difference is printed with its place, and the status is 1.

use cifgwezam::{Kind, Refusal, Scanner};
use std::collections::BTreeMap;
use std::io::{self, Read};
use std::process::ExitCode;

/// A token of either scanner. Offsets count bytes; a text is as ours has it.
#[derive(Debug, PartialEq)]
struct Lexeme {
    kind: Kind,
    offset: usize,
    inserted: bool,
    text: Vec<u8>,
    value: Vec<u8>,
    code: u32,
}

/// A token of Go's, and what only Go has of it.
struct Theirs {
    lexeme: Lexeme,
    /// The text as Go gives it.
    text: Vec<u8>,
    /// An error was reported by its scan or before it.
    bad: bool,
    tilde: bool,
}

impl Theirs {
    fn offset(&self) -> usize {
        self.lexeme.offset
    }
}

struct Stream<'a> {
    rest: &'a [u8],
    /// The names of Go's tokens by their numbers.
    names: Vec<&'a [u8]>,
}

impl<'a> Stream<'a> {
    fn new(rest: &'a [u8]) -> Stream<'a> {
        let mut stream = Stream { rest, names: Vec::new() };
        loop {
            match stream.text() {
                [] => return stream,
                name => stream.names.push(name),
            }
        }
    }

    fn take(&mut self, n: usize) -> &'a [u8] {
        let (taken, rest) = self.rest.split_at(n);
        self.rest = rest;
        taken
    }

    fn number(&mut self) -> usize {
        let four = self.take(4).try_into().expect("four bytes");
        u32::from_le_bytes(four) as usize
    }

    fn text(&mut self) -> &'a [u8] {
        let n = self.number();
        self.take(n)
    }

    /// The next token; none after EOF.
    fn token(&mut self) -> Option<Theirs> {
        let number = self.take(1)[0];
        if number == 255 {
            return None;
        }
        let bad = self.take(1)[0] != 0;
        let offset = self.number();
        let name = self.names[usize::from(number)];
        let tilde = name == b"~";
        let kind = kind_of(name);
        let text = self.text().to_vec();
        let value = if kind == Kind::String { self.text().to_vec() } else { Vec::new() };
        let code = if kind == Kind::Char { self.number() as u32 } else { 0 };
        let inserted = kind == Kind::Semicolon && text == b"\n";
        let lexeme = Lexeme { kind, offset, inserted, text: as_ours(kind, &text), value, code };
        Some(Theirs { lexeme, text, bad, tilde })
    }
}

/// Our kind of that name; `~` is no kind of ours.
fn kind_of(name: &[u8]) -> Kind {
    let named = Kind::ALL.iter().find(|kind| kind.name().as_bytes() == name);
    *named.unwrap_or(&Kind::None)
}

/// What ours is to have as the text, given Go's.
fn as_ours(kind: Kind, text: &[u8]) -> Vec<u8> {
    match kind {
        Kind::Comment => comment(text),
        Kind::Int | Kind::Float | Kind::Imag => number(kind, text),
        Kind::Illegal | Kind::Ident | Kind::Char | Kind::String => text.to_vec(),
        _ => Vec::new(),
    }
}

/// No CR, and an LF after a comment to the end of a line.
fn comment(text: &[u8]) -> Vec<u8> {
    let end: &[u8] = if text.starts_with(b"//") { b"\n" } else { b"" };
    text.iter().chain(end).copied().filter(|&byte| byte != b'\r').collect()
}

/// Prefix and exponent in lower case, an o in old octal numbers: integers with a 0 before a digit or
/// an underscore.
fn number(kind: Kind, text: &[u8]) -> Vec<u8> {
    let mut ours = text.to_vec();
    if kind == Kind::Int && matches!(text, [b'0', b'0'..=b'9' | b'_', ..]) {
        ours.insert(1, b'o');
    }
    let prefixed = text.first() == Some(&b'0') && text.get(1).is_some_and(u8::is_ascii_alphabetic);
    for (at, byte) in ours.iter_mut().enumerate() {
        if at == 1 || !prefixed {
            byte.make_ascii_lowercase();
        }
    }
    ours
}

/// All tokens of ours, and how many errors there were.
fn ours(source: &[u8]) -> Result<(Vec<Lexeme>, usize), Refusal> {
    let mut scanner = Scanner::new(source)?;
    let mut lexemes = Vec::new();
    loop {
        let token = scanner.scan();
        lexemes.push(Lexeme {
            kind: token.kind,
            offset: token.range.start,
            inserted: token.inserted,
            text: token.text.into_owned().into_bytes(),
            value: token.value.into_owned(),
            code: token.code.map_or(0, u32::from),
        });
        if token.kind == Kind::Eof {
            return Ok((lexemes, scanner.error_count()));
        }
    }
}

const NUMBER_TEXT: &str = "the text of a number: 017 is 0o17, prefix and e in lower case";
const TWO_COMMENTS: &str = "a comment before another on the line: where the semicolon stands";
const TILDE: &str = "~ is ILLEGAL";
const HEX_FLOAT: &str = "hexadecimal floats";
const DIGIT: &str = "a digit outside its base before i, where go/scanner has no error";
const MARK: &str = "a byte order mark is ILLEGAL";
const DOTS: &str = "two dots are ILLEGAL";
const HIGH: &str = "a character above 127 outside comments and quotes";
const BAD: &str = "an error by both";
const QUIET: &str = "NUL or a byte order mark in comments or quotes, where go/scanner has an error";
const FORM: &str = "a number ends where its form ends, where go/scanner has an error";
const LONG: &str = "longer than 1,048,576 bytes";
const UTF8: &str = "not UTF-8";

/// How a comparison goes on after a difference.
enum Way {
    /// Both after Go's token.
    On(&'static str),
    /// Ours after one token.
    Skip(&'static str),
    Stop(&'static str),
    Unexplained,
}

/// The reason of a difference.
fn reason(ours: &Lexeme, theirs: &Theirs) -> Way {
    if ours.kind == Kind::Illegal && ours.offset == 0 && ours.text == "\u{feff}".as_bytes() {
        return Way::Skip(MARK);
    }
    if ours.offset != theirs.offset() {
        return Way::Unexplained;
    }
    match theirs.lexeme.kind {
        Kind::Float | Kind::Imag => number_reason(&theirs.text),
        Kind::Ident | Kind::Illegal if !theirs.text.is_ascii() => Way::Stop(HIGH),
        _ if ours.kind == Kind::Illegal && theirs.tilde => Way::On(TILDE),
        Kind::Period if ours.kind == Kind::Illegal && ours.text == b".." => Way::Stop(DOTS),
        _ => Way::Unexplained,
    }
}

/// The reason of a difference at a FLOAT or IMAG of Go's.
fn number_reason(text: &[u8]) -> Way {
    let (first, rest) = (text.first().copied().unwrap_or(0), text.get(1..).unwrap_or(&[]));
    let outside = |last: u8| rest.iter().any(|digit| digit.is_ascii_digit() && *digit > last);
    match rest.first().map(u8::to_ascii_lowercase) {
        Some(b'x') if first == b'0' && rest.iter().any(|byte| b".pP".contains(byte)) => Way::On(HEX_FLOAT),
        Some(b'b') if first == b'0' && outside(b'1') => Way::Stop(DIGIT),
        Some(b'o') if first == b'0' && outside(b'7') => Way::Stop(DIGIT),
        _ => Way::Unexplained,
    }
}

/// What was found in all sources, or in one.
#[derive(Default)]
struct Found {
    /// For each reason to go on, the sources and the places.
    passed: BTreeMap<&'static str, (usize, usize)>,
    /// For each reason to stop or to leave a source aside, the sources and the tokens that were not
    /// compared.
    stopped: BTreeMap<&'static str, (usize, usize)>,
    tokens: usize,
    inserted: usize,
}

impl Found {
    fn pass(&mut self, reason: &'static str) {
        self.passed.entry(reason).or_insert((1, 0)).1 += 1;
    }

    fn add(&mut self, one: Found) {
        for (from, to) in [(one.passed, &mut self.passed), (one.stopped, &mut self.stopped)] {
            for (reason, (count, places)) in from {
                let sum = to.entry(reason).or_default();
                *sum = (sum.0 + count, sum.1 + places);
            }
        }
        self.tokens += one.tokens;
        self.inserted += one.inserted;
    }

    /// Compares the errors. Where Go has one, ours has one too, or there is a reason why it is
    /// silent. Where Go has none, ours has none, except for what Go reads and ours does not: a `~`,
    /// a byte order mark at the start, and some numbers.
    fn judged(mut self, errors: usize, reason: Option<&'static str>) -> Option<Found> {
        if let (0, Some(count)) = (errors, self.stopped.get(BAD).copied()) {
            self.stopped.remove(BAD);
            self.stopped.insert(reason?, count);
        }
        let narrow = [HEX_FLOAT, TILDE, MARK].iter().any(|reason| self.passed.contains_key(reason));
        let explained = errors == 0 || narrow || !self.stopped.is_empty();
        explained.then_some(self)
    }
}

/// A comparison under way.
struct Pair<'a> {
    ours: &'a [Lexeme],
    theirs: &'a [Theirs],
    /// Go gave a semicolon that ours gives after one more comment.
    held: bool,
    /// Only comments came since a `~`, which keeps the mark of ours and clears Go's.
    tilde: bool,
    found: Found,
}

impl Pair<'_> {
    /// Compares up to the end or to a reason to stop; else the byte offset of an unexplained
    /// difference.
    fn run(&mut self) -> Result<(), usize> {
        while let Some((next, after)) = self.theirs.split_first() {
            let Some((own, rest)) = self.ours.split_first() else {
                return Err(next.lexeme.offset);
            };
            if next.bad {
                self.found.stopped.insert(BAD, (1, self.theirs.len()));
                return Ok(());
            }
            if own.inserted && self.is_due(own, next) {
                (self.held, self.tilde) = (false, false);
                self.ours = rest;
            } else if next.lexeme == *own && (!self.held || own.kind == Kind::Comment) {
                self.same(next);
                (self.ours, self.theirs) = (rest, after);
            } else if next.lexeme.inserted && own.kind == Kind::Comment && own.offset == next.lexeme.offset {
                self.found.pass(TWO_COMMENTS);
                self.held = true;
                self.theirs = after;
            } else if self.step(own, next)? {
                return Ok(());
            }
        }
        if self.ours.is_empty() {
            Ok(())
        } else {
            Err(self.ours[0].offset)
        }
    }

    /// Whether ours is to have a semicolon here that Go does not have here: one that was held,
    /// before the line's last comment, or one after a `~`.
    fn is_due(&self, own: &Lexeme, next: &Theirs) -> bool {
        if self.held {
            return next.lexeme.kind == Kind::Comment && own.offset == next.offset();
        }
        self.tilde && !next.lexeme.inserted
    }

    fn same(&mut self, next: &Theirs) {
        self.found.tokens += 1;
        self.found.inserted += usize::from(next.lexeme.inserted);
        self.tilde &= next.lexeme.kind == Kind::Comment;
        if matches!(next.lexeme.kind, Kind::Int | Kind::Float | Kind::Imag) && next.text != next.lexeme.text {
            self.found.pass(NUMBER_TEXT);
        }
    }

    /// Goes on after a difference, if there is a reason for it; true where the comparison is to
    /// stop.
    fn step(&mut self, own: &Lexeme, next: &Theirs) -> Result<bool, usize> {
        match reason(own, next) {
            Way::On(reason) => {
                self.found.pass(reason);
                self.tilde = next.tilde;
                let end = next.lexeme.offset + next.text.len().max(1);
                let behind = self.ours.iter().position(|own| own.offset >= end);
                self.ours = &self.ours[behind.unwrap_or(self.ours.len())..];
                self.theirs = &self.theirs[1..];
                // ours may have read the next token of Go's as the end of its own
                let together = self.ours.first().map(|own| own.offset) == self.theirs.first().map(Theirs::offset);
                if !together && !next.tilde {
                    self.found.stopped.insert(reason, (1, self.theirs.len()));
                    return Ok(true);
                }
            }
            Way::Skip(reason) => {
                self.found.pass(reason);
                self.ours = &self.ours[1..];
            }
            Way::Stop(reason) => {
                self.found.stopped.insert(reason, (1, self.theirs.len()));
                return Ok(true);
            }
            Way::Unexplained => return Err(own.offset.min(next.lexeme.offset)),
        }
        Ok(false)
    }
}

/// Why Go has an error at a token and ours has none in all the source.
fn lenient(source: &[u8], bad: &Theirs) -> Option<&'static str> {
    let has = |bytes: &[u8]| source.windows(bytes.len()).any(|part| part == bytes);
    if has(b"\0") || has("\u{feff}".as_bytes()) {
        Some(QUIET)
    } else if matches!(bad.lexeme.kind, Kind::Int | Kind::Float | Kind::Imag) {
        Some(FORM)
    } else {
        None
    }
}

/// What the comparison of one source found; else the byte offset of an unexplained difference.
fn source(source: &[u8], theirs: &[Theirs]) -> Result<Found, usize> {
    let aside = |reason| Found { stopped: [(reason, (1, theirs.len()))].into(), ..Found::default() };
    let bad = theirs.iter().find(|next| next.bad);
    match ours(source) {
        Ok((ours, errors)) => {
            let mut pair = Pair { ours: &ours, theirs, held: false, tilde: false, found: Found::default() };
            pair.run()?;
            pair.found.judged(errors, bad.and_then(|bad| lenient(source, bad))).ok_or(source.len())
        }
        Err(Refusal::TooLong) if source.len() > Scanner::MAX_SOURCE => Ok(aside(LONG)),
        Err(Refusal::NotUtf8 { .. }) if bad.is_some() => Ok(aside(UTF8)),
        Err(_) => Err(0),
    }
}

/// All sources of the stream: their number, what was found, and the unexplained ones by length,
/// name and offset.
fn sources(stream: &mut Stream) -> (usize, Found, Vec<(usize, String, usize)>) {
    let (mut all, mut count) = (Found::default(), 0);
    let mut unexplained = Vec::new();
    while !stream.rest.is_empty() {
        let name = String::from_utf8_lossy(stream.text()).into_owned();
        let bytes = stream.text();
        let theirs: Vec<Theirs> = std::iter::from_fn(|| stream.token()).collect();
        count += 1;
        match source(bytes, &theirs) {
            Ok(found) => all.add(found),
            Err(offset) => unexplained.push((bytes.len(), format!("{name}{}", shown(bytes)), offset)),
        }
    }
    unexplained.sort();
    (count, all, unexplained)
}

/// A short source, to be printed.
fn shown(source: &[u8]) -> String {
    if source.len() > 80 {
        return String::new();
    }
    format!(" ({})", source.escape_ascii())
}

fn main() -> io::Result<ExitCode> {
    let mut input = Vec::new();
    io::stdin().read_to_end(&mut input)?;
    let (count, all, unexplained) = sources(&mut Stream::new(&input));
    let stopped: usize = all.stopped.values().map(|(count, _)| count).sum();
    println!("| beside go/scanner | sources | tokens or places |\n|---|---|---|");
    println!("| all | {count} | {} tokens the same, {} of them inserted semicolons |", all.tokens, all.inserted);
    println!("| compared to the end | {} | |", count - stopped - unexplained.len());
    for (reason, (count, tokens)) in &all.stopped {
        println!("| left aside from there: {reason} | {count} | {tokens} tokens not compared |");
    }
    for (reason, (count, places)) in &all.passed {
        println!("| explained: {reason} | {count} | {places} places |");
    }
    println!("| not explained | {} | |", unexplained.len());
    if let Some((_, name, offset)) = unexplained.first() {
        println!("\nThe smallest source with a difference that is not explained: {name}, at byte {offset}.");
        return Ok(ExitCode::FAILURE);
    }
    Ok(ExitCode::SUCCESS)
}
