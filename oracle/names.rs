//! The listing for people that `tokens --names` must print, made of the listing in numbers. The names
//! of kinds and the words of errors and refusals come from docs/LISTING.md.

use std::collections::HashMap;

const PAGE: &str = "docs/LISTING.md";

/// The names of the kinds, and the words of errors and refusals, by number.
pub struct Names {
    kinds: HashMap<usize, String>,
    errors: HashMap<usize, String>,
    refusals: HashMap<usize, String>,
}

/// The cells of a row of a table.
fn cells(row: &str) -> Vec<String> {
    let row = row.replace("\\|", "\u{1}");
    let cell = |cell: &str| cell.trim().trim_matches('`').replace('\u{1}', "|");
    row.split('|').skip(1).map(cell).collect()
}

/// The rows of the section with a heading.
fn rows(page: &str, heading: &str) -> Vec<Vec<String>> {
    let section = page.split("\n## ").find(|section| section.starts_with(heading)).unwrap_or("");
    section.lines().filter(|line| line.starts_with("| ")).map(cells).collect()
}

/// The words of a section whose rows are a number, a name and words.
fn words(page: &str, heading: &str) -> HashMap<usize, String> {
    rows(page, heading).iter().filter_map(|row| Some((row[0].parse().ok()?, row[2].clone()))).collect()
}

impl Names {
    pub fn read() -> Names {
        let page = std::fs::read_to_string(PAGE).unwrap_or_else(|e| panic!("{PAGE}: {e}"));
        let rows = rows(&page, "Kinds");
        let pairs = rows.iter().flat_map(|row| row.chunks_exact(2));
        let kinds: HashMap<_, _> = pairs.filter_map(|pair| Some((pair[0].parse().ok()?, pair[1].clone()))).collect();
        assert_eq!(kinds.len(), 82, "{PAGE}: the kinds");
        Names { kinds, errors: words(&page, "Errors"), refusals: words(&page, "Refusals") }
    }

    /// The listing for people of a source, by its listing in numbers.
    pub fn listing(&self, numbers: &str, source: &[u8]) -> String {
        let mut errors = 0;
        let line = |line: &str| {
            let words: Vec<&str> = line.split(' ').collect();
            errors += usize::from(words[0] == "E");
            match words[0] {
                "E" => self.error(number(words[2]), number(words[3]), number(words[4]), source),
                "L" => counted(number(words[1]), "line") + ", " + &counted(errors, "error") + "\n",
                "R" => self.refused(number(words[1]), source),
                _ => self.token(words[1], words[2], number(words[3]), words[4]),
            }
        };
        numbers.lines().map(line).collect()
    }

    fn token(&self, line: &str, column: &str, kind: usize, text: &str) -> String {
        let place = format!("{line}:{column}");
        let name = &self.kinds[&kind];
        let shown = match (kind, text) {
            (55, "-") => "(inserted)".to_string(),
            (55, _) | (_, "-") => return format!("{place:<6}  {name}\n"),
            _ => visible(&bytes(text)),
        };
        format!("{place:<6}  {name:<7}  {shown}\n")
    }

    /// The words, the line of the source and the caret below it.
    fn error(&self, line: usize, column: usize, error: usize, source: &[u8]) -> String {
        let source = std::str::from_utf8(source).expect("it was opened");
        let text: String = source.split('\n').nth(line - 1).unwrap_or("").chars().map(plain).collect();
        let below = text.chars().map(|c| if c == '\t' { c } else { ' ' });
        let margin: String = below.chain(std::iter::repeat(' ')).take(column - 1).collect();
        format!("{line}:{column}: {}\n    {text}\n    {margin}^\n", self.errors[&error])
    }

    fn refused(&self, refusal: usize, source: &[u8]) -> String {
        let place = match std::str::from_utf8(source) {
            Err(bad) if refusal == 1 => format!(": byte {}, from 0, belongs to no character", bad.valid_up_to()),
            _ => String::new(),
        };
        format!("refused: {}{place}\n", self.refusals[&refusal])
    }
}

fn number(word: &str) -> usize {
    word.parse().unwrap_or_else(|_| panic!("{word} is no number"))
}

fn bytes(hex: &str) -> Vec<u8> {
    let digit = |at| u8::from_str_radix(&hex[at..at + 2], 16).expect("hexadecimal");
    (0..hex.len()).step_by(2).map(digit).collect()
}

/// A control character takes one column; only a tab is itself.
fn plain(c: char) -> char {
    if c != '\t' && c.is_control() {
        ' '
    } else {
        c
    }
}

/// A text with its control characters made visible, and without a line feed at its end.
fn visible(text: &[u8]) -> String {
    let text = text.strip_suffix(b"\n").unwrap_or(text);
    let shown = |c: char| match c {
        '\n' => "\\n".to_string(),
        '\r' => "\\r".to_string(),
        c if c != '\t' && c.is_ascii_control() => format!("\\x{:02x}", u32::from(c)),
        c if c != '\t' && c.is_control() => format!("\\u{:04x}", u32::from(c)),
        c => c.to_string(),
    };
    String::from_utf8_lossy(text).chars().map(shown).collect()
}

/// A number of things.
fn counted(n: usize, thing: &str) -> String {
    format!("{n} {thing}{}", if n == 1 { "" } else { "s" })
}
