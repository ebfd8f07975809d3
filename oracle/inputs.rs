//! Makes inputs for the scanner, a text and a size each; the same ones each time.
//!
//! exhaustive  every short text over small alphabets; if COUNT is below their number, COUNT of
//!             them, drawn in order
//! followed    the same texts, each with blanks after it, so that nothing ends at once
//! edges       every fragment alone, after a set mark, before a line feed and before the end;
//!             drawn likewise
//! grown       COUNT random rows of fragments, at most 200 bytes each
//! long        COUNT random rows of some hundred fragments, their quotes and comments closed
//! damaged     COUNT grown texts with bytes deleted, doubled, swapped, replaced or cut
//! limits      the texts around each limit, COUNT of them at most

// splitmix64
struct Rng(u64);

impl Rng {
    fn next(&mut self) -> u64 {
        self.0 = self.0.wrapping_add(0x9e37_79b9_7f4a_7c15);
        let mut z = self.0;
        z = (z ^ (z >> 30)).wrapping_mul(0xbf58_476d_1ce4_e5b9);
        z = (z ^ (z >> 27)).wrapping_mul(0x94d0_49bb_1331_11eb);
        z ^ (z >> 31)
    }

    fn below(&mut self, n: usize) -> usize {
        (self.next() % n as u64) as usize
    }

    fn pick<'a, T: ?Sized>(&mut self, from: &[&'a T]) -> &'a T {
        from[self.below(from.len())]
    }
}

type Text = Vec<u8>;

const KEYWORDS: &[&str] = &[
    "break", "case", "chan", "const", "continue", "default", "defer", "else", "fallthrough", "for", "func", "go", "goto",
    "if", "import", "interface", "map", "package", "range", "return", "select", "struct", "switch", "type", "var",
];

const OPERATORS: &[&str] = &[
    "+", "-", "*", "/", "%", "&", "|", "^", "<<", ">>", "&^", "+=", "-=", "*=", "/=", "%=", "&=", "|=", "^=", "<<=",
    ">>=", "&^=", "&&", "||", "<-", "++", "--", "==", "<", ">", "=", "!", "!=", "<=", ">=", ":=", "...", "(", "[", "{",
    ",", ".", ")", "]", "}", ";", ":",
];

const WORDS: &[&str] = &[
    "x", "_", "r", "_x9", "i", "e", "x1y2", "Break", "breaks", "brea", "gotos", "iffy", "fallthroug", "fallthroughs",
    "interfac", "interfaces", "continued", "ThisVariableIsExported", "abcdefgh", "abcdefghi",
];

const NUMBERS: &[&str] = &[
    "0", "00", "1", "42", "017", "0600", "0_600", "4_2", "0o17", "0O17", "0o_1", "0b101", "0B101", "0b_1", "0x1F", "0X1F",
    "0xBadFace", "0X_a", "0x1_f", "1.", "0.", "1.5", ".5", "1.e3", "1e3", "1E3", "0e0", "0E0", ".5E+1", "1e-0_2", "1_5.",
    "0i", "7i", "017i", "0o17i", "0b1i", "0xfi", "1.i", ".5i", "1e3i", "1.5E3i", "08", "09", "0128", "0b12", "0b2", "0b",
    "0B", "0o", "0O", "0o8", "0x", "0X", "0xg", "0x_", "0b_", "0o_", "0_", "1_", "1__0", "0__1", "0x1__2", "017_", "01__2",
    "1._5", "1_.5", "1.5_", "1.5__1", "1.5_e1", "1e", "1e+", "1E-", "1e_", "1e_1", "1e1_", "1e1__1", "1e+_1", "0x1.5",
    "0x1p-2", "0x.8p0", "0x15e-2", "072.40", "09.5", "08e1", "019i", "017e1", "1ii", "1x", "1_i", "0xi", "0b1e1", "0_8",
    "0_xBad", "1..", "1...", ".5.5", "1e1.5", "1p-2",
];

const QUOTED: &[&str] = &[
    "''", "'a'", "'ab'", "'abc'", "'a", "'", "'\n", "'a\n", "'ab\n", "'\n'", "'a\n'", "'\\'", "'\\", "'\\''", "'\\\\'",
    "'\\\"'", "'\\n'", "'\\a\\b'", "'\\k'", "'\\\n", "'\\0'", "'\\18'", "'\\000'", "'\\377'", "'\\400'", "'\\777'", "'\\x4'",
    "'\\x41'", "'\\xff'", "'\\x\n", "'\\xg'", "'\\u12e4'", "'\\uD7FF'", "'\\uD800'", "'\\uDFFF'", "'\\uE000'", "'\\u12'",
    "'\\u", "'\\U0010FFFF'", "'\\U00110000'", "'\\UFFFFFFFF'", "'\\U0000D800'", "'\\U00101234", "'\\U0", "'é'", "'本'",
    "'\u{10000}'", "'é本'", "'\u{301}e'", "'\r'", "'\t'", "'\0'", "'\"'", "'`'", "'\u{feff}'", "'\\é'", "'\\xé'",
    "\"\"", "\"a\"", "\"", "\"a", "\"a\n", "\"\n\"", "\"a\\", "\"\\\"\"", "\"\\'\"", "\"\\\\\"", "\"\\a\\b\\f\\n\\r\\t\\v\"",
    "\"\\k\"", "\"\\\n\"", "\"\\000\"", "\"\\101\"", "\"\\177\\200\"", "\"\\377\"", "\"\\400\"", "\"\\4", "\"\\48\"",
    "\"\\x7f\"", "\"\\x80\"", "\"\\xff\\u00FF\"", "\"\\xc3\\xbf\"", "\"\\x\"", "\"\\x4\n\"", "\"\\xF\"", "\"\\u65e5\"",
    "\"\\u\"", "\"\\u0\n\"", "\"\\uD800\"", "\"\\uDFFF\"", "\"\\U00010000\"", "\"\\U0010FFFF\"", "\"\\U00110000\"",
    "\"\\UFFFFFFFF\"", "\"\\U0000DC00\"", "\"\\U", "\"é\"", "\"日本語\"", "\"a\rb\"", "\"\0\"", "\"'\"", "\"`\"", "\"//\"",
    "\"/*\"", "\"\\é\"", "``", "`a`", "`", "`a", "`\n", "`\n`", "`a\nb\n`", "`\r`", "`a\r\nb`", "`\r", "`\\n`", "`\"'`",
    "`é本`", "`é\r`", "`//`",
];

const COMMENTS: &[&str] = &[
    "//", "//\n", "// c\n", "// c", "//\r\n", "// a\rb\r\n", "// a\r", "// é\n", "///\n", "// /* \n", "//*/\n", "/**/",
    "/***/", "/* c */", "/* c\n*/", "/*\r*/", "/* *\r/ */", "/* c", "/*", "/*/", "/*/*/", "/* *", "/* \n", "/* é */",
    "/* a\rb */", "/* // */", "/* c */ ", "/* c */\t", "/* c */\r", "/* c */r", "/* c */ r", "/* c */rr", "/* c */\rr",
    "/* c */ \r\t", "/* c *//* d */", "/* c *//* d\n*/", "/* c */// d\n", "/*\n*/r", "/**/\r\n",
];

const ODD: &[&str] = &[
    "~", "#", "$", "?", "@", "\\", "\0", "\u{7f}", "\u{b}", "\u{feff}", "..", "....", ".....", ".", "\u{80}", "é", "xé",
    "éx", "Ⅷ", "x٣", "٣", "日本", "\u{2028}", "\u{a0}", "\u{fffd}", "\u{1f600}", "\u{10ffff}", "x\u{301}", "&^^", "<<-", "<-=",
    "+++", "---", "====", ":==", "&&&", "|||=", "!==", ">>>=", "/=/", "*/", "%%=",
];

const SOUND: &[&str] = &[
    "'a'", "'\\n'", "'本'", "'\\''", "\"\"", "\"a\\tb\"", "\"é\"", "\"\\u65e5\"", "`a\nb`", "`a\r\nb`", "// c\n", "// a\r\n",
    "/* c */", "/* c\n*/", "/* é */",
];

const BLANKS: &[&str] = &["", " ", " ", " ", "\n", "\n", "\t", "\r", "\r\n", "  \n\n", ";", "\n\r\n\t "];

const FRAGMENTS: &[&[&str]] = &[KEYWORDS, OPERATORS, WORDS, NUMBERS, QUOTED, COMMENTS, ODD];

// The pieces of an alphabet, and how many of them a text has at most.
const ALPHABETS: &[(&[&str], usize)] = &[
    (&["0", "1", "8", "9", "_", "x", "b", "o", "e", ".", "i", "+"], 5),
    (&["0", "1", "7", "8", "_", "X", "B", "O", "E", "i", "A", "-"], 4),
    (&["'", "\"", "\\", "a", "n", "x", "0", "4", "\n", "u"], 5),
    (&["'", "\"", "\\", "\\x", "41", "\\u00", "\\3", "77", "\\U0010", "D800", "\n", "é"], 4),
    (&["/", "*", "\n", "\r", " ", "r"], 6),
    (&["/", "/*", "*/", "//", "\n", "\r", " ", "r", "\t"], 5),
    (&["`", "\r", "\n", "a", "é"], 6),
    (&[".", "+", "-", "<", "=", "&", "^", "|", "!", ":", ">", "*", "/", "%"], 4),
    (&[";", "\n", " ", "a", "if", "go", "to", "break", "return", "(", ")", "]", "}", ",", "++", "--"], 4),
    (&["a", "é", "٣", "Ⅷ", "~", "#", "\0", "\u{feff}", "\n", ".."], 4),
];

fn bytes_of(pieces: &[&str]) -> Text {
    pieces.concat().into_bytes()
}

// Every text of 0 to most pieces.
fn all_over(alphabet: &[&str], most: usize, each: &mut dyn FnMut(Text)) {
    let k = alphabet.len();
    for length in 0..=most as u32 {
        for number in 0..k.pow(length) {
            let piece = |place| alphabet[number / k.pow(place) % k];
            each((0..length).flat_map(|place| piece(place).bytes()).collect());
        }
    }
}

fn all_pairs_of_bytes(each: &mut dyn FnMut(Text)) {
    for a in 0..=255 {
        each(vec![a]);
        for b in 0..=255 {
            each(vec![a, b]);
        }
    }
}

fn exhaustive(each: &mut dyn FnMut(Text)) {
    for (alphabet, most) in ALPHABETS {
        all_over(alphabet, *most, each);
    }
    all_pairs_of_bytes(each);
}

// Many scans in one call take their quick way only where some bytes are left.
fn followed(each: &mut dyn FnMut(Text)) {
    exhaustive(&mut |text| each([text, repeat(" ", 20)].concat()));
}

fn edges(each: &mut dyn FnMut(Text)) {
    for fragment in FRAGMENTS.concat() {
        each(bytes_of(&[fragment]));
        each(bytes_of(&["x ", fragment]));
        each(bytes_of(&[fragment, "\n"]));
        each(bytes_of(&["x", fragment, "\nr\n"]));
        each(bytes_of(&["+\n\n", fragment, " r"]));
    }
    for bad in [&b"\xff"[..], b"x\xc3", b"\"\xed\xa0\x80\"", b"`\xf4\x90\x80\x80`", b"/*\xc0\x80*/", b"\xe2\x82", b"\x80"] {
        each(bad.to_vec());
    }
}

fn word(rng: &mut Rng) -> Text {
    let letters = b"abcdefghijklmnopqrstuvwxyzABCXYZ_0189";
    let length = 1 + rng.below(12);
    (0..length).map(|_| letters[rng.below(letters.len())]).collect()
}

// A quote, some pieces, perhaps the same quote.
fn quotation(rng: &mut Rng) -> Text {
    let pieces = [
        "a", "b", " ", "é", "本", "\\n", "\\\\", "\\'", "\\\"", "\\x4a", "\\xe9", "\\101", "\\351", "\\u00e9", "\\U0001F600", "\r",
        "//", "/*", "'", "\"", "`", "\n", "\\", "\\400", "\\uD800",
    ];
    let quote = rng.pick(&["'", "\"", "\"", "`"]);
    let good = rng.below(3) > 0;
    let from = if good { &pieces[..18] } else { &pieces[..] };
    let mut text = bytes_of(&[quote]);
    for _ in 0..rng.below(5) {
        text.extend(rng.pick(from).bytes());
    }
    if good || rng.below(2) == 0 {
        text.extend(quote.bytes());
    }
    text
}

fn fragment(rng: &mut Rng) -> Text {
    match rng.below(12) {
        0 => word(rng),
        1 => quotation(rng),
        2 => rng.pick(&["x", "y", ")", "}", "return"]).into(),
        k => {
            let list = FRAGMENTS[k % FRAGMENTS.len()];
            rng.pick(list).into()
        }
    }
}

fn sound_fragment(rng: &mut Rng) -> Text {
    let list = rng.pick(&[KEYWORDS, OPERATORS, WORDS, NUMBERS, SOUND]);
    rng.pick(list).into()
}

fn grow(rng: &mut Rng, make: fn(&mut Rng) -> Text, fragments: usize, most: usize) -> Text {
    let mut text = Text::new();
    for _ in 0..fragments {
        let mut next = make(rng);
        next.extend(rng.pick(BLANKS).bytes());
        if text.len() + next.len() > most {
            break;
        }
        text.extend(next);
    }
    text
}

fn grown(rng: &mut Rng) -> Text {
    let fragments = 1 + rng.below(12);
    grow(rng, fragment, fragments, 200)
}

fn long(rng: &mut Rng) -> Text {
    let fragments = 100 + rng.below(900);
    grow(rng, sound_fragment, fragments, 65536)
}

fn damage(rng: &mut Rng, text: &mut Text) {
    if text.is_empty() {
        return;
    }
    let at = rng.below(text.len());
    let other = rng.below(text.len());
    match rng.below(6) {
        0 => drop(text.remove(at)),
        1 => text.insert(at, text[at]),
        2 => text.swap(at, other),
        3 => text[at] = rng.below(256) as u8,
        4 => text[at] = rng.pick(&["'", "\"", "\\", "\n", "`", "*", "/", "0", "_", "\r"]).as_bytes()[0],
        _ => text.truncate(at),
    }
}

fn damaged(rng: &mut Rng) -> Text {
    let mut text = grown(rng);
    for _ in 0..1 + rng.below(3) {
        damage(rng, &mut text);
    }
    text
}

fn repeat(piece: &str, times: usize) -> Text {
    piece.repeat(times).into_bytes()
}

// A text of so many bytes: a start, a piece again and again, blanks, an end.
fn filled(start: &str, piece: &str, end: &str, bytes: usize) -> Text {
    let room = bytes - start.len() - end.len();
    let times = room / piece.len();
    [start.into(), repeat(piece, times), repeat(" ", room - times * piece.len()), end.into()].concat()
}

fn around(n: usize) -> std::ops::RangeInclusive<usize> {
    n - 1..=n + 1
}

// Texts about as long as the program and the library take.
fn long_texts(each: &mut dyn FnMut(Text)) {
    for bytes in around(65536).chain(around(1_048_576)) {
        each(filled("", "a", "", bytes));
        each(filled("", " ", "", bytes));
        each(filled("", "\n", "", bytes));
        each(filled("\"", "é", "\"", bytes));
        each(filled("x //", "本", "\n", bytes));
        each(filled("/*", "a\r", "*/", bytes));
        each(filled("", "+", "0", bytes));
        each(filled("'", "a", "'", bytes));
        each(filled("`", "\n", "", bytes));
        each(filled("\"", "\\u00e9", "\"", bytes));
        each(filled("0X", "f", "", bytes));
    }
}

fn many_lines(each: &mut dyn FnMut(Text)) {
    for lines in 16382..=16385 {
        each(repeat("\n", lines));
        each([repeat("\n", lines), b"x".to_vec()].concat());
        each(repeat("x\n", lines));
        each([b"`".to_vec(), repeat("\n", lines), b"`".to_vec()].concat());
        each([b"/*".to_vec(), repeat("\n", lines), b"*/".to_vec()].concat());
        each(repeat("//\n", lines));
    }
}

fn many_errors(each: &mut dyn FnMut(Text)) {
    for errors in around(1024) {
        each(repeat("0b ", errors));
        each(repeat("\"\n", errors));
        each(repeat("'\\k ", errors));
        each([repeat("1_ ", errors), b"`".to_vec()].concat());
    }
}

// Texts and values about as long as the program's text area holds.
fn written_texts(each: &mut dyn FnMut(Text)) {
    for length in 32765..=32769 {
        each([b"`\r".to_vec(), repeat("a", length), b"`".to_vec()].concat());
        each([b"`\r".to_vec(), repeat("a", length)].concat());
    }
    for bytes in 65533..=65536 {
        each(filled("//", "a", "", bytes));
        each(filled("//\r", "a", "", bytes));
        each(filled("//", "a", "\n", bytes));
        each(filled("0", "7", "", bytes));
        each(filled("1E", "7", "", bytes));
        each(filled("\"\\n", "a", "\"", bytes));
        each(filled("`\r", "\r", "`", bytes));
    }
}

fn limits(each: &mut dyn FnMut(Text)) {
    each(Text::new());
    many_lines(each);
    many_errors(each);
    written_texts(each);
    long_texts(each);
}

fn characters(text: &[u8]) -> usize {
    text.iter().filter(|b| **b & 0xc0 != 0x80).count()
}

// The byte count as a rule; else the characters, one more, one less, or a large number.
fn size_for(rng: &mut Rng, text: &[u8]) -> usize {
    match rng.below(16) {
        0 | 1 => characters(text),
        2 | 3 => characters(text) + 1,
        4 => u32::MAX as usize,
        5 if rng.below(8) == 0 => characters(text).saturating_sub(1),
        _ => text.len(),
    }
}

/// A text and its size.
pub type Each<'a> = &'a mut dyn FnMut(&[u8], usize);

fn make_each(rng: &mut Rng, count: usize, make: fn(&mut Rng) -> Text, each: Each) {
    for _ in 0..count {
        let text = make(rng);
        let size = size_for(rng, &text);
        each(&text, size);
    }
}

// Of a whole list, so many as are wanted, each as likely as any other.
fn draw_each(rng: &mut Rng, wanted: usize, list: fn(&mut dyn FnMut(Text)), each: Each) {
    let mut left = 0;
    list(&mut |_| left += 1);
    let mut wanted = wanted;
    list(&mut |text| {
        if rng.below(left) < wanted {
            let size = size_for(rng, &text);
            each(&text, size);
            wanted -= 1;
        }
        left -= 1;
    });
}

/// Makes the inputs of a mode. False if there is no such mode.
pub fn make(mode: &str, count: usize, seed: u64, each: Each) -> bool {
    let rng = &mut Rng(seed);
    match mode {
        "exhaustive" => draw_each(rng, count, exhaustive, each),
        "followed" => draw_each(rng, count, followed, each),
        "edges" => draw_each(rng, count, edges, each),
        "limits" => draw_each(rng, count, limits, each),
        "grown" => make_each(rng, count, grown, each),
        "long" => make_each(rng, count, long, each),
        "damaged" => make_each(rng, count, damaged, each),
        _ => return false,
    }
    true
}
