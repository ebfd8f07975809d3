//! Sources for tests.

use std::fs;

/// A file of the repository.
pub fn file(name: &str) -> Vec<u8> {
    let path = format!("{}/../../{name}", env!("CARGO_MANIFEST_DIR"));
    fs::read(&path).unwrap_or_else(|e| panic!("{path}: {e}"))
}

/// The size and the bytes of a line `I size bytes`, its bytes in hexadecimal.
fn recorded_in(line: &str) -> Option<(usize, Vec<u8>)> {
    let (size, hex) = line.strip_prefix("I ")?.split_once(' ')?;
    let hex = hex.trim_matches('-');
    let byte = |at| u8::from_str_radix(&hex[at..at + 2], 16).unwrap();
    Some((size.parse().unwrap(), (0..hex.len()).step_by(2).map(byte).collect()))
}

/// The recorded inputs of the oracle: size and source. Some are refused.
pub fn recorded() -> Vec<(usize, Vec<u8>)> {
    let text = String::from_utf8(file("oracle/recorded.txt")).unwrap();
    let recorded: Vec<_> = text.lines().filter_map(recorded_in).collect();
    assert!(recorded.len() > 4_000);
    recorded
}

/// Sources with lines, characters of several bytes, changed texts and values, and errors.
pub fn made() -> Vec<String> {
    let mut made: Vec<String> = [
        "",
        "x",
        "x\n",
        "\n\n\n",
        "x:=017\n",
        " \t017\r\n\t0X1F 1E3 // c",
        "a \"b\" \"\\n\" c 'd' 017 `e` ",
        "// c\r\n/* d */ /* \r */ e",
        "/*é*/x 'é' \"ü\\n\" `\r\n語` // \u{1f9ec}\r\n08 y",
        "x /* c */ r\n",
        "`\n",
        "0b 08 0x 1__0 1e '\\k' '\\x' '\\uD800' '' \"\\400\" /*",
        "x '' +\n y \"\\n\" z",
        "x ..\u{feff}~ é #",
    ]
    .map(String::from)
    .into();
    made.push(String::from_utf8(file("examples/lane.go")).unwrap());
    made
}

/// A source of several batches, with lines, a few errors and changed texts.
pub fn long() -> String {
    let plain = "for i := 0; i < len(name); i++ {\n\tleft += 'x' // é\n}\n";
    plain.repeat(20) + "quota = 017 + 08\n" + &plain.repeat(20)
}
