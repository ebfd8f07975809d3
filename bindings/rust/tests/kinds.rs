//! Kinds: numbers, names, classes and precedences.

use cifgwezam::{Kind, NoKind, Scanner};

#[test]
fn numbers() {
    for (number, kind) in Kind::ALL.into_iter().enumerate() {
        assert_eq!(Kind::try_from(number as u8), Ok(kind));
        assert_eq!(usize::from(kind.number()), number);
    }
    assert_eq!(Kind::try_from(82), Err(NoKind(82)));
    assert_eq!(NoKind(82).to_string(), "82 is not the number of a kind of token");
    assert_eq!([Kind::Eof, Kind::Ident, Kind::Semicolon, Kind::Var].map(Kind::number), [2, 4, 55, 81]);
}

/// Each operator and keyword is the token that its name is.
#[test]
fn names_are_spellings() {
    for kind in Kind::ALL {
        let token = Scanner::new(kind.name()).unwrap().scan();
        let spelled = kind.is_operator() || kind.is_keyword();
        assert_eq!((token.kind == kind, token.inserted), (spelled || kind == Kind::Ident, false), "{kind}");
    }
    assert_eq!(Kind::Ident.to_string(), "IDENT");
    assert_eq!(format!("{:>3}|{:<5}|", Kind::Shl, Kind::If), " <<|if   |");
}

/// The names are those of the proved table.
#[test]
fn names_are_those_of_the_library() {
    let table = include_str!("../../../crates/kinds/src/names.rt");
    let row = |line: &'static str| line.trim().strip_prefix("Kind::")?.split_once(" => \"")?.1.strip_suffix("\",");
    assert!(table.lines().filter_map(row).eq(Kind::ALL.map(Kind::name)));
}

/// The classes part the kinds, in the order of the Go specification.
#[test]
fn classes() {
    let class = |kind: Kind| match (kind.is_literal(), kind.is_operator(), kind.is_keyword()) {
        (false, false, false) => 's',
        (true, false, false) => 'l',
        (false, true, false) => 'o',
        (false, false, true) => 'k',
        _ => '?',
    };
    let classes: String = Kind::ALL.into_iter().map(class).collect();
    assert_eq!(classes, format!("ssss{}{}{}", "l".repeat(6), "o".repeat(47), "k".repeat(25)));
    let literals = Kind::ALL.into_iter().filter(|kind| kind.is_literal());
    assert!(literals.eq([Kind::Ident, Kind::Int, Kind::Float, Kind::Imag, Kind::Char, Kind::String]));
    let word = |kind: &Kind| kind.name().bytes().all(|byte| byte.is_ascii_lowercase());
    assert!(Kind::ALL.iter().all(|kind| word(kind) == kind.is_keyword()));
    assert!(Kind::ALL
        .iter()
        .all(|kind| kind.name().bytes().all(|byte| byte.is_ascii_punctuation()) == kind.is_operator()));
}

#[test]
fn precedences() {
    let levels = ["||", "&&", "== != < <= > >=", "+ - | ^", "* / % << >> & &^"];
    for kind in Kind::ALL {
        let level = levels.iter().position(|names| names.split(' ').any(|name| name == kind.name()));
        assert_eq!(usize::from(kind.precedence()), level.map_or(0, |level| level + 1), "{kind}");
    }
}
