//! The kinds of tokens.

use std::fmt;

/// Makes the enum, the list of its cases and that of their names from one table.
macro_rules! kinds {
    ($($kind:ident $name:literal,)*) => {
        /// The kind of a token. It is shown by its [name](Kind::name).
        ///
        /// ```
        /// # use cifgwezam::Kind;
        /// assert!(Kind::Shl.is_operator());
        /// assert_eq!((Kind::Shl.precedence(), Kind::Not.precedence()), (5, 0));
        /// assert_eq!((Kind::Shl.to_string(), Kind::Ident.to_string()), ("<<".into(), "IDENT".into()));
        /// ```
        #[derive(Clone, Copy, Debug, PartialEq, Eq, Hash, PartialOrd, Ord)]
        #[repr(u8)]
        pub enum Kind {
            $(#[doc = concat!("`", $name, "`")] $kind,)*
        }

        impl Kind {
            /// All kinds, in the order of their numbers.
            pub const ALL: [Kind; 82] = [$(Kind::$kind,)*];

            const NAMES: [&'static str; 82] = [$($name,)*];
        }
    };
}

kinds! {
    None "NONE",
    Illegal "ILLEGAL",
    Eof "EOF",
    Comment "COMMENT",
    Ident "IDENT",
    Int "INT",
    Float "FLOAT",
    Imag "IMAG",
    Char "CHAR",
    String "STRING",
    Add "+",
    Sub "-",
    Mul "*",
    Quo "/",
    Rem "%",
    And "&",
    Or "|",
    Xor "^",
    Shl "<<",
    Shr ">>",
    AndNot "&^",
    AddAssign "+=",
    SubAssign "-=",
    MulAssign "*=",
    QuoAssign "/=",
    RemAssign "%=",
    AndAssign "&=",
    OrAssign "|=",
    XorAssign "^=",
    ShlAssign "<<=",
    ShrAssign ">>=",
    AndNotAssign "&^=",
    Land "&&",
    Lor "||",
    Arrow "<-",
    Inc "++",
    Dec "--",
    Eql "==",
    Lss "<",
    Gtr ">",
    Assign "=",
    Not "!",
    Neq "!=",
    Leq "<=",
    Geq ">=",
    Define ":=",
    Ellipsis "...",
    Lparen "(",
    Lbrack "[",
    Lbrace "{",
    Comma ",",
    Period ".",
    Rparen ")",
    Rbrack "]",
    Rbrace "}",
    Semicolon ";",
    Colon ":",
    Break "break",
    Case "case",
    Chan "chan",
    Const "const",
    Continue "continue",
    Default "default",
    Defer "defer",
    Else "else",
    Fallthrough "fallthrough",
    For "for",
    Func "func",
    Go "go",
    Goto "goto",
    If "if",
    Import "import",
    Interface "interface",
    Map "map",
    Package "package",
    Range "range",
    Return "return",
    Select "select",
    Struct "struct",
    Switch "switch",
    Type "type",
    Var "var",
}

/// For each kind, how many bytes its tokens have where these are always the same: operators and keywords.
const SPELLED: [u8; 82] = {
    let mut lengths = [0; 82];
    let mut number = Kind::Add as usize;
    while number < lengths.len() {
        lengths[number] = Kind::NAMES[number].len() as u8;
        number += 1;
    }
    lengths
};

impl Kind {
    /// Its number, from 0: its place in [`Kind::ALL`], and the same in the C interface.
    #[inline]
    pub const fn number(self) -> u8 {
        self as u8
    }

    /// The spelling of an operator or a keyword; for the others a name in capitals.
    pub const fn name(self) -> &'static str {
        Kind::NAMES[self as usize]
    }

    /// The precedence of a binary operator: 1 for `||` to 5 for `*` and its like, as the Go specification has it. It is 0
    /// for every other kind.
    pub const fn precedence(self) -> u8 {
        match self {
            Kind::Lor => 1,
            Kind::Land => 2,
            Kind::Eql | Kind::Neq | Kind::Lss | Kind::Leq | Kind::Gtr | Kind::Geq => 3,
            Kind::Add | Kind::Sub | Kind::Or | Kind::Xor => 4,
            Kind::Mul | Kind::Quo | Kind::Rem | Kind::Shl | Kind::Shr | Kind::And | Kind::AndNot => 5,
            _ => 0,
        }
    }

    /// Whether it is an identifier, or a literal of a number, a character or a string.
    pub const fn is_literal(self) -> bool {
        self.is_between(Kind::Ident, Kind::String)
    }

    /// Whether it is an operator or a delimiter, as `+` and `;` are.
    pub const fn is_operator(self) -> bool {
        self.is_between(Kind::Add, Kind::Colon)
    }

    /// Whether it is one of the 25 keywords.
    pub const fn is_keyword(self) -> bool {
        self.is_between(Kind::Break, Kind::Var)
    }

    const fn is_between(self, first: Kind, last: Kind) -> bool {
        first as u8 <= self as u8 && self as u8 <= last as u8
    }

    /// The kind with a number, if there is one.
    #[inline]
    pub(crate) fn from_number(number: usize) -> Option<Kind> {
        Kind::ALL.get(number).copied()
    }

    /// The bytes of an operator or a keyword with a number; 0 for the other kinds.
    #[inline]
    pub(crate) fn spelled(number: usize) -> usize {
        SPELLED.get(number).map_or(0, |length| usize::from(*length))
    }
}

impl TryFrom<u8> for Kind {
    type Error = NoKind;

    /// The kind with a number.
    fn try_from(number: u8) -> Result<Kind, NoKind> {
        Kind::from_number(number.into()).ok_or(NoKind(number))
    }
}

impl fmt::Display for Kind {
    fn fmt(&self, f: &mut fmt::Formatter<'_>) -> fmt::Result {
        f.pad(self.name())
    }
}

/// A number that belongs to no kind.
#[derive(Clone, Copy, Debug, PartialEq, Eq, Hash)]
pub struct NoKind(pub u8);

impl fmt::Display for NoKind {
    fn fmt(&self, f: &mut fmt::Formatter<'_>) -> fmt::Result {
        write!(f, "{} is not the number of a kind of token", self.0)
    }
}

impl std::error::Error for NoKind {}
