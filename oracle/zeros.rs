//! Numbers that start with 0 and a digit or an underscore: how ours must read them where the
//! original reads them otherwise.

/// A reading of ours. A stand-in for the first two characters makes the original read so.
#[derive(Clone, Copy)]
pub enum Zero {
    /// A digit follows, and the number is decimal.
    Decimal,
    /// An underscore follows, and the number is octal.
    Octal,
    /// It is octal, and no digit of it follows the underscore. So the underscore is misplaced, and
    /// the number ends after it.
    Cut,
}

impl Zero {
    /// The reading of the number at an offset; none where the original reads it as ours.
    pub fn at(source: &[char], offset: usize) -> Option<Zero> {
        let number = source.get(offset..).filter(|number| number.first() == Some(&'0'))?;
        let run = number.iter().take_while(|c| c.is_ascii_digit() || **c == '_').count();
        let decimal = matches!(number.get(run), Some('.' | 'e' | 'E' | 'i'));
        match (number.get(1)?, number.get(2)) {
            ('0'..='9', _) if decimal => Some(Zero::Decimal),
            ('_', Some('0'..='7')) if !decimal => Some(Zero::Octal),
            ('_', _) if !decimal => Some(Zero::Cut),
            _ => None,
        }
    }

    /// What stands for the first two characters: a decimal digit for the 0, an octal digit for the
    /// underscore, or a raw string.
    pub fn put(self, two: &mut [char]) {
        match self {
            Zero::Decimal => two[0] = '1',
            Zero::Octal => two[1] = '0',
            Zero::Cut => two.fill('`'),
        }
    }

    /// The text that ours must have, given the original's text of the stand-in. Octal numbers gain
    /// an o.
    pub fn text(self, theirs: &[u8]) -> Vec<u8> {
        match self {
            Zero::Decimal => [b"0", &theirs[1..]].concat(),
            Zero::Octal => [b"0o_", &theirs[3..]].concat(),
            Zero::Cut => b"0o_".to_vec(),
        }
    }
}
