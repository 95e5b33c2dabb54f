//! The tokens of a text that reads: names, words, numbers, bits literals and signs.

/// A token and the place of its first byte.
#[derive(Clone, Copy, Debug, PartialEq, Eq)]
pub struct Token<'t> {
    pub place: usize,
    pub what: What<'t>,
}

#[derive(Clone, Copy, Debug, PartialEq, Eq)]
pub enum What<'t> {
    /// A name or a reserved word.
    Word(&'t [u8]),
    Number(i64),
    /// What stands between the quotes.
    Bits(&'t [u8]),
    Sign(&'t [u8]),
}

impl Token<'_> {
    pub fn is(&self, bytes: &str) -> bool {
        match self.what {
            What::Word(own) | What::Sign(own) => own == bytes.as_bytes(),
            _ => false,
        }
    }
}

/// The tokens, as far as there are any: where none begins the scan ends.
pub fn scan(text: &[u8]) -> Vec<Token<'_>> {
    let mut tokens = Vec::new();
    let mut place = behind_blanks(text, 0);
    while let Some((what, length)) = token(&text[place..]) {
        tokens.push(Token { place, what });
        place = behind_blanks(text, place + length);
    }
    tokens
}

/// The place of the next token: behind blanks and comments.
fn behind_blanks(text: &[u8], from: usize) -> usize {
    let mut at = from;
    loop {
        at += match &text[at..] {
            [b' ' | b'\n' | b'\t', ..] => 1,
            [b'/', b'/', ..] => count(&text[at..], |b| b != b'\n'),
            [b'/', b'*', rest @ ..] => match rest.windows(2).position(|pair| pair == b"*/") {
                Some(length) => length + 4,
                None => return at,
            },
            _ => return at,
        };
    }
}

fn count(bytes: &[u8], kind: impl Fn(u8) -> bool) -> usize {
    bytes.iter().position(|&b| !kind(b)).unwrap_or(bytes.len())
}

/// The token at the front of some bytes, and its length.
fn token(rest: &[u8]) -> Option<(What<'_>, usize)> {
    let is_part = |b: u8| b.is_ascii_alphanumeric() || b == b'_';
    match rest {
        [] => None,
        [b'0'..=b'9', ..] => Some(number(rest)),
        [b'\'', inside @ ..] => {
            let length = count(inside, |b| b != b'\'');
            (length < inside.len()).then(|| (What::Bits(&inside[..length]), length + 2))
        }
        [b'.', b'.', ..] => Some((What::Sign(&rest[..2]), 2)),
        [first, ..] if is_part(*first) => {
            let length = count(rest, is_part);
            Some((What::Word(&rest[..length]), length))
        }
        _ => Some((What::Sign(&rest[..1]), 1)),
    }
}

/// A number: decimal, or behind `0x` or `0o` where a digit follows.
fn number(rest: &[u8]) -> (What<'_>, usize) {
    let (skip, radix) = match rest {
        [b'0', b'x', digit, ..] if digit.is_ascii_hexdigit() => (2, 16),
        [b'0', b'o', b'0'..=b'7', ..] => (2, 8),
        _ => (0, 10),
    };
    let digits = count(&rest[skip..], |b| char::from(b).is_digit(radix));
    let value = rest[skip..skip + digits].iter().fold(0i64, |value, &b| {
        let digit = char::from(b).to_digit(radix).unwrap_or(0);
        value
            .saturating_mul(i64::from(radix))
            .saturating_add(i64::from(digit))
    });
    (What::Number(value), skip + digits)
}
