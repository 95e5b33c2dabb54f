//! The tokens of 001, section 2, as document 01 amends them.

/// The twenty-nine reserved words.
#[derive(Clone, Copy, Debug, PartialEq, Eq)]
pub enum Word {
    As,
    Bit,
    Bool,
    Const,
    Device,
    Else,
    Except,
    False,
    For,
    If,
    Int,
    Mask,
    Port,
    Post,
    Pre,
    Private,
    Read,
    Register,
    Serialized,
    Set,
    Signed,
    Structure,
    Trigger,
    True,
    Type,
    Unused,
    Variable,
    Volatile,
    Write,
}

/// Every reserved word as it is written.
pub const RESERVED: [&str; 29] = [
    "as",
    "bit",
    "bool",
    "const",
    "device",
    "else",
    "except",
    "false",
    "for",
    "if",
    "int",
    "mask",
    "port",
    "post",
    "pre",
    "private",
    "read",
    "register",
    "serialized",
    "set",
    "signed",
    "structure",
    "trigger",
    "true",
    "type",
    "unused",
    "variable",
    "volatile",
    "write",
];

/// Operators and reserved character sequences. A good part of them stands in no place of the
/// present grammar; they are tokens all the same, so they get refusal 4 and not 3.
#[derive(Clone, Copy, Debug, PartialEq, Eq)]
pub enum Sign {
    OpenBrace,
    CloseBrace,
    OpenBracket,
    CloseBracket,
    OpenParenthesis,
    CloseParenthesis,
    Colon,
    Comma,
    Semicolon,
    Equals,
    At,
    DotDot,
    Dot,
    ArrowRight,
    ArrowLeft,
    ArrowBoth,
    Hash,
    Plus,
    Minus,
    Star,
    Slash,
    Percent,
    EqualEqual,
    NotEqual,
    Less,
    Greater,
    GreaterEqual,
    And,
    Or,
    Not,
}

#[derive(Clone, Copy, Debug, PartialEq, Eq)]
pub enum Token {
    Name,
    Word(Word),
    Number(u32),
    /// A bits literal, quotes included.
    Bits,
    Sign(Sign),
    /// The end of the text counts as a token, at the text's length.
    End,
}

/// A token and the bytes that it covers.
#[derive(Clone, Copy, Debug, PartialEq, Eq)]
pub struct Lexeme {
    pub token: Token,
    pub place: usize,
    pub end: usize,
}

/// The greatest integer literal.
pub const GREATEST: u32 = 2_147_483_647;

/// Reads the first token at or after `from`. `Err` is refusal 3, with its place.
pub fn scan(text: &[u8], from: usize) -> Result<Lexeme, usize> {
    let place = skip_blanks(text, from)?;
    let rest = &text[place..];
    let (token, length) = match rest.first() {
        None => (Token::End, 0),
        Some(b'A'..=b'Z' | b'a'..=b'z') => {
            let length = count(rest, |b| b.is_ascii_alphanumeric() || b == b'_');
            let token = reserved(&rest[..length]).map_or(Token::Name, Token::Word);
            (token, length)
        }
        Some(b'0'..=b'9') => number(rest).ok_or(place)?,
        Some(b'\'') => (Token::Bits, bits(rest).ok_or(place)?),
        Some(_) => {
            let (sign, length) = sign(rest).ok_or(place)?;
            (Token::Sign(sign), length)
        }
    };
    Ok(Lexeme {
        token,
        place,
        end: place + length,
    })
}

/// The tokens of a text up to the end, or to what is none: its kind and bytes for each.
pub fn token_line(text: &[u8]) -> String {
    let mut line = String::from("tokens");
    let mut at = 0;
    loop {
        let Lexeme { token, place, end } = match scan(text, at) {
            Ok(lexeme) => lexeme,
            Err(place) => return line + &format!(" bad {place} end {}", text.len()),
        };
        at = end;
        line += &match token {
            Token::Name => format!(" name {place}..{end}"),
            Token::Word(_) => format!(" word {place}..{end}"),
            Token::Number(value) => format!(" number {place}..{end}={value}"),
            Token::Bits => format!(" bits {place}..{end}"),
            Token::Sign(_) => format!(" sign {place}..{end}"),
            Token::End => return line + &format!(" end {place}"),
        };
    }
}

/// How many bytes at the front of `rest` are of the kind asked for.
fn count(rest: &[u8], kind: impl Fn(u8) -> bool) -> usize {
    rest.iter().position(|&b| !kind(b)).unwrap_or(rest.len())
}

/// The place after all blanks and comments. An unclosed comment is refused at its first byte.
fn skip_blanks(text: &[u8], from: usize) -> Result<usize, usize> {
    let mut at = from;
    loop {
        match text[at..] {
            [b' ' | b'\n' | b'\t', ..] => at += 1,
            [b'/', b'/', ..] => at += count(&text[at..], |b| b != b'\n'),
            [b'/', b'*', ..] => {
                let body = &text[at + 2..];
                let close = body.windows(2).position(|pair| pair == b"*/").ok_or(at)?;
                at += 2 + close + 2;
            }
            _ => return Ok(at),
        }
    }
}

/// An integer literal: `0x` and `0o` need a digit of their radix, else the number is the 0 alone.
/// `None` when its value is too large; leading zeros make no number large.
fn number(rest: &[u8]) -> Option<(Token, usize)> {
    let (radix, prefix) = match rest {
        [b'0', b'x', digit, ..] if digit.is_ascii_hexdigit() => (16, 2),
        [b'0', b'o', b'0'..=b'7', ..] => (8, 2),
        _ => (10, 0),
    };
    let digits = &rest[prefix..];
    let length = count(digits, |b| (b as char).is_digit(radix));
    let mut value: u64 = 0;
    for &b in &digits[..length] {
        let digit = (b as char).to_digit(radix)?;
        value = value * u64::from(radix) + u64::from(digit);
        if value > u64::from(GREATEST) {
            return None;
        }
    }
    Some((Token::Number(value as u32), prefix + length))
}

/// The length of a bits literal, quotes included; `None` when it is empty, unclosed or holds
/// another character.
fn bits(rest: &[u8]) -> Option<usize> {
    let elements = count(&rest[1..], |b| matches!(b, b'0' | b'1' | b'*' | b'.'));
    if elements > 0 && rest.get(1 + elements) == Some(&b'\'') {
        Some(elements + 2)
    } else {
        None
    }
}

/// The longest operator or reserved sequence at the front of `rest`.
fn sign(rest: &[u8]) -> Option<(Sign, usize)> {
    use Sign::*;
    Some(match rest {
        [b'<', b'=', b'>', ..] => (ArrowBoth, 3),
        [b'<', b'=', ..] => (ArrowLeft, 2),
        [b'=', b'>', ..] => (ArrowRight, 2),
        [b'=', b'=', ..] => (EqualEqual, 2),
        [b'!', b'=', ..] => (NotEqual, 2),
        [b'>', b'=', ..] => (GreaterEqual, 2),
        [b'&', b'&', ..] => (And, 2),
        [b'|', b'|', ..] => (Or, 2),
        [b'.', b'.', ..] => (DotDot, 2),
        [b'{', ..] => (OpenBrace, 1),
        [b'}', ..] => (CloseBrace, 1),
        [b'[', ..] => (OpenBracket, 1),
        [b']', ..] => (CloseBracket, 1),
        [b'(', ..] => (OpenParenthesis, 1),
        [b')', ..] => (CloseParenthesis, 1),
        [b':', ..] => (Colon, 1),
        [b',', ..] => (Comma, 1),
        [b';', ..] => (Semicolon, 1),
        [b'=', ..] => (Equals, 1),
        [b'@', ..] => (At, 1),
        [b'.', ..] => (Dot, 1),
        [b'#', ..] => (Hash, 1),
        [b'+', ..] => (Plus, 1),
        [b'-', ..] => (Minus, 1),
        [b'*', ..] => (Star, 1),
        [b'/', ..] => (Slash, 1),
        [b'%', ..] => (Percent, 1),
        [b'<', ..] => (Less, 1),
        [b'>', ..] => (Greater, 1),
        [b'!', ..] => (Not, 1),
        _ => return None,
    })
}

fn reserved(word: &[u8]) -> Option<Word> {
    Some(match word {
        b"as" => Word::As,
        b"bit" => Word::Bit,
        b"bool" => Word::Bool,
        b"const" => Word::Const,
        b"device" => Word::Device,
        b"else" => Word::Else,
        b"except" => Word::Except,
        b"false" => Word::False,
        b"for" => Word::For,
        b"if" => Word::If,
        b"int" => Word::Int,
        b"mask" => Word::Mask,
        b"port" => Word::Port,
        b"post" => Word::Post,
        b"pre" => Word::Pre,
        b"private" => Word::Private,
        b"read" => Word::Read,
        b"register" => Word::Register,
        b"serialized" => Word::Serialized,
        b"set" => Word::Set,
        b"signed" => Word::Signed,
        b"structure" => Word::Structure,
        b"trigger" => Word::Trigger,
        b"true" => Word::True,
        b"type" => Word::Type,
        b"unused" => Word::Unused,
        b"variable" => Word::Variable,
        b"volatile" => Word::Volatile,
        b"write" => Word::Write,
        _ => return None,
    })
}

#[cfg(test)]
mod tests {
    use super::*;

    /// The tokens of a text as it writes them, joined by a space; `!PLACE` where refusal 3 stands.
    fn split(text: &str) -> String {
        let mut at = 0;
        let mut out = Vec::new();
        loop {
            match scan(text.as_bytes(), at) {
                Err(place) => {
                    out.push(format!("!{place}"));
                    return out.join(" ");
                }
                Ok(Lexeme {
                    token: Token::End, ..
                }) => return out.join(" "),
                Ok(lexeme) => {
                    out.push(text[lexeme.place..lexeme.end].to_string());
                    at = lexeme.end;
                }
            }
        }
    }

    fn first(text: &str) -> Result<Token, usize> {
        scan(text.as_bytes(), 0).map(|lexeme| lexeme.token)
    }

    #[test]
    fn prefixes_without_a_digit_are_zero_and_a_name() {
        assert_eq!(split("0xg"), "0 xg");
        assert_eq!(split("0o8"), "0 o8");
        assert_eq!(split("0x_1"), "0 x_1");
        assert_eq!(split("0X1"), "0 X1");
        assert_eq!(split("0O1"), "0 O1");
        assert_eq!(split("0b1"), "0 b1");
        assert_eq!(split("0o78"), "0o7 8");
        assert_eq!(split("0x1g"), "0x1 g");
        assert_eq!(split("12ab"), "12 ab");
        assert_eq!(split("1e5"), "1 e5");
        assert_eq!(split("bit[8]port"), "bit [ 8 ] port");
    }

    #[test]
    fn numbers_have_a_value_and_no_length() {
        assert_eq!(first("010"), Ok(Token::Number(10)));
        assert_eq!(first("0o10"), Ok(Token::Number(8)));
        assert_eq!(first("0xFf"), Ok(Token::Number(255)));
        assert_eq!(first("2147483647"), Ok(Token::Number(GREATEST)));
        assert_eq!(first("0x7fffffff"), Ok(Token::Number(GREATEST)));
        assert_eq!(first("2147483648"), Err(0));
        assert_eq!(first("0x80000000"), Err(0));
        assert_eq!(first("99999999999999999999999999999999"), Err(0));
        assert_eq!(first(&("0".repeat(5000) + "7")), Ok(Token::Number(7)));
    }

    #[test]
    fn longest_match() {
        assert_eq!(split("7..0"), "7 .. 0");
        assert_eq!(split("7...0"), "7 .. . 0");
        assert_eq!(split("7.0"), "7 . 0");
        assert_eq!(split(". ."), ". .");
        assert_eq!(split("<=><=<=>==>=!=!"), "<=> <= <=> == >= != !");
        assert_eq!(split("=>=="), "=> ==");
        assert_eq!(split("--*-@-%-(-"), "- - * - @ - % - ( -");
        assert_eq!(split("&&||"), "&& ||");
        assert_eq!(split("&&&"), "&& !2");
        assert_eq!(split("|"), "!0");
    }

    #[test]
    fn comments() {
        assert_eq!(split("4//2"), "4");
        assert_eq!(split("4/*2"), "4 !1");
        assert_eq!(split("4//**/2"), "4");
        assert_eq!(split("/*/"), "!0");
        assert_eq!(split("/**/1"), "1");
        assert_eq!(split("/*/*/1"), "1");
        assert_eq!(split("/*/**/*/"), "* /");
        assert_eq!(split("//\r1\n2"), "2");
        assert_eq!(scan(b"/*\0\xff'\r*/1", 0).unwrap().place, 8);
        assert_eq!(split("1 /"), "1 /");
    }

    #[test]
    fn bad_bytes() {
        for b in [0, b'\r', 11, 12, 127, 128, 255] {
            assert_eq!(scan(&[b' ', b], 0), Err(1));
        }
        for b in b"\"$?\\^~`_&|" {
            assert_eq!(scan(&[*b, b' '], 0), Err(0));
        }
    }

    #[test]
    fn bits_literals() {
        assert_eq!(first("'01*.'"), Ok(Token::Bits));
        assert_eq!(split("'0''1'"), "'0' '1'");
        for text in [
            "''", "'", "'01", "'0 1'", "'0\n1'", "'2'", "'0/**/1'", "' '",
        ] {
            assert_eq!(first(text), Err(0), "{text}");
        }
    }

    #[test]
    fn reserved_words_are_all_there_and_case_sensitive() {
        for word in RESERVED {
            assert!(matches!(first(word), Ok(Token::Word(_))), "{word}");
            let other = word.to_uppercase();
            assert_eq!(first(&other), Ok(Token::Name));
            assert_eq!(first(&format!("{word}_")), Ok(Token::Name));
        }
    }

    #[test]
    fn the_end_stands_at_the_length() {
        let text = b"d  // x";
        let name = scan(text, 0).unwrap();
        let end = scan(text, name.end).unwrap();
        assert_eq!((end.token, end.place), (Token::End, 7));
    }
}
