//! Framed texts: a line `text N`, then N bytes, then a newline. The line's words and its number are those of scripts.
//! The pieces of a text are framed alike, behind a line `piece N`.

use std::fmt;

use crate::replay::{fields, natural};

/// A frame that is none: where it stands in the input.
#[derive(Clone, Copy, Debug, PartialEq, Eq)]
pub struct BadFrame(pub usize);

impl fmt::Display for BadFrame {
    fn fmt(&self, f: &mut fmt::Formatter) -> fmt::Result {
        write!(f, "no frame at byte {}", self.0)
    }
}

impl std::error::Error for BadFrame {}

/// The text framed at `at`, and the place after its frame. The newline after the last text may be
/// left out.
pub fn read(input: &[u8], at: usize) -> Result<(&[u8], usize), BadFrame> {
    read_headed("text", input, at)
}

/// The bytes framed at `at`, behind a line of this word and their number.
pub fn read_headed<'i>(
    head: &str,
    input: &'i [u8],
    at: usize,
) -> Result<(&'i [u8], usize), BadFrame> {
    let frame = || -> Option<(&[u8], usize)> {
        let rest = input.get(at..)?;
        let line = rest.iter().position(|b| *b == b'\n')?;
        let [word, length] = fields(&rest[..line]).collect::<Vec<_>>()[..] else {
            return None;
        };
        if word != head.as_bytes() {
            return None;
        }
        let start = at + line + 1;
        let end = start.checked_add(natural(length)?)?;
        let text = input.get(start..end)?;
        match input.get(end) {
            None => Some((text, end)),
            Some(b'\n') => Some((text, end + 1)),
            Some(_) => None,
        }
    };
    frame().ok_or(BadFrame(at))
}

/// All texts of an input that is nothing but frames.
pub fn read_all(input: &[u8]) -> Result<Vec<&[u8]>, BadFrame> {
    let mut texts = Vec::new();
    let mut at = 0;
    while at < input.len() {
        let (text, next) = read(input, at)?;
        texts.push(text);
        at = next;
    }
    Ok(texts)
}

/// Appends a text in its frame.
pub fn write(text: &[u8], to: &mut Vec<u8>) {
    write_headed("text", text, to);
}

/// Appends bytes behind a line of this word and their number.
pub fn write_headed(head: &str, bytes: &[u8], to: &mut Vec<u8>) {
    to.extend_from_slice(format!("{head} {}\n", bytes.len()).as_bytes());
    to.extend_from_slice(bytes);
    to.push(b'\n');
}

#[cfg(test)]
mod tests {
    use super::*;

    #[test]
    fn frames_come_back() {
        let texts = [&b""[..], b"\n", b"text 3\nabc", b"\0\xff"];
        let mut input = Vec::new();
        texts.iter().for_each(|text| write(text, &mut input));
        assert_eq!(read_all(&input).unwrap(), texts);
        assert_eq!(read(&input, 0), Ok((&b""[..], 8)));
        assert_eq!(read_all(&input[..input.len() - 1]).unwrap(), texts);
        assert_eq!(read(b" text\t0x2 \nab", 0), Ok((&b"ab"[..], 13)));
    }

    #[test]
    fn no_frames() {
        for input in [
            "text",
            "text \n",
            "text 0",
            "text 1 1\na",
            "text 3\nab",
            "text 1\nab",
            "text -1\n",
            "txt 0\n",
            "text +1\na",
        ] {
            assert_eq!(read(input.as_bytes(), 0), Err(BadFrame(0)), "{input}");
        }
    }
}
