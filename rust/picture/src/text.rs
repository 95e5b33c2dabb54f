//! What the page takes from the text itself, since the tables do not keep it: the device's name, and
//! the comments, which it shows with what they stand before. The text is an accepted one.

use std::collections::HashMap;

/// A stretch of a text.
#[derive(Clone, Copy, Debug, PartialEq, Eq)]
pub struct Stretch<'t> {
    pub kind: Kind,
    pub bytes: &'t [u8],
}

#[derive(Clone, Copy, Debug, PartialEq, Eq)]
pub enum Kind {
    Comment,
    /// A name or a reserved word.
    Word,
    Blank,
    /// A sign, a number or a bits literal, or a part of it.
    Other,
}

/// The stretches of an accepted text, in order: together they are the text.
pub fn stretches(text: &[u8]) -> Vec<Stretch<'_>> {
    let mut stretches = Vec::new();
    let mut rest = text;
    while !rest.is_empty() {
        let (kind, length) = first(rest);
        let (bytes, more) = rest.split_at(length);
        stretches.push(Stretch { kind, bytes });
        rest = more;
    }
    stretches
}

fn first(text: &[u8]) -> (Kind, usize) {
    let while_in = |is_in: fn(&u8) -> bool| text.iter().take_while(|b| is_in(b)).count();
    match text {
        [b'/', b'/', ..] => (Kind::Comment, while_in(|byte| *byte != b'\n')),
        [b'/', b'*', inside @ ..] => {
            let closing = inside.windows(2).position(|pair| pair == b"*/");
            (Kind::Comment, closing.map_or(text.len(), |at| at + 4))
        }
        [byte, ..] if is_of_word(byte) => (Kind::Word, while_in(is_of_word)),
        [byte, ..] if byte.is_ascii_whitespace() => {
            (Kind::Blank, while_in(u8::is_ascii_whitespace))
        }
        _ => (Kind::Other, 1),
    }
}

/// Numbers count as words too: none stands where the page looks for a name.
fn is_of_word(byte: &u8) -> bool {
    byte.is_ascii_alphanumeric() || *byte == b'_'
}

/// The device's name, which is the second word.
pub fn device_name(text: &[u8]) -> String {
    let mut words = stretches(text)
        .into_iter()
        .filter(|stretch| stretch.kind == Kind::Word);
    words.nth(1).map_or(String::new(), |word| shown(word.bytes))
}

/// What the comments say of each declared name: those on the lines before its declaration, and those
/// behind it on its own line.
pub fn notes(text: &[u8]) -> HashMap<String, String> {
    let mut notes = Notes::default();
    for stretch in stretches(text) {
        notes.take(stretch);
    }
    notes.of_name
}

#[derive(Default)]
struct Notes {
    of_name: HashMap<String, String>,
    /// Comments that no declaration has yet.
    before: Vec<String>,
    /// The word that declares the name that comes next.
    declaring: Option<Vec<u8>>,
    /// The register or variable declared last.
    last: Option<String>,
    has_line_token: bool,
}

impl Notes {
    fn take(&mut self, stretch: Stretch<'_>) {
        match stretch.kind {
            Kind::Blank => self.has_line_token &= !stretch.bytes.contains(&b'\n'),
            Kind::Comment => self.comment(said(stretch.bytes)),
            Kind::Word => self.word(stretch.bytes),
            Kind::Other => self.before.clear(),
        }
        self.has_line_token |= matches!(stretch.kind, Kind::Word | Kind::Other);
    }

    fn comment(&mut self, words: String) {
        match (self.has_line_token, &self.last) {
            (true, Some(name)) => add(&mut self.of_name, name.clone(), words),
            (true, None) => (),
            (false, _) => self.before.push(words),
        }
    }

    fn word(&mut self, word: &[u8]) {
        match self.declaring.take() {
            Some(declaring) => self.declare(shown(word), &declaring),
            None if DECLARING.contains(&word) => self.declaring = Some(word.to_vec()),
            None => self.before.clear(),
        }
    }

    fn declare(&mut self, name: String, declaring: &[u8]) {
        if !self.before.is_empty() {
            let words = self.before.join(" ");
            add(&mut self.of_name, name.clone(), words);
            self.before.clear();
        }
        self.last = (declaring != b"device").then_some(name);
    }
}

const DECLARING: [&[u8]; 3] = [b"device", b"register", b"variable"];

fn add(notes: &mut HashMap<String, String>, name: String, words: String) {
    let note = notes.entry(name).or_default();
    if !note.is_empty() {
        note.push(' ');
    }
    note.push_str(&words);
}

/// The words of a comment, without its signs and as one line.
fn said(comment: &[u8]) -> String {
    let comment = shown(comment);
    let inside = match comment.strip_prefix("/*") {
        Some(block) => block.strip_suffix("*/").unwrap_or(block),
        None => comment.trim_start_matches('/'),
    };
    let lines = inside
        .lines()
        .map(|line| line.trim().trim_start_matches('*'));
    let words: Vec<&str> = lines.flat_map(str::split_whitespace).collect();
    words.join(" ")
}

/// Bytes as the page shows them: a comment may hold any.
pub fn shown(bytes: &[u8]) -> String {
    String::from_utf8_lossy(bytes)
        .replace('\r', "")
        .chars()
        .map(|c| {
            if c.is_control() && c != '\n' && c != '\t' {
                '\u{FFFD}'
            } else {
                c
            }
        })
        .collect()
}

#[cfg(test)]
mod tests {
    use super::*;

    const TEXT: &[u8] =
        b"// a board,\n/* of\n * ours */ // and yours\n\ndevice d(base : bit[8] port) // not told
{ // nor this
    register r = base : bit[8]; // the only one
    // what is

    /* seen */ variable v = /* in it */ r : int(8);
    // at the end
}";

    #[test]
    fn stretches_are_the_text() {
        let joined: Vec<u8> = stretches(TEXT)
            .iter()
            .flat_map(|stretch| stretch.bytes.to_vec())
            .collect();
        assert_eq!(joined, TEXT);
        let slashes = stretches(b"/*/ a */b//c");
        let pieces: Vec<&[u8]> = slashes.iter().map(|stretch| stretch.bytes).collect();
        assert_eq!(pieces, [&b"/*/ a */"[..], b"b", b"//c"]);
    }

    #[test]
    fn comments_go_to_what_they_stand_by() {
        assert_eq!(device_name(TEXT), "d");
        let notes = notes(TEXT);
        assert_eq!(notes.len(), 3);
        assert_eq!(notes["d"], "a board, of ours and yours");
        assert_eq!(notes["r"], "the only one");
        assert_eq!(notes["v"], "what is seen in it");
    }
}
