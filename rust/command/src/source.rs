//! Files, and standard input where a file is called `-`.

use std::ffi::{OsStr, OsString};
use std::fs::File;
use std::io::{self, Read};

use crate::report::Trouble;

/// More bytes than any description has. No more of a file is read: the proved programs tell from these that it is too
/// long.
const DESCRIPTION_BYTES: usize = 65_536;

/// A file's name as it is told, and its bytes.
pub struct Source {
    pub name: String,
    pub text: Vec<u8>,
}

impl Source {
    pub fn description(path: &OsStr) -> Result<Source, Trouble> {
        Source::read(path, DESCRIPTION_BYTES)
    }

    /// A file that is handed on whole, and has at most so many bytes.
    pub fn whole(path: &OsStr, most: usize) -> Result<Source, Trouble> {
        let source = Source::read(path, most + 1)?;
        if source.text.len() > most {
            return Err(Trouble::new(format!(
                "{}: over {most} bytes, which is more than can be played",
                source.name
            )));
        }
        Ok(source)
    }

    fn read(path: &OsStr, most: usize) -> Result<Source, Trouble> {
        let name = visible(path.as_encoded_bytes());
        match bytes(path, most) {
            Ok(text) => Ok(Source { name, text }),
            Err(error) => Err(Trouble::with(&name, &error)),
        }
    }
}

fn bytes(path: &OsStr, most: usize) -> io::Result<Vec<u8>> {
    let mut text = Vec::new();
    if path == "-" {
        io::stdin()
            .lock()
            .take(most as u64)
            .read_to_end(&mut text)?;
    } else {
        File::open(path)?.take(most as u64).read_to_end(&mut text)?;
    }
    Ok(text)
}

/// Bytes as a terminal can take them: no control character but newline and tab.
pub fn visible(bytes: &[u8]) -> String {
    let harmless = |c: char| c == '\n' || c == '\t' || !c.is_control();
    String::from_utf8_lossy(bytes)
        .chars()
        .map(|c| if harmless(c) { c } else { '?' })
        .collect()
}

/// The only file of a command.
pub fn only<'a>(files: &'a [OsString], usage: &str) -> Result<&'a OsStr, Trouble> {
    match files {
        [file] => Ok(file),
        _ => Err(Trouble::new(format!("usage: desfanuk {usage}"))),
    }
}

#[cfg(test)]
mod tests {
    use super::visible;

    #[test]
    fn no_control_character_is_shown() {
        assert_eq!(visible(b"a\x1b[1m\n\tb\r\x7f"), "a?[1m\n\tb??");
        assert_eq!(visible(b"\xff\xc2\x9b"), "\u{FFFD}?");
    }
}
