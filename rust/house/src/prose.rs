//! Lines of prose: those of documents, and comments that have a line to themselves.

use crate::tree::File;

/// The most characters of a line of prose.
pub const MOST: usize = 120;

/// How a comment begins, by the ending of a file's name; a script of the shell has none.
const MARKS: [(&str, &[&str]); 9] = [
    (".rt", &["//"]),
    (".rs", &["//"]),
    (".devil", &["//"]),
    (".antt", &["--"]),
    (".script", &[";"]),
    (".c", &["/*", "*"]),
    (".h", &["/*", "*"]),
    (".toml", &["#"]),
    ("", &["#"]),
];

/// The lines of prose that are too long, each with its number. A document is prose throughout, code and tables too.
pub fn long_lines(file: &File) -> Vec<(usize, &str)> {
    let lines = file.text.lines().enumerate().map(|(at, l)| (at + 1, l));
    lines
        .filter(|(_, line)| line.chars().count() > MOST && is_prose(&file.path, line))
        .collect()
}

fn is_prose(path: &str, line: &str) -> bool {
    if path.ends_with(".md") {
        return true;
    }
    let (_, marks) = MARKS.iter().find(|(end, _)| path.ends_with(end)).unwrap();
    marks.iter().any(|mark| line.trim_start().starts_with(mark))
}

#[cfg(test)]
mod tests {
    use super::*;

    fn long(path: &str, text: &str) -> Vec<usize> {
        let file = File {
            path: path.to_string(),
            text: text.to_string(),
        };
        long_lines(&file).into_iter().map(|(at, _)| at).collect()
    }

    #[test]
    fn long_prose_is_found() {
        let word = "é".repeat(MOST - 2);
        let text = format!("-- {word}\n--{word}\nf = {word} -- x\n    // {word}\n");
        assert_eq!(long("crates/a/specs/A.antt", &text), [1]);
        assert_eq!(long("crates/a/src/a.rt", &text), [4]);
        assert_eq!(long("docs/A.md", &text), [1, 3, 4]);
    }
}
