//! The verdict that a proved program writes, and the place that it names.

use crate::paint::Paint;
use crate::report::Trouble;

#[derive(Clone, Copy, Debug, PartialEq, Eq)]
pub enum Verdict {
    Accepted {
        parameters: usize,
        registers: usize,
        variables: usize,
    },
    Refused {
        number: usize,
        place: usize,
    },
}

impl Verdict {
    /// Reads the line that the proved program writes.
    pub fn of(line: &str) -> Result<Verdict, Trouble> {
        let words: Vec<&str> = line.split(' ').collect();
        let number = |at: usize| words.get(at).and_then(|word| word.parse().ok());
        match (words[0], number(1), number(2), number(3), words.len()) {
            ("accepted", Some(parameters), Some(registers), Some(variables), 4) => {
                Ok(Verdict::Accepted {
                    parameters,
                    registers,
                    variables,
                })
            }
            ("refused", Some(number), Some(place), None, 3) => {
                Ok(Verdict::Refused { number, place })
            }
            _ => Err(Trouble::new(format!("no verdict was told, but `{line}`"))),
        }
    }
}

/// A place as editors count: lines, and bytes in a line, from 1.
#[derive(Clone, Copy, Debug, PartialEq, Eq)]
pub struct Position {
    pub line: usize,
    pub column: usize,
}

impl Position {
    pub fn of(text: &[u8], place: usize) -> Position {
        let before = &text[..place.min(text.len())];
        let start = before
            .iter()
            .rposition(|&b| b == b'\n')
            .map_or(0, |n| n + 1);
        Position {
            line: 1 + before.iter().filter(|&&b| b == b'\n').count(),
            column: 1 + before.len() - start,
        }
    }
}

/// `FILE:LINE:COLUMN: refused N: words`, where editors jump to.
pub fn refused_line(
    paint: Paint,
    name: &str,
    text: &[u8],
    number: usize,
    place: usize,
    words: &str,
) -> String {
    let Position { line, column } = Position::of(text, place);
    format!(
        "{} {} {words}\n",
        paint.bold(&format!("{name}:{line}:{column}:")),
        paint.red(&format!("refused {number}:"))
    )
}

#[cfg(test)]
mod tests {
    use super::*;

    #[test]
    fn lines_of_programs_are_read() {
        let accepted = Verdict::Accepted {
            parameters: 1,
            registers: 5,
            variables: 6,
        };
        let refused = Verdict::Refused {
            number: 11,
            place: 99,
        };
        assert_eq!(Verdict::of("accepted 1 5 6").ok(), Some(accepted));
        assert_eq!(Verdict::of("refused 11 99").ok(), Some(refused));
        for line in [
            "",
            "accepted",
            "refused 11",
            "refused 11 99 1",
            "good 1 2 3",
        ] {
            assert!(Verdict::of(line).is_err(), "{line}");
        }
    }

    #[test]
    fn places_are_lines_and_columns() {
        let at = |place| {
            let Position { line, column } = Position::of(b"ab\n\ncd\n", place);
            (line, column)
        };
        assert_eq!(
            [0, 2, 3, 4, 6, 7, 99].map(at),
            [(1, 1), (1, 3), (2, 1), (3, 1), (3, 3), (4, 1), (4, 1)]
        );
    }
}
