//! Words that differ by one slip: a letter too many, too few, another one, or two that changed places.

/// Whether one slip makes `typed` of `meant`.
fn is_slip(typed: &str, meant: &str) -> bool {
    let (a, b): (Vec<char>, Vec<char>) = (typed.chars().collect(), meant.chars().collect());
    let front = a.iter().zip(&b).take_while(|(x, y)| x == y).count();
    let (a, b) = (&a[front..], &b[front..]);
    match (a, b) {
        ([], []) => false,
        ([x, y, a @ ..], [v, w, b @ ..]) if x == w && y == v && a == b => true,
        ([_, a @ ..], [_, b @ ..]) if a == b => true,
        _ => a.get(1..) == Some(b) || b.get(1..) == Some(a),
    }
}

/// ``: did you mean `WORD`?`` where one of the words is a slip away, else nothing.
pub fn meant<'a>(typed: &str, words: impl IntoIterator<Item = &'a str>) -> String {
    match words.into_iter().find(|word| is_slip(typed, word)) {
        Some(word) => format!(": did you mean `{word}`?"),
        None => String::new(),
    }
}

#[cfg(test)]
mod tests {
    use super::is_slip;

    #[test]
    fn one_slip_is_seen() {
        for typed in ["explian", "explan", "explainn", "exblain", "xplain"] {
            assert!(is_slip(typed, "explain"), "{typed}");
        }
        for typed in ["explain", "exlpian", "explan2", "map", ""] {
            assert!(!is_slip(typed, "explain"), "{typed}");
        }
    }
}
