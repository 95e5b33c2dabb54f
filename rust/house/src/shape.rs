//! A text with every name and every number blotted out.

/// The words that say how a proof goes; all others are names or numbers.
const KEPT: [&str; 19] = [
    "absurd", "ap", "arith", "cond", "elim", "false", "grind", "in", "let", "omega", "record",
    "refl", "rules", "rw", "search", "simp", "sym", "true", "where",
];

/// The shape of a text: two texts have the same one exactly when they differ only in names and numbers, and in blanks.
pub fn shape(text: &str) -> String {
    let mut parts = Vec::new();
    let chars: Vec<char> = text.chars().collect();
    let mut at = 0;
    while at < chars.len() {
        let end = word_end(&chars, at);
        if at < end {
            let word: String = chars[at..end].iter().collect();
            parts.push(if KEPT.contains(&word.as_str()) {
                word
            } else {
                "#".to_string()
            });
            at = end;
        } else {
            if !chars[at].is_whitespace() {
                parts.push(chars[at].to_string());
            }
            at += 1;
        }
    }
    parts.join(" ")
}

/// Where the word that begins at a place ends; the place itself where none does.
fn word_end(chars: &[char], at: usize) -> usize {
    let mut end = at;
    while end < chars.len() && (is_letter(chars[end]) || joins(chars, at, end)) {
        end += 1;
    }
    end
}

fn is_letter(c: char) -> bool {
    (c.is_alphanumeric() && c != 'λ' && c != 'ℕ' && c != 'ℤ') || "_'′·".contains(c)
}

/// A hyphen or an arrow between two letters belongs to the name.
fn joins(chars: &[char], from: usize, at: usize) -> bool {
    from < at && "-→≡≢".contains(chars[at]) && chars.get(at + 1).is_some_and(|c| is_letter(*c))
}

#[cfg(test)]
mod tests {
    use super::shape;

    #[test]
    fn names_and_numbers_are_blotted_out() {
        assert_eq!(
            shape("and-left true b e = f 3 (g e)"),
            shape("or-left  true  c h = go 70 (k h)")
        );
        assert_eq!(shape("λ x. a ≡ b - 1"), "λ # . # ≡ # - #");
    }

    #[test]
    fn how_a_proof_goes_is_not() {
        assert_ne!(shape("f true = refl"), shape("f false = refl"));
        assert_ne!(shape("f a = rw a"), shape("f a = omega a"));
        assert_ne!(shape("a && b"), shape("a || b"));
    }
}
