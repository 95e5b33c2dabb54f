//! The functions of a Rattle file.

/// A function: its name, and how many lines it has, contract and all.
pub struct Function {
    pub name: String,
    pub lines: usize,
}

/// A function begins at a line with `fn` and ends at the brace that stands under it.
pub fn functions(text: &str) -> Vec<Function> {
    let lines: Vec<&str> = text.lines().collect();
    let mut found = Vec::new();
    for (at, line) in lines.iter().enumerate() {
        let Some(name) = named(line) else { continue };
        let close = format!("{}}}", &line[..line.len() - line.trim_start().len()]);
        let more = lines[at..].iter().position(|l| *l == close);
        let more = more.unwrap_or_else(|| panic!("no end of {name}"));
        found.push(Function {
            name,
            lines: more + 1,
        });
    }
    found
}

fn named(line: &str) -> Option<String> {
    let mut words = line.trim_start();
    for before in ["#[unsafe(no_mangle)] ", "pub ", "extern \"C\" "] {
        words = words.strip_prefix(before).unwrap_or(words);
    }
    let rest = words.strip_prefix("fn ")?;
    Some(
        rest.chars()
            .take_while(|c| c.is_alphanumeric() || *c == '_')
            .collect(),
    )
}

#[cfg(test)]
mod tests {
    use super::functions;

    #[test]
    fn lines_are_counted_from_the_head_to_the_brace() {
        let found = functions("pub fn one() -> u8\n{\n    1\n}\n\nfn two() {\n}\n");
        assert_eq!(found.len(), 2);
        assert_eq!((found[0].name.as_str(), found[0].lines), ("one", 4));
        assert_eq!((found[1].name.as_str(), found[1].lines), ("two", 2));
    }
}
