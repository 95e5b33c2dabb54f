//! The examples of the manual: descriptions with the verdict that it gives, and calls with their answers.

/// A description of the manual, with what it says of it.
pub struct Example {
    /// The line of the manual on which the description begins.
    pub line: usize,
    pub text: String,
    pub verdict: String,
    /// Calls over the description, each with its answer.
    pub calls: Vec<(String, String)>,
}

impl Example {
    /// What the manual says that is answered: the verdict, and then to each call.
    pub fn answers(&self) -> Vec<String> {
        let calls = self.calls.iter().map(|(_, answer)| answer.clone());
        std::iter::once(self.verdict.clone()).chain(calls).collect()
    }
}

/// A fenced block of a document: the word behind its fence, the line that it begins on, and what it holds.
struct Block {
    kind: String,
    line: usize,
    text: String,
}

/// The examples of a document. A block `devil` is a description, which ends in a comment with its verdict; a block
/// `replay` has calls over the description before it.
///
/// # Panics
/// Where a block is of another kind, or an example does not say what it is answered with.
pub fn examples(document: &str) -> Vec<Example> {
    let mut examples: Vec<Example> = Vec::new();
    for block in blocks(document) {
        match block.kind.as_str() {
            "devil" => examples.push(description(block)),
            "replay" => {
                let last = examples.last_mut().expect("calls behind a description");
                last.calls.extend(block.text.lines().map(call));
            }
            kind => panic!("line {}: a block of kind `{kind}`", block.line),
        }
    }
    examples
}

fn description(block: Block) -> Example {
    let told = block
        .text
        .lines()
        .last()
        .and_then(|l| l.strip_prefix("// -> "));
    let verdict = told.unwrap_or_else(|| panic!("line {}: no verdict", block.line));
    Example {
        line: block.line,
        verdict: verdict.to_string(),
        calls: Vec::new(),
        text: block.text,
    }
}

/// `CALL -> ANSWER`
fn call(line: &str) -> (String, String) {
    let (call, answer) = line
        .split_once(" -> ")
        .unwrap_or_else(|| panic!("no answer: {line}"));
    (call.trim().to_string(), answer.trim().to_string())
}

fn blocks(document: &str) -> Vec<Block> {
    let mut blocks = Vec::new();
    let mut open: Option<Block> = None;
    for (at, line) in document.lines().enumerate() {
        match (line.strip_prefix("```"), &mut open) {
            (Some(_), Some(_)) => blocks.extend(open.take()),
            (Some(kind), None) => {
                open = Some(Block {
                    kind: kind.to_string(),
                    line: at + 2,
                    text: String::new(),
                })
            }
            (None, Some(block)) => block.text = format!("{}{line}\n", block.text),
            (None, None) => {}
        }
    }
    assert!(open.is_none(), "a block is not closed");
    blocks
}

#[cfg(test)]
mod tests {
    use super::examples;

    const TWO: &str =
        "One:\n```devil\na\n// -> refused 4 0\n```\nTwo.\n```devil\nb\n// -> accepted 1 1 1\n```\n\
        ```replay\nopen 0   -> opened\nread 0 -> offer read 0 0 0x00\n```\n";

    #[test]
    fn descriptions_and_calls_are_found() {
        let two = examples(TWO);
        assert_eq!(two.len(), 2);
        assert_eq!(
            (two[0].line, two[0].text.as_str()),
            (3, "a\n// -> refused 4 0\n")
        );
        assert_eq!(two[0].verdict, "refused 4 0");
        assert!(two[0].calls.is_empty());
        let calls: Vec<_> = two[1]
            .calls
            .iter()
            .map(|(c, a)| (c.as_str(), a.as_str()))
            .collect();
        assert_eq!(
            calls,
            [("open 0", "opened"), ("read 0", "offer read 0 0 0x00")]
        );
    }

    #[test]
    #[should_panic(expected = "no verdict")]
    fn a_description_without_a_verdict_is_told() {
        examples("```devil\na\n```\n");
    }
}
