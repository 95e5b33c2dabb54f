//! The stored cases: a readable list of texts, and of scripts for the station.
//!
//! A case that a paper settles carries its answer, and `make_cases` refuses to store anything else.
//! In a text of such a case `^` stands before the byte that the refusal names.

mod boards;
mod contradictions;
mod grammar;
mod limits;
mod lines;
mod order;
mod pieces;
mod places;
mod readings;
mod rules;
mod runs;
mod scripts;
mod sizes;
mod tokens;
mod units;
mod widths;

pub use pieces::{scripts as piece_scripts, PieceScript};
pub use readings::{cases as readings, Reading};

use crate::units::{record, RECORD_BYTES};
use crate::{frame, load, outline, replay, token_line};

/// Where the files lie that no proved program reads.
const HOME: &str = "rust/second/cases";

/// Text A of document 01.
pub const A: &str = "device d(base:bit[8] port){register r=base:bit[8];variable v=r:int(8);}";

/// A text, and the line that the papers give for it.
#[derive(Clone, Debug)]
pub struct Case {
    pub name: String,
    pub text: Vec<u8>,
    pub expected: Option<String>,
}

/// A text and lines over it, and the lines that they write where the papers settle them, the verdict aside.
#[derive(Clone, Debug)]
pub struct Script {
    pub name: String,
    pub text: Vec<u8>,
    pub lines: Vec<u8>,
    pub expected: Option<Vec<String>>,
}

impl Script {
    /// Each call stands with its answer, as `call -> answer`.
    fn answered(name: &str, text: &str, calls: &str) -> Script {
        let pairs = calls.lines().map(|line| {
            line.trim_start()
                .split_once(" -> ")
                .unwrap_or_else(|| panic!("{name}: no answer: {line}"))
        });
        let lines: String = pairs.clone().map(|(call, _)| format!("{call}\n")).collect();
        Script {
            expected: Some(pairs.map(|(_, answer)| answer.to_string()).collect()),
            ..Script::open(name, text, &lines)
        }
    }

    /// What the lines write is only computed.
    fn open(name: &str, text: &str, lines: &str) -> Script {
        Script {
            name: name.to_string(),
            text: text.as_bytes().to_vec(),
            lines: lines.as_bytes().to_vec(),
            expected: None,
        }
    }

    /// The script as `replay` reads it.
    pub fn input(&self) -> Vec<u8> {
        let mut input = Vec::new();
        frame::write(&self.text, &mut input);
        input.extend_from_slice(&self.lines);
        input
    }
}

/// All stored scripts. The last ends without a newline.
pub fn scripts() -> Vec<Script> {
    let mut scripts = scripts::scripts();
    scripts.extend(limits::scripts());
    scripts.extend(places::scripts());
    scripts.extend(contradictions::scripts());
    scripts.extend(widths::scripts());
    scripts.extend(units::scripts());
    scripts.extend(runs::scripts());
    scripts.extend(lines::scripts());
    scripts
}

/// All stored texts, in the order of document 01.
pub fn texts() -> Vec<Case> {
    let mut list = reading();
    order::cases(&mut list);
    rules::cases(&mut list);
    places::cases(&mut list);
    widths::cases(&mut list);
    boards::cases(&mut list);
    list.0
}

/// The stored texts that are about reading: tokens, grammar and sizes.
fn reading() -> List {
    let mut list = List::default();
    marked(&mut list);
    tokens::cases(&mut list);
    grammar::cases(&mut list);
    sizes::cases(&mut list);
    list
}

/// Those of them that are short enough to look at token by token.
pub fn short_texts() -> Vec<Vec<u8>> {
    reading()
        .0
        .into_iter()
        .map(|case| case.text)
        .filter(|text| text.len() <= 300)
        .collect()
}

/// A stored file: its path in the repository, and its bytes.
pub type StoredFile = (String, Vec<u8>);

/// Every stored file: what `make_cases` writes. `Err` names the first case whose answer is not the
/// one that the papers give.
pub fn files() -> Result<Vec<StoredFile>, String> {
    let mut files = token_files();
    files.extend(text_files()?);
    files.extend(script_files()?);
    files.extend(piece_files()?);
    files.extend(reading_files()?);
    Ok(files)
}

/// Input and output of the proved program `tokens`.
fn token_files() -> Vec<StoredFile> {
    let mut framed = Vec::new();
    let mut lines = String::new();
    for text in short_texts() {
        frame::write(&text, &mut framed);
        lines += &format!("{}\n{}\n", token_line(&text), outline(&text));
    }
    vec![
        ("crates/tokens/stdin".to_string(), framed),
        ("crates/tokens/stdout".to_string(), lines.into_bytes()),
    ]
}

/// Input and output of the proved program `cases`: the stored texts and their verdicts; and the texts' names.
fn text_files() -> Result<Vec<StoredFile>, String> {
    let mut framed = Vec::new();
    let mut verdicts = String::new();
    let mut names = String::new();
    for case in texts() {
        let verdict = load(&case.text).to_string();
        if case.expected.as_ref().is_some_and(|line| *line != verdict) {
            return Err(format!("{}: {verdict}, not {:?}", case.name, case.expected));
        }
        frame::write(&case.text, &mut framed);
        verdicts += &format!("{verdict}\n");
        names += &format!("{}\n", case.name);
    }
    Ok(vec![
        ("crates/cases/stdin".to_string(), framed),
        ("crates/cases/stdout".to_string(), verdicts.into_bytes()),
        (format!("{HOME}/texts.names"), names.into_bytes()),
    ])
}

/// What stands before the first text is passed over.
const BEFORE: &[u8] = b"; each script is a text and calls over it\nopen 1\ntext 3\nstate\n";

/// Input and output of the proved program `replay`, and the scripts' names.
fn script_files() -> Result<Vec<StoredFile>, String> {
    let mut input = BEFORE.to_vec();
    let mut output = String::new();
    let mut names = String::new();
    for script in scripts() {
        let written = replay::replay(&script.input());
        for (answer, line) in script.expected.iter().flatten().zip(&written[1..]) {
            if answer != line {
                return Err(format!("{}: {line}, not {answer}", script.name));
            }
        }
        input.extend_from_slice(&script.input());
        output.extend(written.iter().map(|line| format!("{line}\n")));
        names += &format!("{}\n", script.name);
    }
    Ok(vec![
        ("crates/replay/stdin".to_string(), input),
        ("crates/replay/stdout".to_string(), output.into_bytes()),
        (format!("{HOME}/scripts.names"), names.into_bytes()),
    ])
}

/// Input and output of the proved program `arrivals`, framed scripts of pieces, and the scripts' names.
fn piece_files() -> Result<Vec<StoredFile>, String> {
    let mut framed = Vec::new();
    let mut output = String::new();
    let mut names = String::new();
    for script in piece_scripts() {
        let written = crate::pieces::script::run(&script.lines);
        if written != script.expected {
            let PieceScript { name, expected, .. } = script;
            return Err(format!("{name}: {written:?}, not {expected:?}"));
        }
        frame::write(&script.lines, &mut framed);
        output.extend(written.iter().map(|line| format!("{line}\n")));
        names += &format!("{}\n", script.name);
    }
    Ok(vec![
        ("crates/arrivals/stdin".to_string(), framed),
        ("crates/arrivals/stdout".to_string(), output.into_bytes()),
        (format!("{HOME}/pieces.names"), names.into_bytes()),
    ])
}

/// Input and output of the proved program `readings`, and the records' names. Behind the last whole record stand the
/// bytes of another that lacks one.
fn reading_files() -> Result<Vec<StoredFile>, String> {
    let mut input = Vec::new();
    let mut output = String::new();
    let mut names = String::new();
    for case in readings() {
        let line = case.calibration.line(case.reading);
        if case.expected.as_ref().is_some_and(|want| *want != line) {
            return Err(format!("{}: {line}, not {:?}", case.name, case.expected));
        }
        input.extend(record(case.calibration, case.reading));
        output += &format!("{line}\n");
        names += &format!("{}\n", case.name);
    }
    input.extend_from_within(..RECORD_BYTES - 1);
    Ok(vec![
        ("crates/readings/stdin".to_string(), input),
        ("crates/readings/stdout".to_string(), output.into_bytes()),
        (format!("{HOME}/readings.names"), names.into_bytes()),
    ])
}

#[derive(Default)]
struct List(Vec<Case>);

impl List {
    /// A text with the line that it gets.
    fn line(&mut self, name: &str, text: impl AsRef<[u8]>, expected: &str) {
        self.0.push(Case {
            name: name.to_string(),
            text: text.as_ref().to_vec(),
            expected: Some(expected.to_string()),
        });
    }

    /// A text that is accepted with these counts.
    fn accepted(&mut self, name: &str, text: impl AsRef<[u8]>, counts: &str) {
        self.line(name, text, &format!("accepted {counts}"));
    }

    /// A text that is refused at its `^`, which is not part of it.
    fn refused(&mut self, name: &str, number: u8, marked: impl AsRef<[u8]>) {
        let marked = marked.as_ref();
        let place = marked
            .iter()
            .position(|b| *b == b'^')
            .unwrap_or_else(|| panic!("{name}: no place is marked"));
        let text = [&marked[..place], &marked[place + 1..]].concat();
        self.line(name, text, &format!("refused {number} {place}"));
    }

    /// A text whose answer is only computed.
    fn open(&mut self, name: &str, text: impl AsRef<[u8]>) {
        self.0.push(Case {
            name: name.to_string(),
            text: text.as_ref().to_vec(),
            expected: None,
        });
    }
}

/// A device with parameter b over all offsets, and these declarations.
fn device(declarations: &str) -> String {
    format!("device d(b:bit[8] port@{{0..255}}){{{declarations}}}")
}

/// That device with register r of this definition, and variable v over all of it.
fn register(definition: &str) -> String {
    device(&format!("register r={definition};variable v=r:int(8);"))
}

/// That device with register r at this offset.
fn offset(expression: &str) -> String {
    register(&format!("b@{expression}:bit[8]"))
}

/// That device with a plain register r, these variables, and nothing else.
fn over_r(variables: &str) -> String {
    device(&format!("register r=b:bit[8];{variables}"))
}

fn marked(list: &mut List) {
    list.accepted("marked: text A", A, "1 1 1");
    list.line("marked: the empty text", "", "refused 4 0");
    list.line(
        "marked: the last byte cut off",
        &A[..A.len() - 1],
        "refused 4 70",
    );
    let edit = |from: &str, to: &str| {
        assert!(A.contains(from));
        A.replacen(from, to, 1)
    };
    list.line(
        "marked: an undeclared register",
        edit("v=r:", "v=q:"),
        "refused 7 61",
    );
    list.line("marked: int(7)", edit("int(8)", "int(7)"), "refused 12 59");
    list.line(
        "marked: a rising range",
        edit("v=r:", "v=r[0..7]:"),
        "refused 11 59",
    );
    list.line(
        "marked: a bit unmapped",
        edit("v=r:int(8)", "v=r[7..1]:int(7)"),
        "refused 16 36",
    );
    list.line(
        "marked: a bit mapped twice",
        edit(
            "variable v=r:int(8);",
            "variable v=r[7..4]:int(4);variable w=r[4..0]:int(5);",
        ),
        "refused 14 85",
    );
    let over_0_to_3 = |expression: &str| {
        format!(
            "device d(base:bit[8] port@{{0..3}}){{register r=base{expression}:bit[8];variable v=r:int(8);}}"
        )
    };
    list.accepted("marked: 8-3-2", over_0_to_3("@8-3-2"), "1 1 1");
    list.accepted("marked: (1+2)*1", over_0_to_3("@(1+2)*1"), "1 1 1");
    list.refused("marked: 4", 8, over_0_to_3("^@4"));
    list.refused("marked: 1-2", 8, over_0_to_3("^@1-2"));
    list.refused("marked: 7/0", 8, over_0_to_3("^@7/0"));
}

/// A text as short as can be with so many parameters, registers and variables: the variables map
/// one bit each, and every other bit is a star.
fn counted(parameters: usize, registers: usize, variables: usize) -> String {
    let heading: Vec<String> = (0..parameters)
        .map(|i| format!("p{i}:bit[8]port@{{0..63}}"))
        .collect();
    let mut text = format!("device d({}){{", heading.join(","));
    for r in 0..registers {
        let dots = (0..8)
            .rev()
            .map(|bit| if r * 8 + bit < variables { '.' } else { '*' })
            .collect::<String>();
        text += &format!("register r{r}=p0@{r},mask '{dots}':bit[8];");
    }
    for v in 0..variables {
        text += &format!(
            "variable v{v}=r{}[{}]:bool;",
            v / 8 % registers.max(1),
            v % 8
        );
    }
    text + "}"
}
