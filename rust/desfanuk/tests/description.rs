//! Loading, through the crate's types: verdicts, names, and what a refusal is called.

use std::fs;
use std::path::PathBuf;

use desfanuk::{Description, Refusal, Refused, Tables, Verdict};

/// Document 01's text A.
const A: &str = "device d(base:bit[8] port){register r=base:bit[8];variable v=r:int(8);}";

fn of_repository(path: &str) -> PathBuf {
    PathBuf::from(env!("CARGO_MANIFEST_DIR"))
        .join("../..")
        .join(path)
}

fn verdict(text: &str) -> String {
    Tables::new().load(text.as_bytes()).to_string()
}

#[test]
fn verdicts_of_the_marked_texts() {
    assert_eq!(verdict(A), "accepted 1 1 1");
    assert_eq!(verdict(""), "refused 4 0");
    assert_eq!(verdict(&A[..70]), "refused 4 70");
    for (old, new, want) in [
        ("v=r", "v=q", "refused 7 61"),
        ("int(8)", "int(7)", "refused 12 59"),
        ("v=r", "v=r[0..7]", "refused 11 59"),
        ("v=r:int(8)", "v=r[7..1]:int(7)", "refused 16 36"),
    ] {
        assert_eq!(verdict(&A.replace(old, new)), want, "{new}");
    }
}

/// Each load says all of the tables: nothing of the text before is left.
#[test]
fn tables_are_loaded_again() {
    let mut tables = Tables::new();
    assert_eq!(tables.load(b"device"), Tables::new().load(b"device"));
    assert_eq!(tables, Tables::new());
    tables.load(A.as_bytes());
    assert_ne!(tables, Tables::new());
    let accepted = tables.clone();
    assert_eq!(tables.load(&[b' '; 8193]).to_string(), "refused 2 0");
    assert_eq!(tables, accepted);
    tables.load(b"device");
    assert_eq!(tables, Tables::new());
}

#[test]
fn names_are_looked_up_and_told() {
    let description = Description::load(A).expect("text A");
    assert_eq!(description.text(), A.as_bytes());
    assert_eq!(description.parameter_name(0), Some("base"));
    assert_eq!(description.register_name(0), Some("r"));
    assert_eq!(description.parameter_name(1), None);
    assert_eq!(description.register_name(1), None);
    description.with(|a| {
        let v = a.variable("v").expect("it has a v");
        assert_eq!((v.index(), v.name(), v.range()), (0, "v", 0..=255));
        assert_eq!((a.variable_at(0), a.variable_at(1)), (Some(v), None));
        for name in ["", "r", "base", "d", "V", "vv"] {
            assert_eq!(a.variable(name), None, "{name}");
        }
    });
}

#[test]
fn a_refused_text_is_told_in_words() {
    let refused = Description::load(A.replace("v=r", "v=q")).expect_err("no q");
    let Refused { refusal, place, .. } = refused;
    assert_eq!((refusal, place), (Refusal::Undeclared, 61));
    assert_eq!(
        refused.to_string(),
        "refused (7), line 1, column 62: a piece names no register declared earlier"
    );
}

/// Every board of the repository, each variable found by its own name.
#[test]
fn every_board_is_accepted() {
    let mut boards = 0;
    for entry in fs::read_dir(of_repository("boards")).expect("the folder") {
        let path = entry.expect("an entry").path();
        if path
            .extension()
            .is_none_or(|extension| extension != "devil")
        {
            continue;
        }
        let text = fs::read(&path).expect("a board");
        let verdict = Tables::new().load(&text);
        let description = Description::load(text).expect("a good description");
        assert_eq!(
            verdict,
            Verdict::Accepted {
                parameters: description.parameters(),
                registers: description.registers(),
                variables: description.variables(),
            }
        );
        description.with(|board| {
            for index in 0..board.variables() {
                let variable = board.variable_at(index).expect("it is counted");
                assert_eq!(board.variable(variable.name()), Some(variable));
                assert_eq!(variable.index(), index);
            }
        });
        boards += 1;
    }
    assert!(boards >= 10);
}

/// The refusals of docs/REFUSALS.md, links left out. A row without a number goes on with the row above it.
fn documented(page: &str) -> Vec<(u8, String)> {
    let mut refusals: Vec<(u8, String)> = Vec::new();
    for table in page.split("| No. |").skip(1) {
        for row in table.lines().skip(2).take_while(|l| l.starts_with('|')) {
            let cells: Vec<&str> = row.split('|').map(str::trim).collect();
            let words = cells[2].split(" ([").next().expect("words");
            match cells[1].parse() {
                Ok(number) => refusals.push((number, words.to_string())),
                Err(_) => {
                    let (_, above) = refusals.last_mut().expect("a row with a number");
                    *above = format!("{above} {words}");
                }
            }
        }
    }
    refusals
}

/// Each refusal's words are those of docs/REFUSALS.md, and none is missing.
#[test]
fn refusals_are_told_as_documented() {
    let page = fs::read_to_string(of_repository("docs/REFUSALS.md")).expect("the page");
    let told: Vec<(u8, String)> = Refusal::ALL
        .iter()
        .map(|refusal| (refusal.number(), refusal.words().to_string()))
        .collect();
    let documented = documented(&page);
    assert_eq!(told, documented, "src/refusal.rs beside docs/REFUSALS.md");
}
