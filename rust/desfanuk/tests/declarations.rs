//! The archive's functions are declared three times: in Rattle (crates/abi), for Rust (src/raw.rs)
//! and for C (include/desfanuk.h). Nothing else would see that two of them differ, so they are
//! compared here: names, order and types of all parameters, and the result.

use std::collections::BTreeMap;
use std::fs;
use std::path::PathBuf;

/// What each function takes and gives, in the words of C with Rust's names of numbers.
type Declarations = BTreeMap<String, String>;

fn of_repository(path: &str) -> PathBuf {
    PathBuf::from(env!("CARGO_MANIFEST_DIR"))
        .join("../..")
        .join(path)
}

/// The declarations that follow `mark` in a text: the name, the parameters, and what stands between
/// them and the end of the line.
fn after<'t>(text: &'t str, mark: &'static str) -> impl Iterator<Item = [&'t str; 3]> {
    text.split(mark).skip(1).map(|rest| {
        let (name, rest) = rest.split_once('(').expect("parameters");
        let (parameters, rest) = rest.split_once(')').expect("their end");
        [name, parameters, rest.lines().next().unwrap_or_default()]
    })
}

fn declared(
    name: &str,
    parameters: &str,
    one: fn(&str) -> String,
    result: &str,
) -> (String, String) {
    let parameters: Vec<String> = parameters
        .split(',')
        .map(str::trim)
        .filter(|parameter| !parameter.is_empty())
        .map(one)
        .collect();
    let declaration = format!("{result} ({})", parameters.join(", "));
    (name.trim().to_string(), declaration)
}

/// A result `-> R`, as Rattle and Rust write it.
fn result_of(rest: &str) -> &str {
    rest.trim().trim_start_matches("-> ").trim_end_matches(';')
}

/// A parameter as Rattle writes it, and `calls!` of src/raw.rs after it. A slice passes as a pointer
/// and a length.
fn of_rattle(parameter: &str) -> String {
    let (name, kind) = parameter.split_once(": ").expect("a type");
    let pointer = |kind: &str, constant: &str| {
        let element = kind.trim_end_matches(']');
        format!("{constant}{element} *{name}, usize {name}_len")
    };
    if let Some(kind) = kind.strip_prefix("&mut [") {
        pointer(kind, "")
    } else if let Some(kind) = kind.strip_prefix("&[") {
        pointer(kind, "const ")
    } else {
        format!("{kind} {name}")
    }
}

/// C's text with Rust's names of numbers.
fn numbers_of_rust(text: &str) -> String {
    text.replace("size_t", "usize")
        .replace("uint", "u")
        .replace("int", "i")
        .replace("_t ", " ")
}

fn in_rattle() -> Declarations {
    fs::read_dir(of_repository("crates/abi/src"))
        .expect("the crate's source")
        .flat_map(|file| {
            let text = fs::read_to_string(file.expect("a file").path()).expect("its text");
            after(&text, "pub extern \"C\" fn ")
                .map(|[name, parameters, rest]| {
                    declared(name, parameters, of_rattle, result_of(rest))
                })
                .collect::<Vec<_>>()
        })
        .collect()
}

fn in_rust() -> Declarations {
    let (_, block) = include_str!("../src/raw.rs")
        .split_once("\ncalls! {")
        .expect("the declarations");
    let (block, _) = block.split_once("\n}").expect("their end");
    after(block, "fn ")
        .map(|[name, parameters, rest]| declared(name, parameters, of_rattle, result_of(rest)))
        .collect()
}

fn in_c() -> Declarations {
    let header = fs::read_to_string(of_repository("include/desfanuk.h")).expect("the header");
    let mut declarations = Declarations::new();
    for line_start in ["\nuint32_t ", "\nuint64_t ", "\nint64_t "] {
        let result = numbers_of_rust(line_start);
        declarations.extend(after(&header, line_start).map(|[name, parameters, _]| {
            let parameters = numbers_of_rust(parameters);
            declared(name, &parameters, str::to_string, result.trim())
        }));
    }
    declarations
}

#[test]
fn the_three_declarations_agree() {
    let rattle = in_rattle();
    assert_eq!(rattle.len(), 12);
    assert_eq!(in_rust(), rattle);
    assert_eq!(in_c(), rattle);
}
