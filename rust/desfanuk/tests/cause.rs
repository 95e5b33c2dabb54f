//! The one cause of a refused text, its line and its column.

use std::collections::BTreeSet;
use std::fs;
use std::path::PathBuf;

use desfanuk::{Description, Refusal, Refused};

/// A text around some declarations: two ports, and a register of each kind.
fn around(declarations: &str) -> String {
    format!(
        "device d(a : bit[8] port @ {{0..7}}, b : bit[16] port) {{\n\
         register r = a @ 0, mask '....0*..' : bit[8];\n\
         register i = read a @ 1 : bit[8];\n\
         register o = write a @ 1 : bit[8];\n\
         {declarations}\n}}"
    )
}

fn refused(text: impl AsRef<[u8]>) -> Refused {
    let text = text.as_ref();
    match Description::load(text) {
        Ok(_) => panic!("accepted: {}", String::from_utf8_lossy(text)),
        Err(refused) => refused,
    }
}

/// Declarations behind those of `around`, and the cause.
const CAUSES: [(u8, &str, &str); 46] = [
    (3, "?", "no token begins here"),
    (3, "register x = a @ 3, mask '..", "a bits literal is not closed"),
    (3, "register x = a @ 3, mask '' : bit[8];", "a bits literal is empty"),
    (3, "register x = a, mask '.2' : bit[8];", "a bits literal holds another character than `0 1 * .`"),
    (3, "/* open", "a block comment is not closed"),
    (3, "register x = a @ 2147483648 : bit[8];", "a number is over 2,147,483,647"),
    (5, "variable v = r[0,0,0,0,0,0,0,0,0] : int(9);", "it is the 9th piece of a bit list"),
    (5, "register x = a @ ((((((((--------(1)-1)-1)-1)-1)-1)-1)-1)-1) : bit[8];", "it is the 17th parenthesis or minus around a number"),
    (7, "register x = c @ 2 : bit[8];", "a port names no parameter declared earlier"),
    (7, "register x = r @ 2 : bit[8];", "a port names no parameter declared earlier"),
    (7, "variable v = q : int(8);", "a piece names no register declared earlier"),
    (8, "register x = a @ 7/(3-3) : bit[8];", "an offset divides by zero"),
    (8, "register x = a @ 2*0x7FFFFFFF : bit[8];", "an offset leaves the range of 32 bits"),
    (8, "register x = a @ 1-2 : bit[8];", "the offset is not in the parameter's set"),
    (8, "register x = read a @ 2, write b @ 1 : bit[8];", "the offset is not in the parameter's set"),
    (9, "register x = a @ 2, a @ 3 : bit[8];", "a bad pairing of ports"),
    (9, "register x = read a @ 2, read a @ 3 : bit[8];", "a bad pairing of ports"),
    (9, "register x = a @ 2, mask '...' : bit[8];", "a mask has not as many elements as the register's stated width"),
    (9, "register x = a @ 2, mask '........', read mask '........' : bit[8];", "two masks are given for one part"),
    (9, "register x = read a @ 2, write mask '........' : bit[8];", "a mask is given for a missing part"),
    (11, "variable v = r, r : int(6);", "a bad pairing of bit lists"),
    (11, "variable v = r[8] : bool;", "a bit is not below its register's width"),
    (11, "variable v = r[0..7] : int(8);", "a range rises"),
    (11, "variable v = r[7..6,7] : int(3);", "a bit stands twice in one part"),
    (11, "variable v = r[3] : bool;", "a bit is no dot in that part's mask"),
    (11, "variable v = r : int(8);", "a bit is no dot in that part's mask"),
    (11, "variable v = read o : int(8);", "a register has not that part"),
    (11, "variable v = i # o : int(16);", "the registers of the bit list have no part in common"),
    (11, "register s = a @ 2:bit[8];register t = a @ 3:bit[8];register u = a @ 4:bit[8];\
          register w = a @ 5:bit[8];register x = a @ 6:bit[8];variable v = s#t#u#w#x:int(40);", "the part has over 32 bits"),
    (12, "register x = a @ 2 : bit[9];", "the register's width is not 8, 16 or 32"),
    (12, "register x = b : bit[8];", "the register's width is not that of its port's parameter"),
    (12, "variable v = i : int(7);", "the type's width is unlike the bits"),
    (12, "variable v = read i, write o[6..0] : int(8);", "the parts' widths differ"),
    (12, "variable v = i : bool;", "a `bool` has not one bit"),
    (13, "variable v = i, volatile, volatile : int(8);", "`volatile` is repeated"),
    (13, "variable v = o, volatile : int(8);", "`volatile` is given for a missing part"),
    (13, "variable v = i, write trigger : int(8);", "`trigger` is given for a missing part"),
    (13, "variable v = i, trigger, read trigger : int(8);", "`trigger` is repeated for a part"),
    (6, "variable r = i : int(8);", "the name is already declared: one name space for the device, parameters, registers and variables"),
    (16, "variable v = i : int(8);", "a dot of some register part is mapped in that part by no variable"),
    (5, "variable nnnnnnnnnnnnnnnnnnnnnnnnnnnnnnnnnnnnnnnnnnnnnnnnnnnnnnnnnnnnnnnnn = i : int(8);", "a name has more than 64 bytes"),
    (4, "variable v = : int(8);", "no description goes on with this token"),
    (4, "variable v = i", "no description goes on with this token"),
    (10, "register x = read a @ 2-1 : bit[8];", "an earlier register is read at the same place"),
    (10, "register x = a : bit[8];", "an earlier register is read at the same place"),
    (10, "register x = write a @ 1 : bit[8];", "an earlier register is written at the same place, and no fixed bit tells the two apart"),
];

#[test]
fn a_refusal_tells_its_one_cause() {
    for (number, declarations, cause) in CAUSES {
        let told = refused(&around(declarations));
        assert_eq!(
            (told.refusal.number(), told.cause),
            (number, cause),
            "{declarations}"
        );
    }
}

/// A text with these parameters, and more declarations behind a register and a variable.
fn headed(parameters: &str, more: &str) -> String {
    let declarations = "register r = a : bit[8]; variable v = r : int(8);";
    format!("device d({parameters}) {{ {declarations} {more} }}")
}

/// Something so many times, with a comma between two.
fn listed(count: usize, one: fn(usize) -> String) -> String {
    let all: Vec<String> = (0..count).map(one).collect();
    all.join(",")
}

#[test]
fn counts_have_causes() {
    let parameters = listed(17, |n| format!("p{n} : bit[8] port"));
    let ranges = listed(17, |n| n.to_string());
    let set = format!("a : bit[8] port @ {{{ranges}}}");
    let registers = "register q = a : bit[8];".repeat(64);
    let variables = "variable w = r : int(8);".repeat(128);
    for (parameters, more, cause) in [
        (parameters.as_str(), "", "it is the 17th parameter"),
        (&set, "", "it is the 17th range of a parameter"),
        ("a : bit[8] port", &registers, "it is the 65th register"),
        ("a : bit[8] port", &variables, "it is the 129th variable"),
    ] {
        let told = refused(&headed(parameters, more));
        assert_eq!((told.refusal.number(), told.cause), (5, cause), "{more}");
    }
}

#[test]
fn heads_have_causes() {
    let left_out = "the offset is left out, and 0 is not in the parameter's set";
    for (number, parameters, cause) in [
        (
            8,
            "port @ {0, 256}",
            "an offset of the parameter is over 255",
        ),
        (8, "port @ {0, 3..1}", "a range of the parameter goes down"),
        (8, "port @ {1}", left_out),
    ] {
        let told = refused(&headed(&format!("a : bit[8] {parameters}"), ""));
        assert_eq!((told.refusal.number(), told.cause), (number, cause));
    }
    let told = refused(&headed("a : bit[9] port", ""));
    assert_eq!(told.cause, "the parameter's width is not 8, 16 or 32");
    let told = refused("device d(");
    assert_eq!(told.cause, "the text ends where more is due");
}

/// Every refusal of a text that stands for several causes is told by one of them.
#[test]
fn the_cause_is_one_of_several() {
    let several = [3, 4, 5, 7, 8, 9, 10, 11, 12, 13];
    let mut seen = BTreeSet::new();
    for (number, declarations, _) in CAUSES {
        let told = refused(&around(declarations));
        assert_eq!(
            told.cause == told.refusal.words(),
            !several.contains(&number),
            "{declarations}"
        );
        seen.insert(number);
    }
    assert!(several.iter().all(|number| seen.contains(number)));
}

/// The place by line and column is that of the stored explanations, which are the proved program's.
#[test]
fn line_and_column_are_those_of_explain() {
    let folder = PathBuf::from(env!("CARGO_MANIFEST_DIR")).join("../compare/explain");
    let mut read = 0;
    for entry in fs::read_dir(folder).expect("the stored texts") {
        let path = entry.expect("a file").path();
        let told = fs::read_to_string(path.with_extension("txt")).unwrap_or_default();
        if path.extension().is_none_or(|end| end != "devil") || !told.starts_with("refused ") {
            continue;
        }
        let text = fs::read(&path).expect("a text");
        let Refused {
            refusal,
            place,
            line,
            column,
            ..
        } = refused(&text);
        let number = refusal.number();
        let first = format!("refused {number} {place}\nline {line}, column {column}\n");
        assert!(told.starts_with(&first), "{}: {first}", path.display());
        read += 1;
    }
    assert!(read > 20, "{read} texts");
}

#[test]
fn a_refusal_is_told_in_a_line() {
    let told = refused(&around("variable v = r[3] : bool;"));
    assert_eq!(told.refusal, Refusal::Bits);
    assert_eq!(
        told.to_string(),
        "refused (11), line 5, column 10: a bit is no dot in that part's mask"
    );
    let told = Description::load([b' '; 8193])
        .map(|_| ())
        .expect_err("too long");
    assert_eq!(
        told.to_string(),
        "refused (2), line 1, column 1: the text has more than 8,192 bytes"
    );
}
