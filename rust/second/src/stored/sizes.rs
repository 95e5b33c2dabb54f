//! Sizes: refusals 2 and 5, both sides of each bound.

use super::{counted, device, offset, over_r, List, A};
use crate::load::TEXT_BYTES;

pub(super) fn cases(list: &mut List) {
    text_bytes(list);
    names(list);
    counts(list);
    pieces(list);
    depth(list);
}

fn text_bytes(list: &mut List) {
    let blanks = " ".repeat(TEXT_BYTES - A.len());
    list.accepted(
        "8,192 bytes, blanks after",
        A.to_string() + &blanks,
        "1 1 1",
    );
    list.accepted("8,192 bytes, blanks before", blanks.clone() + A, "1 1 1");
    list.accepted(
        "8,192 bytes, a comment before",
        format!("/*{}*/{A}", "-".repeat(TEXT_BYTES - A.len() - 4)),
        "1 1 1",
    );
    list.line("8,193 bytes", format!("{A}{blanks} "), "refused 2 0");
    list.line("8,193 bytes of NUL", vec![0; TEXT_BYTES + 1], "refused 2 0");
    list.line("8,192 bytes of NUL", vec![0; TEXT_BYTES], "refused 3 0");
    list.line("8,192 blanks", vec![b' '; TEXT_BYTES], "refused 4 8192");
    list.line("8,193 blanks", vec![b' '; TEXT_BYTES + 1], "refused 2 0");
    list.line(
        "an unclosed comment of 8,192 bytes",
        "/*".to_string() + &"*".repeat(TEXT_BYTES - 2),
        "refused 3 0",
    );
    list.line("20,000 bytes", vec![b'd'; 20_000], "refused 2 0");
    list.line(
        "a name of 8,185 bytes",
        "device ".to_string() + &"n".repeat(TEXT_BYTES - 7),
        "refused 5 7",
    );
    list.line(
        "digits to the end",
        "device ".to_string() + &"9".repeat(TEXT_BYTES - 7),
        "refused 3 7",
    );
    list.line(
        "zeros to the end",
        "device ".to_string() + &"0".repeat(TEXT_BYTES - 7),
        "refused 4 7",
    );
}

fn names(list: &mut List) {
    let long = "n".repeat(64);
    let longer = "n".repeat(65);
    // A use too long is refused before anyone asks whether it is declared.
    let places = [
        (
            "device",
            "device ^@(base:bit[8] port){register r=base:bit[8];variable v=r:int(8);}",
            Some("1 1 1"),
        ),
        (
            "parameter",
            "device d(^@:bit[8] port){register r=@:bit[8];variable v=r:int(8);}",
            Some("1 1 1"),
        ),
        (
            "register",
            "device d(base:bit[8] port){register ^@=base:bit[8];variable v=@:int(8);}",
            Some("1 1 1"),
        ),
        (
            "variable",
            "device d(base:bit[8] port){register r=base:bit[8];variable ^@=r:int(8);}",
            Some("1 1 1"),
        ),
        (
            "port",
            "device d(base:bit[8] port){register r=^@:bit[8];variable v=r:int(8);}",
            None,
        ),
        (
            "bit list",
            "device d(base:bit[8] port){register r=base:bit[8];variable v=^@:int(8);}",
            None,
        ),
        (
            "joined list",
            "device d(base:bit[8] port){register r=base:bit[8];variable v=r#^@:int(8);}",
            None,
        ),
        (
            "second port",
            "device d(base:bit[8] port){register r=read base,write ^@:bit[8];variable v=r:int(8);}",
            None,
        ),
        (
            "second list",
            "device d(base:bit[8] port){register r=base:bit[8];variable v=read r,write ^@:int(8);}",
            None,
        ),
    ];
    for (place, marked, counts) in places {
        list.refused(
            &format!("a {place} name of 65 bytes"),
            5,
            marked.replace('@', &longer),
        );
        let marked = marked.replace('@', &long);
        match counts {
            Some(counts) => {
                list.accepted(
                    &format!("a {place} name of 64 bytes"),
                    marked.replace('^', ""),
                    counts,
                );
            }
            None => list.refused(
                &format!("a {place} name of 64 bytes, undeclared"),
                7,
                marked,
            ),
        }
    }
    list.line(
        "a name of 65 bytes where none is due",
        "device d nnnnnnnnnnnnnnnnnnnnnnnnnnnnnnnnnnnnnnnnnnnnnnnnnnnnnnnnnnnnnnnnn",
        "refused 4 9",
    );
    list.refused(
        "a name of 65 bytes as an offset",
        4,
        offset(&format!("^{longer}")),
    );
    list.refused(
        "a name of 65 bytes after a number",
        4,
        offset(&format!("0^x{longer}")),
    );
    let text = format!(
        "device d(b:bit[8] port){{register r=b:bit[8];variable {long}=r[7]:bool;variable {}m=r[6..0]:int(7);}}",
        &long[..63]
    );
    list.accepted("names that differ in their 64th byte", text, "1 1 2");
}

fn counts(list: &mut List) {
    list.accepted("16 parameters", counted(16, 1, 1), "16 1 1");
    list.refused(
        "17 parameters",
        5,
        counted(17, 1, 1).replace(",p16:", ",^p16:"),
    );
    list.refused(
        "a 17th parameter of 65 bytes",
        5,
        counted(17, 1, 1).replace(",p16:", &format!(",^{}:", "n".repeat(65))),
    );
    list.refused(
        "a 17th parameter that is no name",
        4,
        counted(17, 1, 1).replace(",p16:", ",^16:"),
    );
    list.refused(
        "a 17th parameter that is a bad token",
        3,
        counted(17, 1, 1).replace(",p16:", ",^$:"),
    );
    list.refused(
        "a 17th parameter that is declared",
        5,
        counted(17, 1, 1).replace(",p16:", ",^p0:"),
    );

    let ranges = |count: usize, last: &str| {
        let ranges: Vec<String> = (1..count)
            .map(|i| i.to_string())
            .chain([last.to_string()])
            .collect();
        format!(
            "device d(b:bit[8] port@{{{}}}){{register r=b@1:bit[8];variable v=r:int(8);}}",
            ranges.join(",")
        )
    };
    list.accepted("16 ranges", ranges(16, "200..255"), "1 1 1");
    list.refused("17 ranges", 5, ranges(17, "^200..255"));
    list.refused("17 ranges, the last going down", 5, ranges(17, "^9..1"));
    list.refused("17 ranges, the last over 255", 5, ranges(17, "^256"));
    list.refused("a 17th range too large", 3, ranges(17, "^2147483648"));
    list.refused("a 17th range that is a name", 4, ranges(17, "^x"));
    list.refused("nothing for a 17th range", 4, ranges(17, "^"));
    list.accepted(
        "16 ranges that overlap",
        format!(
            "device d(b:bit[8] port@{{{}}}){{register r=b@1:bit[8];variable v=r:int(8);}}",
            ["0..9"; 16].join(",")
        ),
        "1 1 1",
    );

    list.accepted("64 registers", counted(1, 64, 1), "1 64 1");
    list.refused(
        "65 registers",
        5,
        counted(1, 65, 1).replace("register r64", "^register r64"),
    );
    let without_end = |text: String| text[..text.len() - 1].to_string();
    list.refused(
        "a 65th register that is nothing more",
        5,
        without_end(counted(1, 64, 1)) + "^register",
    );
    list.accepted("128 variables", counted(1, 16, 128), "1 16 128");
    list.refused(
        "129 variables",
        5,
        counted(1, 17, 129).replace("variable v128", "^variable v128"),
    );
    list.refused(
        "a 129th variable that is nothing more",
        5,
        without_end(counted(1, 16, 128)) + "^variable",
    );
    list.accepted(
        "64 registers and 128 variables",
        counted(16, 64, 128)
            .replace("@{0..63}", "")
            .replacen("]port", "]port@{0..63}", 1),
        "16 64 128",
    );
}

fn pieces(list: &mut List) {
    // Registers r0, r1, .. of eight dots, one for every eight pieces of one bit.
    let variable = |definition: &str| {
        device(&format!(
            "register r0=b@0:bit[8];register r1=b@1:bit[8];variable v={definition};variable w=r1:int(8);"
        ))
    };
    let single: Vec<String> = (0..8).rev().map(|bit| format!("r0[{bit}]")).collect();
    list.accepted(
        "8 pieces joined",
        variable(&format!("{}:int(8)", single.join("#"))),
        "1 2 2",
    );
    list.refused(
        "9 pieces joined",
        5,
        variable(&format!("{}#^r1[0]:int(8)", single.join("#"))),
    );
    list.refused(
        "a ninth piece, a whole register",
        5,
        variable(&format!("{}#^r1:int(8)", single.join("#"))),
    );
    list.refused(
        "a ninth piece, undeclared",
        5,
        variable(&format!("{}#^q:int(8)", single.join("#"))),
    );
    list.refused(
        "a ninth piece that is no name",
        4,
        variable(&format!("{}#^0:int(8)", single.join("#"))),
    );
    list.accepted(
        "8 pieces in brackets",
        variable("r0[7,6,5,4,3,2,1,0]:int(8)"),
        "1 2 2",
    );
    list.refused(
        "9 pieces in brackets",
        5,
        variable("r0[7,6,5,4,3,2,1,0,^0]:int(8)"),
    );
    list.refused(
        "a ninth piece, a range",
        5,
        variable("r0[7,6,5,4,3,2,1,0,^7..0]:int(8)"),
    );
    list.refused(
        "a ninth piece, too large",
        3,
        variable("r0[7,6,5,4,3,2,1,0,^2147483648]:int(8)"),
    );
    list.refused(
        "a ninth piece, a name",
        4,
        variable("r0[7,6,5,4,3,2,1,0,^r]:int(8)"),
    );
    list.refused(
        "a ninth piece, joined and in brackets",
        5,
        variable("r0[7,6,5,4]#r0[3,2,1,0,^9]:int(8)"),
    );
    list.refused(
        "a ninth piece starts at its register's name",
        5,
        variable("r0[7,6,5,4]#r0[3,2,1,0]#^r1[7..0]:int(8)"),
    );
    let both = "r0[7,6,5,4,3,2,1,0]";
    list.accepted(
        "8 pieces in each of two lists",
        variable(&format!("read {both},write {both}:int(8)")),
        "1 2 2",
    );
    list.refused(
        "9 pieces in a second list",
        5,
        variable(&format!("read {both},write {both}#^r1:int(8)")),
    );
    list.refused(
        "a ninth piece in a third list",
        4,
        variable(&format!("read {both},write {both},read ^{both}#r1:int(8)")),
    );
    let eight = "r1#r0[7]#r0[6]#r0[5]#r0[4]#r0[3]#r0[2]#";
    list.accepted(
        "8 pieces, a whole register among them",
        variable(&format!("{eight}r0[1..0]:int(16)")).replace("variable w=r1:int(8);", ""),
        "1 2 1",
    );
    list.refused(
        "8 pieces and one in brackets",
        5,
        variable(&format!("{eight}r0[1,^0]:int(16)")),
    );
}

fn depth(list: &mut List) {
    let around = |open: &str, count: usize, close: &str| {
        offset(&(open.repeat(count) + "1" + &close.repeat(count)))
    };
    list.accepted("16 parentheses", around("(", 16, ")"), "1 1 1");
    list.accepted("16 minuses", around("-", 16, ""), "1 1 1");
    list.accepted("8 parentheses and 8 minuses", around("-(", 8, ")"), "1 1 1");
    let seventeenth = |front: &str, back: &str| offset(&format!("{front}^{back}"));
    list.refused(
        "17 parentheses",
        5,
        seventeenth(&"(".repeat(16), &("(1".to_string() + &")".repeat(17))),
    );
    list.refused("17 minuses", 5, seventeenth(&"-".repeat(16), "-1"));
    list.refused(
        "a 17th minus",
        5,
        seventeenth(&"-(".repeat(8), &("-1".to_string() + &")".repeat(8))),
    );
    list.refused(
        "a 17th parenthesis",
        5,
        seventeenth(&"(-".repeat(8), &("(1)".to_string() + &")".repeat(8))),
    );
    list.refused(
        "17 minuses in the last operand",
        5,
        seventeenth(&("1+2*".to_string() + &"-".repeat(16)), "-1"),
    );
    list.line(
        "a 17th parenthesis around nothing",
        "device d(b:bit[8] port){register r=b@((((((((((((((((()",
        "refused 5 53",
    );
    list.refused(
        "16 parentheses around nothing",
        4,
        offset(&("(".repeat(16) + "^)")),
    );
    list.accepted(
        "parentheses one after the other",
        offset(&("(1)+".repeat(40) + "(1)")),
        "1 1 1",
    );
    list.accepted(
        "minuses one after the other",
        offset(&("-1*".repeat(41) + "-1")),
        "1 1 1",
    );
    list.accepted(
        "binary minuses",
        offset(&("200".to_string() + &"-1".repeat(40))),
        "1 1 1",
    );
    list.accepted(
        "a minus ends with its operand",
        offset(&("(".repeat(15) + "-1+2" + &")".repeat(15))),
        "1 1 1",
    );
    list.accepted(
        "depth 16 twice",
        offset(&("-".repeat(16) + "1+" + &"(".repeat(16) + "1" + &")".repeat(16))),
        "1 1 1",
    );
    list.refused(
        "depth in a port of no use",
        5,
        over_r(&format!("register s=q@{}^-1:bit[8];", "-".repeat(16))),
    );
    list.refused(
        "17 deep, and undeclared",
        5,
        device(&format!("register r=q@{}^(1)", "(".repeat(16))),
    );
}
