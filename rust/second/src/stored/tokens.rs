//! Tokens: refusal 3, and what is a token after all.

use super::{offset, over_r, register, List, A};
use crate::token::RESERVED;

pub(super) fn cases(list: &mut List) {
    blanks_and_comments(list);
    numbers(list);
    bits(list);
    signs(list);
    bad_bytes(list);
    reserved_words(list);
}

fn blanks_and_comments(list: &mut List) {
    list.line("only blanks", " \n\t ", "refused 4 4");
    list.line("only a line comment", "// nothing", "refused 4 10");
    list.line("only a block comment", "/* nothing */", "refused 4 13");
    list.line("a comment that ends in a newline", "//\n", "refused 4 3");
    list.line(
        "trailing comment, the end's place",
        "device d  // x",
        "refused 4 14",
    );
    list.line(
        "trailing blanks, the end's place",
        "device d  ",
        "refused 4 10",
    );
    list.refused("a token's place is its own", 4, "device d /* ( */ ^)");
    let wide = "\n\tdevice /**/ d ( base : bit [ 8 ] port ) // heading\n{ register r = base : bit [ 8 ] ;\n\
        /* * / */ variable v = r : int ( 8 ) ; }\n// the end";
    list.accepted("blanks between all tokens", wide, "1 1 1");
    let spaced = "device d ( base : bit [ 8 ] port ) { register r = base : bit [ 8 ] ; variable v = r : int ( 8 ) ; }";
    list.accepted(
        "comments between all tokens",
        spaced.replace(' ', "/**/"),
        "1 1 1",
    );
    list.accepted(
        "line comments between all tokens",
        spaced.replace(' ', "//\n"),
        "1 1 1",
    );
    list.refused(
        "a blank that is a carriage return",
        3,
        "device d(^\r\nb:bit[8] port)",
    );
    list.refused("a comment is a blank", 4, "^dev/**/ice d");
    list.refused("a comment cuts a number", 4, offset("1/**/^2"));
    for (name, text) in [
        ("unclosed block comment", "^/*"),
        ("unclosed block comment after a token", "device ^/* x"),
        ("/*/ is unclosed", "device ^/*/"),
        ("/*/ is unclosed, as long as no pair follows", "^/*/ * / "),
        (
            "an unclosed comment after a closed one",
            "/* /* */ device d ^/* * /",
        ),
    ] {
        list.refused(name, 3, text);
    }
    list.refused("a closing pair alone", 4, "/* /* */ ^*/ device");
    for (name, comment) in [
        ("/**/", "/**/"),
        ("/*/*/", "/*/*/"),
        ("/***/", "/***/"),
        ("/* // */", "/* // */"),
        ("// /*", "// /*\n"),
        ("a quote in a comment", "/*'*/"),
        ("a bad token in a line comment", "// $ ' 9999999999999 \\\n"),
    ] {
        list.accepted(&format!("comment {name}"), format!("{comment}{A}"), "1 1 1");
        list.accepted(
            &format!("comment {name} after"),
            format!("{A}{comment}"),
            "1 1 1",
        );
    }
    list.accepted(
        "any byte in a block comment",
        [b"/*\0\r\x0b\x7f\x80\xff*/", A.as_bytes()].concat(),
        "1 1 1",
    );
    list.accepted(
        "any byte in a line comment",
        [b"//\0\r\x0b\x7f\x80\xff\n", A.as_bytes()].concat(),
        "1 1 1",
    );
    list.line(
        "a carriage return ends no line comment",
        format!("//\r{A}"),
        "refused 4 74",
    );
    list.accepted(
        "a line comment ends with the text",
        format!("{A}//"),
        "1 1 1",
    );
    list.accepted("4//2 is 4 and a comment", offset("4//2\n"), "1 1 1");
    list.refused("4/*2 is an unclosed comment", 3, offset("4^/*2"));
    list.accepted("4//**/2 is a line comment", offset("4//**/2\n"), "1 1 1");
    list.accepted("4/ /**/2 is a quotient", offset("4/ /**/2"), "1 1 1");
    list.refused("4/ with nothing after it", 4, offset("4/^"));
}

fn numbers(list: &mut List) {
    for (name, marked) in [
        ("0x without a digit", "0^x"),
        ("0o without a digit", "0^o"),
        ("0xg", "0^xg"),
        ("0o8", "0^o8"),
        ("0x_1", "0^x_1"),
        ("0X10", "0^X10"),
        ("0O10", "0^O10"),
        ("0b1", "0^b1"),
        ("0o78", "0o7^8"),
        ("0x1g", "0x1^g"),
        ("12ab", "12^ab"),
        ("1e5", "1^e5"),
        ("1_000", "1^_000"),
        ("1.5", "1^.5"),
        ("0x 1", "0^x 1"),
    ] {
        // An underscore begins no token.
        let number = if marked.contains("^_") { 3 } else { 4 };
        list.refused(name, number, offset(marked));
    }
    list.line(
        "0x alone, between offset and colon",
        "device d(b:bit[8] port){register r=b@0x:bit[8];variable v=r:int(8);}",
        "refused 4 38",
    );
    for (name, number) in [
        ("leading zeros", "007"),
        ("leading zeros, hexadecimal", "0x00ff"),
        ("upper-case digits", "0xFF"),
        ("mixed digits", "0xfF"),
        ("octal", "0o377"),
        ("the greatest offset", "255"),
    ] {
        list.accepted(name, offset(number), "1 1 1");
    }
    list.accepted(
        "5,000 leading zeros",
        offset(&("0".repeat(5000) + "255")),
        "1 1 1",
    );
    list.accepted(
        "5,000 leading zeros, hexadecimal",
        offset(&("0x".to_string() + &"0".repeat(5000) + "ff")),
        "1 1 1",
    );
    list.accepted("bit[8]port glued", A.replace("] port", "]port"), "1 1 1");
    list.refused(
        "bit[010] is ten",
        12,
        A.replacen("base:bit[8]", "^base:bit[010]", 1),
    );
    list.accepted(
        "bit[0o10] is eight",
        A.replace("bit[8]", "bit[0o10]"),
        "1 1 1",
    );
    list.accepted(
        "bit[0x8] is eight",
        A.replace("bit[8]", "bit[0x8]"),
        "1 1 1",
    );
    for (name, number) in [
        ("too large by one", "2147483648"),
        ("too large, hexadecimal", "0x80000000"),
        ("too large, octal", "0o20000000000"),
        ("2 to the 32", "4294967296"),
        ("2 to the 32, hexadecimal", "0x100000000"),
        ("2 to the 64 and one", "18446744073709551617"),
        ("2 to the 128", "340282366920938463463374607431768211456"),
        (
            "twenty leading zeros and too large",
            "000000000000000000002147483648",
        ),
    ] {
        list.refused(name, 3, offset(&format!("^{number}")));
    }
    for (name, number) in [
        ("the greatest number", "2147483647-2147483647"),
        ("the greatest number, hexadecimal", "0x7fffffff-0x7FFFFFFF"),
        ("the greatest number, octal", "0o17777777777-2147483647"),
    ] {
        list.accepted(name, offset(number), "1 1 1");
    }
    list.refused("too large after a minus", 3, offset("-^2147483648"));
    list.line(
        "too large where no number is due",
        "device 9999999999",
        "refused 3 7",
    );
    list.refused("a number where none is due", 4, "device ^99");
    list.refused(
        "too large as a width",
        3,
        "device d(b:bit[^2147483648] port)",
    );
    list.refused(
        "the greatest width",
        12,
        "device d(^b:bit[2147483647] port){register r=b:bit[8];variable v=r:int(8);}",
    );
    list.refused(
        "too large as a bit",
        3,
        over_r("variable v=r[^99999999999]:bool;"),
    );
    list.refused(
        "the greatest bit",
        11,
        over_r("variable ^v=r[2147483647..0]:bool;"),
    );
    list.refused(
        "the greatest type",
        12,
        over_r("variable ^v=r:int(2147483647);"),
    );
    list.refused("three dots", 4, over_r("variable v=r[7..^.0]:int(8);"));
    list.refused("one dot", 4, over_r("variable v=r[7^.0]:int(8);"));
    list.refused("two dots apart", 4, over_r("variable v=r[7^. .0]:int(8);"));
    list.accepted(
        "dots apart from the digits",
        over_r("variable v=r[7 .. 0]:int(8);"),
        "1 1 1",
    );
    list.refused(
        "a range without its end",
        4,
        over_r("variable v=r[7..^]:int(8);"),
    );
    list.refused(
        "a range without its start",
        4,
        over_r("variable v=r[^..0]:int(8);"),
    );
}

fn bits(list: &mut List) {
    let mask = |literal: &str| register(&format!("b,mask {literal}:bit[8]"));
    list.accepted("a mask of eight dots", mask("'........'"), "1 1 1");
    for (name, literal) in [
        ("empty bits literal", "^''"),
        ("a letter in a bits literal", "^'0000000x'"),
        ("a two in a bits literal", "^'00000002'"),
        ("a blank in a bits literal", "^'.... ....'"),
        ("a newline in a bits literal", "^'....\n....'"),
        ("a comment in a bits literal", "^'..../**/....'"),
        ("a double quote", "^\"........\""),
    ] {
        list.refused(name, 3, mask(literal));
    }
    list.refused("a quote at the end", 3, "device d ^'");
    list.refused("an unclosed bits literal", 3, "device d ^'0101");
    list.refused(
        "a bits literal with a fault and no end",
        3,
        "device d ^'01x",
    );
    list.refused(
        "a faulty bits literal where none is due",
        3,
        "device d ^'01 '",
    );
    list.refused("a good bits literal where none is due", 4, "device d ^'01'");
    list.refused("a bits literal as a name", 4, "device ^'01' d");
    list.refused("a bits literal as an offset", 4, offset("^'1'"));
    list.refused("two bits literals in one mask", 4, mask("'....'^'....'"));
    list.refused("a mask without its bits", 4, mask("^"));
    list.refused("a mask of a number", 4, mask("^255"));
}

fn signs(list: &mut List) {
    list.line(
        "two minuses are two tokens",
        "device d(b:bit[8] port@{0..9}){register r=b@2--1:bit[8];variable v=r:int(8);}",
        "accepted 1 1 1",
    );
    list.line(
        "an at sign and a minus are two tokens",
        "device d(b:bit[8] port@{0..9}){register r=b@-1+2:bit[8];variable v=r:int(8);}",
        "accepted 1 1 1",
    );
    for (name, expression) in [
        ("*-", "-3*-3"),
        ("/-", "-9/-3"),
        ("%-", "9%-5"),
        ("+-", "9+-5"),
        ("(-", "(-1)+1"),
        ("---", "3---1"),
    ] {
        list.accepted(&format!("the signs {name}"), offset(expression), "1 1 1");
    }
    for sign in [
        "!", "&&", "||", "==", "!=", "<", ">", "<=", ">=", "=>", "<=>", ".", "%", "@", "..", "=",
        "#", "+", "-", "*", "/", "{", "}", "[", "]", "(", ")", ":", ",", ";",
    ] {
        list.refused(
            &format!("the sign {sign} in place of a name"),
            4,
            format!("device ^{sign} d"),
        );
    }
    for sign in [
        "==", "!=", "<", ">", "<=", ">=", "&&", "||", "=>", "<=>", ".",
    ] {
        list.refused(
            &format!("the sign {sign} in an offset"),
            4,
            offset(&format!("1^{sign}1")),
        );
    }
    list.refused("===", 4, over_r("variable v^===r:int(8);"));
    list.refused("== for =", 4, over_r("variable v^==r:int(8);"));
    list.refused("=> for =", 4, over_r("variable v^=>r:int(8);"));
    list.refused("<=>= are two tokens", 4, "device ^<=>= d");
    list.refused("a third ampersand", 4, "device ^&&& d");
}

fn bad_bytes(list: &mut List) {
    list.line("an ampersand alone", "device & d", "refused 3 7");
    list.line("two ampersands", "device && d", "refused 4 7");
    for byte in 0..=255u8 {
        let token = byte.is_ascii_alphanumeric() || b"!<>.%@=#+-*/{}[]():,;".contains(&byte);
        let blank = b" \n\t".contains(&byte);
        if token || blank {
            continue;
        }
        // A quote is the start of an empty bits literal here.
        let name = format!("byte {byte} begins no token");
        list.line(
            &name,
            [b"device ", &[byte][..], b" d"].concat(),
            "refused 3 7",
        );
    }
    for (name, byte) in [
        ("NUL", 0),
        ("a carriage return", b'\r'),
        ("byte 128", 128),
        ("a dollar", b'$'),
    ] {
        for place in [0, 6, 8, A.len() - 1, A.len()] {
            let (front, back) = A.as_bytes().split_at(place);
            list.line(
                &format!("{name} at {place}"),
                [front, &[byte], back].concat(),
                &format!("refused 3 {place}"),
            );
        }
    }
    list.line(
        "a byte-order mark",
        [b"\xef\xbb\xbf", A.as_bytes()].concat(),
        "refused 3 0",
    );
    list.line(
        "a letter over 127 in a name",
        "device \u{e9} d".as_bytes(),
        "refused 3 7",
    );
    list.line(
        "a letter over 127 after a name",
        "device d\u{e9}".as_bytes(),
        "refused 3 8",
    );
    list.refused("a name that begins with an underscore", 3, "device ^_d");
    list.accepted(
        "a name that ends in underscores",
        A.replace("d(", "d__("),
        "1 1 1",
    );
    list.line("only NUL", b"\0", "refused 3 0");
}

fn reserved_words(list: &mut List) {
    // Where a name is due, a reserved word is another token; in a bit list and a port `read` and
    // `write` may stand, and the fault comes after them.
    let places = [
        (
            "device",
            "device ^@(base:bit[8] port){register r=base:bit[8];variable v=r:int(8);}",
        ),
        (
            "parameter",
            "device d(^@:bit[8] port){register r=base:bit[8];variable v=r:int(8);}",
        ),
        (
            "register",
            "device d(base:bit[8] port){register ^@=base:bit[8];variable v=r:int(8);}",
        ),
        (
            "port",
            "device d(base:bit[8] port){register r=^@:bit[8];variable v=r:int(8);}",
        ),
        (
            "variable",
            "device d(base:bit[8] port){register r=base:bit[8];variable ^@=r:int(8);}",
        ),
        (
            "bit list",
            "device d(base:bit[8] port){register r=base:bit[8];variable v=^@:int(8);}",
        ),
        (
            "joined list",
            "device d(base:bit[8] port){register r=base:bit[8];variable v=r#^@:int(8);}",
        ),
    ];
    for (place, marked) in places {
        for word in RESERVED {
            let modifier =
                ["read", "write"].contains(&word) && ["port", "bit list"].contains(&place);
            let marked = if modifier {
                marked.replace("^@", &format!("{word}^"))
            } else {
                marked.replace('@', word)
            };
            list.refused(&format!("{word} as the name of a {place}"), 4, marked);
        }
    }
    for word in RESERVED {
        let upper = word[..1].to_uppercase() + &word[1..];
        for (how, name) in [
            ("capital", upper),
            ("in capitals", word.to_uppercase()),
            ("with an underscore", format!("{word}_")),
            ("with a digit", format!("{word}8")),
            ("with a letter before", format!("x{word}")),
        ] {
            let text = A.replace("v=", &format!("{name}="));
            list.accepted(&format!("{word} {how} is a name"), text, "1 1 1");
        }
    }
}
