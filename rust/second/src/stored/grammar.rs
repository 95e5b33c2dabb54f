//! Grammar: refusal 4.

use super::{device, offset, over_r, register, List, A};

/// A text with every production of the present grammar.
pub(super) const RICH: &str = "device d(a:bit[8] port,b:bit[8] port@{0,2..9,0x10..0o377}){\
    register p=a:bit[8];\
    register q=read b@-(1-3)*2/1%9+0,write b@6-4,mask '1...*..0':bit[8];\
    register r=write b@7,read b@8,read mask '....0000',write mask '****....':bit[8];\
    variable u=p,volatile,write trigger:int(8);\
    variable v=q[6..4,2]#q[1]:signed int(5);\
    variable w=read r[7..4],write r[3..0],volatile,trigger:int(4);}";

pub(super) fn cases(list: &mut List) {
    list.accepted("every production", RICH, "2 3 3");
    for length in 0..A.len() {
        list.open(&format!("text A, its first {length} bytes"), &A[..length]);
    }
    list.refused("nothing follows the device", 4, format!("{A}^;"));
    list.refused("a second device", 4, format!("{A} ^{A}"));
    list.refused("no device", 4, "^d(base:bit[8] port){}");
    list.refused("no parameter", 4, "device d(^){register r=b:bit[8];}");
    list.refused("no parameters at all", 4, "device d^{register r=b:bit[8];}");
    list.refused("an empty body", 4, "device d(b:bit[8] port){^}");
    list.refused("a body of a semicolon", 4, "device d(b:bit[8] port){^;}");
    list.accepted(
        "no variable",
        device("register r=b,mask '********':bit[8];"),
        "1 1 0",
    );
    list.refused(
        "a variable and no register",
        7,
        device("variable v=^r:int(8);"),
    );
    list.refused("two semicolons", 4, device("register r=b:bit[8];^;"));
    list.refused("no semicolon", 4, device("register r=b:bit[8]^"));
    list.refused(
        "no semicolon after a variable",
        4,
        over_r("variable v=r:int(8)^"),
    );
    list.refused(
        "a comma after the last parameter",
        4,
        "device d(b:bit[8] port,^)",
    );
    list.refused(
        "parameters without a comma",
        4,
        "device d(b:bit[8] port ^c:bit[8] port)",
    );
    list.refused("a parameter without port", 4, "device d(b:bit[8]^)");
    list.refused("a parameter without width", 4, "device d(b:bit ^port)");
    list.refused("a parameter of type int", 4, "device d(b:^int(8) port)");
    list.refused("an empty set of offsets", 4, "device d(b:bit[8] port@{^})");
    list.refused("offsets without braces", 4, "device d(b:bit[8] port@^0)");
    list.refused(
        "a negative offset in a set",
        4,
        "device d(b:bit[8] port@{^-1})",
    );
    list.refused(
        "an expression in a set",
        4,
        "device d(b:bit[8] port@{1^+1})",
    );
    list.refused(
        "a comma after the last range",
        4,
        "device d(b:bit[8] port@{1,^})",
    );
    list.refused("a range of three", 4, "device d(b:bit[8] port@{1..2^..3})");
    list.refused(
        "a width that is an expression",
        4,
        "device d(b:bit[4^+4] port)",
    );
    list.refused("an empty width", 4, "device d(b:bit[^] port)");
    ports(list);
    lists(list);
    types(list);
    not_yet(list);
    offsets(list);
    one_token_other(list, RICH);
}

fn ports(list: &mut List) {
    list.refused("a register without a port", 4, register("^:bit[8]"));
    list.refused(
        "a mask for a first port",
        4,
        register("^mask '........':bit[8]"),
    );
    list.refused(
        "a read mask for a first port",
        4,
        register("read ^mask '........':bit[8]"),
    );
    list.line(
        "a third port",
        "device d(b:bit[8] port){register r=read b,write b,read b:bit[8];}",
        "refused 4 55",
    );
    list.refused("a third bare port", 4, register("read b,write b,^b:bit[8]"));
    list.refused(
        "a port after a mask",
        4,
        register("read b,mask '........',write ^b:bit[8]"),
    );
    list.refused(
        "a bare port after a mask",
        4,
        register("b,mask '........',^b:bit[8]"),
    );
    list.refused("a comma before the colon", 4, register("b,^:bit[8]"));
    list.refused("two modifiers", 4, register("read ^write b:bit[8]"));
    list.refused("a modifier after the port", 4, register("b ^read:bit[8]"));
    list.refused("a register of type int", 4, register("b:^int(8)"));
    list.refused("a register of type bool", 4, register("b:^bool"));
    list.refused("a register without a type", 4, register("b^"));
    list.refused("a register with colon only", 4, register("b:^"));
    list.refused("volatile on a register", 4, register("b,^volatile:bit[8]"));
    list.refused(
        "trigger on a register",
        4,
        register("b,write ^trigger:bit[8]"),
    );
    list.refused(
        "a register of a register with brackets",
        4,
        register("b^[7..0]:bit[8]"),
    );
    list.refused("an @ without an expression", 4, register("b@^:bit[8]"));
    list.refused("an @ before the port", 4, register("^@0:bit[8]"));
    list.refused("two offsets", 4, register("b@0^@1:bit[8]"));
    list.refused("joined ports", 4, register("b^#b:bit[8]"));
    list.refused(
        "a register without a name",
        4,
        device("register ^=b:bit[8];"),
    );
    list.refused("a register without =", 4, device("register r ^b:bit[8];"));
}

fn lists(list: &mut List) {
    list.refused("a variable without bits", 4, over_r("variable v=^:int(8);"));
    list.refused(
        "a third bit list",
        4,
        over_r("variable v=read r,write r,read ^r:int(8);"),
    );
    list.refused(
        "a third bare bit list",
        4,
        over_r("variable v=read r,write r,^r:int(8);"),
    );
    list.refused(
        "a bit list after volatile",
        4,
        over_r("variable v=read r,volatile,write ^r:int(8);"),
    );
    list.refused(
        "a bit list after a trigger",
        4,
        over_r("variable v=read r,trigger,^r:int(8);"),
    );
    list.accepted(
        "write trigger is no bit list",
        over_r("variable v=r,write trigger:int(8);"),
        "1 1 1",
    );
    list.accepted(
        "a second list and then write trigger",
        over_r("variable v=read r,write r,write trigger:int(8);"),
        "1 1 1",
    );
    list.refused(
        "write trigger with bits",
        4,
        over_r("variable v=r,write trigger^[0]:int(8);"),
    );
    list.refused("trigger first", 4, over_r("variable v=^trigger:int(8);"));
    list.refused(
        "write trigger first",
        4,
        over_r("variable v=write ^trigger:int(8);"),
    );
    list.refused(
        "read volatile",
        4,
        over_r("variable v=r,read ^volatile:int(8);"),
    );
    list.refused(
        "write volatile",
        4,
        over_r("variable v=r,write ^volatile:int(8);"),
    );
    list.refused(
        "a mask on a variable",
        4,
        over_r("variable v=r,^mask '........':int(8);"),
    );
    list.refused(
        "a read mask on a variable",
        4,
        over_r("variable v=r,read ^mask '........':int(8);"),
    );
    list.refused("a modifier alone", 4, over_r("variable v=r,read^:int(8);"));
    list.refused(
        "a comma before the type",
        4,
        over_r("variable v=r,^:int(8);"),
    );
    list.refused(
        "no attribute after a blank",
        4,
        over_r("variable v=r ^volatile:int(8);"),
    );
    list.refused("empty brackets", 4, over_r("variable v=r[^]:int(8);"));
    list.refused("a name in brackets", 4, over_r("variable v=r[^r]:int(8);"));
    list.refused(
        "an expression in brackets",
        4,
        over_r("variable v=r[7..1^-1]:int(8);"),
    );
    list.refused("a negative bit", 4, over_r("variable v=r[7..^-0]:int(8);"));
    list.refused(
        "a comma after the last bit",
        4,
        over_r("variable v=r[7,^]:int(8);"),
    );
    list.refused(
        "two pairs of brackets",
        4,
        over_r("variable v=r[7..0]^[1]:int(8);"),
    );
    list.refused("a hash at the end", 4, over_r("variable v=r#^:int(8);"));
    list.refused("a hash at the start", 4, over_r("variable v=^#r:int(8);"));
    list.refused(
        "a modifier after a hash",
        4,
        over_r("variable v=r#^read r:int(8);"),
    );
    list.refused(
        "brackets without a register",
        4,
        over_r("variable v=^[7..0]:int(8);"),
    );
    list.refused(
        "an offset in a bit list",
        4,
        over_r("variable v=r^@0:int(8);"),
    );
    list.refused(
        "a parenthesis around a list",
        4,
        over_r("variable v=^(r):int(8);"),
    );
    list.refused("a number as a register", 4, over_r("variable v=^0:int(8);"));
    list.refused(
        "a variable without a name",
        4,
        over_r("variable ^=r:int(8);"),
    );
}

fn types(list: &mut List) {
    list.accepted("signed int", over_r("variable v=r:signed int(8);"), "1 1 1");
    list.refused(
        "a variable of type bit[8]",
        4,
        over_r("variable v=r:^bit[8];"),
    );
    list.refused("int without a width", 4, over_r("variable v=r:int^;"));
    list.refused("int with brackets", 4, over_r("variable v=r:int^[8];"));
    list.refused("int with nothing", 4, over_r("variable v=r:int(^);"));
    list.refused("int of an expression", 4, over_r("variable v=r:int(4^+4);"));
    list.refused(
        "int of a negative number",
        4,
        over_r("variable v=r:int(^-8);"),
    );
    list.refused("signed alone", 4, over_r("variable v=r:signed^;"));
    list.refused("signed bool", 4, over_r("variable v=r:signed ^bool;"));
    list.refused(
        "signed twice",
        4,
        over_r("variable v=r:signed ^signed int(8);"),
    );
    list.refused("bool with a width", 4, over_r("variable v=r[0]:bool^(1);"));
    list.refused("unsigned", 4, over_r("variable v=r:^unsigned int(8);"));
    list.refused("no type", 4, over_r("variable v=r^;"));
    list.refused("no type after the colon", 4, over_r("variable v=r:^;"));
    list.refused(
        "an attribute after the type",
        4,
        over_r("variable v=r:int(8)^,volatile;"),
    );
}

/// Constructs of 001 and 003 that document 01 leaves out: the first token that cannot go on.
fn not_yet(list: &mut List) {
    for (name, text) in [
        ("private variable", over_r("^private variable v=r:int(8);")),
        ("structure", over_r("^structure s={variable v=r:int(8);};")),
        ("type definition", over_r("^type t=int(8);")),
        ("unused", over_r("^unused bit r[0];")),
        ("condition", over_r("^if(true)variable v=r:int(8);")),
        (
            "parameterized register",
            device("register r^(i:int(2))=b@0:bit[8];"),
        ),
        ("application in a register", register("b^(1)")),
        (
            "application in a variable",
            over_r("variable v=r^(1):int(8);"),
        ),
        (
            "application with bits",
            over_r("variable v=r^(1)[4..0]:int(4);"),
        ),
        ("pre action", register("b,^pre{v=1;}:bit[8]")),
        ("read pre action", register("b,read ^pre{v=1;}:bit[8]")),
        ("post action", register("b,^post{v=1;}:bit[8]")),
        ("trigger for", over_r("variable v=r,trigger ^for 1:int(8);")),
        (
            "write trigger for",
            over_r("variable v=r,write trigger ^for 1:int(8);"),
        ),
        (
            "trigger except",
            over_r("variable v=r,trigger ^except (1,2):int(8);"),
        ),
        (
            "serialized variable",
            over_r("variable v=r,^serialized as{r}:int(8);"),
        ),
        (
            "read serialized variable",
            over_r("variable v=r,read ^serialized as r:int(8);"),
        ),
        ("int of ranges", over_r("variable v=r:int^{0..9};")),
        (
            "signed int of ranges",
            over_r("variable v=r:signed int^{0..9};"),
        ),
        ("array of bool", over_r("variable v=r:bool^[8];")),
        ("array of int", over_r("variable v=r:int(8)^[2];")),
        ("named type", over_r("variable v=r:^t;")),
        ("mapped type", over_r("variable v=r:^{A=>'1',B=>'0'};")),
        (
            "type definition alone",
            "device d(b:bit[8] port){^type t={A=>'1'};}".to_string(),
        ),
        ("const", over_r("^const c=1;")),
        ("a nested device", over_r("^device e(b:bit[8] port){}")),
        ("a name as a declaration", over_r("^v=r:int(8);")),
    ] {
        list.refused(&format!("not yet: {name}"), 4, text);
    }
}

fn offsets(list: &mut List) {
    list.line(
        "true as an offset",
        "device d(b:bit[8] port){register r=b@true:bit[8];variable v=r:int(8);}",
        "refused 4 37",
    );
    list.line(
        "a comparison in an offset",
        "device d(b:bit[8] port){register r=b@(1<2):bit[8];variable v=r:int(8);}",
        "refused 4 39",
    );
    for (name, marked) in [
        ("a name", "^b"),
        ("a name in a sum", "1+^b"),
        ("a negation", "^!1"),
        ("unary plus", "^+1"),
        ("a second unary plus", "1+^+1"),
        ("nothing after a plus", "1+^"),
        ("nothing in parentheses", "(^)"),
        ("an open parenthesis", "(1^"),
        ("a closed parenthesis", "1^)"),
        ("two closed parentheses", "(1)^)"),
        ("a call", "1^(1)"),
        ("two numbers", "1 ^1"),
        ("two factors", "1*^*1"),
        ("a factor first", "^*1"),
        ("braces", "^{1}"),
        ("a range", "1^..2"),
        ("a minus alone", "-^"),
    ] {
        list.refused(&format!("offset: {name}"), 4, offset(marked));
    }
    for (name, expression) in [
        ("- -1", "- -1"),
        ("--1", "--1"),
        ("-(-1)", "-(-1)"),
        ("2*-1+3", "2*-1+3"),
        ("precedence of * over +", "1+2*127"),
        ("precedence of / over -", "255-8/4"),
        ("precedence of % over +", "250+14%9"),
        ("minus before times", "-2*-100"),
        ("left to right, minus", "255-100-100"),
        ("left to right, divide", "200/10/10"),
        ("left to right, divide and times", "200/10*10"),
        ("left to right, remainder", "200%70%50"),
        ("parentheses on the right", "8-(3-2)"),
        ("toward zero", "-7/2+3"),
        ("the dividend's sign", "-7%2+1"),
        ("a negative divisor's remainder", "7%-2"),
    ] {
        list.accepted(&format!("offset: {name}"), offset(expression), "1 1 1");
    }
}

/// Every token of a text left out, doubled, and put before the one before it.
fn one_token_other(list: &mut List, text: &str) {
    let mut tokens = Vec::new();
    let mut at = 0;
    while let Ok(lexeme) = crate::token::scan(text.as_bytes(), at) {
        if lexeme.token == crate::token::Token::End {
            break;
        }
        tokens.push(&text[lexeme.place..lexeme.end]);
        at = lexeme.end;
    }
    for i in 0..tokens.len() {
        let mut without = tokens.clone();
        let token = without.remove(i);
        list.open(&format!("token {i}, {token}, left out"), without.join(" "));
        let mut doubled = tokens.clone();
        doubled.insert(i, token);
        list.open(&format!("token {i}, {token}, doubled"), doubled.join(" "));
        if i > 0 {
            let mut swapped = tokens.clone();
            swapped.swap(i - 1, i);
            list.open(
                &format!("token {i}, {token}, put one before"),
                swapped.join(" "),
            );
        }
    }
}
