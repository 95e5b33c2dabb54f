//! Ports and registers of 8, 16 and 32 bits: the rules that read a width, from both sides, and numbers
//! with bits above it, which count as 0.

use super::{List, Script};
use crate::description::WIDTHS;

/// Widths around those that ports have.
const AROUND: [u32; 15] = [
    0,
    1,
    7,
    8,
    9,
    12,
    15,
    16,
    17,
    24,
    31,
    32,
    33,
    64,
    2_147_483_647,
];

pub(super) fn cases(list: &mut List) {
    parameters(list);
    registers(list);
    two_parameters(list);
    mask_lengths(list);
    masks_of_other_widths(list);
    bits(list);
    whole_registers(list);
    mapping(list);
    shared_places(list);
    many(list);
}

/// A device whose parameter b has this width, and these declarations.
fn wide(width: u32, declarations: &str) -> String {
    format!("device d(b:bit[{width}] port@{{0..255}}){{{declarations}}}")
}

/// So many stars.
fn stars(count: u32) -> String {
    "*".repeat(count as usize)
}

/// A mask of so many stars, but for this element at this bit.
fn one_of(width: u32, bit: u32, element: char) -> String {
    stars(width - 1 - bit) + &element.to_string() + &stars(bit)
}

/// An answer with the text's `^`: accepted with these counts, or refused there.
fn either(list: &mut List, name: &str, number: u8, marked: String, counts: Option<&str>) {
    match counts {
        Some(counts) => list.accepted(name, marked.replace('^', ""), counts),
        None => list.refused(name, number, marked),
    }
}

fn parameters(list: &mut List) {
    for width in AROUND {
        let text = format!(
            "device d(^b:bit[{width}] port){{register r=b:bit[{width}];variable v=r:int({width});}}"
        );
        let counts = WIDTHS.contains(&width).then_some("1 1 1");
        let name = format!("a parameter of width {width}");
        either(list, &name, 12, text, counts);
    }
    list.accepted(
        "parameters of every width, all but one unused",
        "device d(a:bit[8] port,b:bit[16] port,c:bit[32] port){register r=c:bit[32];variable v=r:int(32);}",
        "3 1 1",
    );
    list.refused(
        "a parameter's width before a later parameter's set",
        12,
        "device d(^a:bit[24] port,b:bit[16] port@{256}){register r=b:bit[16];}",
    );
    for (name, width) in [
        ("bit[0x10] is sixteen", "0x10"),
        ("bit[0o20] is sixteen", "0o20"),
        ("bit[016] is sixteen", "016"),
    ] {
        let text = format!(
            "device d(b:bit[{width}] port){{register r=b:bit[16];variable v=r[15..0]:int(16);}}"
        );
        list.accepted(name, text, "1 1 1");
    }
}

/// A register has the width of its port, and no other.
fn registers(list: &mut List) {
    for port in WIDTHS {
        for width in AROUND {
            let text = wide(
                port,
                &format!("register ^r=b:bit[{width}];variable v=r:int({width});"),
            );
            let counts = (port == width).then_some("1 1 1");
            let name = format!("a register of width {width} at a port of width {port}");
            either(list, &name, 12, text, counts);
        }
    }
    list.line(
        "8 bits at a port of 16, unmasked",
        "device d(b:bit[16] port){register r=b:bit[8];variable v=r:int(8);}",
        "refused 12 34",
    );
    list.refused(
        "8 before an unlike width",
        8,
        wide(16, "register r=b^@256:bit[8];"),
    );
    list.refused(
        "10 before an unlike width",
        10,
        wide(16, "register r=b:bit[16];register ^s=b:bit[8];"),
    );
}

/// Each port's parameter has the register's width.
fn two_parameters(list: &mut List) {
    for (read, write) in [(8, 16), (16, 8), (16, 32), (32, 16), (16, 16), (32, 32)] {
        for width in WIDTHS {
            let text = format!(
                "device d(a:bit[{read}] port,b:bit[{write}] port){{\
                 register ^r=read a,write b:bit[{width}];variable v=r:int({width});}}"
            );
            let counts = (width == read && width == write).then_some("2 1 1");
            let name = format!("{width} bits read at {read} and written at {write}");
            either(list, &name, 12, text, counts);
        }
    }
    list.accepted(
        "one offset at ports of every width",
        "device d(a:bit[8] port,b:bit[16] port,c:bit[32] port){register r=a:bit[8];\
         register s=b:bit[16];register t=c:bit[32];\
         variable v=r:int(8);variable w=s:int(16);variable x=t:int(32);}",
        "3 3 3",
    );
}

/// A mask has as many elements as the register is wide.
fn mask_lengths(list: &mut List) {
    for width in WIDTHS {
        for length in [1, 7, 8, 9, 15, 16, 17, 31, 32, 33, 64] {
            let mask = stars(length);
            let text = wide(width, &format!("register ^r=b,mask '{mask}':bit[{width}];"));
            let counts = (length == width).then_some("1 1 0");
            let name = format!("a mask of {length} elements for {width} bits");
            either(list, &name, 9, text, counts);
        }
    }
    list.accepted(
        "sixteen elements, half of them dots",
        "device d(b:bit[16] port){register r=b,mask '........********':bit[16];variable v=r[15..8]:int(8);}",
        "1 1 1",
    );
    list.refused(
        "a second mask of eight elements for 16 bits",
        9,
        wide(
            16,
            "register ^r=b,read mask '****************',write mask '********':bit[16];",
        ),
    );
    list.accepted(
        "a mask for one part leaves 32 dots for the other",
        wide(
            32,
            &format!(
                "register r=b,read mask '{}':bit[32];variable v=write r:int(32);",
                stars(32)
            ),
        ),
        "1 1 1",
    );
}

/// The stated width alone says how long a mask is; whether it is a width comes later.
fn masks_of_other_widths(list: &mut List) {
    for width in [1, 7, 9, 12, 15, 17, 24, 31, 33, 64] {
        let mask = stars(width);
        list.refused(
            &format!("a mask of {width} elements for bit[{width}]"),
            12,
            wide(8, &format!("register ^r=b,mask '{mask}':bit[{width}];")),
        );
        list.refused(
            &format!("a mask of eight elements for bit[{width}]"),
            9,
            wide(8, &format!("register ^r=b,mask '********':bit[{width}];")),
        );
    }
    list.line(
        "twelve dots for bit[12]",
        "device d(b:bit[8] port){register r=b,mask '............':bit[12];}",
        "refused 12 33",
    );
    list.refused(
        "a mask of one element for bit[0]",
        9,
        wide(8, "register ^r=b,mask '*':bit[0];"),
    );
    list.refused(
        "a mask of eight elements for bit[8] at a port of 16",
        12,
        wide(16, "register ^r=b,mask '********':bit[8];"),
    );
    list.refused(
        "a mask of sixteen elements for bit[8] at a port of 16",
        9,
        wide(16, "register ^r=b,mask '****************':bit[8];"),
    );
    // Masks of unlike length are held to each other from bit 0 on; bits past 31 are no port's.
    for (name, number, width, mask) in [
        ("bit 11 fixed otherwise", 12, 12, "0***********".to_string()),
        ("bit 11 fixed alike", 10, 12, "1***********".to_string()),
        ("bit 10 alone fixed", 10, 12, "*0**********".to_string()),
        ("bit 32 alone fixed", 10, 33, format!("0{}", stars(32))),
        ("bit 11 of 64 fixed otherwise", 12, 64, one_of(64, 11, '0')),
        ("bit 43 of 64 fixed", 10, 64, one_of(64, 43, '0')),
    ] {
        let first = one_of(32, 11, '1');
        let text = format!(
            "register p=write b,mask '{first}':bit[32];register ^q=write b,mask '{mask}':bit[{width}];"
        );
        list.refused(
            &format!("bit[{width}] beside 32 bits, {name}"),
            number,
            wide(32, &text),
        );
    }
}

/// A bit is one of its register's.
fn bits(list: &mut List) {
    for width in WIDTHS {
        for bit in [0, 7, 8, 15, 16, 31, 32, 33, 63, 64] {
            let name = format!("bit {bit} of {width}");
            if bit < width {
                let mask = one_of(width, bit, '.');
                let text =
                    format!("register r=b,mask '{mask}':bit[{width}];variable v=r[{bit}]:bool;");
                list.accepted(&name, wide(width, &text), "1 1 1");
            } else {
                let text = format!("register r=b:bit[{width}];variable ^v=r[{bit}]:bool;");
                list.refused(&name, 11, wide(width, &text));
            }
        }
        for element in ['0', '1', '*'] {
            let mask = one_of(width, width - 1, element);
            let text = format!(
                "register r=b,mask '{mask}':bit[{width}];variable ^v=r[{}]:bool;",
                width - 1
            );
            let name = format!("the highest bit of {width}, which is {element}");
            list.refused(&name, 11, wide(width, &text));
        }
    }
    for (name, list_text, bits) in [
        ("a range from 16", "r[16..0]", 17),
        ("a rising range above bit 7", "r[8..15]", 8),
        ("bit 15 twice", "r[15,15]", 2),
        ("bit 8 twice in two ranges", "r[15..8,8..0]", 17),
        ("bit 16 behind a good piece", "r[15..8]#r[16]", 9),
    ] {
        let text = format!("register r=b:bit[16];variable ^v={list_text}:int({bits});");
        list.refused(&format!("16 bits: {name}"), 11, wide(16, &text));
    }
}

/// A whole register is all its bits, and a variable has at most 32.
fn whole_registers(list: &mut List) {
    let registers = "register r=c:bit[32];register s=b:bit[16];register t=b@1:bit[16];\
                     register u=a:bit[8];register x=a@1:bit[8];";
    let text = |variables: &str| {
        format!(
            "device d(a:bit[8] port@{{0..1}},b:bit[16] port@{{0..1}},c:bit[32] port){{{registers}{variables}}}"
        )
    };
    for (name, variables, counts) in [
        (
            "each alone",
            "variable v=r:int(32);variable w=s:signed int(16);variable y=t[15..0]:int(16);variable z=u#x:int(16);",
            "3 5 4",
        ),
        (
            "32 bits of one and of two",
            "variable v=r:signed int(32);variable w=s#t[15..0]:int(32);variable z=u#x:int(16);",
            "3 5 3",
        ),
        (
            "32 bits of three widths",
            "variable v=r[31..24]#s#u:int(32);variable w=r[23..0]#x:int(32);variable z=t:int(16);",
            "3 5 3",
        ),
        (
            "32 bits in each list",
            "variable v=read r,write s#t:int(32);variable w=read s#t,write r:int(32);variable z=u#x:int(16);",
            "3 5 3",
        ),
        (
            "32 bits in eight pieces",
            "variable v=r[31..28,27..24,23..20,19..16,15..12,11..8,7..4,3..0]:int(32);\
             variable w=s:int(16);variable y=t:int(16);variable z=u#x:int(16);",
            "3 5 4",
        ),
    ] {
        list.accepted(&format!("whole registers: {name}"), text(variables), counts);
    }
    for (name, number, variable) in [
        ("32 bits to int(8)", 12, "r:int(8)"),
        ("32 bits to int(31)", 12, "r:int(31)"),
        ("16 bits to int(8)", 12, "s:int(8)"),
        ("16 bits to bool", 12, "s:bool"),
        ("8 bits to int(16)", 12, "u:int(16)"),
        ("32 bits to int(33)", 12, "r:int(33)"),
        ("33 bits of two", 11, "r#u[0]:int(33)"),
        ("33 bits to int(32)", 11, "r#u[0]:int(32)"),
        ("40 bits of three", 11, "s#t#u:int(40)"),
        ("64 bits of one twice", 11, "r#r:int(64)"),
        ("32 read and 16 written", 12, "read r,write s:int(32)"),
        ("16 read and 32 written", 12, "read s,write r:int(16)"),
        ("33 bits written", 11, "read r,write r#u[0]:int(32)"),
    ] {
        let variable = format!("variable ^v={variable};");
        list.refused(&format!("whole registers: {name}"), number, text(&variable));
    }
}

/// Rules 14, 15 and 16 above bit 7.
fn mapping(list: &mut List) {
    let over = |variables: &str| wide(32, &format!("register r=b:bit[32];{variables}"));
    list.accepted(
        "32 bits in four variables",
        over(
            "variable u=r[31]:bool;variable v=r[30..16]:int(15);\
              variable w=r[15..8]:int(8);variable x=r[7..0]:int(8);",
        ),
        "1 1 4",
    );
    for (name, second) in [
        ("bit 31", "r[31]"),
        ("bit 8", "r[8..0]"),
        ("bit 16", "r[7..0]#r[16]"),
    ] {
        let text = format!("variable v=r[31..8]:int(24);variable ^w={second}:int(9);");
        let text = text.replace("r[31]:int(9)", "r[31]:bool");
        list.refused(&format!("{name} mapped twice"), 14, over(&text));
    }
    list.refused(
        "a trigger in the same 32 bits, far apart",
        15,
        over("variable v=r[31..16],write trigger:int(16);variable ^w=r[15..0]:int(16);"),
    );
    for (width, bit) in [(16, 8), (16, 15), (32, 8), (32, 16), (32, 31)] {
        let (above, below) = (width - 1 - bit, bit);
        let pieces = match above {
            0 => format!("r[{}..0]", bit - 1),
            _ => format!("r[{}..{}]#r[{}..0]", width - 1, bit + 1, bit - 1),
        };
        let variable = format!("variable v={pieces}:int({});", above + below);
        list.refused(
            &format!("bit {bit} of {width} unmapped"),
            16,
            wide(width, &format!("register ^r=b:bit[{width}];{variable}")),
        );
        let mask = one_of(width, bit, '.');
        list.refused(
            &format!("bit {bit} of {width} alone a dot, unmapped"),
            16,
            wide(width, &format!("register ^r=b,mask '{mask}':bit[{width}];")),
        );
    }
    list.refused(
        "the low half of 16 bits mapped",
        16,
        wide(16, "register ^r=b:bit[16];variable v=r[7..0]:int(8);"),
    );
}

/// Write registers of one place are told apart by a bit of any number.
fn shared_places(list: &mut List) {
    let beside = |width: u32, one: &str, other: &str, place: &str| {
        wide(
            width,
            &format!(
                "register p=write b,mask '{one}':bit[{width}];\
                 register {place}q=write b,mask '{other}':bit[{width}];"
            ),
        )
    };
    for (width, bit) in [
        (16, 0),
        (16, 7),
        (16, 8),
        (16, 15),
        (32, 15),
        (32, 16),
        (32, 31),
    ] {
        let mask = |element| one_of(width, bit, element);
        list.accepted(
            &format!("told apart by bit {bit} of {width}"),
            beside(width, &mask('1'), &mask('0'), ""),
            "1 2 0",
        );
        list.refused(
            &format!("not told apart by bit {bit} of {width}"),
            10,
            beside(width, &mask('1'), &mask('1'), "^"),
        );
    }
    list.refused(
        "unlike in bits 8 and 0 alone",
        10,
        beside(16, &one_of(16, 8, '1'), &one_of(16, 0, '0'), "^"),
    );
    list.refused(
        "wide read parts at one place",
        10,
        wide(
            16,
            &format!(
                "register p=read b,mask '{}':bit[16];register ^q=read b,mask '{}':bit[16];",
                one_of(16, 15, '1'),
                one_of(16, 15, '0')
            ),
        ),
    );
}

/// Sizes are the same at every width.
fn many(list: &mut List) {
    let all = stars(32);
    let registers = |count: usize| -> String {
        let register = |i: usize| format!("register r{i}=b@{i},mask '{all}':bit[32];");
        (0..count).map(register).collect()
    };
    list.accepted(
        "64 registers of 32 bits",
        wide(32, &registers(64)),
        "1 64 0",
    );
    let extra = registers(65).replace("register r64", "^register r64");
    list.refused("65 registers of 32 bits", 5, wide(32, &extra));
    let mut text = String::new();
    for register in 0..4 {
        text += &format!("register r{register}=b@{register}:bit[32];");
        let variable = |bit: u32| format!("variable v{register}_{bit}=r{register}[{bit}]:bool;");
        text += &(0..32).map(variable).collect::<String>();
    }
    list.accepted("128 variables of one bit each", wide(32, &text), "1 4 128");
}

pub(super) fn scripts() -> Vec<Script> {
    vec![
        cut_where_they_come_in(),
        every_width_at_once(),
        largest_numbers(),
        whole_of_32_bits(),
        signed_of_32_bits(),
        neighbours(),
        masks(),
        contradicted(),
        dead_cables(),
        shared_place(),
        held(),
        lent(),
    ]
}

fn cut_where_they_come_in() -> Script {
    Script::answered(
        "wider-numbers-are-cut",
        "device d(a:bit[16] port,b:bit[8] port){register r=a:bit[16];register s=b:bit[8];variable v=r#s:int(24);}",
        "open 0x12345 0x1FF -> opened
         state -> record 2345 FF marks 0 operation idle
         write 0 0xABCDEF -> offer write 0 0 0xABCD
         confirm 0 -> offer write 1 0 0xEF
         confirm 0 -> done 11259375 2
         read 0 -> offer read 0 0 0x0000
         confirm 0x71234 -> offer read 1 0 0x00
         confirm 0x156 -> done 1193046 2",
    )
}

/// Registers of three widths, not in the order of their parameters, one of them mentioned twice.
const THREE: &str = "device d(a:bit[32] port@{7},b:bit[8] port,c:bit[16] port@{2..3}){\
    register r=c@3:bit[16];register s=b:bit[8];register t=a@7:bit[32];\
    variable v=t[31..28]#s[7..4]#t[3..0]#r[15..8]:int(20);variable w=r[7..0]#s[3..0]:signed int(12);\
    variable x=t[27..4]:int(24);}";

fn every_width_at_once() -> Script {
    Script::answered(
        "registers-of-every-width",
        THREE,
        "open 0x5555 0x66 0x77777777 -> opened
         state -> record 5555 66 77777777 marks 0 0 0 operation idle
         write 0 0xABCDE -> offer write 0 7 0xA777777C
         confirm 0 -> offer write 1 0 0xB6
         confirm 0 -> offer write 2 3 0xDE55
         confirm 0 -> done 703710 3
         state -> record DE55 B6 A777777C marks 0 0 0 operation idle
         write 1 -1 -> offer write 2 3 0xDEFF
         confirm 0 -> offer write 1 0 0xBF
         abandon -> abandoned
         write 2 0x123456 -> offer write 0 7 0xA123456C
         confirm 0xFFFFFFFF -> done 1193046 1
         read 0 -> offer read 0 7 0x00000000
         confirm 0xF0000001 -> offer read 1 0 0x00
         state -> record DEFF B6 A123456C marks 0 1 0 operation read 0 1 983296
         confirm 0xFF2F -> offer read 2 3 0x0000
         confirm 0xABCD34FF -> done 991540 3
         read 1 -> refused 28
         state -> record DEFF B6 A123456C marks 0 1 0 operation idle",
    )
}

/// What a line takes goes to 32 bits, for a register of any width.
fn largest_numbers() -> Script {
    Script::answered(
        "numbers-of-32-bits",
        THREE,
        "open 4294967295 0xFFFFFFFF 4294967295 -> opened
         state -> record FFFF FF FFFFFFFF marks 0 0 0 operation idle
         open 4294967296 0 0 -> unknown
         open 0 0x100000000 0 -> unknown
         open 0 0 4294967296 -> unknown
         open 0x10000 0x100 0x80000000 -> opened
         state -> record 0000 00 80000000 marks 0 0 0 operation idle
         open 65535 255 1 -> opened
         state -> record FFFF FF 00000001 marks 0 0 0 operation idle
         open 65536 256 0 4294967295 -> opened
         state -> record 0000 00 00000000 marks 0 0 0 operation idle
         open 0 0 0 4294967296 -> unknown
         read 2 -> offer read 0 7 0x00000000
         confirm 4294967296 -> unknown
         confirm 0xFFFFFFFFF -> unknown
         confirm 4294967295 -> done 16777215 1
         write 2 1 -> offer write 0 7 0x00000010
         confirm 4294967296 -> unknown
         confirm 4294967295 -> done 1 1",
    )
}

fn whole_of_32_bits() -> Script {
    Script::answered(
        "32-bits-in-one-register",
        "device d(b:bit[32] port){register r=b:bit[32];variable v=r:int(32);}",
        "open 0x80000001 -> opened
         read 0 -> offer read 0 0 0x00000000
         confirm 0x80000001 -> done 2147483649 1
         write 0 4294967295 -> offer write 0 0 0xFFFFFFFF
         confirm 0 -> done 4294967295 1
         state -> record FFFFFFFF marks 0 operation idle
         write 0 0 -> offer write 0 0 0x00000000
         state -> record FFFFFFFF marks 0 operation write 0 0 0
         confirm 0 -> done 0 1
         write 0 4294967296 -> refused 55
         write 0 -1 -> refused 27
         write 0 0x12345678 -> offer write 0 0 0x12345678
         abandon -> abandoned
         read 0 -> refused 28
         state -> record 00000000 marks 1 operation idle",
    )
}

fn signed_of_32_bits() -> Script {
    Script::answered(
        "32-bits-signed-over-two-registers",
        "device d(b:bit[16] port@{0..1}){register r=b@1:bit[16];register s=b:bit[16];variable v=r#s:signed int(32);}",
        "open 0 0 -> opened
         write 0 -2147483648 -> offer write 0 1 0x8000
         confirm 0 -> offer write 0 0 0x0000
         confirm 0 -> done -2147483648 2
         write 0 2147483647 -> offer write 0 1 0x7FFF
         confirm 0 -> offer write 0 0 0xFFFF
         confirm 0 -> done 2147483647 2
         write 0 2147483648 -> refused 55
         write 0 -2147483649 -> refused 27
         write 0 -2 -> offer write 0 1 0xFFFF
         confirm 0 -> offer write 0 0 0xFFFE
         confirm 0 -> done -2 2
         read 0 -> offer read 0 1 0x0000
         confirm 0x18000 -> offer read 0 0 0x0000
         confirm 0x70001 -> done -2147483647 2",
    )
}

/// A partial write leaves the other dots of a wide register, on both sides of bits 7, 8, 15 and 16.
fn neighbours() -> Script {
    Script::answered(
        "neighbours-in-a-wide-register",
        "device d(b:bit[32] port){register r=b:bit[32];variable u=r[31]:bool;variable v=r[30..16]:int(15);\
         variable w=r[15]#r[8..7]:int(3);variable x=r[14..9]:int(6);variable y=r[6..0]:int(7);}",
        "open 0xA5A5A5A5 -> opened
         write 0 0 -> offer write 0 0 0x25A5A5A5
         confirm 0 -> done 0 1
         write 1 0 -> offer write 0 0 0x0000A5A5
         confirm 0 -> done 0 1
         write 2 0 -> offer write 0 0 0x00002425
         confirm 0 -> done 0 1
         write 2 7 -> offer write 0 0 0x0000A5A5
         confirm 0 -> done 7 1
         write 3 63 -> offer write 0 0 0x0000FFA5
         confirm 0 -> done 63 1
         write 4 0 -> offer write 0 0 0x0000FF80
         confirm 0 -> done 0 1
         write 0 1 -> offer write 0 0 0x8000FF80
         confirm 0 -> done 1 1
         state -> record 8000FF80 marks 0 0 0 0 0 operation idle
         read 2 -> offer read 0 0 0x00000000
         confirm 0x00008080 -> done 5 1
         read 1 -> offer read 0 0 0x00000000
         confirm 0x80010000 -> done 1 1",
    )
}

/// Stars are written as 0, fixed bits as they are fixed, in the high half as in the low.
fn masks() -> Script {
    Script::answered(
        "masks-of-16-bits",
        "device d(b:bit[16] port@{0..1}){register r=b,mask '1*0.....0*1.....':bit[16];\
         register s=read b@1,write b@1,read mask '0***************',write mask '1*..............':bit[16];\
         variable v=r[12..8]#r[4..0]:int(10);variable w=write s[13..0]:int(14);}",
        "open 0xFFFF 0xFFFF -> opened
         write 0 0 -> offer write 0 0 0x8020
         confirm 0 -> done 0 1
         write 0 1023 -> offer write 0 0 0x9F3F
         confirm 0 -> done 1023 1
         write 0 0x155 -> offer write 0 0 0x8A35
         confirm 0 -> done 341 1
         read 0 -> offer read 0 0 0x0000
         confirm 0x9F3F -> done 1023 1
         read 0 -> offer read 0 0 0x0000
         confirm 0xDF7F -> done 1023 1
         write 1 0 -> offer write 0 1 0x8000
         confirm 0 -> done 0 1
         read 1 -> refused 26
         state -> record 8A35 8000 marks 0 0 operation idle",
    )
}

/// Fixed bits are compared over the whole width, and bits above it are cut first.
fn contradicted() -> Script {
    Script::answered(
        "contradicted-above-bit-7",
        "device d(a:bit[8] port,b:bit[16] port,c:bit[32] port){register r=a,mask '0.......':bit[8];\
         register s=b,mask '0..............1':bit[16];register t=c,mask '1..............00...............':bit[32];\
         variable v=r[6..0]:int(7);variable w=s[14..1]:int(14);variable x=t[30..17]:int(14);variable y=t[14..0]:int(15);}",
        "open 0 1 0x80000000 -> opened
         read 0 -> offer read 0 0 0x00
         confirm 0x100 -> done 0 1
         read 0 -> offer read 0 0 0x00
         confirm 0xFFFFFF7F -> done 127 1
         read 0 -> offer read 0 0 0x00
         confirm 0x180 -> refused 52 0
         read 1 -> offer read 1 0 0x0000
         confirm 0x10001 -> done 0 1
         read 1 -> offer read 1 0 0x0000
         confirm 0xFFFF7FFF -> done 16383 1
         read 1 -> offer read 1 0 0x0000
         confirm 0x8001 -> refused 52 1
         read 1 -> offer read 1 0 0x0000
         confirm 0x10000 -> refused 52 1
         read 2 -> offer read 2 0 0x00000000
         confirm 0x80000000 -> done 0 1
         read 2 -> offer read 2 0 0x00000000
         confirm 0xFFFE7FFF -> done 16383 1
         read 2 -> offer read 2 0 0x00000000
         confirm 0x7FFE7FFF -> refused 52 2
         read 3 -> offer read 2 0 0x00000000
         confirm 0x80010000 -> refused 52 2
         read 3 -> offer read 2 0 0x00000000
         confirm 0x80008000 -> refused 52 2
         read 3 -> offer read 2 0 0x00000000
         confirm 0x80007FFF -> done 32767 1
         state -> record 00 0001 80000000 marks 0 0 0 0 operation idle",
    )
}

/// All ones, as a cable of 8, of 16 and of 32 lines gives them.
fn dead_cables() -> Script {
    Script::answered(
        "dead-cables-of-every-width",
        "device d(a:bit[8] port,b:bit[16] port,c:bit[32] port){register r=a,mask '.......1':bit[8];\
         register s=b,mask '0..............1':bit[16];register t=c,mask '...............0................':bit[32];\
         variable v=r[7..1]:int(7);variable w=s[14..1]:int(14);variable x=t[31..17]#t[15..0]:int(31);}",
        "open 0 0 0 -> opened
         read 0 -> offer read 0 0 0x00
         confirm 0xFFFFFFFF -> done 127 1
         read 1 -> offer read 1 0 0x0000
         confirm 0xFF -> done 127 1
         read 1 -> offer read 1 0 0x0000
         confirm 0xFFFF -> refused 52 1
         read 1 -> offer read 1 0 0x0000
         confirm 0xFFFFFFFF -> refused 52 1
         read 2 -> offer read 2 0 0x00000000
         confirm 0xFFFF -> done 65535 1
         read 2 -> offer read 2 0 0x00000000
         confirm 0xFFFFFFFF -> refused 52 2
         confirm 0 -> refused 24",
    )
}

/// Two write registers of 16 bits at one place: each keeps its own number.
fn shared_place() -> Script {
    Script::answered(
        "a-wide-place-for-two",
        "device d(b:bit[16] port){register p=write b,mask '1..............0':bit[16];\
         register q=write b,mask '0...............':bit[16];variable v=p[14..1]:int(14);variable w=q[14..0]:int(15);}",
        "open 0x1FFFF 0x1FFFF -> opened
         state -> record FFFF FFFF marks 0 0 operation idle
         write 0 0 -> offer write 0 0 0x8000
         confirm 0 -> done 0 1
         write 1 32767 -> offer write 0 0 0x7FFF
         confirm 0 -> done 32767 1
         write 0 16383 -> offer write 0 0 0xFFFE
         confirm 0 -> done 16383 1
         state -> record FFFE 7FFF marks 0 0 operation idle",
    )
}

/// An operation's bits are its variable's: 22 for one that its type, or the registers read so far, cannot have.
fn held() -> Script {
    Script::answered(
        "wide-operations-held",
        THREE,
        "open 0 0 0 -> opened
         hold write 0 0 0xFFFFF -> held
         confirm 0 -> offer write 1 0 0xF0
         hold write 0 0 0x100000 -> held
         confirm 0 -> refused 22
         hold read 0 1 0xF0F00 -> held
         confirm 0xF0 -> offer read 2 3 0x0000
         state -> record 0000 00 F000000F marks 0 0 0 operation read 0 2 1048320
         hold read 0 1 0xFFF00 -> held
         confirm 0xF0 -> refused 22
         hold read 0 2 0xFFF01 -> held
         confirm 0xF0 -> refused 22
         hold read 0 2 0xFFF00 -> held
         confirm 0x1FF00 -> done 1048575 3
         hold write 2 0 0xFFFFFF -> held
         confirm 0 -> done 16777215 1
         hold write 2 0 0x1000000 -> held
         abandon -> refused 22
         hold idle -> held",
    )
}

/// What is lent is counted in numbers, whatever their width.
fn lent() -> Script {
    Script::answered(
        "wide-records-lent",
        THREE,
        "open 1 2 -> refused 21
         open 1 2 3 4 -> opened
         state -> record 0001 02 00000003 marks 0 0 0 operation idle
         lend record 2 -> lent
         read 1 -> refused 21
         open 0 0 0 -> refused 21
         lend record 3 -> lent
         read 1 -> offer read 2 3 0x0000
         lend record 1 -> lent
         confirm 0 -> refused 21
         abandon -> refused 21
         lend record all -> lent
         confirm 0x10FFF -> offer read 1 0 0x00
         confirm 0xF7F -> done -1 2
         state -> record 0001 02 00000003 marks 0 0 0 operation idle",
    )
}
