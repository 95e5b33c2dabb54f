//! Two write registers at one place: some bit is fixed 0 in one mask and 1 in the other.

use super::{device, over_r, List, Script};

/// The bus mouse of document 001 with its lost dots restored, in what the grammar takes of it: the index register and
/// the interrupt register at one write offset.
const BUSMOUSE: &str = "device logitech_busmouse (base : bit[8] port @ {0..3})\n{\n  \
    // index register\n  \
    register index_reg = write base @ 2, mask '1..00000' : bit[8];\n  \
    variable index = index_reg[6..5] : int(2);\n  \
    // interrupt register\n  \
    register interruption = write base @ 2, mask '000.0000' : bit[8];\n  \
    variable interrupt = interruption[4] : bool;\n  \
    // what the index selects\n  \
    register counter = read base @ 0, mask '...*....' : bit[8];\n  \
    variable nibble = counter[3..0], volatile : int(4);\n  \
    variable buttons = counter[7..5], volatile : int(3);\n  \
    // configuration register (CR)\n  \
    register cr = write base @ 3, mask '1001000.' : bit[8];\n  \
    variable config = cr[0] : bool;\n  \
    // signature register (SR)\n  \
    register sr = base @ 1 : bit[8];\n  \
    variable sig = sr, volatile, write trigger : int(8);\n}\n";

/// Two registers that are told apart by bit 7, and a variable of each.
const PAIR: &str = "device d(b:bit[8] port){register p=write b,mask '1..00000':bit[8];\
    register q=write b,mask '000.0000':bit[8];variable v=p[6..5]:int(2);variable w=q[4]:bool;}";

/// Three registers at one write place, each with a bit that tells it from each other; the first two are read elsewhere.
const THREE: &str = "device d(b:bit[8] port@{0..3}){\
    register p=read b@1,write b@3,mask '1..*....':bit[8];\
    register q=read b@2,write b@3,mask '01......':bit[8];\
    register r=write b@3,mask '00*.....':bit[8];\
    variable v=p[6..5]#q[5..3]:int(5);variable w=q[2..0]#p[3..0]:signed int(7);variable x=r[4..0]:int(5);}";

pub(super) fn cases(list: &mut List) {
    list.accepted("001's bus mouse, its dots restored", BUSMOUSE, "1 5 6");
    list.accepted("two write registers at one place", PAIR, "1 2 2");
    list.line(
        "two write registers at one place, no bit fixed in both",
        "device d(b:bit[8] port){register p=write b,mask '1..*****':bit[8];register q=write b,mask '*00.0000':bit[8];\
         variable v=p[6..5]:int(2);variable w=q[4]:bool;}",
        "refused 10 75",
    );
    list.line(
        "two registers at one place, read there too",
        "device d(b:bit[8] port){register p=b,mask '1*******':bit[8];register q=b,mask '0*******':bit[8];}",
        "refused 10 69",
    );
    list.accepted("three write registers at one place", THREE, "1 3 3");
    pairs(list);
    groups(list);
    reads(list);
    order(list);
}

/// Two registers that are only written, with these masks, at one place; neither has a dot.
fn pair(list: &mut List, name: &str, one: &str, other: &str, told: bool) {
    let text = |place: &str| {
        device(&format!(
            "register r=write b@9,mask '{one}':bit[8];register {place}s=write b@9,mask '{other}':bit[8];"
        ))
    };
    match told {
        true => list.accepted(name, text(""), "1 2 0"),
        false => list.refused(name, 10, text("^")),
    }
}

fn pairs(list: &mut List) {
    for bit in 0..8 {
        let fixed = |value: &str| {
            let mut mask = "********".to_string();
            mask.replace_range(7 - bit..8 - bit, value);
            mask
        };
        let (zero, one) = (fixed("0"), fixed("1"));
        pair(
            list,
            &format!("told apart by bit {bit}, 0 first"),
            &zero,
            &one,
            true,
        );
        pair(
            list,
            &format!("told apart by bit {bit}, 1 first"),
            &one,
            &zero,
            true,
        );
        pair(
            list,
            &format!("bit {bit} fixed 0 in both"),
            &zero,
            &zero,
            false,
        );
        pair(
            list,
            &format!("bit {bit} fixed 1 in both"),
            &one,
            &one,
            false,
        );
        pair(
            list,
            &format!("bit {bit} fixed 0 in one"),
            &zero,
            "********",
            false,
        );
        pair(
            list,
            &format!("bit {bit} fixed 1 in the other"),
            "********",
            &one,
            false,
        );
    }
    pair(
        list,
        "a star beside eight fixed bits",
        "1*******",
        "00000000",
        true,
    );
    pair(list, "few stars and many", "1111***1", "1***1110", true);
    pair(
        list,
        "stars where the other is fixed",
        "1*1*1*1*",
        "*0*0*0*0",
        false,
    );
    pair(
        list,
        "all bits fixed, and alike",
        "10101010",
        "10101010",
        false,
    );
    pair(
        list,
        "all bits fixed, one unlike",
        "10101010",
        "10101011",
        true,
    );
    pair(list, "all bits unlike", "10101010", "01010101", true);
    pair(
        list,
        "the busmouse's index and another with its bit",
        "1**00000",
        "100*0000",
        false,
    );
    list.refused(
        "a dot tells nothing from 1",
        10,
        device("register r=write b,mask '.*******':bit[8];variable v=r[7]:bool;register ^s=write b,mask '1*******':bit[8];"),
    );
    list.refused(
        "a dot tells nothing from 0",
        10,
        device("register r=write b,mask '0*******':bit[8];register ^s=write b,mask '.*******':bit[8];variable v=s[7]:bool;"),
    );
    list.refused(
        "no mask tells nothing",
        10,
        device("register r=write b,mask '00000000':bit[8];register ^s=write b:bit[8];variable v=s:int(8);"),
    );
    list.accepted(
        "a place shared by value",
        device("register r=write b@6,mask '1*******':bit[8];register s=write b@2*3,mask '0*******':bit[8];"),
        "1 2 0",
    );
    list.accepted(
        "a mask for the write part tells",
        device("register r=write b,write mask '1*******':bit[8];register s=write b,mask '0*******':bit[8];"),
        "1 2 0",
    );
}

fn groups(list: &mut List) {
    let group = |masks: &[String], refused: Option<usize>| {
        let mut text = String::new();
        for (i, mask) in masks.iter().enumerate() {
            let place = if refused == Some(i) { "^" } else { "" };
            text += &format!("register {place}r{i}=write b@9,mask '{mask}':bit[8];");
        }
        device(&text)
    };
    let three = |one: &str, two: &str, three: &str| [one, two, three].map(str::to_string);
    list.accepted(
        "three at one place, two bits between them",
        group(&three("1*******", "01******", "00******"), None),
        "1 3 0",
    );
    list.accepted(
        "three at one place, a bit for each pair",
        group(&three("1*1*****", "0**1****", "**00****"), None),
        "1 3 0",
    );
    list.refused(
        "the third of three is not told from the first",
        10,
        group(&three("1*******", "01******", "*0******"), Some(2)),
    );
    list.refused(
        "the third of three is not told from the second",
        10,
        group(&three("1*******", "01******", "0*0*****"), Some(2)),
    );
    list.refused(
        "the second of three is not told from the first",
        10,
        group(&three("1*******", "*1******", "00******"), Some(1)),
    );
    // Six bits tell 64 registers apart.
    let code = |i: usize| format!("{i:06b}**");
    let all: Vec<String> = (0..64).map(code).collect();
    list.accepted(
        "64 registers at one write place",
        group(&all, None),
        "1 64 0",
    );
    let mut last = all.clone();
    last[63] = code(31);
    list.refused(
        "the last of 64 is not told from another",
        10,
        group(&last, Some(63)),
    );
}

/// Read parts may not share a place, whatever their masks; and their masks tell write parts nothing.
fn reads(list: &mut List) {
    list.refused(
        "read parts that a fixed bit would tell apart",
        10,
        device(
            "register r=read b,mask '1*******':bit[8];register ^s=read b,mask '0*******':bit[8];",
        ),
    );
    list.refused(
        "read parts at one place, write parts told apart",
        10,
        device(
            "register r=read b,write b@1,mask '1*******':bit[8];\
             register ^s=read b,write b@1,mask '0*******':bit[8];",
        ),
    );
    list.refused(
        "read masks that are told apart, write masks that are not",
        10,
        device(
            "register r=read b,write b@2,read mask '1*******',write mask '********':bit[8];\
             register ^s=read b@1,write b@2,read mask '0*******',write mask '********':bit[8];",
        ),
    );
    list.accepted(
        "write masks that are told apart, read masks that are not",
        device(
            "register r=read b,write b@2,read mask '********',write mask '1*******':bit[8];\
             register s=read b@1,write b@2,read mask '********',write mask '0*******':bit[8];",
        ),
        "1 2 0",
    );
    list.accepted(
        "one of two at a write place is read there",
        device("register r=b,mask '1*******':bit[8];register s=write b,mask '0*******':bit[8];"),
        "1 2 0",
    );
    list.accepted(
        "the other of two at a write place is read there",
        device("register r=write b,mask '1*******':bit[8];register s=b,mask '0*******':bit[8];"),
        "1 2 0",
    );
    list.accepted(
        "a third is read where two are written",
        device(
            "register r=write b,mask '1*******':bit[8];register s=write b,mask '0*******':bit[8];\
             register t=read b,mask '1*******':bit[8];",
        ),
        "1 3 0",
    );
}

fn order(list: &mut List) {
    list.refused(
        "12 of a register that is told apart",
        12,
        device(
            "register r=write b,mask '*1******':bit[8];register ^s=write b,mask '0******':bit[7];",
        ),
    );
    list.refused(
        "10 of a register that is not, before 12",
        10,
        device(
            "register r=write b,mask '*1******':bit[8];register ^s=write b,mask '1******':bit[7];",
        ),
    );
    list.refused(
        "9 before a bit could tell",
        9,
        device(
            "register r=write b,mask '1*******':bit[8];register ^s=write b,mask '0******':bit[8];",
        ),
    );
    list.refused(
        "16 of a register at a shared place",
        16,
        device("register r=write b,mask '1*******':bit[8];register ^s=write b,mask '0......*':bit[8];variable v=s[6..2]:int(5);"),
    );
    list.refused(
        "11 of a bit that tells",
        11,
        device("register r=write b,mask '1*******':bit[8];register s=write b,mask '0.......':bit[8];variable ^v=s:int(8);"),
    );
    list.refused(
        "10 at a place with others",
        10,
        over_r("register ^s=write b,mask '1*******':bit[8];"),
    );
}

pub(super) fn scripts() -> Vec<Script> {
    vec![
        Script::answered(
            "one-write-place",
            PAIR,
            "open 0xFF 0xFF -> opened
             write 0 1 -> offer write 0 0 0xA0
             confirm 0 -> done 1 1
             write 1 1 -> offer write 0 0 0x10
             confirm 0 -> done 1 1
             state -> record A0 10 marks 0 0 operation idle
             write 0 3 -> offer write 0 0 0xE0
             abandon -> abandoned
             write 1 0 -> offer write 0 0 0x00
             confirm 0 -> done 0 1
             state -> record A0 00 marks 1 0 operation idle",
        ),
        Script::answered(
            "bus-mouse",
            BUSMOUSE,
            "open 0 0 0 0 0 -> opened
             write 0 0 -> offer write 0 2 0x80
             confirm 0 -> done 0 1
             write 0 1 -> offer write 0 2 0xA0
             confirm 0 -> done 1 1
             write 1 1 -> offer write 0 2 0x10
             confirm 0 -> done 1 1
             write 0 2 -> offer write 0 2 0xC0
             confirm 0 -> done 2 1
             write 1 0 -> offer write 0 2 0x00
             confirm 0 -> done 0 1
             write 0 3 -> offer write 0 2 0xE0
             confirm 0 -> done 3 1
             write 4 1 -> offer write 0 3 0x91
             confirm 0 -> done 1 1
             state -> record E0 00 00 91 00 marks 0 0 0 0 0 0 operation idle",
        ),
        Script::answered(
            "a-variable-over-one-write-place",
            THREE,
            "open 0 0 0 -> opened
             write 0 0x1F -> offer write 0 3 0xE0
             confirm 0 -> offer write 0 3 0x78
             confirm 0 -> done 31 2
             write 2 0x15 -> offer write 0 3 0x15
             confirm 0 -> done 21 1
             write 1 -23 -> offer write 0 3 0x7E
             state -> record E0 78 15 marks 0 0 0 operation write 1 0 105
             confirm 0 -> offer write 0 3 0xE9
             confirm 0 -> done -23 2
             state -> record E9 7E 15 marks 0 0 0 operation idle
             read 1 -> offer read 0 2 0x00
             confirm 0x7E -> offer read 0 1 0x00
             confirm 0xE9 -> done -23 2
             read 2 -> refused 26",
        ),
    ]
}
