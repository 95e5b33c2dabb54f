//! The consistency rules 6 to 16, each clause on both sides.

use super::{device, offset, over_r, register, List};

pub(super) fn cases(list: &mut List) {
    slips(list);
    rule_6(list);
    rule_7(list);
    rule_8(list);
    rule_9(list);
    rule_10(list);
    rule_11(list);
    rule_12(list);
    rule_13(list);
    rule_14(list);
    rule_15(list);
    rule_16(list);
}

/// Printed examples of 001 and 003 whose words the present grammar takes, and other slips.
fn slips(list: &mut List) {
    list.refused(
        "001's mask of seven elements",
        9,
        "device logitech_busmouse (base : bit[8] port @ {0..3})\n{\n  \
         register ^index_reg = write base @ 2, mask '1.00000' : bit[8];\n  \
         variable index = index_reg[6..5] : int(2);\n}",
    );
    list.accepted(
        "001's mask with its dot restored",
        "device logitech_busmouse (base : bit[8] port @ {0..3})\n{\n  \
         register index_reg = write base @ 2, mask '1..00000' : bit[8];\n  \
         variable index = index_reg[6..5] : int(2);\n}",
        "1 1 1",
    );
    list.refused(
        "003's icw1[1], a star bit",
        11,
        "device pic(base:bit[8] port@{0..1}){register icw1 = write base@0, mask '***1****' : bit[8];\n\
         variable ^sngl = icw1[1] : bool;}",
    );
    list.refused(
        "003's five bits to int(4)",
        12,
        over_r("variable ^foo = r[4..0] : int(4);"),
    );
    list.refused(
        "001's mask of seven elements with stars",
        9,
        device("register ^x_low = read b, mask '****...' : bit[8];"),
    );
    list.accepted(
        "001's sig",
        device(
            "register sr = b @ 1 : bit[8];\nvariable sig = sr, volatile, write trigger : int(8);",
        ),
        "1 1 1",
    );
    list.accepted(
        "overlap by part",
        over_r("variable v=read r:int(8);variable w=write r:int(8);"),
        "1 1 2",
    );
}

fn rule_6(list: &mut List) {
    list.refused(
        "a parameter named as the device",
        6,
        "device d(^d:bit[8] port){register r=d:bit[8];}",
    );
    list.refused(
        "two parameters of one name",
        6,
        "device d(b:bit[8] port,^b:bit[8] port){register r=b:bit[8];}",
    );
    list.refused(
        "a register named as the device",
        6,
        device("register ^d=b:bit[8];"),
    );
    list.refused(
        "a register named as a parameter",
        6,
        device("register ^b=b:bit[8];"),
    );
    list.refused(
        "two registers of one name",
        6,
        over_r("register ^r=b@1:bit[8];"),
    );
    list.refused(
        "a variable named as the device",
        6,
        over_r("variable ^d=r:int(8);"),
    );
    list.refused(
        "a variable named as a parameter",
        6,
        over_r("variable ^b=r:int(8);"),
    );
    list.refused(
        "a variable named as its register",
        6,
        over_r("variable ^r=r:int(8);"),
    );
    list.refused(
        "two variables of one name",
        6,
        over_r("variable v=r[7..4]:int(4);variable ^v=r[3..0]:int(4);"),
    );
    list.refused(
        "a register named as a variable",
        6,
        over_r("variable v=r:int(8);register ^v=b@1:bit[8];"),
    );
    list.accepted(
        "names that differ in case",
        over_r("variable R=r:int(8);"),
        "1 1 1",
    );
    list.accepted(
        "a name that begins another",
        over_r("variable rr=r[7..4]:int(4);variable r_=r[3..0]:int(4);"),
        "1 1 2",
    );
}

fn rule_7(list: &mut List) {
    list.refused("an undeclared port", 7, device("register r=^q:bit[8];"));
    list.refused("the device as a port", 7, device("register r=^d:bit[8];"));
    list.refused("a register as a port", 7, over_r("register s=^r:bit[8];"));
    list.refused(
        "a variable as a port",
        7,
        over_r("variable v=r:int(8);register s=^v:bit[8];"),
    );
    list.refused(
        "a register as its own port",
        7,
        device("register r=^r:bit[8];"),
    );
    list.refused(
        "an undeclared second port",
        7,
        device("register r=read b,write ^q:bit[8];"),
    );
    list.refused("an undeclared register", 7, over_r("variable v=^q:int(8);"));
    list.refused(
        "a parameter as a register",
        7,
        over_r("variable v=^b:int(8);"),
    );
    list.refused(
        "the device as a register",
        7,
        over_r("variable v=^d:int(8);"),
    );
    list.refused(
        "a variable as a register",
        7,
        over_r("variable v=r:int(8);variable w=^v:int(8);"),
    );
    list.refused(
        "a variable as its own register",
        7,
        over_r("variable v=^v:int(8);"),
    );
    list.refused(
        "a register declared later",
        7,
        device("variable v=^r:int(8);register r=b:bit[8];"),
    );
    list.refused("another case", 7, over_r("variable v=^R:int(8);"));
    list.refused("a longer name", 7, over_r("variable v=^rr:int(8);"));
    list.accepted(
        "a variable before a later register",
        over_r("variable v=r:int(8);register s=b@1:bit[8];variable w=s:int(8);"),
        "1 2 2",
    );
}

fn rule_8(list: &mut List) {
    list.accepted("offset 255", offset("255"), "1 1 1");
    list.refused("offset 256", 8, register("b^@256:bit[8]"));
    list.refused("offset -1", 8, register("b^@-1:bit[8]"));
    list.accepted(
        "a set with offset 255",
        "device d(b:bit[8] port@{255}){register r=b@255:bit[8];variable v=r:int(8);}",
        "1 1 1",
    );
    list.refused(
        "a set with offset 256",
        8,
        "device d(^b:bit[8] port@{256}){register r=b:bit[8];}",
    );
    list.refused(
        "a set with a range to 256",
        8,
        "device d(^b:bit[8] port@{0..256}){register r=b:bit[8];}",
    );
    list.refused(
        "a set with a second range over 255",
        8,
        "device d(^b:bit[8] port@{0,999}){register r=b:bit[8];}",
    );
    list.refused(
        "a set with the greatest number",
        8,
        "device d(^b:bit[8] port@{0..2147483647}){register r=b:bit[8];}",
    );
    list.refused(
        "a set with a range going down",
        8,
        "device d(^b:bit[8] port@{3..2}){register r=b:bit[8];}",
    );
    list.accepted(
        "a set with a range of one",
        "device d(b:bit[8] port@{3..3}){register r=b@3:bit[8];variable v=r:int(8);}",
        "1 1 1",
    );
    list.refused(
        "an unused parameter's set",
        8,
        "device d(b:bit[8] port,^c:bit[8] port@{3..2}){register r=b:bit[8];}",
    );
    list.refused(
        "offset 1 without a set",
        8,
        "device d(b:bit[8] port){register r=b^@1:bit[8];}",
    );
    list.accepted(
        "offset 0 without a set",
        "device d(b:bit[8] port){register r=b@0:bit[8];variable v=r:int(8);}",
        "1 1 1",
    );
    list.refused(
        "offset 0 left out and not in the set",
        8,
        "device d(b:bit[8] port@{1..3}){register ^r=b:bit[8];}",
    );
    list.refused(
        "offset 0 left out in the second port",
        8,
        "device d(b:bit[8] port@{1..3}){register ^r=read b@1,write b:bit[8];}",
    );
    list.refused(
        "a hole in the set",
        8,
        "device d(b:bit[8] port@{0..3,5..9}){register r=b^@4:bit[8];}",
    );
    list.accepted(
        "the end of the first range",
        "device d(b:bit[8] port@{0..3,5..9}){register r=b@3:bit[8];variable v=r:int(8);}",
        "1 1 1",
    );
    list.accepted(
        "the start of the second range",
        "device d(b:bit[8] port@{0..3,5..9}){register r=b@5:bit[8];variable v=r:int(8);}",
        "1 1 1",
    );
    for (name, expression) in [
        ("division by zero", "7/0"),
        ("remainder by zero", "7%0"),
        ("division by a zero made", "7/(1-1)"),
        ("zero times a fault", "0*(1/0)"),
        ("zero times a value out of range", "0*(65536*65536)"),
        ("a sum out of range", "2147483647+1-2147483647"),
        ("a difference out of range", "-2147483647-2+2147483647"),
        ("a product out of range", "65536*32768/65536/32768"),
        ("a negation out of range", "-(-2147483647-1)-2147483647"),
        ("a quotient out of range", "(-2147483647-1)/-1"),
        ("a fault in the right of a product", "1*(0/0)"),
        ("a large offset", "2147483647"),
        ("the least value", "-2147483647-1"),
    ] {
        list.refused(name, 8, register(&format!("b^@{expression}:bit[8]")));
    }
    list.line(
        "the remainder of the least value by -1",
        "device d(b:bit[8] port){register r=b@(-2147483647-1)%-1:bit[8];variable v=r:int(8);}",
        "accepted 1 1 1",
    );
    list.accepted(
        "the least value between",
        offset("-2147483647-1+2147483647+1"),
        "1 1 1",
    );
    list.accepted(
        "the least value as a product",
        offset("-32768*65536+2147483647+1"),
        "1 1 1",
    );
}

fn rule_9(list: &mut List) {
    for (name, ports, accepted) in [
        ("one bare", "b", true),
        ("one read", "read b", true),
        ("one write", "write b", true),
        ("read and write", "read b,write b", true),
        ("write and read", "write b,read b", true),
        ("two places", "read b@1,write b@2", true),
        ("two bare", "^b,b", false),
        ("two bare at two places", "^b@1,b@2", false),
        ("two reads", "^read b,read b@1", false),
        ("two writes", "^write b,write b@1", false),
        ("bare and read", "^b,read b", false),
        ("bare and write", "^b,write b@1", false),
        ("read and bare", "^read b,b", false),
        ("write and bare", "^write b@2,b", false),
    ] {
        let text = register(&format!("{ports}:bit[8]"));
        if accepted {
            list.accepted(&format!("ports: {name}"), text, "1 1 1");
        } else {
            let text = text.replace('^', "").replace("register r", "register ^r");
            list.refused(&format!("ports: {name}"), 9, text);
        }
    }
    let dots = "'........'";
    for (name, definition, accepted) in [
        (
            "read and write",
            format!("b,read mask {dots},write mask {dots}"),
            true,
        ),
        (
            "write and read",
            format!("b,write mask {dots},read mask {dots}"),
            true,
        ),
        (
            "read of a read port",
            format!("read b,read mask {dots}"),
            true,
        ),
        ("bare of a read port", format!("read b,mask {dots}"), true),
        ("bare of a write port", format!("write b,mask {dots}"), true),
        ("read alone of both", format!("b,read mask {dots}"), true),
        ("seven elements", "b,mask '.......'".to_string(), false),
        ("nine elements", "b,mask '.........'".to_string(), false),
        ("one element", "b,mask '.'".to_string(), false),
        (
            "sixteen elements",
            "b,mask '................'".to_string(),
            false,
        ),
        (
            "a second one of seven elements",
            format!("b,read mask {dots},write mask '.......'"),
            false,
        ),
        ("two bare", format!("b,mask {dots},mask {dots}"), false),
        (
            "bare and read",
            format!("b,mask {dots},read mask {dots}"),
            false,
        ),
        (
            "read and bare",
            format!("b,read mask {dots},mask {dots}"),
            false,
        ),
        (
            "bare and write",
            format!("b,mask {dots},write mask {dots}"),
            false,
        ),
        (
            "two reads",
            format!("b,read mask {dots},read mask {dots}"),
            false,
        ),
        (
            "bare and read of a read port",
            format!("read b,mask {dots},read mask {dots}"),
            false,
        ),
        (
            "write of a read port",
            format!("read b,write mask {dots}"),
            false,
        ),
        (
            "read of a write port",
            format!("write b,read mask {dots}"),
            false,
        ),
        (
            "bare and write of a read port",
            format!("read b,mask {dots},write mask {dots}"),
            false,
        ),
        (
            "three",
            format!("b,read mask {dots},write mask {dots},mask {dots}"),
            false,
        ),
    ] {
        let text = register(&format!("{definition}:bit[8]"));
        if accepted {
            list.accepted(&format!("masks: {name}"), text, "1 1 1");
        } else {
            list.refused(
                &format!("masks: {name}"),
                9,
                text.replace("register r", "register ^r"),
            );
        }
    }
    list.line(
        "sixteen elements beside bit[16]",
        "device d(b:bit[8] port){register r=b,mask '................':bit[16];}",
        "refused 12 33",
    );
    list.accepted(
        "a mask for one part leaves eight dots for the other",
        device("register r=b,read mask '********':bit[8];variable v=write r:int(8);"),
        "1 1 1",
    );
}

fn rule_10(list: &mut List) {
    list.refused("a place taken", 10, over_r("register ^s=b:bit[8];"));
    list.refused(
        "a read place taken",
        10,
        over_r("register ^s=read b:bit[8];"),
    );
    list.refused(
        "a write place taken",
        10,
        over_r("register ^s=write b@0:bit[8];"),
    );
    list.refused(
        "a place taken by value",
        10,
        device("register r=b@6:bit[8];register ^s=b@2*3:bit[8];"),
    );
    list.refused(
        "a place taken by the second port",
        10,
        device("register r=b@1:bit[8];register ^s=read b@2,write b@1:bit[8];"),
    );
    list.accepted(
        "a read and a write at one place",
        device("register r=read b:bit[8];register s=write b:bit[8];variable v=r:int(8);variable w=s:int(8);"),
        "1 2 2",
    );
    list.accepted(
        "crossed places",
        device("register r=read b@1,write b@2:bit[8];register s=read b@2,write b@1:bit[8];variable v=r:int(8);variable w=s:int(8);"),
        "1 2 2",
    );
    list.accepted(
        "one place for both parts",
        register("read b@0,write b@0:bit[8]"),
        "1 1 1",
    );
    list.accepted(
        "one offset of two parameters",
        "device d(a:bit[8] port,b:bit[8] port){register r=a:bit[8];register s=b:bit[8];variable v=r:int(8);variable w=s:int(8);}",
        "2 2 2",
    );
    list.refused(
        "a place taken though all its bits are stars",
        10,
        device("register r=b,mask '********':bit[8];register ^s=b,mask '********':bit[8];"),
    );
}

fn rule_11(list: &mut List) {
    list.refused("bit 8", 11, over_r("variable ^v=r[8]:bool;"));
    list.refused("a range from 8", 11, over_r("variable ^v=r[8..0]:int(9);"));
    list.refused(
        "bit 8 in a later piece",
        11,
        over_r("variable ^v=r[7,8]:int(2);"),
    );
    list.refused("rising by one", 11, over_r("variable ^v=r[3..4]:int(2);"));
    list.accepted(
        "a range of one bit",
        over_r("variable v=r[7..7]:bool;variable w=r[6..0]:int(7);"),
        "1 1 2",
    );
    list.refused(
        "a bit twice in brackets",
        11,
        over_r("variable ^v=r[7,7]:int(2);"),
    );
    list.refused(
        "a bit twice in two ranges",
        11,
        over_r("variable ^v=r[7..4,4..0]:int(9);"),
    );
    list.refused(
        "a bit twice joined",
        11,
        over_r("variable ^v=r[7]#r[7]:int(2);"),
    );
    list.refused("a register twice", 11, over_r("variable ^v=r#r:int(16);"));
    list.refused(
        "a bit twice apart",
        11,
        device("register q=b@1:bit[8];register r=b:bit[8];variable ^v=r[0]#q#r[0]:int(10);"),
    );
    list.accepted(
        "a register twice, its bits once",
        over_r("variable v=r[3..0]#r[7..4]:int(8);"),
        "1 1 1",
    );
    list.accepted(
        "the order in brackets",
        over_r("variable v=r[3..0,7..4]:int(8);"),
        "1 1 1",
    );
    for (name, mask, accepted) in [
        ("a dot", "*******.", true),
        ("a star", "********", false),
        ("a zero", "*******0", false),
        ("a one", "*******1", false),
    ] {
        let text = device(&format!(
            "register r=b,mask '{mask}':bit[8];variable ^v=r[0]:bool;"
        ));
        if accepted {
            list.accepted(
                &format!("a bit that is {name}"),
                text.replace('^', ""),
                "1 1 1",
            );
        } else {
            list.refused(&format!("a bit that is {name}"), 11, text);
        }
    }
    list.line(
        "a bare list over masks that differ",
        "device d(b:bit[8] port){register r=b,write mask '********':bit[8];variable v=r:int(8);}",
        "refused 11 75",
    );
    list.accepted(
        "a read list over masks that differ",
        device("register r=b,write mask '********':bit[8];variable v=read r:int(8);"),
        "1 1 1",
    );
    list.line(
        "a whole register with stars",
        "device d(b:bit[8] port){register r=b,mask '****....':bit[8];variable v=r:int(4);}",
        "refused 11 69",
    );
    list.refused(
        "a write list over a read register",
        11,
        device("register r=read b:bit[8];variable ^v=write r:int(8);"),
    );
    list.refused(
        "a read list over a write register",
        11,
        device("register r=write b:bit[8];variable ^v=read r:int(8);"),
    );
    list.accepted(
        "a bare list over a read register",
        device("register r=read b:bit[8];variable v=r:int(8);"),
        "1 1 1",
    );
    list.accepted(
        "a bare list over a write register",
        device("register r=write b:bit[8];variable v=r:int(8);"),
        "1 1 1",
    );
    list.refused(
        "a bare list with neither part",
        11,
        device("register q=read b:bit[8];register r=write b:bit[8];variable ^v=q#r:int(16);"),
    );
    list.accepted(
        "a bare list that loses its write part",
        device("register q=read b@1:bit[8];register r=b@2,write mask '********':bit[8];variable v=q#r:int(16);"),
        "1 2 1",
    );
    list.refused(
        "a lost part leaves its bits",
        16,
        device("register q=read b@1:bit[8];register ^r=b@2:bit[8];variable v=q#r:int(16);"),
    );
    list.refused(
        "a read list with one write register",
        11,
        device("register q=read b:bit[8];register r=write b:bit[8];variable ^v=read q#r:int(16);"),
    );
    for (name, lists, accepted) in [
        ("read and write", "read r,write r", true),
        ("write and read", "write r,read r", true),
        ("two bare", "r,r", false),
        ("two reads", "read r[7..4],read r[3..0]", false),
        ("two writes", "write r,write r", false),
        ("bare and read", "r,read r", false),
        ("bare and write", "r,write r", false),
        ("read and bare", "read r,r", false),
        ("write and bare", "write r,r", false),
    ] {
        let text = over_r(&format!("variable ^v={lists}:int(8);"));
        if accepted {
            list.accepted(&format!("lists: {name}"), text.replace('^', ""), "1 1 1");
        } else {
            list.refused(&format!("lists: {name}"), 11, text);
        }
    }
    let five = "register r0=b@0:bit[8];register r1=b@1:bit[8];register r2=b@2:bit[8];register r3=b@3:bit[8];register r4=b@4:bit[8];";
    list.accepted(
        "32 bits",
        device(&format!(
            "{five}variable v=r0#r1#r2#r3:int(32);variable w=r4:int(8);"
        )),
        "1 5 2",
    );
    list.accepted(
        "32 bits, signed",
        device(&format!(
            "{five}variable v=r0#r1#r2#r3:signed int(32);variable w=r4:int(8);"
        )),
        "1 5 2",
    );
    list.refused(
        "33 bits",
        11,
        device(&format!("{five}variable ^v=r0#r1#r2#r3#r4[0]:int(33);")),
    );
    list.refused(
        "33 bits to int(32)",
        11,
        device(&format!("{five}variable ^v=r0#r1#r2#r3#r4[0]:int(32);")),
    );
    list.refused(
        "33 bits in the second list",
        11,
        device(&format!(
            "{five}variable ^v=read r0#r1#r2#r3,write r0#r1#r2#r3#r4[0]:int(32);"
        )),
    );
    list.accepted("32 bits in each list", device(&format!("{five}variable v=read r0#r1#r2#r3,write r4#r1#r2#r3:int(32);variable w=read r4,write r0:int(8);")), "1 5 2");
}

fn rule_12(list: &mut List) {
    list.refused(
        "an unused parameter of width 9",
        12,
        "device d(b:bit[8] port,^c:bit[9] port){register r=b:bit[8];variable v=r:int(8);}",
    );
    for width in [0, 7, 9, 32] {
        list.refused(
            &format!("eight bits to int({width})"),
            12,
            over_r(&format!("variable ^v=r:int({width});")),
        );
        list.refused(
            &format!("eight bits to signed int({width})"),
            12,
            over_r(&format!("variable ^v=r:signed int({width});")),
        );
    }
    list.refused(
        "a bool of two bits",
        12,
        over_r("variable ^v=r[1..0]:bool;"),
    );
    list.refused("a bool of eight bits", 12, over_r("variable ^v=r:bool;"));
    list.accepted(
        "a bool of one bit",
        over_r("variable v=r[0]:bool;variable w=r[7..1]:int(7);"),
        "1 1 2",
    );
    list.accepted(
        "int(1)",
        over_r("variable v=r[0]:int(1);variable w=r[7..1]:int(7);"),
        "1 1 2",
    );
    list.accepted(
        "signed int(1)",
        over_r("variable v=r[0]:signed int(1);variable w=r[7..1]:int(7);"),
        "1 1 2",
    );
    list.refused(
        "parts of unlike width, the read part fits",
        12,
        over_r("variable ^v=read r,write r[7..1]:int(8);"),
    );
    list.refused(
        "parts of unlike width, the write part fits",
        12,
        over_r("variable ^v=read r[7..1],write r:int(8);"),
    );
    list.refused(
        "parts of unlike width, written first",
        12,
        over_r("variable ^v=write r,read r[0]:int(8);"),
    );
}

fn rule_13(list: &mut List) {
    let read = |attributes: &str| {
        device(&format!(
            "register r=read b:bit[8];variable ^v=r{attributes}:int(8);"
        ))
    };
    let write = |attributes: &str| {
        device(&format!(
            "register r=write b:bit[8];variable ^v=r{attributes}:int(8);"
        ))
    };
    let both = |attributes: &str| over_r(&format!("variable ^v=r{attributes}:int(8);"));
    for (name, text) in [
        ("volatile", both(",volatile")),
        ("volatile of a read part", read(",volatile")),
        ("trigger", both(",trigger")),
        ("trigger of a read part", read(",trigger")),
        ("trigger of a write part", write(",trigger")),
        ("read trigger", both(",read trigger")),
        (
            "read and write trigger",
            both(",read trigger,write trigger"),
        ),
        (
            "write and read trigger",
            both(",write trigger,read trigger"),
        ),
        (
            "volatile among triggers",
            both(",write trigger,volatile,read trigger"),
        ),
        ("read trigger of a read part", read(",read trigger")),
        ("write trigger of a write part", write(",write trigger")),
    ] {
        list.accepted(
            &format!("attributes: {name}"),
            text.replace('^', ""),
            "1 1 1",
        );
    }
    for (name, text) in [
        ("volatile twice", both(",volatile,volatile")),
        ("volatile twice, apart", both(",volatile,trigger,volatile")),
        ("volatile of a write part", write(",volatile")),
        ("trigger twice", both(",trigger,trigger")),
        ("trigger twice of a read part", read(",trigger,trigger")),
        ("trigger and read trigger", both(",trigger,read trigger")),
        ("trigger and write trigger", both(",trigger,write trigger")),
        ("read trigger and trigger", both(",read trigger,trigger")),
        ("read trigger twice", both(",read trigger,read trigger")),
        (
            "write trigger twice",
            both(",write trigger,volatile,write trigger"),
        ),
        ("write trigger of a read part", read(",write trigger")),
        ("read trigger of a write part", write(",read trigger")),
        (
            "trigger and write trigger of a read part",
            read(",trigger,write trigger"),
        ),
        (
            "read and write trigger and trigger",
            both(",read trigger,write trigger,trigger"),
        ),
    ] {
        list.refused(&format!("attributes: {name}"), 13, text);
    }
    list.line(
        "attributes: volatile of a write part alone",
        "device d(b:bit[8] port){register r=write b:bit[8];variable v=r,volatile:int(8);}",
        "refused 13 59",
    );
    list.refused(
        "attributes: write trigger of a read list",
        13,
        over_r("variable ^v=read r,write trigger:int(8);"),
    );
    list.refused(
        "attributes: write trigger of a lost part",
        13,
        device("register q=read b@1:bit[8];register r=b@2,write mask '********':bit[8];variable ^v=q#r,write trigger:int(16);"),
    );
}

fn rule_14(list: &mut List) {
    list.refused(
        "one bit shared",
        14,
        over_r("variable v=r[7..4]:int(4);variable ^w=r[4]:bool;"),
    );
    list.refused(
        "a register shared",
        14,
        over_r("variable v=r:int(8);variable ^w=r:int(8);"),
    );
    list.refused(
        "a read bit shared with both parts",
        14,
        over_r("variable v=r:int(8);variable ^w=read r[0]:bool;"),
    );
    list.refused(
        "a write bit shared with both parts",
        14,
        over_r("variable v=write r:int(8);variable ^w=r[0]:bool;"),
    );
    list.refused("a bit of a second register", 14, device("register q=b@1:bit[8];register r=b@2:bit[8];variable v=r[0]:bool;variable ^w=q#r:int(16);"));
    list.accepted(
        "neighbours",
        over_r("variable v=r[7..4]:int(4);variable w=r[3..0]:int(4);"),
        "1 1 2",
    );
    list.accepted(
        "other bits for each part",
        over_r("variable v=read r[7..4],write r[3..0]:int(4);variable w=read r[3..0],write r[7..4]:int(4);"),
        "1 1 2",
    );
}

fn rule_15(list: &mut List) {
    for (name, first, second, refused) in [
        ("the first", ",trigger", "", true),
        ("the second", "", ",trigger", true),
        ("both", ",trigger", ",trigger", true),
        ("neither", "", "", false),
        ("the first when read", ",read trigger", "", true),
        ("the second when written", "", ",write trigger", true),
        (
            "one when read, one when written",
            ",read trigger",
            ",write trigger",
            true,
        ),
    ] {
        let text = over_r(&format!(
            "variable v=r[7..4]{first}:int(4);variable ^w=r[3..0]{second}:int(4);"
        ));
        if refused {
            list.refused(&format!("triggers: {name}"), 15, text);
        } else {
            list.accepted(&format!("triggers: {name}"), text.replace('^', ""), "1 1 2");
        }
    }
    list.accepted(
        "triggers: a read trigger beside a variable that is only written",
        over_r("variable v=read r,read trigger:int(8);variable w=write r[7..4]:int(4);variable x=write r[3..0]:int(4);"),
        "1 1 3",
    );
    list.accepted(
        "triggers: both parts, by two variables",
        over_r("variable v=read r,trigger:int(8);variable w=write r,trigger:int(8);"),
        "1 1 2",
    );
    list.refused(
        "triggers: the third of three",
        15,
        over_r("variable v=r[7..4]:int(4);variable w=r[3..2]:int(2);variable ^x=r[1..0],write trigger:int(2);"),
    );
    list.refused(
        "triggers: a second register shared",
        15,
        device("register q=b@1:bit[8];register r=b@2:bit[8];variable v=q#r[7..4],trigger:int(12);variable ^w=r[3..0]:int(4);"),
    );
    list.accepted(
        "triggers: registers apart",
        device("register q=b@1:bit[8];register r=b@2:bit[8];variable v=q,trigger:int(8);variable w=r,trigger:int(8);"),
        "1 2 2",
    );
    list.accepted(
        "triggers: one variable in two pieces",
        over_r("variable v=r[7..4]#r[3..0],trigger:int(8);"),
        "1 1 1",
    );
    list.accepted(
        "triggers: beside stars",
        device("register r=b,mask '....****':bit[8];variable v=r[7..4],trigger:int(4);"),
        "1 1 1",
    );
}

fn rule_16(list: &mut List) {
    list.refused("no bit mapped", 16, device("register ^r=b:bit[8];"));
    list.refused(
        "bit 0 unmapped",
        16,
        device("register ^r=b:bit[8];variable v=r[7..1]:int(7);"),
    );
    list.refused(
        "bit 7 unmapped",
        16,
        device("register ^r=b:bit[8];variable v=r[6..0]:int(7);"),
    );
    list.refused(
        "read bits unmapped",
        16,
        device("register ^r=b:bit[8];variable v=write r:int(8);"),
    );
    list.refused(
        "write bits unmapped",
        16,
        device("register ^r=b:bit[8];variable v=read r:int(8);"),
    );
    list.refused(
        "one dot of a mask unmapped",
        16,
        device("register ^r=b,mask '.*01***.':bit[8];variable v=r[7]:bool;"),
    );
    list.accepted(
        "no dot at all",
        device("register r=b,mask '*01*****':bit[8];"),
        "1 1 0",
    );
    list.accepted(
        "every dot of a mask",
        device("register r=b,mask '.*01***.':bit[8];variable v=r[7,0]:int(2);"),
        "1 1 1",
    );
    list.accepted("bits mapped by a later declaration", device("register r=b:bit[8];register s=b@1,mask '0.......':bit[8];variable w=s[6..0]:int(7);variable v=r:int(8);"), "1 2 2");
}
