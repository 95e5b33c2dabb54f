//! Scripts whose boards contradict the description: refusal 52 names the register, and the operation ends.

use super::Script;

/// Two registers with fixed bits of both kinds.
const FIXED: &str = "device d(b:bit[8] port@{0..1}){register r=b@0,mask '0......1':bit[8];\
    register s=b@1,mask '000000..':bit[8];variable v=r[6..1]:int(6);variable w=s[1..0]:int(2);}";

/// A variable over three registers, not in order of declaration, the middle one of them mentioned twice; the masks of r
/// are unlike in their parts.
const ORDER: &str = "device d(b:bit[8] port@{0..9}){register p=b@4,mask '....01**':bit[8];\
    register q=b@5,mask '1111....':bit[8];\
    register r=read b@6,write b@7,read mask '0...1...',write mask '1...0...':bit[8];\
    variable v=r[6..4]#p[7..6]#q[3..0]#p[5..4]:signed int(11);variable w=r[2..0]:int(3);}";

/// Eight registers, each with one bit of its own fixed to this value, and its seven other bits read by a variable.
fn eight(value: char) -> String {
    let mut text = "device d(b:bit[8] port@{0..7}){".to_string();
    for bit in 0..8 {
        let mut mask = "........".to_string();
        mask.replace_range(7 - bit..8 - bit, &value.to_string());
        text += &format!("register r{bit}=read b@{bit},mask '{mask}':bit[8];");
        let high = (bit < 7).then(|| format!("r{bit}[7..{}]", bit + 1));
        let low = (bit > 0).then(|| format!("r{bit}[{}..0]", bit - 1));
        let pieces: Vec<String> = [high, low].into_iter().flatten().collect();
        text += &format!("variable v{bit}={}:int(7);", pieces.join("#"));
    }
    text + "}"
}

pub(super) fn scripts() -> Vec<Script> {
    let mut scripts = vec![
        dead_cable(),
        named_by_index(),
        first_misfit(),
        writes(),
        marks(),
        lowest_first(),
        stars(),
        held(),
    ];
    scripts.extend(each_bit());
    scripts
}

/// The bit alone contradicts, whatever the other seven are.
fn each_bit() -> [Script; 2] {
    ['0', '1'].map(|value| {
        let mut calls = "open 0 0 0 0 0 0 0 0 -> opened".to_string();
        for bit in 0..8 {
            let own = 1u8 << bit;
            let fitting = |byte: u8| {
                if value == '1' {
                    byte | own
                } else {
                    byte & !own
                }
            };
            for (byte, read) in [(0x00, 0), (0xFF, 127)] {
                let (good, bad) = (fitting(byte), fitting(byte) ^ own);
                calls += &format!(
                    "\nread {bit} -> offer read 0 {bit} 0x00\
                     \nconfirm {good} -> done {read} 1\
                     \nread {bit} -> offer read 0 {bit} 0x00\
                     \nconfirm {bad} -> refused 52 {bit}"
                );
            }
        }
        calls += "\nstate -> record 00 00 00 00 00 00 00 00 marks 0 0 0 0 0 0 0 0 operation idle";
        Script::answered(
            &format!("contradicted-in-each-bit-fixed-{value}"),
            &eight(value),
            &calls,
        )
    })
}

fn dead_cable() -> Script {
    Script::answered(
        "dead-cable",
        FIXED,
        "open 0 0 -> opened
         read 0 -> offer read 0 0 0x00
         confirm 0xFF -> refused 52 0
         confirm 0 -> refused 24
         read 0 -> offer read 0 0 0x00
         confirm 0x7F -> done 63 1
         read 1 -> offer read 0 1 0x00
         confirm 0xFF -> refused 52 1
         read 1 -> offer read 0 1 0x00
         confirm 3 -> done 3 1
         state -> record 00 00 marks 0 0 operation idle
         read 0 -> offer read 0 0 0x00
         confirm 0 -> refused 52 0
         abandon -> refused 24
         read 1 -> offer read 0 1 0x00
         confirm 4 -> refused 52 1
         read 1 -> offer read 0 1 0x00
         confirm 0x80 -> refused 52 1
         read 1 -> offer read 0 1 0x00
         confirm 0 -> done 0 1",
    )
}

/// By its place among the registers, not by its step, and not by its offset.
fn named_by_index() -> Script {
    Script::answered(
        "contradicted-register-by-index",
        ORDER,
        "open 0 0 0 -> opened
         read 0 -> offer read 0 6 0x00
         confirm 0x80 -> refused 52 2
         read 0 -> offer read 0 6 0x00
         confirm 0x78 -> offer read 0 4 0x00
         confirm 0xF0 -> refused 52 0
         read 0 -> offer read 0 6 0x00
         confirm 0x78 -> offer read 0 4 0x00
         confirm 0xF4 -> offer read 0 5 0x00
         confirm 0x0F -> refused 52 1
         read 0 -> offer read 0 6 0x00
         confirm 0x78 -> offer read 0 4 0x00
         confirm 0xF7 -> offer read 0 5 0x00
         confirm 0xFF -> done -1 3
         state -> record 00 00 00 marks 0 0 operation idle",
    )
}

/// The misfit at the first register ends the operation there; what was gathered before one is gone.
fn first_misfit() -> Script {
    Script::answered(
        "contradicted-at-the-first-of-three",
        ORDER,
        "open 0 0 0 -> opened
         read 0 -> offer read 0 6 0x00
         confirm 0x78 -> offer read 0 4 0x00
         state -> record 00 00 00 marks 0 0 operation read 0 1 1792
         confirm 0xFF -> refused 52 0
         state -> record 00 00 00 marks 0 0 operation idle
         confirm 0x04 -> refused 24
         read 0 -> offer read 0 6 0x00
         state -> record 00 00 00 marks 0 0 operation read 0 0 0
         confirm 0xFF -> refused 52 2
         read 0 -> offer read 0 6 0x00
         confirm 0x08 -> offer read 0 4 0x00
         confirm 0x04 -> offer read 0 5 0x00
         confirm 0xF0 -> done 0 3",
    )
}

/// A write's confirmation brings a byte that is ignored; and a read is judged by the read mask alone.
fn writes() -> Script {
    Script::answered(
        "writes-are-not-contradicted",
        ORDER,
        "open 0 0 0 -> opened
         write 0 -1 -> offer write 0 7 0xF0
         confirm 0 -> offer write 0 4 0xF4
         confirm 0xFF -> offer write 0 5 0xFF
         confirm 0x0F -> done -1 3
         write 1 7 -> offer write 0 7 0xF7
         confirm 0x88 -> done 7 1
         read 1 -> offer read 0 6 0x00
         confirm 0xF7 -> refused 52 2
         read 1 -> offer read 0 6 0x00
         confirm 0x0F -> done 7 1
         state -> record F4 FF F7 marks 0 0 operation idle",
    )
}

/// An operation so ended counts as abandoned: a read marks nothing, and clears nothing.
fn marks() -> Script {
    Script::answered(
        "contradictions-leave-the-marks",
        FIXED,
        "open 1 0 -> opened
         write 1 2 -> offer write 0 1 0x02
         abandon -> abandoned
         read 0 -> offer read 0 0 0x00
         confirm 0xFF -> refused 52 0
         state -> record 01 00 marks 0 1 operation idle
         read 1 -> refused 28
         write 0 5 -> offer write 0 0 0x0B
         confirm 0xFF -> done 5 1
         read 0 -> offer read 0 0 0x00
         confirm 0x80 -> refused 52 0
         read 0 -> offer read 0 0 0x00
         confirm 0x0B -> done 5 1
         write 1 3 -> offer write 0 1 0x03
         confirm 0xFF -> done 3 1
         state -> record 0B 03 marks 0 0 operation idle",
    )
}

fn lowest_first() -> Script {
    Script::answered(
        "contradictions-come-after-lower-numbers",
        FIXED,
        "open 0 0 -> opened
         confirm 0xFF -> refused 24
         read 0 -> offer read 0 0 0x00
         lend record 1 -> lent
         confirm 0xFF -> refused 21
         lend record all -> lent
         lend marks 1 -> lent
         confirm 0xFF -> refused 21
         lend marks all -> lent
         state -> record 00 00 marks 0 0 operation read 0 0 0
         confirm 0xFF -> refused 52 0
         hold read 0 1 0 -> held
         confirm 0xFF -> refused 22
         hold read 0 0 1 -> held
         confirm 0xFF -> refused 22
         hold read 2 0 0 -> held
         confirm 0xFF -> refused 22
         hold read 0 0 0 -> held
         read 0 -> refused 23
         confirm 0xFF -> refused 52 0
         read 2 -> refused 25",
    )
}

/// Stars and dots are not fixed: any byte is read.
fn stars() -> Script {
    Script::answered(
        "stars-and-dots-are-not-fixed",
        "device d(b:bit[8] port){register r=b,mask '*.*.*.*.':bit[8];variable v=r[6]#r[4]#r[2]#r[0]:int(4);}",
        "open 0xAA -> opened
         read 0 -> offer read 0 0 0x00
         confirm 0xFF -> done 15 1
         read 0 -> offer read 0 0 0x00
         confirm 0x00 -> done 0 1
         read 0 -> offer read 0 0 0x00
         confirm 0xAA -> done 0 1
         read 0 -> offer read 0 0 0x00
         confirm 0x55 -> done 15 1
         read 0 -> offer read 0 0 0x00
         confirm 0x41 -> done 9 1",
    )
}

/// A held operation is contradicted at its step; a half-written variable's too.
fn held() -> Script {
    Script::answered(
        "a-held-read-is-contradicted",
        ORDER,
        "open 0 0 0 -> opened
         hold read 0 2 0x7F0 -> held
         confirm 0x7F -> refused 22
         hold read 0 2 0x7C3 -> held
         confirm 0x7F -> refused 52 1
         hold read 0 2 0x7C3 -> held
         confirm 0xF1 -> done -57 3
         write 0 0 -> offer write 0 7 0x80
         abandon -> abandoned
         hold read 0 1 0 -> held
         confirm 0x08 -> refused 52 0
         state -> record 00 00 00 marks 1 0 operation idle",
    )
}
