//! Scripts at the limits of types: too low is refusal 27, too high refusal 55.

use super::Script;

pub fn scripts() -> Vec<Script> {
    let mut scripts = vec![two_bits(), lowest_first(), half_written()];
    scripts.extend(TYPES.iter().map(at_the_limits));
    scripts
}

/// A type: its name, its registers, its least and its greatest value, and the first byte written for each of the two.
type Type = (&'static str, Registers, [i64; 2], [u8; 2]);

enum Registers {
    OneBit,
    Whole(usize),
}

use Registers::{OneBit, Whole};

const TYPES: [Type; 7] = [
    ("bool", OneBit, [0, 1], [0x00, 0x01]),
    ("int(1)", OneBit, [0, 1], [0x00, 0x01]),
    ("int(8)", Whole(1), [0, 255], [0x00, 0xFF]),
    ("int(32)", Whole(4), [0, 4_294_967_295], [0x00, 0xFF]),
    ("signed int(1)", OneBit, [-1, 0], [0x01, 0x00]),
    ("signed int(8)", Whole(1), [-128, 127], [0x80, 0x7F]),
    (
        "signed int(32)",
        Whole(4),
        [-2_147_483_648, 2_147_483_647],
        [0x80, 0x7F],
    ),
];

/// Both limits, one past each of them, and the two ends of what a call takes.
fn at_the_limits((kind, registers, [least, greatest], bytes): &Type) -> Script {
    let (count, mask, bits) = match registers {
        OneBit => (1, "*******.", "[0]"),
        Whole(count) => (*count, "........", ""),
    };
    let mut text = "device d(b:bit[8] port@{0..3}){".to_string();
    let mut pieces = Vec::new();
    for register in 0..count {
        text += &format!("register r{register}=b@{register},mask '{mask}':bit[8];");
        pieces.push(format!("r{register}{bits}"));
    }
    text += &format!("variable v={}:{kind};}}", pieces.join("#"));
    let zeros = |zero: &str| vec![zero; count].join(" ");
    let calls = [
        format!("open {} -> opened", zeros("0")),
        format!("write 0 {least} -> offer write 0 0 0x{:02X}", bytes[0]),
        "abandon -> abandoned".to_string(),
        format!("write 0 {greatest} -> offer write 0 0 0x{:02X}", bytes[1]),
        "abandon -> abandoned".to_string(),
        format!("write 0 {} -> refused 27", least - 1),
        format!("write 0 {} -> refused 55", greatest + 1),
        format!("write 0 {} -> refused 27", i64::MIN),
        format!("write 0 {} -> refused 55", i64::MAX),
        format!("state -> record {} marks 1 operation idle", zeros("00")),
    ];
    Script::answered(
        &format!("limits-of-{}", kind.replace(' ', "-")),
        &text,
        &calls.join("\n"),
    )
}

fn two_bits() -> Script {
    Script::answered(
        "too-high-in-two-bits",
        "device d(b:bit[8] port){register r=b,mask '1..00000':bit[8];variable v=r[6..5]:int(2);}",
        "open 0 -> opened
         write 0 4 -> refused 55
         write 0 -1 -> refused 27
         write 0 2 -> offer write 0 0 0xC0
         confirm 0 -> done 2 1
         write 0 3 -> offer write 0 0 0xE0
         confirm 0 -> done 3 1
         state -> record E0 marks 0 operation idle",
    )
}

/// Every other refusal of a begin has a lower number, and a held value out of range is no value of a begin.
fn lowest_first() -> Script {
    Script::answered(
        "too-high-comes-last",
        "device d(b:bit[8] port){register p=read b:bit[8];register q=write b:bit[8];\
         variable u=p:int(8);variable v=q:signed int(8);}",
        "write 1 128 -> refused 21
         open 0 0 -> opened
         write 2 128 -> refused 25
         write 0 256 -> refused 26
         write 0 -1 -> refused 26
         write 1 128 -> refused 55
         write 1 -129 -> refused 27
         hold write 1 0 256 -> held
         write 1 128 -> refused 22
         confirm 0 -> refused 22
         hold write 1 0 255 -> held
         write 1 128 -> refused 23
         write 1 -129 -> refused 23
         confirm 0 -> done -1 1
         state -> record 00 FF marks 0 0 operation idle",
    )
}

/// A refused begin leaves its variable's mark, too low and too high alike.
fn half_written() -> Script {
    Script::answered(
        "too-high-leaves-the-mark",
        "device d(b:bit[8] port){register r=b:bit[8];variable v=r[7..1]:signed int(7);variable w=r[0]:bool;}",
        "open 0xA5 -> opened
         write 1 0 -> offer write 0 0 0xA4
         abandon -> abandoned
         write 1 2 -> refused 55
         read 1 -> refused 28
         write 1 -1 -> refused 27
         read 1 -> refused 28
         write 0 64 -> refused 55
         write 0 -65 -> refused 27
         read 0 -> offer read 0 0 0x00
         abandon -> abandoned
         state -> record A5 marks 0 1 operation idle
         write 1 1 -> offer write 0 0 0xA5
         confirm 0 -> done 1 1
         read 1 -> offer read 0 0 0x00
         confirm 0xA5 -> done 1 1",
    )
}
