//! Damaged lines of a script.

use super::Random;

/// The line with one thing wrong or odd; most such lines are no calls any more.
pub fn damaged_line(random: &mut Random, mut line: Vec<u8>) -> Vec<u8> {
    let at = random.below(line.len());
    match random.below(9) {
        0 => {
            line.remove(at);
        }
        1 => line[at] = some_byte(random),
        2 => line.insert(at, some_byte(random)),
        3 => line.insert(at, *random.pick(b" \t;-0x")),
        4 => line.truncate(at),
        5 => line[at] = line[at].to_ascii_uppercase(),
        6 => line.extend(random.pick(&[" 0", " all", " ;", " -1", "0"]).bytes()),
        7 => line.splice(0..0, *b" \t ").for_each(drop),
        _ => {
            let number = random.pick(&[
                "18446744073709551615",
                "18446744073709551616",
                "4294967295",
                "4294967296",
                "-9223372036854775809",
                "256",
            ]);
            line.truncate(at);
            line.extend_from_slice(number.as_bytes());
        }
    }
    line
}

/// Any byte that ends no line.
fn some_byte(random: &mut Random) -> u8 {
    match random.byte() {
        b'\n' => b'\r',
        byte => byte,
    }
}
