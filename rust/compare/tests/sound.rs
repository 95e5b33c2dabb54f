//! Refusal 20's test of tables, in both implementations.

use compare::both::lent;
use compare::proved;
use compare::seen::Seen;
use desfanuk::raw;
use second::generate::{damaged_tables, sound_tables, Random, TableSet};

/// Whether both find the tables sound.
fn agreed(set: &TableSet, seen: &mut Seen) -> bool {
    let got = raw::sound(proved::words(lent(set)));
    let want = second::sound(&set.parameters, &set.registers, &set.variables);
    assert_eq!(got, want, "{set:?}");
    seen.note(if got { "sound" } else { "not sound" });
    got
}

#[test]
fn generated_tables() {
    let mut random = Random::new(201);
    let mut seen = Seen::default();
    for _ in 0..2000 {
        assert!(agreed(&sound_tables(&mut random), &mut seen));
    }
    for _ in 0..10_000 {
        agreed(&damaged_tables(&mut random), &mut seen);
    }
    seen.require("generated tables", ["sound", "not sound"], 1000);
}

/// Each word of some tables changed, to several values.
#[test]
fn every_word_changed() {
    let mut random = Random::new(202);
    let mut seen = Seen::default();
    for _ in 0..6 {
        let mut set = sound_tables(&mut random);
        for table in 0..3 {
            let length = table_of(&mut set, table).len();
            for at in 0..length {
                let old = table_of(&mut set, table)[at];
                for new in [old.wrapping_add(1), old ^ 1 << random.below(9), 0] {
                    table_of(&mut set, table)[at] = new;
                    agreed(&set, &mut seen);
                }
                table_of(&mut set, table)[at] = old;
            }
        }
    }
    seen.require("every word changed", ["sound", "not sound"], 500);
}

/// Two words changed at once, near each other.
#[test]
fn two_words_changed() {
    let mut random = Random::new(203);
    let mut seen = Seen::default();
    for _ in 0..6_000 {
        let mut set = damaged_tables(&mut random);
        let table = table_of(&mut set, 1 + random.below(2));
        if !table.is_empty() {
            let at = random.below(table.len().min(200));
            table[at] = match random.below(3) {
                0 => table[at] ^ 1,
                1 => table[random.below(table.len().min(200))],
                _ => table[at].wrapping_add(1),
            };
        }
        agreed(&set, &mut seen);
    }
    seen.require("two words changed", ["sound", "not sound"], 200);
}

/// Every length around the stated sizes, and the short ones.
#[test]
fn lengths() {
    let mut random = Random::new(204);
    let mut seen = Seen::default();
    for _ in 0..40 {
        let whole = sound_tables(&mut random);
        for (table, size) in [577usize, 961, 7553].into_iter().enumerate() {
            for length in [
                0,
                1,
                2,
                15,
                36,
                59,
                60,
                size - 2,
                size - 1,
                size,
                size + 1,
                size + 2,
            ] {
                let mut set = whole.clone();
                table_of(&mut set, table).resize(length, 0);
                assert_eq!(agreed(&set, &mut seen), length >= size);
            }
        }
    }
    seen.require("lengths", ["sound", "not sound"], 100);
}

fn table_of(set: &mut TableSet, table: usize) -> &mut Vec<u32> {
    match table {
        0 => &mut set.parameters,
        1 => &mut set.registers,
        _ => &mut set.variables,
    }
}
