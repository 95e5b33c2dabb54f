//! Name lookups, in both implementations, over any tables, texts and names.

use compare::seen::Seen;
use desfanuk::raw;
use second::generate::{damaged_tables, valid, Random};
use second::{load, tables, Description, Verdict};

fn agreed(text: &[u8], variables: &[u32], name: &[u8], seen: &mut Seen) -> Option<usize> {
    let got = raw::lookup(text, variables, name);
    assert_eq!(got, second::lookup(text, variables, name));
    seen.note(match got {
        Some(_) => "found",
        None => "none",
    });
    got
}

fn described(random: &mut Random) -> (Vec<u8>, Description, Vec<u32>) {
    let text = valid(random);
    let Verdict::Accepted { description } = load(&text) else {
        panic!("a valid text is accepted");
    };
    let (_, _, variables) = tables(&description);
    (text, description, variables)
}

/// Names to ask for: those of the description, a byte more and a byte less, and others.
fn names(random: &mut Random, text: &[u8], description: &Description) -> Vec<Vec<u8>> {
    let mut names: Vec<Vec<u8>> = Vec::new();
    names.extend(
        description
            .parameters
            .iter()
            .map(|p| p.name.of(text).to_vec()),
    );
    names.extend(
        description
            .registers
            .iter()
            .map(|r| r.name.of(text).to_vec()),
    );
    names.extend(
        description
            .variables
            .iter()
            .map(|v| v.name.of(text).to_vec()),
    );
    for name in names.clone() {
        let mut more = name.clone();
        more.push(b'x');
        names.extend([more, name[..name.len() - 1].to_vec()]);
    }
    names.push(Vec::new());
    names.push(text.to_vec());
    names.push((0..random.below(80)).map(|_| random.byte()).collect());
    names
}

#[test]
fn declared_names() {
    let mut random = Random::new(501);
    let mut seen = Seen::default();
    for _ in 0..300 {
        let (text, description, variables) = described(&mut random);
        for (index, variable) in description.variables.iter().enumerate() {
            let found = agreed(&text, &variables, variable.name.of(&text), &mut seen);
            assert_eq!(found, Some(index));
        }
        for name in names(&mut random, &text, &description) {
            agreed(&text, &variables, &name, &mut seen);
            // A text that was cut, and a table that was cut.
            let (end, words) = (random.below(text.len()), random.below(variables.len()));
            agreed(&text[..end], &variables, &name, &mut seen);
            agreed(&text, &variables[..words], &name, &mut seen);
        }
    }
    seen.require("declared names", ["found", "none"], 1000);
}

/// Damaged tables, and tables longer than their size with a count over 128.
#[test]
fn any_tables() {
    let mut random = Random::new(502);
    let mut seen = Seen::default();
    for _ in 0..1000 {
        let (text, description, mut variables) = described(&mut random);
        let count = description.variables.len();
        match random.below(5) {
            // The place or the length of a name.
            0 if count > 0 => {
                let at = 1 + 59 * random.below(count) + random.below(2);
                variables[at] = match random.below(3) {
                    0 => random.number() as u32,
                    1 => text.len() as u32 - random.below(3) as u32,
                    _ => variables[at].wrapping_sub(1),
                };
            }
            1 => variables[0] = *random.pick(&[0, 1, 127, 128, 129, 200, u32::MAX]),
            2 => {
                let entry: Vec<u32> = variables[1..60].to_vec();
                variables[0] = 200;
                variables.extend((0..70 * 59).map(|i| entry[i % 59].wrapping_add(i as u32 / 59)));
            }
            3 => variables = damaged_tables(&mut random).variables,
            _ => variables = (0..300).map(|_| random.below(200) as u32).collect(),
        }
        for name in names(&mut random, &text, &description) {
            agreed(&text, &variables, &name, &mut seen);
        }
        for _ in 0..20 {
            let from = random.below(text.len());
            let to = from + random.below((text.len() - from).min(4) + 1);
            agreed(&text, &variables, &text[from..to], &mut seen);
        }
    }
    seen.require("any tables", ["found", "none"], 1000);
}
