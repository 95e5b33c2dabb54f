//! Demand 3, played through the proved station: a board whose registers are plain storage.

use compare::seen::Seen;
use compare::station::Station;
use second::board::{plain, power_on, some_value, to_its_end, watch, Board, Calls, Ended};
use second::generate::{valid, Random};
use second::{load, Answer, Description, Verdict};

/// A description, in both implementations.
fn described(random: &mut Random) -> (Description, desfanuk::Description) {
    let text = valid(random);
    let Verdict::Accepted { description } = load(&text) else {
        panic!("a valid text is accepted");
    };
    let proved = desfanuk::Description::load(text).expect("by both");
    (description, proved)
}

/// "Reading a plain variable gives the value last finished for it, or its power-on bits if none was,
/// whatever was written, finished or abandoned on other variables between. If its own write was
/// abandoned, reading is refused as half-written until a write finishes."
#[test]
fn reading_gives_the_value_last_finished() {
    let mut random = Random::new(301);
    let mut seen = Seen::default();
    for _ in 0..400 {
        let (description, proved) = described(&mut random);
        if description.variables.is_empty() {
            continue;
        }
        proved.with(|proved| {
            let mut station = Station::new(proved);
            for _ in 0..3 {
                watch(&mut random, &description, &mut station, 100, &mut |what| {
                    seen.note(what)
                });
            }
        });
    }
    seen.require(
        "reads on the storage board",
        ["read back", "half-written", "abandoned"],
        1000,
    );
    seen.require(
        "those of shared places and of wide registers, and contradictions",
        [
            "from a shared place",
            "from a wide register",
            "contradicted",
        ],
        100,
    );
    seen.require("those that must succeed", ["under the premise"], 1000);
}

/// "Start two boards from equal power-on bytes and write every plain variable once, each value in
/// range, in any order: the boards end equal exactly when the two sets of values are equal."
#[test]
fn boards_end_equal_exactly_when_the_values_are() {
    let mut random = Random::new(302);
    let mut seen = Seen::default();
    for _ in 0..1500 {
        let (description, proved) = described(&mut random);
        let mut order: Vec<usize> = (0..description.variables.len())
            .filter(|index| plain(&description.variables[*index]))
            .collect();
        if order.is_empty() {
            continue;
        }
        let power = power_on(&mut random, &description);
        let first: Vec<i64> = description
            .variables
            .iter()
            .map(|variable| some_value(&mut random, variable))
            .collect();
        // The other values: the same, or other in one variable alone, or other in all.
        let mut second = first.clone();
        match random.below(3) {
            0 => {}
            1 => {
                let index = *random.pick(&order);
                second[index] = some_value(&mut random, &description.variables[index]);
            }
            _ => {
                for &index in &order {
                    second[index] = some_value(&mut random, &description.variables[index]);
                }
            }
        }
        let mut ends = Vec::new();
        for values in [&first, &second] {
            random.shuffle(&mut order);
            ends.push(proved.with(|proved| {
                let mut station = Station::new(proved);
                let mut board = Board::new(&description, &power);
                assert_eq!(station.open(&power), Answer::Opened);
                for &index in &order {
                    let begun = station.begin_write(index, values[index]);
                    let ended = to_its_end(&mut random, &mut station, &mut board, begun, 0);
                    assert!(matches!(ended, Ended::Done(value) if value == values[index]));
                }
                board.cells
            }));
        }
        let same = order.iter().all(|index| first[*index] == second[*index]);
        assert_eq!(ends[0] == ends[1], same);
        seen.note(if same { "equal" } else { "unlike" });
    }
    seen.require("two boards", ["equal", "unlike"], 200);
}
