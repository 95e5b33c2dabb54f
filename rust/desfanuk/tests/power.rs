//! The pattern of README.md and of the manual, run: a station that keeps a list of its unfinished writes
//! loses its power at every access of a story, with that access performed or not.

use std::collections::BTreeSet;

use desfanuk::{
    Access, Answer, Described, Description, Direction, Done, Number, Ports, Refusal, Station,
    Stopped, Variable,
};

type List = BTreeSet<usize>;

#[rustfmt::skip]
fn write<'d, P: Ports>(
    station: &mut Station<'d>, list: &mut List, variable: Variable<'d>, value: i64, ports: &mut P,
) -> Result<Done, Stopped<P::Failure>> {
    list.insert(variable.index()); // before the first access, and on storage that outlives the power
    let done = station.write(variable, value, ports)?;
    list.remove(&variable.index());
    Ok(done)
}

#[rustfmt::skip]
fn open_again<'d>(board: Described<'d>, cells: &[Number], list: &List) -> Result<Station<'d>, Refusal> {
    let mut station = Station::open(board, cells)?;
    for index in list {
        let variable = board.variable_at(*index).ok_or(Refusal::NoVariable)?;
        if let Answer::Offer(_) = station.begin_write(variable, 0) {
            station.abandon()?; // nothing was performed: it is marked, and no more
        }
    }
    Ok(station)
}

/// The scoring board, of which only the score is used: after so many accesses the power is gone, and the next one was
/// performed or not.
#[derive(Clone)]
struct Board {
    cells: [Number; 5],
    left: usize,
    performs_the_next: bool,
}

/// There is no power.
#[derive(Debug, PartialEq)]
struct Dark;

impl Ports for Board {
    type Failure = Dark;

    fn perform(&mut self, access: Access) -> Result<Number, Dark> {
        let has_power = self.left > 0;
        if access.direction == Direction::Write && (has_power || self.performs_the_next) {
            self.cells[usize::from(access.offset)] = access.number;
        }
        self.left = self.left.checked_sub(1).ok_or(Dark)?;
        Ok(self.cells[usize::from(access.offset)])
    }
}

/// The scores that are given, one after the other; each differs from the one before in both halves.
const SCORES: [i64; 4] = [2741, 3000, 0, 4095];

/// What is read after the power was gone once so many accesses were performed: the last score finished
/// before, the score being written then, and what the read comes to with the list kept, and without it.
struct Told {
    given: i64,
    asked: i64,
    kept: Result<i64, Stopped<Dark>>,
    careless: Result<i64, Stopped<Dark>>,
}

fn dark_after(scoring: Described<'_>, accesses: usize, performs_the_next: bool) -> Told {
    let score = scoring.variable("score").expect("it has a score");
    let mut board = Board {
        cells: [0; 5],
        left: accesses,
        performs_the_next,
    };
    let mut list = List::new();
    let mut station = Station::open(scoring, &board.cells).expect("five numbers");
    let mut given = 0;
    let asked = SCORES.into_iter().find(|value| {
        let done = write(&mut station, &mut list, score, *value, &mut board);
        given = done.as_ref().map_or(given, |done| done.value);
        done.is_err()
    });
    drop(station);
    board.left = 2;
    let read = |mut station: Station<'_>| {
        let score = station.description().variable("score").expect("a score");
        let done = station.read(score, &mut board.clone());
        done.map(|done| done.value)
    };
    Told {
        given,
        asked: asked.unwrap_or(given),
        kept: read(open_again(scoring, &board.cells, &list).expect("five numbers")),
        careless: read(Station::open(scoring, &board.cells).expect("five numbers")),
    }
}

#[test]
fn a_station_that_keeps_the_list_never_reads_a_mixture() {
    let text = include_str!("../../../boards/scoring.devil");
    let scoring = Description::load(text).expect("a good description");
    let [mut refused, mut as_before, mut mixtures] = [0; 3];
    for (accesses, performs_the_next) in (0..=8).flat_map(|n| [(n, false), (n, true)]) {
        let told = scoring.with(|scoring| dark_after(scoring, accesses, performs_the_next));
        match told.kept {
            Err(stopped) => {
                assert_eq!(stopped, Stopped::Refused(Refusal::HalfWritten));
                refused += 1;
            }
            Ok(value) => {
                assert_eq!(value, told.given);
                as_before += 1;
            }
        }
        let careless = told.careless.expect("nothing is marked");
        mixtures += usize::from(careless != told.given && careless != told.asked);
    }
    // eight accesses, each performed or not; behind the last of them all is finished
    assert_eq!((refused, as_before), (16, 2));
    assert!(mixtures > 0, "without the list, a score that nobody gave");
}

/// What the manual says of two openings: old bits are put back, and a mixture is read.
#[test]
fn two_stations_over_one_board_know_nothing_of_each_other() {
    let text = include_str!("../../../boards/scoring.devil");
    let scoring = Description::load(text).expect("a good description");
    scoring.with(|scoring| {
        let mut board = Board {
            cells: [0; 5],
            left: 6,
            performs_the_next: false,
        };
        let [score, row, seat] =
            ["score", "row", "seat"].map(|name| scoring.variable(name).expect("it has one"));
        let [mut one, mut other] =
            [0; 2].map(|_| Station::open(scoring, &board.cells).expect("five numbers"));
        let value = |done: Result<Done, Stopped<Dark>>| done.expect("it is done").value;
        assert_eq!(value(one.write(row, 7, &mut board)), 7);
        assert_eq!(value(other.write(seat, 3, &mut board)), 3);
        assert_eq!(value(one.read(row, &mut board)), 0);

        assert_eq!(value(one.write(score, 2741, &mut board)), 2741);
        let stopped = one.write(score, 3000, &mut board);
        assert_eq!(stopped, Err(Stopped::Failed(Dark)));
        board.left = 2;
        assert_eq!(value(other.read(score, &mut board)), 2997);
    });
}

/// A list that is not this description's is refused.
#[test]
fn a_list_of_another_board_is_refused() {
    let text = "device d(b:bit[8] port){register r=b:bit[8];variable v=r:int(8);}";
    Description::load(text).expect("text A").with(|board| {
        let opened = open_again(board, &[0], &List::from([1]));
        assert_eq!(opened.map(|_| ()), Err(Refusal::NoVariable));
    });
}

/// The two functions of the pattern, as a file has them behind this prefix.
fn pattern(text: &str, prefix: &str) -> Vec<String> {
    let bare = |line: &str| match line == prefix.trim_end() {
        true => String::new(),
        false => line.strip_prefix(prefix).unwrap_or(line).to_string(),
    };
    text.lines()
        .map(bare)
        .filter(|line| line != "#[rustfmt::skip]")
        .skip_while(|line| !line.starts_with("fn write<'d, P: Ports>("))
        .take_while(|line| !line.starts_with(['#', '/', '`']))
        .collect()
}

#[test]
fn the_manual_and_the_readme_have_this_pattern() {
    let mut here = pattern(include_str!("power.rs"), "");
    here.pop(); // the empty line behind it
    assert_eq!(here.len(), 19);
    assert_eq!(pattern(include_str!("../src/lib.rs"), "//! "), here);
    assert_eq!(pattern(include_str!("../../../README.md"), ""), here);
}
