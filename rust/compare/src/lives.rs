//! Lives of a station on a simulated storage board, and what becomes of them when it stops midway.

use std::collections::BTreeSet;
use std::fmt;

use desfanuk::Described;
use second::board::{
    held_by, is_wide, masks_obeyed, one_mask_each, plain, power_on, some_value, Board, Calls,
};
use second::generate::{number_for, valid, Random};
use second::{load, Access, Answer, Description, Verdict};

use crate::station::Station;

/// A call of the station; an abandoned access was performed or not.
#[derive(Clone, Copy, Debug)]
pub enum Call {
    Read(usize),
    Write(usize, i64),
    Confirm,
    Abandon { performed: bool },
}

/// A description, the numbers at power-on, and calls.
pub struct Life {
    pub text: Vec<u8>,
    description: Description,
    proved: desfanuk::Description,
    power: Vec<u32>,
    pub calls: Vec<Call>,
}

impl fmt::Debug for Life {
    fn fmt(&self, f: &mut fmt::Formatter<'_>) -> fmt::Result {
        let text = String::from_utf8_lossy(&self.text);
        write!(f, "{text}\npower-on {:?}\n{:?}", self.power, self.calls)
    }
}

impl Life {
    /// Whether no read can be refused by 52 (02, No. 9's premise).
    fn is_obedient(&self) -> bool {
        one_mask_each(&self.description) && masks_obeyed(&self.description, &self.power)
    }
}

/// After so many calls, with the access on offer performed or not.
#[derive(Clone, Copy, Debug)]
pub struct Stop {
    pub after: usize,
    pub performed: bool,
}

/// What is known of a plain variable: the value last finished, or its power-on bits; the value of the
/// last write that was begun; whether that write is unfinished.
#[derive(Clone, Copy)]
struct Known {
    given: i64,
    asked: i64,
    unfinished: bool,
}

/// A station at work, its board, the onlooker's notes, and the list of unfinished writes.
struct Work<'l, 'd> {
    life: &'l Life,
    station: Station<'d>,
    board: Board,
    offer: Option<Access>,
    writing: Option<(usize, i64)>,
    known: Vec<Option<Known>>,
    list: BTreeSet<usize>,
}

impl<'l, 'd> Work<'l, 'd> {
    fn open(life: &'l Life, proved: Described<'d>) -> Work<'l, 'd> {
        let mut station = Station::new(proved);
        assert_eq!(station.open(&life.power), Answer::Opened);
        let at_power_on = |variable| Known {
            given: held_by(variable, &life.power),
            asked: 0,
            unfinished: false,
        };
        let variables = life.description.variables.iter();
        Work {
            life,
            station,
            board: Board::new(&life.description, &life.power),
            offer: None,
            writing: None,
            known: variables
                .map(|variable| plain(variable).then(|| at_power_on(variable)))
                .collect(),
            list: BTreeSet::new(),
        }
    }

    /// The work of a life up to a stop.
    fn until(life: &'l Life, proved: Described<'d>, stop: Stop) -> Work<'l, 'd> {
        let mut work = Work::open(life, proved);
        for call in &life.calls[..stop.after] {
            let _ = work.call(*call);
        }
        work
    }

    /// Makes a call, and notes what it comes to.
    fn call(&mut self, call: Call) -> Answer {
        let answer = match call {
            Call::Read(v) => self.station.begin_read(v),
            Call::Write(v, value) => self.station.begin_write(v, value),
            Call::Confirm => {
                let number = self.offer.map_or(0, |access| self.board.perform(access));
                self.station.confirm(number)
            }
            Call::Abandon { performed } => {
                self.perform_if(performed);
                self.station.abandon()
            }
        };
        if let (Call::Write(v, value), Answer::Offer(_)) = (call, answer) {
            self.writing = Some((v, value));
            self.list.insert(v);
            if let Some(known) = &mut self.known[v] {
                known.asked = value;
                known.unfinished = true;
            }
        }
        self.note(answer);
        answer
    }

    fn perform_if(&mut self, performed: bool) {
        if let (true, Some(access)) = (performed, self.offer) {
            self.board.perform(access);
        }
    }

    fn note(&mut self, answer: Answer) {
        match answer {
            Answer::Offer(access) => {
                self.offer = Some(access);
                return;
            }
            Answer::Refused(_) => return,
            Answer::Done { .. } => {
                if let Some((v, value)) = self.writing {
                    self.known[v] = self.known[v].map(|known| Known {
                        given: value,
                        unfinished: false,
                        ..known
                    });
                    self.list.remove(&v);
                }
            }
            _ => {}
        }
        self.offer = None;
        self.writing = None;
    }

    /// The numbers for another opening: what can be read back, and anything for the registers that
    /// cannot be read.
    fn read_back(&self, random: &mut Random) -> Vec<u32> {
        let registers = self.life.description.registers.iter();
        registers
            .zip(&self.board.cells)
            .map(|(register, cell)| match register.read {
                Some(_) => *cell,
                None => number_for(random, register),
            })
            .collect()
    }

    /// Begins and abandons a write of each of these variables.
    fn mark_again(&mut self, list: &BTreeSet<usize>) {
        for v in list {
            let begun = self.station.begin_write(*v, 0);
            assert!(matches!(begun, Answer::Offer(_)), "{begun:?}");
            assert_eq!(self.station.abandon(), Answer::Abandoned);
        }
    }
}

/// A life of so many operations, some of them abandoned, with refused calls between; none for a text
/// without a plain variable.
pub fn life(random: &mut Random, operations: usize) -> Option<Life> {
    let text = valid(random);
    let Verdict::Accepted { description } = load(&text) else {
        panic!("a valid text is accepted");
    };
    if !description.variables.iter().any(plain) {
        return None;
    }
    let power = power_on(random, &description);
    let proved = desfanuk::Description::load(text.clone()).expect("by both");
    let mut life = Life {
        text,
        description,
        proved,
        power,
        calls: Vec::new(),
    };
    life.calls = life.proved.with(|proved| {
        let mut work = Work::open(&life, proved);
        (0..operations)
            .flat_map(|_| operation(random, &mut work))
            .collect()
    });
    Some(life)
}

/// A call that begins an operation: mostly of a plain variable, mostly a write.
fn begin(random: &mut Random, description: &Description) -> Call {
    let all = 0..description.variables.len();
    let plains: Vec<usize> = all
        .clone()
        .filter(|v| plain(&description.variables[*v]))
        .collect();
    let v = match random.one_in(8) {
        true => random.below(all.len()),
        false => *random.pick(&plains),
    };
    match random.one_in(4) {
        true => Call::Read(v),
        false => Call::Write(v, some_value(random, &description.variables[v])),
    }
}

/// The calls of one operation more, to its end or abandoned; now and then a call between that is refused.
fn operation(random: &mut Random, work: &mut Work) -> Vec<Call> {
    let description = &work.life.description;
    let mut calls = vec![begin(random, description)];
    let mut answer = work.call(calls[0]);
    while let Answer::Offer(_) | Answer::Refused(23) = answer {
        let next = match random.below(12) {
            0 => begin(random, description),
            1..=3 => Call::Abandon {
                performed: random.one_in(2),
            },
            _ => Call::Confirm,
        };
        calls.push(next);
        answer = work.call(next);
    }
    if random.one_in(8) {
        calls.push(Call::Confirm);
        assert_eq!(work.call(Call::Confirm), Answer::Refused(24));
    }
    calls
}

/// How a station that kept what it was lent, and does not know whether the access on offer was performed,
/// goes on.
#[derive(Clone, Copy, Debug)]
pub enum Then {
    /// It performs the access on offer, perhaps for the second time, and confirms it.
    GoesOn,
    /// It abandons the operation.
    GivesUp,
}

/// The station kept what it was lent. Whichever way it takes: its answers and the board are as if it had
/// not stopped, with a whole life behind it.
pub fn resume(life: &Life, stop: Stop, then: Then) -> &'static str {
    life.proved.with(|proved| {
        let mut stopped = Work::until(life, proved, stop);
        let mut whole = Work::until(life, proved, stop);
        let in_hand = stopped.offer.is_some();
        stopped.perform_if(stop.performed);
        let agree = |stopped: &Work, whole: &Work, answers: [Answer; 2]| {
            assert_eq!(answers[0], answers[1], "{life:?} {stop:?} {then:?}");
            let cells = [&stopped.board.cells, &whole.board.cells];
            assert_eq!(cells[0], cells[1], "{life:?} {stop:?} {then:?}");
        };
        if let (true, Then::GivesUp) = (in_hand, then) {
            let gave_up = stopped.call(Call::Abandon { performed: false });
            let performed = stop.performed;
            let abandoned = whole.call(Call::Abandon { performed });
            agree(&stopped, &whole, [gave_up, abandoned]);
        }
        while stopped.offer.is_some() {
            let answers = [stopped.call(Call::Confirm), whole.call(Call::Confirm)];
            agree(&stopped, &whole, answers);
        }
        for call in &life.calls[stop.after..] {
            let answers = [stopped.call(*call), whole.call(*call)];
            agree(&stopped, &whole, answers);
        }
        match in_hand {
            true => "in hand",
            false => "idle",
        }
    })
}

/// What a read came to after a loss of power.
#[derive(Clone, Copy, Debug, PartialEq)]
pub enum Came {
    /// As before the loss: the variable was settled.
    AsBefore { wide: bool },
    /// Refused by 28.
    HalfWritten,
    /// Refused by 52, which obedient masks and power-on numbers rule out.
    Contradicted,
    /// Of a variable whose write was unfinished, and by luck one of the two values.
    OldOrNew,
    /// Of a variable whose write was unfinished: a value that nobody gave.
    Mixture,
}

/// The station lost its power: all that is left is the board and the list. It opens with what can be
/// read back; marks the list again, if it has kept one; and reads every plain variable. Tells what each
/// read came to.
pub fn kill(random: &mut Random, life: &Life, stop: Stop, keeps_a_list: bool) -> Vec<Came> {
    life.proved.with(|proved| {
        let mut lost = Work::until(life, proved, stop);
        lost.perform_if(stop.performed);
        let mut again = Work::open(life, proved);
        assert_eq!(again.station.open(&lost.read_back(random)), Answer::Opened);
        again.board = lost.board;
        if keeps_a_list {
            again.mark_again(&lost.list);
        }
        let known = lost.known.into_iter().enumerate();
        let plains: Vec<(usize, Known)> =
            known.filter_map(|(v, known)| Some((v, known?))).collect();
        plains
            .into_iter()
            .map(|(v, known)| read(&mut again, v, known))
            .collect()
    })
}

/// Reads a variable of which this was known before.
fn read(again: &mut Work, v: usize, known: Known) -> Came {
    let mut answer = again.call(Call::Read(v));
    while let Answer::Offer(_) = answer {
        answer = again.call(Call::Confirm);
    }
    let life = again.life;
    match answer {
        Answer::Refused(28) => {
            assert!(known.unfinished, "a settled variable, {life:?}");
            Came::HalfWritten
        }
        Answer::Contradicted { .. } => {
            assert!(!life.is_obedient(), "{life:?}");
            Came::Contradicted
        }
        Answer::Done { value, .. } if !known.unfinished => {
            assert_eq!(value, known.given, "a settled variable, {life:?}");
            let wide = is_wide(&life.description.variables[v]);
            Came::AsBefore { wide }
        }
        Answer::Done { value, .. } if value == known.given || value == known.asked => {
            Came::OldOrNew
        }
        Answer::Done { .. } => Came::Mixture,
        other => panic!("{other:?}"),
    }
}
