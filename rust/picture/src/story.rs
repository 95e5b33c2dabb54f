//! The story of a write in several registers: what the board holds after each access, and what a
//! station that stops there could read.

use desfanuk::{Access, Answer, Described, Direction, Number, Variable};

use crate::cells::{bits_of, registers_of};
use crate::work::{former, shown, Desk, Ending, Made};

/// A write, step by step.
pub struct Story<'d> {
    pub variable: Variable<'d>,
    pub former: i64,
    pub value: i64,
    /// Its registers, in the order of their accesses.
    pub registers: Vec<usize>,
    pub steps: Vec<Step>,
    /// Whether a read has the bits that a write has.
    pub is_read_back: bool,
    /// What a read answers after a write that was stopped midway and then made again.
    pub again: Ending,
}

/// Where the write has come to.
pub struct Step {
    /// The access that led here.
    pub made: Option<Made>,
    /// The access that comes next.
    pub offered: Option<Access>,
    /// What each of the story's registers holds.
    pub numbers: Vec<Number>,
    /// Whether a station that stops here has the variable marked as half-written.
    pub is_marked: bool,
    /// What a read answers then.
    pub read: Ending,
    /// What the registers make for a station that is opened anew and knows of no stop.
    pub unmarked: Ending,
}

/// The story of a variable, if a write of it takes two accesses or more.
pub fn story<'d>(description: Described<'d>, variable: Variable<'d>) -> Option<Story<'d>> {
    let registers = registers_of(variable, Direction::Write);
    if registers.len() < 2 {
        return None;
    }
    let mut steps = vec![step(
        description,
        variable,
        &registers,
        Desk::in_use(description).into(),
    )];
    for accesses in 0..=registers.len() {
        let point = Point::after(accesses, description, variable);
        steps.push(step(description, variable, &registers, point));
    }
    Some(Story {
        variable,
        former: former(variable),
        value: shown(variable),
        registers,
        steps,
        is_read_back: bits_of(variable, Direction::Read) == bits_of(variable, Direction::Write),
        again: stopped_and_again(description, variable),
    })
}

/// A point of a life up to the write and into it. To try what follows from there the life is played again, since a
/// station is not cloned.
struct Point<'d> {
    desk: Desk<'d>,
    made: Option<Made>,
    offered: Option<Access>,
}

/// Where no write is begun yet.
impl<'d> From<Desk<'d>> for Point<'d> {
    fn from(desk: Desk<'d>) -> Point<'d> {
        Point {
            desk,
            made: None,
            offered: None,
        }
    }
}

impl<'d> Point<'d> {
    /// Where so many accesses of the write are confirmed.
    fn after(accesses: usize, description: Described<'d>, variable: Variable<'d>) -> Point<'d> {
        let mut point = Point::from(Desk::in_use(description));
        point.offer(|desk| desk.station.begin_write(variable, shown(variable)));
        for _ in 0..accesses {
            let access = point.offered.expect("an access is due");
            let made = point.desk.make(access);
            point.made = Some(made);
            point.offer(|desk| desk.station.confirm(made.number));
        }
        point
    }

    fn offer(&mut self, call: impl FnOnce(&mut Desk<'d>) -> Answer) {
        self.offered = match call(&mut self.desk) {
            Answer::Offer(access) => Some(access),
            _ => None,
        };
    }

    /// The desk of a station that stops here: it abandons the write in hand.
    fn stopped(mut self) -> Desk<'d> {
        if self.offered.is_some() {
            let station = &mut self.desk.station;
            station.abandon().expect("a write is in hand");
        }
        self.desk
    }
}

fn step<'d>(
    description: Described<'d>,
    variable: Variable<'d>,
    registers: &[usize],
    point: Point<'d>,
) -> Step {
    let (made, offered) = (point.made, point.offered);
    let board = point.desk.board.clone();
    let numbers = registers.iter().map(|r| board.cells[*r]).collect();
    let mut stopped = point.stopped();
    Step {
        made,
        offered,
        numbers,
        is_marked: stopped.station.half_written(variable),
        read: stopped.read(variable).ending,
        unmarked: Desk::on(description, board).read(variable).ending,
    }
}

/// Stops a write after its first access, makes it again to its end, and reads.
fn stopped_and_again<'d>(description: Described<'d>, variable: Variable<'d>) -> Ending {
    let mut desk = Point::after(1, description, variable).stopped();
    desk.write(variable, shown(variable));
    desk.read(variable).ending
}
