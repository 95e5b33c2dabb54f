//! Register descriptions in Devil, and the reads and writes of their variables, for station
//! software.
//!
//! A board maker's description is loaded ([`Description::load`]): it is accepted with its
//! variables, or refused with the number of the first rule broken and its place. Where it is put to use
//! ([`Description::with`]) its variables are found by their names, and a station is opened over it
//! ([`Station::open`]) with the numbers that the board's registers hold at power-on. From then on each
//! read or write of a variable is a run of port accesses, offered one at a time: the station performs
//! the access on offer and confirms it, or abandons the operation. An operation is done at its last
//! confirmation and never sooner, and a variable whose write was abandoned cannot be read until a
//! write of it finishes.
//!
//! What the calls answer is proved (crates/ of this repository; the archive `libabi.a` is linked).
//! This crate adds types: nothing here can be called wrongly, and the variable of another description
//! does not compile. `cd crates/abi && rt lib` makes the archive.
//!
//! ```
//! use desfanuk::{Access, Answer, Described, Description, Direction, Refusal, Refused, Station};
//!
//! fn keep_a_score(scoring: Described<'_>) {
//!     let score = scoring.variable("score").expect("it has a score");
//!     let mut station = Station::open(scoring, &[0, 0]).expect("a number for each register");
//!
//!     // Writing the score takes two accesses, the high register first.
//!     let high = Access { direction: Direction::Write, parameter: 0, offset: 0, number: 0x0A };
//!     let low = Access { direction: Direction::Write, parameter: 0, offset: 1, number: 0xB5 };
//!     assert_eq!(station.begin_write(score, 0xAB5), Answer::Offer(high));
//!     assert_eq!(station.confirm(0), Answer::Offer(low));
//!     assert_eq!(station.confirm(0), Answer::Done { value: 0xAB5, accesses: 2 });
//!
//!     // A write that stops midway leaves nothing that could be taken for a score.
//!     assert_eq!(station.begin_write(score, 7), Answer::Offer(Access { number: 0, ..high }));
//!     assert_eq!(station.confirm(0), Answer::Offer(Access { number: 7, ..low }));
//!     assert_eq!(station.abandon(), Ok(()));
//!     assert_eq!(station.begin_read(score), Answer::Refused(Refusal::HalfWritten));
//! }
//!
//! let description = Description::load("device scoring(base : bit[8] port @ {0..1}) {
//!     register high = base @ 0, mask '0000....' : bit[8];
//!     register low = base @ 1 : bit[8];
//!     variable score = high[3..0] # low : int(12);
//! }")?;
//! description.with(keep_a_score);
//! # Ok::<(), Refused>(())
//! ```
//!
//! Where a function performs the accesses, [`Station::read`] and [`Station::write`] do the
//! confirming, and abandon the operation when it fails: see [`Ports`]. `examples/score.rs` is a
//! whole program. [`Station::read_in_units`] reads in lux, volts or degrees.
//!
//! A description that arrives in pieces, from a file or over a line, goes into [`Pieces`]. What an
//! accepted one says of each bit is told by [`Description::register_part`] and [`Variable::part`].
//!
//! # A station that stops
//!
//! A station that is killed between two accesses and has kept its record, marks and operation
//! performs the access on offer, perhaps for the second time, and confirms it: on registers that are
//! plain storage all is as if it had not stopped. (A [`Station`] keeps them as long as it lives; who
//! calls by [`raw`], or from C, keeps them where he likes.)
//!
//! A loss of power takes the marks with it. What is read back then may be half a score and half
//! another. So a station keeps a list of the variables whose writes are unfinished on storage that
//! outlives the power (here `List`, a `BTreeSet<usize>` of their indexes, stands for a file that is
//! synced at each change), and marks them again:
//!
//! ```
//! # use std::collections::BTreeSet;
//! # use desfanuk::{Access, Answer, Described, Description, Direction, Done};
//! # use desfanuk::{Number, Ports, Refusal, Station, Stopped, Variable};
//! # type List = BTreeSet<usize>;
//! fn write<'d, P: Ports>(
//!     station: &mut Station<'d>, list: &mut List, variable: Variable<'d>, value: i64, ports: &mut P,
//! ) -> Result<Done, Stopped<P::Failure>> {
//!     list.insert(variable.index()); // before the first access, and on storage that outlives the power
//!     let done = station.write(variable, value, ports)?;
//!     list.remove(&variable.index());
//!     Ok(done)
//! }
//!
//! fn open_again<'d>(board: Described<'d>, cells: &[Number], list: &List) -> Result<Station<'d>, Refusal> {
//!     let mut station = Station::open(board, cells)?;
//!     for index in list {
//!         let variable = board.variable_at(*index).ok_or(Refusal::NoVariable)?;
//!         if let Answer::Offer(_) = station.begin_write(variable, 0) {
//!             station.abandon()?; // nothing was performed: it is marked, and no more
//!         }
//!     }
//!     Ok(station)
//! }
//! # // a board whose cable is pulled after so many accesses
//! # struct Board { cells: [Number; 2], left: usize }
//! # impl Ports for Board {
//! #     type Failure = ();
//! #     fn perform(&mut self, access: Access) -> Result<Number, ()> {
//! #         self.left = self.left.checked_sub(1).ok_or(())?;
//! #         let cell = &mut self.cells[usize::from(access.offset)];
//! #         if access.direction == Direction::Write { *cell = access.number; }
//! #         Ok(*cell)
//! #     }
//! # }
//! # fn story(scoring: Described<'_>) {
//! #     let score = scoring.variable("score").expect("it has a score");
//! #     let mut board = Board { cells: [0, 0], left: 3 };
//! #     let mut list = List::new();
//! #     let mut station = Station::open(scoring, &board.cells).expect("two numbers");
//! #     assert!(write(&mut station, &mut list, score, 0x1234, &mut board).is_ok());
//! #     assert!(list.is_empty());
//! #     assert_eq!(write(&mut station, &mut list, score, 0x5678, &mut board), Err(Stopped::Failed(())));
//! #     board.left = 100;
//! #     let mut careless = Station::open(scoring, &board.cells).expect("two numbers");
//! #     assert_eq!(careless.read(score, &mut board).map(|done| done.value), Ok(0x5634));
//! #     let mut station = open_again(scoring, &board.cells, &list).expect("two numbers");
//! #     assert_eq!(station.read(score, &mut board), Err(Stopped::Refused(Refusal::HalfWritten)));
//! #     assert!(write(&mut station, &mut list, score, 0x5678, &mut board).is_ok());
//! #     assert_eq!(station.read(score, &mut board).map(|done| done.value), Ok(0x5678));
//! # }
//! # let text = "device d(base : bit[8] port @ {0..1}) { register high = base : bit[8];
//! #     register low = base @ 1 : bit[8]; variable score = high # low : int(16); }";
//! # Description::load(text).expect("a good description").with(story);
//! ```
//!
//! Every plain variable is then refused as half-written or reads exactly as before (`remarked`,
//! crates/board/specs/Remarks.antt). A write that was refused may stay on the list: more is refused
//! then, never less, until a write of it finishes. A register that cannot be read is not read back:
//! whatever number is given for it, plain variables read the same.
//!
//! # Two openings
//!
//! A description may serve any number of boards, with a station for each. Two stations over **one**
//! board are something else: nothing is shared between them, and neither knows what the other does.
//!
//! - What one of them writes is not in the record of the other, which puts old bits back beside its own
//!   when it writes a neighbour in the same register.
//! - What one of them abandons is not marked in the other, which reads the mixture as if it were a value.
//! - All that is proved of reading back holds from one opening on, for a board that only this station
//!   writes.
//!
//! So a [`Station`] is not cloned, and a second opening over a board is for the time when the first
//! station is gone, as after a loss of power; [`Station::open_again`] does it in place. Who shares a
//! board between threads shares the one station, behind a lock that is held for a whole operation.

mod cause;
mod description;
mod layout;
mod pieces;
mod refusal;
mod station;
mod through;
mod units;
mod variable;

pub mod raw;

pub use description::{Description, Refused, Tables, Verdict};
pub use layout::{Kind, Piece, RegisterPart, VariablePart};
pub use pieces::Pieces;
pub use refusal::Refusal;
pub use station::{Access, Answer, Direction, Number, Operation, Station};
pub use through::{Contradiction, Done, Outside, Ports, Reading, Stopped};
pub use units::{Calibration, InUnits};
pub use variable::{Described, Variable};
