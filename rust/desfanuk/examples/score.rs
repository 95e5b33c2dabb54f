//! A score in two registers of a scoring board: written, read back, abandoned midway, and written
//! again; at the end the cable is pulled. The board is a simulated one, four bytes of storage.
//!
//!     cargo run --offline --release -p desfanuk --example score [DESCRIPTION]
//!
//! include/score.c is the same program in C.

use std::error::Error;
use std::{env, fs};

use desfanuk::{Access, Described, Description, Direction, Done, Number, Ports, Station, Stopped};

const SCORING: &str = concat!(env!("CARGO_MANIFEST_DIR"), "/../../boards/scoring.devil");

/// The board: a byte for each offset, how many accesses it still answers, and whether its cable is
/// in. It notes what happens.
struct Board {
    bytes: [Number; 4],
    patience: usize,
    is_plugged: bool,
    notes: String,
}

/// The board did not answer.
struct TimedOut;

impl Ports for Board {
    type Failure = TimedOut;

    fn perform(&mut self, access: Access) -> Result<Number, TimedOut> {
        if self.patience == 0 {
            return Err(TimedOut);
        }
        self.patience -= 1;
        let Access { offset, number, .. } = access;
        let cell = &mut self.bytes[usize::from(offset)];
        if !self.is_plugged {
            *cell = 0xFF;
        }
        self.notes += &match access.direction {
            Direction::Read => format!("  read at base + {offset}: 0x{cell:02X}\n"),
            Direction::Write => {
                *cell = number;
                format!("  write 0x{number:02X} at base + {offset}\n")
            }
        };
        Ok(*cell)
    }
}

/// How a read or write ended.
fn ending(ended: Result<Done, Stopped<TimedOut>>) -> String {
    match ended {
        Ok(Done { value, accesses }) => format!("  done: {value}, in {accesses} accesses\n"),
        Err(Stopped::Refused(refusal)) => format!("  {refusal}\n"),
        Err(Stopped::Outside(outside)) => format!("  {outside}\n"),
        Err(Stopped::Contradicted(contradiction)) => format!("  {contradiction}\n"),
        Err(Stopped::Failed(TimedOut)) => "  the board does not answer: abandoned\n".to_string(),
    }
}

/// What is done: its title, the value to write, or none to read, and the number of accesses that the
/// board answers.
const STORY: [(&str, Option<i64>, usize); 8] = [
    ("Write the score 2741.", Some(2741), 2),
    ("Read it.", None, 2),
    ("Write 3000, and let the board stop midway.", Some(3000), 1),
    (
        "Read the score: its registers hold 2997 now, which nobody gave.",
        None,
        2,
    ),
    ("Write 3000 again.", Some(3000), 2),
    ("Read it.", None, 2),
    ("Write 5000.", Some(5000), 2),
    ("Write -1.", Some(-1), 2),
];

/// What happens on a board with this description.
pub fn story(text: Vec<u8>) -> Result<String, Box<dyn Error>> {
    Description::load(text)?.with(at_work)
}

fn at_work(scoring: Described<'_>) -> Result<String, Box<dyn Error>> {
    let score = scoring.variable("score").ok_or("it has no score")?;
    let mut station = Station::open(scoring, &vec![0; scoring.registers()])?;
    let mut board = Board {
        bytes: [0; 4],
        patience: 0,
        is_plugged: true,
        notes: format!(
            "The board has {} registers and {} variables.\n",
            scoring.registers(),
            scoring.variables()
        ),
    };
    for (title, value, patience) in STORY {
        board.notes += &format!("{title}\n");
        board.patience = patience;
        let ended = match value {
            Some(value) => station.write(score, value, &mut board),
            None => station.read(score, &mut board),
        };
        board.notes += &ending(ended);
    }
    board.notes += "Pull the cable, so that all reads give ones, and read the score.\n";
    board.is_plugged = false;
    board.patience = 2;
    let ended = station.read(score, &mut board);
    board.notes += &ending(ended);
    Ok(board.notes)
}

fn main() -> Result<(), Box<dyn Error>> {
    let path = env::args().nth(1).unwrap_or_else(|| SCORING.to_string());
    print!("{}", story(fs::read(path)?)?);
    Ok(())
}
