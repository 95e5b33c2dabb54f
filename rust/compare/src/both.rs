//! One station over the same tables in both implementations: every call is made in each, and
//! whatever it answers and leaves must be the same.

use second::generate::{Random, TableSet};
use second::replay::Call;
use second::{Answer, Calibration, Operation, Tables};

use crate::archive::Archive;
use crate::proved::{self, Lent, ANSWER_WORDS, OPERATION_WORDS};

/// Words behind those that a call may write.
const GUARD: usize = 3;

/// The three tables of a set, lent.
pub fn lent(set: &TableSet) -> Tables<'_> {
    Tables {
        parameters: &set.parameters,
        registers: &set.registers,
        variables: &set.variables,
    }
}

/// A record, marks, and how much of each is lent.
pub struct Both {
    archive: Archive,
    pub tables: TableSet,
    record: Vec<u32>,
    marks: Vec<u8>,
    operation: Operation,
    /// That of the read in hand, if it was begun in units.
    calibration: Option<Calibration>,
    proved_record: Vec<u32>,
    proved_marks: Vec<u8>,
    proved_operation: Vec<u64>,
    lent_record: usize,
    lent_marks: usize,
}

impl Both {
    /// A station with a record and marks of these lengths. They hold anything at first, as what
    /// lies behind the operation's words does.
    pub fn new(random: &mut Random, tables: TableSet, record: usize, marks: usize) -> Both {
        let record: Vec<u32> = (0..record).map(|_| random.number() as u32).collect();
        let marks: Vec<u8> = (0..marks).map(|_| random.byte() % 3).collect();
        let mut proved_operation = vec![0; OPERATION_WORDS];
        proved_operation.extend((0..GUARD).map(|_| random.number()));
        Both {
            archive: Archive::PROVED,
            tables,
            lent_record: record.len(),
            lent_marks: marks.len(),
            proved_record: record.clone(),
            proved_marks: marks.clone(),
            record,
            marks,
            operation: Operation::Idle,
            calibration: None,
            proved_operation,
        }
    }

    /// The same, with the station of this archive.
    pub fn over(self, archive: Archive) -> Both {
        Both { archive, ..self }
    }

    pub fn operation(&self) -> Operation {
        self.operation
    }

    /// Makes a call of the station in both and gives its answer; the other lines of a script give
    /// none.
    pub fn perform(&mut self, call: &Call) -> Option<Answer> {
        match call {
            Call::LendRecord(count) => {
                self.lent_record = count.unwrap_or(usize::MAX).min(self.record.len());
                None
            }
            Call::LendMarks(count) => {
                self.lent_marks = count.unwrap_or(usize::MAX).min(self.marks.len());
                None
            }
            Call::Hold(operation) => {
                self.operation = *operation;
                self.calibration = None;
                self.proved_operation[..OPERATION_WORDS]
                    .copy_from_slice(&proved::operation_words(*operation));
                None
            }
            Call::Lookup(_) | Call::State => None,
            Call::Confirm(number) => Some(match self.calibration {
                None => self.station_call(call, None),
                Some(calibration) => self.confirm_in_units(*number, calibration),
            }),
            _ => Some(self.station_call(call, None)),
        }
    }

    /// Confirms in units, with any calibration, whatever is in hand.
    pub fn confirm_in_units(&mut self, number: u32, calibration: Calibration) -> Answer {
        self.station_call(&Call::Confirm(number), Some(calibration))
    }

    /// Makes a call in both; a confirmation in units where a calibration is lent with it.
    fn station_call(&mut self, call: &Call, lent: Option<Calibration>) -> Answer {
        let (record, marks) = (self.record.clone(), self.marks.clone());
        let words = self.proved_operation.clone();
        let want = self.second_call(call, lent);
        let got = self.proved_call(call, lent);
        assert_eq!(got, want, "{call}");
        assert_eq!(self.proved_record, self.record, "record after {call}");
        assert_eq!(self.proved_marks, self.marks, "marks after {call}");
        let mut left = words.clone();
        if let Answer::Refused(_) | Answer::Contradicted { .. } | Answer::NotFinite = want {
            assert_eq!((&self.record, &self.marks), (&record, &marks), "{call}");
        }
        if !matches!(want, Answer::Refused(_)) {
            left[..OPERATION_WORDS].copy_from_slice(&proved::operation_words(self.operation));
        }
        assert_eq!(self.proved_operation, left, "operation after {call}");
        match (call, want) {
            (Call::Calibrated(_, begun), Answer::Offer(_)) => self.calibration = Some(*begun),
            _ if self.operation == Operation::Idle => self.calibration = None,
            _ => {}
        }
        want
    }

    fn second_call(&mut self, call: &Call, lent_units: Option<Calibration>) -> Answer {
        let tables = lent(&self.tables);
        let record = &mut self.record[..self.lent_record];
        let marks = &mut self.marks[..self.lent_marks];
        let operation = &mut self.operation;
        match call {
            Call::Open(power) => second::open(tables, power, record, marks, operation),
            Call::Read(v) => second::begin_read(tables, record, marks, operation, *v),
            Call::Write(v, value) => {
                second::begin_write(tables, record, marks, operation, *v, *value)
            }
            Call::Calibrated(v, calibration) => {
                second::begin_calibrated(tables, record, marks, operation, *v, *calibration)
            }
            Call::Confirm(number) => match lent_units {
                None => second::confirm(tables, record, marks, operation, *number),
                Some(calibration) => second::confirm_calibrated(
                    tables,
                    record,
                    marks,
                    operation,
                    *number,
                    calibration,
                ),
            },
            _ => second::abandon(tables, record, marks, operation),
        }
    }

    fn proved_call(&mut self, call: &Call, lent_units: Option<Calibration>) -> Answer {
        let lent = Lent {
            tables: proved::words(lent(&self.tables)),
            record: &mut self.proved_record[..self.lent_record],
            marks: &mut self.proved_marks[..self.lent_marks],
            operation: &mut self.proved_operation,
        };
        let mut words = [-77; ANSWER_WORDS + GUARD];
        let number = (self.archive.station)(lent, call, lent_units, &mut words);
        let (answer, guard) = words.split_at(ANSWER_WORDS);
        assert_eq!(guard, [-77; GUARD], "words behind the answer of {call}");
        let answer = proved::answer_of(answer.try_into().expect("its length"));
        let refusal = match answer {
            Answer::Refused(number) => u64::from(number),
            Answer::Contradicted { .. } => 52,
            Answer::NotFinite => 54,
            _ => 0,
        };
        assert_eq!(number, refusal, "the number returned by {call}");
        answer
    }
}
