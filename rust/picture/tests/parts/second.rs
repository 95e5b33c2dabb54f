//! The second implementation's station, for pages to be held against.

use second::{Answer, Operation, Part, Tables};

/// The second implementation's station over the tables of a text.
#[derive(Clone)]
pub struct Second {
    tables: [Vec<u32>; 3],
    record: Vec<u32>,
    pub marks: Vec<u8>,
    operation: Operation,
}

impl Second {
    pub fn open(text: &[u8]) -> Second {
        let description = match second::load(text) {
            second::Verdict::Accepted { description } => description,
            refused => panic!("{refused:?}"),
        };
        let (parameters, registers, variables) = second::tables(&description);
        let mut second = Second {
            record: vec![0; description.registers.len()],
            marks: vec![0; description.variables.len()],
            tables: [parameters, registers, variables],
            operation: Operation::Idle,
        };
        let power = vec![0; description.registers.len()];
        let Second {
            record,
            marks,
            operation,
            tables,
        } = &mut second;
        let opened = second::open(lent(tables), &power, record, marks, operation);
        assert_eq!(opened, Answer::Opened);
        second
    }

    pub fn begin_write(&mut self, variable: usize, value: i64) -> Answer {
        let Second {
            record,
            marks,
            operation,
            tables,
        } = self;
        second::begin_write(lent(tables), record, marks, operation, variable, value)
    }

    pub fn begin_read(&mut self, variable: usize) -> Answer {
        let Second {
            record,
            marks,
            operation,
            tables,
        } = self;
        second::begin_read(lent(tables), record, marks, operation, variable)
    }

    pub fn confirm(&mut self, number: u32) -> Answer {
        let Second {
            record,
            marks,
            operation,
            tables,
        } = self;
        second::confirm(lent(tables), record, marks, operation, number)
    }

    pub fn abandon(&mut self) {
        let Second {
            record,
            marks,
            operation,
            tables,
        } = self;
        let answer = second::abandon(lent(tables), record, marks, operation);
        assert_eq!(answer, Answer::Abandoned);
    }

    pub fn write(&mut self, variable: usize, value: i64) {
        let mut answer = self.begin_write(variable, value);
        while let Answer::Offer(_) = answer {
            answer = self.confirm(0);
        }
        assert!(matches!(answer, Answer::Done { .. }), "{answer:?}");
    }

    pub fn part_is_there(&self, variable: usize, part: Part) -> bool {
        let [parameters, registers, variables] = &self.tables;
        let description = second::describe(parameters, registers, variables).expect("tables");
        let variable = &description.variables[variable];
        match part {
            Part::Read => variable.read.is_some(),
            Part::Write => variable.write.is_some(),
        }
    }
}

fn lent(tables: &[Vec<u32>; 3]) -> Tables<'_> {
    Tables {
        parameters: &tables[0],
        registers: &tables[1],
        variables: &tables[2],
    }
}
