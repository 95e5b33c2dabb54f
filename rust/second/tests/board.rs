//! A board whose registers are plain storage, driven by the second station.

use second::board::{watch, Calls};
use second::generate::{valid, Random};
use second::{
    abandon, begin_read, begin_write, confirm, load, open, tables, Answer, Operation, Tables,
    Verdict,
};

/// The second station, with the state that it keeps between calls.
struct Station<'t> {
    tables: Tables<'t>,
    record: Vec<u32>,
    marks: Vec<u8>,
    operation: Operation,
}

impl Calls for Station<'_> {
    fn open(&mut self, power: &[u32]) -> Answer {
        open(
            self.tables,
            power,
            &mut self.record,
            &mut self.marks,
            &mut self.operation,
        )
    }

    fn begin_read(&mut self, variable: usize) -> Answer {
        begin_read(
            self.tables,
            &self.record,
            &self.marks,
            &mut self.operation,
            variable,
        )
    }

    fn begin_write(&mut self, variable: usize, value: i64) -> Answer {
        begin_write(
            self.tables,
            &self.record,
            &self.marks,
            &mut self.operation,
            variable,
            value,
        )
    }

    fn confirm(&mut self, number: u32) -> Answer {
        confirm(
            self.tables,
            &mut self.record,
            &mut self.marks,
            &mut self.operation,
            number,
        )
    }

    fn abandon(&mut self) -> Answer {
        abandon(
            self.tables,
            &self.record,
            &mut self.marks,
            &mut self.operation,
        )
    }
}

#[test]
fn reading_gives_the_value_last_finished() {
    let mut random = Random::new(11);
    let mut noted = std::collections::BTreeMap::new();
    for _ in 0..120 {
        let Verdict::Accepted { description } = load(&valid(&mut random)) else {
            panic!("a valid text is accepted");
        };
        if description.variables.is_empty() {
            continue;
        }
        let (parameters, registers, variables) = tables(&description);
        let mut station = Station {
            tables: Tables {
                parameters: &parameters,
                registers: &registers,
                variables: &variables,
            },
            record: vec![0; description.registers.len()],
            marks: vec![9; description.variables.len()],
            operation: Operation::Idle,
        };
        watch(&mut random, &description, &mut station, 80, &mut |seen| {
            *noted.entry(seen).or_insert(0) += 1;
        });
    }
    for (seen, least) in [
        ("read back", 600),
        ("under the premise", 300),
        ("from a shared place", 20),
        ("from a wide register", 100),
        ("contradicted", 100),
        ("half-written", 100),
    ] {
        assert!(
            noted.get(seen).is_some_and(|count| *count > least),
            "{noted:?}"
        );
    }
}
