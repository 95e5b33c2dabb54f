//! The station, through the crate's types: document 01's cases, every refusal that a caller can
//! get, and ports that fail.

use desfanuk::{
    Access, Answer, Description, Direction, Done, Number, Operation, Ports, Refusal, Station,
    Stopped, Variable,
};

/// A score over two registers; a register with two nibbles; one that is only read, one that is only
/// written.
const TEXT: &str = "device d(b:bit[8] port@{0..4}){
    register hi=b@0,mask '****....':bit[8];register lo=b@1,mask '****....':bit[8];variable x=hi[3..0]#lo[3..0]:signed int(8);
    register two=b@2:bit[8];variable high=two[7..4]:int(4);variable low=two[3..0]:int(4);
    register out=write b@3,mask '1..00000':bit[8];variable mode=out[6..5]:int(2);
    register in=read b@3:bit[8];variable state=in,volatile:int(8);}";

const POWER_ON: [Number; 5] = [0, 0, 0xA5, 0, 0];

/// The variables of the text.
struct Of<'d> {
    x: Variable<'d>,
    high: Variable<'d>,
    low: Variable<'d>,
    mode: Variable<'d>,
    state: Variable<'d>,
}

/// The text's variables, and a station that is open.
fn opened(work: impl for<'d> FnOnce(Of<'d>, Station<'d>)) {
    let description = Description::load(TEXT).expect("a good description");
    description.with(|board| {
        let [x, high, low, mode, state] = ["x", "high", "low", "mode", "state"]
            .map(|name| board.variable(name).expect("a variable"));
        let station = Station::open(board, &POWER_ON).expect("enough numbers");
        let of = Of {
            x,
            high,
            low,
            mode,
            state,
        };
        work(of, station);
    });
}

/// The first variable of a text, and a station that is open over it.
fn first(text: &str, power: &[Number], work: impl for<'d> FnOnce(Variable<'d>, Station<'d>)) {
    let description = Description::load(text).expect("a good description");
    description.with(|board| {
        let variable = board.variable_at(0).expect("a variable");
        work(
            variable,
            Station::open(board, power).expect("enough numbers"),
        );
    });
}

fn write(offset: u8, number: Number) -> Answer {
    Answer::Offer(Access {
        direction: Direction::Write,
        parameter: 0,
        offset,
        number,
    })
}

fn read(offset: u8) -> Answer {
    Answer::Offer(Access {
        direction: Direction::Read,
        parameter: 0,
        offset,
        number: 0,
    })
}

fn done(value: i64, accesses: usize) -> Answer {
    Answer::Done { value, accesses }
}

#[test]
fn the_cases_of_document_01() {
    opened(|of, mut station| {
        assert_eq!(station.begin_write(of.mode, 2), write(3, 0xC0));
        assert_eq!(station.confirm(0), done(2, 1));
        assert_eq!(station.begin_write(of.x, -2), write(0, 0x0F));
        assert_eq!(station.confirm(0), write(1, 0x0E));
        assert_eq!(station.confirm(0), done(-2, 2));
        assert_eq!(station.begin_read(of.x), read(0));
        assert_eq!(station.confirm(0xAF), read(1));
        assert_eq!(station.confirm(0x5E), done(-2, 2));
        assert_eq!(station.begin_write(of.low, 3), write(2, 0xA3));
        assert_eq!(station.confirm(0), done(3, 1));
        assert_eq!(station.begin_read(of.high), read(2));
        assert_eq!(station.confirm(0xA3), done(10, 1));
        assert_eq!(station.record(), [0x0F, 0x0E, 0xA3, 0xC0, 0]);
    });
}

/// All but 25: what there is not, is no variable.
#[test]
fn every_refusal_of_a_caller() {
    opened(|of, mut station| {
        let board = station.description();
        let short = Station::open(board, &POWER_ON[..4]);
        assert_eq!(short.expect_err("too few"), Refusal::ShortRecord);
        assert_eq!(station.confirm(0), Answer::Refused(Refusal::Idle));
        assert_eq!(station.abandon(), Err(Refusal::Idle));
        let no_part = Answer::Refused(Refusal::NoPart);
        assert_eq!(station.begin_read(of.mode), no_part);
        for (variable, value, refusal) in [
            (of.state, 0, Refusal::NoPart),
            (of.mode, 4, Refusal::TooHigh),
            (of.mode, -1, Refusal::TooLow),
            (of.x, 128, Refusal::TooHigh),
            (of.x, -129, Refusal::TooLow),
            (of.x, i64::MIN, Refusal::TooLow),
            (of.x, i64::MAX, Refusal::TooHigh),
        ] {
            let answer = station.begin_write(variable, value);
            assert_eq!(answer, Answer::Refused(refusal));
        }
        assert_eq!(station.begin_read(of.x), read(0));
        assert_eq!(station.begin_read(of.x), Answer::Refused(Refusal::Busy));
        assert_eq!(station.record(), POWER_ON);
        for index in [5, 128, usize::MAX] {
            assert_eq!(board.variable_at(index), None);
        }
    });
}

/// A text with one variable of this type, over as many registers as its bits need.
fn one_variable(of_type: &str, width: usize) -> String {
    let mut text = "device d(b:bit[8] port@{0..3}){".to_string();
    let mut list = Vec::new();
    for (offset, high) in (0..width).step_by(8).enumerate() {
        let bits = (width - high).min(8);
        let mask = format!("{}{}", "*".repeat(8 - bits), ".".repeat(bits));
        text += &format!("register r{offset}=b@{offset},mask '{mask}':bit[8];");
        list.push(format!("r{offset}[{}..0]", bits - 1));
    }
    text + &format!("variable v={}:{of_type};}}", list.join("#"))
}

/// For every kind and width: the least and the greatest are offered, and one more on either side is
/// refused by its own number.
#[test]
fn the_range_ends_where_the_refusals_begin() {
    let widths = 1..=32;
    let numbers = widths.flat_map(|width| {
        [
            (format!("int({width})"), width),
            (format!("signed int({width})"), width),
        ]
    });
    for (of_type, width) in numbers.chain([("bool".to_string(), 1)]) {
        first(&one_variable(&of_type, width), &[0; 4], |v, mut station| {
            let range = v.range();
            assert_eq!(range.end() - range.start(), (1 << width) - 1, "{of_type}");
            for (value, refusal) in [
                (range.start() - 1, Refusal::TooLow),
                (range.end() + 1, Refusal::TooHigh),
            ] {
                let answer = station.begin_write(v, value);
                assert_eq!(answer, Answer::Refused(refusal), "{of_type} {value}");
            }
            for value in [*range.start(), *range.end()] {
                let answer = station.begin_write(v, value);
                assert!(matches!(answer, Answer::Offer(_)), "{of_type} {value}");
                assert_eq!(station.abandon(), Ok(()));
            }
        });
    }
}

#[test]
fn a_value_outside_is_told_in_words() {
    opened(|of, mut station| {
        let mut ports = Storage {
            bytes: POWER_ON,
            dead: None,
        };
        for (value, words) in [
            (
                128,
                "refused (55): 128 is too high: the least is -128, the greatest 127",
            ),
            (
                -129,
                "refused (27): -129 is too low: the least is -128, the greatest 127",
            ),
        ] {
            let stopped = station.write(of.x, value, &mut ports).expect_err("outside");
            assert_eq!(stopped.to_string(), words);
        }
        assert_eq!(ports.bytes, POWER_ON);
    });
}

/// A dead cable reads as all ones, and a register with a bit fixed at 0 tells.
#[test]
fn a_contradicting_number_ends_the_read() {
    let text = "device d(b:bit[8] port@{0..1}){register r=b@0,mask '****....':bit[8];\
        register s=b@1,mask '0001....':bit[8];variable v=r[3..0]#s[3..0]:int(8);}";
    first(text, &[0, 0x10], |v, mut station| {
        assert_eq!(station.begin_read(v), read(0));
        assert_eq!(station.confirm(0xFF), read(1));
        let stopped = Answer::Contradicted { register: 1 };
        assert_eq!(station.confirm(0xFF), stopped);
        assert_eq!(station.operation(), Operation::Idle);
        assert_eq!(station.confirm(0x1F), Answer::Refused(Refusal::Idle));
        assert_eq!(station.begin_read(v), read(0));
        assert_eq!(station.confirm(0xF2), read(1));
        assert_eq!(station.confirm(0x13), done(0x23, 2));
        assert_eq!(station.record(), [0, 0x10]);
        let contradicting = |register| station.description().contradicting(register, 0xFF);
        assert_eq!([0, 1, 2].map(contradicting), [Some(0), Some(0xE0), None]);
    });
}

/// Ports that read the same number everywhere.
struct Wire(Number);

impl Ports for Wire {
    type Failure = u8;

    fn perform(&mut self, _: Access) -> Result<Number, u8> {
        Ok(self.0)
    }
}

/// The error has the register's name and each bit that contradicts, the highest first.
#[test]
fn a_contradiction_is_told_in_words() {
    let text = "device d(b:bit[8] port){register status=b,mask '01*0....':bit[8];\
        variable v=status[3..0]:int(4);}";
    first(text, &[0x40], |v, mut station| {
        for (number, bits, words) in [
            (0xFF, 0x90, "bit 7 is fixed at 0, bit 4 is fixed at 0"),
            (0x00, 0x40, "bit 6 is fixed at 1"),
        ] {
            let read = station.read(v, &mut Wire(number));
            let stopped = read.expect_err("a contradiction");
            assert_eq!(
                stopped.to_string(),
                format!("refused (52): status gave 0x{number:02X}: {words}")
            );
            let Stopped::Contradicted(told) = stopped else {
                panic!("{stopped}");
            };
            assert_eq!((told.register, told.number, told.bits), (0, number, bits));
            assert_eq!(station.operation(), Operation::Idle);
        }
        let read = Done {
            value: 5,
            accesses: 1,
        };
        assert_eq!(station.read(v, &mut Wire(0x65)), Ok(read));
    });
}

/// Registers of 8, 16 and 32 bits: in every number that comes in, bits above the width count as 0.
#[test]
fn wider_registers_carry_wider_numbers() {
    let text = "device d(b:bit[8] port,c:bit[16] port,e:bit[32] port){\
        register r=b:bit[8];register s=c,mask '01..............':bit[16];register t=e:bit[32];\
        variable v=s[13..0]#r:int(22);variable w=t:signed int(32);}";
    let offer = |direction, parameter, number| {
        Answer::Offer(Access {
            direction,
            parameter,
            offset: 0,
            number,
        })
    };
    let power = [0x1A5, 0x7_4001, 0xFFFF_FFFF];
    first(text, &power, |v, mut station| {
        let board = station.description();
        let widths = [Some(8), Some(16), Some(32), None];
        assert_eq!([0, 1, 2, 3].map(|r| board.register_width(r)), widths);
        assert_eq!([0, 1, 2, 3].map(|p| board.port_width(p)), widths);

        assert_eq!(station.record(), [0xA5, 0x4001, 0xFFFF_FFFF]);
        let read = |parameter| offer(Direction::Read, parameter, 0);
        assert_eq!(station.begin_read(v), read(1));
        assert_eq!(station.confirm(0xFFFF_4012), read(0));
        assert_eq!(station.confirm(0xFFFF_FF34), done(0x1234, 2));
        let write = |parameter, number| offer(Direction::Write, parameter, number);
        assert_eq!(station.begin_write(v, 0x2B_CDEF), write(1, 0x6BCD));
        assert_eq!(station.confirm(0), write(0, 0xEF));
        assert_eq!(station.confirm(0), done(0x2B_CDEF, 2));
        let w = board.variable("w").expect("it has a w");
        assert_eq!(station.begin_write(w, -2), write(2, 0xFFFF_FFFE));
        assert_eq!(station.confirm(0), done(-2, 1));
        assert_eq!(station.record(), [0xEF, 0x6BCD, 0xFFFF_FFFE]);

        let stopped = station.read(v, &mut Wire(0xF_FFFF)).expect_err("all ones");
        let words = "refused (52): s gave 0xFFFF: bit 15 is fixed at 0";
        assert_eq!(stopped.to_string(), words);
    });
}

#[test]
fn an_abandoned_write_is_half_written_until_one_finishes() {
    opened(|of, mut station| {
        assert_eq!(station.begin_write(of.x, 0x35), write(0, 0x03));
        assert_eq!(station.confirm(0), write(1, 0x05));
        let in_hand = Operation::Writing {
            variable: of.x,
            step: 1,
            value: 0x35,
        };
        assert_eq!(station.operation(), in_hand);
        assert_eq!(station.abandon(), Ok(()));
        assert_eq!(station.operation(), Operation::Idle);
        assert!(station.half_written(of.x) && !station.half_written(of.low));
        let half = Answer::Refused(Refusal::HalfWritten);
        assert_eq!(station.begin_read(of.x), half);
        // Its neighbours are not touched by it, and a finished write ends it.
        assert_eq!(station.begin_read(of.low), read(2));
        assert_eq!(station.abandon(), Ok(()));
        assert_eq!(station.begin_write(of.x, 1), write(0, 0));
        assert_eq!(station.confirm(0), write(1, 1));
        assert!(station.half_written(of.x));
        assert_eq!(station.confirm(0), done(1, 2));
        assert!(!station.half_written(of.x));
        assert_eq!(station.begin_read(of.x), read(0));
    });
}

#[test]
fn a_new_opening_ends_what_was_in_hand() {
    opened(|of, mut station| {
        assert_eq!(station.begin_write(of.low, 1), write(2, 0xA1));
        assert_eq!(station.abandon(), Ok(()));
        assert_eq!(station.begin_read(of.high), read(2));
        assert_eq!(station.open_again(&[1; 3]), Err(Refusal::ShortRecord));
        let in_hand = Operation::Reading {
            variable: of.high,
            step: 0,
            gathered: 0,
        };
        assert_eq!(
            (station.operation(), station.half_written(of.low)),
            (in_hand, true)
        );
        assert_eq!(station.open_again(&[1; 9]), Ok(()));
        assert_eq!(station.operation(), Operation::Idle);
        assert_eq!(station.record(), [1; 5]);
        assert_eq!(station.begin_read(of.low), read(2));
    });
}

/// Storage at each offset, with one that does not answer.
struct Storage {
    bytes: [Number; 5],
    dead: Option<u8>,
}

impl Ports for Storage {
    type Failure = u8;

    fn perform(&mut self, access: Access) -> Result<Number, u8> {
        if self.dead == Some(access.offset) {
            return Err(access.offset);
        }
        let cell = &mut self.bytes[usize::from(access.offset)];
        if access.direction == Direction::Write {
            *cell = access.number;
        }
        Ok(*cell)
    }
}

#[test]
fn ports_that_fail_abandon_the_operation() {
    opened(|of, mut station| {
        let mut ports = Storage {
            bytes: POWER_ON,
            dead: None,
        };
        let finished = |value, accesses| Ok(Done { value, accesses });
        assert_eq!(station.write(of.x, -100, &mut ports), finished(-100, 2));
        assert_eq!(station.read(of.x, &mut ports), finished(-100, 2));
        ports.dead = Some(1);
        assert_eq!(station.read(of.x, &mut ports), Err(Stopped::Failed(1)));
        assert_eq!(station.write(of.x, 99, &mut ports), Err(Stopped::Failed(1)));
        assert_eq!(station.operation(), Operation::Idle);
        ports.dead = None;
        let half = Err(Stopped::Refused(Refusal::HalfWritten));
        assert_eq!(station.read(of.x, &mut ports), half);
        assert_eq!(station.write(of.x, 99, &mut ports), finished(99, 2));
        assert_eq!(station.read(of.x, &mut ports), finished(99, 2));
    });
}
