//! Readings in units, through the crate's types: the lamp in lux, both refusals, and what else a confirmation may meet.

use desfanuk::{
    Access, Answer, Calibration, Description, InUnits, Number, Ports, Refusal, Station, Stopped,
    Variable,
};

const LUX: Calibration = Calibration {
    gain: 0.5,
    offset: 1024.0,
};

/// The variables of the lamp that are asked for here.
struct Lamp<'d> {
    lit: Variable<'d>,
    brightness: Variable<'d>,
    light: Variable<'d>,
}

/// A lamp's variables, and a station that is open.
fn opened(work: impl for<'d> FnOnce(Lamp<'d>, Station<'d>)) {
    let text = include_str!("../../../boards/lamp.devil");
    let description = Description::load(text).expect("a good description");
    description.with(|lamp| {
        let [lit, brightness, light] =
            ["lit", "brightness", "light"].map(|name| lamp.variable(name).expect("it has one"));
        let station = Station::open(lamp, &[0; 3]).expect("opened");
        let lamp = Lamp {
            lit,
            brightness,
            light,
        };
        work(lamp, station);
    });
}

/// A lamp's sensor that gives these steps.
struct Sensor(i16);

impl Ports for Sensor {
    type Failure = ();

    fn perform(&mut self, access: Access) -> Result<Number, ()> {
        let [high, low] = (self.0 << 4).to_be_bytes();
        Ok(Number::from(if access.offset == 1 { high } else { low }))
    }
}

#[test]
fn the_light_in_lux() {
    opened(|lamp, mut station| {
        for (steps, lux) in [(298, 1173.0), (-2048, 0.0), (2047, 2047.5), (0, 1024.0)] {
            let reading = station.read_in_units(lamp.light, LUX, &mut Sensor(steps));
            let reading = reading.expect("it is read");
            assert_eq!((reading.value, reading.accesses), (lux, 2), "{steps}");
            let raw = station
                .read(lamp.light, &mut Sensor(steps))
                .expect("it is read");
            assert_eq!(raw.value, i64::from(steps));
        }
    });
}

#[test]
fn gain_1_and_offset_0_give_the_reading() {
    opened(|lamp, mut station| {
        let plain = Calibration {
            gain: 1.0,
            offset: 0.0,
        };
        for steps in -2048..2048 {
            let reading = station.read_in_units(lamp.light, plain, &mut Sensor(steps));
            let value = reading.expect("it is read").value;
            assert_eq!(value.to_bits(), f64::from(steps).to_bits(), "{steps}");
        }
    });
}

#[test]
fn no_units_before_any_access() {
    opened(|lamp, mut station| {
        let refused = Answer::Refused(Refusal::NoUnits);
        assert_eq!(station.begin_read_in_units(lamp.lit, LUX), refused);
        for bad in [f64::NAN, f64::INFINITY, f64::NEG_INFINITY] {
            let gain = Calibration { gain: bad, ..LUX };
            assert_eq!(station.begin_read_in_units(lamp.light, gain), refused);
            let offset = Calibration { offset: bad, ..LUX };
            assert_eq!(station.begin_read_in_units(lamp.light, offset), refused);
            // At a confirmation it leaves the read in hand.
            let Answer::Offer(_) = station.begin_read_in_units(lamp.light, LUX) else {
                panic!("there are units");
            };
            let before = station.operation();
            assert_eq!(
                station.confirm_in_units(0, gain),
                InUnits::Refused(Refusal::NoUnits)
            );
            assert_eq!(station.operation(), before);
            station.abandon().expect("a read is in hand");
        }
    });
}

#[test]
fn what_is_not_finite_ends_the_read() {
    opened(|lamp, mut station| {
        let huge = Calibration {
            gain: f64::MAX,
            ..LUX
        };
        let stopped = station.read_in_units(lamp.light, huge, &mut Sensor(298));
        assert_eq!(stopped, Err(Stopped::Refused(Refusal::NotFinite)));
        assert_eq!(
            station.confirm_in_units(0, huge),
            InUnits::Refused(Refusal::Idle)
        );
        let one = station.read_in_units(lamp.light, huge, &mut Sensor(1));
        assert_eq!(one.expect("a finite light").value, f64::MAX);
    });
}

#[test]
fn a_write_brings_no_reading() {
    opened(|lamp, mut station| {
        let Answer::Offer(_) = station.begin_write(lamp.brightness, 7) else {
            panic!("it begins");
        };
        let nan = Calibration {
            gain: f64::NAN,
            ..LUX
        };
        assert_eq!(
            station.confirm_in_units(0, nan),
            InUnits::Refused(Refusal::NoUnits)
        );
        assert_eq!(station.record()[0], 0);
        let written = InUnits::Written {
            value: 7,
            accesses: 1,
        };
        assert_eq!(station.confirm_in_units(0, LUX), written);
        assert_eq!(station.record()[0], 7);
    });
}
