//! The light of a lamp in lux: each reading of the sensor, in steps, times a gain, plus an offset.
//! The sensor is a simulated one, which gives the steps that are named on the command line.
//!
//!     cargo run --offline --release -p desfanuk --example lux DESCRIPTION GAIN OFFSET STEPS..
//!
//! include/lux.c is the same program in C.

use std::convert::Infallible;
use std::error::Error;
use std::{env, fs};

use desfanuk::{Access, Calibration, Described, Description, Number, Ports, Station, Stopped};

/// A sensor that gives so many steps: twelve bits, the high eight of them at offset 1.
struct Sensor(i16);

impl Ports for Sensor {
    type Failure = Infallible;

    fn perform(&mut self, access: Access) -> Result<Number, Infallible> {
        let [high, low] = (self.0 << 4).to_be_bytes();
        Ok(Number::from(if access.offset == 1 { high } else { low }))
    }
}

/// The light at each of these steps, a line each.
pub fn story(
    text: Vec<u8>,
    calibration: Calibration,
    steps: &[i16],
) -> Result<String, Box<dyn Error>> {
    Description::load(text)?.with(|lamp| lines(lamp, calibration, steps))
}

fn lines(
    lamp: Described,
    calibration: Calibration,
    steps: &[i16],
) -> Result<String, Box<dyn Error>> {
    let light = lamp.variable("light").ok_or("no light to read")?;
    let mut station = Station::open(lamp, &vec![0; lamp.registers()])?;
    let mut told = String::new();
    for &steps in steps {
        told += &match station.read_in_units(light, calibration, &mut Sensor(steps)) {
            Ok(reading) => format!("{steps} steps: {:.1} lux\n", reading.value),
            Err(Stopped::Refused(refusal)) => {
                format!("{steps} steps: refused {}\n", refusal.number())
            }
            Err(stopped) => format!("{steps} steps: {stopped:?}\n"),
        };
    }
    Ok(told)
}

fn main() -> Result<(), Box<dyn Error>> {
    let arguments: Vec<String> = env::args().skip(1).collect();
    let [path, gain, offset, steps @ ..] = &arguments[..] else {
        return Err("usage: lux DESCRIPTION GAIN OFFSET STEPS..".into());
    };
    let calibration = Calibration {
        gain: gain.parse()?,
        offset: offset.parse()?,
    };
    let steps = steps.iter().map(|word| word.parse());
    let steps: Vec<i16> = steps.collect::<Result<_, _>>()?;
    print!("{}", story(fs::read(path)?, calibration, &steps)?);
    Ok(())
}
