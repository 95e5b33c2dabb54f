//! Readings in units: a numeric reading, times a gain, plus an offset, each step rounded once.

/// A gain and an offset, as the bit patterns of two doubles.
#[derive(Clone, Copy, Debug, PartialEq, Eq)]
pub struct Calibration {
    pub gain: u64,
    pub offset: u64,
}

impl Calibration {
    /// Whether gain and offset are both finite; else any reading is refused by 53.
    pub fn is_finite(&self) -> bool {
        f64::from_bits(self.gain).is_finite() && f64::from_bits(self.offset).is_finite()
    }

    /// The reading, taken exactly, times the gain, rounded once, plus the offset, rounded once: the result's pattern.
    /// None where product or sum is not finite (refusal 54).
    ///
    /// Readings have at most 32 bits and perhaps a sign, so that each is a double. The two steps are two operations:
    /// nothing in Rust fuses them.
    pub fn apply(&self, reading: i64) -> Option<u64> {
        let product = reading as f64 * f64::from_bits(self.gain);
        if !product.is_finite() {
            return None;
        }
        let sum = product + f64::from_bits(self.offset);
        sum.is_finite().then(|| sum.to_bits())
    }

    /// What the program `readings` writes for a reading.
    pub fn line(&self, reading: u32) -> String {
        if !self.is_finite() {
            return "refused 53".to_string();
        }
        match self.apply(i64::from(reading)) {
            Some(bits) => format!("{bits:016X}"),
            None => "refused 54".to_string(),
        }
    }
}

/// Bytes of a record: gain, offset and an unsigned reading of 32 bits, each low byte first.
pub const RECORD_BYTES: usize = 20;

/// The record of a calibration and a reading.
pub fn record(calibration: Calibration, reading: u32) -> [u8; RECORD_BYTES] {
    let mut bytes = [0; RECORD_BYTES];
    bytes[..8].copy_from_slice(&calibration.gain.to_le_bytes());
    bytes[8..16].copy_from_slice(&calibration.offset.to_le_bytes());
    bytes[16..].copy_from_slice(&reading.to_le_bytes());
    bytes
}

/// A line for each whole record of an input; bytes behind the last are ignored.
pub fn readings(input: &[u8]) -> Vec<String> {
    let number = |bytes: &[u8]| {
        let low_first = bytes.iter().rev();
        low_first.fold(0, |number, byte| number << 8 | u64::from(*byte))
    };
    input
        .chunks_exact(RECORD_BYTES)
        .map(|record| {
            let calibration = Calibration {
                gain: number(&record[..8]),
                offset: number(&record[8..16]),
            };
            calibration.line(number(&record[16..]) as u32)
        })
        .collect()
}

#[cfg(test)]
mod tests {
    use super::*;

    fn of(gain: f64, offset: f64) -> Calibration {
        Calibration {
            gain: gain.to_bits(),
            offset: offset.to_bits(),
        }
    }

    /// Gain 1 and offset 0 give exactly the reading, and so does gain 0 with the reading for an offset.
    #[test]
    fn exactly_the_reading() {
        for bits in 0..=32 {
            for reading in [(1i64 << bits) - 1, 1 << bits, -(1 << bits), 1 - (1 << bits)] {
                let want = Some((reading as f64).to_bits());
                assert_eq!(of(1.0, 0.0).apply(reading), want, "{reading}");
                if reading != 0 {
                    assert_eq!(of(0.0, reading as f64).apply(reading), want, "{reading}");
                }
            }
        }
    }

    #[test]
    fn signed_zeros() {
        for (gain, offset, want) in [
            (1.0, 0.0, 0.0),
            (-1.0, 0.0, 0.0),
            (-1.0, -0.0, -0.0),
            (1.0, -0.0, 0.0),
            (-0.0, 0.0, 0.0),
            (-0.0, -0.0, -0.0),
        ] {
            assert_eq!(of(gain, offset).apply(0), Some(f64::to_bits(want)));
        }
        assert_eq!(of(-0.0, -0.0).apply(-5), Some(0));
        assert_eq!(of(0.0, -0.0).apply(-5), Some(f64::to_bits(-0.0)));
        assert_eq!(of(1.0, -5.0).apply(5), Some(0));
    }

    #[test]
    fn what_is_refused() {
        for bad in [
            f64::INFINITY,
            f64::NEG_INFINITY,
            f64::NAN,
            f64::from_bits(0x7FF0_0000_0000_0001),
            f64::from_bits(u64::MAX),
        ] {
            assert_eq!(of(bad, 0.0).line(0), "refused 53");
            assert_eq!(of(0.0, bad).line(0), "refused 53");
        }
        assert_eq!(of(f64::MAX, -f64::MAX).line(2), "refused 54");
        assert_eq!(of(f64::MAX, f64::MAX).line(1), "refused 54");
        assert_eq!(of(f64::MAX, f64::MAX).line(0), "7FEFFFFFFFFFFFFF");
    }

    #[test]
    fn records() {
        let bytes = record(of(2.0, -1.0), 0x8000_0001);
        let want = [
            0, 0, 0, 0, 0, 0, 0, 0x40, 0, 0, 0, 0, 0, 0, 0xF0, 0xBF, 1, 0, 0, 0x80,
        ];
        assert_eq!(bytes, want);
        let line = format!("{:016X}", 4_294_967_297f64.to_bits());
        for behind in 0..RECORD_BYTES {
            let input = [&bytes[..], &bytes[..behind]].concat();
            assert_eq!(readings(&input), [line.as_str()]);
            assert!(readings(&bytes[..behind]).is_empty());
        }
    }
}
