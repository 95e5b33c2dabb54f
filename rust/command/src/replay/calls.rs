//! The calls that a line can be, and the words behind them.

use crate::slip::meant;

/// What a word behind a call is.
#[derive(Clone, Copy, PartialEq, Eq)]
pub enum Kind {
    /// Its name, or its index.
    Variable,
    /// A number for a register, or bits of an operation: 32 bits.
    Number,
    /// A number of 64 bits.
    Count,
    /// A count, or `all`.
    Amount,
    /// A value to write, with its sign; `true` and `false` are 1 and 0.
    Value,
    /// A double: decimal, or the 16 hexadecimal digits of its pattern.
    Double,
    Name,
}

/// The words that begin a call, those that follow, and how people write it. An opening has a number for each register.
pub const CALLS: [(&str, &[Kind], &str); 13] = [
    ("open", &[], "open N0 N1 .."),
    ("read", &[Kind::Variable], "read V"),
    ("write", &[Kind::Variable, Kind::Value], "write V VALUE"),
    ("confirm", &[Kind::Number], "confirm N"),
    ("abandon", &[], "abandon"),
    (
        "calibrated",
        &[Kind::Variable, Kind::Double, Kind::Double],
        "calibrated V GAIN OFFSET",
    ),
    ("lookup", &[Kind::Name], "lookup NAME"),
    ("state", &[], "state"),
    ("lend record", &[Kind::Amount], "lend record K"),
    ("lend marks", &[Kind::Amount], "lend marks K"),
    ("hold idle", &[], "hold idle"),
    (
        "hold read",
        &[Kind::Variable, Kind::Count, Kind::Number],
        "hold read V STEP GATHERED",
    ),
    (
        "hold write",
        &[Kind::Variable, Kind::Count, Kind::Number],
        "hold write V STEP VALUE",
    ),
];

/// The words of a line.
pub fn fields(line: &str) -> impl Iterator<Item = &str> {
    line.split([' ', '\t']).filter(|field| !field.is_empty())
}

/// A number without a sign, decimal or `0x..`.
pub fn natural(word: &str) -> Option<u64> {
    let (digits, radix) = match word.strip_prefix("0x") {
        Some(digits) => (digits, 16),
        None => (word, 10),
    };
    let is_digits = digits.chars().all(|c| c.is_digit(radix));
    is_digits.then(|| u64::from_str_radix(digits, radix).ok())?
}

fn value(word: &str) -> Option<i64> {
    match word {
        "true" => Some(1),
        "false" => Some(0),
        _ => match word.strip_prefix('-') {
            Some(rest) => 0i64.checked_sub_unsigned(natural(rest)?),
            None => i64::try_from(natural(word)?).ok(),
        },
    }
}

fn double(word: &str) -> Option<u64> {
    if word.len() == 16 && word.chars().all(|c| c.is_ascii_hexdigit()) {
        return u64::from_str_radix(word, 16).ok();
    }
    word.parse().ok().map(f64::to_bits)
}

impl Kind {
    /// The word as the framed form has it, or what is wrong with it.
    pub fn taken(self, word: &str) -> Result<String, String> {
        let small = |n: &u64| u32::try_from(*n).is_ok();
        let (taken, due) = match self {
            Kind::Variable | Kind::Name => return Ok(word.to_string()),
            Kind::Number => (
                natural(word).filter(small).map(|n| n.to_string()),
                "number of up to 32 bits",
            ),
            Kind::Count => (natural(word).map(|n| n.to_string()), "number"),
            Kind::Amount if word == "all" => return Ok(word.to_string()),
            Kind::Amount => (natural(word).map(|n| n.to_string()), "number, nor `all`"),
            Kind::Value => (value(word).map(|z| z.to_string()), "value"),
            Kind::Double => (double(word).map(|bits| format!("{bits:016X}")), "double"),
        };
        taken.ok_or_else(|| format!("`{word}` is no {due}"))
    }
}

/// The call that words begin, and the words behind it.
pub fn begun<'w, 'l>(words: &'w [&'l str]) -> Result<(usize, &'w [&'l str]), String> {
    for (at, (verb, ..)) in CALLS.iter().enumerate() {
        let length = fields(verb).count();
        let same = words.len() >= length && fields(verb).eq(words[..length].iter().copied());
        if same {
            return Ok((at, &words[length..]));
        }
    }
    let verb = words[0];
    let beginning = |word: &&str| fields(word).next() == Some(verb);
    let longer: Vec<&str> = CALLS
        .map(|(_, _, usage)| usage)
        .into_iter()
        .filter(beginning)
        .collect();
    if !longer.is_empty() {
        return Err(format!("it goes on otherwise: {}", longer.join(", or ")));
    }
    let verbs = CALLS.iter().filter_map(|(verb, ..)| fields(verb).next());
    Err(match verb {
        "piece" | "end" => {
            format!("`{verb}` is a call of scripts of pieces, which ./run arrivals plays")
        }
        "text" => "a framed script begins like this: desfanuk replay --framed plays it".to_string(),
        _ => format!("there is no call `{verb}`{}", meant(verb, verbs)),
    })
}

#[cfg(test)]
mod tests {
    use super::*;

    #[test]
    fn words_become_those_of_the_framed_form() {
        let taken = |kind: Kind, word| kind.taken(word).unwrap_or_else(|fault| fault);
        assert_eq!(taken(Kind::Number, "0xff"), "255");
        assert_eq!(
            taken(Kind::Number, "4294967296"),
            "`4294967296` is no number of up to 32 bits"
        );
        assert_eq!(
            taken(Kind::Number, "0x"),
            "`0x` is no number of up to 32 bits"
        );
        assert_eq!(
            taken(Kind::Number, "+1"),
            "`+1` is no number of up to 32 bits"
        );
        assert_eq!(taken(Kind::Value, "-0x10"), "-16");
        assert_eq!(
            taken(Kind::Value, "-9223372036854775808"),
            "-9223372036854775808"
        );
        assert_eq!(
            taken(Kind::Value, "9223372036854775808"),
            "`9223372036854775808` is no value"
        );
        assert_eq!(taken(Kind::Value, "true"), "1");
        assert_eq!(taken(Kind::Double, "0.5"), "3FE0000000000000");
        assert_eq!(taken(Kind::Double, "3fe0000000000000"), "3FE0000000000000");
        assert_eq!(taken(Kind::Double, "NaN"), "7FF8000000000000");
        assert_eq!(taken(Kind::Amount, "all"), "all");
    }
}
