//! The value of an offset, or why it has none.

use super::scan::{Token, What};

pub const DIVIDES: &str = "an offset divides by zero";
pub const LEAVES: &str = "an offset leaves the range of 32 bits";

/// The value of the expression that some tokens begin with.
pub fn value(tokens: &[Token<'_>]) -> Result<i64, &'static str> {
    Reader { rest: tokens }.sum()
}

struct Reader<'a, 't> {
    rest: &'a [Token<'t>],
}

impl Reader<'_, '_> {
    /// Takes a sign that is one of these.
    fn taken(&mut self, signs: &[&'static str]) -> Option<&'static str> {
        let next = self.rest.first()?;
        let sign = signs.iter().find(|sign| next.is(sign))?;
        self.rest = &self.rest[1..];
        Some(sign)
    }

    fn sum(&mut self) -> Result<i64, &'static str> {
        let mut value = self.product()?;
        while let Some(sign) = self.taken(&["+", "-"]) {
            let right = self.product()?;
            value = within(if sign == "+" {
                value + right
            } else {
                value - right
            })?;
        }
        Ok(value)
    }

    fn product(&mut self) -> Result<i64, &'static str> {
        let mut value = self.factor()?;
        while let Some(sign) = self.taken(&["*", "/", "%"]) {
            let right = self.factor()?;
            value = within(match sign {
                "*" => value * right,
                _ if right == 0 => return Err(DIVIDES),
                "/" => value / right,
                _ => value % right,
            })?;
        }
        Ok(value)
    }

    fn factor(&mut self) -> Result<i64, &'static str> {
        if self.taken(&["-"]).is_some() {
            return within(-self.factor()?);
        }
        if self.taken(&["("]).is_some() {
            let value = self.sum()?;
            self.taken(&[")"]);
            return Ok(value);
        }
        let first = self.rest.first().map(|token| token.what);
        self.rest = self.rest.get(1..).unwrap_or_default();
        match first {
            Some(What::Number(number)) => within(number),
            _ => Ok(0),
        }
    }
}

fn within(value: i64) -> Result<i64, &'static str> {
    i32::try_from(value).map(i64::from).map_err(|_| LEAVES)
}
