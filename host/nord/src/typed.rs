//! Numbers as the user has typed them.

use std::fmt;
use std::str::FromStr;

/// A number of decimal digits. One that is too large for the library's own numbers becomes their largest, which it refuses; it is told as it was
/// typed.
#[derive(Clone, Debug, PartialEq, Eq)]
pub struct Number {
    pub value: u32,
    typed: String,
}

impl FromStr for Number {
    type Err = String;

    fn from_str(text: &str) -> Result<Number, String> {
        match text.bytes().all(|byte| byte.is_ascii_digit()) && !text.is_empty() {
            true => Ok(Number {
                value: text.parse().unwrap_or(u32::MAX),
                typed: text.to_string(),
            }),
            false => Err("a number of decimal digits is wanted".to_string()),
        }
    }
}

impl From<u32> for Number {
    fn from(value: u32) -> Number {
        Number {
            value,
            typed: value.to_string(),
        }
    }
}

impl fmt::Display for Number {
    fn fmt(&self, out: &mut fmt::Formatter) -> fmt::Result {
        out.write_str(&self.typed)
    }
}

impl Number {
    /// So many pages, in words.
    pub fn pages(&self) -> String {
        match self.value {
            1 => "1 page".to_string(),
            _ => format!("{self} pages"),
        }
    }
}

#[cfg(test)]
mod tests {
    use super::Number;

    #[test]
    fn a_number_is_repeated_as_typed() {
        let large: Number = "5000000000".parse().unwrap();
        assert_eq!((large.value, large.to_string().as_str()), (u32::MAX, "5000000000"));
        assert_eq!(large.pages(), "5000000000 pages");
        assert_eq!("1".parse::<Number>().unwrap().pages(), "1 page");
        assert!(["", "-3", "five", "3.0"].iter().all(|text| text.parse::<Number>().is_err()));
    }
}
