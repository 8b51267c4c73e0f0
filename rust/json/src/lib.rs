//! JSON values, and how they are written: on one line, without blanks. The command and the bench write theirs by it.
//!
//! ```
//! use json::Value;
//!
//! let answer = Value::Object(vec![("count", Value::Number(2)), ("word", Value::numbers(&[0u8, 1]))]);
//! assert_eq!(answer.to_string(), r#"{"count":2,"word":[0,1]}"#);
//! ```

#![forbid(unsafe_code)]
#![deny(missing_docs)]

use std::fmt;

/// A JSON value.
#[derive(Clone, Debug, PartialEq)]
pub enum Value {
    /// `null`.
    Null,
    /// `true` or `false`.
    Truth(bool),
    /// A whole number that is not negative.
    Number(u64),
    /// A number with so many digits behind the point. One that is not finite is written as `null`, since JSON has no such numbers.
    Decimal(f64, usize),
    /// A string.
    Text(String),
    /// A list.
    List(Vec<Value>),
    /// An object, its fields in this order.
    Object(Vec<(&'static str, Value)>),
}

impl Value {
    /// A list of numbers.
    pub fn numbers<N: Copy + Into<u64>>(numbers: &[N]) -> Value {
        Value::List(numbers.iter().map(|&number| Value::Number(number.into())).collect())
    }
}

impl fmt::Display for Value {
    fn fmt(&self, f: &mut fmt::Formatter<'_>) -> fmt::Result {
        match self {
            Value::Null => f.write_str("null"),
            Value::Truth(truth) => write!(f, "{truth}"),
            Value::Number(number) => write!(f, "{number}"),
            Value::Decimal(number, places) if number.is_finite() => write!(f, "{number:.places$}"),
            Value::Decimal(..) => f.write_str("null"),
            Value::Text(text) => write_text(f, text),
            Value::List(values) => {
                separated(f, "[", values, |f, value| write!(f, "{value}"))?;
                f.write_str("]")
            }
            Value::Object(fields) => {
                separated(f, "{", fields, |f, (name, value)| write!(f, "\"{name}\":{value}"))?;
                f.write_str("}")
            }
        }
    }
}

/// Writes the items with commas between them, after an opening bracket.
fn separated<T>(
    f: &mut fmt::Formatter<'_>,
    open: &str,
    items: &[T],
    write: impl Fn(&mut fmt::Formatter<'_>, &T) -> fmt::Result,
) -> fmt::Result {
    f.write_str(open)?;
    for (place, item) in items.iter().enumerate() {
        f.write_str(if place == 0 { "" } else { "," })?;
        write(f, item)?;
    }
    Ok(())
}

/// Writes a string with its quotes; quotes, backslashes and control characters are escaped.
fn write_text(f: &mut fmt::Formatter<'_>, text: &str) -> fmt::Result {
    f.write_str("\"")?;
    for character in text.chars() {
        match character {
            '"' => f.write_str("\\\"")?,
            '\\' => f.write_str("\\\\")?,
            '\n' => f.write_str("\\n")?,
            control if control < ' ' => write!(f, "\\u{:04x}", u32::from(control))?,
            other => write!(f, "{other}")?,
        }
    }
    f.write_str("\"")
}

#[cfg(test)]
mod tests {
    use super::Value;

    fn writes(value: Value, text: &str) {
        assert_eq!(value.to_string(), text);
    }

    #[test]
    fn numbers_are_digits_with_a_point_where_they_have_one() {
        writes(Value::Number(u64::MAX), "18446744073709551615");
        writes(Value::Decimal(0.05, 1), "0.1");
        writes(Value::Decimal(-2.0, 3), "-2.000");
        writes(Value::Decimal(1e21, 0), "1000000000000000000000");
        for number in [f64::NAN, f64::INFINITY, f64::NEG_INFINITY] {
            writes(Value::Decimal(number, 2), "null");
        }
    }

    #[test]
    fn strings_have_no_bare_quote_backslash_or_control_character() {
        let text = "a\"b\\c\nd\te\u{1}é";
        writes(Value::Text(text.into()), r#""a\"b\\c\nd\u0009e\u0001é""#);
    }

    #[test]
    fn lists_and_objects_have_commas_between_their_items_alone() {
        writes(Value::List(Vec::new()), "[]");
        writes(Value::Object(Vec::new()), "{}");
        let nested = Value::List(vec![Value::Null, Value::numbers(&[1u8, 2]), Value::Truth(true)]);
        let fields = vec![("a", nested), ("b", Value::Text(String::new()))];
        writes(Value::Object(fields), r#"{"a":[null,[1,2],true],"b":""}"#);
    }
}
