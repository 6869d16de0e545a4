//! JSON, as far as reports need it.

use std::fmt;
use std::path::Path;

#[derive(Default)]
pub enum Json {
    #[default]
    Null,
    Bool(bool),
    Number(i128),
    Text(String),
    List(Vec<Json>),
    Object(Vec<Field>),
}

/// A name and what stands under it.
pub type Field = (&'static str, Json);

/// Null for nothing.
impl<T: Into<Json>> From<Option<T>> for Json {
    fn from(value: Option<T>) -> Json {
        value.map_or(Json::Null, Into::into)
    }
}

impl From<bool> for Json {
    fn from(value: bool) -> Json {
        Json::Bool(value)
    }
}

impl From<u64> for Json {
    fn from(number: u64) -> Json {
        Json::Number(number.into())
    }
}

impl From<usize> for Json {
    fn from(number: usize) -> Json {
        Json::Number(number as i128)
    }
}

impl From<&Path> for Json {
    fn from(path: &Path) -> Json {
        Json::Text(path.display().to_string())
    }
}

impl From<&str> for Json {
    fn from(text: &str) -> Json {
        Json::Text(text.into())
    }
}

impl From<String> for Json {
    fn from(text: String) -> Json {
        Json::Text(text)
    }
}

impl fmt::Display for Json {
    fn fmt(&self, to: &mut fmt::Formatter) -> fmt::Result {
        match self {
            Json::Null => to.write_str("null"),
            Json::Bool(value) => write!(to, "{value}"),
            Json::Number(number) => write!(to, "{number}"),
            Json::Text(text) => quoted(text, to),
            Json::List(values) => {
                to.write_str("[")?;
                for (place, value) in values.iter().enumerate() {
                    write!(to, "{}{value}", if place > 0 { "," } else { "" })?;
                }
                to.write_str("]")
            }
            Json::Object(fields) => {
                to.write_str("{")?;
                for (place, (name, value)) in fields.iter().enumerate() {
                    write!(to, "{}\"{name}\":{value}", if place > 0 { "," } else { "" })?;
                }
                to.write_str("}")
            }
        }
    }
}

fn quoted(text: &str, to: &mut fmt::Formatter) -> fmt::Result {
    to.write_str("\"")?;
    for character in text.chars() {
        match character {
            '"' => to.write_str("\\\"")?,
            '\\' => to.write_str("\\\\")?,
            '\n' => to.write_str("\\n")?,
            control if control < ' ' || control == '\x7F' => write!(to, "\\u{:04x}", control as u32)?,
            other => write!(to, "{other}")?,
        }
    }
    to.write_str("\"")
}

#[cfg(test)]
mod tests {
    use super::*;

    #[test]
    fn values_are_written_as_json() {
        let value = Json::Object(vec![
            ("a", Json::List(vec![Json::Null, Json::Bool(true), Json::Number(-3)])),
            ("b", "x\"\\\n\x1B\u{e9}".into()),
        ]);
        assert_eq!(value.to_string(), "{\"a\":[null,true,-3],\"b\":\"x\\\"\\\\\\n\\u001b\u{e9}\"}");
    }
}
