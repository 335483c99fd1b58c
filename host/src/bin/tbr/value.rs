//! JSON, as far as the command line writes it.

use std::fmt;

/// A value.
pub enum Json {
    Null,
    Number(u64),
    Text(String),
    List(Vec<Json>),
    Object(Vec<(&'static str, Json)>),
}

impl From<u64> for Json {
    fn from(number: u64) -> Json {
        Json::Number(number)
    }
}

impl From<&str> for Json {
    fn from(text: &str) -> Json {
        Json::Text(text.to_string())
    }
}

impl<T: Into<Json>> From<Option<T>> for Json {
    fn from(value: Option<T>) -> Json {
        value.map_or(Json::Null, T::into)
    }
}

/// Quotes, backslashes and control characters cannot stand by themselves.
fn text(f: &mut fmt::Formatter, text: &str) -> fmt::Result {
    f.write_str("\"")?;
    for letter in text.chars() {
        match letter {
            '"' | '\\' => write!(f, "\\{letter}")?,
            letter if letter.is_control() => write!(f, "\\u{:04x}", u32::from(letter))?,
            letter => write!(f, "{letter}")?,
        }
    }
    f.write_str("\"")
}

/// Values with a comma between them.
fn list<T>(
    f: &mut fmt::Formatter,
    all: &[T],
    write: impl Fn(&mut fmt::Formatter, &T) -> fmt::Result,
) -> fmt::Result {
    for (i, one) in all.iter().enumerate() {
        f.write_str(if i == 0 { "" } else { ", " })?;
        write(f, one)?;
    }
    Ok(())
}

impl fmt::Display for Json {
    fn fmt(&self, f: &mut fmt::Formatter) -> fmt::Result {
        match self {
            Json::Null => f.write_str("null"),
            Json::Number(number) => write!(f, "{number}"),
            Json::Text(letters) => text(f, letters),
            Json::List(values) => {
                f.write_str("[")?;
                list(f, values, |f, value| write!(f, "{value}"))?;
                f.write_str("]")
            }
            Json::Object(fields) => {
                f.write_str("{")?;
                list(f, fields, |f, (name, value)| write!(f, "\"{name}\": {value}"))?;
                f.write_str("}")
            }
        }
    }
}
