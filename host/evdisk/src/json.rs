//! Answers for scripts, as JSON.

use event_disk::{Piece, Read};
use std::fmt;

/// A value of JSON.
pub enum Json {
    Number(u64),
    Truth(bool),
    Text(String),
    List(Vec<Json>),
    Object(Vec<(&'static str, Json)>),
}

impl Json {
    /// A number.
    pub fn number(number: impl Into<u64>) -> Json {
        Json::Number(number.into())
    }

    /// The list of pieces.
    pub fn pieces(pieces: &[Piece]) -> Json {
        let piece =
            |p: &Piece| Json::Object(vec![("first", Json::number(p.first)), ("length", Json::number(p.length))]);
        Json::List(pieces.iter().map(piece).collect())
    }

    /// The list of reads: the blocks of each.
    pub fn reads(reads: &[Read]) -> Json {
        Json::pieces(&reads.iter().map(Read::blocks).collect::<Vec<_>>())
    }
}

impl fmt::Display for Json {
    fn fmt(&self, f: &mut fmt::Formatter<'_>) -> fmt::Result {
        match self {
            Json::Number(number) => write!(f, "{number}"),
            Json::Truth(truth) => write!(f, "{truth}"),
            Json::Text(text) => write_text(f, text),
            Json::List(values) => {
                f.write_str("[")?;
                for (i, value) in values.iter().enumerate() {
                    write!(f, "{}{value}", comma(i))?;
                }
                f.write_str("]")
            }
            Json::Object(fields) => {
                f.write_str("{")?;
                for (i, (name, value)) in fields.iter().enumerate() {
                    write!(f, "{}\"{name}\":{value}", comma(i))?;
                }
                f.write_str("}")
            }
        }
    }
}

/// What stands before the value of this number in a list.
fn comma(i: usize) -> &'static str {
    match i {
        0 => "",
        _ => ",",
    }
}

fn write_text(f: &mut fmt::Formatter<'_>, text: &str) -> fmt::Result {
    f.write_str("\"")?;
    for letter in text.chars() {
        match letter {
            '"' | '\\' => write!(f, "\\{letter}")?,
            control if control < ' ' => write!(f, "\\u{:04x}", u32::from(control))?,
            other => write!(f, "{other}")?,
        }
    }
    f.write_str("\"")
}

#[cfg(test)]
mod tests {
    use super::*;

    #[test]
    fn values_are_written_as_json() {
        let pieces = Json::pieces(&[Piece { first: 0, length: 4 }, Piece { first: 6, length: 1 }]);
        let value = Json::Object(vec![("free", Json::number(5u64)), ("pieces", pieces), ("none", Json::List(vec![]))]);
        let text = r#"{"free":5,"pieces":[{"first":0,"length":4},{"first":6,"length":1}],"none":[]}"#;
        assert_eq!(value.to_string(), text);
        assert_eq!(Json::List([true, false].map(Json::Truth).into()).to_string(), "[true,false]");
    }

    #[test]
    fn a_read_has_the_blocks_of_its_pieces() {
        let read = |first, lengths: &[u32]| Read { first, lengths: lengths.to_vec() };
        let text = r#"[{"first":8,"length":7},{"first":3,"length":2}]"#;
        assert_eq!(Json::reads(&[read(8, &[4, 2, 1]), read(3, &[2])]).to_string(), text);
    }

    #[test]
    fn letters_that_json_keeps_for_itself_are_escaped() {
        let text = Json::Text("a\"b\\c\nd\u{e9}".to_string());
        assert_eq!(text.to_string(), "\"a\\\"b\\\\c\\u000ad\u{e9}\"");
    }
}
