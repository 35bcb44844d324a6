//! JSON (RFC 8259), as it is written.

use std::fmt::{self, Write};

pub enum Json {
    Null,
    Bool(bool),
    Number(u64),
    Text(String),
    List(Vec<Json>),
    Object(Vec<(&'static str, Json)>),
}

impl Json {
    pub fn text(text: impl ToString) -> Json {
        Json::Text(text.to_string())
    }

    pub fn list<T>(items: impl IntoIterator<Item = T>, each: impl FnMut(T) -> Json) -> Json {
        Json::List(items.into_iter().map(each).collect())
    }

    /// Null for none.
    pub fn maybe<T>(item: Option<T>, some: impl FnOnce(T) -> Json) -> Json {
        item.map_or(Json::Null, some)
    }

    fn is_nested(&self) -> bool {
        matches!(self, Json::List(_) | Json::Object(_))
    }

    fn write(&self, f: &mut fmt::Formatter, depth: usize) -> fmt::Result {
        match self {
            Json::Null => f.write_str("null"),
            Json::Bool(is) => write!(f, "{is}"),
            Json::Number(number) => write!(f, "{number}"),
            Json::Text(text) => write_text(f, text),
            Json::List(items) => write_list(f, items, depth),
            Json::Object(members) => write_object(f, members, depth),
        }
    }
}

impl fmt::Display for Json {
    fn fmt(&self, f: &mut fmt::Formatter) -> fmt::Result {
        self.write(f, 0)
    }
}

fn write_text(f: &mut fmt::Formatter, text: &str) -> fmt::Result {
    f.write_char('"')?;
    for c in text.chars() {
        match c {
            '"' | '\\' => write!(f, "\\{c}")?,
            '\n' => f.write_str("\\n")?,
            // Also those that a terminal obeys and JSON does not ask to escape.
            c if c.is_control() => write!(f, "\\u{:04x}", u32::from(c))?,
            c => f.write_char(c)?,
        }
    }
    f.write_char('"')
}

/// Numbers and words in one line, anything else a line each.
fn write_list(f: &mut fmt::Formatter, items: &[Json], depth: usize) -> fmt::Result {
    let in_lines = items.iter().any(Json::is_nested);
    f.write_char('[')?;
    for (index, item) in items.iter().enumerate() {
        match (index, in_lines) {
            (0, false) => {}
            (_, false) => f.write_str(", ")?,
            (_, true) => new_line(f, index, depth + 1)?,
        }
        item.write(f, depth + 1)?;
    }
    if in_lines {
        write!(f, "\n{:1$}", "", depth * 2)?;
    }
    f.write_char(']')
}

fn write_object(
    f: &mut fmt::Formatter,
    members: &[(&'static str, Json)],
    depth: usize,
) -> fmt::Result {
    f.write_char('{')?;
    for (index, (name, value)) in members.iter().enumerate() {
        new_line(f, index, depth + 1)?;
        write_text(f, name)?;
        f.write_str(": ")?;
        value.write(f, depth + 1)?;
    }
    if !members.is_empty() {
        write!(f, "\n{:1$}", "", depth * 2)?;
    }
    f.write_char('}')
}

fn new_line(f: &mut fmt::Formatter, index: usize, depth: usize) -> fmt::Result {
    let comma = if index == 0 { "" } else { "," };
    write!(f, "{comma}\n{:1$}", "", depth * 2)
}

#[cfg(test)]
mod tests {
    use super::*;

    #[test]
    fn every_kind_of_value() {
        let value = Json::Object(vec![
            ("none", Json::Null),
            ("is", Json::Bool(true)),
            ("numbers", Json::list([0, u64::MAX], Json::Number)),
            ("empty", Json::List(Vec::new())),
            (
                "things",
                Json::List(vec![
                    Json::Object(vec![("a", Json::Number(1))]),
                    Json::Object(Vec::new()),
                ]),
            ),
        ]);
        let expected = "{\n  \"none\": null,\n  \"is\": true,\n  \"numbers\": [0, \
                        18446744073709551615],\n  \"empty\": [],\n  \"things\": [\n    {\n      \
                        \"a\": 1\n    },\n    {}\n  ]\n}";
        assert_eq!(value.to_string(), expected);
    }

    #[test]
    fn text_is_escaped() {
        let text = "a\"b\\c\nd\te\u{1b}\u{7f}\u{9b}é\u{fffd}";
        assert_eq!(
            Json::text(text).to_string(),
            "\"a\\\"b\\\\c\\nd\\u0009e\\u001b\\u007f\\u009bé\u{fffd}\""
        );
    }
}
