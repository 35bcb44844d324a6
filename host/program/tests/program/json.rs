//! A strict reader of JSON (RFC 8259), for what the program writes.

use std::collections::BTreeMap;
use std::iter::Peekable;
use std::str::Chars;

#[derive(Clone, Debug, PartialEq, Eq)]
pub enum Json {
    Null,
    Bool(bool),
    /// No other numbers are written.
    Number(u64),
    Text(String),
    List(Vec<Json>),
    Object(BTreeMap<String, Json>),
}

impl Json {
    /// The value of a text that is one value and nothing more.
    #[track_caller]
    pub fn read(text: &str) -> Json {
        let mut reader = Reader(text.chars().peekable());
        let value = reader.value();
        reader.blanks();
        assert_eq!(reader.0.next(), None, "something stands behind the value");
        value
    }

    /// The member at a path of names.
    #[track_caller]
    pub fn at(&self, path: &str) -> &Json {
        path.split('.').fold(self, |value, name| match value {
            Json::Object(members) => {
                members.get(name).unwrap_or_else(|| panic!("no {name} of {path}"))
            }
            Json::List(items) => &items[name.parse::<usize>().unwrap()],
            other => panic!("{other:?} has no {name} of {path}"),
        })
    }

    #[track_caller]
    pub fn list(&self) -> &[Json] {
        match self {
            Json::List(items) => items,
            other => panic!("no list: {other:?}"),
        }
    }

    #[track_caller]
    pub fn text(&self) -> &str {
        match self {
            Json::Text(text) => text,
            other => panic!("no text: {other:?}"),
        }
    }

    #[track_caller]
    pub fn number(&self) -> u64 {
        match self {
            Json::Number(number) => *number,
            other => panic!("no number: {other:?}"),
        }
    }
}

struct Reader<'a>(Peekable<Chars<'a>>);

impl Reader<'_> {
    fn blanks(&mut self) {
        while self.0.next_if(|c| matches!(c, ' ' | '\n' | '\r' | '\t')).is_some() {}
    }

    #[track_caller]
    fn expect(&mut self, text: &str) {
        text.chars().for_each(|c| assert_eq!(self.0.next(), Some(c), "in {text}"));
    }

    fn value(&mut self) -> Json {
        self.blanks();
        match *self.0.peek().expect("a value") {
            'n' => self.word("null", Json::Null),
            't' => self.word("true", Json::Bool(true)),
            'f' => self.word("false", Json::Bool(false)),
            '"' => Json::Text(self.string()),
            '[' => Json::List(self.items(']', Reader::value)),
            '{' => self.object(),
            _ => self.digits(),
        }
    }

    fn word(&mut self, text: &str, value: Json) -> Json {
        self.expect(text);
        value
    }

    fn digits(&mut self) -> Json {
        let mut digits = String::new();
        while let Some(c) = self.0.next_if(char::is_ascii_digit) {
            digits.push(c);
        }
        assert!(digits == "0" || !digits.starts_with('0'), "{digits}");
        Json::Number(digits.parse().unwrap_or_else(|_| panic!("{digits} is no number")))
    }

    fn object(&mut self) -> Json {
        let members = self.items('}', |reader| {
            reader.blanks();
            let name = reader.string();
            reader.blanks();
            reader.expect(":");
            (name, reader.value())
        });
        let count = members.len();
        let object: BTreeMap<_, _> = members.into_iter().collect();
        assert_eq!(object.len(), count, "a name stands twice");
        Json::Object(object)
    }

    /// From an opening sign to its end, with commas between.
    fn items<T>(&mut self, end: char, each: fn(&mut Self) -> T) -> Vec<T> {
        self.0.next();
        self.blanks();
        let mut items = Vec::new();
        while self.0.peek() != Some(&end) {
            if !items.is_empty() {
                self.expect(",");
            }
            items.push(each(self));
            self.blanks();
        }
        self.0.next();
        items
    }

    fn string(&mut self) -> String {
        self.expect("\"");
        let mut text = String::new();
        loop {
            match self.0.next().expect("a string ends") {
                '"' => return text,
                '\\' => text.push(self.escape()),
                c => {
                    assert!(c >= ' ', "{c:?} is not escaped");
                    text.push(c);
                }
            }
        }
    }

    fn escape(&mut self) -> char {
        match self.0.next().expect("an escape") {
            c @ ('"' | '\\' | '/') => c,
            'b' => '\u{8}',
            'f' => '\u{c}',
            'n' => '\n',
            'r' => '\r',
            't' => '\t',
            'u' => {
                let digits: String = self.0.by_ref().take(4).collect();
                char::from_u32(u32::from_str_radix(&digits, 16).unwrap()).expect("no surrogates")
            }
            other => panic!("\\{other} is no escape"),
        }
    }
}

#[test]
fn what_is_no_json_is_not_read() {
    for text in [
        "",
        "{",
        "[1,]",
        "[,1]",
        "01",
        "{\"a\":1,\"a\":2}",
        "\"\n\"",
        "\"\\x\"",
        "1 2",
        "nul",
        "[1 2]",
        "-1",
    ] {
        assert!(std::panic::catch_unwind(|| Json::read(text)).is_err(), "{text}");
    }
    let read = Json::read(" {\"a\": [1, {\"b\": null}, \"\\u001b\\n\"], \"c\": {}} ");
    assert_eq!(read.at("a.0").number(), 1);
    assert_eq!((read.at("a.1.b"), read.at("a.2").text()), (&Json::Null, "\u{1b}\n"));
}
