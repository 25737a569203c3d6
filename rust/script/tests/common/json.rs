//! JSON, read as strictly as a browser reads it.

use std::collections::BTreeMap;

#[derive(Clone, Debug, PartialEq)]
pub enum Json {
    Null,
    Bool(bool),
    Number(f64),
    String(String),
    Array(Vec<Json>),
    Object(BTreeMap<String, Json>),
}

impl Json {
    /// Reads a whole text; what is wrong with it is a panic, for this is of tests.
    pub fn read(text: &str) -> Json {
        let letters: Vec<char> = text.chars().collect();
        let mut reader = Reader { letters, at: 0 };
        let value = reader.value();
        reader.space();
        assert_eq!(reader.at, reader.letters.len(), "more than one value");
        value
    }

    #[track_caller]
    pub fn text(&self) -> &str {
        match self {
            Json::String(text) => text,
            other => panic!("no string: {other:?}"),
        }
    }

    #[track_caller]
    pub fn number(&self) -> usize {
        match self {
            Json::Number(number) => *number as usize,
            other => panic!("no number: {other:?}"),
        }
    }

    #[track_caller]
    pub fn array(&self) -> &[Json] {
        match self {
            Json::Array(values) => values,
            other => panic!("no array: {other:?}"),
        }
    }

    #[track_caller]
    pub fn object(&self) -> &BTreeMap<String, Json> {
        match self {
            Json::Object(parts) => parts,
            other => panic!("no object: {other:?}"),
        }
    }
}

struct Reader {
    letters: Vec<char>,
    at: usize,
}

impl Reader {
    fn peek(&self) -> char {
        self.letters.get(self.at).copied().unwrap_or('\0')
    }

    fn next(&mut self) -> char {
        let letter = self.peek();
        self.at += 1;
        letter
    }

    fn space(&mut self) {
        while [' ', '\n', '\r', '\t'].contains(&self.peek()) {
            self.at += 1;
        }
    }

    fn expect(&mut self, text: &str, value: Json) -> Json {
        for letter in text.chars() {
            assert_eq!(self.next(), letter, "{text} at {}", self.at);
        }
        value
    }

    fn value(&mut self) -> Json {
        self.space();
        match self.peek() {
            'n' => self.expect("null", Json::Null),
            't' => self.expect("true", Json::Bool(true)),
            'f' => self.expect("false", Json::Bool(false)),
            '"' => Json::String(self.string()),
            '[' => Json::Array(self.list(']', Reader::value)),
            '{' => Json::Object(self.list('}', Reader::pair).into_iter().collect()),
            _ => self.digits(),
        }
    }

    fn digits(&mut self) -> Json {
        let begin = self.at;
        while self.peek().is_ascii_digit() {
            self.at += 1;
        }
        let text: String = self.letters[begin..self.at].iter().collect();
        Json::Number(
            text.parse()
                .unwrap_or_else(|_| panic!("no value at {begin}")),
        )
    }

    fn pair(&mut self) -> (String, Json) {
        self.space();
        let name = self.string();
        self.space();
        assert_eq!(self.next(), ':');
        (name, self.value())
    }

    /// Values between brackets, parted by commas.
    fn list<T>(&mut self, end: char, one: fn(&mut Reader) -> T) -> Vec<T> {
        let mut values = Vec::new();
        self.at += 1;
        self.space();
        if self.peek() == end {
            self.at += 1;
            return values;
        }
        loop {
            values.push(one(self));
            self.space();
            match self.next() {
                ',' => {}
                letter if letter == end => return values,
                other => panic!("{other} at {}", self.at),
            }
        }
    }

    fn string(&mut self) -> String {
        assert_eq!(self.next(), '"');
        let mut text = String::new();
        loop {
            match self.next() {
                '"' => return text,
                '\\' => text.push(self.escape()),
                letter => {
                    assert!(letter >= ' ', "a control character in a string");
                    text.push(letter);
                }
            }
        }
    }

    fn escape(&mut self) -> char {
        match self.next() {
            'u' => {
                let digits: String = (0..4).map(|_| self.next()).collect();
                let number = u32::from_str_radix(&digits, 16).expect("four digits");
                char::from_u32(number).expect("a letter")
            }
            letter => {
                assert!(['"', '\\'].contains(&letter), "{letter}");
                letter
            }
        }
    }
}
