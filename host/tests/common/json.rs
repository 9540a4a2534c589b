//! A reader of JSON that takes nothing but JSON.
use std::collections::BTreeMap;
use std::str::Chars;

#[derive(Clone, Debug, PartialEq)]
pub enum Json {
    Null,
    Bool(bool),
    Number(u64),
    Text(String),
    Array(Vec<Json>),
    Object(BTreeMap<String, Json>),
}

/// The value that a text is.
pub fn parse(text: &[u8]) -> Json {
    let text = std::str::from_utf8(text).expect("JSON is UTF-8");
    let mut rest = text.chars();
    let value = value(&mut rest);
    assert_eq!(rest.as_str().trim(), "", "one value, and nothing behind it");
    value
}

impl Json {
    pub fn at(&self, name: &str) -> &Json {
        self.get(name).unwrap_or_else(|| panic!("no {name} in {self:?}"))
    }
    pub fn get(&self, name: &str) -> Option<&Json> {
        match self {
            Json::Object(members) => members.get(name),
            _ => panic!("no object: {self:?}"),
        }
    }
    pub fn items(&self) -> &[Json] {
        match self {
            Json::Array(items) => items,
            _ => panic!("no array: {self:?}"),
        }
    }
    pub fn text(&self) -> &str {
        match self {
            Json::Text(text) => text,
            _ => panic!("no string: {self:?}"),
        }
    }
    pub fn number(&self) -> u64 {
        match self {
            Json::Number(number) => *number,
            _ => panic!("no number: {self:?}"),
        }
    }
    /// The bytes of a member that is a string, or one in hexadecimal.
    pub fn bytes(&self, name: &str) -> Vec<u8> {
        match (self.get(name), self.get(&format!("{name}_hex"))) {
            (Some(text), None) => text.text().as_bytes().into(),
            (None, Some(hex)) => hex
                .text()
                .as_bytes()
                .chunks(2)
                .map(|two| u8::from_str_radix(std::str::from_utf8(two).unwrap(), 16).unwrap())
                .collect(),
            _ => panic!("{name} or {name}_hex, not both: {self:?}"),
        }
    }
}

fn skip(rest: &mut Chars) {
    *rest = rest.as_str().trim_start_matches([' ', '\n', '\t', '\r']).chars();
}

fn taken(rest: &mut Chars, word: &str) -> bool {
    skip(rest);
    match rest.as_str().strip_prefix(word) {
        Some(behind) => {
            *rest = behind.chars();
            true
        }
        None => false,
    }
}

fn value(rest: &mut Chars) -> Json {
    for (word, value) in [("null", Json::Null), ("true", Json::Bool(true)), ("false", Json::Bool(false))] {
        if taken(rest, word) {
            return value;
        }
    }
    if taken(rest, "[") {
        return Json::Array(list(rest, "]", value));
    }
    if taken(rest, "{") {
        let members = list(rest, "}", |rest| {
            let name = string(rest);
            assert!(taken(rest, ":"), "a colon at {}", rest.as_str());
            (name, value(rest))
        });
        let count = members.len();
        let object: BTreeMap<String, Json> = members.into_iter().collect();
        assert_eq!(object.len(), count, "names differ");
        return Json::Object(object);
    }
    match rest.as_str().starts_with('"') {
        true => Json::Text(string(rest)),
        false => number(rest),
    }
}

fn list<T>(rest: &mut Chars, end: &str, item: impl Fn(&mut Chars) -> T) -> Vec<T> {
    let mut items = Vec::new();
    if taken(rest, end) {
        return items;
    }
    loop {
        items.push(item(rest));
        if taken(rest, end) {
            return items;
        }
        assert!(taken(rest, ","), "a comma at {}", rest.as_str());
    }
}

fn number(rest: &mut Chars) -> Json {
    let digits: String = rest.as_str().chars().take_while(char::is_ascii_digit).collect();
    assert!(digits == "0" || !digits.is_empty() && !digits.starts_with('0'), "a number at {}", rest.as_str());
    *rest = rest.as_str()[digits.len()..].chars();
    Json::Number(digits.parse().unwrap())
}

fn string(rest: &mut Chars) -> String {
    assert!(taken(rest, "\""), "a string at {}", rest.as_str());
    let mut text = String::new();
    loop {
        match rest.next().expect("the end of the string") {
            '"' => return text,
            '\\' => text.push(escaped(rest)),
            c if c < ' ' => panic!("a bare control character"),
            c => text.push(c),
        }
    }
}

fn escaped(rest: &mut Chars) -> char {
    match rest.next().unwrap() {
        'u' => {
            let digits: String = rest.take(4).collect();
            char::from_u32(u32::from_str_radix(&digits, 16).unwrap()).unwrap()
        }
        c if "\"\\/".contains(c) => c,
        c => "\u{8}\u{c}\n\r\t".chars().nth("bfnrt".find(c).expect("an escape of JSON")).unwrap(),
    }
}
