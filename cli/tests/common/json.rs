//! A strict reader of JSON.

use std::ops::Index;

#[derive(Debug, PartialEq)]
pub enum Json {
    Null,
    Bool(bool),
    /// As it is written.
    Number(String),
    Text(String),
    Array(Vec<Json>),
    Object(Vec<(String, Json)>),
}

impl Json {
    /// The one value of a text that ends with a line end.
    pub fn read(text: &str) -> Json {
        let mut rest = text.strip_suffix('\n').expect("no line end");
        let value = value(&mut rest);
        assert_eq!(rest, "", "something behind the value");
        value
    }

    pub fn items(&self) -> &[Json] {
        let Json::Array(items) = self else { panic!("no array: {self:?}") };
        items
    }

    pub fn text(&self) -> &str {
        let Json::Text(text) = self else { panic!("no text: {self:?}") };
        text
    }

    pub fn number<T: std::str::FromStr>(&self) -> T {
        let Json::Number(digits) = self else { panic!("no number: {self:?}") };
        digits.parse().ok().expect("a number of another type")
    }

    pub fn keys(&self) -> Vec<&str> {
        let Json::Object(entries) = self else { panic!("no object: {self:?}") };
        entries.iter().map(|(key, _)| &**key).collect()
    }
}

impl Index<&str> for Json {
    type Output = Json;

    fn index(&self, name: &str) -> &Json {
        let Json::Object(entries) = self else { panic!("no object: {self:?}") };
        &entries.iter().find(|(key, _)| key == name).expect(name).1
    }
}

fn value(rest: &mut &str) -> Json {
    for (word, value) in [("null", Json::Null), ("true", Json::Bool(true)), ("false", Json::Bool(false))] {
        if took(rest, word) {
            return value;
        }
    }
    if took(rest, "[") {
        return Json::Array(list(rest, "]", value));
    }
    if took(rest, "{") {
        let entry = |rest: &mut &str| {
            let key = text(rest);
            assert!(took(rest, ":"), "{rest}");
            (key, value(rest))
        };
        return Json::Object(list(rest, "}", entry));
    }
    if rest.starts_with('"') {
        return Json::Text(text(rest));
    }
    Json::Number(number(rest))
}

fn took(rest: &mut &str, word: &str) -> bool {
    let behind = rest.strip_prefix(word);
    *rest = behind.unwrap_or(rest);
    behind.is_some()
}

fn list<T>(rest: &mut &str, end: &str, item: impl Fn(&mut &str) -> T) -> Vec<T> {
    let mut items = Vec::new();
    if took(rest, end) {
        return items;
    }
    loop {
        items.push(item(rest));
        if took(rest, end) {
            return items;
        }
        assert!(took(rest, ","), "{rest}");
    }
}

fn text(rest: &mut &str) -> String {
    assert!(took(rest, "\""), "{rest}");
    let mut text = String::new();
    while !took(rest, "\"") {
        let letter = next(rest);
        text.push(match letter {
            '\\' => escape(rest),
            letter => letter,
        });
        assert!(letter >= ' ', "a control character stands plain");
    }
    text
}

fn escape(rest: &mut &str) -> char {
    match next(rest) {
        'n' => '\n',
        'r' => '\r',
        't' => '\t',
        'u' => {
            let digits: String = (0..4).map(|_| next(rest)).collect();
            char::from_u32(u32::from_str_radix(&digits, 16).unwrap()).unwrap()
        }
        letter @ ('"' | '\\' | '/') => letter,
        letter => panic!("\\{letter}"),
    }
}

fn next(rest: &mut &str) -> char {
    let letter = rest.chars().next().expect("a text has no end");
    *rest = &rest[letter.len_utf8()..];
    letter
}

/// A number by JSON's own grammar.
fn number(rest: &mut &str) -> String {
    let all = *rest;
    took(rest, "-");
    let whole = digits(rest);
    assert!(whole == "0" || !whole.starts_with('0') && !whole.is_empty(), "{all}");
    if took(rest, ".") {
        assert!(!digits(rest).is_empty(), "{all}");
    }
    if took(rest, "e") || took(rest, "E") {
        let _ = took(rest, "+") || took(rest, "-");
        assert!(!digits(rest).is_empty(), "{all}");
    }
    all[..all.len() - rest.len()].to_string()
}

fn digits<'a>(rest: &mut &'a str) -> &'a str {
    let all = *rest;
    *rest = all.trim_start_matches(|letter: char| letter.is_ascii_digit());
    &all[..all.len() - rest.len()]
}
