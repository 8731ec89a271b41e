//! A strict reading of JSON: one value and nothing behind it, no name twice, and no numbers
//! but whole ones without a sign.

use std::collections::BTreeMap;

use super::Value;

/// What is not yet read.
struct Rest<'a>(&'a str);

type Read<T> = Result<T, String>;

/// The value of a text.
pub fn parse(text: &str) -> Read<Value> {
    let mut rest = Rest(text);
    let value = rest.value()?;
    rest.skip_space();
    match rest.0 {
        "" => Ok(value),
        garbage => Err(format!("behind the value: {garbage:.20}")),
    }
}

impl Rest<'_> {
    fn skip_space(&mut self) {
        self.0 = self.0.trim_start_matches([' ', '\t', '\n', '\r']);
    }

    /// Takes a sign that has to come next.
    fn take(&mut self, sign: char) -> Read<()> {
        self.skip_space();
        match self.0.strip_prefix(sign) {
            Some(rest) => {
                self.0 = rest;
                Ok(())
            }
            None => Err(format!("{sign} is missing before {:.20}", self.0)),
        }
    }

    /// Takes a sign if it comes next.
    fn takes(&mut self, sign: char) -> bool {
        self.take(sign).is_ok()
    }

    fn value(&mut self) -> Read<Value> {
        self.skip_space();
        match self.0.chars().next() {
            Some('{') => self.object(),
            Some('[') => self.list(),
            Some('"') => Ok(Value::Text(self.text()?)),
            Some('0'..='9') => self.number(),
            _ => self.word(),
        }
    }

    fn word(&mut self) -> Read<Value> {
        let words = [
            ("null", Value::Null),
            ("true", Value::Bool(true)),
            ("false", Value::Bool(false)),
        ];
        for (word, value) in words {
            if let Some(rest) = self.0.strip_prefix(word) {
                self.0 = rest;
                return Ok(value);
            }
        }
        Err(format!("no value: {:.20}", self.0))
    }

    fn number(&mut self) -> Read<Value> {
        let is_digit = |sign: char| sign.is_ascii_digit();
        let rest = self.0.trim_start_matches(is_digit);
        let digits = &self.0[..self.0.len() - rest.len()];
        if rest.starts_with(['.', 'e', 'E']) {
            return Err(format!("no whole number: {:.20}", self.0));
        }
        if digits.len() > 1 && digits.starts_with('0') {
            return Err(format!("a zero before a number: {digits}"));
        }
        self.0 = rest;
        let number = digits.parse().map_err(|_| format!("too large: {digits}"))?;
        Ok(Value::Number(number))
    }

    fn list(&mut self) -> Read<Value> {
        self.take('[')?;
        let mut values = Vec::new();
        if self.takes(']') {
            return Ok(Value::List(values));
        }
        loop {
            values.push(self.value()?);
            if !self.takes(',') {
                break;
            }
        }
        self.take(']')?;
        Ok(Value::List(values))
    }

    fn object(&mut self) -> Read<Value> {
        self.take('{')?;
        let mut members = BTreeMap::new();
        if self.takes('}') {
            return Ok(Value::Object(members));
        }
        loop {
            self.skip_space();
            let name = self.text()?;
            self.take(':')?;
            let value = self.value()?;
            if members.insert(name.clone(), value).is_some() {
                return Err(format!("a name twice: {name}"));
            }
            if !self.takes(',') {
                break;
            }
        }
        self.take('}')?;
        Ok(Value::Object(members))
    }

    fn text(&mut self) -> Read<String> {
        let inside = self.0.strip_prefix('"');
        let inside = inside.ok_or_else(|| format!("no text: {:.20}", self.0))?;
        let mut text = String::new();
        let mut signs = inside.chars();
        loop {
            match signs.next() {
                Some('"') => break,
                Some('\\') => text.push(escaped(&mut signs)?),
                Some(sign) if sign >= ' ' => text.push(sign),
                _ => return Err(format!("a text without an end: {inside:.20}")),
            }
        }
        self.0 = signs.as_str();
        Ok(text)
    }
}

/// The sign behind a backslash. A half of a pair is none.
fn escaped(signs: &mut std::str::Chars) -> Read<char> {
    Ok(match signs.next() {
        Some(sign @ ('"' | '\\' | '/')) => sign,
        Some('b') => '\u{8}',
        Some('f') => '\u{c}',
        Some('n') => '\n',
        Some('r') => '\r',
        Some('t') => '\t',
        Some('u') => {
            let digits: Vec<u32> = signs.take(4).map_while(|sign| sign.to_digit(16)).collect();
            let code = digits.iter().fold(0, |code, digit| code * 16 + digit);
            let sign = char::from_u32(code).filter(|_| digits.len() == 4);
            sign.ok_or("no sign behind \\u")?
        }
        other => return Err(format!("behind a backslash: {other:?}")),
    })
}

#[test]
fn lawful_texts() {
    assert_eq!(parse(" null\n"), Ok(Value::Null));
    let text = r#"{"a": [0, 10, 4294967295], "b": {"\u0041\n": "\"x\\"}, "c": [], "d": {}}"#;
    let list = [0, 10, 4_294_967_295].map(Value::Number);
    let members = [
        ("a", Value::List(list.to_vec())),
        ("b", super::object(vec![("A\n", Value::from("\"x\\"))])),
        ("c", Value::List(Vec::new())),
        ("d", super::object(Vec::new())),
    ];
    assert_eq!(parse(text), Ok(super::object(members.to_vec())));
}

#[test]
fn unlawful_texts() {
    let texts = [
        "",
        "{",
        "[1",
        "[1,]",
        "{\"a\":1,}",
        "{\"a\":1,\"a\":1}",
        "1 2",
        "{} {}",
        "01",
        "-1",
        "1.0",
        "1e3",
        "nul",
        "{a:1}",
        "\"a",
        "\"\n\"",
        "\"\\x\"",
        "\"\\u12\"",
        "{\"a\" 1}",
        "[1 2]",
        "NaN",
        "{\"a\":1}}",
        "18446744073709551616",
    ];
    for text in texts {
        assert!(parse(text).is_err(), "{text}");
    }
}
