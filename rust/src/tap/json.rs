// SPDX-License-Identifier: Apache-2.0
//! Values of JSON: as they are written, and as far as a recording has them also read.
use std::fmt;

/// A value. Numbers are those that a recording has.
#[derive(Clone, Debug, PartialEq)]
pub(super) enum Json {
    Null,
    Bool(bool),
    Number(f64),
    Text(String),
    List(Vec<Json>),
    /// The names in their order.
    Object(Vec<(String, Json)>),
}

impl Json {
    pub(super) fn text(text: impl Into<String>) -> Json {
        Json::Text(text.into())
    }

    /// A number that is counted.
    pub(super) fn count(number: usize) -> Json {
        Json::Number(number as f64)
    }

    pub(super) fn object(fields: impl IntoIterator<Item = (&'static str, Json)>) -> Json {
        Json::Object(fields.into_iter().map(|(name, value)| (name.to_string(), value)).collect())
    }

    /// The value of this name.
    pub(super) fn get(&self, name: &str) -> Option<&Json> {
        match self {
            Json::Object(fields) => fields.iter().find(|(it, _)| it == name).map(|(_, value)| value),
            _ => None,
        }
    }

    pub(super) fn as_text(&self) -> Option<&str> {
        match self {
            Json::Text(text) => Some(text),
            _ => None,
        }
    }

    pub(super) fn as_number(&self) -> Option<f64> {
        match self {
            Json::Number(number) => Some(*number),
            _ => None,
        }
    }

    /// A number that counts something.
    pub(super) fn as_count(&self) -> Option<usize> {
        self.as_number().filter(|it| *it >= 0.0 && it.fract() == 0.0 && *it < 9e15).map(|it| it as usize)
    }

    pub(super) fn as_list(&self) -> Option<&[Json]> {
        match self {
            Json::List(values) => Some(values),
            _ => None,
        }
    }

    /// The value that this text is.
    pub(super) fn parse(text: &str) -> Option<Json> {
        let mut reader = Reader { rest: text };
        let value = reader.value(0)?;
        reader.skip_space();
        reader.rest.is_empty().then_some(value)
    }
}

impl fmt::Display for Json {
    fn fmt(&self, f: &mut fmt::Formatter<'_>) -> fmt::Result {
        match self {
            Json::Null => f.write_str("null"),
            Json::Bool(value) => write!(f, "{value}"),
            Json::Number(number) => write!(f, "{number}"),
            Json::Text(text) => write_text(f, text),
            Json::List(values) => write_all(f, "[", values, "]", |f, value| write!(f, "{value}")),
            Json::Object(fields) => write_all(f, "{", fields, "}", |f, (name, value)| {
                write_text(f, name)?;
                write!(f, ": {value}")
            }),
        }
    }
}

fn write_all<T>(
    f: &mut fmt::Formatter<'_>,
    first: &str,
    values: &[T],
    last: &str,
    write: impl Fn(&mut fmt::Formatter<'_>, &T) -> fmt::Result,
) -> fmt::Result {
    f.write_str(first)?;
    for (at, value) in values.iter().enumerate() {
        f.write_str(if at == 0 { "" } else { ", " })?;
        write(f, value)?;
    }
    f.write_str(last)
}

fn write_text(f: &mut fmt::Formatter<'_>, text: &str) -> fmt::Result {
    f.write_str("\"")?;
    for it in text.chars() {
        match it {
            '"' | '\\' => write!(f, "\\{it}")?,
            it if it.is_control() => write!(f, "\\u{:04x}", u32::from(it))?,
            it => write!(f, "{it}")?,
        }
    }
    f.write_str("\"")
}

/// How deep values may stand in one another.
const DEEPEST: usize = 16;

struct Reader<'a> {
    rest: &'a str,
}

impl Reader<'_> {
    fn skip_space(&mut self) {
        self.rest = self.rest.trim_start_matches([' ', '\t', '\n', '\r']);
    }

    /// Takes this, behind space.
    fn takes(&mut self, wanted: &str) -> Option<()> {
        self.skip_space();
        self.rest = self.rest.strip_prefix(wanted)?;
        Some(())
    }

    fn value(&mut self, depth: usize) -> Option<Json> {
        self.skip_space();
        match self.rest.chars().next().filter(|_| depth < DEEPEST)? {
            '{' => self.all("{", "}", |it| it.field(depth)).map(Json::Object),
            '[' => self.all("[", "]", |it| it.value(depth + 1)).map(Json::List),
            '"' => self.string().map(Json::Text),
            't' => self.takes("true").map(|()| Json::Bool(true)),
            'f' => self.takes("false").map(|()| Json::Bool(false)),
            'n' => self.takes("null").map(|()| Json::Null),
            _ => self.number(),
        }
    }

    fn field(&mut self, depth: usize) -> Option<(String, Json)> {
        let name = self.string()?;
        self.takes(":")?;
        Some((name, self.value(depth + 1)?))
    }

    /// Elements between these two, with commas.
    fn all<T>(&mut self, first: &str, last: &str, mut element: impl FnMut(&mut Self) -> Option<T>) -> Option<Vec<T>> {
        self.takes(first)?;
        let mut elements = Vec::new();
        if self.takes(last).is_some() {
            return Some(elements);
        }
        loop {
            elements.push(element(self)?);
            if self.takes(last).is_some() {
                return Some(elements);
            }
            self.takes(",")?;
        }
    }

    fn string(&mut self) -> Option<String> {
        self.takes("\"")?;
        let mut text = String::new();
        loop {
            let it = self.next_char()?;
            text.push(match it {
                '"' => return Some(text),
                '\\' => self.escaped()?,
                it => it,
            });
        }
    }

    fn next_char(&mut self) -> Option<char> {
        let mut rest = self.rest.chars();
        let it = rest.next();
        self.rest = rest.as_str();
        it
    }

    fn escaped(&mut self) -> Option<char> {
        match self.next_char()? {
            'n' => Some('\n'),
            't' => Some('\t'),
            'r' => Some('\r'),
            'b' => Some('\u{8}'),
            'f' => Some('\u{c}'),
            'u' => {
                let number = u32::from_str_radix(self.rest.get(..4)?, 16).ok()?;
                self.rest = &self.rest[4..];
                char::from_u32(number)
            }
            it => Some(it),
        }
    }

    fn number(&mut self) -> Option<Json> {
        let end = self.rest.find(|it: char| !it.is_ascii_digit() && !"+-.eE".contains(it)).unwrap_or(self.rest.len());
        let (number, rest) = self.rest.split_at(end);
        self.rest = rest;
        number.parse().ok().map(Json::Number)
    }
}

#[cfg(test)]
mod tests {
    use super::*;

    #[test]
    fn what_is_written_is_read() {
        let value = Json::object([
            ("t", Json::Number(0.3709)),
            ("way", Json::text("F>B")),
            ("odd", Json::text("a \"b\" \\ \n \u{e9}")),
            ("cuts", Json::List(vec![Json::count(12), Json::count(8)])),
            ("fds", Json::List(Vec::new())),
            ("short", Json::Bool(false)),
            ("none", Json::Null),
        ]);
        let text = value.to_string();
        assert_eq!(
            "{\"t\": 0.3709, \"way\": \"F>B\", \"odd\": \"a \\\"b\\\" \\\\ \\u000a \u{e9}\", \"cuts\": [12, 8], \"fds\": [], \
             \"short\": false, \"none\": null}",
            text
        );
        assert_eq!(Some(value), Json::parse(&text));
    }

    #[test]
    fn what_is_no_value_is_none() {
        for text in
            ["", "{", "{\"a\" 1}", "[1,]", "tru", "\"a", "1 2", "{\"a\": \"\\u00\"}", "-", "[[[[[[[[[[[[[[[[[1]]]]]]]]]]]]]]]]]"]
        {
            assert_eq!(None, Json::parse(text), "{text}");
        }
    }
}
