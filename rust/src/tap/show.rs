// SPDX-License-Identifier: Apache-2.0
//! How an event is shown: a line of text, or of JSON.
use super::event::{Event, Message, Way, What, TO_FRONTEND};
use super::finding::{Finding, Kind};
use super::json::Json;
use super::layout::{fd_name, fields_of, flag_names, name_of, Fields, Value};
use super::options::Format;
use super::recording::{hex_of, time_of};

/// Shows events, each by a line.
pub(super) struct Shower {
    pub(super) format: Format,
    pub(super) shows_bytes: bool,
}

impl Shower {
    /// The line of an event. With its bytes it is two, unless it is JSON.
    pub(super) fn event(&self, event: &Event) -> String {
        match self.format {
            Format::Json => self.json(event).to_string(),
            Format::Text => self.text(event),
        }
    }

    /// The line of what is found of the event before it: behind '!' what is wrong, behind '~' what is not.
    pub(super) fn finding(&self, event: &Event, finding: &Finding) -> String {
        let key = match finding.kind {
            Kind::Wrong => "complaint",
            Kind::Unanswered => "unanswered",
            Kind::Taken => "taken",
        };
        match self.format {
            Format::Json => {
                let mut fields = head(event);
                fields.push((key, Json::text(&finding.text)));
                Json::object(fields).to_string()
            }
            Format::Text => format!("{} {}", mark(finding.kind), finding.text),
        }
    }

    fn text(&self, event: &Event) -> String {
        let way = way_of(&event.what).map_or_else(String::new, |way| format!("{way} "));
        let bytes = match &event.what {
            What::Bytes(_, bytes) | What::Message(_, Message { bytes, .. }) => self.bytes_text(bytes),
            _ => String::new(),
        };
        format!("{:9.4} {} {way}{}{bytes}", event.time, event.session, told(&event.what))
    }

    fn bytes_text(&self, bytes: &[u8]) -> String {
        if !self.shows_bytes {
            return String::new();
        }
        let words: Vec<String> = bytes.chunks(4).map(hex_of).collect();
        format!("\n          {}", words.join(" "))
    }

    fn json(&self, event: &Event) -> Json {
        let mut fields = head(event);
        match &event.what {
            What::Connected(result) => {
                fields.push(("connect", Json::text(result.as_ref().map_or_else(String::as_str, |()| "ok"))));
            }
            What::Ended(_, cause) => fields.push(("end", Json::text(cause.as_deref().unwrap_or("eof")))),
            What::Waits(seconds, name) => {
                fields.extend([("waiting", Json::Number(f64::from(*seconds))), ("name", Json::text(name))]);
            }
            What::Left => fields.push(("left", Json::Bool(true))),
            What::Bytes(_, bytes) => fields.extend([("raw", Json::text(hex_of(bytes)))]),
            What::Message(way, message) => fields.extend(self.message_json(*way, message)),
        }
        Json::object(fields)
    }

    fn message_json(&self, way: Way, message: &Message) -> Vec<(&'static str, Json)> {
        let names = |names: Vec<String>| Json::List(names.into_iter().map(Json::Text).collect());
        let mut fields = vec![
            ("name", Json::text(name_of(way, message))),
            ("code", Json::Number(f64::from(message.code()))),
            ("flags", names(flag_names(message))),
            ("size", Json::count(message.size())),
            ("fields", fields_json(&fields_of(way, message))),
            ("fds", names(message.fds.iter().map(|fd| fd_name(fd).to_string()).collect())),
        ];
        fields.extend(message.is_short.then_some(("short", Json::Bool(true))));
        fields.extend(self.shows_bytes.then(|| ("bytes", Json::text(hex_of(&message.bytes)))));
        fields
    }
}

/// What a line of what is found begins with.
pub(super) fn mark(kind: Kind) -> char {
    match kind {
        Kind::Wrong => '!',
        Kind::Unanswered | Kind::Taken => '~',
    }
}

/// What happened, in words.
pub(super) fn told(what: &What) -> String {
    match what {
        What::Connected(Ok(())) => "connected".to_string(),
        What::Connected(Err(cause)) => format!("not connected: {cause}"),
        What::Ended(_, None) => "end".to_string(),
        What::Ended(_, Some(cause)) => format!("end: {cause}"),
        What::Waits(seconds, name) => format!("waiting {seconds} s for the reply to {name}"),
        What::Left => "no more was seen".to_string(),
        What::Bytes(_, bytes) => format!("{} bytes", bytes.len()),
        What::Message(way, message) => message_text(*way, message),
    }
}

/// The way that an event is about, if it is about one.
pub(super) fn way_of(what: &What) -> Option<Way> {
    match what {
        What::Connected(_) | What::Left => None,
        What::Waits(..) => Some(TO_FRONTEND),
        What::Message(way, _) | What::Bytes(way, _) | What::Ended(way, _) => Some(*way),
    }
}

/// What each line of JSON begins with.
fn head(event: &Event) -> Vec<(&'static str, Json)> {
    let way = way_of(&event.what).map(|way| ("way", Json::text(way.to_string())));
    let mut fields = vec![("t", time_of(event.time)), ("session", Json::Number(event.session as f64))];
    fields.extend(way);
    fields
}

/// What a message asks, or replies to. One that ends in its header has no name.
pub(super) fn title_of(way: Way, message: &Message) -> String {
    if message.bytes.len() < super::event::HEADER {
        return "a part of a header".to_string();
    }
    name_of(way, message)
}

fn message_text(way: Way, message: &Message) -> String {
    let mut text = title_of(way, message);
    let flags = flag_names(message);
    if !flags.is_empty() {
        text += &format!(" [{}]", flags.join(" "));
    }
    text += &fields_text(&fields_of(way, message));
    if !message.fds.is_empty() {
        let fds: Vec<&str> = message.fds.iter().map(|fd| fd_name(fd)).collect();
        // (a peer names what it made: a line's end would begin a line of its own, as of a complaint)
        text += &format!(" fds={}", fds.join(",").replace(char::is_control, "?"));
    }
    if message.is_short {
        text += &format!(" {}", cut_text(message));
    }
    text
}

/// What is said of a message that did not come whole.
pub(super) fn cut_text(message: &Message) -> String {
    format!("(cut short: {} bytes)", message.bytes.len())
}

/// Fields, each behind a space.
pub(super) fn fields_text(fields: &Fields) -> String {
    fields.iter().map(|(name, value)| format!(" {}", field_text(name, value))).collect()
}

fn field_text(name: &str, value: &Value) -> String {
    match value {
        Value::Records(records) => record_texts(records).join(" "),
        value => format!("{name}={}", value_text(value)),
    }
}

/// Each record, between brackets.
pub(super) fn record_texts(records: &[Fields]) -> Vec<String> {
    records.iter().map(|fields| format!("[{}]", fields_text(fields).trim_start())).collect()
}

/// A value without its name.
pub(super) fn value_text(value: &Value) -> String {
    match value {
        Value::Number(number) => number.to_string(),
        Value::Address(number) => format!("{number:#x}"),
        Value::Word(word) => word.clone(),
        Value::Bits(bits, names) => format!("{bits:#x}({})", names.join("|")),
        Value::Bytes(bytes) => hex_of(bytes),
        Value::Records(records) => record_texts(records).join(" "),
    }
}

fn fields_json(fields: &Fields) -> Json {
    Json::Object(fields.iter().map(|(name, value)| (name.to_string(), value_json(value))).collect())
}

/// Numbers that may be great are texts, since many programs read a number of JSON inexactly.
fn value_json(value: &Value) -> Json {
    match value {
        Value::Number(number) if *number < 1 << 53 => Json::Number(*number as f64),
        Value::Number(number) | Value::Address(number) => Json::text(format!("{number:#x}")),
        Value::Word(word) => Json::text(word),
        Value::Bits(bits, names) => Json::object([
            ("bits", Json::text(format!("{bits:#x}"))),
            ("names", Json::List(names.iter().map(Json::text).collect())),
        ]),
        Value::Bytes(bytes) => Json::text(hex_of(bytes)),
        Value::Records(records) => Json::List(records.iter().map(fields_json).collect()),
    }
}
