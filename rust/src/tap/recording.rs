// SPDX-License-Identifier: Apache-2.0
//! Recordings: what happened, a line of JSON each.
use super::event::{u32_at, Event, Message, Way, What};
use super::json::Json;

/// How a line without a way says so.
const NO_WAY: &str = "-";
/// How a stream ended that did not fail.
const END: &str = "eof";

/// The line of an event.
pub(super) fn line_of(event: &Event) -> String {
    let mut fields = vec![("t", time_of(event.time)), ("session", Json::Number(event.session as f64))];
    match &event.what {
        What::Connected(result) => {
            let text = result.as_ref().map_or_else(String::as_str, |()| "ok");
            fields.extend([("way", Json::text(NO_WAY)), ("connect", Json::text(text))]);
        }
        What::Message(way, message) => {
            fields.push(("way", Json::text(way.to_string())));
            fields.extend(message_fields(message));
        }
        What::Bytes(way, bytes) => fields.extend([("way", Json::text(way.to_string())), ("raw", Json::text(hex_of(bytes)))]),
        What::Ended(way, cause) => {
            fields.extend([("way", Json::text(way.to_string())), ("end", Json::text(cause.as_deref().unwrap_or(END)))]);
        }
        // (what follows from other lines has none)
        What::Waits(..) | What::Left => {}
    }
    Json::object(fields).to_string()
}

/// A time to a ten thousandth of a second. Each event has such a time, so that its recording shows what was shown of itself.
pub(super) fn rounded(seconds: f64) -> f64 {
    (seconds * 1e4).round() / 1e4
}

/// The same of a span between two such times.
pub(super) fn time_of(seconds: f64) -> Json {
    Json::Number(rounded(seconds))
}

fn message_fields(message: &Message) -> Vec<(&'static str, Json)> {
    let counts = |counts: &[usize]| Json::List(counts.iter().copied().map(Json::count).collect());
    vec![
        ("code", Json::Number(f64::from(message.code()))),
        ("flags", Json::Number(f64::from(message.flags()))),
        ("size", Json::Number(f64::from(u32_at(&message.bytes, 8)))),
        ("bytes", Json::text(hex_of(&message.bytes))),
        ("fds", Json::List(message.fds.iter().map(Json::text).collect())),
        ("fds_at", counts(&message.fds_at)),
        ("body_fds", Json::count(message.body_fds)),
        ("cuts", counts(&message.cuts)),
        ("short", Json::Bool(message.is_short)),
    ]
}

/// How each line begins.
const HEAD: &str = "{\"t\": ";

/// Whether this is a part of a line: what is behind it was not written.
pub(super) fn is_cut(line: &[u8]) -> bool {
    let head = HEAD.as_bytes();
    let count = line.len().min(head.len());
    !line.ends_with(b"\n") && line[..count] == head[..count]
}

/// The event of a line; or why it has none.
pub(super) fn event_of(line: &[u8]) -> Result<Event, String> {
    let text = std::str::from_utf8(line).map_err(|_| "it is no text")?;
    let line = Json::parse(text.trim_end_matches('\n')).ok_or("it is no JSON")?;
    let time = field(&line, "t", "a number", |it| it.as_number().filter(|it| it.is_finite()))?;
    let session = field(&line, "session", "a whole number", Json::as_count)? as u64;
    let what = match field(&line, "way", "a text", Json::as_text)? {
        NO_WAY => connected(field(&line, "connect", "a text", Json::as_text)?),
        name => what_went(&line, Way::of_name(name).ok_or_else(|| format!("no way is called {name:?}"))?)?,
    };
    Ok(Event { time, session, what })
}

/// A field of a line, which has to be of this kind.
fn field<'a, T>(line: &'a Json, name: &str, kind: &str, read: impl FnOnce(&'a Json) -> Option<T>) -> Result<T, String> {
    let value = line.get(name).ok_or_else(|| format!("it has no field {name:?}"))?;
    read(value).ok_or_else(|| format!("its field {name:?} is not {kind}"))
}

fn connected(text: &str) -> What {
    What::Connected(if text == "ok" { Ok(()) } else { Err(text.to_string()) })
}

fn what_went(line: &Json, way: Way) -> Result<What, String> {
    if line.get("end").is_some() {
        let cause = field(line, "end", "a text", Json::as_text)?;
        return Ok(What::Ended(way, Some(cause.to_string()).filter(|it| it != END)));
    }
    if line.get("raw").is_some() {
        return Ok(What::Bytes(way, field(line, "raw", HEX, bytes_in)?));
    }
    Ok(What::Message(way, message_of(line)?))
}

/// What a field is that has bytes.
const HEX: &str = "bytes in hexadecimal digits";

fn bytes_in(value: &Json) -> Option<Vec<u8>> {
    bytes_of(value.as_text()?)
}

fn message_of(line: &Json) -> Result<Message, String> {
    fn all<'a, T>(list: &'a Json, read: impl FnMut(&'a Json) -> Option<T>) -> Option<Vec<T>> {
        list.as_list()?.iter().map(read).collect()
    }
    let counts = |name| field(line, name, "a list of whole numbers", |it| all(it, Json::as_count));
    Ok(Message {
        bytes: field(line, "bytes", HEX, bytes_in)?,
        fds: field(line, "fds", "a list of texts", |it| all(it, |fd| fd.as_text().map(str::to_string)))?,
        fds_at: counts("fds_at")?,
        body_fds: field(line, "body_fds", "a whole number", Json::as_count)?,
        cuts: counts("cuts")?,
        is_short: field(line, "short", "true or false", |it| match it {
            Json::Bool(is_short) => Some(*is_short),
            _ => None,
        })?,
    })
}

pub(super) fn hex_of(bytes: &[u8]) -> String {
    bytes.iter().map(|byte| format!("{byte:02x}")).collect()
}

fn bytes_of(text: &str) -> Option<Vec<u8>> {
    let digits = text.chars().map(|it| it.to_digit(16)).collect::<Option<Vec<u32>>>()?;
    let pairs = digits.chunks_exact(2);
    pairs.remainder().is_empty().then(|| pairs.map(|pair| (pair[0] << 4 | pair[1]) as u8).collect())
}

#[cfg(test)]
mod tests {
    use super::super::event::{TO_BACKEND, TO_FRONTEND};
    use super::*;

    fn event(what: What) -> Event {
        Event { time: 0.3858, session: 1, what }
    }

    /// A time between two ten thousandths would be shown as the one, and recorded as the other.
    #[test]
    fn a_recording_has_the_times_that_were_shown() {
        let between = || (0..20_000).map(|tick| f64::from(tick) / 1e4 + 0.5e-4);
        assert!(between().any(|time| format!("{time:.4}") != format!("{:.4}", rounded(time))));
        for time in between().map(rounded) {
            let recorded = event_of(line_of(&Event { time, ..event(What::Connected(Ok(()))) }).as_bytes()).unwrap();
            assert_eq!((time, format!("{time:.4}")), (recorded.time, format!("{:.4}", recorded.time)));
        }
    }

    #[test]
    fn a_line_is_as_in_a_recording() {
        let line = concat!(
            r#"{"t": 0.3858, "session": 1, "way": "F>B", "code": 21, "flags": 9, "size": 0, "#,
            r#""bytes": "150000000900000000000000", "fds": ["socket"], "fds_at": [0], "body_fds": 0, "cuts": [12], "short": false}"#
        );
        let message = Message {
            bytes: bytes_of("150000000900000000000000").unwrap(),
            fds: vec!["socket".to_string()],
            fds_at: vec![0],
            cuts: vec![12],
            ..Message::default()
        };
        let it = event(What::Message(TO_BACKEND, message));
        assert_eq!(line, line_of(&it));
        assert_eq!(Ok(it), event_of(line.as_bytes()));
    }

    #[test]
    fn each_event_is_read_back() {
        for what in [
            What::Connected(Ok(())),
            What::Connected(Err("Connection refused (os error 111)".to_string())),
            What::Bytes(TO_FRONTEND, vec![0, 0xff]),
            What::Ended(TO_FRONTEND, None),
            What::Ended(TO_BACKEND, Some("Connection reset by peer (os error 104)".to_string())),
        ] {
            let it = event(what);
            assert_eq!(Ok(it.clone()), event_of(line_of(&it).as_bytes()));
        }
    }

    #[test]
    fn what_is_no_line_has_a_reason() {
        let message = |rest: &str| format!(r#"{{"t": 1, "session": 1, "way": "F>B", {rest}}}"#);
        for (line, reason) in [
            ("", "it is no JSON"),
            ("session 1", "it is no JSON"),
            ("{}", r#"it has no field "t""#),
            (r#"{"t": "now"}"#, r#"its field "t" is not a number"#),
            (r#"{"t": 1e999}"#, r#"its field "t" is not a number"#),
            (r#"{"t": 1, "session": -1, "way": "-", "connect": "ok"}"#, r#"its field "session" is not a whole number"#),
            (r#"{"t": 1, "session": 1, "way": "X>Y", "end": "eof"}"#, r#"no way is called "X>Y""#),
            (r#"{"t": 1, "session": 1, "way": "-"}"#, r#"it has no field "connect""#),
            (&message(r#""end": 1"#), r#"its field "end" is not a text"#),
            (&message(r#""raw": "1""#), r#"its field "raw" is not bytes in hexadecimal digits"#),
            (&message(r#""name": "GET_FEATURES""#), r#"it has no field "bytes""#),
            (&message(r#""bytes": "00", "fds": [1]"#), r#"its field "fds" is not a list of texts"#),
        ] {
            assert_eq!(Err(reason.to_string()), event_of(line.as_bytes()), "{line}");
        }
        assert_eq!(Err("it is no text".to_string()), event_of(&[0xff]));
        assert_eq!(None, bytes_of("123"));
        assert_eq!(None, bytes_of("1g"));
    }

    /// A line is cut where it begins as one, and does not end.
    #[test]
    fn parts_of_a_line() {
        let line = line_of(&event(What::Connected(Ok(()))));
        for at in 1..line.len() {
            assert!(event_of(&line.as_bytes()[..at]).is_err());
            assert!(is_cut(&line.as_bytes()[..at]));
        }
        assert!(!is_cut(b"{\"t\": 1\n"));
        assert!(!is_cut(b"{\"time\""));
    }
}
