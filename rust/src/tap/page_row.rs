// SPDX-License-Identifier: Apache-2.0
//! The rows of a page: one for each event, with what is found of it. All that is not written here is escaped.
use super::colours::Colours;
use super::event::{Channel, Event, Message, Side, Way, What};
use super::finding::{Finding, Kind};
use super::layout::{fd_name, fields_of, flag_names, Fields, Value};
use super::markup::escaped;
use super::recording::hex_of;
use super::replies::is_reply;
use super::show::{cut_text, fields_text, record_texts, title_of, told, value_text, way_of};

/// How many colours page.css has for sessions, which take turns.
const SESSION_COLOURS: u64 = 6;

/// The row of an event, whose reply was awaited for so long.
pub(super) fn row_of(
    event: &Event,
    findings: &[Finding],
    awaited: Option<f64>,
    shows_bytes: bool,
    colours: &mut Colours,
) -> String {
    let found: String = findings.iter().map(found_of).collect();
    match &event.what {
        What::Message(way, message) => {
            let head = format!("{}{}{}", lane_of(*way, message), wait_of(awaited), text_of(*way, message, colours));
            let folded = folded_of(*way, message, shows_bytes);
            unfolding(event, findings, &format!("{head}{found}"), &folded)
        }
        What::Bytes(_, bytes) => {
            let lane = format!("<span class=\"lane\"><span>{}</span></span>", told(&event.what));
            unfolding(event, findings, &format!("{lane}{found}"), &pair("bytes", &hex_of(bytes)))
        }
        what => {
            let channel = channel_of(way_of(what));
            let lane = format!("<span class=\"lane\"><span>{}{channel}</span></span>", escaped(&told(what)));
            format!("<div {}>{}{lane}{found}</div>\n", attributes_of(event, findings), time_of(event))
        }
    }
}

/// A row that unfolds.
fn unfolding(event: &Event, findings: &[Finding], head: &str, folded: &str) -> String {
    let (attributes, time) = (attributes_of(event, findings), time_of(event));
    format!("<details {attributes}><summary>{time}{head}</summary><dl>{folded}</dl></details>\n")
}

/// By these page.css draws a row, and page.js finds it.
fn attributes_of(event: &Event, findings: &[Finding]) -> String {
    let request = match &event.what {
        What::Message(way, message) => format!(" data-r=\"{}\"", escaped(&title_of(*way, message))),
        _ => String::new(),
    };
    let found = if findings.is_empty() { "" } else { " data-f=\"\"" };
    format!("class=\"row{}\" data-s=\"{}\"{request}{found}", classes_of(&event.what), event.session)
}

fn classes_of(what: &What) -> String {
    let mut classes = String::new();
    if let Some(way) = way_of(what) {
        classes += if way.from == Side::Frontend { " f" } else { " b" };
        classes += if way.channel == Channel::Backend { " channel" } else { "" };
    }
    classes += match what {
        What::Message(way, message) if is_reply(*way, message) => " reply",
        What::Message(..) | What::Bytes(..) => "",
        What::Connected(_) => " note begins",
        What::Waits(..) => " note waits",
        What::Ended(..) | What::Left => " note",
    };
    classes
}

fn time_of(event: &Event) -> String {
    let Event { time, session, .. } = event;
    format!("<time>{time:.4}</time><span class=\"session s{}\">{session}</span>", session % SESSION_COLOURS)
}

/// The name of a message on its arrow, and its flags. The arrow itself says that a message is a reply.
fn lane_of(way: Way, message: &Message) -> String {
    let flags = flag_names(message).into_iter().filter(|name| name != "REPLY" || !is_reply(way, message));
    let flags: String = flags.map(|name| format!("<i>{}</i>", escaped(&name))).collect();
    let channel = channel_of(Some(way));
    format!("<span class=\"lane\"><span>{}{flags}{channel}</span></span>", escaped(&title_of(way, message)))
}

/// The mark of what is on the backend channel.
fn channel_of(way: Option<Way>) -> &'static str {
    match way {
        Some(Way { channel: Channel::Backend, .. }) => "<i>backend channel</i>",
        _ => "",
    }
}

/// The shortest time that is recorded, in seconds, and how many tenfolds of it fill the bar: up to ten seconds.
const SHORTEST: f64 = 1e-4;
const TENFOLDS: f64 = 5.0;
/// The part of the bar that even the shortest time has, so that it is seen.
const LEAST_LENGTH: f64 = 4.0;

/// A bar that is longer by the same length for each ten times that a reply was awaited longer.
fn wait_of(awaited: Option<f64>) -> String {
    let bar = |seconds: f64| {
        format!("<i style=\"width:{:.0}%\"></i><span>{}</span>", length_of(seconds), escaped(&duration_text(seconds)))
    };
    format!("<span class=\"wait\">{}</span>", awaited.map_or_else(String::new, bar))
}

/// The length of a bar, in hundredths of the longest.
fn length_of(seconds: f64) -> f64 {
    let tenfolds = (seconds.max(SHORTEST) / SHORTEST).log10();
    LEAST_LENGTH + (100.0 - LEAST_LENGTH) * (tenfolds / TENFOLDS).min(1.0)
}

fn duration_text(seconds: f64) -> String {
    match seconds {
        it if it < SHORTEST / 2.0 => "< 0.1 ms".to_string(),
        it if it < 0.9995 => format!("{:.1} ms", it * 1e3),
        it => format!("{it:.2} s"),
    }
}

/// The descriptors of a message in their colours, and its fields by one line.
fn text_of(way: Way, message: &Message, colours: &mut Colours) -> String {
    let mut text = fields_text(&fields_of(way, message)).trim_start().to_string();
    if message.is_short {
        text = format!("{} {text}", cut_text(message));
    }
    format!("<span class=\"text\">{}{}</span>", descriptors_of(message, colours), escaped(&text))
}

/// Descriptors that follow each other with the same name are one, with how many there are.
fn descriptors_of(message: &Message, colours: &mut Colours) -> String {
    let mut runs: Vec<(&str, usize)> = Vec::new();
    for name in message.fds.iter().map(|fd| fd_name(fd)) {
        match runs.last_mut() {
            Some((last, count)) if *last == name => *count += 1,
            _ => runs.push((name, 1)),
        }
    }
    let chip = |(name, count): &(&str, usize)| {
        let times = if *count == 1 { String::new() } else { format!(" × {count}") };
        format!("<span class=\"fd {}\">{}{times}</span>", colours.class_of(name), escaped(name))
    };
    runs.iter().map(chip).collect()
}

/// What a row unfolds to.
fn folded_of(way: Way, message: &Message, shows_bytes: bool) -> String {
    let mut flags = flag_names(message).join(" ");
    if flags.is_empty() {
        flags.push_str("no flag");
    }
    let header = format!("code {}, {flags}, a body of {} bytes", message.code(), message.size());
    let mut pairs = pair("header", &header) + &fields_pairs(&fields_of(way, message));
    pairs.extend(message.fds.iter().map(|fd| pair("descriptor", fd)));
    if shows_bytes {
        let words: Vec<String> = message.bytes.chunks(4).map(hex_of).collect();
        pairs += &pair("bytes", &words.join(" "));
    }
    pairs
}

fn fields_pairs(fields: &Fields) -> String {
    let pairs = |(name, value): &(&'static str, Value)| match value {
        Value::Records(records) => record_texts(records).iter().map(|record| pair(name, record)).collect(),
        value => pair(name, &value_text(value)),
    };
    fields.iter().map(pairs).collect()
}

fn pair(name: &str, text: &str) -> String {
    format!("<dt>{}</dt><dd>{}</dd>", escaped(name), escaped(text))
}

/// What is found of an event: in red where it is wrong, and only there.
fn found_of(finding: &Finding) -> String {
    let (class, kind) = match finding.kind {
        Kind::Wrong => ("found wrong", "wrong"),
        Kind::Unanswered => ("found", "unanswered"),
        Kind::Taken => ("found", "not by the letter"),
    };
    format!("<em class=\"{class}\"><b>{kind}:</b> {}</em>", escaped(&finding.text))
}

#[cfg(test)]
mod tests {
    use super::super::event::{TO_BACKEND, TO_FRONTEND};
    use super::*;

    fn row(what: What, findings: &[Finding], awaited: Option<f64>) -> String {
        row_of(&Event { time: 1.5, session: 7, what }, findings, awaited, true, &mut Colours::default())
    }

    fn message(code: u32, flags: u32, fds: &[&str]) -> Message {
        let bytes = [code, flags, 0].iter().flat_map(|it| it.to_le_bytes()).collect();
        Message { bytes, fds: fds.iter().map(|fd| fd.to_string()).collect(), ..Message::default() }
    }

    #[test]
    fn a_row_has_its_arrow_its_wait_and_its_descriptors() {
        let asked = row(What::Message(TO_BACKEND, message(21, 9, &["socket"])), &[], None);
        assert!(asked.starts_with("<details class=\"row f\" data-s=\"7\" data-r=\"SET_BACKEND_REQ_FD\">"), "{asked}");
        assert!(asked.contains("<span class=\"lane\"><span>SET_BACKEND_REQ_FD<i>NEED_REPLY</i></span></span>"), "{asked}");
        assert!(
            asked.contains("<span class=\"wait\"></span><span class=\"text\"><span class=\"fd c0\">socket</span></span>"),
            "{asked}"
        );
        assert!(asked.contains("<dt>bytes</dt><dd>15000000 09000000 00000000</dd>"), "{asked}");
        let replied = row(What::Message(TO_FRONTEND, message(21, 5, &[])), &[], Some(0.0079));
        assert!(replied.starts_with("<details class=\"row b reply\""), "{replied}");
        assert!(replied.contains("</i><span>7.9 ms</span></span>"), "{replied}");
    }

    #[test]
    fn a_longer_wait_is_a_longer_bar() {
        let lengths = [0.0, 1e-4, 1e-3, 0.0079, 0.1, 1.0, 10.0, 100.0].map(length_of);
        assert!(lengths.windows(2).all(|pair| pair[0] <= pair[1]), "{lengths:?}");
        assert_eq!((LEAST_LENGTH, 100.0, 100.0), (lengths[0], lengths[6], lengths[7]));
        assert_eq!(
            ["< 0.1 ms", "0.1 ms", "7.9 ms", "1.00 s", "12.00 s"],
            [0.0, 1e-4, 0.0079, 0.9999, 12.0].map(duration_text)[..]
        );
    }

    #[test]
    fn only_what_is_wrong_is_red() {
        for (kind, is_red) in [(Kind::Wrong, true), (Kind::Unanswered, false), (Kind::Taken, false)] {
            let found = row(What::Left, &[Finding { kind, text: "<i>".to_string() }], None);
            assert!(found.contains(" data-f=\"\"") && found.contains("&lt;i&gt;</em>"), "{found}");
            assert_eq!(is_red, found.contains("class=\"found wrong\""), "{found}");
        }
        assert!(!row(What::Left, &[], None).contains("data-f"));
    }

    /// What a peer writes is in no row as it came.
    #[test]
    fn a_peer_writes_no_markup() {
        const HOSTILE: &str = "\"'><script>alert(1)</script><!--&\n";
        let finding = Finding { kind: Kind::Wrong, text: HOSTILE.to_string() };
        let body = HOSTILE.bytes().collect::<Vec<u8>>();
        let mut named = message(24, 1, &[HOSTILE, "file:/memfd:</span>"]);
        named.bytes.extend(&body);
        for what in [
            What::Message(TO_BACKEND, named),
            What::Message(TO_BACKEND, Message { is_short: true, bytes: body.clone(), ..Message::default() }),
            What::Bytes(TO_FRONTEND, body.clone()),
            What::Connected(Err(HOSTILE.to_string())),
            What::Ended(TO_BACKEND, Some(HOSTILE.to_string())),
            What::Waits(5, HOSTILE.to_string()),
        ] {
            let row = row(what, std::slice::from_ref(&finding), Some(0.1));
            assert!(row.contains("&lt;script&gt;"), "{row}");
            assert!(!row.contains("<script") && !row.contains("<!--") && !row.contains("memfd:</span>"), "{row}");
            assert_eq!(1, row.lines().count(), "{row}");
        }
    }
}
