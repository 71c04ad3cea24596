// SPDX-License-Identifier: Apache-2.0
//! Text for pages of HTML and for XML. The pages of `covretin-tap` and the reports of `covretin-check` both escape by it.

/// Text in which no letter has a meaning in HTML or XML, in an element or between quotes. A letter that can't be seen is '?', since a
/// peer may write one that turns the order of the letters around it.
pub(crate) fn escaped(text: &str) -> String {
    let mut out = String::with_capacity(text.len());
    for letter in text.chars() {
        match letter {
            '&' => out.push_str("&amp;"),
            '<' => out.push_str("&lt;"),
            '>' => out.push_str("&gt;"),
            '"' => out.push_str("&quot;"),
            '\'' => out.push_str("&#39;"),
            '\n' | '\t' => out.push(' '),
            other if other.is_control() || turns_letters(other) => out.push('?'),
            other => out.push(other),
        }
    }
    out
}

/// Whether this letter only changes the order in which those around it are shown.
fn turns_letters(letter: char) -> bool {
    matches!(letter, '\u{61c}' | '\u{200e}' | '\u{200f}' | '\u{202a}'..='\u{202e}' | '\u{2066}'..='\u{2069}')
}

#[cfg(test)]
mod tests {
    use super::*;

    #[test]
    fn no_letter_of_a_text_is_markup() {
        assert_eq!("&lt;b a=&quot;&#39;&amp;&quot;&gt; é", escaped("<b a=\"'&\"> é"));
        assert_eq!("a b c?d?e?", escaped("a\nb\tc\0d\u{202e}e\u{9b}"));
        for letter in (0..0x80u8).map(char::from) {
            let text = escaped(&letter.to_string());
            assert!(!text.contains(['<', '>', '"', '\'']), "{letter:?}");
            assert!(!text.starts_with('&') || text.ends_with(';'), "{letter:?}");
        }
    }
}
