//! Text in the picture: names, times, lengths, and the reasons of refusals.

use crate::sheet::FRAMES_A_SECOND;
use std::fmt;

/// Text that may stand in markup, in an attribute too.
pub fn escape(text: &str) -> String {
    let mut out = String::with_capacity(text.len());
    for letter in text.chars() {
        match letter {
            '&' => out += "&amp;",
            '<' => out += "&lt;",
            '>' => out += "&gt;",
            '"' => out += "&quot;",
            '\'' => out += "&#39;",
            // no XML has these, not even by number
            '\u{fffe}' | '\u{ffff}' => out.push('\u{fffd}'),
            letter if letter.is_control() => out.push('\u{fffd}'),
            letter => out.push(letter),
        }
    }
    out
}

/// HH:MM:SS:FF
pub struct Time(pub u32);

impl fmt::Display for Time {
    fn fmt(&self, f: &mut fmt::Formatter) -> fmt::Result {
        let (h, m, s, frames) = parts(self.0);
        write!(f, "{h:02}:{m:02}:{s:02}:{frames:02}")
    }
}

/// Hours, minutes, seconds and frames.
fn parts(frames: u32) -> (u32, u32, u32, u32) {
    let seconds = frames / FRAMES_A_SECOND;
    (seconds / 3_600, seconds / 60 % 60, seconds % 60, frames % FRAMES_A_SECOND)
}

/// A length of time in words.
pub fn length(frames: u32) -> String {
    let (h, m, s, f) = parts(frames);
    let units = [(h, "h"), (m, "min"), (s, "s"), (f, if f == 1 { "frame" } else { "frames" })];
    let words: Vec<String> =
        units.iter().filter(|(n, _)| *n > 0).map(|(n, unit)| format!("{n} {unit}")).collect();
    words.join(" ")
}

pub fn count(number: usize, one: &str, many: &str) -> String {
    format!("{number} {}", if number == 1 { one } else { many })
}

/// Document 01's reasons, shortened.
fn reason(number: u8) -> &'static str {
    match number {
        1 => "unknown word, wrong count of fields, line too long, or no line feed",
        2 => "a number badly written or out of range",
        3 => "a timecode badly written or outside the day",
        4 => "a line out of its place, no end, or a line beyond 65,535",
        5 => "identity already in the table",
        6 => "a seventeenth server, or no server",
        7 => "the period is below the number of servers",
        8 => "identity not in the table, or both identities the same",
        11 => "time before the present frame",
        12 => "server down",
        13 => "restart of a server that is up",
        14 => "the role does not allow the verb",
        15 => "cut of a cut link, or mend of a whole one",
        16 => "advance beyond the end of the day",
        _ => "",
    }
}

/// The number, and its reason if there is one.
pub fn with_reason(number: u8) -> String {
    match reason(number) {
        "" => number.to_string(),
        reason => format!("{number}: {reason}"),
    }
}

/// A name that leaves room for what follows it.
pub fn brief(name: &str) -> String {
    const MOST: usize = 60;
    match name.char_indices().nth(MOST) {
        Some((end, _)) => format!("{}…", &name[..end]),
        None => name.to_string(),
    }
}

/// Lines of at most so many letters, parted between words; a longer word has a line of its own.
pub fn wrap(text: &str, most: usize) -> Vec<String> {
    let mut lines: Vec<String> = Vec::new();
    for word in text.split_whitespace() {
        match lines.last_mut() {
            Some(line) if line.chars().count() + 1 + word.chars().count() <= most => {
                line.push(' ');
                line.push_str(word);
            }
            _ => lines.push(word.to_string()),
        }
    }
    lines
}

#[cfg(test)]
mod tests {
    use super::*;

    #[test]
    fn markup_is_escaped() {
        assert_eq!(escape("a<b>&\"'c"), "a&lt;b&gt;&amp;&quot;&#39;c");
        assert_eq!(escape("x\u{0}\u{1b}\n\u{ffff}é"), "x\u{fffd}\u{fffd}\u{fffd}\u{fffd}é");
    }

    #[test]
    fn times_and_lengths() {
        assert_eq!(Time(2_159_999).to_string(), "23:59:59:24");
        assert_eq!(Time(90_000 + 1_500 + 25 + 1).to_string(), "01:01:01:01");
        assert_eq!(length(1), "1 frame");
        assert_eq!(length(24), "24 frames");
        assert_eq!(length(2_160_000), "24 h");
        assert_eq!(length(1_500 + 27), "1 min 1 s 2 frames");
    }

    #[test]
    fn long_names_are_cut_and_long_notes_wrapped() {
        assert_eq!(brief("day"), "day");
        assert_eq!(brief(&"é".repeat(61)), format!("{}…", "é".repeat(60)));
        assert_eq!(wrap("one two three", 7), ["one two", "three"]);
        assert_eq!(wrap("incomparable a", 3), ["incomparable", "a"]);
        assert!(wrap("", 3).is_empty());
    }
}
