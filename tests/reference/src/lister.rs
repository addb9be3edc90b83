//! The lister of document 01: a capture in, one line a body out, then how the capture ended.

use crate::frame::{self, Message, REQUEST};

pub const MOST_BODIES: usize = 4096;

/// Lists a capture; any octets are taken.
pub fn list(capture: &[u8]) -> String {
    let mut lines = String::new();
    let end = list_bodies(capture, &mut lines);
    lines + end + "\n"
}

/// Adds a line for each whole body and gives the last line.
fn list_bodies(capture: &[u8], lines: &mut String) -> &'static str {
    let Some((count, rest)) = capture.split_first_chunk::<2>() else {
        return "end short";
    };
    let count = usize::from(u16::from_be_bytes(*count));
    if count > MOST_BODIES {
        return "end count";
    }
    let Some((table, mut rest)) = rest.split_at_checked(5 * count) else {
        return "end short";
    };
    // A table entry is a clock of four octets, which the listing does not show, and a length of one.
    for (index, entry) in table.chunks(5).enumerate() {
        let Some((body, after)) = rest.split_at_checked(usize::from(entry[4])) else {
            return "end short";
        };
        lines.push_str(&format!("{index} {}\n", describe(body)));
        rest = after;
    }
    if rest.is_empty() {
        "end"
    } else {
        "end long"
    }
}

/// What a line says of a body, after the index.
fn describe(body: &[u8]) -> String {
    match frame::read(body) {
        Err(refusal) => format!("bad {refusal}"),
        Ok(Message::Token { destination, source }) => format!("token {destination} {source}"),
        Ok(Message::Short) => "short".to_string(),
        Ok(Message::Frame { head, count, .. }) => {
            let kind = if head.control & REQUEST != 0 { "request" } else { "reply" };
            let code = head.control & 0x0F;
            format!("{kind} {} {} {code} {count}", head.destination, head.source)
        }
    }
}
