//! What the reference answers to a script, a line for each call.

use std::str::FromStr;

use crate::frame::{self, Head, Message, Refusal};
use crate::lister;
use crate::script::LISTING_ROOM;
use crate::text::{hex, optional, unhex};

/// What an output holds at every place before a call.
const BEFORE: u8 = 0xAA;

pub fn answer(call: &str) -> Result<String, String> {
    let words: Vec<&str> = call.split(' ').collect();
    match words[..] {
        ["read" | "flip", octets] => Ok(say_read(frame::read(&unhex(octets)?))),
        ["write", destination, to, source, from, control, data, room] => {
            let head = Head {
                destination: number(destination)?,
                to: point(to)?,
                source: number(source)?,
                from: point(from)?,
                control: number(control)?,
            };
            let data = unhex(data)?;
            say_written(room, |out| frame::write(&head, &data, out))
        }
        ["token", destination, source, room] => {
            let (destination, source) = (number(destination)?, number(source)?);
            say_written(room, |out| frame::write_token(destination, source, out))
        }
        ["short", room] => say_written(room, frame::write_short),
        ["list", capture, room] => Ok(say_listing(&unhex(capture)?, number(room)?)),
        _ => Err(format!("no call: {call}")),
    }
}

fn number<N: FromStr>(word: &str) -> Result<N, String> {
    word.parse().map_err(|_| format!("no number for its place: {word}"))
}

fn point(word: &str) -> Result<Option<u8>, String> {
    match word {
        "-" => Ok(None),
        word => number(word).map(Some),
    }
}

fn say_read(read: Result<Message, Refusal>) -> String {
    match read {
        Err(refusal) => format!("refused {refusal}"),
        Ok(Message::Token { destination, source }) => format!("token {destination} {source}"),
        Ok(Message::Short) => "short".to_string(),
        Ok(Message::Frame { head, start, count }) => {
            let (to, from) = (optional(head.to), optional(head.from));
            let Head { destination, source, control, .. } = head;
            format!("frame {destination} {to} {source} {from} {control} {start} {count}")
        }
    }
}

/// Lets `write` fill an output of `room` octets and shows all of it, refused or not.
fn say_written(
    room: &str,
    write: impl FnOnce(&mut [u8]) -> Result<usize, Refusal>,
) -> Result<String, String> {
    let mut out = vec![BEFORE; number(room)?];
    let outcome = match write(&mut out) {
        Ok(count) => format!("ok {count}"),
        Err(refusal) => format!("refused {refusal}"),
    };
    Ok(format!("{outcome} {}", hex(&out)))
}

/// A listing in one line, or that the output is too small for any.
fn say_listing(capture: &[u8], room: usize) -> String {
    if room < LISTING_ROOM {
        return "nothing".to_string();
    }
    format!("listed {}", lister::list(capture).replace('\n', "/"))
}
