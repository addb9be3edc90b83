//! The test scripts: what `answer` and the harness are both asked, a call a line. Words are separated by one
//! space, numbers are decimal, octets upper-case hex, `-` is none. An output has ROOM octets, all AA before the
//! call; OUT is the whole of it after.
//!
//! | Call | Answers |
//! |---|---|
//! | `read OCTETS` | `refused N`, `token DA SA`, `short` or `frame DA DSAP SA SSAP FC START COUNT` |
//! | `flip OCTETS` | as `read`, for a lawful frame with one bit flipped: never accepted |
//! | `write DA DSAP SA SSAP FC DATA ROOM` | `ok COUNT OUT` or `refused N OUT` |
//! | `token DA SA ROOM`, `short ROOM` | as `write` |
//! | `list CAPTURE ROOM` | `listed` and the listing with `/` for each line end, or `nothing` |

use crate::capture::{self, Ending, ENDINGS};
use crate::draft::{data_count, faulty, listed_control, noise, Draft};
use crate::frame::{self, ALL_STATIONS, ANNOUNCED, LONGEST_UNIT, SD1, SD2, SD3, TOKEN};
use crate::lister::MOST_BODIES;
use crate::random::Random;
use crate::text::{hex, optional};

const FLIPPED_FRAMES: usize = 1000;

/// The least output that the library's lister takes.
pub const LISTING_ROOM: usize = 139_274;

/// The calls of reader and writer, with `count` seeded strings to read and half as many frames to write.
pub fn frames(seed: u64, count: usize) -> Vec<String> {
    let mut random = Random::new(seed);
    let mut calls = Vec::new();
    read_short_strings(&mut calls);
    read_every_field_value(&mut calls);
    for _ in 0..count {
        let octets = if random.one_in(8) { noise(&mut random) } else { faulty(&mut random) };
        calls.push(read_call(&octets));
    }
    for number in 0..FLIPPED_FRAMES {
        let longest = if number % 10 == 0 { LONGEST_UNIT } else { 20 };
        flip_every_bit(&Draft::lawful(&mut random, longest).octets(), &mut calls);
    }
    write_every_field_value(&mut calls);
    calls.extend((0..count / 2).map(|_| seeded_write(&mut random)));
    calls.extend((0..count / 10).map(|_| seeded_token(&mut random)));
    calls.extend((0..20).map(|room| format!("short {room}")));
    write_every_length(&mut random, &mut calls);
    calls
}

fn read_call(octets: &[u8]) -> String {
    format!("read {}", hex(octets))
}

/// Every string of 0, 1 and 2 octets.
fn read_short_strings(calls: &mut Vec<String>) {
    calls.push(read_call(&[]));
    calls.extend((0..=255).map(|first| read_call(&[first])));
    for first in 0..=255 {
        calls.extend((0..=255).map(|second| read_call(&[first, second])));
    }
}

/// Every token; and every value of FC, of an access point and of LE in otherwise lawful frames.
fn read_every_field_value(calls: &mut Vec<String>) {
    for da in 0..=255 {
        calls.extend((0..=255).map(|sa| read_call(&[TOKEN, da, sa])));
    }
    let mut read = |start, da, sa, control, unit: &[u8]| {
        let draft = Draft { start, da, sa, control, unit: unit.to_vec() };
        calls.push(read_call(&draft.octets()));
    };
    for value in 0..=255 {
        for (start, unit) in [(SD1, &[][..]), (SD2, &[1]), (SD3, &[1; 8])] {
            read(start, 5, 2, value, unit);
            read(start, ALL_STATIONS, 2, value, unit);
        }
        for (to, from) in [(0, ANNOUNCED), (ANNOUNCED, 0), (ANNOUNCED, ANNOUNCED)] {
            read(SD2, 5 | to, 2 | from, 0x4C, &[value]);
            read(SD2, 5 | to, 2 | from, 0x4C, &[value, 62]);
            read(SD2, 5 | to, 2 | from, 0x4C, &[63, value]);
        }
        read(SD2, 5, 2, 0x43, &vec![7; usize::from(value)]);
    }
}

/// A lawful frame, and all strings that one flipped bit makes of it.
fn flip_every_bit(octets: &[u8], calls: &mut Vec<String>) {
    assert!(frame::read(octets).is_ok(), "no lawful frame: {}", hex(octets));
    calls.push(read_call(octets));
    for bit in 0..8 * octets.len() {
        let mut flipped = octets.to_vec();
        flipped[bit / 8] ^= 1 << (bit % 8);
        calls.push(format!("flip {}", hex(&flipped)));
    }
}

/// A `write` call.
struct Write {
    destination: u8,
    to: Option<u8>,
    source: u8,
    from: Option<u8>,
    control: u8,
    data: Vec<u8>,
    room: usize,
}

impl Write {
    /// An SRD without data from 2 to 5, into a roomy output: what the calls below start from.
    fn plain() -> Write {
        Write { destination: 5, to: None, source: 2, from: None, control: 0x4D, data: Vec::new(), room: 20 }
    }

    fn call(&self) -> String {
        let (to, from) = (optional(self.to), optional(self.from));
        let Write { destination, source, control, room, .. } = self;
        format!("write {destination} {to} {source} {from} {control} {} {room}", hex(&self.data))
    }

    /// The octet count of the frame that these fields ask for, were they all lawful.
    fn frame_count(&self) -> usize {
        let points = self.to.iter().count() + self.from.iter().count();
        match points + self.data.len() {
            0 => 6,
            unit => 9 + unit,
        }
    }
}

/// Every value of each field, the other fields being lawful, and every data count up to 255.
fn write_every_field_value(calls: &mut Vec<String>) {
    for value in 0..=255 {
        calls.push(Write { control: value, ..Write::plain() }.call());
        calls.push(Write { control: value, destination: ALL_STATIONS, ..Write::plain() }.call());
        calls.push(Write { destination: value, ..Write::plain() }.call());
        calls.push(Write { destination: value, control: 0x46, ..Write::plain() }.call());
        calls.push(Write { source: value, ..Write::plain() }.call());
        let data = vec![value; usize::from(value)];
        calls.push(Write { data, room: 255, ..Write::plain() }.call());
    }
    for point in (0..=254).map(Some) {
        calls.push(Write { to: point, ..Write::plain() }.call());
        calls.push(Write { from: point, ..Write::plain() }.call());
        calls.push(Write { to: point, from: Some(62), ..Write::plain() }.call());
    }
}

/// Every data count with and without each access point, into an output one octet too short, exact, and one longer; then a
/// short, a middling and the longest frame into every output.
fn write_every_length(random: &mut Random, calls: &mut Vec<String>) {
    for (to, from) in [(None, None), (Some(60), None), (None, Some(62)), (Some(60), Some(62))] {
        for count in 0..=LONGEST_UNIT {
            let mut write = Write { to, from, data: random.octets(count), ..Write::plain() };
            let exact = write.frame_count();
            for room in exact - 1..=exact + 1 {
                write.room = room;
                calls.push(write.call());
            }
        }
    }
    for count in [0, 9, LONGEST_UNIT] {
        let mut write = Write { data: random.octets(count), ..Write::plain() };
        for room in 0..=255 {
            write.room = room;
            calls.push(write.call());
        }
    }
}

/// A frame to write: each field may be out of range, and the output too short, exact, longer or empty.
fn seeded_write(random: &mut Random) -> String {
    let any_control = random.one_in(16);
    let mut write = Write {
        destination: address(random),
        to: point(random),
        source: address(random),
        from: point(random),
        control: if any_control { random.octet() } else { listed_control(random) },
        data: Vec::new(),
        room: 0,
    };
    let most = if random.one_in(8) { 250 } else { 40 };
    let count = data_count(random, most);
    write.data = random.octets(count);
    write.room = room(random, write.frame_count());
    write.call()
}

fn seeded_token(random: &mut Random) -> String {
    format!("token {} {} {}", address(random), address(random), room(random, 3))
}

/// Mostly a station's address, at times 127 or more.
fn address(random: &mut Random) -> u8 {
    match random.below(24) {
        0 => ALL_STATIONS,
        1 => random.octet(),
        2 => 126,
        _ => random.below(127) as u8,
    }
}

/// No access point, or one, mostly within its range.
fn point(random: &mut Random) -> Option<u8> {
    match random.below(32) {
        0 => Some(random.below(255) as u8),
        1 => Some(62 + random.below(3) as u8),
        2..=16 => Some(random.below(63) as u8),
        _ => None,
    }
}

/// The size of an output for a frame of `count` octets.
fn room(random: &mut Random, count: usize) -> usize {
    match random.below(12) {
        0 => 0,
        1 | 2 => count - 1,
        3 => random.below(count),
        4 | 5 => count + 1 + random.below(20),
        _ => count,
    }
}

/// The calls of the lister: `count` seeded captures of each ending, each also cut at every octet and with
/// outputs of several sizes; then one of as many bodies as a capture may have.
pub fn lists(seed: u64, count: usize) -> Vec<String> {
    let mut random = Random::new(seed);
    let mut calls = Vec::new();
    for _ in 0..count {
        for end in ENDINGS {
            let bodies = random.below(6);
            let capture = capture::ending(end, bodies, &mut random);
            calls.extend((0..capture.len()).map(|cut| list_call(&capture[..cut], LISTING_ROOM)));
            let rooms = [0, LISTING_ROOM - 1, LISTING_ROOM, LISTING_ROOM + 1];
            calls.extend(rooms.map(|room| list_call(&capture, room)));
        }
    }
    let full = capture::ending(Ending::End, MOST_BODIES, &mut random);
    calls.push(list_call(&full, LISTING_ROOM));
    calls
}

fn list_call(capture: &[u8], room: usize) -> String {
    format!("list {} {room}", hex(capture))
}

#[cfg(test)]
mod tests {
    use super::*;

    #[test]
    fn every_string_of_up_to_two_octets() {
        let mut calls = Vec::new();
        read_short_strings(&mut calls);
        assert_eq!(calls.len(), 65_793);
    }
}
