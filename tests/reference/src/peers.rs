//! What other stations say to a station under test: replies, requests and tokens, fitting or not.

use crate::draft::{data_count, faulty, noise};
use crate::frame::{self, Head, ALL_STATIONS, LONGEST_UNIT, REQUEST, SHORT};
use crate::hold::written;
use crate::queue::{Request, Service};
use crate::random::Random;
use crate::ring::ADDRESSES;
use crate::station::Station;

pub fn address(random: &mut Random) -> u8 {
    random.below(usize::from(ADDRESSES)) as u8
}

pub fn token(destination: u8, source: u8) -> Vec<u8> {
    written(|out| frame::write_token(destination, source, out))
}

/// Data that fit behind the access points of a frame, mostly few.
fn data(random: &mut Random, head: &Head, least: usize) -> Vec<u8> {
    let points = head.to.iter().count() + head.from.iter().count();
    let most = if random.one_in(12) { LONGEST_UNIT - points } else { 6 };
    let count = data_count(random, most).max(least);
    random.octets(count)
}

/// The head of a reply to a request, of any station type; its code is still to be set.
fn reply_head(random: &mut Random, request: &Request, own: u8) -> Head {
    let control = random.pick(&[0x00, 0x10, 0x20, 0x30]);
    Head { destination: own, to: request.from, source: request.destination, from: request.to, control }
}

/// A plausible reply to an SDA or SRD of the station `own`.
pub fn plausible(random: &mut Random, request: &Request, own: u8) -> Vec<u8> {
    if random.one_in(5) {
        return vec![SHORT];
    }
    let mut head = reply_head(random, request, own);
    let code = match request.service {
        Service::Sda => random.pick(&[0, 0, 0, 1, 2, 3]),
        _ => random.pick(&[1, 2, 3, 8, 8, 9, 10, 10, 12, 13]),
    };
    head.control |= code;
    let data = if code >= 8 && code != 9 { data(random, &head, 1) } else { Vec::new() };
    written(|out| frame::write(&head, &data, out))
}

/// Turns an access point into one that does not fit: off by one, missing or added.
fn other_point(random: &mut Random, point: Option<u8>) -> Option<u8> {
    match point {
        None => Some(random.below(63) as u8),
        Some(_) if random.one_in(3) => None,
        Some(0) => Some(1),
        Some(point) => Some(point - 1),
    }
}

/// A lawful reply that is not plausible for the request: one thing is wrong.
pub fn odd(random: &mut Random, request: &Request, own: u8) -> Vec<u8> {
    let mut head = reply_head(random, request, own);
    let is_sda = request.service == Service::Sda;
    let (mut code, mut with_data) = if is_sda { (0, false) } else { (8, true) };
    match random.below(7) {
        0 => head.destination = (head.destination + 1) % ADDRESSES,
        1 => head.source = random.pick(&[(head.source + 1) % ADDRESSES, own]),
        2 => head.from = other_point(random, head.from),
        3 => head.to = other_point(random, head.to),
        // The addresses right and both access points left out, as annex A would have it for RR and RS.
        4 if head.from.is_some() || head.to.is_some() => (head.from, head.to) = (None, None),
        // A code of the other service, or data where there are to be none and none where there are to be.
        5 if is_sda => (code, with_data) = random.pick(&[(9, false), (8, true), (10, true), (13, false)]),
        5 => (code, with_data) = (0, random.one_in(2)),
        _ if is_sda => (code, with_data) = (random.pick(&[0, 1, 2, 3]), true),
        _ => {
            (code, with_data) =
                random.pick(&[(8, false), (10, false), (12, false), (13, false), (9, true), (2, true)])
        }
    }
    head.control |= code;
    let data = if with_data { data(random, &head, 1) } else { Vec::new() };
    written(|out| frame::write(&head, &data, out))
}

const SERVICE_CODES: [(usize, u8); 9] =
    [(8, 3), (8, 5), (6, 4), (6, 6), (6, 9), (12, 12), (12, 13), (2, 14), (2, 15)];

/// A request to the station or to all, often from the station that is remembered and with its bit.
pub fn request_to(random: &mut Random, station: &Station, peers: &[u8]) -> Vec<u8> {
    let code = random.weighted(&SERVICE_CODES);
    let mut head = Head {
        destination: station.address,
        to: asked_point(random, station),
        source: if random.one_in(40) { station.address } else { random.pick(peers) },
        from: if random.one_in(2) { Some(random.below(63) as u8) } else { None },
        control: REQUEST | code,
    };
    if matches!(code, 4 | 6) && random.one_in(2) {
        head.destination = ALL_STATIONS;
    }
    if matches!(code, 3 | 5 | 12 | 13) {
        head.control |= random.pick(&[0x00, 0x10, 0x20, 0x30]);
        if let Some(memory) = station.memory.as_ref().filter(|_| random.one_in(2)) {
            let bit = memory.bit != random.one_in(3);
            head.source = memory.source;
            head.control = REQUEST | code | 0x10 | if bit { 0x20 } else { 0 };
        }
    }
    let data = if code == 9 && !random.one_in(4) { Vec::new() } else { data(random, &head, 0) };
    written(|out| frame::write(&head, &data, out))
}

/// The point asked: none, an active one, any one, or 63.
fn asked_point(random: &mut Random, station: &Station) -> Option<u8> {
    let active: Vec<Option<u8>> = station.points.iter().copied().collect();
    let any = Some(random.below(64) as u8);
    match random.below(12) {
        0..=4 => None,
        5 => Some(63),
        6 => any,
        _ if active.is_empty() => any,
        _ => random.pick(&active),
    }
}

/// A lawful request from anyone to anyone but the station.
pub fn request_to_other(random: &mut Random, own: u8) -> Vec<u8> {
    let code = random.weighted(&SERVICE_CODES);
    let destination = (own + 1 + random.below(125) as u8) % ADDRESSES;
    let head = Head { destination, to: None, source: address(random), from: None, control: REQUEST | code };
    let data = data(random, &head, 0);
    written(|out| frame::write(&head, &data, out))
}

/// A lawful frame after damage: a flipped bit, an octet more or fewer, a cut; or faults without order.
pub fn damaged(random: &mut Random, mut octets: Vec<u8>) -> Vec<u8> {
    let place = random.below(octets.len());
    match random.below(8) {
        0 => octets.push(random.octet()),
        1 => octets.truncate(octets.len() - 1),
        2 => octets.truncate(place),
        3 => return faulty(random),
        4 => return noise(random),
        5 => return Vec::new(),
        _ => octets[place] ^= 1 << random.below(8),
    }
    octets
}
