//! Seeded requests for `submit`, one in eight with something that may be refused, and the pairs behind them.

use crate::draft::data_count;
use crate::frame::ALL_STATIONS;
use crate::queue::{Request, Service};
use crate::random::Random;
use crate::replay::service_word;
use crate::text::{hex, optional};

/// The operands of a `submit` after the queue, for a station of address `own` with this retry limit.
pub fn operands(random: &mut Random, peers: &[u8], own: u8, retries: u32) -> String {
    let mut request = request(random, peers);
    if random.one_in(8) {
        random.pick(&FAULTS)(&mut request, random, own);
    }
    let (to, from, data) = (optional(request.to), optional(request.from), hex(&request.data));
    let pairs = pairs(random, retries);
    format!("{} {} {to} {from} {data}{pairs}", service_word(request.service), request.destination)
}

/// The pairs of a line, in each of the four forms.
fn pairs(random: &mut Random, retries: u32) -> String {
    let mut text = String::new();
    if random.one_in(2) {
        text += &format!(" ref {}", reference(random));
    }
    if random.one_in(2) {
        text += &format!(" limit {}", limit(random, retries));
    }
    text
}

fn reference(random: &mut Random) -> u32 {
    let any = random.below(1 << 32) as u32;
    random.pick(&[0, 1, 1 << 31, u32::MAX, any, any >> 16])
}

/// A limit, mostly small, below, at or above the station's; one in twelve is at the bound or past it.
fn limit(random: &mut Random, retries: u32) -> u32 {
    let any = random.below(16) as u32;
    match random.below(12) {
        0 => random.pick(&[15, 16, 16, 17, 255]),
        1..=3 => random.pick(&[retries.saturating_sub(1), retries, (retries + 1).min(15)]),
        4 => any,
        _ => random.pick(&[0, 0, 1, 2, 3]),
    }
}

/// A request that is refused at most 27, or 23 if a peer has the station's own address.
fn request(random: &mut Random, peers: &[u8]) -> Request {
    let service = random.weighted(&[(2, Service::Sda), (1, Service::Sdn), (3, Service::Srd)]);
    let to_all = service == Service::Sdn && random.one_in(2);
    let destination = if to_all { ALL_STATIONS } else { random.pick(peers) };
    let point = |random: &mut Random| random.one_in(2).then(|| random.below(63) as u8);
    let (to, from) = (point(random), point(random));
    let most = if random.one_in(12) { 244 } else { 5 };
    let count = data_count(random, most);
    let data = random.octets(count);
    Request { service, destination, to, from, data, reference: 0, limit: 0, asks: true }
}

/// What submit may refuse, each in one way or just not.
const FAULTS: [fn(&mut Request, &mut Random, u8); 8] = [
    |request, random, _| request.destination = random.pick(&[126, 127, 128, 255]),
    |request, _, own| request.destination = own,
    |request, _, _| request.destination = ALL_STATIONS,
    |request, random, _| request.to = Some(random.pick(&[62, 63, 64, 255])),
    |request, random, _| request.from = Some(random.pick(&[62, 63, 64, 255])),
    |request, random, _| {
        request.service = random.pick(&[Service::FdlStatus, Service::Ident, Service::LsapStatus])
    },
    |request, random, _| {
        let count = 243 + random.below(6);
        request.data = random.octets(count);
    },
    |request, random, own| {
        request.destination = random.pick(&[own, 7, 127]);
        request.to = random.pick(&[None, Some(63), Some(64)]);
        request.service = random.pick(&[Service::Ident, Service::Sdn, Service::Srd]);
        request.data = random.octets(250);
    },
];
