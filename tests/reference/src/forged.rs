//! The script of forged cases: a station in rule in each phase, with queues of every fill, and then up to two things
//! of it broken. What a lawful state may hold besides is forged too: any marks, counts of sendings and free records.

use crate::breaks;
use crate::cases::{blank, Addresses, Call, Case, Core, Counts, Lent, CALLS, NOBODY, SDA, SDN, SRD};
use crate::cases::{PASS_CHECKED, PASS_TO_SELF, REPLY_AWAITED, SDN_GOING_OUT};
use crate::draft;
use crate::frame::{SHORT, TOKEN};
use crate::lends;
use crate::peers;
use crate::queue::Priority;
use crate::random::Random;
use crate::refusal::members;
use crate::ring::{Ring, ADDRESSES};
use crate::rows::{ASKS, DATA, LIMIT, RECORD, STATUS, STATUSES};
use crate::starts;

/// So many cases.
pub fn forged(seed: u64, count: usize) -> Vec<String> {
    let mut random = Random::new(seed);
    (0..count).map(|_| case(&mut random).line()).collect()
}

/// A case with none, one or two things broken.
fn case(random: &mut Random) -> Case {
    let (call, _) = random.pick(&CALLS);
    let mut case = lawful(random, call);
    for _ in 0..random.weighted(&[(15, 0), (55, 1), (30, 2)]) {
        breaks::one(&mut case, random);
    }
    case
}

/// A case that is not refused, except that submit may find its row full and collect none confirmed.
fn lawful(random: &mut Random, call: Call) -> Case {
    let mut case = blank(call);
    core(&mut case.core, random);
    sets(&mut case, random);
    case.core.ps = random.pick(&Ring::of(&members(&case.masters)).masters());
    if random.one_in(4) {
        case.core.ps = peers::address(random);
    }
    for queue in [Priority::High, Priority::Low] {
        fill(&mut case, queue, random);
    }
    in_flight(&mut case, random);
    buffers(&mut case, random);
    case.heard = heard(&case, random);
    request(&mut case, random);
    case
}

/// Numbers that are in rule wherever the phase, the set and the queues stand.
fn core(core: &mut Core, random: &mut Random) {
    core.settings = starts::settings(random);
    (core.acceptance, core.before) = (clock(random), clock(random));
    core.stranger = someone(random);
    core.phase = random.below(5) as u8;
    core.served = random.below(2) as u8;
    core.sendings = random.pick(&[0, 1, 1, 2, 3, 4, 15, 16, 17, 255]);
    core.sdn = random.below(2) as u8;
    core.begun = random.pick(&[0, 1, 2, 2, 3, 255]);
    core.source = someone(random);
    core.bit = random.below(2) as u8;
    core.length = random.pick(&[0, 1, 6, 100, 254, 255]);
}

/// A clock, at times near its wrap.
fn clock(random: &mut Random) -> u32 {
    let any = random.below(1 << 32) as u32;
    random.pick(&[0, 100, u32::MAX, any])
}

/// An address, or nobody.
fn someone(random: &mut Random) -> u8 {
    if random.one_in(3) {
        NOBODY
    } else {
        peers::address(random)
    }
}

/// TS, the set as started and the set as it is, which has TS alone where the token goes to itself.
fn sets(case: &mut Case, random: &mut Random) {
    let (ts, mut masters) = starts::masters(random);
    case.core.ts = ts;
    case.started = set(&masters, random);
    if random.one_in(3) {
        masters.retain(|&master| master == ts || master % 2 == 0);
        masters.push(peers::address(random));
    }
    match case.core.phase {
        PASS_CHECKED => masters.push((ts + 1 + random.below(126) as u8) % ADDRESSES),
        PASS_TO_SELF => masters = vec![ts],
        _ => {}
    }
    case.masters = set(&masters, random);
    (case.marks, case.points) = (list(random), list(random));
}

/// Marks or access points: mostly alike, a few of them any octets.
fn list<const COUNT: usize>(random: &mut Random) -> [u8; COUNT] {
    let mut octets = [random.pick(&[0, 1, 2, 255]); COUNT];
    for _ in 0..random.below(10) {
        let any = random.octet();
        octets[random.below(COUNT)] = random.pick(&[0, 1, 2, any]);
    }
    octets
}

/// A set of octets: 1 for each master, and at times others that are neither 0 nor 1, which mean as little as 0.
fn set(masters: &[u8], random: &mut Random) -> Addresses {
    let mut octets = [0; 127];
    if random.one_in(3) {
        (0..random.below(5)).for_each(|_| octets[random.below(127)] = random.pick(&[2, 3, 127, 128, 255]));
    }
    masters.iter().for_each(|&master| octets[usize::from(master)] = 1);
    octets
}

/// A queue of any fill whose turn is anywhere, often at the last place, with its row and data area.
fn fill(case: &mut Case, queue: Priority, random: &mut Random) {
    let places = starts::row(random);
    let size = usize::from(places);
    let any = random.below(size + 1);
    let in_use = random.pick(&[0, 1, size, any, any]);
    let any = random.below(in_use + 1);
    let unconfirmed = random.pick(&[0, in_use, any]) as u8;
    let any = random.below(size) as u8;
    let first = random.pick(&[0, places - 1, any]);
    *case.core.counts_mut(queue) =
        Counts { places, first, confirmed: in_use as u8 - unconfirmed, unconfirmed };
    *case.lent_mut(queue) =
        Lent { records: random.octets(size * RECORD), row: Some(size * RECORD), area: Some(size * DATA) };
    case.places[usize::from(queue == Priority::Low)] = places.into();
    for turn in 0..in_use {
        let octets = if turn < in_use - usize::from(unconfirmed) {
            confirmed(random)
        } else {
            unconfirmed_record(case.core.ts, random)
        };
        put(case, queue, turn, &octets);
    }
}

/// The octets of the record so many turns behind the first in use, if the row has them.
pub fn record_mut(case: &mut Case, queue: Priority, turn: usize) -> Option<&mut [u8]> {
    let Counts { places, first, .. } = *case.core.counts(queue);
    let place = (usize::from(first) + turn) % usize::from(places).max(1);
    case.lent_mut(queue).records.get_mut(place * RECORD..(place + 1) * RECORD)
}

fn put(case: &mut Case, queue: Priority, turn: usize, octets: &[u8; RECORD]) {
    record_mut(case, queue, turn).expect("a place of a lawful row").copy_from_slice(octets);
}

/// A confirmed record: a status that is named, and any octets around it, or only any limit.
fn confirmed(random: &mut Random) -> [u8; RECORD] {
    let mut octets =
        if random.one_in(3) { std::array::from_fn(|_| random.octet()) } else { lends::record(random) };
    octets[STATUS] = random.pick(&STATUSES);
    if random.one_in(4) {
        octets[LIMIT] = random.octet();
    }
    octets
}

/// A record that submit would take, with any status and count. Whether it asked is any octet.
fn unconfirmed_record(ts: u8, random: &mut Random) -> [u8; RECORD] {
    let mut octets = lends::record(random);
    if octets[1] == ts {
        octets[1] = (ts + 1) % ADDRESSES;
    }
    octets[STATUS] = random.pick(&[255, 255, octets[STATUS]]);
    octets
}

/// Reply awaited and SDN going out: the queue being served has a request of the fitting service first.
fn in_flight(case: &mut Case, random: &mut Random) {
    if !matches!(case.core.phase, REPLY_AWAITED | SDN_GOING_OUT) {
        return;
    }
    let queue = [Priority::High, Priority::Low][usize::from(case.core.served)];
    let ts = case.core.ts;
    let counts = case.core.counts_mut(queue);
    if counts.unconfirmed == 0 {
        counts.confirmed = counts.confirmed.min(counts.places - 1);
        counts.unconfirmed = 1;
    }
    let turn = usize::from(counts.confirmed);
    let mut octets = unconfirmed_record(ts, random);
    octets[0] = if case.core.phase == SDN_GOING_OUT { SDN } else { random.pick(&[SDA, SRD]) };
    put(case, queue, turn, &octets);
}

/// An output and updates in rule, none at no address among them.
fn buffers(case: &mut Case, random: &mut Random) {
    case.out = Some(random.pick(&[255, 255, 256, 300, 5000]));
    case.clock = clock(random);
    case.room = random.pick(&[0, 1, 1, 2, 255]);
    case.updates = [(); 2].map(|()| random.pick(&[None, Some(0), Some(1), Some(17), Some(243), Some(244)]));
}

/// Octets to hear: frames for this station and others, bad ones, none.
fn heard(case: &Case, random: &mut Random) -> Vec<u8> {
    match random.below(6) {
        0 => vec![TOKEN, case.core.ts, random.pick(&[case.core.ps, case.core.stranger])],
        1 => vec![SHORT],
        2 => draft::noise(random),
        3 => draft::faulty(random),
        _ => {
            let mut frame = draft::Draft::lawful(random, 40);
            frame.da = frame.da & 0x80 | case.core.ts;
            frame.octets()
        }
    }
}

/// A request that submit takes. If it asks for the station's limit it may name any.
fn request(case: &mut Case, random: &mut Random) {
    case.request = unconfirmed_record(case.core.ts, random);
    if case.request[ASKS] != 0 && random.one_in(2) {
        let any = random.octet();
        case.request[LIMIT] = random.pick(&[15, 16, 255, any]);
    }
    case.data = random.pick(&[None, Some(0), Some(1), Some(243), Some(244)]);
}

#[cfg(test)]
mod tests {
    use super::*;
    use crate::refusal::answer;

    /// What is not broken is in rule: only a full row and one with nothing confirmed are refused.
    #[test]
    fn lawful_cases_are_accepted() {
        let mut random = Random::new(5);
        for _ in 0..2000 {
            for (call, _) in CALLS {
                let case = lawful(&mut random, call);
                let refused = match call {
                    Call::Submit(_) => "refused 27",
                    Call::Collect(_) => "refused 28",
                    _ => "ok",
                };
                assert!(["ok", refused].contains(&&answer(&case)[..]), "{}", case.line());
            }
        }
    }
}
