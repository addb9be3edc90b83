//! What is broken in a forged case: each number at and past its bounds, sets, rows, buffers, records and requests.

use crate::cases::{Call, Case, Counts, SDA, SDN, SRD};
use crate::cases::{PASS_CHECKED, PASS_TO_SELF, REPLY_AWAITED, SDN_GOING_OUT};
use crate::forged::record_mut;
use crate::lends;
use crate::queue::Priority;
use crate::random::Random;
use crate::refusal::members;
use crate::rows::{ASKS, DATA, LENGTH, LIMIT, RECORD, STATUS};
use crate::starts;

type Break = fn(&mut Case, &mut Random);

/// Breaks one thing that the case's call is given.
pub fn one(case: &mut Case, random: &mut Random) {
    let own: &[(usize, &[Break])] = match case.call {
        Call::Start => &[(3, &SETTINGS), (2, &SETS), (2, &PLACES)],
        Call::Reset => &[(2, &UNCONFIRMED), (1, &CONFIRMED)],
        Call::Submit(_) => &[(8, &REQUESTS), (2, &UNCONFIRMED), (2, &CONFIRMED)],
        Call::Collect(_) => &[(7, &CONFIRMED), (1, &UNCONFIRMED)],
        Call::Hear => &[(1, &OUTPUT), (2, &UPDATES), (4, &UNCONFIRMED), (1, &CONFIRMED)],
        Call::Sent | Call::Slot => &[(2, &OUTPUT), (4, &UNCONFIRMED), (1, &CONFIRMED)],
    };
    let state: &[_] = if case.call == Call::Start { &[] } else { &STATE };
    let tables: Vec<_> = own.iter().chain(state).copied().collect();
    let table = random.weighted(&tables);
    random.pick(table)(case, random);
}

/// What every call with a state is given.
const STATE: [(usize, &[Break]); 6] =
    [(2, &SETTINGS), (2, &SETS), (3, &NUMBERS), (3, &QUEUES), (3, &PHASES), (3, &ROWS)];

/// A queue, more often the one that the call is lent.
fn some_queue(case: &Case, random: &mut Random) -> Priority {
    let any = random.pick(&[Priority::High, Priority::Low]);
    match case.call {
        Call::Submit(own) | Call::Collect(own) => random.pick(&[own, own, any]),
        _ => any,
    }
}

/// Each setting at and past its bounds.
const SETTINGS: [Break; 12] = [
    |case, random| case.core.settings.tset = random.pick(&[0, 19, 20, 255, 256, u32::MAX]),
    |case, random| case.core.settings.tqui = random.pick(&[0, 255, 256, u32::MAX]),
    |case, random| {
        let settings = &mut case.core.settings;
        settings.tqui = settings.min_tsdr.wrapping_sub(random.below(2) as u32);
    },
    |case, random| case.core.settings.min_tsdr = random.pick(&[0, 19, 20, 65_535, 65_536, u32::MAX]),
    |case, random| {
        let settings = &mut case.core.settings;
        settings.max_tsdr = settings.min_tsdr.wrapping_sub(random.below(2) as u32);
    },
    |case, random| case.core.settings.max_tsdr = random.pick(&[65_535, 65_536, 1 << 31, u32::MAX]),
    |case, random| case.core.settings.ttd = random.pick(&[0, 65_535, 65_536, 1 << 31, u32::MAX]),
    |case, random| {
        let settings = &mut case.core.settings;
        if settings.in_range() {
            settings.ttd = starts::longest_delay(settings) + random.pick(&[0, 1, 1, 2]);
        }
    },
    |case, random| case.core.settings.ttr = random.pick(&[0, 19, 20, (1 << 24) - 1, 1 << 24, u32::MAX]),
    |case, random| case.core.settings.retry_limit = random.pick(&[0, 15, 16, 255, 256, u32::MAX]),
    |case, random| case.core.settings.tsdi = random.pick(&[0, 65_535, 65_536, 1 << 31, u32::MAX]),
    |case, random| {
        let settings = &mut case.core.settings;
        if settings.in_range() {
            settings.tsdi = starts::longest_initiator(settings) + random.pick(&[0, 1, 1, 2]);
        }
    },
];

/// Places that hold an octet other than 1, and are so not in the set.
const NOT_IN: [u8; 7] = [0, 0, 2, 3, 127, 129, 255];

/// TS at and past its bound, and sets without it.
const SETS: [Break; 6] = [
    |case, random| case.core.ts = random.pick(&[127, 127, 128, 255]),
    |case, random| *at(&mut case.masters, case.core.ts) = random.pick(&NOT_IN),
    |case, random| *at(&mut case.masters, case.core.ts) = random.pick(&NOT_IN),
    |case, random| *at(&mut case.started, case.core.ts) = random.pick(&NOT_IN),
    |case, random| case.masters = std::array::from_fn(|_| random.octet()),
    |case, random| case.core.ts = random.below(127) as u8,
];

/// The octet of an address; that of 126 for one beyond.
fn at(octets: &mut [u8; 127], address: u8) -> &mut u8 {
    &mut octets[usize::from(address.min(126))]
}

/// The core's other numbers, at and past what they can mean. Sendings and holds begun are any number in rule.
const NUMBERS: [Break; 10] = [
    |case, random| case.core.ps = random.pick(&[126, 127, 128, 255]),
    |case, random| case.core.stranger = random.pick(&[126, 127, 128, 255]),
    |case, random| case.core.source = random.pick(&[126, 127, 128, 255]),
    |case, random| case.core.length = random.pick(&[255, 256, 257, 511, 512, 32_768, 65_535]),
    |case, random| case.core.phase = random.pick(&[5, 6, 128, 255]),
    |case, random| case.core.served = random.pick(&[2, 3, 128, 255]),
    |case, random| case.core.sdn = random.pick(&[2, 3, 128, 255]),
    |case, random| case.core.bit = random.pick(&[2, 3, 128, 255]),
    |case, random| case.core.sendings = random.octet(),
    |case, random| case.core.begun = random.octet(),
];

/// Counts at and above their row.
const QUEUES: [Break; 6] = [
    |case, random| {
        let queue = some_queue(case, random);
        let counts = case.core.counts_mut(queue);
        counts.first = counts.places.saturating_add(random.pick(&[0, 0, 1, 100]));
    },
    |case, random| {
        let queue = some_queue(case, random);
        let counts = case.core.counts_mut(queue);
        counts.confirmed = counts.places.saturating_add(1).saturating_sub(counts.unconfirmed);
    },
    |case, random| {
        let queue = some_queue(case, random);
        let counts = case.core.counts_mut(queue);
        counts.unconfirmed = counts.places.saturating_add(1).saturating_sub(counts.confirmed);
    },
    // Sums that come round to a small number in eight bits.
    |case, random| {
        let queue = some_queue(case, random);
        let counts = case.core.counts_mut(queue);
        (counts.confirmed, counts.unconfirmed) = random.pick(&[(255, 1), (1, 255), (128, 128), (255, 255)]);
    },
    |case, random| {
        let queue = some_queue(case, random);
        let counts = case.core.counts_mut(queue);
        counts.confirmed = counts.places.saturating_sub(counts.unconfirmed);
    },
    // Places that no row has; the row that is lent stays, or has as many.
    |case, random| {
        let queue = some_queue(case, random);
        let places = random.pick(&[0, 65, 65, 66, 128, 255]);
        case.core.counts_mut(queue).places = places;
        if random.one_in(2) {
            as_many(case, queue, places.into());
        }
    },
];

/// Lends a row and an area for so many places.
fn as_many(case: &mut Case, queue: Priority, places: usize) {
    let lent = case.lent_mut(queue);
    (lent.row, lent.area) = (Some(places * RECORD), Some(places * DATA));
}

/// Phases at odds with the queue, with NS or with the service in flight.
const PHASES: [Break; 6] = [
    |case, random| case.core.phase = random.below(5) as u8,
    |case, _| case.core.phase = PASS_TO_SELF,
    |case, _| case.core.served ^= 1,
    |case, random| {
        let queue = some_queue(case, random);
        case.core.counts_mut(queue).unconfirmed = 0;
    },
    |case, random| {
        case.core.phase = random.pick(&[PASS_CHECKED, PASS_TO_SELF]);
        let own = case.core.ts.min(126);
        for master in members(&case.masters).into_iter().filter(|&master| master != own) {
            *at(&mut case.masters, master) = random.pick(&[0, 0, 2]);
        }
    },
    |case, random| {
        case.core.phase = random.pick(&[REPLY_AWAITED, SDN_GOING_OUT]);
        let queue = some_queue(case, random);
        let turn = usize::from(case.core.counts(queue).confirmed);
        if let Some(octets) = record_mut(case, queue, turn) {
            octets[0] = random.pick(&[SDA, SDN, SRD]);
        }
    },
];

/// Octets that a product of 32 bits would not see.
const WRAP: usize = 1 << 32;

/// Rows and areas of other lengths than started.
const ROWS: [Break; 6] = [
    |case, random| {
        let queue = some_queue(case, random);
        let lent = case.lent_mut(queue);
        lent.row = Some(around(lent.row, RECORD, random));
    },
    |case, random| {
        let queue = some_queue(case, random);
        let lent = case.lent_mut(queue);
        lent.area = Some(around(lent.area, DATA, random));
    },
    |case, random| {
        let queue = some_queue(case, random);
        case.lent_mut(queue).row = random.pick(&[None, Some(0)]);
    },
    |case, random| {
        let queue = some_queue(case, random);
        case.lent_mut(queue).area = random.pick(&[None, Some(0)]);
    },
    // A row and its area of another number of places than started.
    |case, random| {
        let queue = some_queue(case, random);
        let places = usize::from(case.core.counts(queue).places);
        as_many(case, queue, random.pick(&[0, 1, 2, 64, 65, places + 1, places.saturating_sub(1)]));
    },
    // The lengths of the other queue.
    |case, _| std::mem::swap(&mut case.high, &mut case.low),
];

/// A count one octet or one place off, or that comes round to the right one in 8, 16 or 32 bits.
fn around(count: Option<usize>, place: usize, random: &mut Random) -> usize {
    let count = count.unwrap_or(0);
    let far = random.pick(&[256, 1 << 16, 1 << 20, WRAP]);
    random.pick(&[
        count + 1,
        count.saturating_sub(1),
        count + place,
        count.saturating_sub(place),
        count + far,
    ])
}

/// Outputs at and under 255 octets.
const OUTPUT: [Break; 2] = [
    |case, random| case.out = random.pick(&[None, Some(0), Some(1), Some(3), Some(254), Some(255)]),
    |case, random| case.out = random.pick(&[Some(254), Some(254), Some(256), Some(1 << 16), Some(1 << 20)]),
];

/// Updates at and over 244 octets.
const UPDATES: [Break; 2] = [
    |case, random| case.updates[random.below(2)] = random.pick(&[Some(245), Some(246), Some(255), Some(256)]),
    |case, random| {
        case.updates[random.below(2)] =
            random.pick(&[Some(244), Some(300), Some(1 << 16), Some(WRAP), Some(WRAP + 9)])
    },
];

/// An unconfirmed record with something that submit may refuse.
const UNCONFIRMED: [Break; 2] = [
    |case, random| {
        let ts = case.core.ts;
        if let Some(octets) = waiting(case, random) {
            let mut record = std::array::from_fn(|at| octets[at]);
            random.pick(&lends::FAULTS)(&mut record, random, ts);
            octets.copy_from_slice(&record);
        }
    },
    |case, random| {
        if let Some(octets) = waiting(case, random) {
            octets[random.below(RECORD)] = random.octet();
        }
    },
];

/// The octets of an unconfirmed record, the first, the last or any, if there is one within the row.
fn waiting<'a>(case: &'a mut Case, random: &mut Random) -> Option<&'a mut [u8]> {
    let mut queue = some_queue(case, random);
    if case.core.counts(queue).unconfirmed == 0 {
        queue = if queue == Priority::High { Priority::Low } else { Priority::High };
    }
    let Counts { confirmed, unconfirmed, .. } = *case.core.counts(queue);
    let last = usize::from(unconfirmed).checked_sub(1)?;
    let any = random.below(last + 1);
    let turn = random.pick(&[0, last, any]);
    record_mut(case, queue, usize::from(confirmed) + turn)
}

/// The oldest confirmed record with any octet changed, most often its status; and none confirmed.
const CONFIRMED: [Break; 4] = [
    |case, random| oldest(case, random, STATUS),
    |case, random| oldest(case, random, STATUS),
    |case, random| {
        let octet = random.below(RECORD);
        oldest(case, random, octet);
    },
    |case, random| {
        let queue = some_queue(case, random);
        case.core.counts_mut(queue).confirmed = 0;
    },
];

fn oldest(case: &mut Case, random: &mut Random, octet: usize) {
    let queue = some_queue(case, random);
    let confirmed = case.core.counts(queue).confirmed;
    let any = random.octet();
    if let Some(octets) = record_mut(case, queue, 0).filter(|_| confirmed > 0) {
        octets[octet] = random.pick(&[any, 4, 7, 11, 14, 15, 18, 255]);
    }
}

/// What submit may refuse in its request, each in one way or just not, and a row that is full.
const REQUESTS: [Break; 10] = [
    |case, random| faulty_request(case, random),
    |case, random| faulty_request(case, random),
    |case, random| faulty_request(case, random),
    |case, random| case.request[0] = random.pick(&[0, 2, 5, 6, 9, 13, 255]),
    |case, random| {
        case.data = random.pick(&[Some(244), Some(245), Some(246), Some(247), Some(256), Some(1 << 16)])
    },
    |case, random| case.data = random.pick(&[Some(247), Some(300), Some(WRAP), Some(WRAP + 5)]),
    |case, random| {
        let queue = some_queue(case, random);
        let counts = case.core.counts_mut(queue);
        counts.confirmed = counts.places.saturating_sub(counts.unconfirmed);
    },
    |case, random| {
        faulty_request(case, random);
        faulty_request(case, random);
    },
    |case, random| own_limit(case, random),
    // And something else that comes before it, or just not.
    |case, random| {
        own_limit(case, random);
        faulty_request(case, random);
    },
];

fn faulty_request(case: &mut Case, random: &mut Random) {
    case.request[LENGTH] = 0;
    random.pick(&lends::FAULTS)(&mut case.request, random, case.core.ts);
    if case.request[LENGTH] > 0 {
        case.data = Some(case.request[LENGTH].into());
    }
}

/// A limit of the request's own, at or over 15.
fn own_limit(case: &mut Case, random: &mut Random) {
    (case.request[LIMIT], case.request[ASKS]) = (random.pick(&[15, 16, 17, 128, 255]), 0);
}

/// Row lengths that start may refuse.
const PLACES: [Break; 2] = [
    |case, random| case.places[random.below(2)] = random.pick(&[0, 1, 64, 65, 66, 255, 256]),
    |case, random| {
        case.places[random.below(2)] = random.pick(&[257, 1 << 16, (1 << 32) + 1, (1 << 63) + 1, u64::MAX])
    },
];
