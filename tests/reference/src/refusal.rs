//! Which refusal of document 01's table a forged case meets: every ground that holds, in the order of reading 24, of
//! which the first gives the number. A later ground is looked for only where what it reads can be read.

use crate::cases::{Addresses, Call, Case, Count, Counts};
use crate::cases::{NOBODY, PASS_CHECKED, PASS_TO_SELF, REPLY_AWAITED, SDN, SDN_GOING_OUT};
use crate::queue::{Priority, Refusal, Request, LONGEST_ROW};
use crate::ring::{Ring, ADDRESSES};
use crate::rows::{Record, DATA, RECORD, STATUSES, UNTOUCHED};
use crate::station::LONGEST_UPDATE;

/// A refusal's number and what it is given for.
pub type Ground = (Refusal, &'static str);

pub const QUEUES: [Priority; 2] = [Priority::High, Priority::Low];

/// The least output, and the longest reply that can be remembered.
const OUTPUT: usize = 255;
const LONGEST_REPLY: u16 = 255;

/// What the case is answered: the number of its first ground, or that it is accepted.
pub fn answer(case: &Case) -> String {
    grounds(case).first().map_or("ok".to_string(), |(number, _)| format!("refused {number}"))
}

/// Every ground, in order.
pub fn grounds(case: &Case) -> Vec<Ground> {
    let mut grounds = Vec::new();
    if case.call == Call::Start {
        start(case, 20, &mut grounds);
        let unlawful = |&&places: &&u64| !(1..=u64::from(LONGEST_ROW)).contains(&places);
        grounds.extend(case.places.iter().filter(unlawful).map(|_| (21, "row length 0 or over 64")));
        return grounds;
    }
    rows_lent(case, &mut grounds);
    buffers(case, &mut grounds);
    state(case, &mut grounds);
    match case.call {
        Call::Submit(queue) => submit(case, queue, &mut grounds),
        Call::Collect(queue) => collect(case, queue, &mut grounds),
        Call::Hear | Call::Sent | Call::Slot => records(case, &mut grounds),
        Call::Reset | Call::Start => {}
    }
    grounds
}

/// Adds a ground if it holds.
fn add(grounds: &mut Vec<Ground>, holds: bool, number: Refusal, words: &'static str) {
    if holds {
        grounds.push((number, words));
    }
}

/// What start refuses in settings, TS and set: 20, and in a state 29.
fn start(case: &Case, number: Refusal, grounds: &mut Vec<Ground>) {
    let settings = &case.core.settings;
    add(grounds, !settings.in_range(), number, "setting out of range");
    add(grounds, settings.in_range() && !settings.in_rule(), number, "TSL over 65535");
    add(grounds, case.core.ts >= ADDRESSES, number, "TS over 126");
    add(grounds, is_missing(case, &case.masters), number, "TS not in the set");
}

/// Whether TS is an address that a set does not have.
fn is_missing(case: &Case, set: &Addresses) -> bool {
    set.get(usize::from(case.core.ts)).is_some_and(|&octet| octet != 1)
}

/// The addresses in a set: those whose place holds 1.
pub fn members(octets: &Addresses) -> Vec<u8> {
    (0..ADDRESSES).filter(|&address| octets[usize::from(address)] == 1).collect()
}

fn octets(count: Count) -> usize {
    count.unwrap_or(0)
}

/// 21, for the rows that are lent.
fn rows_lent(case: &Case, grounds: &mut Vec<Ground>) {
    for queue in QUEUES.into_iter().filter(|&queue| case.call.lends(queue)) {
        let (places, lent) = (case.core.counts(queue).places, case.lent(queue));
        add(grounds, !(1..=LONGEST_ROW).contains(&places), 21, "row length 0 or over 64");
        add(grounds, octets(lent.row) != usize::from(places) * RECORD, 21, "row not as started");
        add(grounds, octets(lent.area) != usize::from(places) * DATA, 21, "data not 246 a place");
    }
}

/// 22: reading 29 has it whatever the phase or frame.
fn buffers(case: &Case, grounds: &mut Vec<Ground>) {
    add(grounds, case.call.is_turn() && octets(case.out) < OUTPUT, 22, "output under 255");
    if case.call == Call::Hear {
        add(grounds, octets(case.updates[0]) > LONGEST_UPDATE, 22, "high update over 244");
        add(grounds, octets(case.updates[1]) > LONGEST_UPDATE, 22, "low update over 244");
    }
}

/// 29 by the state alone, in every call that has one (readings 25 to 28).
fn state(case: &Case, grounds: &mut Vec<Ground>) {
    let core = &case.core;
    start(case, 29, grounds);
    add(grounds, is_missing(case, &case.started), 29, "TS not in the set as started");
    add(grounds, core.ps >= ADDRESSES, 29, "PS over 126");
    add(grounds, core.stranger > NOBODY, 29, "stranger over 126");
    add(grounds, core.source > NOBODY, 29, "remembered sender over 126");
    add(grounds, core.length > LONGEST_REPLY, 29, "remembered reply over 255");
    add(grounds, core.phase > PASS_TO_SELF, 29, "no phase");
    add(grounds, core.served > 1, 29, "no queue");
    add(grounds, core.sdn > 1, 29, "neither an SDN nor not");
    add(grounds, core.bit > 1, 29, "no bit");
    for queue in QUEUES {
        counts(core.counts(queue), case.call.lends(queue), grounds);
    }
    phase(case, grounds);
}

/// Counts above the rows; a row that is not lent, and so not judged by 21, has 64 places at most all the same.
fn counts(counts: &Counts, lent: bool, grounds: &mut Vec<Ground>) {
    add(grounds, !lent && counts.places > LONGEST_ROW, 29, "a row over 64 that is not lent");
    add(grounds, counts.first >= counts.places, 29, "turn beyond the row");
    add(grounds, in_use(counts) > counts.places.into(), 29, "counts above the row");
}

pub fn in_use(counts: &Counts) -> u16 {
    u16::from(counts.confirmed) + u16::from(counts.unconfirmed)
}

/// The queue being served, if the number names one.
pub fn served(case: &Case) -> Option<Priority> {
    QUEUES.get(usize::from(case.core.served)).copied()
}

/// A phase at odds with the counts, or with NS.
fn phase(case: &Case, grounds: &mut Vec<Ground>) {
    let core = &case.core;
    let in_flight = matches!(core.phase, REPLY_AWAITED | SDN_GOING_OUT);
    let empty = served(case).is_some_and(|queue| core.counts(queue).unconfirmed == 0);
    add(grounds, in_flight && empty, 29, "nothing in flight");
    if core.ts < ADDRESSES && !is_missing(case, &case.masters) {
        let alone = Ring::of(&members(&case.masters)).next(core.ts) == core.ts;
        add(grounds, core.phase == PASS_CHECKED && alone, 29, "pass checked with NS = TS");
        add(grounds, core.phase == PASS_TO_SELF && !alone, 29, "pass to self with another NS");
    }
}

/// 23 to 26 and 30 for the request itself, once the station's limit is filled in where it asks, then 27.
fn submit(case: &Case, queue: Priority, grounds: &mut Vec<Ground>) {
    let long = octets(case.data).min(DATA + 1);
    let request = Record::read(0, &case.request).request(vec![0; long]);
    let filled = request.filled(case.core.settings.retry_limit);
    grounds.extend(judge(&filled, case.core.ts).map(|number| (number, REQUEST_WORDS[place_of(number)])));
    let counts = case.core.counts(queue);
    add(grounds, in_use(counts) == counts.places.into(), 27, "every place in use");
}

/// What submit refuses in a request: the first of 23 to 26, and 30.
pub fn judge(request: &Request, own: u8) -> impl Iterator<Item = Refusal> {
    let refused = [request.refuse_fields(own), request.refuse_limit()];
    refused.into_iter().filter_map(Result::err)
}

/// What 23 to 26 and 30 are given for, in a request and in an unconfirmed record.
const REQUEST_WORDS: [&str; 5] =
    ["destination", "access point", "service", "data and access points", "limit"];
const RECORD_WORDS: [&str; 5] = [
    "a record's destination",
    "a record's access point",
    "a record's service",
    "a record's data and access points",
    "a record's limit",
];

/// The place of 23 to 26 or 30 in their order.
fn place_of(number: Refusal) -> usize {
    usize::from(number.min(27) - 23)
}

/// 28, then 29 for the status of the record that would be handed back.
fn collect(case: &Case, queue: Priority, grounds: &mut Vec<Ground>) {
    let none = case.core.counts(queue).confirmed == 0;
    add(grounds, none, 28, "none confirmed");
    let unnamed = |record: Record| !STATUSES.contains(&record.status);
    add(grounds, !none && record_at(case, queue, 0).is_some_and(unnamed), 29, "status not named");
}

/// The record so many turns behind the first in use, where row and counts fit each other.
pub fn record_at(case: &Case, queue: Priority, turns: u8) -> Option<Record> {
    let (counts, lent) = (case.core.counts(queue), case.lent(queue));
    let fits = octets(lent.row) == usize::from(counts.places) * RECORD
        && counts.first < counts.places
        && in_use(counts) <= counts.places.into();
    let place = (usize::from(counts.first) + usize::from(turns)) % usize::from(counts.places).max(1);
    let octet = |at: usize| lent.records.get(place * RECORD + at).copied().unwrap_or(UNTOUCHED);
    fits.then(|| Record::read(place, &std::array::from_fn::<u8, RECORD, _>(octet)))
}

/// 29 by the records of both rows: hear, sent and slot.
fn records(case: &Case, grounds: &mut Vec<Ground>) {
    for queue in QUEUES {
        let Counts { confirmed, unconfirmed, .. } = *case.core.counts(queue);
        let turns = (0..unconfirmed).map(|turn| confirmed.wrapping_add(turn));
        let unconfirmed = turns.filter_map(|turn| record_at(case, queue, turn));
        let unfit = unconfirmed.flat_map(|record| judge(&as_sent(&record), case.core.ts));
        grounds.extend(unfit.map(|number| (29, RECORD_WORDS[place_of(number)])));
    }
    let Some(queue) = served(case) else { return };
    let Counts { confirmed, unconfirmed, .. } = *case.core.counts(queue);
    let first = if unconfirmed == 0 { None } else { record_at(case, queue, confirmed) };
    let service = first.map(|record| record.service);
    let awaited = service.is_some_and(|service| service == SDN);
    add(grounds, case.core.phase == REPLY_AWAITED && awaited, 29, "the reply to an SDN awaited");
    let other = service.is_some_and(|service| service != SDN);
    add(grounds, case.core.phase == SDN_GOING_OUT && other, 29, "no SDN going out");
}

/// The request that a record stands for, with data of the length that it states. Its limit is what it holds, whether it
/// asked or not.
pub fn as_sent(record: &Record) -> Request {
    record.request(vec![0; record.length.into()])
}

#[cfg(test)]
mod tests {
    use super::*;
    use crate::cases::{blank, Core, Lent, CALLS};
    use crate::rows::{ASKS, LIMIT};
    use crate::times::STANDARD;

    /// A case in rule: TS 2 with 5 in the ring, rows of two places, an SDA to 7 in each, awaited in the high one.
    fn lawful(call: Call) -> Case {
        let mut case = blank(call);
        for set in [&mut case.masters, &mut case.started] {
            (set[2], set[5]) = (1, 1);
        }
        let counts = Counts { places: 2, first: 1, confirmed: 0, unconfirmed: 1 };
        let core = Core { settings: STANDARD, ts: 2, ps: 5, phase: REPLY_AWAITED, ..case.core };
        case.core = Core { high: counts.clone(), low: counts, ..core };
        let mut records = vec![0; RECORD];
        records.extend([3, 7, 255, 255, 246, 255, 0, 1, 2, 3, 4, 15, 7]);
        case.high = Lent { records, row: Some(26), area: Some(492) };
        case.low = case.high.clone();
        case.request = [12, 7, 62, 62, 0, 0, 0, 255, 255, 255, 255, 15, 0];
        (case.out, case.places) = (Some(255), [1, 64]);
        case
    }

    fn answers(call: Call, change: fn(&mut Case)) -> Vec<Refusal> {
        let mut case = lawful(call);
        change(&mut case);
        let read = Case::read(&case.line()).expect("a line that was written can be read");
        assert_eq!(read.line(), case.line());
        grounds(&read).iter().map(|(number, _)| *number).collect()
    }

    #[test]
    fn nothing_broken() {
        for (call, _) in CALLS {
            let expected = if let Call::Collect(_) = call { vec![28] } else { Vec::new() };
            assert_eq!(answers(call, |_| {}), expected);
        }
    }

    #[test]
    fn every_number_in_its_order() {
        let all: fn(&mut Case) = |case| {
            (case.core.ps, case.high.row, case.out) = (127, Some(25), Some(254));
            (case.request[1], case.request[LIMIT]) = (128, 16);
            (case.data, case.core.high.confirmed) = (Some(247), 1);
        };
        let high = Priority::High;
        assert_eq!(answers(Call::Hear, all), [21, 22, 29]);
        assert_eq!(answers(Call::Reset, all), [21, 29]);
        assert_eq!(answers(Call::Submit(high), all), [21, 29, 23, 30, 27]);
        assert_eq!(answers(Call::Submit(Priority::Low), all), [29, 23, 30]);
        assert_eq!(answers(Call::Collect(Priority::Low), all), [29, 28]);
        assert_eq!(answers(Call::Start, |case| (case.core.ts, case.places[1]) = (3, 0)), [20, 21]);
    }

    #[test]
    fn records_are_judged_by_hear_sent_and_slot() {
        let sdn: fn(&mut Case) = |case| case.high.records[RECORD] = SDN;
        let long: fn(&mut Case) = |case| case.low.records[RECORD + 4] = 247;
        for (call, _) in CALLS.into_iter().filter(|(call, _)| call.is_turn()) {
            assert_eq!((answers(call, sdn), answers(call, long)), (vec![29], vec![29]));
        }
        assert_eq!((answers(Call::Reset, sdn), answers(Call::Reset, long)), (vec![], vec![]));
    }

    /// The limit of an unconfirmed record is a ground of 29, whether it asked or not; that of a confirmed one is none.
    #[test]
    fn limits_are_judged_by_hear_sent_and_slot() {
        let over: fn(&mut Case) = |case| case.low.records[RECORD + LIMIT] = 16;
        let asked: fn(&mut Case) = |case| case.high.records[RECORD + LIMIT] = 255;
        let own: fn(&mut Case) = |case| {
            (case.high.records[RECORD + LIMIT], case.high.records[RECORD + ASKS]) = (255, 0);
        };
        let confirmed: fn(&mut Case) = |case| {
            case.low.records[RECORD + LIMIT] = 255;
            (case.core.low.confirmed, case.core.low.unconfirmed) = (1, 0);
        };
        let free: fn(&mut Case) = |case| case.low.records[LIMIT] = 255;
        for (call, _) in CALLS {
            let judged = if call.is_turn() { vec![29] } else { answers(call, |_| {}) };
            for change in [over, asked, own] {
                assert_eq!(answers(call, change), judged, "{call:?}");
            }
            if call.is_turn() {
                assert_eq!((answers(call, confirmed), answers(call, free)), (vec![], vec![]));
            }
        }
    }

    /// A request that asks has the station's limit, whatever it typed; one that does not is 30 over 15, SDN too.
    #[test]
    fn a_limit_is_filled_before_it_is_judged() {
        let call = Call::Submit(Priority::Low);
        assert_eq!(answers(call, |case| case.request[LIMIT] = 16), [30]);
        assert_eq!(answers(call, |case| (case.request[LIMIT], case.request[ASKS]) = (255, 1)), []);
        assert_eq!(answers(call, |case| (case.request[LIMIT], case.request[ASKS]) = (16, 200)), []);
        assert_eq!(answers(call, |case| (case.request[0], case.request[LIMIT]) = (SDN, 255)), [30]);
        let full: fn(&mut Case) = |case| (case.request[LIMIT], case.core.low.confirmed) = (16, 1);
        assert_eq!(answers(call, full), [30, 27]);
        let long: fn(&mut Case) = |case| (case.request[LIMIT], case.data) = (16, Some(245));
        assert_eq!(answers(call, long), [26, 30]);
    }

    #[test]
    fn phases_at_odds() {
        let alone: fn(&mut Case) = |case| (case.core.phase, case.masters[5]) = (PASS_CHECKED, 2);
        assert_eq!(answers(Call::Reset, alone), [29]);
        assert_eq!(answers(Call::Reset, |case| case.core.phase = PASS_TO_SELF), [29]);
        assert_eq!(answers(Call::Reset, |case| case.core.high.unconfirmed = 0), [29]);
        assert_eq!(answers(Call::Reset, |case| case.core.low.unconfirmed = 0), []);
    }

    #[test]
    fn a_status_that_is_named() {
        let confirmed: fn(&mut Case) = |case| (case.core.low.confirmed, case.core.low.unconfirmed) = (1, 0);
        assert_eq!(answers(Call::Collect(Priority::Low), confirmed), [29]);
    }
}
