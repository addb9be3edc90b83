//! What a forged case may hold and yet not be refused for: bounds that are just kept, numbers that the table does not
//! name (reading 27), and records that the call does not judge. A library that refused them would refuse too much.

use crate::cases::{Call, Case, Counts, NOBODY, PASS_CHECKED, REPLY_AWAITED, SDN, SDN_GOING_OUT};
use crate::queue::{Priority, MOST_RETRIES};
use crate::refusal::{as_sent, in_use, judge, members, record_at, served, QUEUES};
use crate::rows::{Record, ASKS, LIMIT, RECORD, STATUSES};

/// Its words, which calls can be accepted with it, and whether a case has it.
pub type Oddity = (&'static str, fn(Call) -> bool, fn(&Case) -> bool);

pub const ODDITIES: [Oddity; 35] = [
    ("TSL of 65534 or 65535", any, |case| case.core.settings.tsl() >= 65_534),
    ("a retry limit of 15", any, |case| case.core.settings.retry_limit == 15),
    ("Tid1 over Tid2", any, |case| case.core.settings.tid1() > case.core.settings.tid2()),
    ("TS 126", any, |case| case.core.ts == 126),
    ("TS alone in the set", any, |case| members(&case.masters) == [case.core.ts]),
    ("a set with octets over 1", any, |case| case.masters.iter().any(|&octet| octet > 1)),
    ("points with octets over 1", any, |case| case.points.iter().any(|&octet| octet > 1)),
    ("a set as started with octets over 1", stated, |case| case.started.iter().any(|&octet| octet > 1)),
    ("PS not in the set", stated, |case| !members(&case.masters).contains(&case.core.ps)),
    ("a mark over 2", stated, |case| case.marks.iter().any(|&mark| mark > 2)),
    ("a request in flight never sent", stated, |case| in_flight(case) && case.core.sendings == 0),
    ("a request in flight sent too often", stated, |case| {
        first(case).is_some_and(|record| u16::from(case.core.sendings) > u16::from(record.limit) + 1)
    }),
    ("a request in flight sent beyond the station's limit", stated, |case| {
        let sendings = u32::from(case.core.sendings);
        let beyond = sendings > case.core.settings.retry_limit + 1;
        first(case).is_some_and(|record| beyond && sendings <= u32::from(record.limit) + 1)
    }),
    ("a token checked that was sent 0 or over 3 times", stated, |case| {
        case.core.phase == PASS_CHECKED && !(1..=3).contains(&case.core.sendings)
    }),
    ("more than two holds begun", stated, |case| case.core.begun > 2),
    ("a remembered reply of 255", stated, |case| case.core.length == 255),
    ("a reply remembered from nobody", stated, |case| case.core.source == NOBODY && case.core.length > 0),
    ("a row of 64", stated, |case| queues(case).any(|counts| counts.places == 64)),
    ("a turn at the last of more places", stated, |case| {
        queues(case).any(|counts| counts.first > 0 && counts.first + 1 == counts.places)
    }),
    ("every place of a row in use", stated, |case| {
        queues(case).any(|counts| in_use(counts) == counts.places.into())
    }),
    ("an unfit confirmed record", stated, |case| confirmed(case).any(|record| is_unfit(case, &record))),
    ("an unfit free record", stated, |case| free(case).any(|record| is_unfit(case, &record))),
    ("an unfit unconfirmed record", judges_none, |case| {
        unconfirmed(case).any(|record| is_unfit(case, &record))
    }),
    ("a confirmed record with an unnamed status", stated, |case| {
        confirmed(case).any(|record| !STATUSES.contains(&record.status))
    }),
    ("a service at odds with the phase", judges_none, is_at_odds),
    ("an unconfirmed record's limit of 15", stated, |case| {
        unconfirmed(case).any(|record| record.limit == 15)
    }),
    ("an unconfirmed record's limit above the station's", stated, |case| {
        unconfirmed(case)
            .any(|record| !is_over(&record) && u32::from(record.limit) > case.core.settings.retry_limit)
    }),
    ("a record that asked with another limit than the station's", stated, |case| {
        unconfirmed(case)
            .any(|record| record.asks && u32::from(record.limit) != case.core.settings.retry_limit)
    }),
    ("an unconfirmed record's limit over 15", judges_none, |case| {
        unconfirmed(case).any(|record| is_over(&record))
    }),
    ("a confirmed record's limit over 15", stated, |case| confirmed(case).any(|record| is_over(&record))),
    ("a free record's limit over 15", stated, |case| free(case).any(|record| is_over(&record))),
    ("an unconfirmed record whose flag is over 1", stated, |case| {
        flags(case, |counts| counts.confirmed..counts.confirmed + counts.unconfirmed).any(|flag| flag > 1)
    }),
    ("a confirmed record whose flag is over 1", stated, |case| {
        flags(case, |counts| 0..counts.confirmed).any(|flag| flag > 1)
    }),
    ("a request with an own limit of 15", submits, |case| {
        case.request[LIMIT] == 15 && case.request[ASKS] == 0
    }),
    ("a request that asks and types a limit over 15", submits, |case| {
        case.request[LIMIT] > MOST_RETRIES && case.request[ASKS] != 0
    }),
];

fn any(_: Call) -> bool {
    true
}

fn stated(call: Call) -> bool {
    call != Call::Start
}

fn submits(call: Call) -> bool {
    matches!(call, Call::Submit(_))
}

/// The calls that have a state and judge no unconfirmed record.
fn judges_none(call: Call) -> bool {
    stated(call) && !call.is_turn()
}

fn in_flight(case: &Case) -> bool {
    matches!(case.core.phase, REPLY_AWAITED | SDN_GOING_OUT)
}

fn queues(case: &Case) -> impl Iterator<Item = &Counts> {
    QUEUES.into_iter().map(|queue| case.core.counts(queue))
}

/// So many records of each row that is lent, from a turn on.
fn records(case: &Case, turns: fn(&Counts) -> std::ops::Range<u8>) -> impl Iterator<Item = Record> + '_ {
    let lent = QUEUES.into_iter().filter(|&queue| case.call.lends(queue));
    let turn = move |queue: Priority| turns(case.core.counts(queue)).map(move |turn| (queue, turn));
    lent.flat_map(turn).filter_map(|(queue, turn)| record_at(case, queue, turn))
}

fn confirmed(case: &Case) -> impl Iterator<Item = Record> + '_ {
    records(case, |counts| 0..counts.confirmed)
}

fn unconfirmed(case: &Case) -> impl Iterator<Item = Record> + '_ {
    records(case, |counts| counts.confirmed..counts.confirmed + counts.unconfirmed)
}

fn free(case: &Case) -> impl Iterator<Item = Record> + '_ {
    records(case, |counts| counts.confirmed + counts.unconfirmed..counts.places)
}

fn is_unfit(case: &Case, record: &Record) -> bool {
    judge(&as_sent(record), case.core.ts).next().is_some()
}

fn is_over(record: &Record) -> bool {
    record.limit > MOST_RETRIES
}

/// The octets that say whether records asked, of so many records of each row that is lent, from a turn on.
fn flags(case: &Case, turns: fn(&Counts) -> std::ops::Range<u8>) -> impl Iterator<Item = u8> + '_ {
    let lent = QUEUES.into_iter().filter(|&queue| case.call.lends(queue));
    lent.flat_map(move |queue| {
        let Counts { first, places, .. } = *case.core.counts(queue);
        let place = move |turn: u8| (usize::from(first) + usize::from(turn)) % usize::from(places).max(1);
        let records = &case.lent(queue).records;
        turns(case.core.counts(queue))
            .filter_map(move |turn| records.get(place(turn) * RECORD + ASKS).copied())
    })
}

/// The request in flight, where its row is lent.
fn first(case: &Case) -> Option<Record> {
    let queue = served(case).filter(|&queue| in_flight(case) && case.call.lends(queue))?;
    record_at(case, queue, case.core.counts(queue).confirmed)
}

/// Reply awaited with an SDN in flight, or SDN going out with another service.
fn is_at_odds(case: &Case) -> bool {
    first(case).is_some_and(|record| (record.service == SDN) != (case.core.phase == SDN_GOING_OUT))
}
