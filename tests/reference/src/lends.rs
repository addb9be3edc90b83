//! The script of rows: runs of submit, confirm and collect in rows that are well laid out, and single calls on rows of
//! wrong lengths, with wrong counts and with any octets as records.

use crate::draft::data_count;
use crate::random::Random;
use crate::rows::{Record, ASKS, DATA, LENGTH, LIMIT, RECORD, REFERENCE, STATUSES};
use crate::text::hex;

/// What records hold where none was submitted yet.
const BEFORE: u8 = 0xAA;

const SERVICES: [u8; 3] = [3, 4, 12];
const NO_POINT: u8 = 255;

/// The calls on rows, at least `count` in runs and as many on damaged rows.
pub fn rows(seed: u64, count: usize) -> Vec<String> {
    let mut random = Random::new(seed);
    let mut calls = Vec::new();
    while calls.len() < count {
        run(&mut random, &mut calls);
    }
    while calls.len() < 2 * count {
        damaged(&mut random, &mut calls);
    }
    calls
}

/// The numbers of a `row` call.
struct Lent {
    own: u8,
    places: u8,
    first: u8,
    confirmed: u8,
    unconfirmed: u8,
    records: Vec<u8>,
    area: usize,
}

impl Lent {
    fn call(&self) -> String {
        let Lent { own, places, first, confirmed, unconfirmed, records, area } = self;
        format!("row {own} {places} {first} {confirmed} {unconfirmed} {} {area}", hex(records))
    }
}

fn some_places(random: &mut Random) -> u8 {
    match random.below(8) {
        0 => 1,
        1 => 2,
        2 => 64,
        3 => 1 + random.below(64) as u8,
        _ => 3 + random.below(6) as u8,
    }
}

/// A run in a row that begins with no request, now filling it and now emptying it.
fn run(random: &mut Random, calls: &mut Vec<String>) {
    let own = random.below(127) as u8;
    let places = some_places(random);
    let size = usize::from(places);
    let first = if random.one_in(4) { random.below(size) as u8 } else { 0 };
    let records = vec![BEFORE; RECORD * size];
    calls.push(Lent { own, places, first, confirmed: 0, unconfirmed: 0, records, area: DATA * size }.call());
    let mut fills = true;
    for _ in 0..50 + random.below(10 * size + 1) {
        if random.one_in(3 * size + 8) {
            fills = !fills;
        }
        let submits = if fills { 7 } else { 2 };
        calls.push(match random.below(12) {
            below if below < submits => submit(random, own),
            below if below < 9 => confirm(random),
            _ => "collect".to_string(),
        });
        if random.one_in(20 + 4 * size) {
            calls.push(random.pick(&["sound", "look", "records"]).to_string());
        }
        if random.one_in(100) {
            calls.push(drain(random));
        }
    }
    calls.extend(["sound", "look", "records"].map(str::to_string));
}

/// A submit, one in six with something that may be refused. Whether it asks is any octet.
fn submit(random: &mut Random, own: u8) -> String {
    let mut record = record(random);
    if random.one_in(6) {
        random.pick(&FAULTS)(&mut record, random, own);
    }
    let most = if random.one_in(8) { DATA + 4 } else { 12 };
    let count = data_count(random, most);
    let [service, destination, to, from, ..] = record;
    let (reference, limit, asks) = (Record::read(0, &record).reference, record[LIMIT], record[ASKS]);
    let (to, from, data) = (point_word(to), point_word(from), hex(&random.octets(count)));
    format!("submit {service} {destination} {to} {from} {reference} {limit} {asks} {data}")
}

fn point_word(point: u8) -> String {
    if point == NO_POINT {
        return "-".to_string();
    }
    point.to_string()
}

fn confirm(random: &mut Random) -> String {
    let with_data = random.one_in(3);
    let most = if random.one_in(6) { DATA + 4 } else { 12 };
    let count = if with_data { data_count(random, most) } else { 0 };
    format!("confirm {} {} {}", random.pick(&STATUSES), random.octet(), hex(&random.octets(count)))
}

fn drain(random: &mut Random) -> String {
    format!("drain {}", random.octet())
}

/// The octets of a record that submit takes of most stations.
pub fn record(random: &mut Random) -> [u8; RECORD] {
    let point = |random: &mut Random| if random.one_in(2) { NO_POINT } else { random.below(63) as u8 };
    let (service, destination) = (random.pick(&SERVICES), random.below(127) as u8);
    let (to, from, length) = (point(random), point(random), data_count(random, 244) as u8);
    let mut record = [0; RECORD];
    record[..REFERENCE].copy_from_slice(&[
        service,
        destination,
        to,
        from,
        length,
        random.pick(&STATUSES),
        random.octet(),
    ]);
    let any = random.below(1 << 32) as u32;
    let reference = random.pick(&[0, 1, 1 << 31, u32::MAX, any, any]);
    record[REFERENCE..LIMIT].copy_from_slice(&reference.to_le_bytes());
    let any = random.octet();
    (record[LIMIT], record[ASKS]) = (random.below(16) as u8, random.pick(&[0, 0, 1, 1, 2, any]));
    record
}

/// What submit may refuse in a record, each in one way or just not.
pub const FAULTS: [fn(&mut [u8; RECORD], &mut Random, u8); 8] = [
    |record, random, _| record[0] = random.octet(),
    |record, _, own| record[1] = own,
    |record, random, _| record[1] = random.pick(&[126, 127, 128, 255]),
    |record, random, _| (record[0], record[1]) = (random.pick(&SERVICES), 127),
    |record, random, _| record[2] = random.pick(&[62, 63, 64, 254]),
    |record, random, _| record[3] = random.pick(&[62, 63, 64, 254]),
    |record, random, _| record[LENGTH] = 243 + random.below(13) as u8,
    |record, random, _| record[LIMIT] = random.pick(&[15, 16, 17, 128, 255]),
];

/// A row with some fault in its lengths, its counts or its records, and every call on it.
fn damaged(random: &mut Random, calls: &mut Vec<String>) {
    let own = random.below(127) as u8;
    let places = some_places(random);
    let size = usize::from(places);
    let confirmed = random.below(size + 1) as u8;
    let mut lent = Lent {
        own,
        places,
        first: random.below(size) as u8,
        confirmed,
        unconfirmed: random.below(size + 1 - usize::from(confirmed)) as u8,
        records: (0..size).flat_map(|_| any_record(random, own)).collect(),
        area: DATA * size,
    };
    random.pick(&DAMAGES)(&mut lent, random);
    calls.push(lent.call());
    for _ in 0..4 {
        calls.push(submit(random, own));
        calls.push("sound".to_string());
        calls.push(any_confirm(random));
        calls.push("collect".to_string());
    }
    calls.push(drain(random));
    calls.push("collect".to_string());
    if random.one_in(4) {
        calls.extend(["look", "records"].map(str::to_string));
    }
}

/// A confirmation with any status.
fn any_confirm(random: &mut Random) -> String {
    if random.one_in(2) {
        return confirm(random);
    }
    format!("confirm {} {} -", random.octet(), random.octet())
}

/// A record that is in rule, has one fault, or has any octets at all.
fn any_record(random: &mut Random, own: u8) -> [u8; RECORD] {
    let mut record = record(random);
    match random.below(8) {
        0 => record = std::array::from_fn(|_| random.octet()),
        1 => record[random.below(RECORD)] = random.octet(),
        2 => random.pick(&FAULTS)(&mut record, random, own),
        _ => {}
    }
    record
}

/// Faults of a row's lengths and counts; the last few leave them as they are, so that the records decide.
const DAMAGES: [fn(&mut Lent, &mut Random); 13] = [
    |lent, random| {
        let count = lent.records.len() + random.pick(&[1, RECORD - 1, RECORD, RECORD + 1]);
        lent.records.resize(count, BEFORE);
    },
    |lent, random| {
        let count = lent.records.len() - random.pick(&[1, RECORD - 1, RECORD]);
        lent.records.truncate(count);
    },
    // As many octets as a row had while a record had no reference and no limit.
    |lent, _| lent.records.truncate(REFERENCE * usize::from(lent.places)),
    |lent, random| lent.area += random.pick(&[1, 245, 246, 247]),
    |lent, random| lent.area -= random.pick(&[1, 245, 246]),
    |lent, random| {
        lent.places = random.pick(&[0, 65, 66, 255]);
        lent.records = vec![BEFORE; RECORD * usize::from(lent.places)];
        lent.area = DATA * usize::from(lent.places);
    },
    |lent, random| lent.places = lent.places.wrapping_add(random.pick(&[1, 255])),
    |lent, random| lent.first = lent.places + random.pick(&[0, 1, 100]),
    |lent, random| lent.confirmed = lent.places + 1 - lent.unconfirmed + random.pick(&[0, 1, 100]),
    |lent, random| (lent.confirmed, lent.unconfirmed) = (random.octet(), random.octet()),
    |_, _| {},
    |_, _| {},
    |_, _| {},
];
