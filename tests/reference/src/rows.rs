//! A row of request records and its data area, as lent to the calls on them: a plain queue of document 01. What lies in
//! a record's octets, tests/parts.h says.

use std::collections::VecDeque;

use crate::queue::{Refusal, Request, Service, LONGEST_ROW};

/// The octets of a record, and those of a place's data.
pub const RECORD: usize = 13;
pub const DATA: usize = 246;

/// Where in a record these lie; the reference has the four octets from its place on, the lowest first.
pub const LENGTH: usize = 4;
pub const STATUS: usize = 5;
pub const REFERENCE: usize = 7;
pub const LIMIT: usize = 11;
pub const ASKS: usize = 12;

/// The statuses that document 01 names for a confirmed record, by their octets (tests/parts.h).
pub const STATUSES: [u8; 11] = [0, 1, 2, 3, 8, 9, 10, 12, 13, NOT_ANSWERED, DISCONNECTED];

const NOT_ANSWERED: u8 = 16;
const DISCONNECTED: u8 = 17;
const WAITING: u8 = 255;

/// The octet that stands for no access point.
const NO_POINT: u8 = 255;

/// What an area holds before the first call.
pub const UNTOUCHED: u8 = 0xAA;

/// More than any row's area: one laid out larger is cut to this, and is refused all the same.
const LARGEST_AREA: usize = 1 << 20;

/// A record in use, with the length that it states for its data.
#[derive(Clone)]
pub struct Record {
    pub place: usize,
    pub service: u8,
    pub destination: u8,
    pub to: Option<u8>,
    pub from: Option<u8>,
    pub length: u8,
    pub status: u8,
    pub count: u8,
    pub reference: u32,
    pub limit: u8,
    pub asks: bool,
}

impl Record {
    /// The record that a place's octets hold, whatever they are. It asks if that octet is not 0.
    pub fn read(place: usize, octets: &[u8]) -> Record {
        let point = |octet: u8| (octet != NO_POINT).then_some(octet);
        Record {
            place,
            service: octets[0],
            destination: octets[1],
            to: point(octets[2]),
            from: point(octets[3]),
            length: octets[LENGTH],
            status: octets[STATUS],
            count: octets[6],
            reference: octets[REFERENCE..LIMIT]
                .iter()
                .rev()
                .fold(0, |high, &octet| high << 8 | u32::from(octet)),
            limit: octets[LIMIT],
            asks: octets[ASKS] != 0,
        }
    }

    /// The octets that are written for it: whether it asks is 0 or 1.
    fn octets(&self) -> [u8; RECORD] {
        let point = |point: Option<u8>| point.unwrap_or(NO_POINT);
        let [lowest, low, high, highest] = self.reference.to_le_bytes();
        [
            self.service,
            self.destination,
            point(self.to),
            point(self.from),
            self.length,
            self.status,
            self.count,
            lowest,
            low,
            high,
            highest,
            self.limit,
            self.asks.into(),
        ]
    }

    /// The request that submit judges. Every service that it does not take is alike to it.
    pub fn request(&self, data: Vec<u8>) -> Request {
        let service = match self.service {
            3 => Service::Sda,
            4 => Service::Sdn,
            12 => Service::Srd,
            _ => Service::LsapStatus,
        };
        Request {
            service,
            destination: self.destination,
            to: self.to,
            from: self.from,
            data,
            reference: self.reference,
            limit: self.limit,
            asks: self.asks,
        }
    }

    /// Whether submit would refuse this record for itself, by the length that it states.
    fn is_refused(&self, own: u8) -> bool {
        self.request(vec![0; usize::from(self.length)]).refuse(own).is_err()
    }
}

/// What `row` lays out: the queue's numbers, its records' octets and the size of its data area.
pub struct Layout {
    pub own: u8,
    pub places: u8,
    pub first: u8,
    pub confirmed: u8,
    pub unconfirmed: u8,
    pub records: Vec<u8>,
    pub area: usize,
}

impl Layout {
    /// What every call refuses first: 21 for a row or area that does not fit, 29 for counts above the row.
    fn refuse(&self) -> Result<(), Refusal> {
        let places = usize::from(self.places);
        let lawful = (1..=LONGEST_ROW).contains(&self.places);
        if !lawful || self.records.len() != places * RECORD || self.area != places * DATA {
            return Err(21);
        }
        let in_use = usize::from(self.confirmed) + usize::from(self.unconfirmed);
        if self.first >= self.places || in_use > places {
            return Err(29);
        }
        Ok(())
    }

    /// So many records in turn, after the oldest so many; for a layout that is not refused.
    fn records(&self, skipped: u8, count: u8) -> VecDeque<Record> {
        let start = usize::from(self.first) + usize::from(skipped);
        let places = (start..start + usize::from(count)).map(|turn| turn % usize::from(self.places));
        places.map(|place| Record::read(place, &self.records[place * RECORD..][..RECORD])).collect()
    }
}

/// A queue over its lent row and area; where its layout is refused it holds no records.
pub struct Row {
    pub area: Vec<u8>,
    pub octets: Vec<u8>,
    fit: Result<(), Refusal>,
    laid_out: (usize, usize, usize),
    own: u8,
    places: usize,
    first: usize,
    confirmed: VecDeque<Record>,
    unconfirmed: VecDeque<Record>,
}

impl Row {
    /// The data area holds 0xAA everywhere before the first call.
    pub fn new(layout: Layout) -> Row {
        let fit = layout.refuse();
        let (confirmed, unconfirmed) = match fit {
            Ok(()) => {
                (layout.records(0, layout.confirmed), layout.records(layout.confirmed, layout.unconfirmed))
            }
            Err(_) => (VecDeque::new(), VecDeque::new()),
        };
        Row {
            area: vec![UNTOUCHED; layout.area.min(LARGEST_AREA)],
            octets: layout.records,
            fit,
            laid_out: (layout.first.into(), layout.confirmed.into(), layout.unconfirmed.into()),
            own: layout.own,
            places: layout.places.into(),
            first: layout.first.into(),
            confirmed,
            unconfirmed,
        }
    }

    /// The first place in use, and how many requests are confirmed and not; as laid out if that is refused.
    pub fn counts(&self) -> (usize, usize, usize) {
        match self.fit {
            Ok(()) => (self.first, self.confirmed.len(), self.unconfirmed.len()),
            Err(_) => self.laid_out,
        }
    }

    /// Takes the next place in turn, and gives its number. The limit is looked at and stored as it is given: it is the
    /// station that fills it. 21, 29, 23 to 26, 30, 27.
    pub fn submit(&mut self, record: Record, data: &[u8]) -> Result<usize, Refusal> {
        self.fit?;
        record.request(data.to_vec()).refuse(self.own)?;
        let in_use = self.confirmed.len() + self.unconfirmed.len();
        if in_use == self.places {
            return Err(27);
        }
        let place = (self.first + in_use) % self.places;
        let length = self.write(place, data);
        let record = Record { place, length, status: WAITING, count: 0, ..record };
        self.put(&record);
        self.unconfirmed.push_back(record);
        Ok(place)
    }

    /// Confirms the first unconfirmed request. 21, 29, 28 if there is none, 26 for data over 246.
    pub fn confirm(&mut self, status: u8, count: u8, data: &[u8]) -> Result<(), Refusal> {
        self.fit?;
        if self.unconfirmed.is_empty() {
            return Err(28);
        }
        if data.len() > DATA {
            return Err(26);
        }
        self.confirm_first(status, count, data);
        Ok(())
    }

    /// Confirms all unconfirmed requests DS, the first with this count of sendings. 21, 29.
    pub fn drain(&mut self, count: u8) -> Result<(), Refusal> {
        self.fit?;
        let mut sendings = count;
        while !self.unconfirmed.is_empty() {
            self.confirm_first(DISCONNECTED, sendings, &[]);
            sendings = 0;
        }
        Ok(())
    }

    /// Hands back the oldest confirmed record with its data, and frees its place. 21, 29, 28, 29.
    pub fn collect(&mut self) -> Result<(Record, &[u8]), Refusal> {
        self.fit?;
        let record = self.confirmed.front().ok_or(28)?.clone();
        if !STATUSES.contains(&record.status) {
            return Err(29);
        }
        self.confirmed.pop_front();
        self.first = (self.first + 1) % self.places;
        let length = DATA.min(record.length.into());
        let data = &self.area[record.place * DATA..][..length];
        Ok((record, data))
    }

    /// The refusal of the queue and its unconfirmed records as frame, sent and slot give it: 21, 29.
    pub fn sound(&self) -> Result<(), Refusal> {
        self.fit?;
        if self.unconfirmed.iter().any(|record| record.is_refused(self.own)) {
            return Err(29);
        }
        Ok(())
    }

    /// Moves the first unconfirmed record, if there is one, behind the confirmed ones.
    fn confirm_first(&mut self, status: u8, count: u8, data: &[u8]) {
        if let Some(record) = self.unconfirmed.pop_front() {
            let length = self.write(record.place, data);
            let record = Record { length, status, count, ..record };
            self.put(&record);
            self.confirmed.push_back(record);
        }
    }

    /// Writes a record at its place of the row.
    fn put(&mut self, record: &Record) {
        self.octets[record.place * RECORD..][..RECORD].copy_from_slice(&record.octets());
    }

    /// Puts data, at most 246 octets, at the start of a place's part of the area, and gives their number.
    fn write(&mut self, place: usize, data: &[u8]) -> u8 {
        self.area[place * DATA..][..data.len()].copy_from_slice(data);
        u8::try_from(data.len()).expect("data of one place")
    }
}

#[cfg(test)]
mod tests {
    use super::*;
    use crate::queue::{Queue, Status};
    use crate::random::Random;

    const OWN: u8 = 2;
    const NAMED: [Status; 11] = [
        Status::Ok,
        Status::Ue,
        Status::Rr,
        Status::Rs,
        Status::Dl,
        Status::Nr,
        Status::Dh,
        Status::Rdl,
        Status::Rdh,
        Status::Na,
        Status::Ds,
    ];

    /// A record of these octets with the reference 0x04030201 and no retries, which asks for nothing.
    fn rest(octets: [u8; REFERENCE]) -> [u8; RECORD] {
        let mut record = [0, 0, 0, 0, 0, 0, 0, 1, 2, 3, 4, 0, 0];
        record[..REFERENCE].copy_from_slice(&octets);
        record
    }

    /// A layout that fits, all of its records being SDA to 7 without data or access points, waiting.
    fn layout(places: u8, first: u8, confirmed: u8, unconfirmed: u8) -> Layout {
        let records = rest([3, 7, 255, 255, 0, 255, 0]).repeat(places.into());
        let area = usize::from(places) * DATA;
        Layout { own: OWN, places, first, confirmed, unconfirmed, records, area }
    }

    /// A layout of two places whose only record in use, at place 1, holds these octets.
    fn one(confirmed: bool, octets: [u8; RECORD]) -> Layout {
        let mut layout = layout(2, 1, confirmed.into(), (!confirmed).into());
        layout.records[RECORD..].copy_from_slice(&octets);
        layout
    }

    /// A record that submit takes; the length, status and count that it brings are not for submit.
    fn sda() -> Record {
        Record::read(0, &rest([3, 7, 255, 255, 99, 98, 97]))
    }

    /// The answers of submit, confirm, drain, collect and the record check, 0 for none, each on a fresh row.
    fn answers(lay_out: impl Fn() -> Layout, record: Record, data: &[u8]) -> [Refusal; 5] {
        let calls: [&dyn Fn(&mut Row) -> Result<(), Refusal>; 5] = [
            &|row| row.submit(record.clone(), data).map(|_| ()),
            &|row| row.confirm(0, 1, data),
            &|row| row.drain(1),
            &|row| row.collect().map(|_| ()),
            &|row| row.sound(),
        ];
        calls.map(|call| {
            let mut row = Row::new(lay_out());
            let (area, octets, counts) = (row.area.clone(), row.octets.clone(), row.counts());
            let refusal = call(&mut row).err().unwrap_or(0);
            let changed = row.area != area || row.octets != octets || row.counts() != counts;
            assert!(refusal == 0 || !changed, "refused {refusal}, yet changed");
            refusal
        })
    }

    /// The same steps on a row and on the plain queue, with the area as it should be.
    struct Pair {
        row: Row,
        queue: Queue,
        area: Vec<u8>,
        taken: VecDeque<(usize, u8)>,
        confirmed: usize,
    }

    impl Pair {
        /// Both are empty, with the first place next.
        fn new(places: u8) -> Pair {
            let row = Row::new(layout(places, 0, 0, 0));
            let area = vec![0xAA; usize::from(places) * DATA];
            Pair { row, queue: Queue::new(places.into()), area, taken: VecDeque::new(), confirmed: 0 }
        }

        /// One call, then all that can be seen of both.
        fn step(&mut self, random: &mut Random) {
            match random.weighted(&[(40, 0), (30, 1), (29, 2), (1, 3)]) {
                0 => self.submit(random),
                1 => self.confirm(random),
                2 => self.collect(),
                _ => self.drain(random.octet()),
            }
            let (_, confirmed, unconfirmed) = self.row.counts();
            assert_eq!(
                (confirmed, unconfirmed),
                (self.queue.confirmed_count(), self.queue.unconfirmed_count())
            );
            assert!(self.row.area == self.area);
            assert_eq!(self.row.sound(), Ok(()));
        }

        /// What a call should have written.
        fn write(&mut self, place: usize, data: &[u8]) {
            self.area[place * DATA..place * DATA + data.len()].copy_from_slice(data);
        }

        /// A request that is now and then refused for itself.
        fn submit(&mut self, random: &mut Random) {
            let service = random.pick(&[3, 4, 12, 12, 12, 9]);
            let (reference, limit) = (random.below(1 << 32) as u32, random.below(17) as u8);
            let own = Record { reference, limit, asks: random.one_in(2), ..sda() };
            let record = Record { service, destination: random.octet() / 2, length: random.octet(), ..own };
            let length = random.below(248);
            let data = random.octets(length);
            let request = record.request(data.clone());
            let expected = request.refuse(OWN).and_then(|()| self.queue.submit(request));
            let answer = self.row.submit(record, &data);
            assert_eq!(answer.map(|_| ()), expected);
            if let Ok(place) = answer {
                self.taken.push_back((place, service));
                self.write(place, &data);
            }
        }

        /// A confirmation, half of them without data and a few with too many.
        fn confirm(&mut self, random: &mut Random) {
            let (status, count) = (random.below(11), random.octet());
            let length = if random.one_in(2) { 0 } else { random.below(249) };
            let data = random.octets(length);
            let answer = self.row.confirm(STATUSES[status], count, &data);
            if self.queue.first().is_none() {
                return assert_eq!(answer, Err(28));
            }
            if length > DATA {
                return assert_eq!(answer, Err(26));
            }
            assert_eq!(answer, Ok(()));
            self.queue.confirm(NAMED[status], count.into(), &data);
            self.write(self.taken[self.confirmed].0, &data);
            self.confirmed += 1;
        }

        /// All that is left is confirmed DS, as reset does.
        fn drain(&mut self, count: u8) {
            assert_eq!(self.row.drain(count), Ok(()));
            let mut sendings = u32::from(count);
            while self.queue.first().is_some() {
                self.queue.confirm(Status::Ds, sendings, &[]);
                sendings = 0;
            }
            self.confirmed = self.taken.len();
        }

        /// The oldest confirmed record of both, or 28.
        fn collect(&mut self) {
            let first = self.row.counts().0;
            let (answer, expected) = (self.row.collect(), self.queue.collect());
            let (record, data) = match (answer, &expected) {
                (Err(refusal), Err(other)) => return assert_eq!((refusal, *other), (28, 28)),
                (Ok(collected), Ok(_)) => collected,
                _ => panic!("one of the two has none"),
            };
            let expected = expected.unwrap();
            assert_eq!((record.place, record.place), (expected.place, first));
            assert_eq!(self.taken.pop_front(), Some((record.place, record.service)));
            assert_eq!(
                (record.destination, record.to, record.from),
                (expected.request.destination, None, None)
            );
            let Request { reference, limit, asks, .. } = expected.request;
            assert_eq!((record.reference, record.limit, record.asks), (reference, limit, asks));
            assert_eq!((usize::from(record.length), data), (data.len(), &expected.request.data[..]));
            assert_eq!(u32::from(record.count), expected.count);
            let named = STATUSES.iter().position(|&status| status == record.status).unwrap();
            assert_eq!(NAMED[named], expected.status);
            self.confirmed -= 1;
        }
    }

    #[test]
    fn a_row_is_the_plain_queue() {
        for places in 1..=LONGEST_ROW {
            let mut random = Random::new(places.into());
            let mut pair = Pair::new(places);
            for _ in 0..2000 {
                pair.step(&mut random);
            }
        }
    }

    #[test]
    fn a_row_or_area_that_does_not_fit() {
        let odd = |places: u8, records: usize, area: usize| {
            let lay_out = || Layout { records: vec![0; records], area, ..layout(places, 9, 200, 100) };
            assert_eq!(answers(lay_out, Record { destination: 200, ..sda() }, &[0; 300]), [21; 5]);
            assert_eq!(Row::new(lay_out()).counts(), (9, 200, 100));
        };
        odd(0, 0, 0);
        odd(65, 65 * RECORD, 65 * DATA);
        odd(255, 255 * RECORD, 255 * DATA);
        odd(2, RECORD, 2 * DATA);
        odd(2, 2 * 7, 2 * DATA);
        odd(2, 3 * RECORD, 2 * DATA);
        odd(2, 2 * RECORD - 1, 2 * DATA);
        odd(2, 2 * RECORD, DATA);
        odd(2, 2 * RECORD, 2 * DATA + 1);
        odd(64, 64 * RECORD, usize::MAX);
        odd(1, 2 * RECORD, 2 * DATA);
    }

    #[test]
    fn counts_above_the_row() {
        let bad = Record { destination: 200, ..sda() };
        for (places, first, confirmed, unconfirmed) in [
            (1, 1, 0, 0),
            (64, 64, 0, 0),
            (3, 0, 4, 0),
            (3, 0, 0, 4),
            (3, 2, 2, 2),
            (64, 0, 255, 255),
            (1, 255, 1, 0),
        ] {
            let lay_out = || layout(places, first, confirmed, unconfirmed);
            assert_eq!(answers(lay_out, bad.clone(), &[0; 300]), [29; 5]);
            let laid_out = (first.into(), confirmed.into(), unconfirmed.into());
            assert_eq!(Row::new(lay_out()).counts(), laid_out);
        }
        assert_eq!(Row::new(layout(64, 63, 32, 32)).sound(), Ok(()));
    }

    #[test]
    fn submit_refuses_in_order() {
        let long = [0; 247];
        let cases: [([u8; 4], &[u8], Refusal); 16] = [
            ([9, 128, 64, 63], &long, 23),
            ([9, OWN, 64, 63], &long, 23),
            ([9, 127, 255, 255], &long, 23),
            ([3, 127, 255, 255], &[], 23),
            ([9, 7, 64, 255], &long, 24),
            ([9, 7, 63, 255], &long, 24),
            ([4, 127, 64, 255], &[], 24),
            ([4, 127, 255, 63], &[], 24),
            ([12, 7, 63, 255], &[], 24),
            ([9, 7, 62, 62], &long, 25),
            ([5, 7, 255, 255], &[], 25),
            ([12, 7, 255, 255], &long, 26),
            ([12, 7, 0, 255], &long[..246], 26),
            ([4, 7, 0, 0], &long[..245], 26),
            ([4, 127, 63, 62], &long[..244], 27),
            ([3, 0, 255, 255], &long[..246], 27),
        ];
        for ([service, destination, to, from], data, refusal) in cases {
            let record = Record::read(0, &rest([service, destination, to, from, 0, 0, 0]));
            assert_eq!(answers(|| layout(2, 1, 1, 1), record.clone(), data)[0], refusal);
            let free = if refusal == 27 { 0 } else { refusal };
            assert_eq!(answers(|| layout(2, 1, 1, 0), record.clone(), data)[0], free);
            // A limit over 15 is 30, behind 26 and before 27, whether the request asks or not: nothing is filled here.
            for (limit, asks) in [(16, false), (255, true)] {
                let over = Record { limit, asks, ..record.clone() };
                let first = if refusal == 27 { 30 } else { refusal };
                assert_eq!(answers(|| layout(2, 1, 1, 1), over.clone(), data)[0], first);
                assert_eq!(answers(|| layout(2, 1, 1, 0), over, data)[0], first);
            }
            let most = Record { limit: 15, asks: true, ..record };
            assert_eq!(answers(|| layout(2, 1, 1, 1), most, data)[0], refusal);
        }
    }

    /// What submit and a confirmation write: thirteen octets of one place, and whether it asks as 0 or 1.
    #[test]
    fn a_record_as_it_lies() {
        let mut row = Row::new(one(false, [12, 9, 60, 255, 3, 255, 0, 9, 8, 7, 6, 5, 7]));
        let given = Record { reference: 0xFFFF_FE01, limit: 15, asks: true, ..sda() };
        assert_eq!(row.submit(given, &[5, 6]).ok(), Some(0));
        assert_eq!(row.octets[..RECORD], [3, 7, 255, 255, 2, 255, 0, 0x01, 0xFE, 0xFF, 0xFF, 15, 1]);
        assert_eq!(row.octets[RECORD..], [12, 9, 60, 255, 3, 255, 0, 9, 8, 7, 6, 5, 7]);
        assert_eq!(row.confirm(10, 6, &[1]), Ok(()));
        assert_eq!(row.octets[RECORD..], [12, 9, 60, 255, 1, 10, 6, 9, 8, 7, 6, 5, 1]);
        assert_eq!(row.octets[..RECORD], [3, 7, 255, 255, 2, 255, 0, 0x01, 0xFE, 0xFF, 0xFF, 15, 1]);
        assert_eq!(row.drain(0), Ok(()));
        assert_eq!(row.octets[..RECORD], [3, 7, 255, 255, 0, 17, 0, 0x01, 0xFE, 0xFF, 0xFF, 15, 1]);
        let octets = row.octets.clone();
        let (record, _) = row.collect().ok().unwrap();
        assert_eq!((record.reference, record.limit, record.asks), (0x0607_0809, 5, true));
        assert_eq!(row.octets, octets);
    }

    #[test]
    fn a_submitted_record_is_waiting_with_its_data_behind_the_last() {
        let mut row = Row::new(layout(3, 2, 1, 1));
        assert_eq!(row.submit(sda(), &[5, 6]).ok(), Some(1));
        let record = row.unconfirmed.back().unwrap();
        assert_eq!((record.place, record.length, record.status, record.count), (1, 2, WAITING, 0));
        assert_eq!(row.area[DATA..DATA + 3], [5, 6, 0xAA]);
        assert_eq!(row.submit(sda(), &[]), Err(27));
        assert_eq!(row.counts(), (2, 1, 2));
    }

    #[test]
    fn confirm_writes_at_the_place_and_leaves_the_rest() {
        assert_eq!(answers(|| layout(2, 1, 2, 0), sda(), &[0; 247])[1], 28);
        assert_eq!(answers(|| layout(2, 1, 1, 1), sda(), &[0; 247])[1], 26);
        let mut row = Row::new(layout(2, 1, 0, 2));
        assert_eq!((row.confirm(10, 3, &[7; 4]), row.confirm(16, 2, &[])), (Ok(()), Ok(())));
        assert_eq!(row.area[DATA..DATA + 5], [7, 7, 7, 7, 0xAA]);
        let (record, data) = row.collect().ok().unwrap();
        assert_eq!((record.place, record.length, record.status, record.count), (1, 4, 10, 3));
        assert_eq!(data, [7; 4]);
        let (record, data) = row.collect().ok().unwrap();
        assert_eq!((record.place, record.length, record.status, record.count), (0, 0, 16, 2));
        assert!(data.is_empty());
        assert_eq!(row.counts(), (1, 0, 0));
    }

    #[test]
    fn only_the_first_drained_record_was_sent() {
        let mut row = Row::new(layout(4, 3, 0, 0));
        for octet in 1..=3 {
            assert!(row.submit(sda(), &[octet; 2]).is_ok());
        }
        let area = row.area.clone();
        assert_eq!((row.drain(2), row.counts()), (Ok(()), (3, 3, 0)));
        for (place, count) in [(3, 2), (0, 0), (1, 0)] {
            let (record, data) = row.collect().ok().unwrap();
            assert_eq!((record.place, record.status, record.count), (place, 17, count));
            assert_eq!((record.length, data.len()), (0, 0));
        }
        assert_eq!((row.drain(9), row.counts()), (Ok(()), (2, 0, 0)));
        assert!(row.area == area);
    }

    #[test]
    fn collect_takes_the_named_statuses_only() {
        assert_eq!(answers(|| layout(2, 1, 0, 2), sda(), &[])[3], 28);
        for status in 0..=255 {
            let named = matches!(status, 0..=3 | 8..=10 | 12 | 13 | 16 | 17);
            let lay_out = || one(true, rest([9, 200, 64, 255, 250, status, 77]));
            assert_eq!(answers(lay_out, sda(), &[])[3], if named { 0 } else { 29 });
        }
    }

    #[test]
    fn collect_hands_back_any_octets() {
        let mut row = Row::new(one(true, [9, 200, 64, 255, 250, 12, 77, 255, 0, 0, 128, 200, 7]));
        let (record, data) = row.collect().ok().unwrap();
        assert_eq!((record.place, record.service, record.destination), (1, 9, 200));
        assert_eq!((record.to, record.from), (Some(64), None));
        assert_eq!((record.length, record.status, record.count), (250, 12, 77));
        assert_eq!((record.reference, record.limit, record.asks), (0x8000_00FF, 200, true));
        assert_eq!(data, [0xAA; DATA]);
        assert_eq!(row.counts(), (0, 0, 0));
    }

    #[test]
    fn the_record_check_is_submits() {
        let cases = [
            ([3, 7, 255, 255, 246, 0, 0], 0),
            ([4, 127, 63, 62, 244, 77, 77], 0),
            ([12, 126, 62, 255, 245, 255, 0], 0),
            ([3, 128, 255, 255, 0, 255, 0], 29),
            ([3, OWN, 255, 255, 0, 255, 0], 29),
            ([12, 127, 255, 255, 0, 255, 0], 29),
            ([4, 7, 64, 255, 0, 255, 0], 29),
            ([4, 7, 255, 63, 0, 255, 0], 29),
            ([3, 7, 63, 255, 0, 255, 0], 29),
            ([9, 7, 255, 255, 0, 255, 0], 29),
            ([13, 7, 255, 255, 0, 255, 0], 29),
            ([3, 7, 255, 255, 247, 255, 0], 29),
            ([3, 7, 0, 255, 246, 255, 0], 29),
            ([3, 7, 0, 0, 245, 255, 0], 29),
            ([3, 7, 255, 255, 255, 255, 0], 29),
        ];
        for (octets, refusal) in cases {
            let octets = rest(octets);
            assert_eq!(answers(|| one(false, octets), sda(), &[]), [0, 0, 0, 28, refusal]);
            assert_eq!(Row::new(one(true, octets)).sound(), Ok(()));
        }
    }

    /// The limit of an unconfirmed record is looked at whether it asks or not, that of a confirmed one never.
    #[test]
    fn the_record_check_reads_the_limit() {
        for limit in 0..=255 {
            for (service, asks) in [(3, 0), (4, 1), (12, 7)] {
                let octets = [service, 7, 255, 255, 0, 255, 0, 255, 255, 255, 255, limit, asks];
                let refusal = if limit > 15 { 29 } else { 0 };
                assert_eq!(answers(|| one(false, octets), sda(), &[]), [0, 0, 0, 28, refusal]);
                assert_eq!(Row::new(one(true, octets)).sound(), Ok(()));
            }
        }
    }

    #[test]
    fn any_record_that_is_not_confirmed_is_checked() {
        for bad in 0..4 {
            let mut layout = layout(4, 2, 1, 2);
            layout.records[bad * RECORD] = 0;
            let unconfirmed = matches!(bad, 3 | 0);
            assert_eq!(Row::new(layout).sound(), if unconfirmed { Err(29) } else { Ok(()) });
        }
    }

    #[test]
    fn any_numbers_and_octets_are_answered() {
        let mut random = Random::new(7);
        for _ in 0..2000 {
            let places = random.pick(&[0, 1, 2, 3, 64, 65, 255]);
            let (first, confirmed, unconfirmed) =
                (random.octet() / 64, random.octet() / 64, random.octet() / 64);
            let records = random.octets(usize::from(places) * RECORD);
            let lay_out = || Layout {
                records: records.clone(),
                own: places,
                ..layout(places, first, confirmed, unconfirmed)
            };
            answers(lay_out, Record::read(9, &random.octets(RECORD)), &[1; 9]);
        }
    }
}
