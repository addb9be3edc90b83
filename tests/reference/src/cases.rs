//! A forged case: one call with a station, rows and buffers that no run need have made. Each is a line of words with
//! one space between. Numbers are decimal; NUMBERS and OCTETS are joined by commas. CORE is the numbers of struct
//! cihlomet_core in the header's order, eight settings first. A list of octets (MASTERS, STARTED, MARKS, POINTS) is the
//! octet of every place, then PLACE=OCTET for each other one. A COUNT of octets may be `null`: none, at no address.
//! ROW is COUNT:HEX, a row of that many octets that begins with those of HEX.
//!
//! | Call | Words behind it |
//! |---|---|
//! | `hear` | STATION ROW AREA ROW AREA OUT CLOCK ROOM UPDATE UPDATE HEX |
//! | `sent`, `slot` | STATION ROW AREA ROW AREA OUT CLOCK |
//! | `reset` | STATION ROW AREA ROW AREA |
//! | `submit_high`, `submit_low` | STATION ROW AREA SERVICE DA DSAP SSAP REFERENCE LIMIT ASKS COUNT |
//! | `collect_high`, `collect_low` | STATION ROW AREA |
//! | `start` | SETTINGS TS MASTERS POINTS PLACES PLACES |
//!
//! STATION is CORE MASTERS STARTED MARKS POINTS; rows and updates are those of the high queue, then the low one.

use std::str::FromStr;

use crate::queue::Priority;
use crate::rows::{Record, ASKS, LIMIT, RECORD, REFERENCE};
use crate::text::{hex, unhex};
use crate::times::Settings;

/// The phases that send something, by their numbers in the core; the last is the last phase.
pub const REPLY_AWAITED: u8 = 1;
pub const SDN_GOING_OUT: u8 = 2;
pub const PASS_CHECKED: u8 = 3;
pub const PASS_TO_SELF: u8 = 4;

/// In place of a stranger or a remembered sender: nobody.
pub const NOBODY: u8 = 127;

/// The services, by their octets in a record.
pub const SDA: u8 = 3;
pub const SDN: u8 = 4;
pub const SRD: u8 = 12;

pub type Addresses = [u8; 127];
pub type Points = [u8; 64];

#[derive(Clone, Copy, Debug, PartialEq)]
pub enum Call {
    Hear,
    Sent,
    Slot,
    Reset,
    Submit(Priority),
    Collect(Priority),
    Start,
}

/// The calls and their words.
pub const CALLS: [(Call, &str); 9] = [
    (Call::Hear, "hear"),
    (Call::Sent, "sent"),
    (Call::Slot, "slot"),
    (Call::Reset, "reset"),
    (Call::Submit(Priority::High), "submit_high"),
    (Call::Submit(Priority::Low), "submit_low"),
    (Call::Collect(Priority::High), "collect_high"),
    (Call::Collect(Priority::Low), "collect_low"),
    (Call::Start, "start"),
];

impl Call {
    pub fn word(self) -> &'static str {
        CALLS.iter().find(|(call, _)| *call == self).expect("every call has a word").1
    }

    /// Hear, sent and slot: they carry an output and read the unconfirmed records.
    pub fn is_turn(self) -> bool {
        matches!(self, Call::Hear | Call::Sent | Call::Slot)
    }

    /// Whether the row of a queue is lent (reading 22).
    pub fn lends(self, queue: Priority) -> bool {
        match self {
            Call::Submit(own) | Call::Collect(own) => own == queue,
            Call::Start => false,
            _ => true,
        }
    }
}

/// What the core says of a queue.
#[derive(Clone, Debug, PartialEq)]
pub struct Counts {
    pub places: u8,
    pub first: u8,
    pub confirmed: u8,
    pub unconfirmed: u8,
}

/// The core of a station, as struct cihlomet_core.
#[derive(Clone, Debug)]
pub struct Core {
    pub settings: Settings,
    pub acceptance: u32,
    pub before: u32,
    pub ts: u8,
    pub ps: u8,
    pub stranger: u8,
    pub phase: u8,
    pub served: u8,
    pub sendings: u8,
    pub sdn: u8,
    pub begun: u8,
    pub high: Counts,
    pub low: Counts,
    pub source: u8,
    pub bit: u8,
    pub length: u16,
}

impl Core {
    pub fn counts(&self, queue: Priority) -> &Counts {
        match queue {
            Priority::High => &self.high,
            Priority::Low => &self.low,
        }
    }

    pub fn counts_mut(&mut self, queue: Priority) -> &mut Counts {
        match queue {
            Priority::High => &mut self.high,
            Priority::Low => &mut self.low,
        }
    }

    fn word(&self) -> String {
        let queue = |q: &Counts| format!("{},{},{},{}", q.places, q.first, q.confirmed, q.unconfirmed);
        let Core { acceptance, before, ts, ps, stranger, phase, served, sendings, sdn, begun, .. } = self;
        let Core { source, bit, length, .. } = self;
        let (settings, high, low) = (settings_word(&self.settings), queue(&self.high), queue(&self.low));
        format!(
            "{settings},{acceptance},{before},{ts},{ps},{stranger},{phase},{served},{sendings},{sdn},{begun},\
             {high},{low},{source},{bit},{length}"
        )
    }

    fn read(word: &str) -> Result<Core, String> {
        let mut numbers = word.split(',');
        let core = Core {
            settings: read_settings(&mut numbers)?,
            acceptance: next(&mut numbers)?,
            before: next(&mut numbers)?,
            ts: next(&mut numbers)?,
            ps: next(&mut numbers)?,
            stranger: next(&mut numbers)?,
            phase: next(&mut numbers)?,
            served: next(&mut numbers)?,
            sendings: next(&mut numbers)?,
            sdn: next(&mut numbers)?,
            begun: next(&mut numbers)?,
            high: read_counts(&mut numbers)?,
            low: read_counts(&mut numbers)?,
            source: next(&mut numbers)?,
            bit: next(&mut numbers)?,
            length: next(&mut numbers)?,
        };
        all_read(numbers, core)
    }
}

/// A buffer's octet count, None where it is lent as none at no address.
pub type Count = Option<usize>;

/// A queue's row and data area as lent: the octets that the row begins with, and the counts of both.
#[derive(Clone, Debug)]
pub struct Lent {
    pub records: Vec<u8>,
    pub row: Count,
    pub area: Count,
}

#[derive(Clone, Debug)]
pub struct Case {
    pub call: Call,
    pub core: Core,
    pub masters: Addresses,
    pub started: Addresses,
    pub marks: Addresses,
    pub points: Points,
    pub high: Lent,
    pub low: Lent,
    pub out: Count,
    pub clock: u32,
    pub room: u8,
    pub updates: [Count; 2],
    pub heard: Vec<u8>,
    /// What submit is given, as the octets of a record whose length, status and count are not looked at; and how many
    /// octets of data.
    pub request: [u8; RECORD],
    pub data: Count,
    /// What start is given as row lengths.
    pub places: [u64; 2],
}

impl Case {
    pub fn lent(&self, queue: Priority) -> &Lent {
        match queue {
            Priority::High => &self.high,
            Priority::Low => &self.low,
        }
    }

    pub fn lent_mut(&mut self, queue: Priority) -> &mut Lent {
        match queue {
            Priority::High => &mut self.high,
            Priority::Low => &mut self.low,
        }
    }

    pub fn line(&self) -> String {
        let mut words = vec![self.call.word().to_string()];
        if self.call == Call::Start {
            words.extend([settings_word(&self.core.settings), self.core.ts.to_string()]);
            words.extend([list_word(&self.masters), list_word(&self.points)]);
            words.extend(self.places.map(|places| places.to_string()));
            return words.join(" ");
        }
        words.push(self.core.word());
        words.extend([&self.masters, &self.started, &self.marks].map(|list| list_word(list)));
        words.push(list_word(&self.points));
        for queue in [Priority::High, Priority::Low] {
            if self.call.lends(queue) {
                words.extend(lent_words(self.lent(queue)));
            }
        }
        words.extend(self.own_words());
        words.join(" ")
    }

    /// The words that only this call has.
    fn own_words(&self) -> Vec<String> {
        let turn = [count_word(self.out), self.clock.to_string()];
        match self.call {
            Call::Hear => {
                let own = [self.room.to_string(), count_word(self.updates[0]), count_word(self.updates[1])];
                turn.into_iter().chain(own).chain([hex(&self.heard)]).collect()
            }
            Call::Sent | Call::Slot => turn.to_vec(),
            Call::Submit(_) => {
                let mut words: Vec<String> = self.request[..4].iter().map(u8::to_string).collect();
                words.push(Record::read(0, &self.request).reference.to_string());
                words.extend([self.request[LIMIT], self.request[ASKS]].map(|octet| octet.to_string()));
                words.push(count_word(self.data));
                words
            }
            Call::Reset | Call::Collect(_) | Call::Start => Vec::new(),
        }
    }

    pub fn read(line: &str) -> Result<Case, String> {
        let (word, rest) = line.split_once(' ').ok_or(format!("no call: {line}"))?;
        let call = CALLS.iter().find(|(_, name)| *name == word).ok_or(format!("no call: {line}"))?.0;
        let mut words = rest.split(' ');
        let mut case = blank(call);
        if call == Call::Start {
            case.read_start(&mut words)?;
        } else {
            case.read_station(&mut words)?;
            case.read_own(&mut words)?;
        }
        all_read(words, case)
    }

    fn read_start<'a>(&mut self, words: &mut impl Iterator<Item = &'a str>) -> Result<(), String> {
        self.core.settings = read_settings(&mut next::<String>(words)?.split(','))?;
        self.core.ts = next(words)?;
        self.masters = read_list(&next::<String>(words)?)?;
        self.points = read_list(&next::<String>(words)?)?;
        self.places = [next(words)?, next(words)?];
        Ok(())
    }

    fn read_station<'a>(&mut self, words: &mut impl Iterator<Item = &'a str>) -> Result<(), String> {
        self.core = Core::read(&next::<String>(words)?)?;
        for list in [&mut self.masters, &mut self.started, &mut self.marks] {
            *list = read_list(&next::<String>(words)?)?;
        }
        self.points = read_list(&next::<String>(words)?)?;
        for queue in [Priority::High, Priority::Low] {
            if self.call.lends(queue) {
                *self.lent_mut(queue) = read_lent(words)?;
            }
        }
        Ok(())
    }

    fn read_own<'a>(&mut self, words: &mut impl Iterator<Item = &'a str>) -> Result<(), String> {
        if self.call.is_turn() {
            self.out = read_count(&next::<String>(words)?)?;
            self.clock = next(words)?;
        }
        if self.call == Call::Hear {
            self.room = next(words)?;
            self.updates = [read_count(&next::<String>(words)?)?, read_count(&next::<String>(words)?)?];
            self.heard = unhex(&next::<String>(words)?)?;
        }
        if let Call::Submit(_) = self.call {
            for octet in &mut self.request[..4] {
                *octet = next(words)?;
            }
            self.request[REFERENCE..LIMIT].copy_from_slice(&next::<u32>(words)?.to_le_bytes());
            (self.request[LIMIT], self.request[ASKS]) = (next(words)?, next(words)?);
            self.data = read_count(&next::<String>(words)?)?;
        }
        Ok(())
    }
}

/// A case of zeros, with nothing lent.
pub fn blank(call: Call) -> Case {
    let counts = Counts { places: 0, first: 0, confirmed: 0, unconfirmed: 0 };
    let lent = Lent { records: Vec::new(), row: None, area: None };
    let settings =
        Settings { tset: 0, tqui: 0, min_tsdr: 0, max_tsdr: 0, ttd: 0, ttr: 0, retry_limit: 0, tsdi: 0 };
    let core = Core {
        settings,
        acceptance: 0,
        before: 0,
        ts: 0,
        ps: 0,
        stranger: 0,
        phase: 0,
        served: 0,
        sendings: 0,
        sdn: 0,
        begun: 0,
        high: counts.clone(),
        low: counts,
        source: 0,
        bit: 0,
        length: 0,
    };
    Case {
        call,
        core,
        masters: [0; 127],
        started: [0; 127],
        marks: [0; 127],
        points: [0; 64],
        high: lent.clone(),
        low: lent,
        out: None,
        clock: 0,
        room: 0,
        updates: [None; 2],
        heard: Vec::new(),
        request: [0; RECORD],
        data: None,
        places: [0; 2],
    }
}

fn settings_word(settings: &Settings) -> String {
    let Settings { tset, tqui, min_tsdr, max_tsdr, ttd, ttr, retry_limit, tsdi } = settings;
    format!("{tset},{tqui},{min_tsdr},{max_tsdr},{ttd},{ttr},{retry_limit},{tsdi}")
}

fn count_word(count: Count) -> String {
    count.map_or("null".to_string(), |count| count.to_string())
}

fn lent_words(lent: &Lent) -> [String; 2] {
    let row = lent.row.map_or("null".to_string(), |row| format!("{row}:{}", hex(&lent.records)));
    [row, count_word(lent.area)]
}

/// The octet that most places hold, then the others.
fn list_word(octets: &[u8]) -> String {
    let mut counts = [0; 256];
    octets.iter().for_each(|&octet| counts[usize::from(octet)] += 1);
    let most = (0..=u8::MAX).max_by_key(|&octet| counts[usize::from(octet)]).unwrap_or(0);
    let others = octets.iter().enumerate().filter(|(_, &octet)| octet != most);
    let others = others.map(|(place, octet)| format!(",{place}={octet}"));
    std::iter::once(most.to_string()).chain(others).collect()
}

fn number<T: FromStr>(word: &str) -> Result<T, String> {
    word.parse().map_err(|_| format!("no such number: {word}"))
}

fn next<'a, T: FromStr>(words: &mut impl Iterator<Item = &'a str>) -> Result<T, String> {
    number(words.next().ok_or("too few words")?)
}

fn all_read<'a, T>(mut words: impl Iterator<Item = &'a str>, read: T) -> Result<T, String> {
    match words.next() {
        None => Ok(read),
        Some(word) => Err(format!("too many words: {word}")),
    }
}

fn read_settings<'a>(numbers: &mut impl Iterator<Item = &'a str>) -> Result<Settings, String> {
    Ok(Settings {
        tset: next(numbers)?,
        tqui: next(numbers)?,
        min_tsdr: next(numbers)?,
        max_tsdr: next(numbers)?,
        ttd: next(numbers)?,
        ttr: next(numbers)?,
        retry_limit: next(numbers)?,
        tsdi: next(numbers)?,
    })
}

fn read_counts<'a>(numbers: &mut impl Iterator<Item = &'a str>) -> Result<Counts, String> {
    Ok(Counts {
        places: next(numbers)?,
        first: next(numbers)?,
        confirmed: next(numbers)?,
        unconfirmed: next(numbers)?,
    })
}

fn read_count(word: &str) -> Result<Count, String> {
    if word == "null" {
        return Ok(None);
    }
    number(word).map(Some)
}

fn read_lent<'a>(words: &mut impl Iterator<Item = &'a str>) -> Result<Lent, String> {
    let (row, area): (String, String) = (next(words)?, next(words)?);
    let (row, records) = row.split_once(':').unwrap_or((&row, "-"));
    Ok(Lent { records: unhex(records)?, row: read_count(row)?, area: read_count(&area)? })
}

fn read_list<const COUNT: usize>(word: &str) -> Result<[u8; COUNT], String> {
    let mut entries = word.split(',');
    let mut octets = [next(&mut entries)?; COUNT];
    for entry in entries {
        let (place, octet) = entry.split_once('=').ok_or(format!("no place: {entry}"))?;
        *octets.get_mut(number::<usize>(place)?).ok_or(format!("no such place: {place}"))? = number(octet)?;
    }
    Ok(octets)
}
