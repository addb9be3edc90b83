//! Seeded `start` lines for the runs, in rule and out of it.

use crate::random::Random;
use crate::ring::ADDRESSES;
use crate::times::{Settings, STANDARD};

/// A start that is accepted.
pub fn lawful(random: &mut Random) -> String {
    draft(random).line()
}

/// A start with one thing out of rule, at times also a row, for which 20 may come before 21.
pub fn unlawful(random: &mut Random) -> String {
    let mut draft = draft(random);
    random.pick(&FAULTS)(&mut draft, random);
    if random.one_in(5) {
        draft.low = 0;
    }
    draft.line()
}

fn draft(random: &mut Random) -> Draft {
    let (address, masters) = masters(random);
    Draft {
        settings: settings(random),
        address: u32::from(address),
        masters,
        points: points(random),
        high: row(random),
        low: row(random),
        tsdi_said: random.one_in(4),
    }
}

/// The words of a start line; wide enough for every value that fits its place.
struct Draft {
    settings: Settings,
    address: u32,
    masters: Vec<u8>,
    points: Vec<Option<u8>>,
    high: u8,
    low: u8,
    /// Whether TSDI is said where it is standard.
    tsdi_said: bool,
}

impl Draft {
    fn line(&self) -> String {
        let s = &self.settings;
        let masters: Vec<String> = self.masters.iter().map(u8::to_string).collect();
        let point = |point: &Option<u8>| point.map_or("none".to_string(), |point| point.to_string());
        let points: Vec<String> = self.points.iter().map(point).collect();
        let tsdi = if self.tsdi_said || s.tsdi != STANDARD.tsdi {
            format!(" tsdi {}", s.tsdi)
        } else {
            String::new()
        };
        format!(
            "start {} {} {} {} {} {} {} {} {} {} {} {}{tsdi}",
            s.tset,
            s.tqui,
            s.min_tsdr,
            s.max_tsdr,
            s.ttd,
            s.ttr,
            s.retry_limit,
            self.address,
            list(&masters),
            list(&points),
            self.high,
            self.low
        )
    }
}

fn list(entries: &[String]) -> String {
    if entries.is_empty() {
        return "-".to_string();
    }
    entries.join(",")
}

/// One thing out of rule each: refusals 20, then 21.
const FAULTS: [fn(&mut Draft, &mut Random); 17] = [
    |draft, random| draft.settings.tset = random.pick(&[0, 19, 256, u32::MAX]),
    |draft, random| draft.settings.tqui = random.pick(&[256, u32::MAX]),
    |draft, random| draft.settings.min_tsdr = random.pick(&[0, 19, 65_536, u32::MAX]),
    |draft, _| draft.settings.tqui = draft.settings.min_tsdr,
    |draft, _| draft.settings.max_tsdr = draft.settings.min_tsdr - 1,
    |draft, random| draft.settings.max_tsdr = random.pick(&[65_536, u32::MAX]),
    |draft, random| draft.settings.ttd = random.pick(&[65_536, u32::MAX]),
    |draft, random| draft.settings.ttr = random.pick(&[0, 19, 1 << 24, u32::MAX]),
    |draft, random| draft.settings.retry_limit = random.pick(&[16, 255, 256, u32::MAX]),
    |draft, random| draft.settings.tsdi = random.pick(&[65_536, 1 << 24, u32::MAX]),
    // TSL of 65536 or 65537, or well above.
    |draft, random| draft.settings.ttd = longest_delay(&draft.settings) + 1 + random.pick(&[0, 0, 100]),
    |draft, random| draft.settings.tsdi = longest_initiator(&draft.settings) + 1 + random.pick(&[0, 0, 100]),
    |draft, random| draft.address = random.pick(&[127, 128, 255, 256, u32::MAX]),
    |draft, _| draft.masters.retain(|&master| u32::from(master) != draft.address),
    |draft, _| draft.masters.clear(),
    |draft, random| draft.high = random.pick(&[0, 65, 255]),
    |draft, random| draft.low = random.pick(&[0, 65, 255]),
];

/// The longest TTD for which TSL is in rule.
pub fn longest_delay(settings: &Settings) -> u32 {
    let without = Settings { ttd: 0, ..settings.clone() }.tsl();
    65_535_u32.saturating_sub(without) / 2
}

/// The longest TSDI for which TSL is in rule, if max TSDR leaves it so.
pub fn longest_initiator(settings: &Settings) -> u32 {
    65_535_u32.saturating_sub(2 * settings.ttd + 11 + settings.tsm())
}

/// Settings in rule.
pub fn settings(random: &mut Random) -> Settings {
    let any =
        |random: &mut Random, least: u32, most: u32| least + random.below((most - least + 1) as usize) as u32;
    let tqui = if random.one_in(2) { 0 } else { any(random, 0, 255) };
    let min_tsdr = 20.max(tqui + 1) + if random.one_in(2) { 0 } else { any(random, 0, 300) };
    let max_tsdr = min_tsdr + if random.one_in(8) { any(random, 0, 40_000) } else { any(random, 0, 800) };
    let mut settings = Settings {
        tset: if random.one_in(2) { 20 } else { any(random, 20, 255) },
        tqui,
        min_tsdr,
        max_tsdr,
        ttd: any(random, 0, 40),
        ttr: random.pick(&[20, 1000, 1000, 10_000, 10_000, 50_000, (1 << 24) - 1]),
        retry_limit: any(random, 0, 15),
        tsdi: if random.one_in(2) { STANDARD.tsdi } else { any(random, 0, 1500) },
    };
    if random.one_in(10) {
        settings.tsdi = longest_initiator(&settings);
    }
    settings.retry_limit = random.pick(&[0, 1, 1, 2, 3, 15, settings.retry_limit]);
    if random.one_in(10) {
        settings.ttd = longest_delay(&settings);
    }
    settings
}

/// TS, often at an end of the addresses, and a ring of up to eight with it.
pub fn masters(random: &mut Random) -> (u8, Vec<u8>) {
    let anywhere = random.below(usize::from(ADDRESSES)) as u8;
    let address = random.pick(&[0, 1, 125, 126, 2, anywhere, anywhere, anywhere]);
    let mut masters = vec![address];
    let others = random.pick(&[0, 1, 1, 2, 3, 7]);
    for _ in 0..others {
        let anywhere = random.below(usize::from(ADDRESSES)) as u8;
        let near = (address + 1 + random.below(3) as u8) % ADDRESSES;
        masters.insert(random.below(masters.len() + 1), random.pick(&[anywhere, near]));
    }
    (address, masters)
}

/// Active access points: no point at all, "none", some, or every one.
fn points(random: &mut Random) -> Vec<Option<u8>> {
    match random.below(12) {
        0 => Vec::new(),
        1 => vec![None],
        2 => (0..63).map(Some).chain([None]).collect(),
        3 => vec![Some(62), Some(0)],
        _ => {
            let count = 1 + random.below(5);
            let some = (0..count).map(|_| Some(random.below(63) as u8));
            some.chain([None]).collect()
        }
    }
}

/// Places of a row, mostly few.
pub fn row(random: &mut Random) -> u8 {
    let anything = 1 + random.below(64) as u8;
    random.pick(&[1, 2, 2, 3, 3, 4, 5, 8, 64, anything])
}
