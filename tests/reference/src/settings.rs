//! The script of times: the standard settings, settings at and around each bound, seeded ones, and the time that is left.

use crate::random::Random;
use crate::starts::longest_initiator;
use crate::times::{Settings, STANDARD};

/// A setting changed to a value.
type Change = fn(&mut Settings, u32);

/// Each setting, with the values at and around its bounds where the others are standard.
const BOUNDS: [(Change, &[u32]); 8] = [
    (|settings, value| settings.tset = value, &[19, 20, 21, 254, 255, 256]),
    (|settings, value| settings.tqui = value, &[0, 1, 19, 20, 21, 254, 255, 256]),
    (
        |settings, value| settings.min_tsdr = value,
        &[19, 20, 21, 74, 75, 76, 200, 399, 400, 401, 65_535, 65_536],
    ),
    (|settings, value| settings.max_tsdr = value, &[19, 20, 21, 74, 75, 76, 65_534, 65_535, 65_536]),
    (|settings, value| settings.ttd = value, &[0, 1, 32_540, 32_541, 32_542, 65_534, 65_535, 65_536]),
    (|settings, value| settings.ttr = value, &[19, 20, 21, (1 << 24) - 2, (1 << 24) - 1, 1 << 24]),
    (|settings, value| settings.retry_limit = value, &[0, 1, 14, 15, 16]),
    (|settings, value| settings.tsdi = value, &TSDI),
];

/// TSDI around the standard Tid1 and max TSDR, around what TSL allows and around its bound.
const TSDI: [u32; 16] =
    [0, 1, 74, 75, 76, 199, 200, 201, 399, 400, 401, 65_480, 65_481, 65_534, 65_535, 65_536];

/// Values that are over every bound.
const OVER: [u32; 4] = [1 << 16, 1 << 24, 1 << 31, u32::MAX];

const ADDRESSES: [u8; 7] = [0, 1, 2, 126, 127, 128, 255];

/// The calls of times: the standard settings, each bound, and `count` seeded settings and a tenth as many seeded clocks.
pub fn times(seed: u64, count: usize) -> Vec<String> {
    let mut random = Random::new(seed);
    let mut calls = vec!["standard".to_string()];
    each_bound(&mut calls);
    related_bounds(&mut calls);
    slow_initiators(&mut calls);
    for _ in 0..count {
        let address = if random.one_in(16) { random.octet() } else { random.below(127) as u8 };
        calls.push(settings_call(&seeded(&mut random), address));
    }
    around_the_wrap(&mut calls);
    calls.extend((0..count / 10).map(|_| seeded_left(&mut random)));
    calls
}

fn settings_call(settings: &Settings, address: u8) -> String {
    let Settings { tset, tqui, min_tsdr, max_tsdr, ttd, ttr, retry_limit, tsdi } = settings;
    format!("settings {tset} {tqui} {min_tsdr} {max_tsdr} {ttd} {ttr} {retry_limit} {tsdi} {address}")
}

/// Each setting at and around its bounds and over all of them, the others standard, at each address of note.
fn each_bound(calls: &mut Vec<String>) {
    for (change, values) in BOUNDS {
        for &value in values.iter().chain(&OVER) {
            let mut settings = STANDARD;
            change(&mut settings, value);
            calls.extend(ADDRESSES.iter().map(|&address| settings_call(&settings, address)));
        }
    }
}

/// All combinations of the settings whose bounds depend on each other, at and around those bounds; TSL among them.
fn related_bounds(calls: &mut Vec<String>) {
    for &tset in BOUNDS[0].1 {
        for &tqui in BOUNDS[1].1 {
            for min_tsdr in [19, 20, 21, tqui.max(1) - 1, tqui, tqui + 1, 65_534, 65_535, 65_536] {
                let settings = Settings { tset, tqui, min_tsdr, ..STANDARD };
                longest_replies(&settings, calls);
            }
        }
    }
}

/// Max TSDR around min TSDR, around Tid1 and around its bound, each with TTD around what TSL allows.
fn longest_replies(settings: &Settings, calls: &mut Vec<String>) {
    let (least, idle) = (settings.min_tsdr, settings.tid1());
    for max_tsdr in [least.max(1) - 1, least, least + 1, idle - 1, idle, idle + 1, 65_534, 65_535, 65_536] {
        let shortest = Settings { max_tsdr, ttd: 0, ..settings.clone() };
        let room = 65_535_u32.saturating_sub(shortest.tsl()) / 2;
        for ttd in [0, 1, room, room + 1, room + 2, 65_535, 65_536] {
            calls.push(settings_call(&Settings { ttd, ..shortest.clone() }, 126));
        }
    }
}

/// 33 + TSM, min TSDR and max TSDR in any order of length, each with TSDI around it.
fn slow_initiators(calls: &mut Vec<String>) {
    for (tset, tqui) in [(20, 0), (20, 19), (255, 0), (255, 255)] {
        let line = 33 + Settings { tset, tqui, ..STANDARD }.tsm();
        for min_tsdr in [tqui.max(19) + 1, line - 1, line, line + 1, 2000] {
            for max_tsdr in [min_tsdr, min_tsdr + 1, min_tsdr.max(line), min_tsdr + 900, 64_000] {
                let settings = Settings { tset, tqui, min_tsdr, max_tsdr, ..STANDARD };
                around_each_time(&settings, calls);
            }
        }
    }
}

/// TSDI around each time that it is held against, around what TSL allows, and around its bound.
fn around_each_time(settings: &Settings, calls: &mut Vec<String>) {
    for ttd in [0, 1, 700] {
        let settings = Settings { ttd, ..settings.clone() };
        let longest = longest_initiator(&settings);
        let held = [1, 33 + settings.tsm(), settings.min_tsdr, settings.max_tsdr, longest, 65_535];
        for tsdi in held.into_iter().flat_map(|time| [time - 1, time, time + 1]) {
            calls.push(settings_call(&Settings { tsdi, ..settings.clone() }, 2));
        }
    }
}

/// Settings that are mostly in rule, one in three with a setting changed to a bound or to anything.
fn seeded(random: &mut Random) -> Settings {
    let tqui = any_size(random, 256);
    let min_tsdr = (tqui + 1).max(20) + any_size(random, 30_000);
    let mut settings = Settings {
        tset: 20 + any_size(random, 236),
        tqui,
        min_tsdr,
        max_tsdr: min_tsdr + any_size(random, 30_000),
        ttd: any_size(random, 35_000),
        ttr: 20 + any_size(random, (1 << 24) - 20),
        retry_limit: random.below(16) as u32,
        tsdi: any_size(random, 60_000),
    };
    if random.one_in(3) {
        let (change, values) = random.pick(&BOUNDS);
        let any = any_size(random, 1 << 32);
        change(&mut settings, if random.one_in(4) { any } else { random.pick(values) });
    }
    settings
}

/// A number below `limit`, small ones as likely as large ones.
fn any_size(random: &mut Random, limit: usize) -> u32 {
    (random.below(limit) >> random.below(limit.ilog2() as usize + 1)) as u32
}

fn left_call(clock: u32, acceptance: u32, ttr: u32) -> String {
    format!("left {clock} {acceptance} {ttr}")
}

/// The clock around the acceptance and around TTR after it, with acceptances around the clock's wrap.
fn around_the_wrap(calls: &mut Vec<String>) {
    let wrap = [0, 1, 100, 1 << 31, u32::MAX - 1000, u32::MAX - 20, u32::MAX - 1, u32::MAX];
    for acceptance in wrap {
        for ttr in [0, 1, 19, 20, 21, 1000, 10_000, (1 << 24) - 1, 1 << 24, u32::MAX] {
            let end = acceptance.wrapping_add(ttr);
            for clock in [end.wrapping_sub(1), end, end.wrapping_add(1)] {
                calls.push(left_call(clock, acceptance, ttr));
            }
            for clock in [acceptance.wrapping_sub(1), acceptance, acceptance.wrapping_add(1)] {
                calls.push(left_call(clock, acceptance, ttr));
            }
        }
    }
}

/// A clock that went on about as long as TTR, or anything.
fn seeded_left(random: &mut Random) -> String {
    let acceptance = any_size(random, 1 << 32);
    let acceptance = if random.one_in(2) { !acceptance } else { acceptance };
    let ttr = 20 + any_size(random, (1 << 24) - 20);
    let elapsed = if random.one_in(3) { any_size(random, 1 << 32) } else { ttr - 3 + random.below(6) as u32 };
    left_call(acceptance.wrapping_add(elapsed), acceptance, ttr)
}
