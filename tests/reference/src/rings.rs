//! The script of the search for NS and PS: every set of up to three masters with every TS in it, and larger ones.

use crate::random::Random;
use crate::ring::ADDRESSES;

/// The calls of the search, with `count` seeded sets of more than three masters.
pub fn rings(seed: u64, count: usize) -> Vec<String> {
    let mut random = Random::new(seed);
    let mut calls = Vec::new();
    for address in 0..ADDRESSES {
        every_small_set(address, &mut calls);
        calls.push(ring_call(address, &(0..ADDRESSES).collect::<Vec<_>>()));
    }
    for address in ADDRESSES..=u8::MAX {
        calls.push(ring_call(address, &[0, 2, 126]));
    }
    calls.extend((0..count).map(|_| larger(&mut random)));
    calls
}

fn ring_call(address: u8, masters: &[u8]) -> String {
    let masters: Vec<String> = masters.iter().map(u8::to_string).collect();
    format!("ring {address} {}", masters.join(","))
}

/// Every set that a station of this address has with up to two others.
fn every_small_set(address: u8, calls: &mut Vec<String>) {
    calls.push(ring_call(address, &[address]));
    for first in (0..ADDRESSES).filter(|&first| first != address) {
        calls.push(ring_call(address, &[address, first]));
        let second = (first + 1..ADDRESSES).filter(|&second| second != address);
        calls.extend(second.map(|second| ring_call(address, &[address, first, second])));
    }
}

/// A set of four masters or more, few or many of them, and a station of it.
fn larger(random: &mut Random) -> String {
    let mut others: Vec<u8> = (0..ADDRESSES).collect();
    let size = 4 + (random.below(usize::from(ADDRESSES) - 3) >> random.below(5));
    let masters: Vec<u8> = (0..size).map(|_| others.swap_remove(random.below(others.len()))).collect();
    ring_call(random.pick(&masters), &masters)
}
