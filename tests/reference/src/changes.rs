//! The script of enterings and removals: lists of any content, and for each law of the ring list (document 02, order 11)
//! its two sides, one line after the other. The two are answered alike.

use crate::random::Random;
use crate::ring::ADDRESSES;
use crate::text::hex;

/// The laws, by what a line of the script calls them.
const LAWS: [&str; 7] = ["twice", "entries", "removals", "both", "absent", "set", "last"];

#[derive(Clone, Copy)]
struct Change {
    enters: bool,
    address: u8,
}

fn entering(address: u8) -> Change {
    Change { enters: true, address }
}

fn removing(address: u8) -> Change {
    Change { enters: false, address }
}

/// `count` seeded pairs of lines for each law.
pub fn changes(seed: u64, count: usize) -> Vec<String> {
    let mut random = Random::new(seed);
    let mut calls = Vec::new();
    for law in LAWS {
        (0..count).for_each(|_| calls.extend(pair(law, &mut random)));
    }
    calls
}

/// Both sides of a law, for a station, a list and addresses that are drawn.
fn pair(law: &str, random: &mut Random) -> [String; 2] {
    let own = random.below(usize::from(ADDRESSES)) as u8;
    let list = any_list(own, random);
    let (a, b) = (other(own, random), other(own, random));
    let line =
        |list: &[u8], changes: &[Change]| format!("changes {law} {own} {} {}", hex(list), say(changes));
    let sides = |left: &[Change], right: &[Change]| [line(&list, left), line(&list, right)];
    match law {
        "twice" => sides(&[entering(a), entering(a)], &[entering(a)]),
        "entries" => sides(&[entering(a), entering(b)], &[entering(b), entering(a)]),
        "removals" => sides(&[removing(a), removing(b)], &[removing(b), removing(a)]),
        "both" if a == b => pair(law, random),
        "both" => sides(&[entering(a), removing(b)], &[removing(b), entering(a)]),
        "absent" if list.get(usize::from(a)) == Some(&1) => pair(law, random),
        "absent" => sides(&[entering(a), removing(a)], &[]),
        "set" => [line(&list, &[]), line(&same_set(&list, random), &[])],
        _ => {
            let row = any_row(own, random);
            sides(&row, &last_ones(&row, random))
        }
    }
}

/// An address other than the station's own, now and then one that no station has.
fn other(own: u8, random: &mut Random) -> u8 {
    let most = if random.below(8) == 0 { 256 } else { usize::from(ADDRESSES) };
    let address = random.below(most) as u8;
    if address == own {
        other(own, random)
    } else {
        address
    }
}

/// A list with any number at each place, mostly 0 and 1, and 1 for the station itself.
fn any_list(own: u8, random: &mut Random) -> Vec<u8> {
    let masters = 1 + random.below(4);
    let mut list: Vec<u8> = (0..ADDRESSES)
        .map(|_| match random.below(8) {
            0 => random.below(256) as u8,
            drawn => u8::from(drawn <= masters),
        })
        .collect();
    list[usize::from(own)] = 1;
    list
}

/// The same set: other numbers where no master is.
fn same_set(list: &[u8], random: &mut Random) -> Vec<u8> {
    let absent = [0, 2, 3, 127, 255];
    list.iter().map(|&place| if place == 1 { 1 } else { random.pick(&absent) }).collect()
}

/// Up to 40 changes of up to twelve stations.
fn any_row(own: u8, random: &mut Random) -> Vec<Change> {
    let stations: Vec<u8> = (0..12).map(|_| other(own, random)).collect();
    let count = 1 + random.below(40);
    (0..count).map(|_| Change { enters: random.below(2) == 0, address: random.pick(&stations) }).collect()
}

/// Of a row only the last change of each station, in any order.
fn last_ones(row: &[Change], random: &mut Random) -> Vec<Change> {
    let later = |at: usize| row[at + 1..].iter().any(|change| change.address == row[at].address);
    let mut left: Vec<Change> = (0..row.len()).filter(|&at| !later(at)).map(|at| row[at]).collect();
    (0..left.len()).map(|_| left.swap_remove(random.below(left.len()))).collect()
}

/// `e` or `r` with its address, joined by commas; `-` for none.
fn say(changes: &[Change]) -> String {
    if changes.is_empty() {
        return "-".to_string();
    }
    let say_one = |change: &Change| format!("{}{}", if change.enters { 'e' } else { 'r' }, change.address);
    changes.iter().map(say_one).collect::<Vec<_>>().join(",")
}
