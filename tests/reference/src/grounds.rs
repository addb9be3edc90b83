//! What a forged script reached: for each call how often each ground of a refusal decided, so that the answer would be
//! another without it, how often of two grounds with different numbers the first was given, and how often a case was
//! accepted with each oddity.

use std::collections::BTreeMap;

use crate::cases::{Call, Case, CALLS};
use crate::oddities::ODDITIES;
use crate::queue::Refusal;
use crate::refusal::{grounds, Ground};

/// Which calls can meet a ground or a pair of numbers.
type Meets = fn(Call) -> bool;

const STARTS: Meets = |call| call == Call::Start;
const HAS_STATE: Meets = |call| call != Call::Start;
const TURNS: Meets = Call::is_turn;
const HEARS: Meets = |call| call == Call::Hear;
const SUBMITS: Meets = |call| matches!(call, Call::Submit(_));
const COLLECTS: Meets = |call| matches!(call, Call::Collect(_));
const ONE_ROW: Meets = |call| matches!(call, Call::Submit(_) | Call::Collect(_));
const ANY: Meets = |_| true;

/// Each ground and the calls that can meet it.
const POSSIBLE: [(Meets, Ground); 45] = [
    (STARTS, (20, "setting out of range")),
    (STARTS, (20, "TSL over 65535")),
    (STARTS, (20, "TS over 126")),
    (STARTS, (20, "TS not in the set")),
    (ANY, (21, "row length 0 or over 64")),
    (HAS_STATE, (21, "row not as started")),
    (HAS_STATE, (21, "data not 246 a place")),
    (TURNS, (22, "output under 255")),
    (HEARS, (22, "high update over 244")),
    (HEARS, (22, "low update over 244")),
    (HAS_STATE, (29, "setting out of range")),
    (HAS_STATE, (29, "TSL over 65535")),
    (HAS_STATE, (29, "TS over 126")),
    (HAS_STATE, (29, "TS not in the set")),
    (HAS_STATE, (29, "TS not in the set as started")),
    (HAS_STATE, (29, "PS over 126")),
    (HAS_STATE, (29, "stranger over 126")),
    (HAS_STATE, (29, "remembered sender over 126")),
    (HAS_STATE, (29, "remembered reply over 255")),
    (HAS_STATE, (29, "no phase")),
    (HAS_STATE, (29, "no queue")),
    (HAS_STATE, (29, "neither an SDN nor not")),
    (HAS_STATE, (29, "no bit")),
    (ONE_ROW, (29, "a row over 64 that is not lent")),
    (HAS_STATE, (29, "turn beyond the row")),
    (HAS_STATE, (29, "counts above the row")),
    (HAS_STATE, (29, "nothing in flight")),
    (HAS_STATE, (29, "pass checked with NS = TS")),
    (HAS_STATE, (29, "pass to self with another NS")),
    (TURNS, (29, "a record's destination")),
    (TURNS, (29, "a record's access point")),
    (TURNS, (29, "a record's service")),
    (TURNS, (29, "a record's data and access points")),
    (TURNS, (29, "a record's limit")),
    (TURNS, (29, "the reply to an SDN awaited")),
    (TURNS, (29, "no SDN going out")),
    (SUBMITS, (23, "destination")),
    (SUBMITS, (24, "access point")),
    (SUBMITS, (25, "service")),
    (SUBMITS, (26, "data and access points")),
    (SUBMITS, (30, "limit")),
    (SUBMITS, (27, "every place in use")),
    (COLLECTS, (28, "none confirmed")),
    (COLLECTS, (29, "status not named")),
    (ANY, ACCEPTED),
];

const ACCEPTED: Ground = (0, "accepted");

/// Numbers that one case can have grounds for, the one to be given first.
const ORDER: [(Meets, Refusal, Refusal); 27] = [
    (STARTS, 20, 21),
    (TURNS, 21, 22),
    (HAS_STATE, 21, 29),
    (TURNS, 22, 29),
    (SUBMITS, 21, 23),
    (SUBMITS, 21, 24),
    (SUBMITS, 21, 25),
    (SUBMITS, 21, 26),
    (SUBMITS, 21, 30),
    (SUBMITS, 21, 27),
    (SUBMITS, 29, 23),
    (SUBMITS, 29, 24),
    (SUBMITS, 29, 25),
    (SUBMITS, 29, 26),
    (SUBMITS, 29, 30),
    (SUBMITS, 29, 27),
    (SUBMITS, 23, 30),
    (SUBMITS, 24, 30),
    (SUBMITS, 25, 30),
    (SUBMITS, 26, 30),
    (SUBMITS, 23, 27),
    (SUBMITS, 24, 27),
    (SUBMITS, 25, 27),
    (SUBMITS, 26, 27),
    (SUBMITS, 30, 27),
    (COLLECTS, 21, 28),
    (COLLECTS, 29, 28),
];

/// How often each ground decided, each number came before another, and each oddity was accepted.
#[derive(Default)]
pub struct Met {
    decided: BTreeMap<(&'static str, Ground), usize>,
    ordered: BTreeMap<(&'static str, Refusal, Refusal), usize>,
    odd: BTreeMap<(&'static str, &'static str), usize>,
}

impl Met {
    pub fn add(&mut self, case: &Case) {
        let (call, grounds) = (case.call.word(), grounds(case));
        let first = *grounds.first().unwrap_or(&ACCEPTED);
        if grounds.get(1).is_none_or(|second| second.0 != first.0) {
            *self.decided.entry((call, first)).or_default() += 1;
        }
        for second in grounds.iter().filter(|ground| ground.0 != first.0) {
            *self.ordered.entry((call, first.0, second.0)).or_default() += 1;
        }
        if grounds.is_empty() {
            for (words, ..) in ODDITIES.iter().filter(|(_, _, has)| has(case)) {
                *self.odd.entry((call, words)).or_default() += 1;
            }
        }
    }

    /// The counts, one a line, and whether none of what is possible is 0.
    pub fn report(&self) -> (String, bool) {
        let (mut text, mut all) = (String::new(), true);
        let mut put = |count: Option<&usize>, words: String| {
            text += &format!("{:>8} {words}\n", count.unwrap_or(&0));
            all &= count.is_some();
        };
        for (call, word) in CALLS {
            for (_, ground) in POSSIBLE.iter().filter(|(meets, _)| meets(call)) {
                put(self.decided.get(&(word, *ground)), format!("{word}: {} {}", ground.0, ground.1));
            }
            for (_, first, second) in ORDER.iter().filter(|(meets, ..)| meets(call)) {
                put(self.ordered.get(&(word, *first, *second)), format!("{word}: {first} before {second}"));
            }
            for (words, ..) in ODDITIES.iter().filter(|(_, can, _)| can(call)) {
                put(self.odd.get(&(word, words)), format!("{word}: accepted with {words}"));
            }
        }
        (text, all)
    }
}
