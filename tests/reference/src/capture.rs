//! Captures for the lister, of every ending.

use crate::draft::{faulty, noise, Draft};
use crate::frame::{LONGEST_UNIT, SHORT, TOKEN};
use crate::lister::MOST_BODIES;
use crate::random::Random;

/// How a capture may end: with its last body, cut, with octets after it, or by its count.
pub const ENDINGS: [Ending; 4] = [Ending::End, Ending::Short, Ending::Long, Ending::Count];

#[derive(Clone, Copy)]
pub enum Ending {
    End,
    Short,
    Long,
    Count,
}

/// Lays out a capture: the count, a clock and a length for each body, then the bodies.
pub fn lay_out(bodies: &[(u32, Vec<u8>)]) -> Vec<u8> {
    let mut capture = (bodies.len() as u16).to_be_bytes().to_vec();
    for (clock, body) in bodies {
        capture.extend(clock.to_be_bytes());
        capture.push(body.len() as u8);
    }
    for (_, body) in bodies {
        capture.extend(body);
    }
    capture
}

/// A capture of the kind that the command line names, `full` having as many bodies as a capture may have.
pub fn of_kind(kind: &str, seed: u64) -> Option<Vec<u8>> {
    let mut random = Random::new(seed);
    let (end, bodies) = match kind {
        "end" => (Ending::End, 40),
        "short" => (Ending::Short, 40),
        "long" => (Ending::Long, 40),
        "count" => (Ending::Count, 40),
        "full" => (Ending::End, MOST_BODIES),
        _ => return None,
    };
    Some(ending(end, bodies, &mut random))
}

/// A seeded capture that ends as asked.
pub fn ending(end: Ending, count: usize, random: &mut Random) -> Vec<u8> {
    let bodies: Vec<_> = (0..count).map(|n| (1000 * n as u32, body(random))).collect();
    let mut capture = lay_out(&bodies);
    match end {
        Ending::End => {}
        Ending::Short => capture.truncate(random.below(capture.len())),
        Ending::Long => {
            let more = 1 + random.below(4);
            capture.extend(random.octets(more));
        }
        Ending::Count => {
            let beyond = MOST_BODIES + 1 + random.below(65_536 - MOST_BODIES - 1);
            let over = random.pick(&[MOST_BODIES + 1, beyond]) as u16;
            capture[..2].copy_from_slice(&over.to_be_bytes());
        }
    }
    capture
}

/// One body as a line may show it: tokens, short ones and frames, one in four faulty or noise.
fn body(random: &mut Random) -> Vec<u8> {
    let mut octets = match random.below(8) {
        0 | 1 => vec![TOKEN, random.below(127) as u8, random.below(127) as u8],
        2 => vec![SHORT],
        3..=5 => Draft::lawful(random, LONGEST_UNIT).octets(),
        6 => faulty(random),
        _ => noise(random),
    };
    octets.truncate(255);
    octets
}
