//! Frames for the tests: lawful ones, and ones with a fault in a field or in the octets.

use crate::frame::{
    checksum, is_listed, is_sdn, ALL_STATIONS, ANNOUNCED, END, LAST_DESTINATION_POINT, LAST_SOURCE_POINT,
    LONGEST_UNIT, SD1, SD2, SD3, SHORT, TOKEN,
};
use crate::random::Random;

/// A frame with a checksum before it is laid out; DA and SA are whole octets, and any field may be wrong.
pub struct Draft {
    pub start: u8,
    pub da: u8,
    pub sa: u8,
    pub control: u8,
    pub unit: Vec<u8>,
}

impl Draft {
    /// A frame that the reader accepts, with a unit of at most `longest` octets if it is SD2.
    pub fn lawful(random: &mut Random, longest: usize) -> Draft {
        let start = random.pick(&[SD1, SD2, SD2, SD3]);
        let control = listed_control(random);
        let to_all = is_sdn(control) && random.one_in(3);
        let da = if to_all { ALL_STATIONS } else { random.below(127) as u8 };
        let sa = random.below(127) as u8;
        let mut draft = Draft { start, da, sa, control, unit: Vec::new() };
        if start != SD1 {
            draft.fill_unit(random, longest);
        }
        draft
    }

    /// Gives the unit its access points, each of them in half of the frames, and its data.
    fn fill_unit(&mut self, random: &mut Random, longest: usize) {
        if random.one_in(2) {
            self.da |= ANNOUNCED;
            self.unit.push(random.below(usize::from(LAST_DESTINATION_POINT) + 1) as u8);
        }
        if random.one_in(2) {
            self.sa |= ANNOUNCED;
            self.unit.push(random.below(usize::from(LAST_SOURCE_POINT) + 1) as u8);
        }
        let points = self.unit.len();
        let data_count = match self.start {
            SD3 => 8 - points,
            _ => data_count(random, longest - points).max(usize::from(points == 0)),
        };
        self.unit.extend(random.octets(data_count));
    }

    /// Lays the frame out, with the LE and FCS that belong to its fields.
    pub fn octets(&self) -> Vec<u8> {
        let mut body = vec![self.da, self.sa, self.control];
        body.extend(&self.unit);
        let length = body.len() as u8;
        let mut octets = match self.start {
            SD2 => vec![SD2, length, length, SD2],
            start => vec![start],
        };
        octets.extend(&body);
        octets.extend([checksum(&body), END]);
        octets
    }
}

/// A number of data octets up to `most`: often few, at times just at the limit.
pub fn data_count(random: &mut Random, most: usize) -> usize {
    match random.below(8) {
        0..=3 => random.below(most.min(8) + 1),
        4 | 5 => random.below(most.min(40) + 1),
        6 => most - random.below(most.min(2) + 1),
        _ => random.below(most + 1),
    }
}

pub fn listed_control(random: &mut Random) -> u8 {
    loop {
        let control = random.octet();
        if is_listed(control) {
            return control;
        }
    }
}

/// Faults in a field. The checksum is laid out over the faulty field, so that refusals 8 to 11 are met.
const FIELD_FAULTS: [fn(&mut Draft, &mut Random); 9] = [
    // SA 127, DA 127, and access points announced where none stands.
    |draft, _| draft.sa |= ALL_STATIONS,
    |draft, _| draft.da |= ALL_STATIONS,
    |draft, _| draft.da |= ANNOUNCED,
    |draft, _| draft.sa |= ANNOUNCED,
    // Any FC.
    |draft, random| draft.control = random.octet(),
    // Access points out of range for both, out of range for the source only, missing.
    |draft, random| draft.unit = vec![64 + random.below(192) as u8; draft.unit.len()],
    |draft, random| draft.unit = vec![63; draft.unit.len().min(1 + random.below(2))],
    |draft, random| draft.unit = random.octets(1),
    // A unit that is just in range or too long for LE.
    |draft, random| {
        let count = LONGEST_UNIT + random.below(20);
        draft.unit = random.octets(count);
    },
];

/// Faults in the octets of a frame with a checksum, which has six octets at least.
const OCTET_FAULTS: [fn(&mut Vec<u8>, &mut Random); 13] = [
    // One octet more, one fewer at the end or inside, a cut, a tail past 255 octets.
    |octets, random| octets.push(random.octet()),
    |octets, _| octets.truncate(octets.len() - 1),
    |octets, _| {
        octets.remove(4);
    },
    |octets, random| octets.truncate(random.below(octets.len())),
    |octets, random| octets.extend(random.octets(256)),
    // Another start; then in SD2: LE off by one, its repeat, the fourth octet, LE and repeat alike.
    |octets, random| octets[0] = random.pick(&[SD1, SD2, SD3, TOKEN, SHORT, END, 0]),
    |octets, random| octets[1] = random.pick(&[octets[1].wrapping_sub(1), octets[1].wrapping_add(1)]),
    |octets, random| octets[2] = random.other_octet(octets[2]),
    |octets, random| octets[3] = random.other_octet(octets[3]),
    |octets, random| octets[1..3].fill(random.octet()),
    // The end octet, the checksum, any octet.
    |octets, random| *from_end(octets, 1) = random.other_octet(END),
    |octets, random| *from_end(octets, 2) = random.octet(),
    |octets, random| {
        let place = random.below(octets.len());
        octets[place] = random.octet();
    },
];

fn from_end(octets: &mut [u8], distance: usize) -> &mut u8 {
    let place = octets.len() - distance;
    &mut octets[place]
}

/// A frame with up to two field faults and at most one octet fault; one in six has none.
pub fn faulty(random: &mut Random) -> Vec<u8> {
    let mut draft = Draft::lawful(random, LONGEST_UNIT);
    for _ in 0..random.below(3) {
        random.pick(&FIELD_FAULTS)(&mut draft, random);
    }
    let mut octets = draft.octets();
    if random.one_in(2) {
        random.pick(&OCTET_FAULTS)(&mut octets, random);
    }
    octets
}

/// Octets without order behind an octet that is mostly a start.
pub fn noise(random: &mut Random) -> Vec<u8> {
    let count = if random.one_in(4) { random.below(300) } else { random.below(8) };
    let mut octets = random.octets(count);
    if let Some(first) = octets.first_mut() {
        *first = random.pick(&[SD1, SD2, SD3, TOKEN, SHORT, *first]);
    }
    octets
}
