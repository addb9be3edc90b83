//! The captures in samples/, built here so that they can be made again.

use crate::capture::lay_out;
use crate::frame::{self, Head};
use crate::text::unhex;

/// The capture of the sample that the command line names.
pub fn of_name(name: &str) -> Option<Vec<u8>> {
    match name {
        "document" => Some(lay_out(&document())),
        "run" => Some(lay_out(&run())),
        "damaged" => Some(lay_out(&damaged())),
        "cut" => Some(cut()),
        _ => None,
    }
}

type Bodies = Vec<(u32, Vec<u8>)>;

/// Document 01's own example under "Lister".
fn document() -> Bodies {
    vec![(0, octets("DC0302")), (500, octets("100502495017"))]
}

const LIFT_A: Option<u8> = Some(60);
const LIFT_B: Option<u8> = Some(61);
/// The point at which both masters want their replies.
const DESK: Option<u8> = Some(62);

/// Masters 2 and 5 share a ring; two lifts stand behind station 7, told apart by access point only.
fn run() -> Bodies {
    vec![
        (1000, token(2, 5)),
        // 2 asks lift A, its first request to 7 (FCB 1, FCV 0), and hears floor 4, doors shut.
        (1108, frame((7, LIFT_A), (2, DESK), 0x6D, &[1])),
        (1290, frame((2, DESK), (7, LIFT_A), 0x0A, &[4, 0])),
        // It asks lift B (FCV 1, bit 0), hears nothing, sends the same octets again and hears floor 9.
        (1508, frame((7, LIFT_B), (2, DESK), 0x5D, &[1])),
        (2095, frame((7, LIFT_B), (2, DESK), 0x5D, &[1])),
        (2277, frame((2, DESK), (7, LIFT_B), 0x08, &[9, 1])),
        // It sends lift A to floor 6 by SDA low (bit 1); the short acknowledgement follows.
        (2495, frame((7, LIFT_A), (2, DESK), 0x73, &[2, 6, 0])),
        (2698, vec![frame::SHORT]),
        // It tells all stations the hour by SDN high and passes the token.
        (2784, frame((127, None), (2, None), 0x46, &[13, 45])),
        (3305, token(5, 2)),
        // 5 asks whether 7 is there; 7 answers OK as a slave.
        (3413, frame((7, None), (5, None), 0x49, &[])),
        (3500, frame((5, None), (7, None), 0x00, &[])),
        // 5 asks lift B, which has no room (RR); it asks anew with the next bit and gets four octets.
        (3641, frame((7, LIFT_B), (5, DESK), 0x6C, &[])),
        (3800, frame((5, DESK), (7, LIFT_B), 0x02, &[])),
        (3996, frame((7, LIFT_B), (5, DESK), 0x5C, &[])),
        (4155, frame((5, DESK), (7, LIFT_B), 0x08, &[9, 1, 0, 3])),
        // 2 misses the token, so 5 passes it again.
        (4395, token(2, 5)),
        (4883, token(2, 5)),
        // 2 asks lift A with its own next bit, 0; lift A has nothing new (NR).
        (4991, frame((7, LIFT_A), (2, DESK), 0x5D, &[])),
        (5150, frame((2, DESK), (7, LIFT_A), 0x09, &[])),
    ]
}

/// Each of the reader's refusals once, in their order, then an SD3 frame: the lister goes on after damage.
fn damaged() -> Bodies {
    let bodies = [
        "-",                            // 1: no octets
        "0010",                         // 2: first octet is no start
        "680505",                       // 3: fewer than four octets of SD2
        "6805066883826D3C3EEC16",       // 4: LE repeats differ
        "1005024950",                   // 5: the end octet is lost
        "100502495017",                 // 6: last octet 17
        "100502495116",                 // 7: FCS 51 for 50
        "DC7F02",                       // 8: token to 127
        "100502474E16",                 // 9: FC 47, request code 7
        "6804046885024C401316",         // 10: destination access point 64
        "107F024DCE16",                 // 11: SRD high to all stations
        "A205024301020304050607086E16", // accepted: SDA low with eight data octets
    ];
    bodies.iter().zip((1000..).step_by(500)).map(|(body, clock)| (clock, octets(body))).collect()
}

/// Three bodies announced; the third's six octets and the second's last two are cut off.
fn cut() -> Vec<u8> {
    let bodies = [(0, octets("DC0302")), (141, octets("100502495016")), (300, octets("100205303716"))];
    let mut capture = lay_out(&bodies);
    capture.truncate(capture.len() - 6 - 2);
    capture
}

fn octets(hex: &str) -> Vec<u8> {
    unhex(hex).expect("a sample is hex")
}

fn token(destination: u8, source: u8) -> Vec<u8> {
    written(|out| frame::write_token(destination, source, out))
}

fn frame(da: (u8, Option<u8>), sa: (u8, Option<u8>), control: u8, data: &[u8]) -> Vec<u8> {
    let head = Head { destination: da.0, to: da.1, source: sa.0, from: sa.1, control };
    written(|out| frame::write(&head, data, out))
}

fn written(write: impl FnOnce(&mut [u8]) -> Result<usize, frame::Refusal>) -> Vec<u8> {
    let mut out = [0; 255];
    let count = write(&mut out).expect("a sample is lawful");
    out[..count].to_vec()
}
