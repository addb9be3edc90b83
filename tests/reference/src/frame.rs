//! Frames: the reader and the writer of document 01, section "Frames".
//! Written from the document alone and sharing nothing with the crates, so that the two can be held against
//! each other. Knows nothing of scripts and captures.

pub const SD1: u8 = 0x10;
pub const SD2: u8 = 0x68;
pub const SD3: u8 = 0xA2;
pub const TOKEN: u8 = 0xDC;
pub const SHORT: u8 = 0xE5;
pub const END: u8 = 0x16;

/// The bit of DA and SA that announces an access point, and the bit of FC that marks a request.
pub const ANNOUNCED: u8 = 0x80;
pub const REQUEST: u8 = 0x40;

pub const ALL_STATIONS: u8 = 127;
pub const LAST_DESTINATION_POINT: u8 = 63;
pub const LAST_SOURCE_POINT: u8 = 62;
pub const LONGEST_UNIT: usize = 246;

/// A refusal's number in document 01, 1 to 13.
pub type Refusal = u8;

/// What a frame says beside its data: DA, SA and FC, the access points apart from the addresses.
#[derive(Clone, Debug, PartialEq)]
pub struct Head {
    pub destination: u8,
    pub to: Option<u8>,
    pub source: u8,
    pub from: Option<u8>,
    pub control: u8,
}

/// An accepted string of octets. The data of a frame are `count` octets of the string from `start` on.
#[derive(Debug, PartialEq)]
pub enum Message {
    Token { destination: u8, source: u8 },
    Short,
    Frame { head: Head, start: usize, count: usize },
}

/// Reads a string of octets; the first refusal that matches is given.
pub fn read(octets: &[u8]) -> Result<Message, Refusal> {
    match octets.first() {
        None => Err(1),
        Some(&SD1) => read_checked(octets, 6, 1),
        Some(&SD2) => read_checked(octets, sd2_count(octets)?, 4),
        Some(&SD3) => read_checked(octets, 14, 1),
        Some(&TOKEN) => read_token(octets),
        Some(&SHORT) if octets.len() == 1 => Ok(Message::Short),
        Some(&SHORT) => Err(5),
        Some(_) => Err(2),
    }
}

/// The octet count that the head of an SD2 frame announces: refusals 3 and 4.
fn sd2_count(octets: &[u8]) -> Result<usize, Refusal> {
    let &[_, length, repeat, second_start, ..] = octets else {
        return Err(3);
    };
    if !(4..=249).contains(&length) || repeat != length || second_start != SD2 {
        return Err(4);
    }
    Ok(usize::from(length) + 6)
}

fn read_token(octets: &[u8]) -> Result<Message, Refusal> {
    let &[_, destination, source] = octets else {
        return Err(5);
    };
    if destination >= ALL_STATIONS || source >= ALL_STATIONS {
        return Err(8);
    }
    Ok(Message::Token { destination, source })
}

/// Reads a frame with a checksum, of `count` octets, whose DA stands at `body_start`: refusals 5 to 11.
fn read_checked(octets: &[u8], count: usize, body_start: usize) -> Result<Message, Refusal> {
    if octets.len() != count {
        return Err(5);
    }
    if octets[count - 1] != END {
        return Err(6);
    }
    let body = &octets[body_start..count - 2];
    if octets[count - 2] != checksum(body) {
        return Err(7);
    }
    let (da, sa, control) = (body[0], body[1], body[2]);
    let (destination, source) = (da & !ANNOUNCED, sa & !ANNOUNCED);
    let extended = (da | sa) & ANNOUNCED != 0;
    if source == ALL_STATIONS || (octets[0] == SD1 && extended) {
        return Err(8);
    }
    if !is_listed(control) {
        return Err(9);
    }
    let mut unit = body[3..].iter();
    let to = read_point(da, &mut unit, LAST_DESTINATION_POINT)?;
    let from = read_point(sa, &mut unit, LAST_SOURCE_POINT)?;
    if destination == ALL_STATIONS && !is_sdn(control) {
        return Err(11);
    }
    let data_count = unit.len();
    let head = Head { destination, to, source, from, control };
    Ok(Message::Frame { head, start: count - 2 - data_count, count: data_count })
}

/// Takes from the unit the access point that an address octet announces, if it does: refusal 10.
fn read_point(address: u8, unit: &mut std::slice::Iter<u8>, last: u8) -> Result<Option<u8>, Refusal> {
    if address & ANNOUNCED == 0 {
        return Ok(None);
    }
    match unit.next() {
        Some(&point) if point <= last => Ok(Some(point)),
        _ => Err(10),
    }
}

/// FCS: the sum of DA, SA, FC and unit modulo 256.
pub fn checksum(body: &[u8]) -> u8 {
    body.iter().fold(0, |sum, &octet| sum.wrapping_add(octet))
}

/// Whether the document lists this FC: its code, and FCB and FCV 0 except in SDA and SRD.
pub fn is_listed(control: u8) -> bool {
    let code = control & 0x0F;
    match control & 0xF0 {
        0x00 | 0x10 | 0x20 | 0x30 => matches!(code, 0..=3 | 8..=10 | 12 | 13),
        0x40 => matches!(code, 3..=6 | 9 | 12..=15),
        0x50 | 0x60 | 0x70 => matches!(code, 3 | 5 | 12 | 13),
        _ => false,
    }
}

/// SDN low or SDN high, the only services that may go to all stations.
pub fn is_sdn(control: u8) -> bool {
    matches!(control, 0x44 | 0x46)
}

/// Writes a frame at the start of `out` and gives its octet count: SD1 for an empty unit, else SD2.
pub fn write(head: &Head, data: &[u8], out: &mut [u8]) -> Result<usize, Refusal> {
    refuse_head(head)?;
    let mut body =
        vec![address_octet(head.destination, head.to), address_octet(head.source, head.from), head.control];
    body.extend(head.to);
    body.extend(head.from);
    body.extend(data);
    if body.len() > 3 + LONGEST_UNIT {
        return Err(12);
    }
    let mut frame = match body.len() {
        3 => vec![SD1],
        length => vec![SD2, length as u8, length as u8, SD2],
    };
    frame.extend(&body);
    frame.extend([checksum(&body), END]);
    put(&frame, out)
}

/// The writer's refusals 8 to 11, for fields that no frame may carry.
fn refuse_head(head: &Head) -> Result<(), Refusal> {
    if head.source >= ALL_STATIONS || head.destination > ALL_STATIONS {
        return Err(8);
    }
    if !is_listed(head.control) {
        return Err(9);
    }
    let to_too_high = head.to.is_some_and(|point| point > LAST_DESTINATION_POINT);
    let from_too_high = head.from.is_some_and(|point| point > LAST_SOURCE_POINT);
    if to_too_high || from_too_high {
        return Err(10);
    }
    if head.destination == ALL_STATIONS && !is_sdn(head.control) {
        return Err(11);
    }
    Ok(())
}

fn address_octet(address: u8, point: Option<u8>) -> u8 {
    match point {
        Some(_) => address | ANNOUNCED,
        None => address,
    }
}

pub fn write_token(destination: u8, source: u8, out: &mut [u8]) -> Result<usize, Refusal> {
    if destination >= ALL_STATIONS || source >= ALL_STATIONS {
        return Err(8);
    }
    put(&[TOKEN, destination, source], out)
}

pub fn write_short(out: &mut [u8]) -> Result<usize, Refusal> {
    put(&[SHORT], out)
}

/// Puts a whole frame at the start of the output, or refuses 13 and leaves the output as it was.
fn put(frame: &[u8], out: &mut [u8]) -> Result<usize, Refusal> {
    out.get_mut(..frame.len()).ok_or(13)?.copy_from_slice(frame);
    Ok(frame.len())
}

#[cfg(test)]
mod tests {
    use super::*;

    fn frame(
        da: (u8, Option<u8>),
        sa: (u8, Option<u8>),
        control: u8,
        data: (usize, usize),
    ) -> Result<Message, Refusal> {
        let head = Head { destination: da.0, to: da.1, source: sa.0, from: sa.1, control };
        Ok(Message::Frame { head, start: data.0, count: data.1 })
    }

    /// The frames among document 01's "Twelve to prove", by their numbers there.
    #[test]
    fn frames_of_the_twelve() {
        assert_eq!(read(&[0xDC, 3, 2]), Ok(Message::Token { destination: 3, source: 2 })); // 1
        let status = [0x10, 0x05, 0x02, 0x49, 0x50, 0x16]; // 2
        assert_eq!(read(&status), frame((5, None), (2, None), 0x49, (4, 0)));
        let reply = [0x10, 0x02, 0x05, 0x30, 0x37, 0x16]; // 3
        assert_eq!(read(&reply), frame((2, None), (5, None), 0x30, (4, 0)));
        let srd = [0x68, 5, 5, 0x68, 0x83, 0x82, 0x6D, 0x3C, 0x3E, 0xEC, 0x16]; // 4
        assert_eq!(read(&srd), frame((3, Some(60)), (2, Some(62)), 0x6D, (9, 0)));
        let sdn = [0x68, 5, 5, 0x68, 0x7F, 0x02, 0x46, 0x01, 0x02, 0xCA, 0x16]; // 5
        assert_eq!(read(&sdn), frame((127, None), (2, None), 0x46, (7, 2)));
        let sd3 = [0xA2, 5, 2, 0x43, 1, 2, 3, 4, 5, 6, 7, 8, 0x6E, 0x16]; // 6
        assert_eq!(read(&sd3), frame((5, None), (2, None), 0x43, (4, 8)));
        assert_eq!(read(&[]), Err(1)); // 8
    }

    /// Case 7: LE 249 gives 255 octets; LE 3 and 250 are refused 4.
    #[test]
    fn lengths_of_sd2() {
        let head = Head { destination: 5, to: None, source: 2, from: None, control: 0x43 };
        let mut out = [0; 255];
        assert_eq!(write(&head, &[0; 246], &mut out), Ok(255));
        assert_eq!(out[1], 249);
        assert_eq!(read(&out), frame((5, None), (2, None), 0x43, (7, 246)));
        assert_eq!(read(&[SD2, 3, 3, SD2]), Err(4));
        assert_eq!(read(&[SD2, 250, 250, SD2]), Err(4));
    }
}
