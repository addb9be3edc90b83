//! A line of the replay script as a call of the station.

use crate::frame::{ALL_STATIONS, LAST_SOURCE_POINT};
use crate::queue::{Priority, Request, Service};
use crate::station::{Points, Start};
use crate::text::unhex;
use crate::times::{Settings, STANDARD};
use crate::transitions::{note, Transition};

/// The most characters of a line, without its end.
const LONGEST_LINE: usize = 4096;

pub enum Call {
    Start(Start),
    Submit { priority: Priority, request: Request },
    Frame { clock: u32, room: bool, high: Vec<u8>, low: Vec<u8>, octets: Vec<u8> },
    Sent(u32),
    Slot(u32),
    Reset,
    Collect(Priority),
    Show,
}

impl Call {
    /// The call of a line, or why it is none.
    pub fn of(line: &[u8]) -> Result<Call, Transition> {
        if line.len() > LONGEST_LINE {
            return Err(Transition::LineTooLong);
        }
        let line = std::str::from_utf8(line).map_err(|_| Transition::LineUnknown)?;
        let words: Vec<&str> = line.split(' ').filter(|word| !word.is_empty()).collect();
        let (&name, operands) = words.split_first().ok_or(Transition::LineSpaces)?;
        let count = operand_count(name).ok_or(Transition::LineUnknown)?;
        let (operands, behind) = operands.split_at_checked(count).ok_or(Transition::LineWords)?;
        let values = pairs(pair_names(name), behind)?;
        call(name, operands, &values).ok_or(Transition::LineOperand)
    }
}

fn operand_count(name: &str) -> Option<usize> {
    match name {
        "start" => Some(12),
        "submit" => Some(6),
        "frame" => Some(5),
        "sent" | "slot" | "collect" => Some(1),
        "reset" | "show" => Some(0),
        _ => None,
    }
}

/// The names of the pairs that may stand behind a call's operands, in their order.
fn pair_names(name: &str) -> &'static [&'static str] {
    match name {
        "start" => &["tsdi"],
        "submit" => &["ref", "limit"],
        _ => &[],
    }
}

/// The value of each name, none where its pair is left out.
fn pairs(names: &[&str], words: &[&str]) -> Result<Vec<Option<u32>>, Transition> {
    if names.is_empty() && !words.is_empty() {
        return Err(Transition::LineWords);
    }
    let mut values = vec![None; names.len()];
    let mut free = 0;
    for pair in words.chunks(2) {
        let &[name, value] = pair else { return Err(Transition::LinePair) };
        let known = names.iter().position(|known| *known == name);
        let place = known.filter(|&place| place >= free).ok_or(Transition::LinePair)?;
        values[place] = Some(number(value).ok_or(Transition::LineOperand)?);
        free = place + 1;
    }
    Ok(values)
}

/// The call of a known word with as many operands as it takes, and the values of its pairs.
fn call(name: &str, operands: &[&str], values: &[Option<u32>]) -> Option<Call> {
    match (name, operands) {
        ("start", operands) => start(operands, values).map(Call::Start),
        ("submit", &[queue, ref request @ ..]) => {
            let priority = queue_of(queue)?;
            submit(request, values).map(|request| Call::Submit { priority, request })
        }
        ("frame", &[clock, room, high, low, heard]) => Some(Call::Frame {
            clock: number(clock)?,
            room: room_of(room)?,
            high: octets(high)?,
            low: octets(low)?,
            octets: octets(heard)?,
        }),
        ("sent", &[clock]) => number(clock).map(Call::Sent),
        ("slot", &[clock]) => number(clock).map(Call::Slot),
        ("reset", &[]) => Some(Call::Reset),
        ("collect", &[queue]) => queue_of(queue).map(Call::Collect),
        ("show", &[]) => Some(Call::Show),
        _ => None,
    }
}

/// The request of a submit. Without a limit it asks for the station's.
fn submit(operands: &[&str], values: &[Option<u32>]) -> Option<Request> {
    let &[service, destination, to, from, data] = operands else {
        return None;
    };
    let &[reference, limit] = values else {
        return None;
    };
    let request = Request {
        service: service_of(service)?,
        destination: octet(destination)?,
        to: point(to)?,
        from: point(from)?,
        data: octets(data)?,
        reference: reference.unwrap_or(0),
        limit: limit.unwrap_or(0).try_into().ok()?,
        asks: limit.is_none(),
    };
    note(match (reference, limit) {
        (None, None) => Transition::LineSubmitPlain,
        (Some(_), None) => Transition::LineSubmitRef,
        (None, Some(_)) => Transition::LineSubmitLimit,
        (Some(_), Some(_)) => Transition::LineSubmitBoth,
    });
    if reference == Some(0) {
        note(Transition::LineSubmitRef0);
    }
    Some(request)
}

fn start(operands: &[&str], values: &[Option<u32>]) -> Option<Start> {
    let &[tset, tqui, min_tsdr, max_tsdr, ttd, ttr, retry, address, masters, points, high, low] = operands
    else {
        return None;
    };
    let settings = Settings {
        tset: number(tset)?,
        tqui: number(tqui)?,
        min_tsdr: number(min_tsdr)?,
        max_tsdr: number(max_tsdr)?,
        ttd: number(ttd)?,
        ttr: number(ttr)?,
        retry_limit: number(retry)?,
        tsdi: values[0].unwrap_or(STANDARD.tsdi),
    };
    Some(Start {
        settings,
        address: number(address)?,
        masters: entries(masters).map(|word| octet_below(word, ALL_STATIONS)).collect::<Option<_>>()?,
        points: entries(points).map(active_point).collect::<Option<Points>>()?,
        high: octet(high)?,
        low: octet(low)?,
    })
}

/// A decimal number of 32 bits, without a sign.
fn number(word: &str) -> Option<u32> {
    let decimal = word.bytes().all(|character| character.is_ascii_digit());
    word.parse().ok().filter(|_| decimal)
}

fn octet(word: &str) -> Option<u8> {
    number(word)?.try_into().ok()
}

fn octet_below(word: &str, limit: u8) -> Option<u8> {
    octet(word).filter(|&value| value < limit)
}

fn octets(word: &str) -> Option<Vec<u8>> {
    unhex(word).ok()
}

/// An access point to submit, `-` for none.
fn point(word: &str) -> Option<Option<u8>> {
    match word {
        "-" => Some(None),
        word => octet(word).map(Some),
    }
}

/// An active access point in the list of start.
fn active_point(word: &str) -> Option<Option<u8>> {
    match word {
        "none" => Some(None),
        word => octet_below(word, LAST_SOURCE_POINT + 1).map(Some),
    }
}

/// The entries of a list joined by commas, `-` having none.
fn entries(list: &str) -> impl Iterator<Item = &str> {
    list.split(',').filter(move |_| list != "-")
}

fn room_of(word: &str) -> Option<bool> {
    match word {
        "0" => Some(false),
        "1" => Some(true),
        _ => None,
    }
}

fn queue_of(word: &str) -> Option<Priority> {
    match word {
        "high" => Some(Priority::High),
        "low" => Some(Priority::Low),
        _ => None,
    }
}

fn service_of(word: &str) -> Option<Service> {
    match word {
        "sda" => Some(Service::Sda),
        "sdn" => Some(Service::Sdn),
        "srd" => Some(Service::Srd),
        "status" => Some(Service::FdlStatus),
        "ident" => Some(Service::Ident),
        "lsap" => Some(Service::LsapStatus),
        _ => None,
    }
}
