//! The replay script: one station driven by lines of text, one line of answer for each call.

use crate::call::Call;
use crate::queue::{Confirmed, Priority, Service, Status};
use crate::station::{Heard, Indication, Outcome, Phase, Station};
use crate::text::{hex, optional};
use crate::transitions::{note, Transition};

/// The station of a script; none before the first accepted start.
#[derive(Default)]
pub struct Replay {
    pub station: Option<Station>,
}

impl Replay {
    /// The answer to a line without its end, None for an empty line or a comment.
    pub fn answer(&mut self, line: &[u8]) -> Option<String> {
        if matches!(line.first(), None | Some(b'#')) {
            note(Transition::LineNone);
            return None;
        }
        let answer = Call::of(line).and_then(|call| self.run(call));
        Some(answer.unwrap_or_else(|why| {
            note(why);
            "?".to_string()
        }))
    }

    /// The answers to a whole script, each with its line end.
    pub fn answers(&mut self, script: &[u8]) -> String {
        let mut text = String::new();
        for line in lines(script) {
            if let Some(answer) = self.answer(line) {
                text.push_str(&answer);
                text.push('\n');
            }
        }
        text
    }

    /// Runs a call; start replaces the station if it is accepted, all else needs one.
    fn run(&mut self, call: Call) -> Result<String, Transition> {
        if let Call::Start(start) = call {
            return Ok(say(Station::start(start), |station| {
                self.station = Some(station);
                "ok".to_string()
            }));
        }
        let station = self.station.as_mut().ok_or(Transition::LineBeforeStart)?;
        Ok(run_on(station, call))
    }
}

/// The lines of a script without their ends; the last need not have one.
fn lines(script: &[u8]) -> impl Iterator<Item = &[u8]> {
    let whole = script.strip_suffix(b"\n").unwrap_or(script);
    let none = script.is_empty();
    whole.split(|&octet| octet == b'\n').filter(move |_| !none)
}

fn run_on(station: &mut Station, call: Call) -> String {
    match call {
        Call::Start(_) => unreachable!("start needs no station"),
        Call::Submit { priority, request } => say(station.submit(priority, request), |()| "ok".to_string()),
        Call::Frame { clock, room, high, low, octets } => {
            let heard = Heard { clock, room, high: &high, low: &low, octets: &octets };
            say(station.frame(&heard), say_outcome)
        }
        Call::Sent(clock) => say_outcome(station.sent(clock)),
        Call::Slot(clock) => say_outcome(station.slot(clock)),
        Call::Reset => {
            station.reset();
            "ok".to_string()
        }
        Call::Collect(priority) => say(station.collect(priority), say_confirmed),
        Call::Show => say_station(station),
    }
}

fn say<T>(answer: Result<T, u8>, accepted: impl FnOnce(T) -> String) -> String {
    match answer {
        Ok(value) => accepted(value),
        Err(number) => format!("refused {number}"),
    }
}

fn say_outcome(outcome: Outcome) -> String {
    let mut text = "ok".to_string();
    if let Some(sending) = outcome.sent {
        text.push_str(&format!(" send {} {}", sending.wait, hex(&sending.octets)));
    }
    if let Some(indication) = outcome.indication {
        text.push_str(&say_indication(&indication));
    }
    text
}

fn say_indication(indication: &Indication) -> String {
    let head = &indication.head;
    format!(
        " indicate {} {} {} {} {} {} {}",
        service_word(indication.service),
        priority_word(indication.priority),
        head.destination,
        head.source,
        optional(head.to),
        optional(head.from),
        hex(&indication.data)
    )
}

fn say_confirmed(confirmed: Confirmed) -> String {
    let request = &confirmed.request;
    let reference = match request.reference {
        0 => String::new(),
        reference => format!(" ref {reference}"),
    };
    format!(
        "ok {} {} {} {} {} {} {} {}{reference}",
        confirmed.place,
        service_word(request.service),
        request.destination,
        optional(request.to),
        optional(request.from),
        status_word(confirmed.status),
        confirmed.count,
        hex(&request.data)
    )
}

fn say_station(station: &Station) -> String {
    note(Transition::LineShow);
    let phase = match station.phase {
        Phase::Idle => "idle",
        Phase::ReplyAwaited(_) => "awaited",
        Phase::SdnGoingOut(_) => "sdn",
        Phase::PassChecked(_) => "check",
        Phase::PassToSelf => "self",
    };
    let masters: Vec<String> = station.ring.masters().iter().map(u8::to_string).collect();
    format!(
        "ok {phase} {} {} {} {} {} {} {} {}",
        station.address,
        station.previous,
        station.next(),
        masters.join(","),
        station.high.confirmed_count(),
        station.high.unconfirmed_count(),
        station.low.confirmed_count(),
        station.low.unconfirmed_count()
    )
}

pub fn priority_word(priority: Priority) -> &'static str {
    match priority {
        Priority::High => "high",
        Priority::Low => "low",
    }
}

pub fn service_word(service: Service) -> &'static str {
    match service {
        Service::Sda => "sda",
        Service::Sdn => "sdn",
        Service::Srd => "srd",
        Service::FdlStatus => "status",
        Service::Ident => "ident",
        Service::LsapStatus => "lsap",
    }
}

fn status_word(status: Status) -> &'static str {
    match status {
        Status::Ok => "OK",
        Status::Ue => "UE",
        Status::Rr => "RR",
        Status::Rs => "RS",
        Status::Nr => "NR",
        Status::Dl => "DL",
        Status::Dh => "DH",
        Status::Rdl => "RDL",
        Status::Rdh => "RDH",
        Status::Na => "NA",
        Status::Ds => "DS",
    }
}

#[cfg(test)]
mod tests {
    use super::*;

    const START: &str = "start 20 0 20 400 1 10000 1 2 2,5 none,60,62 4 4";

    /// Runs a script on a new station of masters 2 and 5 and holds each answer against the one expected.
    fn check(script: &[(&str, &str)]) {
        let mut replay = Replay::default();
        assert_eq!(replay.answer(START.as_bytes()).as_deref(), Some("ok"));
        for (line, expected) in script {
            assert_eq!(replay.answer(line.as_bytes()).as_deref(), Some(*expected), "{line}");
        }
    }

    /// The sample of the replay script, which is case 11 of document 01, and then case 12.
    #[test]
    fn cases_11_and_12() {
        check(&[
            ("submit high srd 7 - - -", "ok"),
            ("submit high srd 7 - - -", "ok"),
            ("frame 100 0 - - DC0205", "ok send 75 1007026D7616"),
            ("slot 600", "ok send 75 1007026D7616"),
            ("slot 1100", "ok send 75 DC0502"),
            ("collect high", "ok 0 srd 7 - - NA 2 -"),
            ("show", "ok check 2 5 5 2,5 0 1 0 0"),
            ("frame 1200 1 - - 100905465416", "ok"),
            ("frame 600 0 - - DC0205", "ok send 75 1007026D7616"),
            ("frame 800 0 - - E5", "ok send 75 DC0502"),
            ("collect high", "ok 1 srd 7 - - NR 1 -"),
            ("collect high", "refused 28"),
        ]);
    }

    /// Case 10: TTR 1000, acceptances 100 and then 1099 or 1100; likewise across the wrap of the clock.
    #[test]
    fn time_left_ends_at_ttr() {
        for (first, second, sends_low) in
            [(100, 1099, true), (100, 1100, false), (4_294_967_000, 703, true), (4_294_967_000, 704, false)]
        {
            let mut replay = Replay::default();
            replay.answer(b"start 20 0 20 400 1 1000 0 2 2,5 none 1 1");
            replay.answer(b"submit low sda 7 - - AA");
            let hold = |clock: u32| format!("frame {clock} 0 - - DC0205");
            assert_eq!(replay.answer(hold(first).as_bytes()).unwrap(), "ok send 75 DC0502");
            replay.answer(b"frame 0 0 - - -");
            let expected = if sends_low { "ok send 75 68040468070263AA1616" } else { "ok send 75 DC0502" };
            assert_eq!(replay.answer(hold(second).as_bytes()).unwrap(), expected, "{first} {second}");
        }
    }

    #[test]
    fn second_token_of_a_stranger() {
        check(&[
            ("frame 100 0 - - DC0209", "ok"),
            ("frame 200 0 - - DC020A", "ok"),
            ("frame 300 0 - - DC0209", "ok"),
            ("frame 400 0 - - DC0202", "ok"),
            ("frame 500 0 - - DC0305", "ok"),
            ("frame 600 0 - - DC0209", "ok send 75 DC0502"),
            ("show", "ok check 2 9 5 2,5,9 0 0 0 0"),
            ("frame 700 0 - - DC0209", "ok send 75 DC0502"),
            ("slot 800", "ok send 75 DC0502"),
            ("slot 900", "ok send 75 DC0502"),
            ("slot 1000", "ok send 75 DC0902"),
            ("slot 1100", "ok send 75 DC0902"),
            ("slot 1200", "ok send 75 DC0902"),
            ("slot 1300", "ok send 75 DC0202"),
            ("show", "ok self 2 2 2 2 0 0 0 0"),
            ("sent 1400", "ok send 75 DC0202"),
            ("reset", "ok"),
            ("show", "ok idle 2 5 5 2,5 0 0 0 0"),
        ]);
    }

    #[test]
    fn repeat_of_a_remembered_reply() {
        check(&[
            // SRD high 5 to 2, FCB 1 FCV 0, with an update and room: DH; then the same bit with FCV 1.
            (
                "frame 1 1 0102 - 1002056D7416",
                "ok send 20 6805056805023A01024416 indicate srd high 2 5 - - -",
            ),
            ("frame 2 1 03 - 1002057D8416", "ok send 20 6805056805023A01024416"),
            // The other bit is new, RR without room; its repeat is RR though there is room.
            ("frame 3 0 - - 1002055D6416", "ok send 20 100502323916"),
            ("frame 4 1 - - 1002055D6416", "ok send 20 100502323916"),
            // 0 0 leaves the memory; so do FDL status and a token to another.
            ("frame 5 1 - - 100205454C16", "ok send 20 E5 indicate sda high 2 5 - - -"),
            ("frame 6 1 - - 100205495016", "ok send 20 100502303716"),
            ("frame 7 1 - - DC0905", "ok"),
            ("frame 8 1 - - 100205555C16", "ok send 20 100502323916"),
            ("reset", "ok"),
            ("frame 9 1 - - 100205555C16", "ok send 20 E5 indicate sda high 2 5 - - -"),
        ]);
    }

    #[test]
    fn waits_after_an_sdn() {
        check(&[
            ("submit high sdn 127 63 1 AB", "ok"),
            ("submit low sdn 5 - - -", "ok"),
            ("frame 100 0 - - DC0205", "ok send 75 68060668FF82463F01ABB216"),
            ("frame 110 1 - - DC0205", "ok"),
            ("slot 120", "ok"),
            ("sent 130", "ok send 400 DC0502"),
            ("slot 140", "ok send 75 DC0502"),
            ("frame 150 0 - - DC0205", "ok send 75 100502444B16"),
            ("sent 160", "ok send 400 DC0502"),
            ("collect high", "ok 0 sdn 127 63 1 OK 1 -"),
            ("collect low", "ok 0 sdn 5 - - OK 1 -"),
        ]);
    }

    /// Document 02's order 6 at a station with retry limit 1: own limits of 0, 2 and 1, and the station's.
    #[test]
    fn each_request_by_its_own_limit() {
        check(&[
            ("frame 100 0 - - DC0205", "ok send 75 DC0502"),
            ("submit high srd 7 - - - limit 0", "ok"),
            ("submit high srd 7 - - - ref 8 limit 2", "ok"),
            ("submit low srd 7 - - - ref 4294967295 limit 1", "ok"),
            ("submit low srd 7 - - - ref 0", "ok"),
            ("frame 200 0 - - DC0205", "ok send 75 1007026D7616"),
            ("slot 300", "ok send 75 1007026D7616"),
            ("show", "ok awaited 2 5 5 2,5 1 1 0 2"),
            ("slot 400", "ok send 75 1007026D7616"),
            ("frame 500 0 - - E5E5", "ok send 75 1007026D7616"),
            ("slot 600", "ok send 75 1007026C7516"),
            ("show", "ok awaited 2 5 5 2,5 2 0 0 2"),
            ("slot 700", "ok send 75 1007026C7516"),
            ("slot 800", "ok send 75 1007026C7516"),
            ("slot 900", "ok send 75 1007026C7516"),
            ("slot 1000", "ok send 75 DC0502"),
            ("collect high", "ok 0 srd 7 - - NA 1 -"),
            ("collect high", "ok 1 srd 7 - - NA 3 - ref 8"),
            ("collect low", "ok 0 srd 7 - - NA 2 - ref 4294967295"),
            ("collect low", "ok 1 srd 7 - - NA 2 -"),
        ]);
    }

    /// The reference comes back with every kind of confirmation; and a station without retries retries what says so.
    #[test]
    fn a_reference_comes_back() {
        check(&[
            ("start 20 0 20 400 1 10000 0 2 2,5 none 4 2", "ok"),
            ("frame 100 0 - - DC0205", "ok send 75 DC0502"),
            ("submit high sdn 127 - - - ref 1", "ok"),
            ("submit high srd 7 - - - ref 2147483648 limit 1", "ok"),
            ("submit high srd 7 - - - ref 3", "ok"),
            ("submit low sda 7 - - 05 ref 4", "ok"),
            ("submit low sda 7 - - 06 ref 5 limit 15", "ok"),
            ("frame 200 0 - - DC0205", "ok send 75 107F0246C716"),
            ("sent 300", "ok send 400 1007026D7616"),
            ("slot 400", "ok send 75 1007026D7616"),
            ("frame 500 0 - - 68040468020708AABB16", "ok send 75 1007025D6616"),
            ("slot 600", "ok send 75 68040468070263057116"),
            ("reset", "ok"),
            ("collect high", "ok 0 sdn 127 - - OK 1 - ref 1"),
            ("collect high", "ok 1 srd 7 - - DL 2 AA ref 2147483648"),
            ("collect high", "ok 2 srd 7 - - NA 1 - ref 3"),
            ("collect low", "ok 0 sda 7 - - DS 1 - ref 4"),
            ("collect low", "ok 1 sda 7 - - DS 0 - ref 5"),
        ]);
    }

    /// 30 in its place: behind 26, before 27, for SDN too; 15 is taken.
    #[test]
    fn a_limit_over_15_is_refused() {
        let long = format!("submit high srd 7 - - {} limit 16", "00".repeat(247));
        check(&[
            ("submit high srd 128 - - - limit 16", "refused 23"),
            ("submit high srd 7 64 - - limit 255", "refused 24"),
            ("submit high ident 7 - - - limit 16", "refused 25"),
            (&long, "refused 26"),
            ("submit high srd 7 - - - limit 16", "refused 30"),
            ("submit high sdn 127 - - - ref 1 limit 255", "refused 30"),
            ("submit high sda 7 - - - limit 15", "ok"),
            ("submit high sda 7 - - - limit 0015", "ok"),
            ("submit high sda 7 - - -", "ok"),
            ("submit high sda 7 - - - ref 1", "ok"),
            ("submit high sda 7 - - - limit 16", "refused 30"),
            ("submit high sda 7 - - - limit 15", "refused 27"),
            ("submit high sda 7 - - -", "refused 27"),
            ("submit low sda 7 - - - limit 255", "refused 30"),
            ("show", "ok idle 2 5 5 2,5 0 4 0 0"),
        ]);
    }

    #[test]
    fn pairs_of_a_line() {
        check(&[
            ("start 20 0 20 400 1 10000 1 2 2 - 0 65 tsdi 65480", "refused 21"),
            ("start 20 0 20 400 1 10000 1 2 2 - 0 65 tsdi 65481", "refused 20"),
            ("start 20 0 20 400 1 10000 1 2 2 - 0 65 tsdi", "?"),
            ("start 20 0 20 400 1 10000 1 2 2 - 0 65 tsdi 1 tsdi 1", "?"),
            ("start 20 0 20 400 1 10000 1 2 2 - 0 65 gap 1", "?"),
            ("start 20 0 20 400 1 10000 1 2 2 - 0 65 ref 1", "?"),
            ("submit high srd 7 - - - ref", "?"),
            ("submit high srd 7 - - - limit 1 ref 1", "?"),
            ("submit high srd 7 - - - ref 1 ref 1", "?"),
            ("submit high srd 7 - - - ref 4294967296", "?"),
            ("submit high srd 7 - - - limit 256", "?"),
            ("submit high srd 7 - - - tsdi 1", "?"),
            ("collect high ref 1", "?"),
            ("show", "ok idle 2 5 5 2,5 0 0 0 0"),
        ]);
    }

    #[test]
    fn lines_that_are_no_call() {
        let long = format!("frame 1 0 - - {}", "0".repeat(4083));
        let longest = format!("frame 1 0 - - {}", "0".repeat(4082));
        check(&[
            (" ", "?"),
            (" #", "?"),
            ("show\r", "?"),
            ("show 1", "?"),
            ("frame 1 0 - -", "?"),
            ("frame 4294967296 0 - - -", "?"),
            ("frame 1 2 - - -", "?"),
            ("frame 1 0 - - ABC", "?"),
            ("sent +1", "?"),
            ("submit high srd 256 - - -", "?"),
            ("submit mid srd 7 - - -", "?"),
            ("start 20 0 20 400 1 10000 1 2 2,127 none 4 4", "?"),
            ("start 20 0 20 400 1 10000 1 2 2, none 4 4", "?"),
            ("start 20 0 20 400 1 10000 1 2 2 63 4 4", "?"),
            ("start 20 0 20 400 1 10000 1 2 - none 4 4", "refused 20"),
            ("start 20 0 20 400 1 10000 1 2 2 - 0 65", "refused 21"),
            (&long, "?"),
            (&longest, "ok"),
            ("  frame   0001 0 - -   ab ", "ok"),
            ("show", "ok idle 2 5 5 2,5 0 0 0 0"),
        ]);
        assert_eq!(Replay::default().answers(b"show\n\n# show\nshow"), "?\n?\n");
        assert_eq!(Replay::default().answers(b"\n"), "");
        assert_eq!(Replay::default().answers(b""), "");
    }
}
