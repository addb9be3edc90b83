//! Seeded runs of whole stations as a replay script. The reference station is driven along, so that the other
//! stations can answer what it sends and deep states are common.

use crate::draft::{data_count, Draft};
use crate::events::{event, Event};
use crate::frame::{ALL_STATIONS, REQUEST, SHORT};
use crate::nonsense;
use crate::peers;
use crate::queue::{Priority, Request};
use crate::random::Random;
use crate::replay::{priority_word, Replay};
use crate::starts;
use crate::station::{Phase, Station, LONGEST_UPDATE};
use crate::submits;
use crate::text::hex;

/// How a station's life goes: percentages, the others it meets, and how fast its clock runs.
struct Life {
    steps: usize,
    submits: usize,
    collects: usize,
    silent: bool,
    peers: Vec<u8>,
    strangers: Vec<u8>,
    step: u32,
    room: usize,
    updates: usize,
}

impl Life {
    fn new(random: &mut Random, ttr: u32) -> Life {
        let addresses = |random: &mut Random, count| (0..count).map(|_| peers::address(random)).collect();
        Life {
            steps: 30 + random.below(150),
            submits: random.pick(&[10, 20, 35, 50, 70]),
            collects: random.pick(&[3, 25, 50, 70]),
            silent: random.one_in(4),
            peers: addresses(random, 3),
            strangers: addresses(random, 2),
            step: random.pick(&[ttr / 200, ttr / 20, ttr / 20, ttr / 4, ttr, 3 * ttr]) + 1,
            room: random.pick(&[20, 70, 90]),
            updates: random.pick(&[10, 40, 80]),
        }
    }

    /// A life long and eager enough to fill a row of 64.
    fn filling(random: &mut Random, ttr: u32) -> Life {
        Life { steps: 300, submits: 90, collects: 3, ..Life::new(random, ttr) }
    }
}

struct Run {
    random: Random,
    replay: Replay,
    script: Vec<String>,
    clock: u32,
    life: Life,
}

/// A script of at least `calls` lines.
pub fn runs(seed: u64, calls: usize) -> Vec<String> {
    let mut random = Random::new(seed);
    let life = Life::new(&mut random, 0);
    let mut run = Run { random, replay: Replay::default(), script: Vec::new(), clock: 0, life };
    run.before_start();
    while run.script.len() < calls {
        run.begin_life();
        for _ in 0..run.life.steps {
            run.step();
        }
        run.end_life();
    }
    run.script
}

impl Run {
    /// Adds a line to the script and runs it, now and then in other characters.
    fn say(&mut self, line: String) {
        let rewritten =
            if self.random.one_in(40) { nonsense::rewritten(&mut self.random, &line) } else { line };
        self.replay.answer(rewritten.as_bytes());
        self.script.push(rewritten);
    }

    fn say_all(&mut self, lines: &[&str]) {
        lines.iter().for_each(|line| self.say(line.to_string()));
    }

    fn station(&self) -> &Station {
        self.replay.station.as_ref().expect("a life begins with an accepted start")
    }

    /// No call but start is taken before the first accepted start.
    fn before_start(&mut self) {
        let calls = ["show", "reset", "collect high", "sent 1", "slot 1", "frame 1 0 - - E5"];
        self.say_all(&calls);
        let refused = starts::unlawful(&mut self.random);
        self.say(refused);
        self.say_all(&calls);
        self.say_all(&["submit high srd 7 - - -", "stop"]);
    }

    fn begin_life(&mut self) {
        if self.random.one_in(3) {
            let refused = starts::unlawful(&mut self.random);
            self.say(refused);
        }
        let start = starts::lawful(&mut self.random);
        self.say(start);
        let ttr = self.station().settings.ttr;
        let longest =
            [Priority::High, Priority::Low].iter().any(|&row| self.station().queue(row).is_longest());
        let filling = longest && self.random.one_in(8);
        self.life = if filling { Life::filling } else { Life::new }(&mut self.random, ttr);
        let anything = self.random.below(1 << 32) as u32;
        let near_wrap = 0_u32.wrapping_sub(self.random.below(20 * ttr as usize) as u32);
        self.clock = self.random.pick(&[0, anything, near_wrap]);
    }

    /// What the station and its queues hold at the end.
    fn end_life(&mut self) {
        self.say_all(&["show"]);
        for queue in ["high", "low"] {
            for _ in 0..self.random.below(4) {
                self.say(format!("collect {queue}"));
            }
        }
    }

    /// One call: of the station's own user, or an event of its phase; at times a look at what came of it.
    fn step(&mut self) {
        let of_user = if self.random.percent(self.life.submits) {
            self.submit()
        } else if self.random.percent(self.life.collects) {
            self.collect()
        } else if self.random.one_in(25) {
            Some(self.aside())
        } else {
            None
        };
        let line = of_user.unwrap_or_else(|| self.event());
        self.say(line);
        if self.random.one_in(8) {
            self.say_all(&["show"]);
        }
    }

    /// A submit; to a full queue only now and then.
    fn submit(&mut self) -> Option<String> {
        let priority = self.random.pick(&[Priority::High, Priority::Low]);
        let (own, retries) = (self.station().address, self.station().settings.retry_limit);
        if self.station().queue(priority).is_full() && !self.random.one_in(8) {
            return None;
        }
        let operands = submits::operands(&mut self.random, &self.life.peers, own, retries);
        Some(format!("submit {} {operands}", priority_word(priority)))
    }

    /// A collect; from a queue without a confirmed request only now and then.
    fn collect(&mut self) -> Option<String> {
        let priority = self.random.pick(&[Priority::High, Priority::Low]);
        let none_confirmed = self.station().queue(priority).confirmed_count() == 0;
        if none_confirmed && !self.random.one_in(8) {
            return None;
        }
        Some(format!("collect {}", priority_word(priority)))
    }

    /// Calls that are good at any time.
    fn aside(&mut self) -> String {
        match self.random.below(8) {
            0 | 1 => "reset".to_string(),
            2 => starts::unlawful(&mut self.random),
            _ => nonsense::line(&mut self.random),
        }
    }

    /// An event of the station's phase.
    fn event(&mut self) -> String {
        let silent = self.life.silent;
        let phase = self.station().phase.clone();
        let event = event(&mut self.random, &phase, silent);
        let clock = self.tick();
        let octets = match event {
            Event::Sent => return format!("sent {clock}"),
            Event::Slot => return format!("slot {clock}"),
            event => self.octets_of(event),
        };
        let (high, low) = self.updates();
        let room = u8::from(self.random.percent(self.life.room));
        format!("frame {clock} {room} {} {} {}", hex(&high), hex(&low), hex(&octets))
    }

    /// The octets of an event that is a frame.
    fn octets_of(&mut self, event: Event) -> Vec<u8> {
        let station = self.replay.station.as_ref().expect("a life begins with an accepted start");
        let (own, random) = (station.address, &mut self.random);
        match (event, being_sent(station)) {
            (Event::TokenFromPrevious, _) => peers::token(own, station.previous),
            (Event::TokenFromStranger, _) => {
                let stranger = random.pick(&self.life.strangers);
                peers::token(own, station.first_token.filter(|_| random.one_in(2)).unwrap_or(stranger))
            }
            (Event::TokenFromMaster, _) => peers::token(own, random.pick(&station.ring.masters())),
            (Event::TokenFromNext, _) => peers::token(own, station.next()),
            (Event::TokenFromSelf, _) => peers::token(own, own),
            (Event::TokenToOther, _) => peers::token((own + 1) % ALL_STATIONS, peers::address(random)),
            (Event::Request, _) => peers::request_to(random, station, &self.life.peers),
            (Event::RequestToOther, _) => peers::request_to_other(random, own),
            (Event::Plausible, Some(request)) => peers::plausible(random, request, own),
            (Event::Odd, Some(request)) => peers::odd(random, request, own),
            (Event::Short, _) => vec![SHORT],
            (Event::Damaged, Some(request)) if random.one_in(2) => {
                let reply = peers::plausible(random, request, own);
                peers::damaged(random, reply)
            }
            (Event::Damaged, _) => {
                let request = peers::request_to(random, station, &self.life.peers);
                peers::damaged(random, request)
            }
            _ => any_reply(random),
        }
    }

    /// Moves the clock on; at times just to where the time of a hold ends, back, or anywhere.
    fn tick(&mut self) -> u32 {
        let station = self.replay.station.as_ref().expect("a life begins with an accepted start");
        let holding = matches!(station.phase, Phase::ReplyAwaited(_) | Phase::SdnGoingOut(_));
        let earlier = if holding { station.acceptance_before } else { station.acceptance };
        let ttr = station.settings.ttr;
        self.clock = match (self.random.below(60), earlier) {
            (0..=4, Some(earlier)) => earlier.wrapping_add(ttr - self.random.below(2) as u32),
            (5, _) => self.clock.wrapping_sub(self.random.below(2 * ttr as usize) as u32),
            (6, _) => self.random.below(1 << 32) as u32,
            (7, _) => 0_u32.wrapping_sub(self.random.below(ttr as usize) as u32),
            _ => self.clock.wrapping_add(self.random.below(self.life.step as usize) as u32),
        };
        self.clock
    }

    /// The two updates of a frame call, now and then one that is too long.
    fn updates(&mut self) -> (Vec<u8>, Vec<u8>) {
        let mut update = || {
            if !self.random.percent(self.life.updates) {
                return Vec::new();
            }
            let most = if self.random.one_in(8) { LONGEST_UPDATE } else { 6 };
            let beyond = if self.random.one_in(80) { LONGEST_UPDATE } else { 0 };
            let count = beyond + data_count(&mut self.random, most);
            self.random.octets(count)
        };
        (update(), update())
    }
}

fn being_sent(station: &Station) -> Option<&Request> {
    match &station.phase {
        Phase::ReplyAwaited(exchange) => station.queue(exchange.priority).first(),
        _ => None,
    }
}

/// A lawful reply of anyone to anyone.
fn any_reply(random: &mut Random) -> Vec<u8> {
    loop {
        let draft = Draft::lawful(random, 20);
        if draft.control & REQUEST == 0 {
            return draft.octets();
        }
    }
}

#[cfg(test)]
mod tests {
    use std::collections::VecDeque;

    use super::*;
    use crate::transitions;

    /// A high request that waits: how many were ahead of it, and the holds begun when it was accepted.
    type Urgent = (u64, u64);

    /// Drops what was confirmed, adds what was accepted, and finds a request that was put off too long.
    fn watch(waiting: &mut VecDeque<Urgent>, station: &Station, submitted: bool, holds: u64) {
        let unconfirmed = station.queue(Priority::High).unconfirmed_count();
        if submitted && unconfirmed > waiting.len() {
            waiting.push_back((waiting.len() as u64, holds));
        }
        waiting.drain(..waiting.len() - unconfirmed);
        let holding = matches!(station.phase, Phase::ReplyAwaited(_) | Phase::SdnGoingOut(_));
        for (ahead, accepted) in waiting {
            let ended = holds - *accepted - u64::from(holding && holds > *accepted);
            assert!(ended <= *ahead, "{ended} holds ended with {ahead} requests ahead");
        }
    }

    /// Demand 3 on the reference itself: k high requests ahead, confirmed by the end of the hold k + 1.
    #[test]
    fn nothing_starves_a_high_request() {
        let script = runs(3, 50_000);
        let mut replay = Replay::default();
        let mut waiting = VecDeque::new();
        for line in script {
            let before = transitions::holds();
            let answer = replay.answer(line.as_bytes()).unwrap_or_default();
            let word = line.split_whitespace().next().unwrap_or_default();
            if word == "start" && answer == "ok" {
                waiting.clear();
            }
            let holds = transitions::holds();
            assert!(holds - before <= 1, "{line}");
            if let Some(station) = &replay.station {
                watch(&mut waiting, station, word == "submit", holds);
            }
        }
    }

    /// What a submit line says of its own: the reference, and the limit if it names one.
    fn said(line: &str) -> (u32, Option<u32>) {
        let words: Vec<&str> = line.split_whitespace().collect();
        let behind = |name: &str| {
            let at = words.iter().position(|&word| word == name)?;
            words[at + 1].parse().ok()
        };
        (behind("ref").unwrap_or(0), behind("limit"))
    }

    /// Document 02's order 6 on the reference itself: requests are confirmed in turn, so each that is collected is the
    /// oldest that was submitted. It has the reference that was said, and was sent at most its own limit and once.
    #[test]
    fn each_confirmation_is_of_its_own_request() {
        let mut replay = Replay::default();
        let mut taken = [VecDeque::new(), VecDeque::new()];
        let mut beyond = 0;
        for line in runs(4, 50_000) {
            let answer = replay.answer(line.as_bytes()).unwrap_or_default();
            let words: Vec<&str> = line.split_whitespace().collect();
            let queue = usize::from(words.get(1) == Some(&"low"));
            match (words.first(), answer.strip_prefix("ok")) {
                (Some(&"start"), Some("")) => taken = [VecDeque::new(), VecDeque::new()],
                (Some(&"submit"), Some("")) => taken[queue].push_back(said(&line)),
                (Some(&"collect"), Some(answer)) => {
                    let (reference, limit) = taken[queue].pop_front().unwrap();
                    let station = replay.station.as_ref().unwrap().settings.retry_limit;
                    let count: u32 = answer.split(' ').nth(7).unwrap().parse().unwrap();
                    assert_eq!(said(answer).0, reference, "{line}");
                    assert!(count <= limit.unwrap_or(station) + 1, "{line}");
                    beyond += usize::from(count > station + 1);
                }
                _ => {}
            }
        }
        assert!(beyond > 0);
    }
}
