//! "Hold" of document 01: which token begins a hold, and what is sent in it.

use crate::frame::{self, Head, REQUEST};
use crate::queue::{Priority, Service};
use crate::station::{Exchange, Outcome, Phase, Sending, Station};
use crate::times::elapsed;
use crate::transitions::{note, note_each, Transition};

impl Station {
    /// Idle: a token to TS. From PS it begins a hold; from another station the second in a row does.
    pub fn token_heard(&mut self, source: u8, clock: u32) -> Outcome {
        if source == self.address {
            note(if self.first_token.is_some() { Transition::IdleOwnBetween } else { Transition::IdleOwn });
            return Outcome::nothing();
        }
        if source == self.previous {
            let pair_broken = self.first_token.is_some();
            note(if pair_broken { Transition::IdlePsBetween } else { Transition::IdleTokenFromPs });
            return Outcome::send(self.begin_hold(clock));
        }
        if self.first_token == Some(source) {
            let known = self.ring.contains(source);
            note(if known { Transition::IdleSecondOfMaster } else { Transition::IdleSecondOfStranger });
            self.previous = source;
            self.ring.enter(source);
            return Outcome::send(self.begin_hold(clock));
        }
        note(if self.first_token.is_some() { Transition::IdleThird } else { Transition::IdleFirst });
        self.first_token = Some(source);
        Outcome::nothing()
    }

    /// Accepts the token at this clock. The first high request goes out even with no time left.
    pub fn begin_hold(&mut self, clock: u32) -> Sending {
        self.acceptance_before = self.acceptance;
        self.acceptance = Some(clock);
        self.first_token = None;
        self.sdn_last = false;
        self.note_time(clock);
        if self.high.first().is_some() {
            let time_left = self.time_left(clock);
            note(if time_left { Transition::HoldHighInTime } else { Transition::HoldHighLate });
            return self.send_first(Priority::High);
        }
        note(Transition::HoldWithoutHigh);
        self.choose(clock)
    }

    /// Time is left until TTR after the acceptance before this hold's; in the first hold there is none.
    pub fn time_left(&self, clock: u32) -> bool {
        self.acceptance_before.is_some_and(|before| elapsed(before, clock) < self.settings.ttr)
    }

    /// A later choice: with time left the first high request, else the first low one; else the token.
    pub fn choose(&mut self, clock: u32) -> Sending {
        let (high, low) = (self.high.first().is_some(), self.low.first().is_some());
        if !self.time_left(clock) {
            note(match (high, low) {
                (true, _) => Transition::ChoiceHighWaits,
                (false, true) => Transition::ChoiceLowWaits,
                (false, false) => Transition::ChoiceEmptyLate,
            });
            return self.pass();
        }
        if high {
            note(Transition::ChoiceHigh);
            return self.send_first(Priority::High);
        }
        if low {
            note(Transition::ChoiceLow);
            return self.send_first(Priority::Low);
        }
        note(Transition::ChoiceEmpty);
        self.pass()
    }

    /// Sends the first request of a queue for the first time.
    fn send_first(&mut self, priority: Priority) -> Sending {
        let octets = self.request_octets(priority);
        let wait = self.wait_in_hold();
        let is_tid2 = self.sdn_last;
        note(if is_tid2 { Transition::WaitTid2Request } else { Transition::WaitTid1Request });
        let service = self.queue(priority).first().expect("the request to send").service;
        self.sdn_last = service == Service::Sdn;
        self.phase = match service {
            Service::Sdn => Phase::SdnGoingOut(priority),
            _ => Phase::ReplyAwaited(Exchange { priority, octets: octets.clone(), sendings: 1 }),
        };
        Sending { wait, octets }
    }

    /// The wait before a request or token: Tid2 if the last sending in the hold was an SDN, else Tid1.
    pub fn wait_in_hold(&self) -> u32 {
        if self.sdn_last {
            self.settings.tid2()
        } else {
            self.settings.tid1()
        }
    }

    /// The frame of the first request of a queue: FCB and FCV by the mark, 0 and 0 for SDN.
    fn request_octets(&self, priority: Priority) -> Vec<u8> {
        let request = self.queue(priority).first().expect("the request to send");
        let bits = match request.service {
            Service::Sdn => 0,
            _ => count_bits(self.marks[usize::from(request.destination)]),
        };
        note(Transition::requested(request.service, priority));
        let head = Head {
            destination: request.destination,
            to: request.to,
            source: self.address,
            from: request.from,
            control: REQUEST | bits | request_code(request.service, priority),
        };
        written(|out| frame::write(&head, &request.data, out))
    }

    /// Counts where a hold begins in the time it has.
    fn note_time(&self, clock: u32) {
        let Some(before) = self.acceptance_before else {
            return note(Transition::TimeFirstHold);
        };
        let passed = elapsed(before, clock);
        note(if self.time_left(clock) { Transition::TimeLeft } else { Transition::TimeLate });
        note_each(&[
            (passed == self.settings.ttr - 1, Transition::TimeJustLeft),
            (passed == self.settings.ttr, Transition::TimeJustOver),
            (clock < before && passed < 1 << 31, Transition::TimeWrapped),
            (clock < before && passed >= 1 << 31, Transition::TimeBack),
        ]);
    }
}

/// FCB and FCV of an SDA or SRD: FCB 1 FCV 0 to an unknown address, else FCV 1 with the next bit.
fn count_bits(mark: Option<bool>) -> u8 {
    match mark {
        None => {
            note(Transition::RequestUnknown);
            0x20
        }
        Some(false) => {
            note(Transition::RequestBit0);
            0x10
        }
        Some(true) => {
            note(Transition::RequestBit1);
            0x30
        }
    }
}

fn request_code(service: Service, priority: Priority) -> u8 {
    match (service, priority) {
        (Service::Sda, Priority::Low) => 3,
        (Service::Sdn, Priority::Low) => 4,
        (Service::Sda, Priority::High) => 5,
        (Service::Sdn, Priority::High) => 6,
        (Service::FdlStatus, _) => 9,
        (Service::Srd, Priority::Low) => 12,
        (Service::Srd, Priority::High) => 13,
        (Service::Ident, _) => 14,
        (Service::LsapStatus, _) => 15,
    }
}

/// The octets that one of the frame writers lays out.
pub fn written(write: impl FnOnce(&mut [u8]) -> Result<usize, frame::Refusal>) -> Vec<u8> {
    let mut out = [0; 255];
    let count = write(&mut out).expect("a station's frames are lawful");
    out[..count].to_vec()
}
