//! "Requests" of document 01: Reply awaited and SDN going out.

use crate::frame::{self, Head, Message, REQUEST};
use crate::queue::{Priority, Request, Service, Status};
use crate::station::{Exchange, Heard, Outcome, Phase, Sending, Station};
use crate::transitions::{note, note_each, Transition};

/// A plausible reply: its status and where its data lie in the octets.
type Plausible = (Status, std::ops::Range<usize>);

impl Station {
    /// Reply awaited: a plausible reply confirms, a request or token ends the hold, all else is tried again.
    pub fn awaited_frame(&mut self, exchange: Exchange, heard: &Heard) -> Outcome {
        let message = frame::read(heard.octets);
        if let Some(transition) = foreign(&message) {
            note(transition);
            self.not_acknowledged(&exchange);
            self.phase = Phase::Idle;
            return Outcome::nothing();
        }
        let request = self.queue(exchange.priority).first().expect("the request being sent");
        let plausible = match message {
            Ok(message) => judge(request, self.address, message),
            Err(_) => {
                note(Transition::AwaitedRefused);
                None
            }
        };
        Outcome::send(match plausible {
            Some((status, data)) => {
                self.acknowledged(&exchange, status, &heard.octets[data]);
                self.choose_after(heard.clock, Transition::AwaitedReplyNext, Transition::AwaitedReplyPass)
            }
            None => self.try_again(exchange, heard.clock),
        })
    }

    /// A plausible reply: the mark goes on, and the request is confirmed.
    fn acknowledged(&mut self, exchange: &Exchange, status: Status, data: &[u8]) {
        let mark = self.mark_of(exchange.priority);
        *mark = Some(match *mark {
            None => {
                note(Transition::MarkFirst);
                false
            }
            Some(bit) => {
                note(if bit { Transition::MarkTo0 } else { Transition::MarkTo1 });
                !bit
            }
        });
        self.confirm(exchange.priority, status, exchange.sendings, data);
    }

    /// NA: the mark becomes unknown.
    fn not_acknowledged(&mut self, exchange: &Exchange) {
        *self.mark_of(exchange.priority) = None;
        self.confirm(exchange.priority, Status::Na, exchange.sendings, &[]);
    }

    fn mark_of(&mut self, priority: Priority) -> &mut Option<bool> {
        let destination = self.queue(priority).first().expect("the request being sent").destination;
        &mut self.marks[usize::from(destination)]
    }

    /// The same octets again up to the request's own retry limit; then NA and the next choice.
    pub fn try_again(&mut self, mut exchange: Exchange, clock: u32) -> Sending {
        let limit = self.queue(exchange.priority).first().expect("the request being sent").limit;
        if exchange.sendings > u32::from(limit) {
            self.note_exhausted(&exchange);
            self.not_acknowledged(&exchange);
            return self.choose_after(clock, Transition::AwaitedNaNext, Transition::AwaitedNaPass);
        }
        self.note_repeat(&exchange);
        exchange.sendings += 1;
        let octets = exchange.octets.clone();
        self.phase = Phase::ReplyAwaited(exchange);
        Sending { wait: self.settings.tid1(), octets }
    }

    /// Counts an NA after the last try by how often it was sent, and by whose limit.
    fn note_exhausted(&self, exchange: &Exchange) {
        note(match exchange.sendings {
            1 => Transition::NaWithoutRetry,
            16 => Transition::NaAfterAllRetries,
            _ => Transition::NaAfterRetries,
        });
        let request = self.queue(exchange.priority).first().expect("the request being sent");
        if request.asks {
            return note(Transition::NaFilled);
        }
        let (own, station) = (u32::from(request.limit), self.settings.retry_limit);
        note_each(&[
            (own < station, Transition::NaOwnBelow),
            (own == station, Transition::NaOwnEqual),
            (own > station, Transition::NaOwnAbove),
            (own == 0 && station > 0, Transition::NaOwnNone),
            (own != station && exchange.priority == Priority::Low, Transition::NaLowOwn),
        ]);
    }

    /// Counts a repeat, and where the station's limit would not have allowed it.
    fn note_repeat(&self, exchange: &Exchange) {
        note(Transition::AwaitedRepeat);
        let beyond = exchange.sendings > self.settings.retry_limit;
        note_each(&[
            (beyond && exchange.priority == Priority::High, Transition::RepeatBeyond),
            (beyond && exchange.priority == Priority::Low, Transition::RepeatBeyondLow),
            (self.settings.retry_limit == 0, Transition::RepeatStationNone),
        ]);
    }

    /// SDN going out: "sent" confirms OK, and the next choice is made.
    pub fn sdn_sent(&mut self, priority: Priority, clock: u32) -> Sending {
        self.confirm(priority, Status::Ok, 1, &[]);
        self.choose_after(clock, Transition::SdnSentNext, Transition::SdnSentPass)
    }

    /// A later choice, counted by what came of it.
    fn choose_after(&mut self, clock: u32, next: Transition, pass: Transition) -> Sending {
        let sending = self.choose(clock);
        let passed = matches!(self.phase, Phase::PassChecked(_) | Phase::PassToSelf);
        note(if passed { pass } else { next });
        sending
    }
}

/// A request or token, from and to anyone.
fn foreign(message: &Result<Message, frame::Refusal>) -> Option<Transition> {
    match message {
        Ok(Message::Token { .. }) => Some(Transition::AwaitedToken),
        Ok(Message::Frame { head, .. }) if head.control & REQUEST != 0 => Some(Transition::AwaitedRequest),
        _ => None,
    }
}

/// Judges SC or a reply to a request of this station.
fn judge(request: &Request, address: u8, message: Message) -> Option<Plausible> {
    match message {
        Message::Token { .. } => None,
        Message::Short if request.service == Service::Sda => Some((Status::Ok, 0..0)),
        Message::Short => Some((Status::Nr, 0..0)),
        Message::Frame { head, start, count } => {
            let status = reply_status(request.service, head.control & 0x0F, count > 0);
            let doubt = doubt(request, address, &head, status.is_none());
            if let Some(transition) = doubt {
                note(transition);
                return None;
            }
            status.map(|status| (status, start..start + count))
        }
    }
}

/// Why a reply is not plausible, if it is not: addresses, access points, then code and data.
fn doubt(request: &Request, address: u8, head: &Head, no_status: bool) -> Option<Transition> {
    if head.destination != address {
        return Some(Transition::ReplyToOther);
    }
    if head.source != request.destination {
        return Some(Transition::ReplyFromOther);
    }
    if head.from != request.to {
        return Some(Transition::ReplyOtherSource);
    }
    if head.to != request.from {
        return Some(Transition::ReplyOtherDestination);
    }
    no_status.then_some(Transition::ReplyOtherCode)
}

/// The status of a reply code, None where it does not belong to the service or to having data.
fn reply_status(service: Service, code: u8, with_data: bool) -> Option<Status> {
    match (service, code, with_data) {
        (Service::Sda, 0, false) => Some(Status::Ok),
        (Service::Sda | Service::Srd, 1, false) => Some(Status::Ue),
        (Service::Sda | Service::Srd, 2, false) => Some(Status::Rr),
        (Service::Sda | Service::Srd, 3, false) => Some(Status::Rs),
        (Service::Srd, 8, true) => Some(Status::Dl),
        (Service::Srd, 9, false) => Some(Status::Nr),
        (Service::Srd, 10, true) => Some(Status::Dh),
        (Service::Srd, 12, true) => Some(Status::Rdl),
        (Service::Srd, 13, true) => Some(Status::Rdh),
        _ => None,
    }
}
