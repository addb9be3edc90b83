//! The station of document 01, section "Station", with document 02's order 6: its state, its start and its calls.
//! What a phase does with a call stands in hold, request, pass and answering.

use std::collections::BTreeSet;

use crate::frame::{self, Message, ALL_STATIONS, REQUEST};
use crate::queue::{
    Confirmed, Priority, Queue, Refusal, Request, Service, Status, LONGEST_ROW, MOST_RETRIES,
};
use crate::ring::Ring;
use crate::times::Settings;
use crate::transitions::{note, note_each, Transition};

pub const LONGEST_UPDATE: usize = 244;

/// Active access points; None is the point "none".
pub type Points = BTreeSet<Option<u8>>;

/// What start takes.
pub struct Start {
    pub settings: Settings,
    pub address: u32,
    pub masters: Vec<u8>,
    pub points: Points,
    pub high: u8,
    pub low: u8,
}

/// What a frame call carries: the clock, whether there is room for an indication, the updates, the octets.
pub struct Heard<'a> {
    pub clock: u32,
    pub room: bool,
    pub high: &'a [u8],
    pub low: &'a [u8],
    pub octets: &'a [u8],
}

/// Octets to send after a wait.
#[derive(Debug, PartialEq)]
pub struct Sending {
    pub wait: u32,
    pub octets: Vec<u8>,
}

/// An SDA, SRD or SDN of another station that the caller is told of.
#[derive(Debug)]
pub struct Indication {
    pub service: Service,
    pub priority: Priority,
    pub head: frame::Head,
    pub data: Vec<u8>,
}

/// What a call gives back when it is accepted.
#[derive(Debug, Default)]
pub struct Outcome {
    pub sent: Option<Sending>,
    pub indication: Option<Indication>,
}

impl Outcome {
    pub fn nothing() -> Outcome {
        Outcome::default()
    }

    pub fn send(sending: Sending) -> Outcome {
        Outcome { sent: Some(sending), indication: None }
    }
}

/// A request whose reply is awaited: its queue, the octets and how often they were sent.
#[derive(Clone, Debug)]
pub struct Exchange {
    pub priority: Priority,
    pub octets: Vec<u8>,
    pub sendings: u32,
}

#[derive(Clone, Debug)]
pub enum Phase {
    Idle,
    ReplyAwaited(Exchange),
    SdnGoingOut(Priority),
    /// The token was sent this many times to NS.
    PassChecked(u32),
    PassToSelf,
}

/// The last request that was remembered, and the octets it was answered with.
pub struct Remembered {
    pub source: u8,
    pub bit: bool,
    pub reply: Vec<u8>,
}

pub struct Station {
    pub settings: Settings,
    /// TS.
    pub address: u8,
    /// PS; NS is always found in the ring.
    pub previous: u8,
    pub ring: Ring,
    ring_as_started: Ring,
    pub points: Points,
    pub high: Queue,
    pub low: Queue,
    pub phase: Phase,
    /// The next bit for each address, None where it is unknown.
    pub marks: [Option<bool>; 127],
    /// The stranger whose first token was ignored.
    pub first_token: Option<u8>,
    /// The acceptance of this hold or the last, and the one before it.
    pub acceptance: Option<u32>,
    pub acceptance_before: Option<u32>,
    /// Whether the last sending in this hold was an SDN.
    pub sdn_last: bool,
    pub memory: Option<Remembered>,
}

impl Station {
    pub fn start(start: Start) -> Result<Station, Refusal> {
        refuse_start(&start)?;
        note(Transition::StartAccepted);
        let address = start.address as u8;
        let ring = Ring::of(&start.masters);
        Ok(Station {
            settings: start.settings,
            address,
            previous: ring.previous(address),
            ring_as_started: ring.clone(),
            ring,
            points: start.points,
            high: Queue::new(usize::from(start.high)),
            low: Queue::new(usize::from(start.low)),
            phase: Phase::Idle,
            marks: [None; 127],
            first_token: None,
            acceptance: None,
            acceptance_before: None,
            sdn_last: false,
            memory: None,
        })
    }

    pub fn next(&self) -> u8 {
        self.ring.next(self.address)
    }

    pub fn queue(&self, priority: Priority) -> &Queue {
        match priority {
            Priority::High => &self.high,
            Priority::Low => &self.low,
        }
    }

    pub fn queue_mut(&mut self, priority: Priority) -> &mut Queue {
        match priority {
            Priority::High => &mut self.high,
            Priority::Low => &mut self.low,
        }
    }

    /// Fills in the station's limit where the request asks for it, then looks.
    pub fn submit(&mut self, priority: Priority, request: Request) -> Result<(), Refusal> {
        let request = request.filled(self.settings.retry_limit);
        let refused = request.refuse(self.address);
        self.note_limit(priority, &request, refused.err());
        refused?;
        self.queue_mut(priority).submit(request)
    }

    pub fn collect(&mut self, priority: Priority) -> Result<Confirmed, Refusal> {
        let collected = self.queue_mut(priority).collect();
        match &collected {
            Err(_) => note(Transition::CollectRefused),
            Ok(confirmed) => note_collected(&confirmed.request),
        }
        collected
    }

    pub fn frame(&mut self, heard: &Heard) -> Result<Outcome, Refusal> {
        if heard.high.len() > LONGEST_UPDATE || heard.low.len() > LONGEST_UPDATE {
            note(Transition::FrameRefusedUpdate);
            return Err(22);
        }
        Ok(match self.phase.clone() {
            Phase::Idle => self.idle_frame(heard),
            Phase::ReplyAwaited(exchange) => self.awaited_frame(exchange, heard),
            Phase::PassChecked(_) => self.checked_frame(heard),
            Phase::SdnGoingOut(_) => {
                note(Transition::SdnFrame);
                Outcome::nothing()
            }
            Phase::PassToSelf => {
                note(Transition::SelfFrame);
                Outcome::nothing()
            }
        })
    }

    pub fn sent(&mut self, clock: u32) -> Outcome {
        let ignored = match self.phase.clone() {
            Phase::SdnGoingOut(priority) => return Outcome::send(self.sdn_sent(priority, clock)),
            Phase::PassToSelf => {
                note(Transition::SelfSent);
                return Outcome::send(self.begin_hold(clock));
            }
            Phase::Idle => Transition::IdleSent,
            Phase::ReplyAwaited(_) => Transition::AwaitedSent,
            Phase::PassChecked(_) => Transition::CheckSent,
        };
        note(ignored);
        Outcome::nothing()
    }

    pub fn slot(&mut self, clock: u32) -> Outcome {
        let ignored = match self.phase.clone() {
            Phase::ReplyAwaited(exchange) => {
                note(Transition::AwaitedSlot);
                return Outcome::send(self.try_again(exchange, clock));
            }
            Phase::PassChecked(sendings) => return Outcome::send(self.check_expired(sendings)),
            Phase::Idle => Transition::IdleSlot,
            Phase::SdnGoingOut(_) => Transition::SdnSlot,
            Phase::PassToSelf => Transition::SelfSlot,
        };
        note(ignored);
        Outcome::nothing()
    }

    /// Confirms all unconfirmed requests DS and forgets all but settings, points, rows and turn.
    pub fn reset(&mut self) {
        self.note_reset();
        let being_sent = match &self.phase {
            Phase::ReplyAwaited(exchange) => Some((exchange.priority, exchange.sendings)),
            Phase::SdnGoingOut(priority) => Some((*priority, 1)),
            _ => None,
        };
        if let Some((priority, sendings)) = being_sent {
            self.confirm(priority, Status::Ds, sendings, &[]);
        }
        for priority in [Priority::High, Priority::Low] {
            while self.queue(priority).first().is_some() {
                self.confirm(priority, Status::Ds, 0, &[]);
            }
        }
        self.ring = self.ring_as_started.clone();
        self.previous = self.ring.previous(self.address);
        self.phase = Phase::Idle;
        self.marks = [None; 127];
        self.first_token = None;
        self.acceptance = None;
        self.acceptance_before = None;
        self.memory = None;
    }

    /// Confirms the first unconfirmed request of a queue.
    pub fn confirm(&mut self, priority: Priority, status: Status, count: u32, data: &[u8]) {
        let request = self.queue(priority).first().expect("a request is unconfirmed");
        note(Transition::confirmed(request.service, status));
        if status == Status::Ds {
            note(if count == 0 { Transition::DsNeverSent } else { Transition::DsSent });
        }
        if request.reference != 0 {
            note(match (request.service, status) {
                (_, Status::Na) => Transition::ReferenceNa,
                (_, Status::Ds) => Transition::ReferenceDs,
                (Service::Sdn, _) => Transition::ReferenceSdn,
                _ => Transition::ReferenceReply,
            });
        }
        self.queue_mut(priority).confirm(status, count, data);
    }

    /// Idle: what a frame does, a refused one nothing.
    pub fn idle_frame(&mut self, heard: &Heard) -> Outcome {
        let ignored = match frame::read(heard.octets) {
            Ok(Message::Token { destination, source }) if destination == self.address => {
                return self.token_heard(source, heard.clock);
            }
            Ok(Message::Frame { head, start, count }) if head.control & REQUEST != 0 => {
                if [self.address, ALL_STATIONS].contains(&head.destination) {
                    return self.answer(&head, &heard.octets[start..start + count], heard);
                }
                Transition::IdleRequestToOther
            }
            Ok(Message::Token { .. }) => Transition::IdleTokenToOther,
            Ok(Message::Frame { .. }) => Transition::IdleReply,
            Ok(Message::Short) => Transition::IdleShort,
            Err(_) => Transition::IdleRefused,
        };
        note(ignored);
        Outcome::nothing()
    }

    /// Counts what a submitted request's limit is against the station's, or which refusal came before 30 or 27.
    fn note_limit(&self, priority: Priority, request: &Request, refused: Option<Refusal>) {
        let (own, over) = (u32::from(request.limit), request.limit > MOST_RETRIES);
        let accepted = refused.is_none() && !self.queue(priority).is_full();
        let (has_own, station) = (accepted && !request.asks, self.settings.retry_limit);
        note_each(&[
            (refused == Some(23) && over, Transition::SubmitRefused23Limit),
            (refused == Some(24) && over, Transition::SubmitRefused24Limit),
            (refused == Some(25) && over, Transition::SubmitRefused25Limit),
            (refused == Some(26) && over, Transition::SubmitRefused26Limit),
            (refused == Some(30) && self.queue(priority).is_full(), Transition::SubmitRefusedLimitFull),
            (accepted && request.asks, Transition::SubmitFilled),
            (has_own && own < station, Transition::SubmitLimitBelow),
            (has_own && own == station, Transition::SubmitLimitEqual),
            (has_own && own > station, Transition::SubmitLimitAbove),
            (has_own && request.limit == MOST_RETRIES, Transition::SubmitLimitMost),
        ]);
    }

    /// Counts what a reset found.
    fn note_reset(&self) {
        note(match self.phase {
            Phase::Idle => Transition::ResetIdle,
            Phase::ReplyAwaited(_) => Transition::ResetAwaited,
            Phase::SdnGoingOut(_) => Transition::ResetSdn,
            Phase::PassChecked(_) => Transition::ResetCheck,
            Phase::PassToSelf => Transition::ResetSelf,
        });
        note_each(&[
            (self.ring != self.ring_as_started, Transition::ResetRing),
            (self.previous != self.ring_as_started.previous(self.address), Transition::ResetPrevious),
            (self.first_token.is_some(), Transition::ResetFirstToken),
            (self.memory.is_some(), Transition::ResetMemory),
            (self.marks.iter().any(Option::is_some), Transition::ResetMarks),
        ]);
    }
}

/// Counts what collect hands back.
fn note_collected(request: &Request) {
    let (with_data, with_reference) = (!request.data.is_empty(), request.reference != 0);
    note_each(&[
        (with_data, Transition::CollectWithData),
        (!with_data, Transition::CollectWithoutData),
        (with_reference, Transition::CollectReference),
        (!with_reference, Transition::CollectNoReference),
        (with_reference && with_data, Transition::CollectReferenceData),
        (request.reference == u32::MAX, Transition::CollectReferenceMost),
    ]);
}

/// Start's refusals 20 and 21.
fn refuse_start(start: &Start) -> Result<(), Refusal> {
    let (transition, refusal) = if !start.settings.in_range() {
        (Transition::StartRefusedSetting, 20)
    } else if !start.settings.in_rule() {
        (Transition::StartRefusedSlotTime, 20)
    } else if start.address >= u32::from(ALL_STATIONS) {
        (Transition::StartRefusedAddress, 20)
    } else if !start.masters.contains(&(start.address as u8)) {
        (Transition::StartRefusedSet, 20)
    } else if [start.high, start.low].iter().any(|row| !(1..=LONGEST_ROW).contains(row)) {
        (Transition::StartRefusedRow, 21)
    } else {
        return Ok(());
    };
    note(transition);
    Err(refusal)
}
