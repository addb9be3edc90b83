//! "Answering" of document 01: what the station does with another's request, in Idle only.

use crate::frame::{self, Head, LAST_DESTINATION_POINT};
use crate::hold::written;
use crate::queue::{Priority, Service};
use crate::station::{Heard, Indication, Outcome, Remembered, Sending, Station};
use crate::transitions::{note, Transition};

/// A master in the ring, in the type bits of a reply's FC.
const IN_RING: u8 = 0x30;

const OK: u8 = 0;
const RR: u8 = 2;
const RS: u8 = 3;
const DL: u8 = 8;
const DH: u8 = 10;
const RDL: u8 = 12;
const RDH: u8 = 13;

/// A request to this station or to all: its service, its fields and its data.
struct Asked<'a> {
    service: Service,
    head: &'a Head,
    data: &'a [u8],
}

impl Asked<'_> {
    fn indication(&self) -> Indication {
        let high = matches!(self.head.control & 0x0F, 5 | 6 | 13);
        let priority = if high { Priority::High } else { Priority::Low };
        Indication { service: self.service, priority, head: self.head.clone(), data: self.data.to_vec() }
    }
}

impl Station {
    /// Idle: a request to TS or 127.
    pub fn answer(&mut self, head: &Head, data: &[u8], heard: &Heard) -> Outcome {
        let service = service_of(head.control);
        let asked = Asked { service, head, data };
        let to_last_point = head.to == Some(LAST_DESTINATION_POINT);
        match service {
            Service::Sdn => self.take_sdn(&asked, heard),
            Service::Ident => ignored(Transition::AnswerIdent),
            Service::LsapStatus => ignored(Transition::AnswerLsap),
            Service::FdlStatus if to_last_point => ignored(Transition::AnswerStatusLastPoint),
            Service::Sda | Service::Srd if to_last_point => ignored(Transition::AnswerLastPoint),
            Service::FdlStatus => {
                let with_points = head.to.is_some() || head.from.is_some();
                note(if with_points { Transition::AnswerStatusPoints } else { Transition::AnswerStatus });
                self.reply(self.coded(head, OK, &[]))
            }
            Service::Sda | Service::Srd => self.answer_counted(&asked, heard),
        }
    }

    /// SDN is indicated if its point is active and there is room; it has no reply.
    fn take_sdn(&self, asked: &Asked, heard: &Heard) -> Outcome {
        if !self.points.contains(&asked.head.to) {
            let last_point = asked.head.to == Some(LAST_DESTINATION_POINT);
            return ignored(if last_point { Transition::SdnLastPoint } else { Transition::SdnInactive });
        }
        if !heard.room {
            return ignored(Transition::SdnNoRoom);
        }
        let to_own = asked.head.destination == self.address;
        note(if to_own { Transition::SdnIndicated } else { Transition::SdnIndicatedAll });
        Outcome { sent: None, indication: Some(asked.indication()) }
    }

    /// SDA and SRD: a repeat gets the remembered octets; a new one is answered and, unless 0 0, remembered.
    fn answer_counted(&mut self, asked: &Asked, heard: &Heard) -> Outcome {
        let (bit, valid) = (asked.head.control & 0x20 != 0, asked.head.control & 0x10 != 0);
        let source = asked.head.source;
        self.note_counted(source, bit, valid);
        if let Some(memory) = self.memory.as_ref().filter(|_| valid) {
            if memory.source == source && memory.bit == bit {
                return self.reply(memory.reply.clone());
            }
        }
        let (reply, indicated) = self.answer_new(asked, heard);
        if bit || valid {
            self.memory = Some(Remembered { source, bit, reply: reply.clone() });
        }
        let indication = indicated.then(|| asked.indication());
        Outcome { indication, ..self.reply(reply) }
    }

    /// The reply to a new SDA or SRD, and whether it is indicated.
    fn answer_new(&self, asked: &Asked, heard: &Heard) -> (Vec<u8>, bool) {
        let head = asked.head;
        if !self.points.contains(&head.to) {
            note(Transition::AnswerRs);
            return (self.coded(head, RS, &[]), false);
        }
        let update = if asked.service == Service::Srd { update(heard) } else { None };
        let (transition, reply) = match (asked.service, update, heard.room) {
            (Service::Sda, _, true) => (Transition::AnswerSdaSc, short()),
            (Service::Sda, _, false) => (Transition::AnswerSdaRr, self.coded(head, RR, &[])),
            (_, None, true) => (Transition::AnswerSrdSc, short()),
            (_, None, false) => (Transition::AnswerSrdRr, self.coded(head, RR, &[])),
            (_, Some((Priority::High, data)), true) => (Transition::AnswerDh, self.coded(head, DH, data)),
            (_, Some((Priority::Low, data)), true) => (Transition::AnswerDl, self.coded(head, DL, data)),
            (_, Some((Priority::High, data)), false) => (Transition::AnswerRdh, self.coded(head, RDH, data)),
            (_, Some((Priority::Low, data)), false) => (Transition::AnswerRdl, self.coded(head, RDL, data)),
        };
        note(transition);
        (reply, heard.room)
    }

    fn reply(&self, octets: Vec<u8>) -> Outcome {
        note(Transition::WaitMinTsdr);
        Outcome::send(Sending { wait: self.settings.min_tsdr, octets })
    }

    /// A coded reply of a master in the ring, addresses and access points swapped.
    fn coded(&self, head: &Head, code: u8, data: &[u8]) -> Vec<u8> {
        let reply = Head {
            destination: head.source,
            to: head.from,
            source: self.address,
            from: head.to,
            control: IN_RING | code,
        };
        written(|out| frame::write(&reply, data, out))
    }

    /// Counts what FCB and FCV say against the memory.
    fn note_counted(&self, source: u8, bit: bool, valid: bool) {
        note(match (&self.memory, bit, valid) {
            (_, true, false) => Transition::CountFirst,
            (None, false, false) => Transition::CountNone,
            (Some(_), false, false) => Transition::CountNoneMemoryLeft,
            (None, _, true) => Transition::CountNoMemory,
            (Some(memory), _, true) if memory.source != source => Transition::CountOtherSource,
            (Some(memory), _, true) if memory.bit != bit => Transition::CountOtherBit,
            (Some(memory), _, true) if memory.reply.len() == 1 => Transition::CountRepeatShort,
            (Some(_), _, true) => Transition::CountRepeatCoded,
        });
    }
}

fn ignored(transition: Transition) -> Outcome {
    note(transition);
    Outcome::nothing()
}

/// The update shown in a reply: the high one first; length 0 means none.
fn update<'a>(heard: &Heard<'a>) -> Option<(Priority, &'a [u8])> {
    if !heard.high.is_empty() {
        return Some((Priority::High, heard.high));
    }
    (!heard.low.is_empty()).then_some((Priority::Low, heard.low))
}

fn short() -> Vec<u8> {
    written(frame::write_short)
}

/// The service of a request's FC, which the reader found listed.
fn service_of(control: u8) -> Service {
    match control & 0x0F {
        3 | 5 => Service::Sda,
        4 | 6 => Service::Sdn,
        9 => Service::FdlStatus,
        14 => Service::Ident,
        15 => Service::LsapStatus,
        _ => Service::Srd,
    }
}
