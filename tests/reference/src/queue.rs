//! A queue of document 01, section "Station": a row of places used in turn, confirmed requests first.

use std::collections::VecDeque;

use crate::frame::{ALL_STATIONS, LAST_DESTINATION_POINT, LAST_SOURCE_POINT, LONGEST_UNIT};
use crate::transitions::{note, Transition};

/// The most places of a row.
pub const LONGEST_ROW: u8 = 64;

/// The greatest retry limit, of a station and of a request.
pub const MOST_RETRIES: u8 = 15;

/// A refusal's number in documents 01 and 02, 20 to 30.
pub type Refusal = u8;

#[derive(Clone, Copy, Debug, PartialEq)]
pub enum Priority {
    High,
    Low,
}

#[derive(Clone, Copy, Debug, PartialEq)]
pub enum Service {
    Sda,
    Sdn,
    Srd,
    FdlStatus,
    Ident,
    LsapStatus,
}

#[derive(Clone, Copy, Debug, PartialEq)]
pub enum Status {
    Ok,
    Ue,
    Rr,
    Rs,
    Nr,
    Dl,
    Dh,
    Rdl,
    Rdh,
    Na,
    Ds,
}

/// What a caller submits; a confirmation replaces the data and keeps the rest.
#[derive(Clone, Debug)]
pub struct Request {
    pub service: Service,
    pub destination: u8,
    pub to: Option<u8>,
    pub from: Option<u8>,
    pub data: Vec<u8>,
    /// The caller's own number, handed back untouched.
    pub reference: u32,
    /// How often the request is sent again at most.
    pub limit: u8,
    /// Whether the request asks for the station's limit.
    pub asks: bool,
}

impl Request {
    /// The request as submit takes it at a station with this limit: filled in where the request asks for it,
    /// whatever number was typed.
    pub fn filled(self, station_limit: u32) -> Request {
        let filled = u8::try_from(station_limit).unwrap_or(u8::MAX);
        let limit = if self.asks { filled } else { self.limit };
        Request { limit, ..self }
    }

    /// Submit's refusals 23 to 26 and 30 for a station of this address, first match in that order. The limit is
    /// looked at as it stands.
    pub fn refuse(&self, own: u8) -> Result<(), Refusal> {
        self.refuse_fields(own)?;
        self.refuse_limit()
    }

    /// 23 to 26.
    pub fn refuse_fields(&self, own: u8) -> Result<(), Refusal> {
        self.refuse_destination(own)?;
        self.refuse_points()?;
        if !matches!(self.service, Service::Sda | Service::Sdn | Service::Srd) {
            note(Transition::SubmitRefusedService);
            return Err(25);
        }
        let unit = self.to.iter().count() + self.from.iter().count() + self.data.len();
        if unit > LONGEST_UNIT {
            note(Transition::SubmitRefusedLength);
            return Err(26);
        }
        Ok(())
    }

    /// 30, for every service.
    pub fn refuse_limit(&self) -> Result<(), Refusal> {
        if self.limit > MOST_RETRIES {
            let is_sdn = self.service == Service::Sdn;
            note(if is_sdn { Transition::SubmitRefusedLimitSdn } else { Transition::SubmitRefusedLimit });
            return Err(30);
        }
        Ok(())
    }

    fn refuse_destination(&self, own: u8) -> Result<(), Refusal> {
        let refusal = if self.destination > ALL_STATIONS {
            Transition::SubmitRefusedAddress
        } else if self.destination == own {
            Transition::SubmitRefusedOwn
        } else if self.destination == ALL_STATIONS && self.service != Service::Sdn {
            Transition::SubmitRefusedAll
        } else {
            return Ok(());
        };
        note(refusal);
        Err(23)
    }

    fn refuse_points(&self) -> Result<(), Refusal> {
        let last_for_all = self.to == Some(LAST_DESTINATION_POINT) && self.service != Service::Sdn;
        let refusal = if self.to.is_some_and(|point| point > LAST_DESTINATION_POINT) {
            Transition::SubmitRefusedDestinationPoint
        } else if self.from.is_some_and(|point| point > LAST_SOURCE_POINT) {
            Transition::SubmitRefusedSourcePoint
        } else if last_for_all {
            Transition::SubmitRefusedLastPoint
        } else {
            return Ok(());
        };
        note(refusal);
        Err(24)
    }
}

/// A request as collect hands it back, with its place's number.
#[derive(Debug)]
pub struct Confirmed {
    pub place: usize,
    pub request: Request,
    pub status: Status,
    pub count: u32,
}

pub struct Queue {
    length: usize,
    /// The place that the next request takes.
    turn: usize,
    confirmed: VecDeque<Confirmed>,
    unconfirmed: VecDeque<(usize, Request)>,
}

impl Queue {
    pub fn new(length: usize) -> Queue {
        Queue { length, turn: 0, confirmed: VecDeque::new(), unconfirmed: VecDeque::new() }
    }

    pub fn confirmed_count(&self) -> usize {
        self.confirmed.len()
    }

    pub fn unconfirmed_count(&self) -> usize {
        self.unconfirmed.len()
    }

    pub fn is_longest(&self) -> bool {
        self.length == usize::from(LONGEST_ROW)
    }

    /// Whether every place is in use; confirmed requests hold theirs until they are collected.
    pub fn is_full(&self) -> bool {
        self.confirmed_count() + self.unconfirmed_count() == self.length
    }

    /// The first unconfirmed request: the one being sent, or else the first that waits.
    pub fn first(&self) -> Option<&Request> {
        self.unconfirmed.front().map(|(_, request)| request)
    }

    /// Takes the next place in turn, or refuses 27.
    pub fn submit(&mut self, request: Request) -> Result<(), Refusal> {
        if self.is_full() {
            note(if self.is_longest() {
                Transition::SubmitRefusedFull64
            } else {
                Transition::SubmitRefusedFull
            });
            return Err(27);
        }
        note(if self.turn + 1 == self.length {
            Transition::SubmitLastPlace
        } else {
            Transition::SubmitPlace
        });
        self.unconfirmed.push_back((self.turn, request));
        self.turn = (self.turn + 1) % self.length;
        Ok(())
    }

    /// Confirms the first unconfirmed request. A confirmation without data leaves it none.
    pub fn confirm(&mut self, status: Status, count: u32, data: &[u8]) {
        let (place, mut request) = self.unconfirmed.pop_front().expect("a request is being sent");
        request.data = data.to_vec();
        self.confirmed.push_back(Confirmed { place, request, status, count });
    }

    /// Hands back the oldest confirmed request and frees its place. Refusal 28.
    pub fn collect(&mut self) -> Result<Confirmed, Refusal> {
        self.confirmed.pop_front().ok_or(28)
    }
}

#[cfg(test)]
mod tests {
    use super::*;

    fn request(service: Service, destination: u8) -> Request {
        let data = vec![1, 2];
        Request { service, destination, to: None, from: None, data, reference: 0, limit: 0, asks: false }
    }

    #[test]
    fn places_are_used_in_turn() {
        let mut queue = Queue::new(2);
        assert_eq!(queue.submit(request(Service::Sda, 7)), Ok(()));
        assert_eq!(queue.submit(request(Service::Srd, 8)), Ok(()));
        assert_eq!(queue.submit(request(Service::Sdn, 9)), Err(27));
        assert_eq!(queue.collect().unwrap_err(), 28);
        queue.confirm(Status::Na, 2, &[]);
        assert_eq!(queue.submit(request(Service::Sdn, 9)), Err(27));
        let first = queue.collect().unwrap();
        assert_eq!((first.place, first.status, first.count, first.request.data.len()), (0, Status::Na, 2, 0));
        assert_eq!(queue.submit(request(Service::Sdn, 9)), Ok(()));
        queue.confirm(Status::Dl, 1, &[4]);
        queue.confirm(Status::Ok, 1, &[]);
        let places = [queue.collect().unwrap(), queue.collect().unwrap()].map(|confirmed| confirmed.place);
        assert_eq!(places, [1, 0]);
    }

    #[test]
    fn refusals_in_their_order() {
        let sda = || request(Service::Sda, 7);
        let srd = || request(Service::Srd, 7);
        let status = || request(Service::FdlStatus, 7);
        assert_eq!(Request { destination: 128, to: Some(64), ..sda() }.refuse(2), Err(23));
        assert_eq!(Request { destination: 2, ..sda() }.refuse(2), Err(23));
        assert_eq!(Request { destination: 127, ..status() }.refuse(2), Err(23));
        assert_eq!(Request { to: Some(63), ..status() }.refuse(2), Err(24));
        assert_eq!(Request { from: Some(63), ..srd() }.refuse(2), Err(24));
        assert_eq!(Request { data: vec![0; 247], ..status() }.refuse(2), Err(25));
        assert_eq!(Request { from: Some(0), data: vec![0; 246], ..sda() }.refuse(2), Err(26));
        assert_eq!(Request { to: Some(63), ..request(Service::Sdn, 127) }.refuse(2), Ok(()));
        assert_eq!(Request { data: vec![0; 246], ..sda() }.refuse(2), Ok(()));
    }

    /// Document 02's order 6: 30 comes behind 23 to 26, for SDN too, and 15 is no ground for it.
    #[test]
    fn a_limit_over_15() {
        let over = |request: Request| Request { limit: 16, ..request };
        let sda = || over(request(Service::Sda, 7));
        assert_eq!(over(request(Service::Sda, 128)).refuse(2), Err(23));
        assert_eq!(Request { to: Some(64), ..sda() }.refuse(2), Err(24));
        assert_eq!(over(request(Service::Ident, 7)).refuse(2), Err(25));
        assert_eq!(Request { data: vec![0; 247], ..sda() }.refuse(2), Err(26));
        for service in [Service::Sda, Service::Sdn, Service::Srd] {
            assert_eq!(over(request(service, 7)).refuse(2), Err(30));
            assert_eq!(Request { limit: 255, ..request(service, 7) }.refuse(2), Err(30));
            assert_eq!(Request { limit: 15, ..request(service, 7) }.refuse(2), Ok(()));
        }
        assert_eq!(over(request(Service::Sdn, 127)).refuse(2), Err(30));
    }

    /// The station's limit goes to the requests that ask for it, whatever they typed, and to no other.
    #[test]
    fn the_station_fills_a_limit() {
        let typed = |limit, asks| Request { limit, asks, ..request(Service::Srd, 7) };
        for limit in [0, 2, 15, 16, 255] {
            let (asking, own) = (typed(limit, true).filled(3), typed(limit, false).filled(3));
            assert_eq!((asking.limit, asking.asks), (3, true));
            assert_eq!((own.limit, own.asks), (limit, false));
            assert_eq!(asking.refuse(2), Ok(()));
            assert_eq!(own.refuse(2).is_err(), limit > 15);
        }
    }

    /// A confirmation keeps reference, limit and flag, whatever the status.
    #[test]
    fn a_confirmation_keeps_what_is_the_callers() {
        let mut queue = Queue::new(3);
        let given = [(1, 0, false), (u32::MAX, 15, true), (0, 7, false)];
        for (reference, limit, asks) in given {
            assert!(queue.submit(Request { reference, limit, asks, ..request(Service::Sda, 7) }).is_ok());
        }
        queue.confirm(Status::Ok, 1, &[]);
        queue.confirm(Status::Na, 16, &[]);
        queue.confirm(Status::Ds, 0, &[]);
        for kept in given {
            let Confirmed { request, .. } = queue.collect().unwrap();
            assert_eq!((request.reference, request.limit, request.asks), kept);
        }
    }
}
