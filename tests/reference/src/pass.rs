//! "Pass" of document 01: the token to NS, its check, and the token to itself.

use crate::frame;
use crate::hold::written;
use crate::station::{Heard, Outcome, Phase, Sending, Station};
use crate::transitions::{note, Transition};

/// The token is sent to one NS at most this often.
const TOKEN_SENDINGS: u32 = 3;

impl Station {
    /// Passes the token to NS, or to itself if there is no other master.
    pub fn pass(&mut self) -> Sending {
        let to_self = self.next() == self.address;
        note(match (to_self, self.sdn_last) {
            (false, false) => Transition::PassTid1,
            (false, true) => Transition::PassTid2,
            (true, false) => Transition::SelfPassTid1,
            (true, true) => Transition::SelfPassTid2,
        });
        let wait = self.wait_in_hold();
        self.sdn_last = false;
        self.phase = if to_self { Phase::PassToSelf } else { Phase::PassChecked(1) };
        Sending { wait, octets: self.token() }
    }

    fn token(&self) -> Vec<u8> {
        written(|out| frame::write_token(self.next(), self.address, out))
    }

    /// Pass checked: any frame ends the check, and a good one is handled as in Idle.
    pub fn checked_frame(&mut self, heard: &Heard) -> Outcome {
        self.phase = Phase::Idle;
        let outcome = self.idle_frame(heard);
        note(if !matches!(self.phase, Phase::Idle) {
            Transition::CheckHold
        } else if outcome.sent.is_some() {
            Transition::CheckAnswer
        } else if outcome.indication.is_some() {
            Transition::CheckIndication
        } else if frame::read(heard.octets).is_ok() {
            Transition::CheckGood
        } else {
            Transition::CheckRefused
        });
        outcome
    }

    /// Pass checked, slot expired: the token again, or the next NS after the third sending.
    pub fn check_expired(&mut self, sendings: u32) -> Sending {
        if sendings >= TOKEN_SENDINGS {
            self.remove_next();
            return self.pass();
        }
        note(if sendings == 1 { Transition::CheckFirstExpiry } else { Transition::CheckSecondExpiry });
        self.phase = Phase::PassChecked(sendings + 1);
        Sending { wait: self.settings.tid1(), octets: self.token() }
    }

    /// NS leaves the ring; if it was PS too, PS is found anew.
    fn remove_next(&mut self) {
        let silent = self.next();
        let was_previous = silent == self.previous;
        self.ring.leave(silent);
        if was_previous {
            self.previous = self.ring.previous(self.address);
        }
        // PS stays in the ring until it is removed as NS, so TS is alone only if NS was PS.
        let alone = self.next() == self.address;
        note(match (was_previous, alone) {
            (false, _) => Transition::CheckRemoved,
            (true, false) => Transition::CheckRemovedPs,
            (true, true) => Transition::CheckRemovedPsAlone,
        });
    }
}
