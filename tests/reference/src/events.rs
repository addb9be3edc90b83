//! What happens to a station in the runs, phase by phase.

use crate::random::Random;
use crate::station::Phase;

/// What happens to a station from outside, beside submit, collect, reset and show.
#[derive(Clone, Copy)]
pub enum Event {
    TokenFromPrevious,
    TokenFromStranger,
    TokenFromMaster,
    TokenFromNext,
    TokenFromSelf,
    TokenToOther,
    Request,
    RequestToOther,
    Plausible,
    Odd,
    Reply,
    Short,
    Damaged,
    Slot,
    Sent,
}

use Event::*;

/// The events of each phase by their weights; silent rings have a table of their own.
const IDLE: &[(usize, Event)] = &[
    (40, TokenFromPrevious),
    (12, TokenFromStranger),
    (4, TokenFromMaster),
    (4, TokenFromNext),
    (3, TokenFromSelf),
    (3, TokenToOther),
    (36, Request),
    (2, RequestToOther),
    (2, Reply),
    (1, Short),
    (3, Damaged),
    (3, Slot),
    (2, Sent),
];
const AWAITED: &[(usize, Event)] = &[
    (60, Plausible),
    (16, Odd),
    (14, Slot),
    (6, Damaged),
    (1, TokenFromPrevious),
    (1, TokenFromStranger),
    (1, TokenToOther),
    (2, Request),
    (1, RequestToOther),
    (2, Reply),
    (2, Sent),
];
const AWAITED_SILENT: &[(usize, Event)] = &[(90, Slot), (4, Odd), (4, Damaged), (1, Plausible), (1, Sent)];
const SDN: &[(usize, Event)] = &[
    (70, Sent),
    (6, Slot),
    (6, TokenFromPrevious),
    (3, TokenFromStranger),
    (6, Request),
    (3, Short),
    (3, Damaged),
    (3, Reply),
];
const CHECK: &[(usize, Event)] = &[
    (30, TokenFromPrevious),
    (8, TokenFromStranger),
    (4, TokenFromMaster),
    (10, TokenToOther),
    (20, Request),
    (6, RequestToOther),
    (3, Reply),
    (2, Short),
    (6, Damaged),
    (16, Slot),
    (3, Sent),
];
const CHECK_SILENT: &[(usize, Event)] = &[
    (80, Slot),
    (6, TokenFromPrevious),
    (4, TokenFromStranger),
    (4, TokenFromNext),
    (3, Request),
    (3, Damaged),
    (2, Sent),
];
const ALONE: &[(usize, Event)] =
    &[(80, Sent), (6, Slot), (4, TokenFromStranger), (4, Request), (3, Damaged), (3, TokenFromSelf)];

/// An event that is likely in a phase.
pub fn event(random: &mut Random, phase: &Phase, silent: bool) -> Event {
    random.weighted(match phase {
        Phase::Idle => IDLE,
        Phase::ReplyAwaited(_) if silent => AWAITED_SILENT,
        Phase::ReplyAwaited(_) => AWAITED,
        Phase::SdnGoingOut(_) => SDN,
        Phase::PassChecked(_) if silent => CHECK_SILENT,
        Phase::PassChecked(_) => CHECK,
        Phase::PassToSelf => ALONE,
    })
}
