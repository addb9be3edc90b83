//! What a script reached in the station: each transition of each phase by name, and how often it was taken.
//! The counts stand beside the station, so that its state is that of document 01 and nothing more.

use std::cell::RefCell;

use crate::queue::{Priority, Service, Status};

macro_rules! transitions {
    ($($transition:ident: $name:literal,)*) => {
        #[derive(Clone, Copy, Debug, PartialEq)]
        pub enum Transition { $($transition,)* }
        const NAMES: &[&str] = &[$($name,)*];
    };
}

transitions! {
    LineNone: "line: empty or comment",
    LineTooLong: "line: longer than 4096 characters",
    LineSpaces: "line: spaces alone",
    LineUnknown: "line: unknown word",
    LineWords: "line: too few or too many words",
    LineOperand: "line: a word that does not fit its place",
    LinePair: "line: a pair out of order, twice, unknown or without a value",
    LineSubmitPlain: "line: submit without a pair",
    LineSubmitRef: "line: submit with ref alone",
    LineSubmitLimit: "line: submit with limit alone",
    LineSubmitBoth: "line: submit with ref and limit",
    LineSubmitRef0: "line: submit with ref 0",
    LineBeforeStart: "line: a call before the first start",
    LineShow: "line: show",

    StartAccepted: "start: accepted",
    StartRefusedSetting: "start: refused 20, setting out of range",
    StartRefusedSlotTime: "start: refused 20, TSL over 65535",
    StartRefusedAddress: "start: refused 20, TS over 126",
    StartRefusedSet: "start: refused 20, TS not among the masters",
    StartRefusedRow: "start: refused 21, row length",
    FrameRefusedUpdate: "frame: refused 22, update over 244",
    SubmitRefusedAddress: "submit: refused 23, DA over 127",
    SubmitRefusedOwn: "submit: refused 23, own DA",
    SubmitRefusedAll: "submit: refused 23, 127 not for SDN",
    SubmitRefusedDestinationPoint: "submit: refused 24, destination point over 63",
    SubmitRefusedSourcePoint: "submit: refused 24, source point over 62",
    SubmitRefusedLastPoint: "submit: refused 24, point 63 not for SDN",
    SubmitRefusedService: "submit: refused 25",
    SubmitRefusedLength: "submit: refused 26",
    SubmitRefusedLimit: "submit: refused 30",
    SubmitRefusedLimitSdn: "submit: refused 30, SDN",
    SubmitRefusedLimitFull: "submit: refused 30 although every place is in use",
    SubmitRefused23Limit: "submit: refused 23 although the limit is over 15",
    SubmitRefused24Limit: "submit: refused 24 although the limit is over 15",
    SubmitRefused25Limit: "submit: refused 25 although the limit is over 15",
    SubmitRefused26Limit: "submit: refused 26 although the limit is over 15",
    SubmitRefusedFull: "submit: refused 27",
    SubmitRefusedFull64: "submit: refused 27 with 64 places",
    SubmitPlace: "submit: accepted",
    SubmitLastPlace: "submit: accepted at the last place of the row",
    SubmitFilled: "submit: accepted, the station's limit filled in",
    SubmitLimitBelow: "submit: accepted with an own limit below the station's",
    SubmitLimitEqual: "submit: accepted with an own limit equal to the station's",
    SubmitLimitAbove: "submit: accepted with an own limit above the station's",
    SubmitLimitMost: "submit: accepted with an own limit of 15",
    CollectRefused: "collect: refused 28",
    CollectWithData: "collect: with data",
    CollectWithoutData: "collect: without data",
    CollectReference: "collect: with a reference",
    CollectReferenceData: "collect: with a reference and data",
    CollectReferenceMost: "collect: with the greatest reference",
    CollectNoReference: "collect: without a reference",

    IdleTokenFromPs: "idle: token from PS begins a hold",
    IdlePsBetween: "idle: token from PS begins a hold and breaks a pair",
    IdleFirst: "idle: stranger's first token",
    IdleThird: "idle: a third's token takes the first's place",
    IdleSecondOfStranger: "idle: stranger's second token begins a hold, stranger enters the ring",
    IdleSecondOfMaster: "idle: second token of a master that was not PS begins a hold",
    IdleOwn: "idle: token with SA = TS ignored",
    IdleOwnBetween: "idle: token with SA = TS ignored between two of a pair",
    IdleTokenToOther: "idle: token to another ignored",
    IdleRequestToOther: "idle: request to another ignored",
    IdleReply: "idle: reply ignored",
    IdleShort: "idle: SC ignored",
    IdleRefused: "idle: refused frame ignored",
    IdleSent: "idle: sent ignored",
    IdleSlot: "idle: slot ignored",

    TimeFirstHold: "time: first hold after start or reset",
    TimeLeft: "time: left",
    TimeLate: "time: none left",
    TimeJustLeft: "time: left by one",
    TimeJustOver: "time: over at TTR exactly",
    TimeWrapped: "time: the clock wrapped since the acceptance before",
    TimeBack: "time: the clock went back since the acceptance before",

    HoldHighInTime: "hold: begins with a high request, time left",
    HoldHighLate: "hold: begins with a high request, no time left",
    HoldWithoutHigh: "hold: begins without a high request",
    ChoiceHigh: "choice: high request",
    ChoiceLow: "choice: low request",
    ChoiceEmpty: "choice: time left and nothing waits, token passed",
    ChoiceHighWaits: "choice: no time left, a high request waits, token passed",
    ChoiceLowWaits: "choice: no time left, a low request waits, token passed",
    ChoiceEmptyLate: "choice: no time left and nothing waits, token passed",

    RequestSdaHigh: "request: SDA high",
    RequestSdaLow: "request: SDA low",
    RequestSdnHigh: "request: SDN high",
    RequestSdnLow: "request: SDN low",
    RequestSrdHigh: "request: SRD high",
    RequestSrdLow: "request: SRD low",
    RequestUnknown: "request: unknown mark, FCB 1 FCV 0",
    RequestBit0: "request: FCV 1, bit 0",
    RequestBit1: "request: FCV 1, bit 1",
    MarkFirst: "mark: unknown becomes 0",
    MarkTo0: "mark: 1 becomes 0",
    MarkTo1: "mark: 0 becomes 1",

    AwaitedReplyNext: "awaited: plausible reply, next request sent",
    AwaitedReplyPass: "awaited: plausible reply, token passed",
    AwaitedSlot: "awaited: slot expired",
    AwaitedRefused: "awaited: refused frame",
    ReplyToOther: "awaited: reply to another",
    ReplyFromOther: "awaited: reply from another",
    ReplyOtherSource: "awaited: reply from another access point",
    ReplyOtherDestination: "awaited: reply to another access point",
    ReplyOtherCode: "awaited: reply whose code or data do not fit the service",
    AwaitedRepeat: "awaited: same octets again",
    NaWithoutRetry: "awaited: NA at retry limit 0",
    NaAfterRetries: "awaited: NA after retries",
    NaAfterAllRetries: "awaited: NA after 15 retries",
    NaFilled: "awaited: NA after the station's limit, which was asked for",
    NaOwnBelow: "awaited: NA after an own limit below the station's",
    NaOwnEqual: "awaited: NA after an own limit equal to the station's",
    NaOwnAbove: "awaited: NA after an own limit above the station's",
    NaOwnNone: "awaited: NA at once by an own limit of 0, at a station with retries",
    NaLowOwn: "awaited: NA of a low request after an own limit other than the station's",
    RepeatBeyond: "awaited: same octets of a high request again beyond the station's limit",
    RepeatBeyondLow: "awaited: same octets of a low request again beyond the station's limit",
    RepeatStationNone: "awaited: same octets again by an own limit, at a station without retries",
    AwaitedNaNext: "awaited: NA and next request sent",
    AwaitedNaPass: "awaited: NA and token passed",
    AwaitedRequest: "awaited: request frame, NA, Idle",
    AwaitedToken: "awaited: token, NA, Idle",
    AwaitedSent: "awaited: sent ignored",

    SdnSentNext: "sdn: sent, next request sent",
    SdnSentPass: "sdn: sent, token passed",
    SdnFrame: "sdn: frame ignored",
    SdnSlot: "sdn: slot ignored",

    CheckHold: "check: token begins a hold",
    CheckAnswer: "check: request answered",
    CheckIndication: "check: SDN indicated",
    CheckGood: "check: good frame without other effect",
    CheckRefused: "check: refused frame",
    CheckFirstExpiry: "check: first expiry, token again",
    CheckSecondExpiry: "check: second expiry, token again",
    CheckRemoved: "check: third expiry removes NS",
    CheckRemovedPs: "check: third expiry removes NS, who was PS",
    CheckRemovedPsAlone: "check: third expiry removes NS, who was PS, TS is alone",
    CheckSent: "check: sent ignored",

    SelfSent: "self: sent begins a hold",
    SelfFrame: "self: frame ignored",
    SelfSlot: "self: slot ignored",

    AnswerStatus: "answering: FDL status, OK",
    AnswerStatusPoints: "answering: FDL status with access points, OK",
    AnswerStatusLastPoint: "answering: FDL status to point 63 ignored",
    AnswerLastPoint: "answering: SDA or SRD to point 63 ignored",
    AnswerIdent: "answering: Ident ignored",
    AnswerLsap: "answering: LSAP status ignored",
    CountFirst: "answering: FCB 1 FCV 0, new and remembered",
    CountNone: "answering: FCB 0 FCV 0, new",
    CountNoneMemoryLeft: "answering: FCB 0 FCV 0, new, the memory is left",
    CountNoMemory: "answering: FCV 1 with an empty memory, new",
    CountOtherSource: "answering: FCV 1 from another SA, new",
    CountOtherBit: "answering: FCV 1 with the other bit, new",
    CountRepeatShort: "answering: repeat of a remembered SC",
    CountRepeatCoded: "answering: repeat of a remembered coded reply",
    AnswerRs: "answering: RS",
    AnswerSdaSc: "answering: SDA, SC and indicated",
    AnswerSdaRr: "answering: SDA, RR",
    AnswerSrdSc: "answering: SRD, NR as SC and indicated",
    AnswerSrdRr: "answering: SRD, RR",
    AnswerDh: "answering: DH and indicated",
    AnswerDl: "answering: DL and indicated",
    AnswerRdh: "answering: RDH",
    AnswerRdl: "answering: RDL",
    SdnIndicated: "answering: SDN indicated",
    SdnIndicatedAll: "answering: SDN to all indicated",
    SdnInactive: "answering: SDN to an inactive point ignored",
    SdnLastPoint: "answering: SDN to point 63 ignored",
    SdnNoRoom: "answering: SDN without room ignored",

    WaitTid1Request: "wait: Tid1 before a request",
    WaitTid2Request: "wait: Tid2 before a request",
    PassTid1: "wait: Tid1 before the token to NS",
    PassTid2: "wait: Tid2 before the token to NS",
    SelfPassTid1: "wait: Tid1 before the token to itself",
    SelfPassTid2: "wait: Tid2 before the token to itself",
    WaitMinTsdr: "wait: min TSDR before a reply",

    SdaOk: "confirmed: SDA OK",
    SdaUe: "confirmed: SDA UE",
    SdaRr: "confirmed: SDA RR",
    SdaRs: "confirmed: SDA RS",
    SdaNa: "confirmed: SDA NA",
    SdaDs: "confirmed: SDA DS",
    SdnOk: "confirmed: SDN OK",
    SdnDs: "confirmed: SDN DS",
    SrdUe: "confirmed: SRD UE",
    SrdRr: "confirmed: SRD RR",
    SrdRs: "confirmed: SRD RS",
    SrdNr: "confirmed: SRD NR",
    SrdDl: "confirmed: SRD DL",
    SrdDh: "confirmed: SRD DH",
    SrdRdl: "confirmed: SRD RDL",
    SrdRdh: "confirmed: SRD RDH",
    SrdNa: "confirmed: SRD NA",
    SrdDs: "confirmed: SRD DS",
    ReferenceReply: "confirmed: by a reply, with a reference",
    ReferenceSdn: "confirmed: SDN OK, with a reference",
    ReferenceNa: "confirmed: NA, with a reference",
    ReferenceDs: "confirmed: DS, with a reference",
    DsNeverSent: "confirmed: DS, never sent",
    DsSent: "confirmed: DS, sent before",

    ResetIdle: "reset: in Idle",
    ResetAwaited: "reset: in Reply awaited",
    ResetSdn: "reset: in SDN going out",
    ResetCheck: "reset: in Pass checked",
    ResetSelf: "reset: in Pass to self",
    ResetRing: "reset: restores a changed ring",
    ResetPrevious: "reset: restores a changed PS",
    ResetFirstToken: "reset: forgets a first token",
    ResetMemory: "reset: forgets the answering memory",
    ResetMarks: "reset: forgets a mark",
}

thread_local! {
    static COUNTS: RefCell<[u64; NAMES.len()]> = const { RefCell::new([0; NAMES.len()]) };
}

/// Counts a transition.
pub fn note(transition: Transition) {
    COUNTS.with_borrow_mut(|counts| counts[transition as usize] += 1);
}

/// Counts each transition that is so.
pub fn note_each(found: &[(bool, Transition)]) {
    found.iter().filter(|(is_so, _)| *is_so).for_each(|(_, transition)| note(*transition));
}

/// How many holds began.
#[cfg(test)]
pub fn holds() -> u64 {
    let begun = [Transition::TimeFirstHold, Transition::TimeLeft, Transition::TimeLate];
    COUNTS.with_borrow(|counts| begun.iter().map(|&transition| counts[transition as usize]).sum())
}

impl Transition {
    /// The sending of a request for the first time.
    pub fn requested(service: Service, priority: Priority) -> Transition {
        match (service, priority) {
            (Service::Sda, Priority::High) => Transition::RequestSdaHigh,
            (Service::Sda, Priority::Low) => Transition::RequestSdaLow,
            (Service::Sdn, Priority::High) => Transition::RequestSdnHigh,
            (Service::Sdn, Priority::Low) => Transition::RequestSdnLow,
            (Service::Srd, Priority::High) => Transition::RequestSrdHigh,
            (Service::Srd, Priority::Low) => Transition::RequestSrdLow,
            _ => panic!("{service:?} is never submitted"),
        }
    }

    /// The confirmation of a service with a status that it can have.
    pub fn confirmed(service: Service, status: Status) -> Transition {
        match (service, status) {
            (Service::Sda, Status::Ok) => Transition::SdaOk,
            (Service::Sda, Status::Ue) => Transition::SdaUe,
            (Service::Sda, Status::Rr) => Transition::SdaRr,
            (Service::Sda, Status::Rs) => Transition::SdaRs,
            (Service::Sda, Status::Na) => Transition::SdaNa,
            (Service::Sda, Status::Ds) => Transition::SdaDs,
            (Service::Sdn, Status::Ok) => Transition::SdnOk,
            (Service::Sdn, Status::Ds) => Transition::SdnDs,
            (Service::Srd, Status::Ue) => Transition::SrdUe,
            (Service::Srd, Status::Rr) => Transition::SrdRr,
            (Service::Srd, Status::Rs) => Transition::SrdRs,
            (Service::Srd, Status::Nr) => Transition::SrdNr,
            (Service::Srd, Status::Dl) => Transition::SrdDl,
            (Service::Srd, Status::Dh) => Transition::SrdDh,
            (Service::Srd, Status::Rdl) => Transition::SrdRdl,
            (Service::Srd, Status::Rdh) => Transition::SrdRdh,
            (Service::Srd, Status::Na) => Transition::SrdNa,
            (Service::Srd, Status::Ds) => Transition::SrdDs,
            _ => panic!("{service:?} is never confirmed {status:?}"),
        }
    }
}

/// Each transition with its count, one a line, and whether each was taken.
pub fn report() -> (String, bool) {
    COUNTS.with_borrow(|counts| {
        let lines = NAMES.iter().zip(counts).map(|(name, count)| format!("{count:>8} {name}\n"));
        (lines.collect(), counts.iter().all(|&count| count > 0))
    })
}
