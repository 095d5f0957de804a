// Defines the planted faults: each falsifies the evidence of a comparison, or a rule of the model, leaves a hypothesis out, or is a wrong end; each must show.
// Assumes the faults of the model (tests/differential/model.rs).

use crate::claims::Claim;
use crate::model;
use crate::wire::Kind;

macro_rules! faults {
    ($($name:ident: $words:literal,)*) => {
        #[derive(Clone, Copy, Debug, PartialEq, Eq)]
        pub enum Fault { $($name),* }
        pub const FAULTS: &[(Fault, &str)] = &[$((Fault::$name, $words)),*];
    };
}

faults! {
    OtherNumber: "an answer under the number before",
    OtherData: "an answer with a byte changed",
    OtherCommand: "an answer of another command",
    OtherMessage: "the supervisor carried out another message under that number",
    NotCarriedOut: "the supervisor carried nothing out",
    CarriedOutBefore: "the message was carried out before it was put out",
    OtherRequest: "an answer to what the caller did not ask for",
    Twice: "an answer handed out twice",
    OldList: "the supervisor answers a list that was replaced before the lookup was put out",
    EarlierList: "the supervisor answers the list that it held when the lookup was put out, and holds another when it carries the lookup out",
    NotBrought: "the supervisor's list becomes another without a set, a restore or a start",
    RestoreUntold: "a restore that nobody was told of",
    OldAlert: "after a reboot the supervisor answers the alert reply that it had retained",
    OtherStatus: "the status of another fetch",
    OtherBits: "another number of set bits",
    OtherStep: "an alert or a status in answer to another command",
    OtherStanding: "the state tells another number than the one that went out",
    OtherBytes: "other bytes go out under the same number",
    OldNumber: "a number goes out again for another request",
    LastEarly: "the numbers end one below the last",
    EndMissed: "a recovery goes on without a number",
    EndKeeps: "a recovery that ends with 14 keeps the request that it cut off",
    EndSends: "a recovery that ends with 14 leaves a frame to go out",
    RefusedForgets: "an interrupt refused as 14 forgets the request",
    ResendTakes: "a resent alert request takes the next alert",
    RebootKeeps: "a reboot keeps the retained alert reply",
    NoSeparator: "no 00 ahead of a reply that follows half of one",
    SignalBit0: "the line signal follows bit 0 alone",
    MarkNotSummed: "a saved image's checksum leaves out the record's mark",
    AbsentKept: "a restore keeps a setting that the image lacks",
    WrittenEarly: "a refused restore writes the records ahead of the fault",
    OffsetNextField: "a refused restore names the field behind the one at fault",
    StepKeyAsResult: "a step tells the key of a set as its result",
    StepLookupResult: "a step tells the result of a lookup",
    StateKeptCommand: "the state tells the command of the request that a recovery cut off",
    StateIdleWaiting: "the state is idle while the caller's request is outstanding",
    StateOtherStep: "the state tells a recovery's acknowledgement as its alert",
    StateUnsentOnce: "the state tells a frame that is to go out again as sent",
    StateOriginalAlways: "the state tells of every recovery that it cut a request off",
    RequestsUntested: "a request of someone else was read under that number",
    RepliesUntested: "a reply was taken that the supervisor had not put out",
    AskedOrder: "sets of the key are read out of order",
    AskedRestored: "the supervisor was started or restored since the main processor's end was",
    SetsUnanswered: "a request of someone else was read under the number of a set",
    GotOrder: "an older set is read behind the one that was answered",
    GotOthers: "a set of someone else is read",
    GotOwn: "another set of the key is put out by the main processor's end",
    GotRestored: "the supervisor was started or restored behind the set",
    EditionRestored: "a restore came between",
    AlertsOrder: "alert requests are read out of order",
    AlertsOthers: "an alert request of someone else is read",
    AlertsOwn: "alert requests of the caller's own",
    AlertsReboot: "a reboot was read",
    AlertsStarted: "one end was started alone",
    TripInside: "the main processor's end is inside a frame as a request goes out",
    AnyNumber: "a main processor's end that takes a reply under an older number",
    ValueBefore: "a supervisor that answers a lookup with the value before the last set",
    FoundBefore: "a main processor's end that hands out the answer of the lookup before",
    SetNotStored: "a supervisor that answers a set and does not store it",
    StatusSettles: "a main processor's end that settles a set at a status",
    EditionNotCounted: "a supervisor that counts no edition on a set",
    EndStores: "a supervisor that stores a set at the last edition",
    AlertRepeated: "a supervisor that repeats an alert",
    AlertDropped: "a supervisor that drops an alert",
    NewestFirst: "a supervisor that takes the newest alert first",
    AlertRetaken: "a supervisor that takes the next alert for a request that comes again",
    AlertSwallowed: "a main processor's end that does not hand an alert out",
    AlertTwice: "a main processor's end that hands an alert out twice",
    DeafAfterTries: "a main processor's end that takes no answer after two failed tries",
    DeafInRecovery: "a main processor's end that takes no answer to its alert request at times",
    AcknowledgeHanded: "a main processor's end that hands out the answer to a recovery's acknowledgement",
    SilentAgain: "a supervisor that is silent where a request comes again",
}

/// An end of the two.
#[derive(Clone, Copy, Debug, PartialEq, Eq)]
pub enum Side {
    Main,
    Supervisor,
}

impl Fault {
    /// The end that is wrong, where one is.
    pub fn side(self) -> Option<Side> {
        match self {
            Fault::AnyNumber | Fault::FoundBefore | Fault::StatusSettles | Fault::AlertSwallowed | Fault::AlertTwice => Some(Side::Main),
            Fault::DeafAfterTries | Fault::DeafInRecovery | Fault::AcknowledgeHanded => Some(Side::Main),
            Fault::ValueBefore | Fault::SetNotStored | Fault::EditionNotCounted | Fault::EndStores => Some(Side::Supervisor),
            Fault::AlertRepeated | Fault::AlertDropped | Fault::NewestFirst | Fault::AlertRetaken | Fault::SilentAgain => Some(Side::Supervisor),
            _ => None,
        }
    }

    /// The claims that must find it, each alone; none where any comparison may.
    pub fn claims(self) -> &'static [Claim] {
        match self {
            Fault::RequestsUntested => &[Claim::FreshAnswer, Claim::ValueAsked, Claim::SetThenGot, Claim::AlertsInOrder, Claim::AlertsPosted],
            Fault::RepliesUntested => &[Claim::FreshAnswer],
            Fault::AnyNumber => &[Claim::FreshAnswer, Claim::ValueAsked],
            Fault::AskedOrder | Fault::AskedRestored => &[Claim::NeverReplaced, Claim::ValueAsked],
            Fault::SetsUnanswered => &[Claim::ValueAsked],
            Fault::ValueBefore | Fault::FoundBefore => &[Claim::NeverReplaced, Claim::ValueAsked, Claim::SetThenGot],
            Fault::GotOrder | Fault::GotOthers | Fault::GotOwn | Fault::GotRestored => &[Claim::SetThenGot],
            Fault::SetNotStored | Fault::StatusSettles => &[Claim::SetThenGot],
            Fault::EditionRestored | Fault::EditionNotCounted | Fault::EndStores => &[Claim::SameEdition],
            Fault::AlertsOrder | Fault::AlertsOthers | Fault::AlertsOwn | Fault::AlertsReboot | Fault::AlertsStarted => &[Claim::AlertsInOrder],
            Fault::AlertDropped | Fault::AlertRetaken | Fault::AlertSwallowed => &[Claim::AlertsInOrder],
            Fault::AlertRepeated | Fault::NewestFirst | Fault::AlertTwice => &[Claim::AlertsInOrder, Claim::AlertsPosted],
            Fault::TripInside | Fault::DeafAfterTries | Fault::DeafInRecovery | Fault::AcknowledgeHanded | Fault::SilentAgain => &[Claim::Progress],
            _ => &[],
        }
    }

    /// The wire over which it shows.
    pub fn wire(self) -> Kind {
        match self {
            Fault::RequestsUntested | Fault::SetsUnanswered | Fault::GotOthers | Fault::AlertsOthers | Fault::AlertsReboot => Kind::Second,
            Fault::RepliesUntested | Fault::AskedOrder | Fault::GotOrder | Fault::AlertsOrder => Kind::Bad,
            _ if self.claims().is_empty() => Kind::Bad,
            _ => Kind::InOrder,
        }
    }
}

/// The number of the model's rule that a fault breaks; 0 where it breaks none.
pub fn rule(fault: Fault) -> usize {
    let broken = match fault {
        Fault::LastEarly => model::Fault::NumbersEndEarly,
        Fault::EndMissed => model::Fault::EndMissed,
        Fault::EndKeeps => model::Fault::EndKeeps,
        Fault::EndSends => model::Fault::EndSends,
        Fault::RefusedForgets => model::Fault::FourteenForgets,
        Fault::ResendTakes => model::Fault::ResendTakes,
        Fault::RebootKeeps => model::Fault::RebootKeepsCopy,
        Fault::NoSeparator => model::Fault::NoSeparator,
        Fault::SignalBit0 => model::Fault::SignalBit0,
        Fault::MarkNotSummed => model::Fault::MarkNotSummed,
        Fault::AbsentKept => model::Fault::AbsentKept,
        Fault::WrittenEarly => model::Fault::WrittenEarly,
        Fault::OffsetNextField => model::Fault::OffsetNextField,
        Fault::StepKeyAsResult => model::Fault::StepKeyAsResult,
        Fault::StepLookupResult => model::Fault::StepLookupResult,
        Fault::StateKeptCommand => model::Fault::StateKeptCommand,
        Fault::StateIdleWaiting => model::Fault::StateIdleWaiting,
        Fault::StateOtherStep => model::Fault::StateOtherStep,
        Fault::StateUnsentOnce => model::Fault::StateUnsentOnce,
        Fault::StateOriginalAlways => model::Fault::StateOriginalAlways,
        Fault::AnyNumber => model::Fault::AnyReply,
        Fault::AlertRetaken => model::Fault::ResendTakes,
        Fault::AcknowledgeHanded => model::Fault::AcknowledgeHanded,
        _ => return 0,
    };
    1 + model::FAULTS.iter().position(|&(fault, _)| fault == broken).expect("a fault of the model")
}
