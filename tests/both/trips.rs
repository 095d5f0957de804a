// Defines round trips: a frame that comes to the supervisor whole, with both readers between frames before, and whose reply is taken and comes back whole.
// Assumes the hypotheses of `round-trip` and `progress`. Any other call on the way, of either end, ends the trip without a claim.

use crate::claims::{Claim, Claims};
use crate::library::{RequesterReceiveAnswer, RequesterStateAnswer};
use crate::limits::{ALERT, ANSWER, RECOVERY_ACKNOWLEDGE, RECOVERY_ALERT, RECOVERY_STATUS, STATUS};
use crate::model::Message;
use crate::tally::tally;
use crate::wire::judged;

tally! {
    again: "round trips of a frame that was put out again",
    anew: "round trips of a request anew behind a recovery",
    fetches: "round trips of a recovery's status",
    acknowledgements: "round trips of a recovery's acknowledgement",
    alerts: "round trips of a recovery's alert",
}

/// A frame that goes out.
pub struct Departure<'f> {
    pub frame: &'f [u8],
    /// The state of the main processor's end behind it.
    pub told: RequesterStateAnswer,
    /// It went out before; or it is the caller's request behind a recovery.
    pub again: bool,
    pub anew: bool,
}

struct Trip {
    frame: Vec<u8>,
    told: RequesterStateAnswer,
    again: bool,
    anew: bool,
    /// Bytes of it that the supervisor has read; once all are, the bytes that were taken, of which so many were read, and whether nothing is pending.
    read: usize,
    taken: Vec<u8>,
    came: usize,
    all: bool,
    /// What was handed out.
    handed: Vec<(RequesterReceiveAnswer, Vec<u8>)>,
}

#[derive(Default)]
pub struct Trips {
    trip: Option<Trip>,
    pub tally: Tally,
}

impl Trips {
    /// A frame goes out, with both readers between frames and nothing on the way.
    pub fn begun(&mut self, departure: Departure) {
        let Departure { frame, told, again, anew } = departure;
        self.trip = Some(Trip { frame: frame.to_vec(), told, again, anew, read: 0, taken: Vec::new(), came: 0, all: false, handed: Vec::new() });
    }

    /// Another call of either end.
    pub fn ended(&mut self) {
        self.trip = None;
    }

    /// The supervisor has read bytes; whether a request is one that earns a reply of version 1.
    pub fn read(&mut self, bytes: &[u8], earns: impl Fn(&Message) -> bool) {
        self.trip = self.trip.take().filter(|trip| trip.frame[trip.read..].starts_with(bytes));
        let Some(trip) = &mut self.trip else { return };
        trip.read += bytes.len();
        let whole = trip.read == trip.frame.len();
        if whole && !judged(&trip.frame[..trip.read - 1]).is_ok_and(|message| earns(&message)) {
            self.trip = None;
        }
    }

    /// Bytes were taken, and so many are pending.
    pub fn taken(&mut self, bytes: &[u8], pending: usize) {
        self.trip = self.trip.take().filter(|trip| bytes.is_empty() || trip.read == trip.frame.len());
        let Some(trip) = self.trip.as_mut().filter(|trip| trip.read == trip.frame.len()) else { return };
        trip.taken.extend(bytes);
        trip.all = pending == 0;
    }

    /// The main processor's end has read bytes; what it answered, with the data of a reply.
    pub fn came(&mut self, bytes: &[u8], answer: &RequesterReceiveAnswer, data: &[u8]) {
        self.trip = self.trip.take().filter(|trip| trip.taken[trip.came..].starts_with(bytes));
        let Some(trip) = &mut self.trip else { return };
        trip.came += bytes.len();
        if answer.kind != 0 {
            trip.handed.push((*answer, data.to_vec()));
        }
    }

    /// Behind a take and behind a receive: at the end of the trip, the reply was taken as the answer. The state of the main processor's end is told.
    pub fn compare(&mut self, told: &RequesterStateAnswer, claims: &mut Claims) -> Result<(), String> {
        let Some(trip) = self.trip.take_if(|trip| trip.all && trip.came == trip.taken.len()) else { return Ok(()) };
        let tally = &mut self.tally;
        tally.again += u64::from(trip.again);
        tally.anew += u64::from(trip.anew);
        tally.fetches += u64::from(trip.told.state == RECOVERY_STATUS);
        tally.acknowledgements += u64::from(trip.told.state == RECOVERY_ACKNOWLEDGE);
        tally.alerts += u64::from(trip.told.state == RECOVERY_ALERT);
        claims.settle(Claim::Progress, true, trip.answered(told))
    }
}

impl Trip {
    fn answered(&self, told: &RequesterStateAnswer) -> Result<(), String> {
        let start = usize::from(self.taken.first() == Some(&0));
        let end = self.taken.len().saturating_sub(1).max(start);
        let Ok(reply) = judged(&self.taken[start..end]) else { return Err(format!("no reply comes to number {}", self.told.number)) };
        if told.number == self.told.number {
            return Err(format!("the reply to number {} is not taken as the answer", self.told.number));
        }
        let kind = match self.told.state {
            RECOVERY_STATUS => STATUS,
            RECOVERY_ACKNOWLEDGE => return if self.handed.is_empty() { Ok(()) } else { Err("the answer to a recovery's acknowledgement is handed out".to_string()) },
            RECOVERY_ALERT => ALERT,
            _ => ANSWER,
        };
        let [(answer, data)] = &self.handed[..] else { return Err(format!("{} replies are handed out of one", self.handed.len())) };
        let same = match kind {
            STATUS => [answer.status.to_le_bytes(), answer.options.to_le_bytes()].concat() == reply.data,
            _ => (answer.sequence, answer.command, data) == (reply.sequence, reply.command.into(), &reply.data),
        };
        if answer.kind == kind && same { Ok(()) } else { Err(format!("another reply is handed out than the one to number {}", self.told.number)) }
    }
}
