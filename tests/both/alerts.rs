// Defines the alerts that were posted and those handed out since both ends were started together, and which of them may be handed out next.
// Assumes the hypotheses of `alerts-in-order` and `alerts-posted`.

use crate::claims::{Claim, Claims};
use crate::faults::Fault;
use crate::heard::{requests, Heard, Turn};
use crate::model::Message;
use crate::tally::tally;

tally! {
    none: "alert replies that tell that none waits",
    lost: "alerts lost with the caller's own alert requests",
    own: "alerts handed out as the answer to the caller's own request",
}

#[derive(Default)]
pub struct Alerts {
    posted: Vec<Vec<u8>>,
    /// How many were handed out, and the place behind the last of these among those posted.
    handed: usize,
    place: usize,
    /// An end was started since, or a reboot or power-off was read.
    dropped: bool,
    /// The caller's own alert requests.
    own: bool,
    turn: Turn,
    pub fault: Option<Fault>,
    pub tally: Tally,
}

impl Alerts {
    pub fn both_started(&mut self) {
        let (fault, tally) = (self.fault, std::mem::take(&mut self.tally));
        *self = Alerts { fault, tally, ..Alerts::default() };
    }

    /// One end was started alone.
    pub fn one_started(&mut self) {
        self.dropped |= self.fault != Some(Fault::AlertsStarted);
    }

    pub fn posted(&mut self, data: Vec<u8>) {
        self.posted.push(data);
    }

    /// The caller's request is put out.
    pub fn asked(&mut self, command: u8) {
        self.own |= command == 0x0a && self.fault != Some(Fault::AlertsOwn);
    }

    /// The supervisor has read a good message; whether the main processor's end had put it out.
    pub fn read(&mut self, message: &Message, put_out: bool) {
        if !requests(message) || !message.data.is_empty() {
            return;
        }
        match message.command {
            0x01 | 0x02 => self.dropped |= self.fault != Some(Fault::AlertsReboot),
            0x0a if self.fault == Some(Fault::AlertsOthers) && !put_out => (),
            0x0a if self.fault == Some(Fault::AlertsOrder) && put_out => (),
            0x0a => self.turn.read(message.sequence, put_out),
            _ => (),
        }
    }

    /// An alert reply's data were handed out, as an alert or as the answer to the caller's own request.
    pub fn handed(&mut self, data: &[u8], own: bool, heard: &Heard, claims: &mut Claims) -> Result<(), String> {
        if data.first().is_none_or(|&action| action == 0) {
            self.tally.none += 1;
            return Ok(());
        }
        let held = !self.dropped && self.turn.kept() && heard.wire();
        let next = self.posted.get(self.handed).map(|posted| &posted[..]);
        let first = if next == Some(data) { Ok(()) } else { Err(format!("{} is handed out, and not {}", text(data), next.map_or("nothing".to_string(), text))) };
        let later = self.posted.iter().skip(self.place).position(|posted| posted == data);
        let posted = if later.is_some() { Ok(()) } else { Err(format!("{} is handed out, and is not among those posted behind the last", text(data))) };
        self.handed += 1;
        self.place += later.map_or(0, |more| more + 1);
        if held {
            self.tally.lost += later.unwrap_or(0) as u64;
            self.tally.own += u64::from(own);
        }
        claims.settle(Claim::AlertsInOrder, held && !self.own, first)?;
        claims.settle(Claim::AlertsPosted, held, posted)
    }
}

fn text(data: &[u8]) -> String {
    String::from_utf8_lossy(&data[1..]).escape_debug().to_string()
}
