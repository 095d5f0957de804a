// Defines what the simulation knows of the main processor's end, and the comparison with the state that it tells behind every call.
// Assumes the model of document 02's item 2 (tests/differential/requester.rs), to which every call is made too, and the ledger for what went out.

use crate::ends::{Main, Supervisor};
use crate::faults::{Fault, Side};
use crate::library::{RequesterReceiveAnswer, RequesterStateAnswer};
use crate::limits::{IDLE, LONGEST_FRAME, WAITING};
use crate::model::Reader;
use crate::requester::Requester;
use crate::simulation::Simulation;
use std::fmt::Debug;

/// The model of the main processor's end, and what it has read since the last 00.
#[derive(Default)]
pub struct Known {
    pub requester: Requester,
    pub reader: Reader,
}

fn alike<T: PartialEq + Debug>(what: &str, said: &T, known: &T) -> Result<(), String> {
    if said == known { Ok(()) } else { Err(format!("{what} gives {said:02x?}, and not {known:02x?}")) }
}

impl Simulation {
    /// What the library's supervisor says, which is what the model says; a wrong supervisor is the model alone.
    pub fn supervisor_says<T: PartialEq + Debug>(&mut self, what: &str, said: impl FnOnce(&mut Supervisor) -> T, known: T) -> Result<T, String> {
        if !self.replaced(Side::Supervisor) {
            alike(what, &said(&mut self.supervisor), &known)?;
        }
        Ok(known)
    }

    /// The same of the main processor's end.
    fn main_says<T: PartialEq + Debug>(&mut self, what: &str, said: impl FnOnce(&mut Main) -> T, known: T) -> Result<T, String> {
        if !self.replaced(Side::Main) {
            alike(what, &said(&mut self.main), &known)?;
        }
        Ok(known)
    }

    /// A request; its frame, or the refusal's number.
    pub fn requests(&mut self, command: u8, data: &[u8]) -> Result<Result<Vec<u8>, u32>, String> {
        let known = self.known.requester.request(command, data, LONGEST_FRAME);
        self.main_says("a request", |main| main.request(command, data), known)
    }

    /// An interrupt; its number.
    pub fn interrupts(&mut self) -> Result<u32, String> {
        let known = self.known.requester.interrupt().err().unwrap_or(0);
        self.main_says("an interrupt", Main::interrupt, known)
    }

    /// The frame that goes out; empty where none does.
    pub fn sends(&mut self) -> Result<Vec<u8>, String> {
        let known = self.known.requester.send(LONGEST_FRAME).expect("room for a frame");
        self.main_says("a send", Main::send, known)
    }

    /// What a receive of the piece answers, with the data of a reply.
    pub fn receives(&mut self, piece: &[u8]) -> Result<(RequesterReceiveAnswer, Vec<u8>), String> {
        let known = self.model_receives(piece);
        self.main_says("a receive", |main| main.receive(piece), known)
    }

    /// The state that the main processor's end tells: the model's, and where no frame is to go out, of the one that went out last.
    pub fn stands(&mut self) -> Result<RequesterStateAnswer, String> {
        let known = self.known.requester.standing();
        let told = self.main_says("the state", |main| main.state(), known)?;
        self.tally.stood(&told);
        if let Some((command, data)) = self.caller.asked_for.as_ref().filter(|_| told.state == WAITING) {
            self.ledger.values.outstanding(told.number, *command, data);
        }
        if told.state != IDLE {
            self.ledger.heard.outstanding(told.number);
        }
        if told.state != IDLE && told.unsent == 0 {
            let number = told.number + u64::from(self.ledger.fault == Some(Fault::OtherStanding));
            let went_out = self.ledger.outstanding().map(|message| (u64::from(message.command), message.sequence));
            alike("the state of what went out", &Some((told.command, number)), &went_out)?;
        }
        Ok(told)
    }
}
