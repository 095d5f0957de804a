// Defines wrong ends: the model of an end with one thing of it wrong stands in the library's place, so that only the comparison of a claim can find it.
// Assumes the models of tests/differential, which are right but for what is planted here.

use crate::faults::{Fault, Side};
use crate::library::RequesterReceiveAnswer;
use crate::model::{Ended, Message, Settings, Supervisor, Told, Touched, LAST_EDITION, TOP_BIT};
use crate::requester::{Handed, Requester, Step};
use crate::simulation::Simulation;

/// What a wrong end remembers.
#[derive(Default)]
pub struct Memory {
    /// The settings before the last set that succeeded.
    before: Settings,
    /// How often what it does wrong could have been done.
    count: u64,
    /// The number of the newest request, and grounds for a resend under it.
    number: u64,
    tries: u64,
    /// The data of the last lookup's answer, and the last alert.
    found: Option<Vec<u8>>,
    alert: Option<Message>,
}

impl Memory {
    /// Once in so many times.
    fn once_in(&mut self, times: u64) -> bool {
        self.count += 1;
        self.count % times == 0
    }
}

impl Simulation {
    /// Whether the model stands in the place of an end of the library.
    pub fn replaced(&self, side: Side) -> bool {
        self.ledger.fault.and_then(Fault::side) == Some(side)
    }

    /// A step of the supervisor's model.
    pub fn model_step(&mut self, part: &[u8]) -> Told {
        let Simulation { model, image, memory, ledger, .. } = self;
        match ledger.fault.filter(|fault| fault.side() == Some(Side::Supervisor)) {
            Some(fault) => wrong_step(fault, model, memory, image, part),
            None => model.step(image, part, &mut Touched::none()),
        }
    }

    /// What the model of the main processor's end answers to a piece, and the data of a reply.
    pub fn model_receives(&mut self, piece: &[u8]) -> (RequesterReceiveAnswer, Vec<u8>) {
        let fault = self.ledger.fault.filter(|fault| fault.side() == Some(Side::Main));
        let before = fault.map(|_| self.known.requester.clone());
        let Simulation { known, memory, caller, .. } = self;
        let (used, (mut handed, mut ended)) = known.requester.receive(&mut known.reader, piece);
        if let (Some(fault), Some(before)) = (fault, before) {
            let asked = caller.asked_for.as_ref().map(|request| request.0);
            memory.heard(&before, &known.requester, piece[used - 1] == 0);
            ended &= !memory.wrong_hearing(fault, &before, &mut known.requester, &mut handed, asked);
        }
        let answer = known.requester.receive_answer(used, &handed, ended);
        let data = match handed {
            Handed::Answer(message) | Handed::Alert(message) => message.data,
            _ => Vec::new(),
        };
        (answer, data)
    }
}

/// A request that a piece brings to the supervisor.
struct Brought {
    request: Option<Message>,
    /// The place of the settings key that a set or a lookup names.
    place: usize,
    /// An alert request with another number than the retained reply's.
    fresh: bool,
}

impl Brought {
    fn by(model: &Supervisor, part: &[u8]) -> Brought {
        let request = match model.reader.clone().read(part).1 {
            Ended::Message(message) => Some(message),
            _ => None,
        };
        let key = request.as_ref().and_then(|request| request.data.first().copied()).unwrap_or(0);
        let retained = model.registers.retained.as_ref().map(|retained| retained.sequence);
        let fresh = request.as_ref().is_some_and(|request| request.command == 0x0a && Some(request.sequence) != retained);
        Brought { request, place: usize::from(key.wrapping_sub(3)).min(3), fresh }
    }

    fn command(&self) -> u8 {
        self.request.as_ref().map_or(0, |request| request.command)
    }
}

fn wrong_step(fault: Fault, model: &mut Supervisor, memory: &mut Memory, image: &[u8], part: &[u8]) -> Told {
    let brought = Brought::by(model, part);
    let before = model.clone();
    let lookup = fault == Fault::ValueBefore && brought.command() == 0x0e;
    match fault {
        Fault::ValueBefore if lookup => std::mem::swap(&mut model.settings, &mut memory.before),
        Fault::EndStores if brought.command() == 0x10 && model.settings[brought.place].edition == LAST_EDITION => model.settings[brought.place].edition -= 1,
        Fault::NewestFirst if brought.fresh && !model.registers.alerts.is_empty() => model.registers.alerts.rotate_right(1),
        _ => (),
    }
    let told = model.step(image, part, &mut Touched::none());
    if lookup {
        std::mem::swap(&mut model.settings, &mut memory.before);
    }
    if told.kind == 2 {
        memory.carried_out(fault, model, before, &brought, &told);
    }
    told
}

impl Memory {
    /// Makes what was carried out wrong.
    fn carried_out(&mut self, fault: Fault, model: &mut Supervisor, before: Supervisor, brought: &Brought, told: &Told) {
        let set = told.command == 0x10 && told.result == 0;
        let taken = before.registers.alerts.front().filter(|_| brought.fresh);
        let number = brought.request.as_ref().map_or(0, |request| request.sequence);
        match fault {
            Fault::ValueBefore if set => self.before = before.settings,
            Fault::SetNotStored if set && self.once_in(5) => model.settings = before.settings,
            Fault::EditionNotCounted if set && brought.place < 3 && self.once_in(5) => model.settings[brought.place].edition -= 1,
            Fault::AlertRepeated if taken.is_some() && self.once_in(5) => {
                model.registers.alerts.extend(taken.cloned());
                model.registers.alerts.rotate_right(1);
                model.registers.status |= 2;
            }
            Fault::AlertDropped if brought.fresh && self.once_in(5) => {
                model.registers.alerts.pop_front();
            }
            Fault::SilentAgain if number == self.number => model.outbox.pending.clear(),
            Fault::SilentAgain => self.number = number,
            _ => (),
        }
    }

    /// Counts the grounds for a resend under one number.
    fn heard(&mut self, before: &Requester, after: &Requester, closed: bool) {
        if before.newest != self.number {
            (self.number, self.tries) = (before.newest, 0);
        }
        self.tries += u64::from(closed && before.newest == after.newest && after.standing().unsent == 1);
    }

    /// Makes what was heard wrong; whether the end is as it was before.
    fn wrong_hearing(&mut self, fault: Fault, before: &Requester, after: &mut Requester, handed: &mut Handed, asked: Option<u8>) -> bool {
        let (status, alert) = (matches!(handed, Handed::Status(..)), matches!(handed, Handed::Alert(_)));
        match fault {
            Fault::StatusSettles if status && asked == Some(0x10) => {
                *handed = Handed::Answer(Message { version: 1, sequence: before.newest | TOP_BIT, command: 0x0c, data: vec![0] });
                *after = Requester::default();
                after.newest = before.newest;
            }
            Fault::AlertTwice => self.repeat_alert(before, handed),
            Fault::AlertSwallowed if alert && self.once_in(3) => *handed = Handed::Nothing,
            Fault::DeafAfterTries if self.tries >= 2 && !matches!(handed, Handed::Nothing) => return self.deaf(before, after, handed),
            Fault::DeafInRecovery if before.step == Some(Step::Alert) && !matches!(handed, Handed::Nothing) && self.once_in(3) => return self.deaf(before, after, handed),
            Fault::FoundBefore if asked == Some(0x0e) => {
                if let Handed::Answer(message) = handed {
                    let data = message.data.clone();
                    if let Some(found) = self.found.replace(data) {
                        message.data = found;
                    }
                }
            }
            _ => (),
        }
        false
    }

    /// Hands the last alert out once more in the place of a status, at times.
    fn repeat_alert(&mut self, before: &Requester, handed: &mut Handed) {
        if let Handed::Alert(message) = handed {
            self.alert = Some(message.clone());
        } else if matches!(handed, Handed::Status(..)) && self.once_in(3) {
            if let Some(message) = self.alert.take() {
                *handed = Handed::Alert(Message { sequence: before.newest | TOP_BIT, ..message });
            }
        }
    }

    /// Nothing was heard.
    fn deaf(&self, before: &Requester, after: &mut Requester, handed: &mut Handed) -> bool {
        after.clone_from(before);
        *handed = Handed::Nothing;
        true
    }
}
