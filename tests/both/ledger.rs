// Defines what each end put out, read and carried out, kept beside the library, and what each thing handed out must come from.
// Assumes documents 01 and 02 and the model's line layer. A planted fault falsifies the evidence of one answer, so that the comparison itself can be tested.

use crate::alerts::Alerts;
use crate::claims::{Claim, Claims};
use crate::editions::Editions;
use crate::faults::Fault;
use crate::heard::Heard;
use crate::lists::{fitted, Answer, By, Lists, Value};
use crate::model::{Message, Settings, TOP_BIT};
use crate::tally::tally;
use crate::trips::Trips;
use crate::values::Values;
use crate::wire::judged;
use std::collections::{HashMap, VecDeque};

const ALERT: u8 = 0x0a;
const LOOKUP: u8 = 0x0e;
const SET: u8 = 0x10;
const LIST_KEY: u8 = 5;

/// A frame that the main processor's end put out.
#[derive(Clone)]
struct Asked {
    frame: Vec<u8>,
    message: Message,
    first: u64,
}

/// A request that passed the whole table, as the supervisor carried it out.
#[derive(Clone)]
struct Carried {
    moment: u64,
    request: Message,
    reply: Option<Message>,
    /// Since the main processor's end was started, the supervisor had been started or had carried out a reboot or power-off.
    cleared: bool,
    /// The alert that was taken from those that waited.
    taken: Option<Vec<u8>>,
}

/// A reply's frame without its 00, whether these bytes were all taken, which puts it out, and whether its 00 was too.
struct Made {
    form: Vec<u8>,
    put_out: bool,
    whole: bool,
}

/// What an answer is compared by.
struct Evidence {
    reply: Message,
    asked: Asked,
    carried: Vec<Carried>,
}

/// A reply that was taken as the answer: the number that was outstanding, and whether the supervisor had put the reply out.
#[derive(Clone, Copy)]
pub struct Taken {
    pub number: u64,
    pub put_out: bool,
}

tally! {
    others_requests: "good requests that the main processor's end had not put out since its start",
    others_replies: "good replies that the supervisor had not put out since then",
    others_taken: "of these, taken as an answer",
    weaker: "answers with the hypotheses of fresh-answer behind such a request or reply under another number",
    second_version: "replies of version 2 that the main processor's end read",
    carried_again: "requests carried out again",
    last_edition: "sets of the list refused at its last edition",
    replies_closed: "replies taken whole but for the 00, which the next one's 00 closed",
    alerts_taken: "alerts taken for the request that they answer",
    alerts_cleared: "alerts after a reboot, power-off or start",
    alerts_from_before: "alerts retained from before a start of the main processor's end",
}

#[derive(Default)]
pub struct Ledger {
    /// Counts what the ends do, so that of two things one is the earlier.
    moment: u64,
    pub fault: Option<Fault>,
    pub tally: Tally,
    /// What the main processor's end put out since its start, by number, and the last of these numbers.
    asked: HashMap<u64, Asked>,
    newest: u64,
    /// The number of the last thing handed out.
    settled: u64,
    /// What was carried out under the newest number.
    carried: Vec<Carried>,
    /// The replies that the supervisor made since that start, by sequence, and the sequence of the newest until its last byte is taken.
    made: HashMap<u64, Vec<Made>>,
    /// An end has read a good message since that start that the other had not put out.
    others: bool,
    pending: Option<u64>,
    cleared: bool,
    /// By document 01's and 02's alert rules: the retained reply's number and version, and the alerts that wait.
    retained: Option<(u64, u32)>,
    waiting: VecDeque<Vec<u8>>,
    pub lists: Lists,
    pub claims: Claims,
    pub heard: Heard,
    pub values: Values,
    pub alerts: Alerts,
    pub editions: Editions,
    pub trips: Trips,
}

fn looks_up_list(request: &Message) -> bool {
    request.command == LOOKUP && request.data.first() == Some(&LIST_KEY)
}

/// A lookup's maxresponse.
fn most(lookup: &Message) -> usize {
    usize::from(u16::from_le_bytes([lookup.data[1], lookup.data[2]]))
}

fn short(message: &Message) -> String {
    let kept = &message.data[..message.data.len().min(40)];
    format!("sequence {:x}, command {:02x}, {} bytes of data {kept:02x?}", message.sequence, message.command, message.data.len())
}

impl Ledger {
    // ---- What the ends do

    /// Makes one thing wrong; where a claim is given, it alone is compared.
    pub fn plant_fault(&mut self, fault: Fault, only: Option<Claim>) {
        self.fault = Some(fault);
        self.claims.only = only;
        self.heard.requests_untested = fault == Fault::RequestsUntested;
        self.heard.replies_untested = fault == Fault::RepliesUntested;
        self.values.fault = Some(fault);
        self.alerts.fault = Some(fault);
    }

    pub fn main_started(&mut self) {
        self.heard.main_started();
        self.values.main_started();
        self.alerts.one_started();
        self.trips.ended();
        self.asked.clear();
        self.made.clear();
        self.carried.clear();
        self.pending = None;
        (self.newest, self.settled, self.cleared, self.others) = (0, 0, false, false);
    }

    /// Both ends were started together.
    pub fn both_started(&mut self) {
        self.cleared = true;
        self.alerts.both_started();
    }

    pub fn supervisor_started(&mut self) {
        self.values.settings_changed();
        self.alerts.one_started();
        self.editions.begun_anew();
        self.trips.ended();
        self.moment += 1;
        self.waiting.clear();
        self.retained = None;
        self.pending = None;
        self.cleared = true;
        self.lists.brought(self.moment, By::Start, None);
    }

    /// A restore that was accepted, and the list that it left.
    pub fn restored(&mut self, list: &Value) {
        self.values.settings_changed();
        if self.fault != Some(Fault::EditionRestored) {
            self.editions.begun_anew();
        }
        self.moment += 1;
        if self.fault != Some(Fault::RestoreUntold) {
            self.lists.brought(self.moment, By::Restore, list.clone());
        }
    }

    /// The model's list, behind anything that can change it and where a frame goes out.
    pub fn holds(&mut self, list: &Value) {
        let other = list.as_ref().filter(|_| self.fault == Some(Fault::NotBrought)).map(|list| [list, &b"?"[..]].concat());
        self.lists.holds(self.moment, if other.is_some() { &other } else { list });
    }

    /// The main processor's end counts on from this number, as if all up to it had been answered.
    pub fn counted_on(&mut self, number: u64) {
        self.heard.counted_on(number);
        (self.newest, self.settled) = (number, number);
    }

    pub fn posted(&mut self, action: u8, text: &[u8]) {
        let data = [&[action], text].concat();
        self.alerts.posted(data.clone());
        self.waiting.push_back(data);
    }

    /// The caller's request goes out; the supervisor's settings then.
    pub fn asks(&mut self, command: u8, data: &[u8], settings: &Settings) {
        self.values.asked(self.newest, command, data, settings, &self.heard);
        self.alerts.asked(command);
    }

    /// A frame that the main processor's end puts out; whether it is the newest one again.
    pub fn put_out(&mut self, frame: &[u8]) -> Result<bool, String> {
        self.moment += 1;
        let message = judged(&frame[..frame.len() - 1]).map_err(|failure| format!("the main processor's end puts out a frame that fails with reason {}", failure.reason))?;
        let number = if self.fault == Some(Fault::OldNumber) { message.sequence.min(5) } else { message.sequence };
        if number == self.newest {
            let same = self.asked.get(&number).is_some_and(|asked| asked.frame == frame && self.fault != Some(Fault::OtherBytes));
            return if same { Ok(true) } else { Err(format!("other bytes go out under number {number}")) };
        }
        if number < self.newest || message.version != 1 {
            return Err(format!("number {number}, version {} goes out after number {}", message.version, self.newest));
        }
        self.newest = number;
        self.carried.clear();
        self.lists.asked();
        self.asked.insert(number, Asked { frame: frame.to_vec(), message, first: self.moment });
        Ok(false)
    }

    /// A frame that the supervisor has read to its 00: whether it was a request that it carried out, and the frame of its reply, if any.
    pub fn handled(&mut self, form: &[u8], valid: bool, reply: Option<&[u8]>) -> Result<(), String> {
        self.moment += 1;
        let reply = reply.and_then(|frame| self.reply_made(&frame[..frame.len() - 1]));
        self.pending = reply.as_ref().map(|reply| reply.sequence);
        let Ok(request) = judged(form) else { return Ok(()) };
        self.heard(&request, form);
        if !valid {
            return Ok(());
        }
        let cleared = self.cleared;
        let taken = self.effects(&request, reply.as_ref());
        self.edition_found(&request, reply.as_ref())?;
        if request.sequence == self.newest {
            self.tally.carried_again += u64::from(!self.carried.is_empty());
            self.carried.push(Carried { moment: self.moment, request, reply, cleared, taken });
        }
        Ok(())
    }

    /// The supervisor has read a good message: whether it had been put out, which the hypotheses go by.
    fn heard(&mut self, message: &Message, form: &[u8]) {
        let put_out = self.asked.get(&message.sequence).is_some_and(|asked| asked.frame[..asked.frame.len() - 1] == *form);
        if !put_out {
            self.tally.others_requests += 1;
            self.others = true;
            self.heard.other_read(message);
        }
        self.values.read(message, put_out);
        self.alerts.read(message, put_out);
    }

    /// A lookup in version 2 with result 0 tells the edition ahead of the value.
    fn edition_found(&mut self, request: &Message, reply: Option<&Message>) -> Result<(), String> {
        let Some([0, edition @ ..]) = reply.filter(|reply| request.command == LOOKUP && reply.version == 2).map(|reply| &reply.data[..]) else { return Ok(()) };
        let Some((edition, value)) = edition.split_first_chunk() else { return Err("a lookup in version 2 without an edition".to_string()) };
        self.editions.tally.on_wire += 1;
        self.editions.found(request.data[0], u32::from_le_bytes(*edition), value, &mut self.claims)
    }

    /// The supervisor has read a piece that ends with a 00 or has none; whether it ended a request that is carried out.
    pub fn piece_read(&mut self, piece: &[u8], valid: bool) {
        let retained = self.retained;
        let silent = |request: &Message| matches!(request.command, 0x01 | 0x02 | 0x06);
        self.trips.read(piece, |request| valid && !silent(request) && (request.command != ALERT || retained != Some((request.sequence, 2))));
    }

    fn reply_made(&mut self, form: &[u8]) -> Option<Message> {
        let message = judged(form).ok()?;
        let made = self.made.entry(message.sequence).or_default();
        match made.iter().position(|made| made.form == form) {
            Some(place) => made[place..].rotate_left(1),
            None => made.push(Made { form: form.to_vec(), put_out: false, whole: false }),
        }
        Some(message)
    }

    /// What a request does to the list, the retained reply and the alerts; the alert taken.
    fn effects(&mut self, request: &Message, reply: Option<&Message>) -> Option<Vec<u8>> {
        match request.command {
            0x01 | 0x02 => {
                self.retained = None;
                self.cleared = true;
            }
            SET if request.data[0] == LIST_KEY => match reply.map(|reply| &reply.data[..]) {
                Some([0]) => self.lists.brought(self.moment, By::Set, Some(request.data[1..].to_vec())),
                other => self.tally.last_edition += u64::from(other == Some(&[4])),
            },
            ALERT if self.retained.map(|retained| retained.0) != Some(request.sequence) => {
                self.retained = Some((request.sequence, request.version));
                return Some(self.waiting.pop_front().unwrap_or(vec![0]));
            }
            _ => (),
        }
        None
    }

    /// Bytes were taken, and so many are still pending: none but its 00, and the newest reply is put out; none, and it is out whole. Gives the bytes before its 00 then.
    pub fn taken(&mut self, pending: usize) -> Option<&[u8]> {
        let made = self.made.get_mut(&self.pending?)?.last_mut()?;
        made.put_out |= pending <= 1;
        made.whole |= pending == 0;
        self.pending = self.pending.filter(|_| pending > 0);
        Some(&made.form[..]).filter(|_| pending == 0)
    }

    // ---- What the main processor's end reads

    fn reply(&self, message: &Message, form: &[u8]) -> Option<&Made> {
        self.made.get(&message.sequence)?.iter().find(|made| made.form == form)
    }

    /// The main processor's end has read a frame; whether the supervisor has put it out since that end was started.
    pub fn read(&mut self, form: &[u8]) -> bool {
        let Ok(message) = judged(form) else { return false };
        let (put_out, whole) = self.reply(&message, form).map_or((false, true), |made| (made.put_out, made.whole));
        self.tally.replies_closed += u64::from(!whole);
        self.tally.others_replies += u64::from(!put_out);
        self.others |= !put_out;
        self.tally.second_version += u64::from(message.version == 2);
        put_out
    }

    /// A reply is taken as an answer and handed out.
    pub fn takes(&mut self, taken: Taken) {
        if !taken.put_out {
            self.tally.others_taken += 1;
            self.heard.other_taken(taken.number);
        }
    }

    // ---- What is handed out

    /// The message under the newest number that was put out.
    pub fn outstanding(&self) -> Option<&Message> {
        self.asked.get(&self.newest).map(|asked| &asked.message)
    }

    pub fn answered(&mut self, taken: Taken, reply: Message, asked_for: Option<(u8, Vec<u8>)>) -> Result<(), String> {
        if self.fault == Some(Fault::Twice) {
            self.compared(taken, reply.clone())?;
        }
        let (alert, data) = (reply.command == 0x07, reply.data.clone());
        let request = self.compared(taken, reply)?;
        let asked = asked_for.as_ref().filter(|_| self.fault != Some(Fault::OtherRequest));
        let same = asked.is_some_and(|(command, data)| request.as_ref().is_some_and(|request| (request.command, &request.data) == (*command, data)));
        let said = if same { Ok(()) } else { Err(format!("an answer to {request:02x?}, and the caller had asked for {asked:02x?}")) };
        // a number that was not put out has no request of its own
        self.claims.settle(Claim::OneAnswer, request.is_some(), said)?;
        if let Some((command, asked)) = &asked_for {
            self.values.answered(taken.number, (*command, asked), &data, &self.heard, &mut self.claims)?;
        }
        if alert { self.alerts.handed(&data, true, &self.heard, &mut self.claims) } else { Ok(()) }
    }

    pub fn alerted(&mut self, taken: Taken, reply: Message) -> Result<(), String> {
        let data = reply.data.clone();
        let request = self.compared(taken, reply)?;
        self.step(taken, "an alert", ALERT, request)?;
        self.alerts.handed(&data, false, &self.heard, &mut self.claims)
    }

    pub fn status_read(&mut self, taken: Taken, status: u64, options: u64, set_bits: u64) -> Result<(), String> {
        let status = status ^ if self.fault == Some(Fault::OtherStatus) { 2 } else { 0 };
        let set_bits = set_bits + u64::from(self.fault == Some(Fault::OtherBits));
        let data = [status.to_le_bytes(), options.to_le_bytes()].concat();
        let request = self.compared(taken, Message { version: 1, sequence: taken.number | TOP_BIT, command: 0x06, data })?;
        if set_bits != u64::from(status.count_ones()) {
            return Err(format!("status {status:x} has {set_bits} set bits"));
        }
        self.step(taken, "a status", 0x08, request)
    }

    /// A recovery's step has this command and no data.
    fn step(&mut self, taken: Taken, what: &str, command: u8, request: Option<Message>) -> Result<(), String> {
        let command = command + u8::from(self.fault == Some(Fault::OtherStep));
        let same = request.as_ref().is_some_and(|request| (request.command, request.data.len()) == (command, 0));
        let said = if same { Ok(()) } else { Err(format!("{what} under number {} in answer to {request:02x?}", taken.number)) };
        self.claims.settle(Claim::OneAnswer, request.is_some(), said)
    }

    /// Compares a reply that is handed out with what the supervisor carried out; gives the request that it answers, if one was put out under that number.
    fn compared(&mut self, taken: Taken, reply: Message) -> Result<Option<Message>, String> {
        let held = self.heard.wire_under(taken.number);
        self.tally.weaker += u64::from(held && self.others);
        let second = if self.settled >= taken.number { Err(format!("a second answer under one number: {}", short(&reply))) } else { Ok(()) };
        self.claims.settle(Claim::OneAnswer, true, second)?;
        self.settled = taken.number;
        let Some(asked) = self.asked.get(&taken.number) else {
            let said = Err(format!("nothing was put out under that number: {}", short(&reply)));
            return self.claims.settle(Claim::FreshAnswer, held, said).map(|()| None);
        };
        let mut evidence = Evidence { reply, asked: asked.clone(), carried: self.carried.clone() };
        if let Some(fault) = self.fault {
            self.plant(fault, &mut evidence);
        }
        let said = |difference: &str| format!("{difference}\n  handed out: {}\n  put out:    {}", short(&evidence.reply), short(&evidence.asked.message));
        self.claims.settle(Claim::FreshAnswer, held, evidence.carried_out().map_err(said))?;
        if looks_up_list(&evidence.asked.message) {
            let current = self.current_list(&evidence).map_err(said);
            self.claims.settle(Claim::ListAge, held, current)?;
        }
        if evidence.asked.message.command == ALERT {
            let fresh = self.fresh_alert(&evidence, held).map_err(said);
            self.claims.settle(Claim::AlertAnswer, held, fresh)?;
        }
        Ok(Some(evidence.asked.message))
    }

    fn current_list(&mut self, evidence: &Evidence) -> Result<(), &'static str> {
        let Evidence { reply, asked, .. } = evidence;
        let made = evidence.made_by().map(|carried| carried.moment).collect();
        self.lists.compare(&Answer { first: asked.first, made, most: most(&asked.message), data: &reply.data })
    }

    /// An alert was taken in carrying out that request, unless one can be retained from before the main processor's end was started.
    fn fresh_alert(&mut self, evidence: &Evidence, held: bool) -> Result<(), &'static str> {
        let taken = evidence.made_by().any(|carried| carried.taken.as_ref() == Some(&evidence.reply.data));
        let cleared = evidence.made_by().any(|carried| carried.cleared);
        self.tally.alerts_taken += u64::from(held && taken);
        self.tally.alerts_cleared += u64::from(held && cleared);
        self.tally.alerts_from_before += u64::from(held && !taken && !cleared);
        if taken || !cleared { Ok(()) } else { Err("an alert reply from before a reboot") }
    }

    fn plant(&self, fault: Fault, evidence: &mut Evidence) {
        let Evidence { reply, asked, carried } = evidence;
        match fault {
            Fault::OtherNumber => reply.sequence -= 1,
            Fault::OtherData => match reply.data.last_mut() {
                Some(byte) => *byte ^= 1,
                None => reply.data.push(0),
            },
            Fault::OtherCommand => reply.command += 1,
            Fault::OtherMessage => carried.iter_mut().for_each(|carried| carried.request.data.push(0)),
            Fault::NotCarriedOut => carried.clear(),
            Fault::CarriedOutBefore => carried.iter_mut().for_each(|carried| carried.moment = asked.first - 1),
            Fault::OldAlert => carried.iter_mut().for_each(|carried| carried.taken = None),
            Fault::OldList | Fault::EarlierList if looks_up_list(&asked.message) => {
                let other = if fault == Fault::OldList { self.lists.replaced_before(asked.first) } else { Some(self.lists.at(asked.first)) };
                if let Some(list) = other {
                    reply.data = fitted(most(&asked.message), list);
                    carried.iter_mut().for_each(|carried| carried.reply = Some(reply.clone()));
                }
            }
            _ => (),
        }
    }
}

impl Evidence {
    /// Where the supervisor made the reply in carrying out exactly the message that was put out under this number, after it was put out.
    fn made_by(&self) -> impl Iterator<Item = &Carried> {
        let Evidence { reply, asked, carried } = self;
        carried.iter().filter(|carried| carried.moment > asked.first && carried.request == asked.message && carried.reply.as_ref() == Some(reply))
    }

    fn carried_out(&self) -> Result<(), &'static str> {
        if self.reply.sequence != self.asked.message.sequence | TOP_BIT {
            return Err("an answer under a number that is not outstanding");
        }
        let made = self.made_by().next().is_some();
        if made { Ok(()) } else { Err("an answer that the supervisor did not make in carrying out that message after it was put out") }
    }
}
