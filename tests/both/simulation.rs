// Defines the turns of a run: both ends, the wire between them, a caller at each end, and the ledger that compares what is handed out.
// Assumes the model of document 01 for what the supervisor puts out; each byte that it puts out is compared with the model's.

use crate::calls::step_answer;
use crate::ends::{Main, Supervisor};
use crate::faults::{Fault, Side};
use crate::ledger::{Ledger, Taken};
use crate::library::{RequesterReceiveAnswer, RequesterStateAnswer, StepAnswer};
use crate::limits::{self, ALERT, ANSWER, IDLE, RECOVERY_ACKNOWLEDGE, RECOVERY_ALERT, RECOVERY_STATUS, STATUS, WAITING};
use crate::missed::{forged, Missed};
use crate::model::{self, Message};
use crate::random::Random;
use crate::standing::Known;
use crate::starts::Mood;
use crate::state;
use crate::tally::tally;
use crate::trips::Departure;
use crate::wire::{cut, judged, Frames, Kind, Wire};
use crate::wrong::Memory;
use std::collections::VecDeque;

/// Turns without a sign of the supervisor until the main processor's caller does something about it, and turns until it gives a request up.
const PATIENCE: u64 = 80;
const GIVES_UP: u64 = 3_000;
pub const IMAGE_LENGTH: usize = 9_000;

tally! {
    requests: "requests",
    answers: "answers",
    statuses: "statuses of recoveries",
    alerts: "alerts of recoveries",
    resends: "frames sent again",
    recoveries: "recoveries",
    main_starts: "starts of the main processor's end",
    near_starts: "of these, close to the last number",
    kept_starts: "of these, bytes from before are still on their way",
    both_starts: "of these, together with the supervisor",
    second: "requests of the second program",
    outstanding: "requests refused as 17",
    requests_refused: "requests refused as 14",
    interrupts_refused: "interrupts refused as 14",
    answered_anyway: "answers to a request behind an interrupt refused as 14",
    recoveries_ended: "recoveries that ended with 14",
    originals_forgotten: "of these, a request was forgotten",
    supervisor_starts: "starts of the supervisor",
    saves: "images saved",
    restores: "images restored",
    restored_behind_start: "of these, right behind a start of the supervisor",
    bad_mark: "images refused as 30",
    bad_key: "images refused as 31",
    too_long: "images refused as 32",
    bad_checksum: "images refused as 33",
    cut_short: "images refused as 34",
    bytes_after: "images refused as 35",
    half_replies: "replies cut off by the next frame",
    half_requests: "requests cut off by a start of the main processor's end",
    failed_requests: "frames that failed at the supervisor",
    failed_replies: "frames that failed at the main processor's end",
    idle: "states told: idle",
    waiting: "states told: waiting",
    recovery_status: "states told: a recovery's status",
    recovery_acknowledge: "states told: a recovery's acknowledgement",
    recovery_alert: "states told: a recovery's alert",
    to_go_out: "of these, a frame is to go out",
    cut_off: "of these, a request goes out anew behind the recovery",
}

impl Tally {
    pub fn stood(&mut self, told: &RequesterStateAnswer) {
        self.to_go_out += told.unsent;
        self.cut_off += told.original;
        *match told.state {
            IDLE => &mut self.idle,
            WAITING => &mut self.waiting,
            RECOVERY_STATUS => &mut self.recovery_status,
            RECOVERY_ACKNOWLEDGE => &mut self.recovery_acknowledge,
            RECOVERY_ALERT => &mut self.recovery_alert,
            other => panic!("requester_state tells {other}"),
        } += 1;
    }
}

/// The caller of the main processor's end: what it keeps beside the state that its end tells.
#[derive(Default)]
pub struct Caller {
    /// Bytes on their way to the wire, and the turn from which they can go on it.
    pub out: VecDeque<u8>,
    pub line_free: u64,
    pub asked_for: Option<(u8, Vec<u8>)>,
    pub asked_at: u64,
    /// A request or an interrupt was refused as 14, and an interrupt with a request outstanding.
    pub refused: bool,
    pub refused_waiting: bool,
    pub heard_at: u64,
    /// The turn in which it is started once more, where it is soon.
    pub starts_again: Option<u64>,
}

pub struct Simulation {
    kind: Kind,
    pub mood: Mood,
    pub memory: Memory,
    pub random: Random,
    pub ledger: Ledger,
    pub tally: Tally,
    pub turns: u64,
    /// Damage that no test notices, made on purpose.
    pub missed: Option<Missed>,
    /// What happened, in words, with its turn; kept where it is there.
    pub journal: Option<Vec<(u64, String)>>,
    pub there: Wire,
    pub back: Wire,
    pub main: Box<Main>,
    /// What the simulation knows of the main processor's end.
    pub known: Known,
    pub caller: Caller,
    pub supervisor: Box<Supervisor>,
    pub model: model::Supervisor,
    pub start_data: Box<[u8; limits::START_LENGTH]>,
    pub image: Vec<u8>,
    /// Saved images of the settings, the newest last.
    pub saved: Vec<Vec<u8>>,
    /// What each end has read since the last 00, and the last byte that the supervisor put out.
    pub main_read: Frames,
    pub supervisor_read: Frames,
    pub last_put: u8,
    /// What the last lookup found.
    last_found: Vec<u8>,
    /// The line signal as the journal has it.
    signal: bool,
    pub serial: u64,
}

fn start_data(random: &mut Random) -> Box<[u8; limits::START_LENGTH]> {
    let mut data = Box::new([0; limits::START_LENGTH]);
    random.fill(&mut data[..limits::START_ITEMS]);
    data[limits::START_BSU] = 0x41;
    data[limits::START_IMAGE_ID_LENGTH] = 20;
    data[limits::START_ITEM_COUNT] = 2;
    for item in 0..2 {
        let place = limits::START_ITEMS + item * limits::ITEM_LENGTH;
        random.fill(&mut data[place..place + limits::ITEM_LENGTH]);
        data[place + limits::ITEM_RESULT] = 2 * item as u8;
        data[place + limits::ITEM_DATA_LENGTH] = 30;
    }
    data
}

impl Simulation {
    pub fn new(kind: Kind, seed: u64) -> Simulation {
        let mut random = Random(seed);
        let start_data = start_data(&mut random);
        let (mut main, mut supervisor) = (Main::new(random.byte()), Supervisor::new(random.byte()));
        main.start();
        supervisor.start(&start_data);
        let model = model::Supervisor::start(state::factory(&start_data[..]), &model::Outbox::default());
        let image = random.bytes_of(0, IMAGE_LENGTH);
        let mut ledger = Ledger::default();
        ledger.supervisor_started();
        ledger.main_started();
        ledger.both_started();
        Simulation {
            kind, mood: Mood::default(), memory: Memory::default(), random, ledger, tally: Tally::default(), turns: 0, missed: None, journal: None,
            there: Wire::new(kind), back: Wire::new(kind), main, known: Known::default(), caller: Caller::default(), supervisor, model, start_data, image,
            saved: Vec::new(), main_read: Frames::default(), supervisor_read: Frames::default(), last_put: 0, last_found: Vec::new(), signal: false, serial: 0,
        }
    }

    pub fn note(&mut self, words: impl FnOnce() -> String) {
        if let Some(journal) = &mut self.journal {
            journal.push((self.turns, words()));
        }
    }

    /// One turn: some of what either end can do.
    pub fn turn(&mut self) -> Result<(), String> {
        self.turns += 1;
        let dice = self.random.next();
        if dice & 3 != 0 {
            self.decide()?;
        }
        if dice >> 2 & 1 == 0 {
            self.main_puts();
        }
        if dice >> 3 & 1 == 0 {
            self.supervisor_reads()?;
        }
        if dice >> 4 & 1 == 0 {
            self.supervisor_puts()?;
        }
        if dice >> 5 & 1 == 0 {
            self.main_reads()?;
        }
        if self.kind == Kind::Second {
            self.second_program();
        }
        match dice >> 6 & 0x3fff {
            0 | 1 => self.start_again()?,
            2..=7 if !self.mood.calm => self.start_supervisor()?,
            8..=104 => self.post()?,
            105..=124 => self.set_options(),
            125..=144 => self.save()?,
            145..=164 if !self.mood.calm => self.restore()?,
            165..=264 => self.look_up()?,
            _ => (),
        }
        if self.journal.is_some() && self.signal != self.supervisor.signal() {
            self.signal = !self.signal;
            let on = if self.signal { "on" } else { "off" };
            self.note(|| format!("signal {on}"));
        }
        Ok(())
    }

    // ---- The supervisor and its caller

    fn post(&mut self) -> Result<(), String> {
        self.serial += 1;
        let text = format!("alert {}", self.serial);
        let action = 1 + (self.serial % 255) as u8;
        let known = self.model.registers.post(action, text.as_bytes()).err().unwrap_or(0);
        let number = self.supervisor_says("a post", |supervisor| supervisor.post(action, text.as_bytes()), known)?;
        self.ledger.trips.ended();
        if number == 0 {
            self.ledger.posted(action, text.as_bytes());
            self.note(|| format!("post {text}"));
        }
        Ok(())
    }

    fn set_options(&mut self) {
        let options = self.random.next() & 0x1ff;
        assert_eq!(self.supervisor.set_options(options), 0);
        assert_eq!(self.model.registers.set_options(options), Ok(()));
        self.ledger.trips.ended();
    }

    /// The supervisor's caller looks a setting up, with its edition.
    fn look_up(&mut self) -> Result<(), String> {
        let key = self.random.pick(&[5, 5, 4, 3]);
        let known = (model::lookup(&self.model.factory, &self.model.settings, key, u16::MAX), model::edition(&self.model.settings, key));
        let ((result, value), (_, edition)) = self.supervisor_says("a lookup", |supervisor| supervisor.lookup(key), known)?;
        if result != 0 {
            return Ok(());
        }
        let Ledger { editions, claims, .. } = &mut self.ledger;
        editions.tally.local += 1;
        editions.found(key, edition, &value, claims)
    }

    fn supervisor_reads(&mut self) -> Result<(), String> {
        if let Some(kind) = self.missed.filter(|kind| kind.hits_requests() && self.supervisor_read.between()) {
            kind.hit(&mut self.there, &mut self.random);
        }
        let piece = self.there.get(self.turns, &mut self.random);
        self.supervise(piece)
    }

    /// The supervisor of the library reads a piece, by steps at times; what these tell.
    fn library_reads(&mut self, piece: &[u8]) -> Vec<StepAnswer> {
        let mut steps = Vec::new();
        if self.replaced(Side::Supervisor) {
            return steps;
        }
        if self.random.percent(50) {
            self.supervisor.receive(&self.image, piece);
            return steps;
        }
        let mut read = 0;
        while read < piece.len() {
            let step = self.supervisor.step(&self.image, &piece[read..]);
            read += step.used as usize;
            steps.push(step);
        }
        steps
    }

    pub fn supervise(&mut self, piece: Vec<u8>) -> Result<(), String> {
        let steps = self.library_reads(&piece);
        for (place, part) in cut(&piece).enumerate() {
            let told = self.model_step(part);
            if let Some(step) = steps.get(place).filter(|&&step| step != step_answer(told)) {
                return Err(format!("the supervisor's step tells {step:x?}, and not {told:x?}"));
            }
            let (kind, reason) = (told.kind, told.reason);
            self.ledger.piece_read(part, kind == 2);
            let Some(form) = self.supervisor_read.feed(part) else { continue };
            self.tally.failed_requests += u64::from(kind == 3);
            let pending = &self.model.outbox.pending;
            let reply = &pending[usize::from(pending.first() == Some(&0))..];
            self.tally.half_replies += u64::from(reply.len() < pending.len());
            self.ledger.handled(&form, kind == 2, Some(reply).filter(|reply| !reply.is_empty()))?;
            self.list_held();
            self.note(|| if kind == 2 { format!("supervisor reads {}", words(&form)) } else { format!("supervisor reads failed {reason}") });
        }
        Ok(())
    }

    pub fn supervisor_puts(&mut self) -> Result<(), String> {
        let few = self.random.below(30);
        let all_but_one = self.model.outbox.pending.len().saturating_sub(1);
        let room = self.random.pick(&[limits::MOST_PENDING, limits::MOST_PENDING, few, all_but_one]);
        let known = self.model.outbox.take(room);
        let bytes = self.supervisor_says("a take", |supervisor| supervisor.take(room), known)?;
        self.last_put = bytes.last().copied().unwrap_or(self.last_put);
        self.back.put(&bytes, self.turns, &mut self.random);
        let pending = self.model.outbox.pending.len();
        if let Some(put) = self.ledger.taken(pending).map(words) {
            self.note(|| format!("supervisor puts {put}"));
        }
        self.ledger.trips.taken(&bytes, pending);
        self.trip_compared()
    }

    fn trip_compared(&mut self) -> Result<(), String> {
        let Ledger { trips, claims, .. } = &mut self.ledger;
        trips.compare(&self.known.requester.standing(), claims)
    }

    // ---- The main processor's end and its caller

    fn main_puts(&mut self) {
        if self.turns < self.caller.line_free {
            return;
        }
        let most = self.caller.out.len();
        let few = self.random.below(20);
        let count = self.random.pick(&[most, most, few]).min(most);
        let bytes: Vec<u8> = self.caller.out.drain(..count).collect();
        self.there.put(&bytes, self.turns, &mut self.random);
    }

    /// Both readers are between frames, and nothing is on its way.
    fn quiet(&self) -> bool {
        let between = self.supervisor_read.between() && (self.main_read.between() || self.ledger.fault == Some(Fault::TripInside));
        between && self.there.clear_of_bytes() && self.back.clear_of_bytes() && self.caller.out.is_empty()
    }

    /// Puts a frame behind those that are on their way.
    pub fn send_behind(&mut self, frame: &[u8]) {
        self.caller.out.extend(frame);
    }

    /// A frame of the second program, behind those that are on their way; where there are none, it keeps the line for some turns.
    pub fn second_sends(&mut self, frame: &[u8]) {
        if self.caller.out.is_empty() {
            self.there.put(frame, self.turns, &mut self.random);
            self.caller.line_free = self.turns + self.random.below(60) as u64;
        } else {
            self.send_behind(frame);
        }
    }

    /// A frame that goes out, by a request of the caller's or by a send.
    fn put_out(&mut self, frame: &[u8], by_send: bool) -> Result<(), String> {
        let quiet = self.quiet();
        let again = self.ledger.put_out(frame)?;
        self.list_held();
        self.tally.resends += u64::from(again);
        self.send_behind(frame);
        self.caller.heard_at = self.turns;
        self.note(|| format!("main puts {}", words(&frame[..frame.len() - 1])));
        let told = self.stands()?;
        self.ledger.trips.ended();
        if quiet && told.state != IDLE {
            self.ledger.trips.begun(Departure { frame, told, again, anew: by_send && !again && told.state == WAITING });
        }
        Ok(())
    }

    fn main_reads(&mut self) -> Result<(), String> {
        self.meddle()?;
        let piece = self.back.get(self.turns, &mut self.random);
        let mut read = 0;
        while read < piece.len() {
            let number = self.known.requester.newest;
            let (answer, data) = self.receives(&piece[read..])?;
            let part = &piece[read..read + answer.used as usize];
            read += part.len();
            let put_out = self.main_read.feed(part).is_some_and(|form| self.frame_read(&form));
            self.ledger.trips.came(part, &answer, &data);
            self.handed(Taken { number, put_out }, &answer, data)?;
            if answer.ended == 1 {
                self.recovery_ended()?;
            }
            self.stands()?;
            self.trip_compared()?;
        }
        Ok(())
    }

    /// The main processor's end has read a frame that is not empty; whether the supervisor has put it out.
    fn frame_read(&mut self, form: &[u8]) -> bool {
        self.caller.heard_at = self.turns;
        self.tally.failed_replies += u64::from(judged(form).is_err());
        self.note(|| format!("main reads {}", words(form)));
        self.ledger.read(form)
    }

    /// Damage on purpose to what comes back.
    fn meddle(&mut self) -> Result<(), String> {
        let Some(kind) = self.missed.filter(|_| self.main_read.between()) else { return Ok(()) };
        if kind.hits_replies() {
            kind.hit(&mut self.back, &mut self.random);
        } else if matches!(kind, Missed::Forged | Missed::OldReply) && self.random.percent(5) {
            let data = if kind == Missed::Forged { b"\0a list that nobody set" } else { &self.last_found[..] };
            if let Some(request) = self.ledger.outstanding().filter(|request| request.command == 0x0e) {
                self.back.replace(0, &forged(request.sequence, data));
            }
        } else if kind == Missed::Late && self.back.next_frame().is_some() && self.random.percent(10) {
            self.start_main()?;
            let turns = self.random.below(60) as u64;
            self.back.hold(self.turns + turns);
        }
        Ok(())
    }

    /// What the main processor's end hands out, with the data of a reply.
    fn handed(&mut self, taken: Taken, answer: &RequesterReceiveAnswer, data: Vec<u8>) -> Result<(), String> {
        let message = Message { version: 1, sequence: answer.sequence, command: answer.command as u8, data };
        if answer.kind != 0 {
            self.ledger.takes(taken);
        }
        match answer.kind {
            STATUS => {
                self.tally.statuses += 1;
                self.note(|| format!("status {:x}", answer.status));
                self.ledger.status_read(taken, answer.status, answer.options, answer.set_bits)
            }
            ALERT => {
                self.tally.alerts += 1;
                self.note(|| format!("alert {}", String::from_utf8_lossy(&message.data[1..])));
                self.ledger.alerted(taken, message)
            }
            ANSWER => {
                self.tally.answers += 1;
                self.note(|| format!("answer {}", String::from_utf8_lossy(message.data.get(1..).unwrap_or(&[])).escape_debug()));
                let asked_for = self.caller.asked_for.take();
                self.tally.answered_anyway += u64::from(std::mem::take(&mut self.caller.refused_waiting));
                if message.command == 0x0a {
                    self.last_found.clone_from(&message.data);
                }
                self.ledger.answered(taken, message, asked_for)
            }
            _ => Ok(()),
        }
    }

    fn interrupt(&mut self) -> Result<(), String> {
        let begins = self.known.requester.step.is_none();
        self.ledger.trips.ended();
        if self.interrupts()? == 14 {
            self.interrupt_refused();
        } else {
            self.tally.recoveries += u64::from(begins);
            self.caller.heard_at = self.turns;
            self.note(|| "interrupt".to_string());
        }
        self.stands().map(|_| ())
    }

    /// What the main processor's caller does of its own, by the state that its end tells.
    fn decide(&mut self) -> Result<(), String> {
        let turns = self.turns;
        let told = self.stands()?;
        let caller = &self.caller;
        let (waiting, recovering, late) = (told.state == WAITING || told.original == 1, told.state > WAITING, turns > caller.heard_at + PATIENCE);
        let given_up = late && recovering
            || waiting && turns > caller.asked_at + GIVES_UP
            || caller.refused && self.random.percent(5);
        if caller.starts_again.is_some_and(|turn| turn <= turns) {
            return self.start_main();
        }
        if told.unsent == 1 && self.random.percent(60) {
            return self.send();
        }
        let known = self.model.registers.signal();
        let signal = self.supervisor_says("the line signal", |supervisor| supervisor.signal(), known)?;
        let (busy, last) = (told.state != IDLE, !self.known.requester.number_left());
        let interrupts = self.random.percent(if late && busy { 50 } else if signal || last { 5 } else { 0 }) || self.random.below(2_000) == 0;
        if given_up {
            self.start_again()
        } else if interrupts {
            self.interrupt()
        } else if self.random.percent(if !busy { 60 } else if last { 10 } else { 1 }) {
            self.ask()
        } else {
            Ok(())
        }
    }

    fn send(&mut self) -> Result<(), String> {
        let frame = self.sends()?;
        self.put_out(&frame, true)
    }

    fn ask(&mut self) -> Result<(), String> {
        let (command, data) = self.request();
        match self.requests(command, &data)? {
            Err(number) => self.request_refused(number),
            Ok(frame) => {
                self.note(|| format!("request {command:02x}"));
                self.tally.requests += 1;
                self.caller.asked_at = self.turns;
                self.caller.asked_for = (!matches!(command, 0x01 | 0x02 | 0x06)).then_some((command, data.clone()));
                if command == 0x01 && self.random.percent(70) {
                    self.caller.starts_again = Some(self.turns + self.random.below(100) as u64);
                }
                self.put_out(&frame, false)?;
                self.ledger.asks(command, &data, &self.model.settings);
            }
        }
        self.stands().map(|_| ())
    }
}

/// A frame in words: its number and command, or the reason for which it fails.
fn words(form: &[u8]) -> String {
    match judged(form) {
        Ok(message) => format!("{} {:02x} {}", message.sequence & !model::TOP_BIT, message.command, message.data.iter().take(24).map(|byte| format!("{byte:02x}")).collect::<String>()),
        Err(failure) => format!("failed {}", failure.reason),
    }
}
