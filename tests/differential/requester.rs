// Defines the main processor's end of document 02's item 2 as ordinary Rust over typed state, and random calls of it on both sides, compared.
// Assumes the C functions of include/oatcastle.h and docs/STATE.md for the lent bytes; a fault number of the model changes one rule.

use crate::calls::{answered, hex, numbers, pattern, same};
use crate::library::{self, RequesterReceiveAnswer, RequesterRequestAnswer, RequesterSendAnswer, RequesterStateAnswer};
use crate::model::{broken, frame, judge, reach, Fault, Message, Reader, LONGEST_DATA, LONGEST_FORM, TOP_BIT};
use crate::random::Random;
use crate::state::{self, number, put, FORM_OFFSET};

pub const LAST: u64 = 0x7fff_ffff_ffff_fffe;
const READER_LENGTH: usize = 4142;
const LENGTH: usize = 4118;
/// Where the main processor's part has a request's data.
const DATA_OFFSET: usize = 14;
/// Bytes behind each part, and numbers behind an answer; the longest answer has ten.
const TAIL: usize = 9;
const GUARD: usize = 2;
const MOST_NUMBERS: usize = 10;
/// The fields that 12 tests: part, offset, width, values outside; number 0 is outside where one is outstanding.
const FIELDS: [(usize, usize, usize, &[u64]); 7] = [
    (0, 0, 2, &[4142, 65535]),
    (1, 0, 8, &[0, LAST + 1, u64::MAX]),
    (1, 8, 1, &[4, 255]),
    (1, 9, 1, &[2, 255]),
    (1, 10, 1, &[2, 255]),
    (1, 11, 1, &[0x01, 0x02, 0x06]),
    (1, 12, 2, &[4105, 65535]),
];

/// From so many calls on, the comparison fails if a refusal or a kind of answer did not come up.
const DEMANDED: u64 = 20_000;

#[derive(Clone, Copy, Debug, PartialEq, Eq)]
pub enum Step {
    Fetch,
    Acknowledge,
    Alert,
}

#[derive(Clone, Debug, PartialEq, Eq, Default)]
pub struct Requester {
    pub newest: u64,
    pub step: Option<Step>,
    unsent: bool,
    /// The caller's request: the one outstanding, or in a recovery the one that was cut off.
    kept: Option<(u8, Vec<u8>)>,
}

pub enum Handed {
    Nothing,
    Answer(Message),
    Status(u64, u64),
    Alert(Message),
}

impl Handed {
    /// The fields of the answer that are about it.
    fn answer(&self) -> RequesterReceiveAnswer {
        let none = RequesterReceiveAnswer::default();
        let reply = |kind, m: &Message| RequesterReceiveAnswer {
            kind,
            sequence: m.sequence,
            command: m.command.into(),
            length: m.data.len() as u64,
            ..none
        };
        match self {
            Handed::Nothing => none,
            Handed::Answer(message) => reply(1, message),
            Handed::Status(status, options) => RequesterReceiveAnswer {
                kind: 2,
                sequence: if broken(Fault::StatusAsSequence) { *status } else { 0 },
                status: *status,
                options: *options,
                set_bits: if broken(Fault::TwoBitsCounted) { status & 3 } else { *status }.count_ones().into(),
                ..none
            },
            Handed::Alert(message) => reply(3, message),
        }
    }

    /// The data of a reply.
    fn data(self) -> Option<Vec<u8>> {
        match self {
            Handed::Answer(message) | Handed::Alert(message) => Some(message.data),
            _ => None,
        }
    }
}

/// What a frame hands out, and whether 14 ended a recovery.
pub type Heard = (Handed, bool);

const SILENT: Heard = (Handed::Nothing, false);

impl Requester {
    /// Whether a number is left for a new one.
    pub fn number_left(&self) -> bool {
        self.newest < LAST - u64::from(broken(Fault::NumbersEndEarly))
    }

    /// The command of the one outstanding.
    fn command(&self) -> Option<u8> {
        match self.step {
            Some(Step::Fetch) => Some(0x08),
            Some(Step::Acknowledge) => Some(0x09),
            Some(Step::Alert) => Some(0x0a),
            None => self.kept.as_ref().map(|request| request.0),
        }
    }

    /// Its data: a recovery's steps have none.
    fn data(&self) -> &[u8] {
        self.kept.as_ref().filter(|_| self.step.is_none()).map_or(&[], |request| &request.1)
    }

    fn to_go_out(&self) -> bool {
        self.unsent && self.command().is_some()
    }

    /// What is outstanding: nothing, the caller's request, or a recovery's 0x08, 0x09 or 0x0a.
    pub fn standing(&self) -> RequesterStateAnswer {
        let Some(command) = self.command().filter(|_| !(broken(Fault::StateIdleWaiting) && self.step.is_none())) else {
            let number = if broken(Fault::StateNumberIdle) { self.newest } else { 0 };
            return RequesterStateAnswer { number, unsent: (self.unsent && broken(Fault::StateUnsentIdle)).into(), ..RequesterStateAnswer::default() };
        };
        let state = match self.step {
            None => 1,
            Some(Step::Fetch) => 2,
            Some(Step::Acknowledge) if !broken(Fault::StateOtherStep) => 3,
            Some(_) => 4,
        };
        let kept = self.kept.as_ref().filter(|_| broken(Fault::StateKeptCommand));
        let original = match self.step {
            None => broken(Fault::StateOriginalWaiting),
            Some(_) => self.kept.is_some() || broken(Fault::StateOriginalAlways),
        };
        RequesterStateAnswer {
            state,
            command: kept.map_or(command, |request| request.0).into(),
            number: self.newest - u64::from(broken(Fault::StateNumberBefore)),
            unsent: (self.unsent && !(broken(Fault::StateUnsentOnce) && self.step.is_none())).into(),
            original: original.into(),
        }
    }

    pub fn request(&mut self, command: u8, data: &[u8], room: usize) -> Result<Vec<u8>, u32> {
        let waits = self.command().is_some();
        if broken(Fault::OutstandingBeforeLong) && waits {
            return Err(17);
        }
        if data.len() > LONGEST_DATA {
            return Err(9);
        }
        if waits {
            return Err(17);
        }
        if !self.number_left() {
            return Err(14);
        }
        let out = frame(1, self.newest + 1, command, data);
        if room < out.len() {
            return Err(8);
        }
        self.newest += 1;
        let ends = matches!(command, 0x01 | 0x02 | 0x06) && !(broken(Fault::RebootOutstanding) && command == 0x01);
        self.kept = (!ends).then(|| (command, data.to_vec()));
        self.unsent = false;
        Ok(out)
    }

    pub fn interrupt(&mut self) -> Result<(), u32> {
        if self.step.is_some() && !broken(Fault::InterruptAgain) {
            return Ok(());
        }
        if !self.number_left() {
            if broken(Fault::FourteenForgets) {
                self.kept = None;
            }
            return Err(14);
        }
        self.newest += 1;
        self.step = Some(Step::Fetch);
        self.unsent = true;
        if broken(Fault::OriginalLost) {
            self.kept = None;
        }
        Ok(())
    }

    pub fn send(&mut self, room: usize) -> Result<Vec<u8>, u32> {
        let Some(command) = self.command().filter(|_| self.unsent) else { return Ok(Vec::new()) };
        let out = frame(1, self.newest, command, self.data());
        if room < out.len() {
            return Err(8);
        }
        self.unsent = false;
        Ok(out)
    }

    /// A recovery and its original end with 14.
    fn end(&mut self) {
        let before = self.clone();
        self.idle();
        if broken(Fault::EndKeeps) {
            self.kept = before.kept;
        } else if broken(Fault::EndSends) {
            *self = Requester { unsent: true, ..before };
        }
    }

    fn idle(&mut self) {
        *self = Requester { newest: self.newest, ..Requester::default() };
    }

    /// A step, or the original, under a new number; without one both end with 14.
    fn anew(&mut self, step: Option<Step>) -> bool {
        if !self.number_left() && !broken(Fault::EndMissed) {
            self.end();
            return true;
        }
        self.newest += u64::from(self.number_left() && (step.is_some() || !broken(Fault::OriginalOldNumber)));
        self.step = step;
        self.unsent = true;
        false
    }

    fn ground(&mut self) -> Heard {
        if self.command().is_some() {
            self.unsent = true;
            self.newest += u64::from(broken(Fault::AgainNewNumber) && self.newest < LAST);
        }
        SILENT
    }

    /// A frame that is neither empty nor overlong.
    fn hear(&mut self, form: &[u8]) -> Heard {
        if self.command().is_none() {
            return SILENT;
        }
        let Ok(message) = judge(form, false) else { return self.ground() };
        let expected = self.newest | TOP_BIT;
        if message.version != 1 && !broken(Fault::AnyVersion) || message.sequence & TOP_BIT == 0 {
            return self.ground();
        }
        let failure = message.sequence == expected && !broken(Fault::FailureHanded) || message.sequence == u64::MAX && !broken(Fault::AllOnesDropped);
        if message.command == 0x02 && failure {
            return self.ground();
        }
        if message.sequence != expected && !broken(Fault::AnyReply) {
            return SILENT;
        }
        match self.step {
            None => {
                self.idle();
                (Handed::Answer(message), false)
            }
            Some(Step::Fetch) => self.fetched(&message),
            Some(Step::Acknowledge) => {
                let handed = if broken(Fault::AcknowledgeHanded) { Handed::Alert(message) } else { Handed::Nothing };
                (handed, self.anew(Some(Step::Fetch)))
            }
            Some(Step::Alert) => (Handed::Alert(message), self.anew(Some(Step::Fetch))),
        }
    }

    /// What a receive answers that has read so many bytes.
    pub fn receive_answer(&self, used: usize, handed: &Handed, ended: bool) -> RequesterReceiveAnswer {
        RequesterReceiveAnswer { used: used as u64, ended: ended.into(), unsent: self.to_go_out().into(), ..handed.answer() }
    }

    fn fetched(&mut self, message: &Message) -> Heard {
        if message.command != 0x06 || message.data.len() != 16 {
            return self.ground();
        }
        let (status, options) = (number(&message.data, 0, 8), number(&message.data, 8, 8));
        let (first, second) = if broken(Fault::Bit1First) { (2, 1) } else { (1, 2) };
        let step = |bit| if bit == 1 { Step::Acknowledge } else { Step::Alert };
        let ended = if status & first != 0 {
            self.anew(Some(step(first)))
        } else if status & second != 0 {
            self.anew(Some(step(second)))
        } else if self.kept.is_some() {
            self.anew(None)
        } else {
            self.idle();
            false
        };
        (Handed::Status(status, options), ended)
    }

    /// How many bytes of the piece are read, and what is heard.
    pub fn receive(&mut self, reader: &mut Reader, piece: &[u8]) -> (usize, Heard) {
        for (at, &byte) in piece.iter().enumerate() {
            if byte == 0 {
                let done = std::mem::take(reader);
                let heard = match (done.long, done.bytes.is_empty()) {
                    (true, _) if broken(Fault::OverlongAgain) => self.ground(),
                    (false, false) => self.hear(&done.bytes),
                    _ => SILENT,
                };
                return (at + 1, heard);
            }
            if !reader.long {
                reader.bytes.push(byte);
                if reader.bytes.len() > LONGEST_FORM {
                    *reader = Reader { bytes: Vec::new(), long: true };
                    return (at + 1, self.ground());
                }
            }
        }
        (piece.len(), SILENT)
    }
}

/// The state that valid bytes mean.
fn meaning(bytes: &[u8]) -> Requester {
    let step = [None, Some(Step::Fetch), Some(Step::Acknowledge), Some(Step::Alert)][usize::from(bytes[8])];
    let kept = (bytes[10] == 1).then(|| (bytes[11], bytes[14..][..number(bytes, 12, 2) as usize].to_vec()));
    Requester { newest: number(bytes, 0, 8), step, unsent: bytes[9] == 1, kept }
}

enum Call {
    Start,
    Request { command: u8, data: Vec<u8> },
    Interrupt,
    Send,
    Receive { piece: Vec<u8> },
    State,
}

/// What the model says of a call: its number, the numbers of its answer, the bytes of its room, the data of a reply.
#[derive(Default)]
struct Expected {
    code: u32,
    answer: Vec<u64>,
    room: Vec<u8>,
    data: Option<Vec<u8>>,
}

/// Both sides: the library's two parts, and the model.
struct Pair {
    random: Random,
    parts: [Vec<u8>; 2],
    reader: Reader,
    requester: Requester,
    /// Bytes that are still to come.
    wire: Vec<u8>,
    met: [u64; 18],
    kinds: [u64; 4],
    ended: u64,
    /// By the state that was told.
    states: [u64; 5],
}

impl Pair {
    fn valid(&self, lent: [usize; 2], call: &Call) -> bool {
        let long = lent[1] >= LENGTH && (lent[0] >= READER_LENGTH || !matches!(call, Call::Start | Call::Receive { .. }));
        let inside = |&(part, place, width, _): &(usize, usize, usize, &[u64])| {
            let value = number(&self.parts[part], place, width);
            match (part, place) {
                (0, _) => value <= 4141 || !matches!(call, Call::Receive { .. }),
                (_, 0) => value <= LAST && (value > 0 || (self.parts[1][8] == 0 && self.parts[1][10] == 0)),
                (_, 8) => value <= 3,
                (_, 11) => !matches!(value, 0x01 | 0x02 | 0x06),
                (_, 12) => value <= 4104,
                _ => value <= 1,
            }
        };
        long && (matches!(call, Call::Start) || FIELDS.iter().all(inside))
    }

    /// What the model says; a refusal leaves it as it was.
    fn model(&mut self, call: &Call, lent: [usize; 2], room: usize) -> Expected {
        if self.valid(lent, call) { self.carried_out(call, room) } else { Expected { code: 12, ..Expected::default() } }
    }

    fn carried_out(&mut self, call: &Call, room: usize) -> Expected {
        let put = |out: Result<Vec<u8>, u32>, answer: fn(u64) -> Vec<u64>| match out {
            Ok(bytes) => Expected { answer: answer(bytes.len() as u64), room: bytes, ..Expected::default() },
            Err(code) => Expected { code, ..Expected::default() },
        };
        match call {
            Call::Start => {
                (self.reader, self.requester) = (Reader::default(), Requester::default());
                Expected::default()
            }
            Call::Request { command, data } => {
                put(self.requester.request(*command, data, room), |length| numbers(RequesterRequestAnswer { length }))
            }
            Call::Interrupt => Expected { code: self.requester.interrupt().err().unwrap_or(0), ..Expected::default() },
            Call::Send => put(self.requester.send(room), |length| numbers(RequesterSendAnswer { length })),
            Call::Receive { piece } => {
                let (used, (handed, ended)) = self.requester.receive(&mut self.reader, piece);
                let said = self.requester.receive_answer(used, &handed, ended);
                Expected { answer: numbers(said), data: handed.data(), ..Expected::default() }
            }
            Call::State => Expected { answer: numbers(self.requester.standing()), ..Expected::default() },
        }
    }

    /// The library's number for the call.
    fn library(&mut self, call: &Call, lent: [usize; 2], room: &mut [u8], answer: &mut [u64]) -> u32 {
        let [reader, requester] = &mut self.parts;
        let (reader, requester) = (reader.as_mut_ptr(), requester.as_mut_ptr());
        assert!(answer.len() >= MOST_NUMBERS);
        let (out, size, numbers) = (room.as_mut_ptr(), room.len(), answer.as_mut_ptr());
        // The pointers are to slices of at least these lengths, and to as many numbers as the longest answer has.
        unsafe {
            match call {
                Call::Start => library::oatcastle_requester_start(reader, lent[0], requester, lent[1]),
                Call::Request { command, data } => {
                    library::oatcastle_requester_request(requester, lent[1], *command, data.as_ptr(), data.len(), out, size, numbers.cast())
                }
                Call::Interrupt => library::oatcastle_requester_interrupt(requester, lent[1]),
                Call::Send => library::oatcastle_requester_send(requester, lent[1], out, size, numbers.cast()),
                Call::Receive { piece } => {
                    library::oatcastle_requester_receive(piece.as_ptr(), piece.len(), reader, lent[0], requester, lent[1], numbers.cast())
                }
                Call::State => library::oatcastle_requester_state(requester, lent[1], numbers.cast()),
            }
        }
    }

    /// One call on both sides; what it answers, writes and leaves is compared.
    fn call(&mut self, call: &Call, lent: [usize; 2], room: usize) -> Result<Expected, String> {
        let words = words(call, lent, room);
        let mut before = self.parts.clone();
        let old_room = self.random.bytes(room);
        let stood = pattern(&mut self.random, MOST_NUMBERS + GUARD);
        let (mut out, mut answer) = (old_room.clone(), stood.clone());
        let held = self.reader.reach();
        let outcome = self.model(call, lent, room);
        let reach = match call {
            Call::Receive { piece } if outcome.code == 0 => reach(held, piece, answered::<RequesterReceiveAnswer>(&outcome.answer).used as usize),
            _ => 0,
        };
        if outcome.data.is_some() && broken(Fault::MainAnswerClears) {
            before[1][DATA_OFFSET..LENGTH].fill(0);
        }
        if outcome.data.is_some() && broken(Fault::WipeMain) {
            before[0][FORM_OFFSET..READER_LENGTH].fill(0);
        }
        let code = self.library(call, lent, &mut out, &mut answer);
        if code != outcome.code {
            return Err(format!("{words}: the model says {}, the library {code}", outcome.code));
        }
        let mut numbers = [&outcome.answer[..], &stood[outcome.answer.len()..]].concat();
        if broken(Fault::MainRefusedAnswers) && code != 0 {
            numbers[0] = 0;
        }
        if numbers != answer {
            return Err(format!("{words}: the model answers {numbers:x?}, the library {answer:x?}"));
        }
        same(&format!("{words}: the room"), &[&outcome.room[..], &old_room[outcome.room.len()..]].concat(), &out)?;
        self.left(&words, call, code != 0, &before, reach)?;
        if let Some(data) = &outcome.data {
            self.handed_out(&words, data)?;
        }
        self.met[code as usize] += 1;
        if code == 0 {
            self.noted(call, &answer);
        }
        Ok(outcome)
    }

    /// What a call that was carried out has answered.
    fn noted(&mut self, call: &Call, answer: &[u64]) {
        match call {
            Call::Receive { .. } => {
                let said: RequesterReceiveAnswer = answered(answer);
                self.kinds[said.kind as usize] += 1;
                self.ended += said.ended;
            }
            Call::State => self.states[answered::<RequesterStateAnswer>(answer).state as usize] += 1,
            _ => {}
        }
    }

    /// What a call leaves: all of it where it is refused or asks for the state, else what the parts mean and the bytes that it does not write.
    fn left(&self, words: &str, call: &Call, refused: bool, before: &[Vec<u8>; 2], reach: usize) -> Result<(), String> {
        let kept = match call {
            _ if refused => [0, 0],
            Call::State => [0, 0],
            Call::Start => [READER_LENGTH, LENGTH],
            Call::Request { data, .. } => [0, DATA_OFFSET + data.len()],
            Call::Interrupt | Call::Send => [0, DATA_OFFSET],
            Call::Receive { .. } => [FORM_OFFSET + reach, DATA_OFFSET],
        };
        for part in 0..2 {
            same(&format!("{words}: part {part} from {}", kept[part]), &before[part][kept[part]..], &self.parts[part][kept[part]..])?;
        }
        if refused {
            return Ok(());
        }
        if matches!(call, Call::Start) {
            self.left_by_start(words, before)?;
        }
        if !matches!(call, Call::Start | Call::Receive { .. }) {
            same(&format!("{words}: the reader"), &before[0], &self.parts[0])?;
        } else if self.reader != state::reader(&self.parts[0]) {
            return Err(format!("{words}: the model's reader holds {:?}", self.reader));
        }
        let found = meaning(&self.parts[1]);
        if self.requester != found {
            return Err(format!("{words}: the model's state is {:?}, the library's {found:?}", self.requester));
        }
        Ok(())
    }

    /// A start leaves nothing of either part.
    fn left_by_start(&self, words: &str, before: &[Vec<u8>; 2]) -> Result<(), String> {
        let keeps = [broken(Fault::MainStartKeepsReader), broken(Fault::MainStartKeepsData)];
        for (part, (length, from)) in [(READER_LENGTH, FORM_OFFSET), (LENGTH, DATA_OFFSET)].into_iter().enumerate() {
            let mut nothing = vec![0; length];
            if keeps[part] {
                nothing[from..].copy_from_slice(&before[part][from..length]);
            }
            same(&format!("{words}: part {part} at a start"), &nothing, &self.parts[part][..length])?;
        }
        Ok(())
    }

    /// The data of a reply, as the line layer's call hands them out.
    fn handed_out(&self, words: &str, data: &[u8]) -> Result<(), String> {
        let mut room = vec![0; data.len()];
        // The pointers are to slices of these lengths.
        let code = unsafe { library::oatcastle_line_data(self.parts[0].as_ptr(), READER_LENGTH, data.len() as u64, room.as_mut_ptr(), room.len()) };
        if code != 0 {
            return Err(format!("{words}: the data are refused as {code}"));
        }
        same(&format!("{words}: the data"), data, &room)
    }

    /// A frame that the other end might send, whole or with something wrong.
    fn reply(&mut self) -> Vec<u8> {
        let random = &mut self.random;
        let expected = self.requester.newest | TOP_BIT;
        let sequence = match random.below(12) {
            0 => u64::MAX,
            1 => expected.wrapping_sub(1),
            2 => expected & !TOP_BIT,
            3 => random.next(),
            _ => expected,
        };
        let status = random.pick(&[0, 0, 1, 2, 3, 4, u64::MAX, 0x8000_0000_0000_0002]);
        let any = random.byte();
        let (command, length) = match random.below(5) {
            0 | 1 => (0x06, 16),
            2 => (random.pick(&[0x01, 0x02, 0x05, 0x07]), random.pick(&[0, 1, 9])),
            3 => (random.pick(&[0x06, any]), random.below(40)),
            _ => (any, random.pick(&[0, 1, 300, 4103, 4104])),
        };
        let mut data = random.bytes(length);
        if length == 16 {
            put(&mut data, 0, 8, status);
        }
        let version = if random.percent(4) { random.pick(&[0, 2, 256, u32::MAX]) } else { 1 };
        let mut bytes = frame(version, sequence, command, &data);
        if random.percent(8) {
            let place = random.below(bytes.len());
            bytes[place] ^= 1 << random.below(8);
        }
        if random.percent(3) {
            let length = random.pick(&[1, 4139, 4140, 4141, 4142, 4600]);
            bytes = random.bytes_of(1, length);
            bytes.push(0);
        }
        if random.percent(5) {
            bytes.insert(0, 0);
        }
        bytes
    }

    fn piece(&mut self) -> Vec<u8> {
        if self.wire.is_empty() {
            self.wire = self.reply();
        }
        let size = if self.random.percent(60) { self.wire.len() } else { self.random.below(self.wire.len() + 1) };
        let more = if self.random.percent(10) { self.reply() } else { Vec::new() };
        [&self.wire[..size], &more[..if size == self.wire.len() { more.len() } else { 0 }]].concat()
    }

    fn any_call(&mut self) -> Call {
        match self.random.below(24) {
            0 => Call::Start,
            1..=4 => {
                let any = self.random.byte();
                let command = self.random.pick(&[0x01, 0x02, 0x06, 0x08, 0x0a, 0x0e, any, any]);
                let few = self.random.below(30);
                let length = self.random.pick(&[0, few, few, 300, 4103, 4104, 4105, 5000]);
                Call::Request { command, data: self.random.bytes(length) }
            }
            5 | 6 => Call::Interrupt,
            7..=10 => Call::Send,
            11..=14 => Call::State,
            _ => Call::Receive { piece: self.piece() },
        }
    }

    /// A call of chance, with rooms long and short.
    fn turn(&mut self) -> Result<(), String> {
        let call = self.any_call();
        let short = [READER_LENGTH - 1, LENGTH - 1];
        let mut lent = [READER_LENGTH + self.random.below(TAIL), LENGTH + self.random.below(TAIL)];
        if self.random.percent(3) {
            let part = self.random.below(2);
            lent[part] = short[part];
        }
        let any = self.random.below(60);
        let room = self.random.pick(&[4141, 4141, 4141, 4200, 20, 21, any]);
        let outcome = self.call(&call, lent, room)?;
        if matches!(call, Call::Receive { .. }) && outcome.code == 0 {
            let used = answered::<RequesterReceiveAnswer>(&outcome.answer).used as usize;
            self.wire.drain(..used.min(self.wire.len()));
        }
        if matches!(call, Call::Start) && outcome.code == 0 && self.random.percent(40) {
            let newest = LAST - self.random.below(6) as u64;
            put(&mut self.parts[1], 0, 8, newest);
            self.requester.newest = newest;
        }
        Ok(())
    }

    /// Every call with a field outside its values, and then the field as it was.
    fn outside(&mut self) -> Result<(), String> {
        let (part, place, width, values) = self.random.pick(&FIELDS);
        let value = self.random.pick(values);
        if (part, place, value) == (1, 0, 0) && self.requester.command().is_none() {
            return Ok(());
        }
        let held = number(&self.parts[part], place, width);
        put(&mut self.parts[part], place, width, value);
        let piece = vec![1, 0];
        for call in [Call::Request { command: 8, data: Vec::new() }, Call::Interrupt, Call::Send, Call::Receive { piece }, Call::State] {
            if part == 1 || matches!(call, Call::Receive { .. }) {
                self.call(&call, [READER_LENGTH, LENGTH], 4141)?;
            }
        }
        put(&mut self.parts[part], place, width, held);
        Ok(())
    }

    /// Both parts get random bytes with allowed values in their fields, and the state is asked for.
    fn scatter(&mut self) -> Result<(), String> {
        let random = &mut self.random;
        self.parts = [random.bytes(READER_LENGTH + TAIL), random.bytes(LENGTH + TAIL)];
        let (any, other) = (random.next(), random.below(4105) as u64);
        let outstanding = random.percent(80);
        put(&mut self.parts[0], 0, 2, random.pick(&[0, other, 4140, 4141]));
        let fields = [
            (0, 8, random.pick(&[1, LAST - 1, LAST, 1 + any % LAST, u64::from(outstanding)])),
            (8, 1, if outstanding { random.below(4) as u64 } else { 0 }),
            (9, 1, random.below(2) as u64),
            (10, 1, if outstanding { random.below(2) as u64 } else { 0 }),
            (11, 1, random.pick(&[0x00, 0x08, 0x09, 0x0a, 0x0e, 0xff])),
            (12, 2, random.pick(&[0, other, 4104])),
        ];
        for (place, width, value) in fields {
            put(&mut self.parts[1], place, width, value);
        }
        (self.reader, self.requester) = (state::reader(&self.parts[0]), meaning(&self.parts[1]));
        self.call(&Call::State, [READER_LENGTH, LENGTH], 0).map(|_| ())
    }
}

fn words(call: &Call, lent: [usize; 2], room: usize) -> String {
    let what = match call {
        Call::Start => "start".to_string(),
        Call::Request { command, data } => format!("request {command:#04x} {}", hex(data)),
        Call::Interrupt => "interrupt".to_string(),
        Call::Send => "send".to_string(),
        Call::Receive { piece } => format!("receive {}", hex(piece)),
        Call::State => "state".to_string(),
    };
    format!("{what}, parts {lent:?}, room {room}")
}

/// So many random calls of the main processor's end.
pub fn compare(seed: u64, count: u64, calls: &mut u64) -> Result<(), String> {
    let mut random = Random(seed ^ 0x6d61_696e);
    let parts = [random.bytes(READER_LENGTH + TAIL), random.bytes(LENGTH + TAIL)];
    let (reader, requester) = (Reader::default(), Requester::default());
    let mut pair = Pair { random, parts, reader, requester, wire: Vec::new(), met: [0; 18], kinds: [0; 4], ended: 0, states: [0; 5] };
    let named = |difference, calls: u64| format!("main processor's call {calls}: {difference}");
    pair.call(&Call::Start, [READER_LENGTH, LENGTH], 0).map_err(|difference| named(difference, *calls))?;
    for _ in 0..count {
        *calls += 1;
        let turn = match pair.random.below(100) {
            0 | 1 => pair.outside(),
            2 => pair.scatter(),
            _ => pair.turn(),
        };
        turn.map_err(|difference| named(difference, *calls))?;
    }
    let missing: Vec<usize> = [0, 8, 9, 12, 14, 17].into_iter().filter(|&code| pair.met[code] == 0).collect();
    let Pair { kinds, ended, states, .. } = pair;
    if count >= DEMANDED && (!missing.is_empty() || kinds.contains(&0) || ended == 0 || states.contains(&0)) {
        return Err(format!("main processor's calls: not met {missing:?}, kinds {kinds:?}, recoveries ended {ended}, states {states:?}"));
    }
    Ok(())
}
