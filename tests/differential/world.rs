// Defines one call on both sides and the comparison of all that it answers, writes and leaves.
// Assumes document 01 for the answers, docs/STATE.md for the lent bytes, and the linked library.

use crate::calls::{hex, numbers, pattern, refused, same, step_answer, Call, Lent, Outcome};
use crate::counters::Block;
use crate::images;
use crate::library::*;
use crate::model::{self, broken, Ended, Failure, Fault, Message, Reader, Record, Stored, Supervisor, Told, Touched, COMMANDS, LONGEST_DATA, PASSPHRASE};
use crate::plans::ROWS_LENGTH;
use crate::random::Random;
use crate::state::{
    self, DATA_OFFSET, EDITION_OFFSET, FACTORY, FORM_OFFSET, LENGTHS, LINE, NAMES, OUTBOX, PASSPHRASE_OFFSET, READER, REGISTERS, SETTINGS, START_LENGTH,
    VALUE_LENGTH_OFFSET, VALUE_OFFSET,
};
use std::collections::{HashMap, HashSet};
use std::fmt;

/// Bytes behind each part, and behind a room or an answer.
pub const TAIL: usize = 24;
const GUARD: usize = 16;
/// The fields of docs/STATE.md with forbidden values: 1 in a line reader's part (two of them), 3, 37, 8 and 28 in the others.
pub const FIELDS: usize = 2 + 3 + (3 + 2 * model::MOST_ITEMS + 2) + 3 * model::LONGEST.len() + 28;

/// So many calls of a long run must have wiped the reader's part.
const DEMANDED_WIPES: u64 = 100;

/// Both sides: the library's lent parts, and the model.
pub struct World {
    pub random: Random,
    pub parts: [Vec<u8>; 6],
    pub before: [Vec<u8>; 6],
    pub line: Reader,
    pub supervisor: Supervisor,
    /// Data of the message that a line read has just handed out, for the line state and for the reader.
    pub handed: [Option<Vec<u8>>; 2],
    pub wires: [Vec<u8>; 2],
    pub images: Vec<Vec<u8>>,
    pub pristine: Vec<Vec<u8>>,
    pub block: Block,
    /// Whether a receive or a step is lent the block; none where it is left to chance.
    pub counting: Option<bool>,
    /// The command that a step told last, for the fault that tells it late.
    told: u8,
    pub tally: Tally,
    pub trace: bool,
}

/// What a run has called, met and compared.
#[derive(Default)]
pub struct Tally {
    pub calls: u64,
    pub fed: u64,
    /// Bytes of numbers, answers and rooms.
    pub said: u64,
    /// Bytes of lent parts and of what is lent for reading.
    pub lent: u64,
    /// Bytes of parts that were compared by what they mean.
    pub meant: u64,
    pub refusals: HashMap<u32, u64>,
    pub reasons: [u64; 8],
    /// By the request's version, from 1 on.
    pub commands: [[u64; 17]; 2],
    /// By the result of a set.
    pub sets: [u64; 5],
    /// Command and result that a step told.
    pub told: HashSet<(u8, u8)>,
    /// Receives and steps, without the block and with it.
    pub counted: [[u64; 2]; 2],
    pub fields: HashSet<(usize, usize)>,
    /// Receives and steps behind which the reader's part was wiped.
    pub wiped: u64,
}

impl Tally {
    /// What has not come up: refusal numbers, reasons, commands in a version, results of a set.
    pub fn missing(&self) -> String {
        let mut missing = String::new();
        for number in [8, 9, 10, 11, 12, 13, 16, 30, 31, 32, 33, 34, 35] {
            if !self.refusals.contains_key(&number) {
                missing += &format!(" refusal {number}");
            }
        }
        for reason in 1..=7 {
            if self.reasons[reason] == 0 {
                missing += &format!(" reason {reason}");
            }
        }
        for (before, commands) in self.commands.iter().enumerate() {
            for command in COMMANDS {
                if commands[usize::from(command)] == 0 {
                    missing += &format!(" command {command:#04x} in version {}", before + 1);
                }
            }
        }
        for (result, &times) in (0..).zip(&self.sets) {
            if times == 0 {
                missing += &format!(" set result {result}");
            }
            if !self.told.contains(&(0x10, result)) {
                missing += &format!(" set result {result} told by a step");
            }
        }
        for command in COMMANDS {
            if !self.told.contains(&(command, 0)) {
                missing += &format!(" command {command:#04x} told by a step");
            }
        }
        if self.counted.as_flattened().contains(&0) {
            missing += " receives and steps with the counter block and without";
        }
        if self.wiped < DEMANDED_WIPES {
            missing += &format!(" wipes of the reader's part, {} of {DEMANDED_WIPES}", self.wiped);
        }
        if self.fields.len() < FIELDS {
            missing += &format!(" {} fields", FIELDS - self.fields.len());
        }
        missing
    }
}

impl World {
    pub fn new(seed: u64, trace: bool) -> World {
        let mut random = Random(seed);
        let images: Vec<Vec<u8>> = [0, 1, 4095, 4096, 4097, 8192, 9000, 20000]
            .iter()
            .enumerate()
            .map(|(i, &length)| random.bytes_of(i % 6, length))
            .collect();
        let parts = LENGTHS.map(|length| {
            let mut bytes = vec![0; length + TAIL];
            random.fill(&mut bytes);
            bytes
        });
        let mut data = [0; START_LENGTH];
        data[0] = 0x41;
        let supervisor = Supervisor::start(state::factory(&data), &model::Outbox::default());
        World {
            random,
            before: parts.clone(),
            parts,
            line: Reader::default(),
            supervisor,
            handed: [None, None],
            wires: [Vec::new(), Vec::new()],
            pristine: images.clone(),
            images,
            block: Block::new(),
            counting: None,
            told: 0,
            tally: Tally::default(),
            trace,
        }
    }

    fn line_reader(&mut self, part: usize) -> &mut Reader {
        if part == LINE { &mut self.line } else { &mut self.supervisor.reader }
    }

    fn record(&self, call: &Call) -> Option<&Record> {
        let registers = &self.supervisor.registers;
        if matches!(call, Call::Panic) { registers.panic.as_ref() } else { registers.boot_failure.as_ref() }
    }

    /// The bytes of room that the call needs.
    fn need(&self, call: &Call) -> usize {
        match call {
            Call::LineData { length, .. } => (*length).min(5000) as usize,
            Call::LineWrite { version, sequence, command, head, rest } => {
                model::frame(*version, *sequence, *command, &[&head[..], &rest[..]].concat()).len()
            }
            Call::Lookup { key, most } => model::lookup(&self.supervisor.factory, &self.supervisor.settings, *key, *most).1.len(),
            Call::BootFailure | Call::Panic => self.record(call).map_or(0, |record| record.kept.len()),
            Call::Save => images::saved(&self.supervisor.settings).len(),
            Call::Addresses { .. } => ROWS_LENGTH,
            _ => 0,
        }
    }

    /// Lengths to lend: mostly enough, at times one too short.
    pub fn lend(&mut self, call: &Call) -> Lent {
        let need = self.need(call);
        let random = &mut self.random;
        let mut parts = LENGTHS.map(|length| length + random.below(TAIL + 1));
        if random.percent(4) && !call.parts().is_empty() {
            let part = random.pick(call.parts());
            parts[part] = match random.below(3) {
                0 => LENGTHS[part] - 1,
                1 => random.below(8),
                _ => random.below(LENGTHS[part]),
            };
        }
        let pending = self.supervisor.outbox.pending.len();
        let room = match call {
            Call::Take => match random.below(10) {
                0 => 0,
                1..=3 => 1,
                4 => random.below(40),
                5 => pending,
                6 => pending.saturating_sub(1),
                7 => random.below(pending + 1),
                8 => pending + 1,
                _ => 5000,
            },
            _ => match random.below(20) {
                0 => need,
                1 => need.saturating_sub(1),
                2 => random.below(need + 1),
                3 => need + 5000,
                _ => need + random.below(20),
            },
        };
        Lent { parts, room }
    }

    /// What document 01 says of the call; the model's state moves on unless it is refused.
    pub fn expect(&mut self, call: &Call, lent: &Lent) -> Outcome {
        if broken(Fault::TwelveLast) && lent.room < self.need(call) {
            return refused(8);
        }
        for &part in call.parts() {
            let bytes = &self.parts[part][..lent.parts[part]];
            if bytes.len() < LENGTHS[part] || !call.starts() && !state::valid(part, bytes) {
                if let Call::Receive { piece, .. } | Call::Step { piece, .. } = call {
                    self.block.refuse(piece);
                }
                return refused(12);
            }
        }
        let mut outcome = Outcome::default();
        match call {
            Call::LineStart { part } => {
                *self.line_reader(*part) = Reader::default();
                self.handed[*part] = None;
                outcome.changed[*part] = true;
                outcome.exact.push((*part, 0, self.line_started(*part, broken(Fault::LineStartKeeps))));
            }
            Call::LineRead { part, piece } => {
                let held = self.line_reader(*part).reach();
                let (used, ended) = self.line_reader(*part).read(piece);
                self.handed[*part] = None;
                let reach = model::reach(held, piece, used);
                let set = matches!(&ended, Ended::Message(message) if model::sets(message, PASSPHRASE));
                outcome.exact.push(self.past_frames(*part, reach, Some(reach).filter(|_| set && broken(Fault::WipeLineRead))));
                let said = LineReadAnswer { used: used as u64, ..LineReadAnswer::default() };
                outcome.answer = numbers(match ended {
                    Ended::More => said,
                    Ended::Empty => LineReadAnswer { kind: 1, ..said },
                    Ended::Message(Message { version, sequence, command, data }) => {
                        let length = data.len() as u64;
                        self.handed[*part] = Some(data);
                        LineReadAnswer { kind: 2, version: version.into(), sequence, command: command.into(), length, ..said }
                    }
                    Ended::Failure(Failure { reason, sequence }) => {
                        LineReadAnswer { kind: 3, reason: reason.into(), sequence: sequence.unwrap_or(0), ..said }
                    }
                });
                outcome.changed[*part] = !piece.is_empty();
            }
            Call::Collect { part, piece } => {
                let held = self.line_reader(*part).reach();
                let taken = self.line_reader(*part).collect(piece);
                self.handed[*part] = None;
                outcome.exact.push(self.past_frames(*part, model::reach(held, piece, taken), None));
                outcome.answer = numbers(CollectAnswer { taken: taken as u64 });
                outcome.changed[*part] = taken > 0;
            }
            Call::LineData { part, length } => {
                if *length > LONGEST_DATA as u64 {
                    return refused(9);
                }
                let length = *length as usize;
                if lent.room < length {
                    return refused(8);
                }
                outcome.room = self.parts[*part][DATA_OFFSET..DATA_OFFSET + length].to_vec();
                if let Some(data) = &self.handed[*part] {
                    let same = length.min(data.len());
                    outcome.room[..same].copy_from_slice(&data[..same]);
                }
            }
            Call::LineTail { part } => {
                let reader = self.line_reader(*part);
                outcome.answer = numbers(LineTailAnswer { longer: reader.long.into(), length: reader.bytes.len() as u64 });
            }
            Call::LineWrite { version, sequence, command, head, rest } => {
                let data = [&head[..], &rest[..]].concat();
                if data.len() > LONGEST_DATA {
                    return refused(9);
                }
                let frame = model::frame(*version, *sequence, *command, &data);
                if lent.room < frame.len() {
                    return refused(8);
                }
                outcome.answer = numbers(LineWriteAnswer { length: frame.len() as u64 });
                outcome.room = frame;
            }
            Call::Start { data } => {
                if !state::valid_start(&data[..]) {
                    return refused(11);
                }
                self.block.drop_frame(self.supervisor.reader.long || !self.supervisor.reader.bytes.is_empty());
                self.supervisor = Supervisor::start(state::factory(&data[..]), &self.supervisor.outbox);
                self.handed[READER] = None;
                outcome.changed = [false, true, true, true, true, true];
                let mut factory = data.to_vec();
                factory.extend_from_slice(&[0, 0, 0, 0]);
                factory.extend_from_slice(b"pong");
                let mut registers = vec![0; LENGTHS[REGISTERS]];
                registers[0] = 1;
                let mut outbox = vec![0; LENGTHS[OUTBOX]];
                outbox[4] = u8::from(self.supervisor.outbox.last_non_zero);
                outcome.exact = vec![
                    (READER, 0, self.line_started(READER, broken(Fault::StartKeepsReader))),
                    (OUTBOX, 0, outbox),
                    (FACTORY, 0, factory),
                    (SETTINGS, 0, vec![0; LENGTHS[SETTINGS]]),
                    (REGISTERS, 0, registers),
                ];
            }
            Call::Receive { image, piece } | Call::Step { image, piece } => {
                let image = &self.pristine[image.which][..image.length];
                let mut touched = Touched::none();
                if matches!(call, Call::Step { .. }) {
                    let told = self.supervisor.step(image, piece, &mut touched);
                    self.block.count_step(&told, self.supervisor.reader.long);
                    outcome.answer = numbers(step_answer(self.tells(told)));
                } else {
                    self.supervisor.receive(image, piece, &mut touched);
                    self.block.count(&touched.ends, self.supervisor.reader.long);
                }
                for (sum, times) in self.tally.reasons.iter_mut().zip(touched.reasons) {
                    *sum += times;
                }
                for (sum, times) in self.tally.commands.iter_mut().flatten().zip(touched.commands.iter().flatten()) {
                    *sum += times;
                }
                for (sum, times) in self.tally.sets.iter_mut().zip(touched.sets) {
                    *sum += times;
                }
                self.handed[READER] = None;
                outcome.changed = [false, !piece.is_empty(), touched.outbox, false, touched.settings, touched.registers];
                self.tally.wiped += u64::from(touched.wiped.is_some());
                outcome.exact.push(self.past_frames(READER, touched.reach, touched.wiped));
                outcome.exact.push((SETTINGS, 0, self.settings_after(&touched.stored)));
            }
            Call::Take => {
                outcome.room = self.supervisor.outbox.take(lent.room);
                outcome.answer = numbers(TakeAnswer { moved: outcome.room.len() as u64 });
                outcome.changed[OUTBOX] = !outcome.room.is_empty();
            }
            Call::Post { action, text } => {
                if let Err(code) = self.supervisor.registers.post(*action, text) {
                    return refused(code);
                }
                outcome.changed[REGISTERS] = true;
            }
            Call::SetOptions { options } => {
                if let Err(code) = self.supervisor.registers.set_options(*options) {
                    return refused(code);
                }
                outcome.changed[REGISTERS] = true;
                let mut registers = self.parts[REGISTERS][..LENGTHS[REGISTERS]].to_vec();
                state::put(&mut registers, 8, 8, *options);
                outcome.exact.push((REGISTERS, 0, registers));
            }
            Call::Lookup { key, most } => {
                let (result, value) = model::lookup(&self.supervisor.factory, &self.supervisor.settings, *key, *most);
                if lent.room < value.len() {
                    return refused(8);
                }
                outcome.answer = numbers(LookupAnswer { result: result.into(), length: value.len() as u64 });
                outcome.room = value;
            }
            Call::Edition { key } => {
                let (result, edition) = model::edition(&self.supervisor.settings, *key);
                outcome.answer = numbers(EditionAnswer { result: result.into(), edition: edition.into() });
            }
            Call::Save => {
                let image = images::saved(&self.supervisor.settings);
                if lent.room < image.len() {
                    return refused(8);
                }
                outcome.answer = numbers(SaveAnswer { length: image.len() as u64 });
                outcome.room = image;
            }
            Call::Restore { image } => {
                let (left, result) = images::restored(&self.supervisor.settings, image);
                outcome.changed[SETTINGS] = result.is_ok() || left != self.supervisor.settings;
                self.supervisor.settings = left;
                outcome.exact.push((SETTINGS, PASSPHRASE_OFFSET, self.parts[SETTINGS][PASSPHRASE_OFFSET..LENGTHS[SETTINGS]].to_vec()));
                if let Err((code, offset)) = result {
                    outcome.code = code;
                    outcome.answer = numbers(RestoreAnswer { offset: offset as u64 });
                } else if broken(Fault::OffsetOfGood) {
                    outcome.answer = numbers(RestoreAnswer { offset: image.len() as u64 });
                }
            }
            Call::Signal => {
                outcome.answer = numbers(SignalAnswer { asserted: self.supervisor.registers.signal().into() });
            }
            Call::Flags => {
                let registers = &self.supervisor.registers;
                outcome.answer = numbers(FlagsAnswer { reboot: registers.reboot.into(), power_off: registers.power_off.into() });
            }
            Call::BootFailure | Call::Panic => {
                let record = self.record(call).cloned();
                let kept = record.as_ref().map_or(0, |record| record.kept.len());
                if lent.room < kept {
                    return refused(8);
                }
                outcome.answer = numbers(record.as_ref().map_or(RecordAnswer::default(), |record| RecordAnswer {
                    present: 1,
                    code: record.code.into(),
                    length: record.length as u64,
                    kept: kept as u64,
                }));
                outcome.room = record.map_or(Vec::new(), |record| record.kept);
            }
            Call::Addresses { plan } => {
                if lent.room < ROWS_LENGTH {
                    return refused(8);
                }
                outcome.room = plan.rows();
            }
            Call::PlanFits { plan } => {
                if plan.passes() {
                    return refused(16);
                }
            }
        }
        outcome
    }

    /// What a step tells; the fault that tells a command late needs the one before.
    fn tells(&mut self, told: Told) -> Told {
        let before = std::mem::replace(&mut self.told, told.command);
        self.tally.told.insert((told.command, told.result));
        if broken(Fault::StepCommandBefore) && told.kind == 2 { Told { command: before, ..told } } else { told }
    }

    /// A line reader's part just after its start; the fault leaves the bytes of its frames.
    fn line_started(&self, part: usize, keeps: bool) -> Vec<u8> {
        let mut bytes = vec![0; LENGTHS[part]];
        if keeps {
            bytes[FORM_OFFSET..].copy_from_slice(&self.parts[part][FORM_OFFSET..LENGTHS[part]]);
        }
        bytes
    }

    /// The bytes of a line reader's part past those that frames have written: 0 behind a wipe, else as they were.
    fn past_frames(&self, part: usize, reach: usize, wiped: Option<usize>) -> (usize, usize, Vec<u8>) {
        let from = FORM_OFFSET + reach;
        let mut bytes = self.parts[part][from..LENGTHS[part]].to_vec();
        if let Some(frame) = wiped {
            let all = bytes.len();
            let extent = match () {
                () if broken(Fault::WipeOneShort) => all.saturating_sub(1),
                () if broken(Fault::WipeFrameOnly) => all.min(frame.saturating_sub(reach)),
                () => all,
            };
            bytes[..extent].fill(0);
        }
        (part, from, bytes)
    }

    /// The settings store behind these sets: a value stands over the one before, of which only key 6 leaves nothing.
    fn settings_after(&self, stored: &[Stored]) -> Vec<u8> {
        let mut bytes = self.parts[SETTINGS][..LENGTHS[SETTINGS]].to_vec();
        for Stored { key, edition, value } in stored {
            let (place, longest) = state::KEYS[usize::from(*key) - 3];
            let held = &mut bytes[place + VALUE_OFFSET..][..longest];
            if *key == PASSPHRASE && !broken(Fault::PassphraseRest) || broken(Fault::OtherRest) {
                held.fill(0);
            }
            let length = value.len().min(longest);
            held[..length].copy_from_slice(&value[..length]);
            state::put(&mut bytes, place, 1, 1);
            state::put(&mut bytes, place + EDITION_OFFSET, 4, (*edition).into());
            state::put(&mut bytes, place + VALUE_LENGTH_OFFSET, 2, value.len() as u64);
        }
        bytes
    }

    pub fn library(&mut self, call: &Call, lent: &Lent, room: &mut [u8], answer: &mut [u64]) -> u32 {
        let [line, reader, outbox, factory, settings, registers] = &mut self.parts;
        let [line_n, reader_n, outbox_n, factory_n, settings_n, registers_n] = lent.parts;
        assert!(answer.len() >= call.answers());
        let (room_n, room, answer) = (lent.room, room.as_mut_ptr(), answer.as_mut_ptr());
        let images = &self.images;
        let counters = self.block.pointer();
        let mut either = |part: usize| {
            if part == LINE { (line.as_mut_ptr(), line_n) } else { (reader.as_mut_ptr(), reader_n) }
        };
        // Every pointer is to the bytes of a live vector at least as long as the length passed with it, and `answer` to as many numbers as the answer has.
        unsafe {
            match call {
                Call::LineStart { part } => {
                    let (state, n) = either(*part);
                    oatcastle_line_start(state, n)
                }
                Call::LineRead { part, piece } => {
                    let (state, n) = either(*part);
                    oatcastle_line_read(state, n, piece.as_ptr(), piece.len(), answer.cast())
                }
                Call::Collect { part, piece } => {
                    let (state, n) = either(*part);
                    oatcastle_collect(state, n, piece.as_ptr(), piece.len(), answer.cast())
                }
                Call::LineData { part, length } => {
                    let (state, n) = either(*part);
                    oatcastle_line_data(state, n, *length, room, room_n)
                }
                Call::LineTail { part } => {
                    let (state, n) = either(*part);
                    oatcastle_line_tail(state, n, answer.cast())
                }
                Call::LineWrite { version, sequence, command, head, rest } => oatcastle_line_write(
                    *version, *sequence, *command, head.as_ptr(), head.len(), rest.as_ptr(), rest.len(), room, room_n, answer.cast(),
                ),
                Call::Start { data } => oatcastle_start(
                    data.as_ptr(), reader.as_mut_ptr(), reader_n, outbox.as_mut_ptr(), outbox_n, factory.as_mut_ptr(), factory_n,
                    settings.as_mut_ptr(), settings_n, registers.as_mut_ptr(), registers_n,
                ),
                Call::Receive { image, piece } if self.block.lent => oatcastle_receive_counted(
                    counters, images[image.which].as_ptr(), image.length, piece.as_ptr(), piece.len(), reader.as_mut_ptr(), reader_n,
                    outbox.as_mut_ptr(), outbox_n, factory.as_ptr(), factory_n, settings.as_mut_ptr(), settings_n,
                    registers.as_mut_ptr(), registers_n,
                ),
                Call::Receive { image, piece } => oatcastle_receive(
                    images[image.which].as_ptr(), image.length, piece.as_ptr(), piece.len(), reader.as_mut_ptr(), reader_n,
                    outbox.as_mut_ptr(), outbox_n, factory.as_ptr(), factory_n, settings.as_mut_ptr(), settings_n,
                    registers.as_mut_ptr(), registers_n,
                ),
                Call::Step { image, piece } if self.block.lent => oatcastle_step_counted(
                    counters, images[image.which].as_ptr(), image.length, piece.as_ptr(), piece.len(), reader.as_mut_ptr(), reader_n,
                    outbox.as_mut_ptr(), outbox_n, factory.as_ptr(), factory_n, settings.as_mut_ptr(), settings_n,
                    registers.as_mut_ptr(), registers_n, answer.cast(),
                ),
                Call::Step { image, piece } => oatcastle_step(
                    images[image.which].as_ptr(), image.length, piece.as_ptr(), piece.len(), reader.as_mut_ptr(), reader_n,
                    outbox.as_mut_ptr(), outbox_n, factory.as_ptr(), factory_n, settings.as_mut_ptr(), settings_n,
                    registers.as_mut_ptr(), registers_n, answer.cast(),
                ),
                Call::Take => oatcastle_take(outbox.as_mut_ptr(), outbox_n, room, room_n, answer.cast()),
                Call::Post { action, text } => {
                    oatcastle_post(registers.as_mut_ptr(), registers_n, *action, text.as_ptr(), text.len())
                }
                Call::SetOptions { options } => oatcastle_set_options(registers.as_mut_ptr(), registers_n, *options),
                Call::Lookup { key, most } => oatcastle_lookup(
                    factory.as_ptr(), factory_n, settings.as_ptr(), settings_n, *key, *most, room, room_n, answer.cast(),
                ),
                Call::Edition { key } => {
                    oatcastle_edition(factory.as_ptr(), factory_n, settings.as_ptr(), settings_n, *key, answer.cast())
                }
                Call::Save => oatcastle_save(settings.as_ptr(), settings_n, room, room_n, answer.cast()),
                Call::Restore { image } => {
                    oatcastle_restore(settings.as_mut_ptr(), settings_n, image.as_ptr(), image.len(), answer.cast())
                }
                Call::Signal => oatcastle_signal(registers.as_ptr(), registers_n, answer.cast()),
                Call::Flags => oatcastle_flags(registers.as_ptr(), registers_n, answer.cast()),
                Call::BootFailure => oatcastle_boot_failure_record(registers.as_ptr(), registers_n, room, room_n, answer.cast()),
                Call::Panic => oatcastle_panic_record(registers.as_ptr(), registers_n, room, room_n, answer.cast()),
                Call::Addresses { plan } => oatcastle_addresses(plan.base.as_ptr(), plan.count, plan.stride, room, room_n),
                Call::PlanFits { plan } => oatcastle_plan(plan.base.as_ptr(), plan.count, plan.stride),
            }
        }
    }

    fn same(&mut self, what: &str, model: &[u8], library: &[u8]) -> Result<(), String> {
        self.tally.lent += library.len() as u64;
        same(what, model, library)
    }

    fn same_meaning<T: PartialEq + fmt::Debug>(&mut self, part: usize, model: &T, library: &T) -> Result<(), String> {
        self.tally.meant += LENGTHS[part] as u64;
        if model == library {
            return Ok(());
        }
        Err(format!("what the {} holds\n  model   {model:?}\n  library {library:?}", NAMES[part]))
    }

    /// One call on both sides.
    pub fn call(&mut self, call: &Call, lent: &Lent) -> Result<Outcome, String> {
        let fed = matches!(call, Call::Receive { .. } | Call::Step { .. });
        if fed {
            self.block.prepare(&mut self.random, self.counting);
        }
        let block = if fed && self.block.lent { " and the counter block" } else { "" };
        if self.trace {
            println!("call {}: {call}; lent {lent:?}{block}", self.tally.calls + 1);
        }
        self.compare(call, lent).map_err(|difference| format!("call {}: {call}\n  lent {lent:?}{block}\n  {difference}", self.tally.calls))
    }

    fn compare(&mut self, call: &Call, lent: &Lent) -> Result<Outcome, String> {
        let mut room = vec![0; lent.room + GUARD];
        self.random.fill(&mut room);
        let mut answer = pattern(&mut self.random, call.answers() + GUARD / 8);
        for (before, part) in self.before.iter_mut().zip(&self.parts) {
            before.copy_from_slice(part);
        }
        let mut room_expected = room.clone();
        let mut answer_expected = answer.clone();
        let expected = self.expect(call, lent);
        // Empty for a refusal, but where a restore tells a fault's offset.
        room_expected[..expected.room.len()].copy_from_slice(&expected.room);
        answer_expected[..expected.answer.len()].copy_from_slice(&expected.answer);
        if broken(Fault::RefusedAnswers) && expected.code != 0 {
            answer_expected[..call.answers()].fill(0);
        }
        // The library gets its own copy of what it may only read.
        let given = call.clone();
        let code = self.library(&given, lent, &mut room, &mut answer);
        if let Some(kind) = [matches!(call, Call::Receive { .. }), matches!(call, Call::Step { .. })].iter().position(|&fed| fed && code == 0) {
            self.tally.counted[kind][usize::from(self.block.lent)] += 1;
        }
        self.tally.calls += 1;
        self.tally.said += 4;
        if code != 0 {
            *self.tally.refusals.entry(code).or_default() += 1;
        }
        if code != expected.code {
            return Err(format!("the call's number\n  model   {}\n  library {code}", expected.code));
        }
        self.tally.said += 8 * answer.len() as u64 + room.len() as u64;
        if answer != answer_expected {
            return Err(format!("the answer\n  model   {answer_expected:x?}\n  library {answer:x?}"));
        }
        same("the room", &room_expected, &room)?;
        self.block.same()?;
        self.inputs(call, &given)?;
        let before = std::mem::take(&mut self.before);
        let parts = std::mem::take(&mut self.parts);
        let compared = self.same_parts(&expected, &before, &parts);
        self.before = before;
        self.parts = parts;
        compared.map(|()| expected)
    }

    fn same_parts(&mut self, expected: &Outcome, before: &[Vec<u8>; 6], parts: &[Vec<u8>; 6]) -> Result<(), String> {
        for part in LINE..=REGISTERS {
            let bytes = &parts[part][..];
            if !expected.changed[part] {
                self.same(NAMES[part], &before[part], bytes)?;
                continue;
            }
            let (published, past) = bytes.split_at(LENGTHS[part]);
            self.same(&format!("past the {}", NAMES[part]), &before[part][LENGTHS[part]..], past)?;
            if !state::valid(part, published) {
                return Err(format!("the {} holds a value outside docs/STATE.md\n  library {}", NAMES[part], hex(published)));
            }
            let supervisor = &self.supervisor;
            match part {
                LINE => self.same_meaning(part, &self.line.clone(), &state::reader(published))?,
                READER => self.same_meaning(part, &supervisor.reader.clone(), &state::reader(published))?,
                OUTBOX => self.same_meaning(part, &supervisor.outbox.clone(), &state::outbox(published))?,
                FACTORY => self.same_meaning(part, &supervisor.factory.clone(), &state::factory(published))?,
                SETTINGS => self.same_meaning(part, &supervisor.settings.clone(), &state::settings(published))?,
                _ => self.same_meaning(part, &supervisor.registers.clone(), &state::registers(published))?,
            }
        }
        for (part, from, model) in &expected.exact {
            self.same(&format!("{} from {from}", NAMES[*part]), model, &parts[*part][*from..LENGTHS[*part]])?;
        }
        Ok(())
    }

    /// What was lent for reading alone stays.
    fn inputs(&mut self, call: &Call, given: &Call) -> Result<(), String> {
        match (call, given) {
            (Call::LineRead { piece: a, .. }, Call::LineRead { piece: b, .. })
            | (Call::Collect { piece: a, .. }, Call::Collect { piece: b, .. })
            | (Call::Restore { image: a }, Call::Restore { image: b })
            | (Call::Post { text: a, .. }, Call::Post { text: b, .. }) => self.same("what was lent for reading", a, b),
            (Call::Receive { image, piece: a }, Call::Receive { piece: b, .. })
            | (Call::Step { image, piece: a }, Call::Step { piece: b, .. }) => {
                self.same("the piece", a, b)?;
                let (model, library) = (self.pristine[image.which].clone(), self.images[image.which].clone());
                self.same("the image", &model[..image.length], &library[..image.length])
            }
            (Call::LineWrite { head: a, rest: c, .. }, Call::LineWrite { head: b, rest: d, .. }) => {
                self.same("the head", a, b)?;
                self.same("the rest", c, d)
            }
            (Call::Addresses { plan: a }, Call::Addresses { plan: b }) | (Call::PlanFits { plan: a }, Call::PlanFits { plan: b }) => {
                self.same("the base", &a.base, &b.base)
            }
            (Call::Start { data: a }, Call::Start { data: b }) => self.same("the start data", &a[..], &b[..]),
            _ => Ok(()),
        }
    }
}
