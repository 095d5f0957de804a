// Defines the random histories: which call comes next, with what arguments, on parts that are right, short, changed or random.
// Assumes nothing of the library; every call goes through the comparison.

use crate::calls::{Call, Image, Lent};
use crate::images;
use crate::model::{self, Supervisor};
use crate::plans::Plan;
use crate::random::Random;
use crate::state::{self, Allowed, FACTORY, LENGTHS, LINE, READER, REGISTERS, SETTINGS};
use crate::traffic;
use crate::world::{World, TAIL};

/// Kinds of calls other than the two that start.
const KINDS: usize = 20;

impl World {
    fn image(&mut self) -> Image {
        let which = self.random.below(self.images.len());
        let most = self.images[which].len();
        let length = if self.random.percent(80) { most } else { self.random.below(most + 1) };
        Image { which, length }
    }

    /// A piece of the wire for the line state (0) or the supervisor (1).
    fn piece(&mut self, wire: usize, image: usize) -> Vec<u8> {
        if self.wires[wire].is_empty() {
            for _ in 0..1 + self.random.below(4) {
                let bytes = traffic::next(&mut self.random, &self.supervisor, image);
                self.wires[wire].extend(bytes);
            }
        }
        let held = &self.wires[wire];
        let stop = held.iter().position(|&byte| byte == 0).unwrap_or(held.len());
        let random = &mut self.random;
        let length = match random.below(9) {
            0 => 0,
            1 => 1,
            2 => random.below(8),
            3 => stop,
            4 | 5 => stop + 1,
            6 => random.below(300),
            7 => random.below(5000),
            _ => held.len(),
        };
        held[..length.min(held.len())].to_vec()
    }

    pub fn advance(&mut self, wire: usize, used: usize) {
        self.tally.fed += used as u64;
        self.wires[wire].drain(..used);
    }

    fn feed(&mut self) -> Result<(), String> {
        let image = self.image();
        let piece = self.piece(1, image.length);
        let call = match self.random.below(6) {
            0 => Call::Collect { part: READER, piece },
            1 | 2 => Call::Step { image, piece },
            _ => Call::Receive { image, piece },
        };
        let lent = self.lend(&call);
        let outcome = self.call(&call, &lent)?;
        if outcome.code == 0 {
            self.advance(1, call.used(&outcome.answer));
        }
        Ok(())
    }

    fn read(&mut self) -> Result<(), String> {
        let part = if self.random.percent(90) { LINE } else { READER };
        let piece = self.piece(part, 0);
        let call = if self.random.percent(25) { Call::Collect { part, piece } } else { Call::LineRead { part, piece } };
        let lent = self.lend(&call);
        let outcome = self.call(&call, &lent)?;
        if outcome.code == 0 {
            self.advance(part, call.used(&outcome.answer));
            if self.handed[part].is_some() && self.random.percent(70) {
                let length = self.handed[part].as_ref().map_or(0, Vec::len) as u64;
                let call = Call::LineData { part, length };
                let lent = self.lend(&call);
                self.call(&call, &lent)?;
            }
        }
        Ok(())
    }

    /// A call of this kind, other than start, with random arguments.
    pub fn make(&mut self, kind: usize, target: usize) -> Call {
        let image = self.image();
        let random = &mut self.random;
        match kind {
            0 => {
                let piece = self.piece(target, 0);
                Call::LineRead { part: target, piece }
            }
            1 => {
                let handed = self.handed[target].as_ref().map_or(0, |data| data.len() as u64);
                let length = random.pick(&[handed, handed, 0, 1, 4103, 4104, 4105, 1 << 32, u64::MAX]);
                Call::LineData { part: target, length }
            }
            2 => Call::LineTail { part: target },
            3 => self.write_call(),
            4 => {
                let piece = self.piece(1, image.length);
                Call::Receive { image, piece }
            }
            5 => {
                let piece = self.piece(1, image.length);
                Call::Step { image, piece }
            }
            6 => Call::Take,
            7 => {
                let length = match random.below(4) {
                    0 => random.pick(&[0, 1, 255, 256]),
                    1 => random.pick(&[257, 258, 4104, 4105]),
                    _ => random.below(257),
                };
                let action = if random.percent(85) { 1 + random.below(255) as u8 } else { 0 };
                Call::Post { action, text: random.bytes(length) }
            }
            8 => {
                let options = match random.below(4) {
                    0 => 1 << random.below(64),
                    1 => random.pick(&[0, 256, 511, 512, 1023, 1 << 63, u64::MAX]),
                    2 => random.next(),
                    _ => random.next() & 511,
                };
                Call::SetOptions { options }
            }
            9 => {
                let key = if random.percent(90) { random.below(8) as u8 } else { random.byte() };
                let (_, value) = model::lookup(&self.supervisor.factory, &self.supervisor.settings, key, u16::MAX);
                let held = value.len() as u16;
                let most = random.pick(&[held, held, held.saturating_sub(1), held + 1, 0, 3, 4, 8, u16::MAX, u16::MAX, u16::MAX]);
                Call::Lookup { key, most }
            }
            10 => Call::Signal,
            11 => Call::Flags,
            12 => Call::BootFailure,
            13 => Call::Panic,
            14 => Call::Addresses { plan: Plan::random(random) },
            15 => Call::PlanFits { plan: Plan::random(random) },
            16 => Call::Save,
            17 => Call::Restore { image: images::random_image(random, &self.supervisor.settings) },
            18 => Call::Edition { key: if random.percent(90) { random.below(8) as u8 } else { random.byte() } },
            _ => {
                let piece = self.piece(target, 0);
                Call::Collect { part: target, piece }
            }
        }
    }

    /// A call other than start, one that takes the part if one is given.
    pub fn any_call(&mut self, part: Option<usize>) -> Call {
        loop {
            let kind = if self.random.percent(75) { self.random.below(KINDS) } else { self.random.pick(&[9, 9, 12, 13, 18]) };
            let target = part.filter(|&part| part <= READER).unwrap_or(if self.random.percent(85) { LINE } else { READER });
            let call = self.make(kind, target);
            if part.is_none_or(|part| call.parts().contains(&part)) {
                return call;
            }
        }
    }

    fn write_call(&mut self) -> Call {
        let random = &mut self.random;
        if random.percent(8) {
            return full_group_call(random);
        }
        let length = match random.below(5) {
            0 => random.pick(&[0, 1, 251, 505, 4103, 4104, 4105, 4106, 5000]),
            1 => (254 * (1 + random.below(17))).saturating_sub(3 + random.below(20)),
            2 => random.below(4200),
            _ => random.below(300),
        };
        let data = random.bytes(length);
        let cut = match random.below(3) {
            0 => 0,
            1 => length,
            _ => random.below(length + 1),
        };
        Call::LineWrite {
            version: if random.percent(50) { 1 } else { random.next() as u32 },
            sequence: traffic::sequence(random, &self.supervisor) | random.next() & model::TOP_BIT,
            command: random.byte(),
            head: data[..cut].to_vec(),
            rest: data[cut..].to_vec(),
        }
    }

    /// Posts until the alerts are full and past that, or takes some by requests.
    fn alerts(&mut self) -> Result<(), String> {
        for _ in 0..1 + self.random.below(11) {
            let length = self.random.pick(&[0, 3, 256, 257]);
            let action = self.random.pick(&[0, 1, 1, 1, 2, 255]);
            let text = self.random.bytes(length);
            let call = Call::Post { action, text };
            let lent = self.lend(&call);
            self.call(&call, &lent)?;
        }
        Ok(())
    }

    /// Any call but those that start, on parts as they are; the wires move on with it.
    fn other(&mut self, part: Option<usize>) -> Result<(), String> {
        let call = self.any_call(part);
        self.run(&call)
    }

    fn run(&mut self, call: &Call) -> Result<(), String> {
        let lent = self.lend(call);
        let outcome = self.call(call, &lent)?;
        if outcome.code == 0 {
            self.advance(call.wire(), call.used(&outcome.answer));
        }
        Ok(())
    }

    fn start(&mut self) -> Result<bool, String> {
        let data = Box::new(traffic::start_data(&mut self.random));
        let call = Call::Start { data };
        let lent = self.lend(&call);
        Ok(self.call(&call, &lent)?.code == 0)
    }

    fn line_start(&mut self, part: usize) -> Result<bool, String> {
        let call = Call::LineStart { part };
        let lent = self.lend(&call);
        Ok(self.call(&call, &lent)?.code == 0)
    }

    /// One field of one part gets a forbidden value: every call that takes the part refuses, a start does not.
    fn forbid(&mut self) -> Result<(), String> {
        let part = self.random.below(6);
        let fields = state::fields(part, &self.parts[part]);
        let field = &fields[self.random.below(fields.len())];
        let held = field.value(&self.parts[part]);
        let value = match self.random.below(4) {
            0 | 1 => self.random.pick(&field.past()),
            2 => u64::MAX,
            _ => self.random.next(),
        } & field.most();
        if field.allows(value) {
            return Ok(());
        }
        state::put(&mut self.parts[part], field.place, field.width, value);
        self.tally.fields.insert((part, field.place));
        for _ in 0..2 + self.random.below(6) {
            let taking = if self.random.percent(85) { Some(part) } else { None };
            self.other(taking)?;
        }
        if self.random.percent(10) && part != LINE && self.start()? {
            return Ok(());
        }
        if self.random.percent(30) && part <= READER && self.line_start(part)? {
            return Ok(());
        }
        state::put(&mut self.parts[part], field.place, field.width, held);
        Ok(())
    }

    /// Every field of every part, with all items and 8 alerts, gets forbidden values; every call that takes the part refuses.
    fn sweep(&mut self) -> Result<(), String> {
        self.scatter();
        state::put(&mut self.parts[FACTORY], state::COUNT_OFFSET, 4, model::MOST_ITEMS as u64);
        state::put(&mut self.parts[REGISTERS], 1052, 1, 8);
        for part in LINE..=REGISTERS {
            self.settle(part);
        }
        self.mean();
        for part in LINE..=REGISTERS {
            for field in state::fields(part, &self.parts[part]) {
                let held = field.value(&self.parts[part]);
                let values: Vec<u64> = [u64::MAX, 1 << (8 * field.width - 1), self.random.next()]
                    .iter()
                    .chain(&field.past())
                    .map(|value| value & field.most())
                    .filter(|&value| !field.allows(value))
                    .collect();
                for value in values {
                    state::put(&mut self.parts[part], field.place, field.width, value);
                    self.tally.fields.insert((part, field.place));
                    for kind in 0..KINDS {
                        let call = self.make(kind, part.min(READER));
                        if call.parts().contains(&part) {
                            self.run(&call)?;
                        }
                    }
                }
                state::put(&mut self.parts[part], field.place, field.width, held);
            }
        }
        Ok(())
    }

    /// A set of each key, and of one that is none, with values at every limit and next to it.
    fn set_lengths(&mut self) -> Result<(), String> {
        for key in 0..=model::PASSPHRASE + 1 {
            for length in [0, 7, 8, 63, 64, 256, 257, 1024, 1025, 4096, 4097] {
                let data = [&[key], &self.random.bytes(length)[..]].concat();
                let piece = model::frame(1, 1, 0x10, &data);
                self.call(&Call::Step { image: Image { which: 0, length: 0 }, piece }, &Lent { parts: LENGTHS, room: 0 })?;
            }
        }
        Ok(())
    }

    /// These sets behind a start, and then with every setting at its last edition.
    fn set_limits(&mut self) -> Result<(), String> {
        while !self.start()? {}
        self.set_lengths()?;
        for (place, _) in state::KEYS {
            state::put(&mut self.parts[SETTINGS], place + state::EDITION_OFFSET, 4, u64::from(model::LAST_EDITION));
        }
        self.mean();
        self.set_lengths()
    }

    /// The model's state is what the parts hold.
    pub fn mean(&mut self) {
        let [line, reader, outbox, factory, settings, registers] = &self.parts;
        self.line = state::reader(line);
        self.supervisor = Supervisor {
            reader: state::reader(reader),
            outbox: state::outbox(outbox),
            factory: state::factory(factory),
            settings: state::settings(settings),
            registers: state::registers(registers),
        };
        self.handed = [None, None];
    }

    fn allowed_value(&mut self, allowed: &Allowed) -> u64 {
        match *allowed {
            Allowed::UpTo(most) => self.random.pick(&[0, most, most]).min(self.random.next() % (most + 1)),
            Allowed::ZeroOr(..) if self.random.percent(30) => 0,
            Allowed::Between(lower, upper) | Allowed::ZeroOr(lower, upper) => lower + self.random.next() % (upper - lower + 1),
            Allowed::OneOf(values) => self.random.pick(values),
        }
    }

    /// One field gets another allowed value: calls refuse exactly where another field depends on it and is now forbidden.
    fn allow(&mut self) -> Result<(), String> {
        let part = self.random.below(6);
        let fields = state::fields(part, &self.parts[part]);
        let field = &fields[self.random.below(fields.len())];
        let held = field.value(&self.parts[part]);
        let value = match (self.random.below(3), &field.allowed) {
            (0, Allowed::UpTo(most)) => *most,
            _ => self.allowed_value(&field.allowed),
        };
        state::put(&mut self.parts[part], field.place, field.width, value);
        if state::valid(part, &self.parts[part]) {
            self.mean();
            return Ok(());
        }
        self.other(Some(part))?;
        state::put(&mut self.parts[part], field.place, field.width, held);
        Ok(())
    }

    /// Key 6 with and without a value, and each length at the edges of those that 12 allows.
    fn passphrase_lengths(&mut self) -> Result<(), String> {
        let stored = self.parts[SETTINGS].clone();
        for held in [0, 1] {
            for length in [0, 1, 7, 8, 63, 64, 65535] {
                state::put(&mut self.parts[SETTINGS], state::PASSPHRASE_OFFSET, 1, held);
                state::put(&mut self.parts[SETTINGS], state::PASSPHRASE_OFFSET + state::VALUE_LENGTH_OFFSET, 2, length);
                self.call(&Call::Edition { key: 3 }, &Lent { parts: LENGTHS, room: 0 })?;
            }
        }
        self.parts[SETTINGS] = stored;
        self.mean();
        Ok(())
    }

    /// Every part gets random bytes, with allowed values in its fields; some values are at their last edition.
    fn scatter(&mut self) {
        for part in LINE..=REGISTERS {
            self.parts[part] = self.random.bytes(LENGTHS[part] + TAIL);
            self.settle(part);
        }
        for (place, _) in state::KEYS {
            if self.parts[SETTINGS][place] == 1 && self.random.percent(80) {
                let edition = self.random.pick(&[0, model::LAST_EDITION - 1, model::LAST_EDITION, model::LAST_EDITION]);
                state::put(&mut self.parts[SETTINGS], place + state::EDITION_OFFSET, 4, u64::from(edition));
            }
        }
        self.mean();
    }

    /// Every field of the part that holds a forbidden value gets an allowed one.
    fn settle(&mut self, part: usize) {
        while !state::valid(part, &self.parts[part]) {
            for field in state::fields(part, &self.parts[part]) {
                if !field.allows(field.value(&self.parts[part])) {
                    let value = self.allowed_value(&field.allowed);
                    state::put(&mut self.parts[part], field.place, field.width, value);
                }
            }
        }
    }

    /// A frame byte by byte, all pending output taken after each.
    fn replay(&mut self) -> Result<(), String> {
        let image = self.image();
        if self.wires[1].len() > 100 {
            return Ok(());
        }
        let frame = traffic::next(&mut self.random, &self.supervisor, image.length);
        if frame.len() > 100 {
            return Ok(());
        }
        self.wires[1].extend(frame);
        while !self.wires[1].is_empty() {
            let call = Call::Receive { image, piece: vec![self.wires[1][0]] };
            let whole = Lent { parts: LENGTHS, room: 0 };
            self.call(&call, &whole)?;
            self.advance(1, 1);
            self.call(&Call::Take, &Lent { room: 5000, ..whole })?;
        }
        Ok(())
    }

    fn act(&mut self) -> Result<(), String> {
        match self.random.below(1000) {
            0..=359 => self.feed(),
            360..=489 => {
                let lent = self.lend(&Call::Take);
                self.call(&Call::Take, &lent).map(|_| ())
            }
            490..=629 => self.read(),
            630..=899 => self.other(None),
            900..=904 => self.start().map(|_| ()),
            905..=912 => {
                let part = if self.random.percent(80) { LINE } else { READER };
                self.line_start(part).map(|_| ())
            }
            913..=917 => self.alerts(),
            918..=952 => self.forbid(),
            953..=971 => self.allow(),
            972 => self.passphrase_lengths(),
            973..=996 => {
                self.scatter();
                Ok(())
            }
            _ => self.replay(),
        }
    }

    pub fn history(&mut self, count: u64) -> Result<(), String> {
        self.sweep()?;
        while !self.line_start(LINE)? {}
        self.set_limits()?;
        while !self.start()? {}
        while self.tally.calls < count {
            self.act()?;
        }
        Ok(())
    }
}

/// A message whose form ends in a full group.
fn full_group_call(random: &mut Random) -> Call {
    let length = 254 * (1 + random.below(16)) - 3;
    let sequence = random.next() >> 8;
    let command = 1 + random.below(255) as u8;
    loop {
        let data = random.bytes_of(1, length);
        let sums = model::checksum(&model::body(model::MAGIC, 1, sequence, command, &data));
        if !sums.to_le_bytes().contains(&0) {
            let cut = random.below(length + 1);
            return Call::LineWrite { version: 1, sequence, command, head: data[..cut].to_vec(), rest: data[cut..].to_vec() };
        }
    }
}
