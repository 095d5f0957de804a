// Defines two supervisors that differ only in key 6's setting. Both get the same calls, but for sets of key 6 with values of their own
// (apart.rs). All that they answer, write and leave is compared. Assumes that no call brings either edition to its end. With a fault of the
// model in an answer, what the model says of each stands for what the library does.

use crate::apart;
use crate::calls::{answered, pattern, same, Call, Lent};
use crate::library::StepAnswer;
use crate::model::{self, break_rule, Fault, Reader, FAULTS, LAST_EDITION, PASSPHRASE, SHORTEST_PASSPHRASE};
use crate::random::Random;
use crate::state::{self, LENGTHS, LINE, NAMES, PASSPHRASE_OFFSET, READER, REGISTERS, SETTINGS, START_LENGTH};
use crate::traffic;
use crate::world::World;

/// In a run of so many calls each of these must have come up so often at least: `Tally`.
const DEMANDED: u64 = 10_000;
const DEMANDED_TIMES: u64 = 50;

/// The faults with which an answer tells of key 6.
const LEAKS: [Fault; 5] = [
    Fault::PassphraseHandedOut, Fault::PassphraseNoValue, Fault::PassphraseTooLong, Fault::PassphraseEdition, Fault::StepPassphraseHeld,
];

/// A set or a lookup of key 6.
fn about_passphrase(random: &mut Random) -> Vec<u8> {
    let (version, sequence) = (random.pick(&[1, 2]), random.next() >> 1);
    let mut data = vec![PASSPHRASE];
    if random.percent(50) {
        data.extend_from_slice(&random.pick(&[0, 7, 8, 63, 64, u16::MAX]).to_le_bytes());
        return model::frame(version, sequence, 0x0e, &data);
    }
    let length = random.pick(&[0, 7, 8, 9, 20, 62, 63, 64]);
    data.extend(random.bytes(length));
    model::frame(version, sequence, 0x10, &data)
}

/// What one twin answers and writes outside its state: the call's number, the answer and the room.
pub type Said = (u32, Vec<u64>, Vec<u8>);

/// How often what came up.
#[derive(Debug, Default)]
pub struct Tally {
    /// The settings were made to differ by their bytes.
    planted: u64,
    /// A local call asked for key 6, a call has stored it, and a step has told of a set of it.
    asked: u64,
    stored: u64,
    told: u64,
    /// Each twin set a value of its own: stored, and refused.
    pub set_apart: u64,
    pub refused_apart: u64,
    /// A call of the line layer read the reader's part behind such a set, before the next frame.
    lined: u64,
}

pub struct Twins {
    pub random: Random,
    pub worlds: [World; 2],
    /// Whether the models speak, and not the libraries.
    pub models: bool,
    pub calls: u64,
    /// Bytes of numbers, answers and rooms, and of parts.
    said: u64,
    lent: u64,
    pub tally: Tally,
    /// Whether the reader's part has read nothing since the twins set values of their own.
    pub behind: bool,
}

impl Twins {
    fn new(seed: u64, models: bool) -> Twins {
        let worlds = [World::new(seed, false), World::new(seed, false)];
        Twins { random: Random(seed ^ 0x7777), worlds, models, calls: 0, said: 0, lent: 0, tally: Tally::default(), behind: false }
    }

    /// Each twin gets a setting of key 6 of its own: held, of any length and edition far from the end, or not; any bytes stand past it.
    fn plant(&mut self) {
        for world in &mut self.worlds {
            let random = &mut self.random;
            let setting = &mut world.parts[SETTINGS][PASSPHRASE_OFFSET..LENGTHS[SETTINGS]];
            random.fill(setting);
            let (held, longest) = (random.percent(60), model::LONGEST[3]);
            let length = SHORTEST_PASSPHRASE + random.below(longest - SHORTEST_PASSPHRASE + 1);
            let edition = random.next() % u64::from(LAST_EDITION / 2);
            state::put(setting, 0, 1, u64::from(held));
            state::put(setting, state::EDITION_OFFSET, 4, if held { edition } else { 0 });
            state::put(setting, state::VALUE_LENGTH_OFFSET, 2, if held { length as u64 } else { 0 });
            world.supervisor.settings = state::settings(&world.parts[SETTINGS]);
        }
        self.tally.planted += 1;
    }

    /// A call and what is lent with it; the first twin's state guides the choice.
    fn next(&mut self) -> (Call, Lent) {
        let first = &mut self.worlds[0];
        if !self.models {
            first.mean();
        }
        if first.wires[1].is_empty() && first.random.percent(40) {
            let request = about_passphrase(&mut first.random);
            first.wires[1].extend(request);
        }
        let call = match first.random.below(400) {
            _ if self.behind && first.random.percent(30) => {
                let kind = first.random.below(3);
                first.make(kind, READER)
            }
            0 => Call::Start { data: Box::new(traffic::start_data(&mut first.random)) },
            1 => Call::LineStart { part: first.random.below(2) },
            2..=150 => {
                let kind = first.random.pick(&[4, 5]);
                first.make(kind, LINE)
            }
            151..=200 => Call::Take,
            201..=230 => Call::Lookup { key: PASSPHRASE, most: first.random.pick(&[0, 7, 8, 63, 64, u16::MAX]) },
            231..=240 => Call::Edition { key: PASSPHRASE },
            _ => first.any_call(None),
        };
        let lent = first.lend(&call);
        (call, lent)
    }

    /// One twin's call, lent the counter block or not, or as chance has it.
    pub fn answered(&mut self, twin: usize, call: &Call, lent: &Lent, seed: u64, counting: Option<bool>) -> Said {
        let world = &mut self.worlds[twin];
        let mut fill = Random(seed);
        let mut room = vec![0; lent.room];
        fill.fill(&mut room);
        let mut answer = pattern(&mut fill, call.answers());
        world.block.prepare(&mut fill, counting);
        if !self.models {
            return (world.library(call, lent, &mut room, &mut answer), answer, room);
        }
        let outcome = world.expect(call, lent);
        room[..outcome.room.len()].copy_from_slice(&outcome.room);
        answer[..outcome.answer.len()].copy_from_slice(&outcome.answer);
        (outcome.code, answer, room)
    }

    fn turn(&mut self) -> Result<(), String> {
        if self.random.percent(20) && self.between_frames() {
            return apart::set(self);
        }
        let (call, lent) = self.next();
        self.same_call(&call, &lent, true)?;
        if self.random.percent(1) {
            self.plant();
        }
        Ok(())
    }

    /// Whether the readers stand between frames, and the wire too.
    fn between_frames(&self) -> bool {
        let first = &self.worlds[0];
        let reader = if self.models { first.supervisor.reader.clone() } else { state::reader(&first.parts[READER]) };
        first.wires[1].is_empty() && reader == Reader::default()
    }

    /// The same call on both; `whole` tells whether no set of values of their own is partly received.
    pub fn same_call(&mut self, call: &Call, lent: &Lent, whole: bool) -> Result<(), String> {
        let seed = self.random.next();
        let before = self.worlds[0].parts[SETTINGS][PASSPHRASE_OFFSET..].to_vec();
        let [first, second] = [0, 1].map(|twin| self.answered(twin, call, lent, seed, None));
        self.calls += 1;
        self.said += 4 + 8 * first.1.len() as u64 + first.2.len() as u64;
        let difference = |what: String| format!("call {}: {call}\n  lent {lent:?}\n  {what}", self.calls);
        if (first.0, &first.1) != (second.0, &second.1) {
            return Err(difference(format!("the number and the answer\n  one   {} {:x?}\n  other {} {:x?}", first.0, first.1, second.0, second.1)));
        }
        same("the room", &first.2, &second.2).map_err(difference)?;
        self.same_state(whole).map_err(|what| format!("call {}: {call}\n  {what}", self.calls))?;
        self.tally.stored += u64::from(before != self.worlds[0].parts[SETTINGS][PASSPHRASE_OFFSET..] && !call.starts());
        self.noted(call, &first);
        Ok(())
    }

    /// The state outside key 6's setting, the bytes past the parts and the counter blocks; the reader's part where no set of values of their own is
    /// partly received.
    pub fn same_state(&mut self, whole: bool) -> Result<(), String> {
        let [first, second] = &self.worlds;
        for part in LINE..=REGISTERS {
            let (one, other) = (&first.parts[part][..], &second.parts[part][..]);
            self.lent += one.len() as u64;
            if part == READER && !whole {
                same("past the reader", &one[LENGTHS[part]..], &other[LENGTHS[part]..])?;
            } else if part == SETTINGS {
                same(NAMES[part], &one[..PASSPHRASE_OFFSET], &other[..PASSPHRASE_OFFSET])?;
                same("past the settings", &one[LENGTHS[part]..], &other[LENGTHS[part]..])?;
            } else {
                same(NAMES[part], one, other)?;
            }
        }
        first.block.alike(&second.block)
    }

    /// The wires move on, and what was asked of key 6 is counted.
    fn noted(&mut self, call: &Call, said: &Said) {
        if said.0 != 0 {
            return;
        }
        let used = call.used(&said.1);
        self.worlds[0].advance(call.wire(), used);
        self.tally.lined += u64::from(self.behind && matches!(call, Call::LineData { part: READER, length: 100.. } | Call::LineTail { part: READER }));
        self.behind &= !(call.parts().contains(&READER) && (used > 0 || call.starts()));
        match call {
            Call::Lookup { key: PASSPHRASE, .. } | Call::Edition { key: PASSPHRASE } => self.tally.asked += 1,
            Call::Step { .. } => self.tally.told += u64::from(answered::<StepAnswer>(&said.1).key == PASSPHRASE.into()),
            _ => {}
        }
    }

    /// Both are started with the same start data.
    fn begin(&mut self) {
        let mut data = Box::new([0; START_LENGTH]);
        data[0] = 0x41;
        let whole = Lent { parts: LENGTHS, room: 0 };
        for world in &mut self.worlds {
            for call in [Call::LineStart { part: LINE }, Call::Start { data: data.clone() }] {
                assert_eq!(world.library(&call, &whole, &mut [], &mut []), 0);
            }
            world.mean();
        }
    }

    fn run(&mut self, count: u64) -> Result<(), String> {
        self.begin();
        while self.calls < count {
            self.turn()?;
        }
        Ok(())
    }
}

/// A leak must show: one in an answer between two models, one in what stays of a set's frame between two libraries.
fn leaked(leak: Fault, models: bool, seed: u64, count: u64) -> Result<(), String> {
    let place = FAULTS.iter().position(|&(fault, _)| fault == leak).unwrap();
    break_rule(place + 1);
    let mut twins = Twins::new(seed, models);
    let found = twins.run(count).is_err();
    break_rule(0);
    if !found {
        return Err(format!("a leak ({}) is not found in {count} calls", FAULTS[place].1));
    }
    println!("two supervisors, a leak ({}): found after {} calls", FAULTS[place].1, twins.calls);
    Ok(())
}

/// Each leak must show, and nothing between two models without one; then nothing between two libraries.
pub fn compare(seed: u64, count: u64) -> Result<String, String> {
    for leak in LEAKS {
        leaked(leak, true, seed, count)?;
    }
    for leak in apart::LEAKS {
        leaked(leak, false, seed, count)?;
    }
    Twins::new(seed, true).run(count)?;
    let mut twins = Twins::new(seed, false);
    twins.run(count)?;
    let Twins { calls, said, lent, tally, .. } = twins;
    let Tally { planted, asked, stored, told, set_apart, refused_apart, lined } = tally;
    let times = format!(
        "key 6 made to differ {planted} times, asked for {asked}, stored {stored}, told by a step {told}, set to two values {set_apart}, refused as two values {refused_apart}, \
         the reader's part read behind these {lined}"
    );
    if count >= DEMANDED && [planted, asked, stored, told, set_apart, refused_apart, lined].iter().any(|&times| times < DEMANDED_TIMES) {
        return Err(format!("too seldom: {times}"));
    }
    Ok(format!("{calls} calls on two supervisors, {said} bytes of answers and rooms and {lent} of parts compared; {times}"))
}
