// Defines the counter block of document 02's item 8 on both sides: the model's numbers of frames, the library's block, and directed cases.
// Assumes nothing but that item; a fault changes one rule, as in the model.

use crate::calls::{Call, Image, Lent};
use crate::library::{oatcastle_clear_counters, Counters};
use crate::model::{self, broken, Fault, Told};
use crate::random::Random;
use crate::state::{LENGTHS, START_LENGTH};
use crate::world::World;

const MOST: u32 = u32::MAX;
/// Places of the counters: good requests, empty frames, and reason r at REASON + r.
const GOOD: usize = 0;
const EMPTY: usize = 1;
const REASON: usize = 1;

/// The library's nine counters between two numbers that must stay, and how many frames of each kind the model has met since they were cleared.
pub struct Block {
    held: [u32; 11],
    met: [u64; 9],
    /// Whether the next receive or step is lent the block.
    pub lent: bool,
}

impl Block {
    pub fn new() -> Block {
        Block { held: [0x5a5a_5a5a; 11], met: [0x5a5a_5a5a; 9], lent: false }
    }

    pub fn pointer(&mut self) -> *mut Counters {
        self.held[1..].as_mut_ptr().cast()
    }

    /// Before a receive or a step, which is lent the block or not: at times the block is cleared, or its caller gives a counter another value, most of them near the largest.
    pub fn prepare(&mut self, random: &mut Random, lent: Option<bool>) {
        self.lent = lent.unwrap_or_else(|| random.percent(60));
        if lent.is_some() {
            return;
        }
        if random.percent(2) {
            self.clear();
        }
        if random.percent(4) {
            let place = random.below(9);
            let other = random.next() as u32;
            self.set(place, random.pick(&[MOST, MOST - 1, MOST - 2, other]));
        }
    }

    pub fn clear(&mut self) {
        // The pointer is to nine live numbers.
        let number = unsafe { oatcastle_clear_counters(self.pointer()) };
        assert_eq!(number, 0);
        self.met = [0; 9];
    }

    fn set(&mut self, place: usize, value: u32) {
        self.held[1 + place] = value;
        self.met[place] = u64::from(value);
    }

    /// The frames that a receive ended: kind (0 none, 1 empty, 2 request, 3 failure) and reason; whether it left an overlong frame unfinished.
    pub fn count(&mut self, ends: &[(u8, u8)], overlong: bool) {
        if !self.lent {
            return;
        }
        for &(kind, reason) in ends.iter().filter(|end| end.0 != 0) {
            let place = match (kind, reason) {
                (1, _) => EMPTY,
                (2, _) => GOOD,
                (_, 5..) if broken(Fault::CounterLineGood) => GOOD,
                (_, 5 | 6) if broken(Fault::CounterExchanged) => REASON + usize::from(11 - reason),
                _ => REASON + usize::from(reason),
            };
            if kind != 1 || !broken(Fault::CounterEmptyIgnored) {
                self.met[place] += 1;
            }
            if broken(Fault::CounterFirstOnly) {
                break;
            }
        }
        if overlong && broken(Fault::CounterOverlongEarly) {
            self.met[REASON + 1] += 1;
        }
    }

    /// The frame that a step ended, if one; whether it left an overlong frame unfinished.
    pub fn count_step(&mut self, told: &Told, overlong: bool) {
        let times = if broken(Fault::CounterStepNothing) { 0 } else { 1 + u8::from(broken(Fault::CounterStepTwice)) };
        for _ in 0..times {
            self.count(&[(told.kind, told.reason)], overlong);
        }
    }

    /// A receive or a step that is refused counts nothing, whatever its piece ends.
    pub fn refuse(&mut self, piece: &[u8]) {
        if self.lent && piece.contains(&0) && broken(Fault::CounterRefused) {
            self.met[EMPTY] += 1;
        }
    }

    /// A start that is accepted drops an unfinished frame.
    pub fn drop_frame(&mut self, unfinished: bool) {
        if unfinished && broken(Fault::CounterStartCounts) {
            self.met[EMPTY] += 1;
        }
    }

    /// Whether another supervisor's block holds the same.
    pub fn alike(&self, other: &Block) -> Result<(), String> {
        if (self.held, self.met) == (other.held, other.met) {
            return Ok(());
        }
        Err(format!("the counter block\n  one   {:?}\n  other {:?}", self.held, other.held))
    }

    pub fn same(&self) -> Result<(), String> {
        let mut model = [0x5a5a_5a5a; 11];
        for (place, &met) in self.met.iter().enumerate() {
            model[1 + place] = if broken(Fault::CounterWraps) { met as u32 } else { met.min(u64::from(MOST)) as u32 };
        }
        if model == self.held {
            return Ok(());
        }
        Err(format!("the counter block (lent: {})\n  model   {:?}\n  library {:?}", self.lent, model, self.held))
    }
}

/// A frame of each outcome: good, empty, reason 1 by its form and by its length, 2, 3 by its length and by its command, 4, 5, 6, 7.
fn every_outcome() -> Vec<u8> {
    let framed = |mut message: Vec<u8>, spoil: u16| {
        let sums = model::checksum(&message) ^ spoil;
        message.extend_from_slice(&sums.to_le_bytes());
        [model::cobs(&message), vec![0]].concat()
    };
    let whole = |magic, version, sequence, command, data: &[u8]| framed(model::body(magic, version, sequence, command, data), 0);
    [
        whole(model::MAGIC, 1, 1, 8, &[]),
        vec![0],
        vec![2, 0],
        [vec![7; 4141], vec![0]].concat(),
        framed(model::body(model::MAGIC, 1, 2, 8, &[]), 1),
        vec![1, 0],
        whole(model::MAGIC, 1, 3, 0x0b, &[]),
        whole(model::MAGIC ^ 1, 1, 4, 8, &[]),
        whole(model::MAGIC, 3, 5, 8, &[]),
        whole(model::MAGIC, 1, 6 | model::TOP_BIT, 8, &[]),
        whole(model::MAGIC, 1, 7, 8, &[1]),
    ]
    .concat()
}

const EVERY: [u32; 9] = [1, 1, 2, 1, 2, 1, 1, 1, 1];

fn expect(world: &World, what: &str, numbers: [u32; 9]) -> Result<(), String> {
    if world.block.held[1..10] == numbers { Ok(()) } else { Err(format!("{what}: {:?}, not {numbers:?}", &world.block.held[1..10])) }
}

fn no_image() -> Image {
    Image { which: 0, length: 0 }
}

fn receive(world: &mut World, piece: &[u8], lent: &Lent) -> Result<(), String> {
    world.counting = Some(true);
    let result = world.call(&Call::Receive { image: no_image(), piece: piece.to_vec() }, lent);
    world.counting = None;
    result.map(|_| ())
}

/// Steps until the piece is read, or one is refused.
fn steps(world: &mut World, piece: &[u8], lent: &Lent) -> Result<(), String> {
    world.counting = Some(true);
    let mut rest = piece;
    while !rest.is_empty() {
        let call = Call::Step { image: no_image(), piece: rest.to_vec() };
        let outcome = world.call(&call, lent)?;
        rest = if outcome.code == 0 { &rest[call.used(&outcome.answer)..] } else { &[] };
    }
    world.counting = None;
    Ok(())
}

/// The directed cases, by receives and by steps.
pub fn cases(world: &mut World) -> Result<(), String> {
    by(world, receive)?;
    by(world, steps)
}

/// Every outcome, in one piece and byte by byte; at 4,294,967,294 and 4,294,967,295; a start in the middle of a frame; a refused call; a frame from before the clear.
fn by(world: &mut World, receive: fn(&mut World, &[u8], &Lent) -> Result<(), String>) -> Result<(), String> {
    let whole = Lent { parts: LENGTHS, room: 0 };
    let start = |world: &mut World| {
        let mut data = Box::new([0; START_LENGTH]);
        data[0] = 0x41;
        world.call(&Call::Start { data }, &whole)
    };
    start(world)?;
    world.block.clear();
    receive(world, &every_outcome(), &whole)?;
    expect(world, "every outcome in one piece", EVERY)?;
    world.block.clear();
    for byte in every_outcome() {
        receive(world, &[byte], &whole)?;
    }
    expect(world, "every outcome byte by byte", EVERY)?;
    for most in [MOST - 1, MOST] {
        for place in 0..9 {
            world.block.set(place, most);
        }
        receive(world, &every_outcome(), &whole)?;
        expect(world, "at the largest number", [MOST; 9])?;
    }
    receive(world, &[7; 9], &whole)?;
    world.block.clear();
    let short = Lent { parts: LENGTHS.map(|length| length - 1), ..whole };
    receive(world, &[0], &short)?;
    expect(world, "a refused call", [0; 9])?;
    receive(world, &[0], &whole)?;
    expect(world, "a frame that began before the clear", [0, 0, 1, 0, 0, 0, 0, 0, 0])?;
    receive(world, &[7; 4200], &whole)?;
    start(world)?;
    receive(world, &[0, 2], &whole)?;
    expect(world, "a start in the middle of a frame", [0, 1, 1, 0, 0, 0, 0, 0, 0])?;
    receive(world, &[0], &whole)?;
    expect(world, "the frame behind it", [0, 1, 2, 0, 0, 0, 0, 0, 0])
}
