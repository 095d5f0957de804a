// Defines sets of key 6 for two supervisors: each has a value and cuts of its own, under the same version and number. Other calls stand among the pieces.
// Assumes that both readers stand between frames. With a leak, what the line layer alone leaves of the frame stands in the reader's part.

use crate::calls::{answered, Call, Image, Lent};
use crate::library::{oatcastle_line_read, LineReadAnswer, StepAnswer};
use crate::model::{self, broken, Fault, LONGEST_DATA, PASSPHRASE, TOP_BIT};
use crate::random::Random;
use crate::state::{LENGTHS, LINE, READER};
use crate::twins::Twins;

/// The faults with which something of a set's frame stays.
pub const LEAKS: [Fault; 4] = [Fault::WipeForgotten, Fault::WipeOneShort, Fault::WipeOnResult0, Fault::WipeOnRequest];
const NO_IMAGE: Image = Image { which: 0, length: 0 };
const WHOLE: Lent = Lent { parts: LENGTHS, room: 0 };

struct Sets {
    frames: [Vec<u8>; 2],
    /// Whether version and sequence are those of a request, and the lengths allowed.
    passes: bool,
    allowed: bool,
    /// How the pieces with the 00 are handed in: by steps, and with the counter block.
    steps: bool,
    counting: bool,
}

/// Both values are of allowed length, or neither.
fn sets(random: &mut Random) -> Sets {
    let passes = random.percent(85);
    let version = if passes { random.pick(&[1, 2]) } else { random.pick(&[1, 2, 0, 3, 0x0101_0101]) };
    let sequence = random.next() >> 1 | if passes { 0 } else { TOP_BIT };
    let allowed = random.percent(70);
    let frames = [0, 1].map(|_| {
        let length = if allowed { random.pick(&[8, 9, 20, 62, 63]) } else { random.pick(&[0, 1, 7, 64, 300, LONGEST_DATA - 1]) };
        let value = random.bytes(length);
        model::frame(version, sequence, 0x10, &[&[PASSPHRASE], &value[..]].concat())
    });
    Sets { frames, passes, allowed, steps: random.percent(50), counting: random.percent(50) }
}

/// A frame in pieces of any lengths; the last one has its 00.
fn cut(random: &mut Random, frame: &[u8]) -> Vec<Vec<u8>> {
    let mut rest = frame;
    let mut pieces = Vec::new();
    while !rest.is_empty() {
        let few = random.below(rest.len() + 1).min(random.below(60));
        let length = random.pick(&[few, few, few, rest.len()]);
        pieces.push(rest[..length].to_vec());
        rest = &rest[length..];
    }
    pieces
}

fn call(steps: bool, piece: Vec<u8>) -> Call {
    let image = NO_IMAGE;
    if steps { Call::Step { image, piece } } else { Call::Receive { image, piece } }
}

/// A piece of a set's frame without its 00 for one of the two: it answers nothing but that more is to come.
fn begun(twins: &mut Twins, twin: usize, piece: Vec<u8>) -> Result<(), String> {
    let more = StepAnswer { used: piece.len() as u64, ..StepAnswer::default() };
    let steps = twins.random.percent(50);
    let (seed, counting) = (twins.random.next(), twins.random.percent(50));
    let (code, answer, _) = twins.answered(twin, &call(steps, piece), &WHOLE, seed, Some(counting));
    twins.calls += 1;
    if code != 0 || steps && answered::<StepAnswer>(&answer) != more {
        return Err(format!("call {}: a piece of a set of key 6 answers {code} {answer:x?}", twins.calls));
    }
    Ok(())
}

/// One of the other calls on both: no start, none of the line layer on a reader's part, none that receives.
fn among(twins: &mut Twins) -> Result<(), String> {
    loop {
        let call = twins.worlds[0].any_call(None);
        if !call.parts().iter().any(|&part| part == READER || part == LINE) {
            let lent = twins.worlds[0].lend(&call);
            return twins.same_call(&call, &lent, false);
        }
    }
}

/// What the line layer's read alone leaves of the reader's part.
pub fn unwiped(part: &[u8], piece: &[u8]) -> Vec<u8> {
    let mut left = part.to_vec();
    let mut answer = LineReadAnswer::default();
    // The pointers are to slices of these lengths and to an answer.
    unsafe { oatcastle_line_read(left.as_mut_ptr(), left.len(), piece.as_ptr(), piece.len(), &mut answer) };
    left
}

/// A leak of this set leaves these bytes.
fn leak(set: &Sets, part: &mut [u8], left: &[u8]) {
    let all = broken(Fault::WipeForgotten)
        || broken(Fault::WipeOnResult0) && !(set.passes && set.allowed)
        || broken(Fault::WipeOnRequest) && !set.passes;
    let from = match () {
        () if all => 0,
        () if broken(Fault::WipeOneShort) => LENGTHS[READER] - 1,
        () => LENGTHS[READER],
    };
    part[from..].copy_from_slice(&left[from..]);
}

/// The piece with the 00 for one of the two: its number, and its answer but for the bytes that it read.
fn ended(twins: &mut Twins, twin: usize, set: &Sets, piece: Vec<u8>, seed: u64) -> (u32, StepAnswer) {
    let left = unwiped(&twins.worlds[twin].parts[READER], &piece);
    let (code, answer, _) = twins.answered(twin, &call(set.steps, piece), &WHOLE, seed, Some(set.counting));
    twins.calls += 1;
    leak(set, &mut twins.worlds[twin].parts[READER], &left);
    let said = if set.steps { answered(&answer) } else { StepAnswer::default() };
    (code, StepAnswer { used: 0, ..said })
}

/// Each of the two sets a value of its own. The calls with the 00 are behind the same other calls in both, and counted in both or in neither.
pub fn set(twins: &mut Twins) -> Result<(), String> {
    let set = sets(&mut twins.random);
    let mut pieces = set.frames.each_ref().map(|frame| cut(&mut twins.random, frame));
    let last = pieces.each_mut().map(|pieces| pieces.pop().unwrap());
    for others in (0..=twins.random.below(4)).rev() {
        for (twin, pieces) in pieces.iter_mut().enumerate() {
            let few = if others == 0 { pieces.len() } else { twins.random.below(pieces.len() + 1) };
            for piece in pieces.drain(..few) {
                begun(twins, twin, piece)?;
            }
        }
        if others > 0 {
            among(twins)?;
        }
    }
    let seed = twins.random.next();
    let [one, other] = last;
    let said = [ended(twins, 0, &set, one, seed), ended(twins, 1, &set, other, seed)];
    if said[0] != said[1] {
        return Err(format!("call {}: a set of key 6 in each\n  one   {:x?}\n  other {:x?}", twins.calls, said[0], said[1]));
    }
    twins.same_state(true).map_err(|what| format!("call {}: behind a set of key 6 in each\n  {what}", twins.calls))?;
    let stored = set.passes && set.allowed;
    twins.tally.set_apart += u64::from(stored);
    twins.tally.refused_apart += u64::from(!stored);
    twins.behind = true;
    Ok(())
}
