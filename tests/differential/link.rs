// Defines the root-of-trust link of document 02's item 7 and source document 003 as ordinary Rust, and random calls of it on both sides, compared.
// Assumes the C functions of include/oatcastle.h; a fault number of the model changes one rule, so that the comparison itself can be tested.

use crate::calls::{hex, numbers, pattern, same};
use crate::library::{self, RotCrcAnswer, RotReadAnswer, RotWriteAnswer};
use crate::model::{broken, Fault};
use crate::random::Random;

const LONGEST_PAYLOAD: usize = 512;
const ECHO_REQUEST: u8 = 2;
const ECHO_RESPONSE: u8 = 3;

/// Numbers behind an answer, which stay; the longest answer has three.
const GUARD: usize = 2;
const MOST_NUMBERS: usize = 3;

/// From so many calls on, the comparison fails if a refusal or a kind of answer did not come up.
const DEMANDED: u64 = 5_000;

/// Bit by bit, the top bit first.
fn crc(bytes: &[u8]) -> u32 {
    let mut register = 0u32;
    for byte in bytes {
        for place in (0..8).rev() {
            let place = if broken(Fault::CrcLowBitFirst) { 7 - place } else { place };
            let leaving = register >> 31;
            register <<= 1;
            if leaving != u32::from(byte >> place & 1) {
                register ^= 0x04c1_1db7;
            }
        }
    }
    if broken(Fault::CrcNotComplemented) { register } else { !register }
}

fn message(kind: u8, payload: &[u8]) -> Vec<u8> {
    let mut bytes = vec![1, kind];
    bytes.extend((payload.len() as u16).to_le_bytes());
    let mut checked = bytes.clone();
    if broken(Fault::EchoUnderRequestCrc) && kind == ECHO_RESPONSE {
        checked[1] = ECHO_REQUEST;
    }
    checked.extend(payload);
    bytes.extend(crc(&checked).to_le_bytes());
    bytes.extend(payload);
    bytes
}

enum Read {
    Refused(u32),
    Nothing,
    Message(u8, Vec<u8>),
}

fn listed(kind: u8) -> bool {
    (1..=9).contains(&kind)
}

fn judge(input: &[u8]) -> Read {
    if input.is_empty() {
        return Read::Refused(20);
    }
    if broken(Fault::HeaderBeforeProtocol) && input.len() < 8 {
        return Read::Refused(22);
    }
    match input[0] {
        0 => return Read::Nothing,
        1 => (),
        _ => return Read::Refused(21),
    }
    if input.len() < 8 {
        return Read::Refused(22);
    }
    let count = usize::from(u16::from_le_bytes([input[2], input[3]]));
    if count > LONGEST_PAYLOAD + usize::from(broken(Fault::Payload513)) {
        return Read::Refused(23);
    }
    let Some(payload) = input[8..].get(..count) else { return Read::Refused(24) };
    if broken(Fault::TypeBeforeCrc) && !listed(input[1]) {
        return Read::Refused(26);
    }
    let checked = if broken(Fault::CrcOverRest) { [&input[..4], &input[8..]] } else { [&input[..4], payload] }.concat();
    if input[4..8] != crc(&checked).to_le_bytes() {
        return Read::Refused(25);
    }
    if !listed(input[1]) {
        return Read::Refused(26);
    }
    Read::Message(input[1], payload.to_vec())
}

/// What a call returns and writes: its number, the numbers of its answer and bytes at the start of what it was lent.
#[derive(Default)]
struct Expected {
    code: u32,
    answer: Vec<u64>,
    bytes: Vec<u8>,
}

fn refused(code: u32) -> Expected {
    Expected { code, ..Expected::default() }
}

/// Bytes to a room, or 8, and numbers to an answer.
fn answered(answer: Vec<u64>, bytes: Vec<u8>, room: usize) -> Expected {
    if room < bytes.len() { refused(8) } else { Expected { code: 0, answer, bytes } }
}

fn read(input: &[u8], room: usize) -> Expected {
    match judge(input) {
        Read::Refused(code) => refused(code),
        Read::Nothing => answered(numbers(RotReadAnswer { kind: 0, r#type: 0, length: 0 }), Vec::new(), room),
        Read::Message(ECHO_REQUEST, payload) => {
            let answer = message(ECHO_RESPONSE, &payload);
            answered(numbers(RotReadAnswer { kind: 2, r#type: 0, length: answer.len() as u64 }), answer, room)
        }
        Read::Message(kind, payload) => {
            answered(numbers(RotReadAnswer { kind: 1, r#type: kind.into(), length: payload.len() as u64 }), Vec::new(), room)
        }
    }
}

fn payload(input: &[u8], room: usize) -> Expected {
    match judge(input) {
        Read::Refused(number) => refused(number),
        Read::Message(kind, payload) if kind != ECHO_REQUEST => answered(Vec::new(), payload, room),
        _ => Expected::default(),
    }
}

fn write(kind: u8, payload: &[u8], room: usize) -> Expected {
    if payload.len() > LONGEST_PAYLOAD {
        return refused(23);
    }
    if !listed(kind) {
        return refused(26);
    }
    let bytes = message(kind, payload);
    answered(numbers(RotWriteAnswer { length: bytes.len() as u64 }), bytes, room)
}

/// A message, whole or with one or several things wrong.
fn input(random: &mut Random) -> Vec<u8> {
    let kind = if random.percent(85) { 1 + random.below(9) as u8 } else { random.pick(&[0, 10, 255]) };
    let kind = if random.percent(30) { ECHO_REQUEST } else { kind };
    let length = length(random);
    let payload = random.bytes(length);
    let mut bytes = message(kind, &payload);
    if random.percent(5) {
        let size = random.below(12);
        bytes = random.bytes(size);
    }
    if random.percent(10) {
        let size = random.below(bytes.len() + 1);
        bytes.truncate(size);
    }
    if random.percent(20) && !bytes.is_empty() {
        let place = if random.percent(50) { random.below(bytes.len().min(8)) } else { random.below(bytes.len()) };
        bytes[place] ^= 1 << random.below(8);
    }
    if random.percent(10) && !bytes.is_empty() {
        bytes[0] = random.pick(&[0, 2, 255]);
    }
    if random.percent(20) {
        let size = random.below(40);
        bytes.extend(random.bytes(size));
    }
    bytes
}

fn length(random: &mut Random) -> usize {
    let few = random.below(40);
    let many = random.below(600);
    random.pick(&[0, 1, few, few, few, many, 511, 512, 513])
}

/// A room of about the length that is wanted.
fn room(random: &mut Random, wanted: usize) -> usize {
    let any = random.below(600);
    random.pick(&[wanted, wanted, wanted + 1, wanted.saturating_sub(1), any, 0, 600])
}

/// One call on both sides: its words, what the model says, and the library's number, answer and room, with what stood there before.
struct Call {
    words: String,
    model: Expected,
    code: u32,
    answers: [Vec<u64>; 2],
    rooms: [Vec<u8>; 2],
}

fn call(random: &mut Random) -> Call {
    let bytes = input(random);
    let kind = if random.percent(90) { 1 + random.below(9) as u8 } else { random.byte() };
    let size = room(random, bytes.len());
    let mut out = random.bytes(size);
    let stood = pattern(random, MOST_NUMBERS + GUARD);
    let mut answer = stood.clone();
    let before = out.clone();
    let what = random.below(4);
    let words = format!("{} type {kind}, input {}, room {size}", ["read", "payload", "write", "crc"][what], hex(&bytes));
    let (data, long) = (bytes.as_ptr(), bytes.len());
    let model = match what {
        0 => read(&bytes, size),
        1 => payload(&bytes, size),
        2 => write(kind, &bytes, size),
        _ => answered(numbers(RotCrcAnswer { crc: crc(&bytes).into() }), Vec::new(), 0),
    };
    let (room, numbers) = (out.as_mut_ptr(), answer.as_mut_ptr());
    // The pointers are to slices of these lengths, and to as many numbers as the longest answer has.
    let code = unsafe {
        match what {
            0 => library::oatcastle_rot_read(data, long, room, size, numbers.cast()),
            1 => library::oatcastle_rot_payload(data, long, room, size),
            2 => library::oatcastle_rot_write(kind, data, long, room, size, numbers.cast()),
            _ => library::oatcastle_rot_crc(data, long, numbers.cast()),
        }
    };
    Call { words, model, code, answers: [stood, answer], rooms: [before, out] }
}

fn compared(call: &Call) -> Result<(), String> {
    let Call { words, model, code, answers: [before, answer], rooms: [room, out] } = call;
    if *code != model.code {
        return Err(format!("{words}: the model says {}, the library {code}", model.code));
    }
    let mut numbers = [&model.answer[..], &before[model.answer.len()..]].concat();
    if broken(Fault::LinkRefusedAnswers) && *code != 0 {
        numbers[0] = 0;
    }
    if numbers != *answer {
        return Err(format!("{words}: the model answers {numbers:?}, the library {answer:?}"));
    }
    same(words, &[&model.bytes[..], &room[model.bytes.len()..]].concat(), out)
}

/// So many random calls of the link.
pub fn compare(seed: u64, count: u64, calls: &mut u64) -> Result<(), String> {
    let mut random = Random(seed ^ 0x726f_7400);
    let mut met = [0u64; 27];
    let mut kinds = [0u64; 3];
    for _ in 0..count {
        let call = call(&mut random);
        *calls += 1;
        compared(&call).map_err(|difference| format!("root-of-trust call {calls}: {difference}"))?;
        met[call.code as usize] += 1;
        if let [kind, _, _] = call.model.answer[..] {
            kinds[kind as usize] += 1;
        }
    }
    let missing: Vec<usize> = [0, 8].into_iter().chain(20..27).filter(|&code| met[code] == 0).collect();
    if count >= DEMANDED && (!missing.is_empty() || kinds.contains(&0)) {
        return Err(format!("root-of-trust calls: not met {missing:?}, kinds of answers {kinds:?}"));
    }
    Ok(())
}
