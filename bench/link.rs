// Defines the root-of-trust link's rows: the library's reader against the same in Rust, with a table and with eight tables.
// Assumes document 02's item 7.

use crate::random::Random;
use crate::{Action, Case};
use oatcastle::rot::{self, Received, Type, LONGEST_MESSAGE};
use std::hint::black_box;

type Crc = fn([&[u8]; 2]) -> u32;

const TABLES: [[u32; 256]; 8] = tables();

/// What a byte comes to, and what it comes to with 1 to 7 further zeros behind it.
const fn tables() -> [[u32; 256]; 8] {
    let mut entries = [[0; 256]; 8];
    let mut byte = 0;
    while byte < 256 {
        let mut register = (byte as u32) << 24;
        let mut shifts = 0;
        while shifts < 64 {
            register = if register >> 31 == 1 { register << 1 ^ 0x04c1_1db7 } else { register << 1 };
            shifts += 1;
            if shifts % 8 == 0 {
                entries[shifts / 8 - 1][byte] = register;
            }
        }
        byte += 1;
    }
    entries
}

fn by_byte(register: u32, byte: u8) -> u32 {
    TABLES[0][usize::from((register >> 24) as u8 ^ byte)] ^ register << 8
}

fn ordinary(parts: [&[u8]; 2]) -> u32 {
    !parts.into_iter().flatten().fold(0, |register, &byte| by_byte(register, byte))
}

fn strong(parts: [&[u8]; 2]) -> u32 {
    let mut register = 0u32;
    for part in parts {
        let blocks = part.chunks_exact(8);
        let rest = blocks.remainder();
        for block in blocks {
            let first = (register ^ u32::from_be_bytes([block[0], block[1], block[2], block[3]])).to_be_bytes();
            let bytes = [first[0], first[1], first[2], first[3], block[4], block[5], block[6], block[7]];
            register = (0..8).fold(0, |sum, i| sum ^ TABLES[7 - i][usize::from(bytes[i])]);
        }
        register = rest.iter().fold(register, |register, &byte| by_byte(register, byte));
    }
    !register
}

fn write<'o>(crc: Crc, kind: u8, payload: &[u8], out: &'o mut [u8]) -> Result<&'o [u8], u32> {
    if payload.len() > 512 {
        return Err(23);
    }
    if !(1..=9).contains(&kind) {
        return Err(26);
    }
    let room = out.get_mut(..8 + payload.len()).ok_or(8u32)?;
    let length = (payload.len() as u16).to_le_bytes();
    let start = [1, kind, length[0], length[1]];
    room[..4].copy_from_slice(&start);
    room[4..8].copy_from_slice(&crc([&start, payload]).to_le_bytes());
    room[8..].copy_from_slice(payload);
    Ok(room)
}

#[derive(Debug, PartialEq, Eq)]
enum Read<'i, 'o> {
    Nothing,
    Message(u8, &'i [u8]),
    Echoed(&'o [u8]),
}

fn read<'i, 'o>(crc: Crc, input: &'i [u8], out: &'o mut [u8]) -> Result<Read<'i, 'o>, u32> {
    match input.first() {
        None => return Err(20),
        Some(0) => return Ok(Read::Nothing),
        Some(1) => (),
        Some(_) => return Err(21),
    }
    if input.len() < 8 {
        return Err(22);
    }
    let length = usize::from(u16::from_le_bytes([input[2], input[3]]));
    if length > 512 {
        return Err(23);
    }
    let payload = input[8..].get(..length).ok_or(24u32)?;
    if crc([&input[..4], payload]) != u32::from_le_bytes([input[4], input[5], input[6], input[7]]) {
        return Err(25);
    }
    match input[1] {
        2 => Ok(Read::Echoed(write(crc, 3, payload, out)?)),
        kind @ 1..=9 => Ok(Read::Message(kind, payload)),
        _ => Err(26),
    }
}

/// A message read once: handed out, or an echo request and answered.
pub fn reading(name: &'static str, kind: Type, payload: &[u8]) -> Case {
    let mut out = [0; LONGEST_MESSAGE];
    let message = rot::write(kind, payload, &mut out).expect("the message fits").to_vec();
    let sides = [reading_by(ordinary, &message), reading_by(strong, &message)];
    let [ordinary, strong] = sides;
    let bytes = message.len();
    let library = Box::new(move || {
        black_box(rot::read(black_box(&message), &mut out).ok());
    });
    Case { name, state: "", bytes, sides: [library, ordinary, strong] }
}

fn reading_by(crc: Crc, message: &[u8]) -> Action {
    let (message, mut out) = (message.to_vec(), [0; LONGEST_MESSAGE]);
    Box::new(move || {
        black_box(read(crc, black_box(&message), &mut out).ok());
    })
}

/// Both yardsticks write and read what the library does.
pub fn compare() {
    compare_by(ordinary);
    compare_by(strong);
}

/// A yardstick that the comparison must tell from the library.
pub fn planted() {
    compare_by(|parts| !ordinary(parts));
}

/// Messages of any type and payload, often damaged or cut short, with rooms of any length.
fn compare_by(crc: Crc) {
    let mut random = Random(5);
    for _ in 0..2000 {
        let (kind, length) = (random.below(12) as u8, random.below(515));
        let (payload, room) = (random.bytes(length), random.pick(&[LONGEST_MESSAGE, LONGEST_MESSAGE, 100]));
        let (mut out, mut other_out) = (vec![0; room], vec![0; room]);
        let other = write(crc, kind, &payload, &mut other_out);
        if let Some(kind) = Type::from_number(kind) {
            assert_eq!(rot::write(kind, &payload, &mut out).map_err(|refusal| refusal.number()), other, "root-of-trust message");
        }
        let Ok(message) = other else { continue };
        let message = damaged(&mut random, message);
        let (mut out, mut other_out) = (vec![0; room], vec![0; room]);
        match (rot::read(&message, &mut out), read(crc, &message, &mut other_out)) {
            (Err(ours), Err(other)) => assert_eq!(ours.number(), other, "root-of-trust refusal"),
            (Ok(Received::Nothing), Ok(Read::Nothing)) => {}
            (Ok(Received::Echoed(ours)), Ok(Read::Echoed(other))) => assert_eq!(ours, other, "root-of-trust echo"),
            (Ok(Received::Message(ours)), Ok(Read::Message(kind, payload))) => {
                assert_eq!((ours.kind.number(), ours.payload), (kind, payload), "root-of-trust payload");
            }
            (ours, other) => panic!("the library reads {ours:?}, the yardstick {other:?}"),
        }
    }
}

/// A message whole, or with a byte changed, or cut short.
fn damaged(random: &mut Random, message: &[u8]) -> Vec<u8> {
    let (mut message, place) = (message.to_vec(), random.below(message.len()));
    match random.below(6) {
        0 => message[place] = random.byte(),
        1 => message[random.below(4)] = random.byte(),
        2 => message.truncate(place),
        _ => {}
    }
    message
}
