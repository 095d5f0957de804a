// Defines the random frames that are fed to both sides, and random start data.
// Assumes the model for forms, checksums and what the supervisor holds.

use crate::model::{body, checksum, cobs, frame, Supervisor, COMMANDS, LONGEST, MAGIC, MOST_ITEMS, PASSPHRASE, SHORTEST_PASSPHRASE, TOP_BIT};
use crate::random::Random;
use crate::state::{number, put, COUNT_OFFSET, ITEMS_OFFSET, ITEM_DATA_LENGTH, ITEM_LENGTH, START_LENGTH};

const VERSIONS: [u32; 2] = [1, 2];

/// A length at a limit, next to one, small, or anywhere up to the last limit.
fn length_near(random: &mut Random, limits: &[usize]) -> usize {
    match random.below(6) {
        0 => random.pick(limits),
        1 => random.pick(limits) + 1,
        2 => random.pick(limits).saturating_sub(1),
        3 => random.below(limits[limits.len() - 1] + 1),
        4 => random.below(200.min(limits[limits.len() - 1] + 1)),
        _ => random.below(40),
    }
}

pub fn sequence(random: &mut Random, supervisor: &Supervisor) -> u64 {
    match random.below(6) {
        0 | 1 => supervisor.registers.retained.as_ref().map_or(1, |reply| reply.sequence) & !TOP_BIT,
        2 => random.below(4) as u64,
        3 => u64::MAX >> 1,
        4 => number(&random.bytes(8), 0, 8) & !TOP_BIT,
        _ => random.next() & !TOP_BIT,
    }
}

/// Data of the right length for the command.
fn data(random: &mut Random, supervisor: &Supervisor, command: u8, image: usize) -> Vec<u8> {
    match command {
        0x06 => {
            let rest = length_near(random, &[0, 511, 512, 513, 4103, 640]).min(4103);
            random.bytes(1 + rest)
        }
        0x07 => {
            let rest = length_near(random, &[0, 511, 512, 513, 4102, 640]).min(4102);
            random.bytes(2 + rest)
        }
        0x0d => {
            let mut data = supervisor.factory.hash.to_vec();
            if random.percent(10) {
                let place = random.below(32);
                data[place] ^= 1 << random.below(8);
            }
            let offset = match random.below(8) {
                0 => 0,
                1 => image as u64,
                2 => (image as u64).saturating_sub(1),
                3 => (image as u64).saturating_sub(4096),
                4 => (image as u64).saturating_sub(4097),
                5 => random.pick(&[u64::MAX, 1 << 63, 1 << 32, 1 << 16, u64::MAX - 4095]),
                _ => random.below(image + 2) as u64,
            };
            data.extend_from_slice(&offset.to_le_bytes());
            data
        }
        0x0e => {
            let key = if random.percent(90) { random.below(8) as u8 } else { random.byte() };
            let held = match key {
                0 => 4,
                1 => supervisor.factory.image_id.len(),
                2 => 8,
                3..=6 => supervisor.settings[usize::from(key) - 3].value.as_ref().map_or(0, Vec::len),
                _ => 0,
            };
            let most = match random.below(5) {
                0 => held,
                1 => held + 1,
                2 => held.saturating_sub(1),
                3 => 65535,
                _ => random.below(65536),
            } as u16;
            let mut data = vec![key];
            data.extend_from_slice(&most.to_le_bytes());
            data
        }
        0x0f => {
            let index = match random.below(8) {
                0 => supervisor.factory.items.len() as u32,
                1 => random.pick(&[u32::MAX, MOST_ITEMS as u32, 256, 65536, 1 << 31]),
                _ => random.below(supervisor.factory.items.len() + 1) as u32,
            };
            index.to_le_bytes().to_vec()
        }
        0x10 => {
            let key = if random.percent(90) { random.below(8) as u8 } else { random.byte() };
            let limits: &[usize] = match key {
                3..=5 => &[0, LONGEST[usize::from(key) - 3]],
                PASSPHRASE => &[SHORTEST_PASSPHRASE, LONGEST[3]],
                _ => &[0, LONGEST[0], LONGEST[1]],
            };
            let length = length_near(random, limits);
            let mut data = vec![key];
            data.extend(random.bytes(length));
            data
        }
        _ => Vec::new(),
    }
}

fn ended(mut form: Vec<u8>) -> Vec<u8> {
    form.push(0);
    form
}

fn with_sums(mut message: Vec<u8>) -> Vec<u8> {
    let sums = checksum(&message);
    message.extend_from_slice(&sums.to_le_bytes());
    message
}

/// A request with the faults that chance gives it.
fn request(random: &mut Random, supervisor: &Supervisor, image: usize) -> Vec<u8> {
    let chance = if random.percent(15) { 40 } else { 2 };
    let mut command = random.pick(&COMMANDS);
    if random.percent(15) {
        command = 0x0a;
    }
    let mut data = data(random, supervisor, command, image);
    if random.percent(chance) {
        match random.below(3) {
            0 => data.push(random.byte()),
            1 => data.truncate(data.len().saturating_sub(1)),
            _ => {
                let length = length_near(random, &[0, 1, 2, 3, 4, 40, 4104]);
                data = random.bytes(length);
            }
        }
    }
    data.truncate(4104);
    if random.percent(chance) {
        command = if random.percent(50) { random.pick(&[0x00, 0x0b, 0x0c, 0x11]) } else { random.byte() };
    }
    let mut number = sequence(random, supervisor);
    if random.percent(chance) {
        number |= TOP_BIT;
    }
    let version = if random.percent(chance) { random.pick(&[0, 3, 0x0100, 0x0001_0001, 0x0100_0002, u32::MAX]) } else { random.pick(&VERSIONS) };
    let magic = if random.percent(chance) { MAGIC ^ 1 << random.below(32) } else { MAGIC };
    let mut message = body(magic, version, number, command, &data);
    let mut sums = checksum(&message);
    if random.percent(chance) {
        match random.below(4) {
            0 => sums ^= 1 << random.below(16),
            1 => sums = sums.swap_bytes(),
            2 => sums = random.next() as u16,
            _ => {
                // One byte of the sequence is chosen so that the first sum is 0; the checksum then holds ff in its place.
                message[8] = ((u32::from(message[8]) + 255 - u32::from(sums % 256)) % 255) as u8;
                sums = checksum(&message) | 0xff;
            }
        }
    }
    message.extend_from_slice(&sums.to_le_bytes());
    ended(cobs(&message))
}

/// A message whose form ends in a full group, with or without a last 01.
fn full_group(random: &mut Random, supervisor: &Supervisor) -> Vec<u8> {
    let groups = 1 + random.below(16);
    let command = random.pick(&[0x06, 0x07, 0x10]);
    let number = sequence(random, supervisor) & (u64::MAX >> 8);
    loop {
        let data = random.bytes_of(1, 254 * groups - 3);
        let message = with_sums(body(MAGIC, random.pick(&VERSIONS), number, command, &data));
        if message[message.len() - 2..].contains(&0) {
            continue;
        }
        let mut form = cobs(&message);
        if random.percent(60) {
            form.push(1);
        }
        return ended(form);
    }
}

/// A message of a length at or past the bounds, with its own checksum.
fn bound(random: &mut Random) -> Vec<u8> {
    let length = random.pick(&[0, 1, 2, 3, 17, 18, 19, 20, 4122, 4123, 4124, 4125, 4130, 4139]);
    let kind = random.below(6);
    let mut bytes = random.bytes_of(kind, length.max(2) - 2);
    if random.percent(50) && bytes.len() >= 8 {
        bytes[..4].copy_from_slice(&MAGIC.to_le_bytes());
        bytes[4..8].copy_from_slice(&random.pick(&VERSIONS).to_le_bytes());
    }
    let mut message = with_sums(bytes);
    message.truncate(length);
    ended(cobs(&message))
}

/// A message of any version, sequence, command and data.
fn message(random: &mut Random) -> Vec<u8> {
    let length = match random.below(4) {
        0 => random.pick(&[0, 1, 4103, 4104]),
        1 => random.below(4105),
        _ => random.below(300),
    };
    let data = random.bytes(length);
    let version = number(&random.bytes(4), 0, 4) as u32;
    let sequence = number(&random.bytes(8), 0, 8);
    frame(version, sequence, random.byte(), &data)
}

/// Bytes without 00, about as many as the longest form, then 00.
fn long(random: &mut Random) -> Vec<u8> {
    let length = match random.below(3) {
        0 => random.pick(&[4138, 4139, 4140, 4141, 4142, 4143]),
        1 => 4140 + random.below(5000),
        _ => random.below(4140),
    };
    let mut bytes = random.bytes_of(1, length);
    if random.percent(30) {
        bytes.fill(0xff);
    }
    ended(bytes)
}

fn damage(random: &mut Random, mut frame: Vec<u8>) -> Vec<u8> {
    let place = random.below(frame.len());
    match random.below(6) {
        0 => frame[place] ^= 1 << random.below(8),
        1 => frame[place] = random.byte(),
        2 => {
            frame.remove(place);
        }
        3 => frame.insert(place, random.byte()),
        4 => frame.truncate(place),
        _ => {
            let copy = frame[..place].to_vec();
            frame.splice(place..place, copy);
        }
    }
    frame
}

/// The next bytes of a wire: a frame, or what is left of one.
pub fn next(random: &mut Random, supervisor: &Supervisor, image: usize) -> Vec<u8> {
    match random.below(100) {
        0..=73 => request(random, supervisor, image),
        74..=81 => {
            let frame = request(random, supervisor, image);
            damage(random, frame)
        }
        82..=85 => full_group(random, supervisor),
        86..=89 => bound(random),
        90..=91 => long(random),
        96 | 97 => message(random),
        92..=95 => vec![0; 1 + random.below(4)],
        _ => {
            let length = random.below(30);
            let garbage = random.bytes(length);
            ended(garbage)
        }
    }
}

/// Start data, allowed or with one fault.
pub fn start_data(random: &mut Random) -> [u8; START_LENGTH] {
    let mut data = [0; START_LENGTH];
    random.fill(&mut data);
    let items = random.pick(&[0, 1, 2, 16, 17, MOST_ITEMS - 1, MOST_ITEMS]);
    data[0] = random.pick(&[0x41, 0x42]);
    data[68] = if random.percent(50) { random.below(65) as u8 } else { random.pick(&[0, 1, 63, 64]) };
    put(&mut data, COUNT_OFFSET, 4, items as u64);
    for item in 0..items {
        let place = ITEMS_OFFSET + ITEM_LENGTH * item;
        data[place] = random.pick(&[0, 0, 2, 3]);
        data[place + ITEM_DATA_LENGTH] = if random.percent(70) { random.below(65) as u8 } else { random.pick(&[0, 63, 64]) };
    }
    if random.percent(25) {
        let place = ITEMS_OFFSET + ITEM_LENGTH * random.below(items);
        match random.below(5) {
            0 => data[0] = random.pick(&[0x00, 0x40, 0x43, 0xff]),
            1 => data[68] = random.pick(&[65, 66, 128, 255]),
            2 => put(&mut data, COUNT_OFFSET, 4, random.pick(&[MOST_ITEMS as u64 + 1, 256, 65536, 1 << 24, u64::from(u32::MAX)])),
            3 => data[place] = random.pick(&[1, 4, 255]),
            _ => data[place + ITEM_DATA_LENGTH] = random.pick(&[65, 66, 255]),
        }
    }
    data
}
