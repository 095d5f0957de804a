// Defines the image of the settings of document 02's item 11: what saving writes, a reader that goes forward field by field, random images and directed cases.
// Assumes the model's settings and checksum, and nothing else of the library.

use crate::calls::{Call, Lent};
use crate::model::{broken, checksum, Fault, Setting, Settings, LAST_EDITION, LONGEST, PASSPHRASE};
use crate::random::Random;
use crate::state::LENGTHS;
use crate::world::World;

const RECORD: &[u8] = b"KV";
const END: &[u8] = b"KE";
/// The keys of an image; the passphrase, the key above them, is not saved.
const FIRST_KEY: u8 = 3;
const LAST_KEY: u8 = PASSPHRASE - 1;

/// A fault's number, and the offset of the field at fault.
pub type Found = (u32, usize);

fn sum(record: &[u8]) -> u16 {
    checksum(if broken(Fault::MarkNotSummed) { &record[RECORD.len()..] } else { record })
}

/// One record, whatever its key and the length of its value.
fn record(key: u8, edition: u32, value: &[u8]) -> Vec<u8> {
    let mut bytes = RECORD.to_vec();
    bytes.push(key);
    bytes.extend(edition.to_le_bytes());
    bytes.extend((value.len() as u16).to_le_bytes());
    bytes.extend(value);
    bytes.extend(sum(&bytes).to_le_bytes());
    bytes
}

pub fn saved(settings: &Settings) -> Vec<u8> {
    let mut image = Vec::new();
    let last = if broken(Fault::PassphraseSaved) { PASSPHRASE } else { LAST_KEY };
    for (key, setting) in (FIRST_KEY..=last).zip(settings) {
        if let Some(value) = &setting.value {
            image.extend(record(key, setting.edition, value));
        }
    }
    image.extend(END);
    image
}

struct Reader<'i> {
    image: &'i [u8],
    at: usize,
}

impl<'i> Reader<'i> {
    /// The next field; 34 where the image ends inside it or ahead of it.
    fn field(&mut self, length: usize) -> Result<&'i [u8], Found> {
        let rest = &self.image[self.at..];
        if rest.len() < length {
            return Err((34, self.image.len()));
        }
        self.at += length;
        Ok(&rest[..length])
    }

    fn number<const N: usize>(&mut self) -> Result<u32, Found> {
        Ok(self.field(N)?.iter().rev().fold(0, |high, &byte| high << 8 | u32::from(byte)))
    }
}

/// Reads an image into settings, up to its first fault.
fn read(image: &[u8], settings: &mut Settings) -> Result<(), Found> {
    let mut reader = Reader { image, at: 0 };
    let mut before = 0;
    loop {
        let start = reader.at;
        let mark = reader.field(2)?;
        if mark == END {
            break;
        }
        if mark != RECORD {
            return Err((30, start));
        }
        let place = reader.at;
        let key = reader.number::<1>()? as u8;
        let above = before < key || broken(Fault::KeyTwice) && before == key;
        let last = if broken(Fault::PassphraseRestored) { PASSPHRASE } else { LAST_KEY };
        if !(FIRST_KEY..=last).contains(&key) || !above {
            return Err((31, place));
        }
        let edition = reader.number::<4>()?;
        let place = reader.at;
        let length = reader.number::<2>()? as usize;
        let index = usize::from(key - FIRST_KEY);
        if length > LONGEST[index] {
            return Err((32, if broken(Fault::OffsetNextField) { reader.at } else { place }));
        }
        let value = reader.field(length)?.to_vec();
        let place = reader.at;
        if reader.number::<2>()? != u32::from(sum(&image[start..place])) {
            return Err((33, place));
        }
        let edition = if broken(Fault::EditionKept) { settings[index].edition } else { edition };
        settings[index] = Setting { edition, value: Some(value) };
        before = key;
    }
    if reader.at < image.len() { Err((35, reader.at)) } else { Ok(()) }
}

/// What a restore leaves, and its fault.
pub fn restored(settings: &Settings, image: &[u8]) -> (Settings, Result<(), Found>) {
    let mut left = if broken(Fault::AbsentKept) || broken(Fault::EditionKept) { settings.clone() } else { Settings::default() };
    if !broken(Fault::PassphraseLost) {
        left[usize::from(PASSPHRASE - FIRST_KEY)] = settings[usize::from(PASSPHRASE - FIRST_KEY)].clone();
    }
    let result = read(image, &mut left);
    (if result.is_ok() || broken(Fault::WrittenEarly) { left } else { settings.clone() }, result)
}

fn value(random: &mut Random, key: u8) -> Vec<u8> {
    let longest = LONGEST[usize::from(key.clamp(FIRST_KEY, PASSPHRASE) - FIRST_KEY)];
    let length = match random.below(10) {
        0 => longest,
        1 => longest + 1,
        2 => random.pick(&[0, 256, 257, 4096, 4097, 65535]),
        3 => random.below(longest + 1),
        _ => random.below(20),
    };
    random.bytes(length)
}

/// Records of rising keys, some left out; at times of one key twice, or of any keys.
fn made(random: &mut Random) -> Vec<u8> {
    let keys: Vec<u8> = match random.below(10) {
        0 => vec![FIRST_KEY + random.below(3) as u8; 2],
        1 | 2 => (0..random.below(5)).map(|_| random.pick(&[2, 3, 3, 4, 4, 5, 5, 6, 6, 7, 255])).collect(),
        _ => (FIRST_KEY..=LAST_KEY).filter(|_| random.percent(60)).collect(),
    };
    let mut image = Vec::new();
    for key in keys {
        let edition = random.pick(&[0, 1, 2, 0x0102_0304, LAST_EDITION - 1, LAST_EDITION]);
        let value = value(random, key);
        image.extend(record(key, edition, &value));
    }
    image.extend(END);
    image
}

/// The saved form of some settings or a made image; at times damaged, cut or with bytes behind.
pub fn random_image(random: &mut Random, settings: &Settings) -> Vec<u8> {
    let mut image = if random.percent(40) { saved(settings) } else { made(random) };
    match random.below(8) {
        0 => {
            let place = random.below(image.len());
            image[place] ^= 1 << random.below(8);
        }
        1 => {
            let place = random.below(image.len().min(20));
            image[place] = random.byte();
        }
        2 => image.truncate(random.below(image.len() + 1)),
        3 => {
            let more = 1 + random.below(4);
            image.extend(random.bytes(more));
        }
        _ => {}
    }
    image
}

/// Every prefix of an image with three keys and every other value of each of its bytes; both limits and one above; the papers' edges.
pub fn cases(world: &mut World) -> Result<(), String> {
    let whole = Lent { parts: LENGTHS, room: 0 };
    let mut data = Box::new([0; crate::state::START_LENGTH]);
    data[0] = 0x41;
    world.call(&Call::Start { data }, &whole)?;
    let image = [record(3, 7, b"one"), record(4, 0, b""), record(5, LAST_EDITION, b"\x00\xff"), END.to_vec()].concat();
    let mut restore = |image: Vec<u8>| world.call(&Call::Restore { image }, &whole).map(|_| ());
    for end in 0..=image.len() {
        restore(image[..end].to_vec())?;
    }
    for place in 0..image.len() {
        for byte in 0..=255 {
            let mut changed = image.clone();
            changed[place] = byte;
            restore(changed)?;
        }
    }
    for (key, longest) in (FIRST_KEY..).zip(LONGEST) {
        for length in [longest, longest + 1] {
            restore([&record(key, 1, &vec![7; length]), END].concat())?;
        }
        restore([RECORD, &[key, 0, 0, 0, 0], &(longest as u16 + 1).to_le_bytes()].concat())?;
    }
    for keys in [[3, 3], [5, 4], [4, 3], [3, 5], [2, 3], [5, 6], [6, 6], [6, 7]] {
        restore([record(keys[0], 1, b"one"), record(keys[1], 2, b"passphrase"), END.to_vec()].concat())?;
    }
    for image in [&[0xff][..], &[0xff, 0xff], b"KEK", b"K", b"KVV", b"KEKE"] {
        restore(image.to_vec())?;
    }
    restore(image.clone())?;
    for room in [image.len() - 1, image.len(), image.len() + 1] {
        world.call(&Call::Save, &Lent { room, ..whole })?;
    }
    Ok(())
}
