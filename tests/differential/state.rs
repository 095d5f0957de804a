// Defines the lent parts as docs/STATE.md lists them: lengths, fields with their allowed values, and the typed state that valid bytes mean.
// Assumes docs/STATE.md alone.

use crate::model::{
    broken, Alert, Factory, Fault, Item, Outbox, Reader, Record, Registers, Retained, Setting, Settings, LAST_EDITION, LONGEST, MOST_ITEMS,
    SHORTEST_PASSPHRASE,
};

/// The parts: a line reader's of its own, then the supervisor's five.
pub const LINE: usize = 0;
pub const READER: usize = 1;
pub const OUTBOX: usize = 2;
pub const FACTORY: usize = 3;
pub const SETTINGS: usize = 4;
pub const REGISTERS: usize = 5;
pub const NAMES: [&str; 6] = ["line state", "reader", "outbox", "factory", "settings", "registers"];
pub const LENGTHS: [usize; 6] = [4142, 4142, 4147, FACTORY_LENGTH, SETTINGS_LENGTH, 3393];
pub const DATA_OFFSET: usize = 19;

/// Where the inventory's items, their count and what follows stand in the factory store.
pub const ITEMS_OFFSET: usize = 133;
pub const ITEM_LENGTH: usize = 99;
pub const ITEM_DATA_LENGTH: usize = 34;
pub const COUNT_OFFSET: usize = ITEMS_OFFSET + MOST_ITEMS * ITEM_LENGTH;
pub const START_LENGTH: usize = COUNT_OFFSET + 4;
const VERSION_OFFSET: usize = START_LENGTH;
const PONG_OFFSET: usize = VERSION_OFFSET + 4;
const FACTORY_LENGTH: usize = PONG_OFFSET + 4;

/// Where the setting of each settings key from 3 on stands, and its longest value; a value stands behind a flag, an edition and a length.
pub const EDITION_OFFSET: usize = 1;
pub const VALUE_LENGTH_OFFSET: usize = 5;
pub const VALUE_OFFSET: usize = 7;
pub const KEYS: [(usize, usize); 4] = {
    let second = VALUE_OFFSET + LONGEST[0];
    let third = second + VALUE_OFFSET + LONGEST[1];
    let fourth = third + VALUE_OFFSET + LONGEST[2];
    [(0, LONGEST[0]), (second, LONGEST[1]), (third, LONGEST[2]), (fourth, LONGEST[3])]
};
const SETTINGS_LENGTH: usize = KEYS[3].0 + VALUE_OFFSET + LONGEST[3];
/// Where a line reader's part has the bytes of a frame.
pub const FORM_OFFSET: usize = 2;
/// The setting of key 6 runs from here to the store's end.
pub const PASSPHRASE_OFFSET: usize = KEYS[3].0;

pub enum Allowed {
    UpTo(u64),
    Between(u64, u64),
    ZeroOr(u64, u64),
    OneOf(&'static [u64]),
}

pub struct Field {
    pub place: usize,
    pub width: usize,
    pub allowed: Allowed,
}

impl Field {
    pub fn value(&self, bytes: &[u8]) -> u64 {
        number(bytes, self.place, self.width)
    }

    /// The highest number that the field's width holds.
    pub fn most(&self) -> u64 {
        u64::MAX >> (64 - 8 * self.width)
    }

    /// Numbers next to the allowed ones.
    pub fn past(&self) -> Vec<u64> {
        match self.allowed {
            Allowed::UpTo(most) => vec![most + 1],
            Allowed::Between(lower, upper) => vec![lower - 1, 0, upper + 1],
            Allowed::ZeroOr(lower, upper) => vec![lower - 1, 1, upper + 1],
            Allowed::OneOf(values) => vec![values[values.len() - 1] + 1],
        }
    }

    pub fn allows(&self, value: u64) -> bool {
        match self.allowed {
            Allowed::UpTo(most) => value <= most,
            Allowed::Between(lower, upper) => lower <= value && value <= upper,
            Allowed::ZeroOr(lower, upper) => value == 0 || lower <= value && value <= upper,
            Allowed::OneOf(values) => values.contains(&value),
        }
    }
}

pub fn number(bytes: &[u8], place: usize, width: usize) -> u64 {
    bytes[place..place + width].iter().rev().fold(0, |high, &byte| high << 8 | u64::from(byte))
}

pub fn put(bytes: &mut [u8], place: usize, width: usize, value: u64) {
    bytes[place..place + width].copy_from_slice(&value.to_le_bytes()[..width]);
}

fn start_fields(bytes: &[u8]) -> Vec<Field> {
    let mut fields = vec![
        Field { place: 0, width: 1, allowed: Allowed::OneOf(&[0x41, 0x42]) },
        Field { place: 68, width: 1, allowed: Allowed::UpTo(64) },
        Field { place: COUNT_OFFSET, width: 4, allowed: Allowed::UpTo(if broken(Fault::Items16) { 16 } else { MOST_ITEMS as u64 }) },
    ];
    let held = number(bytes, COUNT_OFFSET, 4).min(MOST_ITEMS as u64) as usize;
    let counted = if broken(Fault::ItemsPastCount) { MOST_ITEMS } else { held };
    for item in 0..counted {
        let place = ITEMS_OFFSET + ITEM_LENGTH * item;
        fields.push(Field { place, width: 1, allowed: Allowed::OneOf(&[0, 2, 3]) });
        fields.push(Field { place: place + ITEM_DATA_LENGTH, width: 1, allowed: Allowed::UpTo(64) });
    }
    fields
}

/// The lengths that a held value of a settings key may have, by the key's index.
fn value_lengths(index: usize) -> Allowed {
    if index < 3 {
        return Allowed::UpTo(LONGEST[index] as u64);
    }
    let lower = (SHORTEST_PASSPHRASE - usize::from(broken(Fault::PassphraseOf7Held))) as u64;
    let upper = (LONGEST[index] + usize::from(broken(Fault::PassphraseOf64Held))) as u64;
    if broken(Fault::PassphraseEmptyHeld) { Allowed::ZeroOr(lower, upper) } else { Allowed::Between(lower, upper) }
}

/// A setting: a flag, and where no value is held edition and length are 0.
fn setting_fields(index: usize, bytes: &[u8]) -> [Field; 3] {
    let (place, _) = KEYS[index];
    let held = bytes[place] == 1;
    let edition = if held || broken(Fault::EditionNotHeld) { u64::from(LAST_EDITION) } else { 0 };
    let length = if held || broken(Fault::LengthNotHeld) { value_lengths(index) } else { Allowed::UpTo(0) };
    [
        Field { place, width: 1, allowed: Allowed::UpTo(1) },
        Field { place: place + EDITION_OFFSET, width: 4, allowed: Allowed::UpTo(edition) },
        Field { place: place + VALUE_LENGTH_OFFSET, width: 2, allowed: length },
    ]
}

/// The fields of a part that 12 tests; the bytes have at least the published length.
pub fn fields(part: usize, bytes: &[u8]) -> Vec<Field> {
    let flag = |place| Field { place, width: 1, allowed: Allowed::UpTo(1) };
    let up_to = |place, width, most| Field { place, width, allowed: Allowed::UpTo(most) };
    match part {
        LINE | READER => vec![up_to(0, 2, 4141)],
        OUTBOX => vec![up_to(0, 2, number(bytes, 2, 2)), up_to(2, 2, 4142), flag(4)],
        FACTORY => {
            let mut fields = start_fields(bytes);
            fields.push(Field { place: VERSION_OFFSET, width: 4, allowed: Allowed::OneOf(&[0]) });
            fields.push(Field { place: PONG_OFFSET, width: 4, allowed: Allowed::OneOf(&[0x676e_6f70]) });
            fields
        }
        SETTINGS => (0..KEYS.len()).flat_map(|index| setting_fields(index, bytes)).collect(),
        _ => {
            let mut fields = vec![
                up_to(0, 8, 3),
                up_to(8, 8, 511),
                flag(16),
                flag(17),
                flag(18),
                up_to(19, 2, 255),
                up_to(21, 2, 4103),
                flag(535),
                up_to(538, 2, 4102),
                up_to(1052, 1, 8),
                up_to(3125, 1, 2),
                up_to(3134, 2, 256),
            ];
            for alert in 0..number(bytes, 1052, 1).min(8) as usize {
                fields.push(up_to(1053 + 259 * alert, 2, 256));
                fields.push(Field { place: 1055 + 259 * alert, width: 1, allowed: Allowed::Between(1, 255) });
            }
            fields
        }
    }
}

/// Whether no call but a start refuses this part as 12.
pub fn valid(part: usize, bytes: &[u8]) -> bool {
    bytes.len() >= LENGTHS[part] && fields(part, bytes).iter().all(|field| field.allows(field.value(bytes)))
}

/// Whether start takes these start data.
pub fn valid_start(data: &[u8]) -> bool {
    start_fields(data).iter().all(|field| field.allows(field.value(data)))
}

// What valid bytes mean

fn array<const N: usize>(bytes: &[u8], place: usize) -> [u8; N] {
    bytes[place..place + N].try_into().unwrap()
}

fn run(bytes: &[u8], place: usize, length: u64) -> Vec<u8> {
    bytes[place..place + length as usize].to_vec()
}

pub fn reader(bytes: &[u8]) -> Reader {
    match number(bytes, 0, 2) {
        4141 => Reader { bytes: Vec::new(), long: true },
        count => Reader { bytes: run(bytes, 2, count), long: false },
    }
}

pub fn outbox(bytes: &[u8]) -> Outbox {
    let (begin, end) = (number(bytes, 0, 2), number(bytes, 2, 2));
    Outbox { pending: run(bytes, 5 + begin as usize, end - begin), last_non_zero: bytes[4] == 1 }
}

pub fn factory(bytes: &[u8]) -> Factory {
    let item = |i: usize| {
        let place = ITEMS_OFFSET + ITEM_LENGTH * i;
        Item {
            result: bytes[place],
            name: array(bytes, place + 1),
            kind: bytes[place + 33],
            data: run(bytes, place + 35, u64::from(bytes[place + ITEM_DATA_LENGTH])),
        }
    };
    Factory {
        bsu: bytes[0],
        model: array(bytes, 1),
        revision: number(bytes, 12, 4) as u32,
        serial: array(bytes, 16),
        base: array(bytes, 27),
        count: number(bytes, 33, 2) as u16,
        stride: bytes[35],
        hash: array(bytes, 36),
        image_id: run(bytes, 69, u64::from(bytes[68])),
        items: (0..number(bytes, COUNT_OFFSET, 4) as usize).map(item).collect(),
    }
}

pub fn settings(bytes: &[u8]) -> Settings {
    KEYS.map(|(place, _)| Setting {
        edition: number(bytes, place + EDITION_OFFSET, 4) as u32,
        value: (bytes[place] == 1).then(|| run(bytes, place + VALUE_OFFSET, number(bytes, place + VALUE_LENGTH_OFFSET, 2))),
    })
}

fn record(bytes: &[u8], place: usize) -> Option<Record> {
    let length = number(bytes, place + 3, 2);
    (bytes[place] == 1).then(|| Record {
        code: number(bytes, place + 1, 2) as u16,
        length: length as usize,
        kept: run(bytes, place + 5, length.min(512)),
    })
}

fn alert(bytes: &[u8], place: usize) -> Alert {
    Alert { action: bytes[place + 2], text: run(bytes, place + 3, number(bytes, place, 2)) }
}

pub fn registers(bytes: &[u8]) -> Registers {
    Registers {
        status: number(bytes, 0, 8),
        options: number(bytes, 8, 8),
        reboot: bytes[16] == 1,
        power_off: bytes[17] == 1,
        boot_failure: record(bytes, 18),
        panic: record(bytes, 535),
        alerts: (0..usize::from(bytes[1052])).map(|i| alert(bytes, 1053 + 259 * i)).collect(),
        retained: (bytes[3125] != 0).then(|| Retained {
            version: u32::from(bytes[3125]),
            sequence: number(bytes, 3126, 8),
            alert: alert(bytes, 3134),
        }),
    }
}
