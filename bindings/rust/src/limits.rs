//! Defines every length, limit, offset and kind that the wrapper goes by, each once and named as in `include/oatcastle.h` or in the crate's code.
//! Assumes nothing: `tests/interface.py` compares each with the crates.

// ---- Published lengths of the lent parts

pub(crate) const READER_LENGTH: usize = 4142;
pub(crate) const OUTBOX_LENGTH: usize = 4147;
pub(crate) const FACTORY_LENGTH: usize = 6481;
/// The settings store has so many bytes.
pub const SETTINGS_LENGTH: usize = 8539;
pub(crate) const REGISTERS_LENGTH: usize = 3393;
pub(crate) const REQUESTER_LENGTH: usize = 4118;

// ---- Limits

/// A message has at most so many bytes of data.
pub const LONGEST_DATA: usize = 4104;
/// A frame has at most so many bytes, its 00 among them.
pub const LONGEST_FRAME: usize = 4141;
/// A room of so many bytes takes at once all that can be pending: a frame, and a 00 ahead of it.
pub const MOST_PENDING: usize = 4142;
/// An alert has at most so many bytes of text.
pub const LONGEST_ALERT: usize = 256;
/// So many alerts wait at most.
pub const MOST_ALERTS: usize = 8;
/// A record keeps at most so many bytes.
pub const MOST_KEPT: usize = 512;
/// The inventory has at most so many items.
pub const MOST_ITEMS: usize = 64;
/// An image of the settings has at most so many bytes.
pub const LONGEST_IMAGE: usize = 8483;
/// An item has at most so many bytes of data.
pub const LONGEST_ITEM_DATA: usize = 64;
/// A reply has at most so many bytes of the image.
pub const LONGEST_BLOCK: usize = 4096;
/// An image ID has at most so many bytes.
pub const LONGEST_IMAGE_ID: usize = 64;
/// An address has so many bytes.
pub const ADDRESS_LENGTH: usize = 6;
/// So many addresses of a plan are given.
pub const ADDRESS_ROWS: usize = 8;
/// A wireless passphrase has at least so many bytes.
pub const SHORTEST_PASSPHRASE: usize = 8;
/// A wireless passphrase has at most so many bytes.
pub const LONGEST_PASSPHRASE: usize = 63;
/// Option bits 0 to 8.
pub(crate) const ALL_OPTIONS: u64 = 511;
/// The longest value of each settings key, from `FIRST_SETTING` on.
pub(crate) const LONGEST_SETTINGS: [usize; 4] = [256, 4096, 4096, 63];
pub(crate) const FIRST_SETTING: usize = 3;
/// A root-of-trust message ahead of its payload.
pub(crate) const ROT_HEADER_LENGTH: usize = 8;
/// A payload has at most so many bytes.
pub const ROT_LONGEST_PAYLOAD: usize = 512;
/// A message has at most so many bytes.
pub const ROT_LONGEST_MESSAGE: usize = 520;

// ---- Kinds in the answers

pub(crate) const MORE: u64 = 0;
pub(crate) const EMPTY: u64 = 1;
pub(crate) const MESSAGE: u64 = 2;
pub(crate) const FAILURE: u64 = 3;
pub(crate) const NOTHING: u64 = 0;
pub(crate) const ANSWER: u64 = 1;
pub(crate) const STATUS: u64 = 2;
pub(crate) const ALERT: u64 = 3;
pub(crate) const IDLE: u64 = 0;
pub(crate) const WAITING: u64 = 1;
pub(crate) const RECOVERY_STATUS: u64 = 2;
pub(crate) const RECOVERY_ACKNOWLEDGE: u64 = 3;
pub(crate) const RECOVERY_ALERT: u64 = 4;
pub(crate) const ROT_NOTHING: u64 = 0;
pub(crate) const ROT_MESSAGE: u64 = 1;
pub(crate) const ROT_ECHOED: u64 = 2;

// ---- The start data, and the factory store behind them

pub(crate) const START_LENGTH: usize = 6473;
pub(crate) const START_BSU: usize = 0;
pub(crate) const START_MODEL: usize = 1;
pub(crate) const START_REVISION: usize = 12;
pub(crate) const START_SERIAL: usize = 16;
pub(crate) const START_MAC_BASE: usize = 27;
pub(crate) const START_MAC_COUNT: usize = 33;
pub(crate) const START_MAC_STRIDE: usize = 35;
pub(crate) const START_IMAGE_HASH: usize = 36;
pub(crate) const START_IMAGE_ID_LENGTH: usize = 68;
pub(crate) const START_IMAGE_ID: usize = 69;
pub(crate) const START_ITEMS: usize = 133;
pub(crate) const START_ITEM_COUNT: usize = 6469;
pub(crate) const ITEM_LENGTH: usize = 99;
pub(crate) const ITEM_RESULT: usize = 0;
pub(crate) const ITEM_NAME: usize = 1;
pub(crate) const ITEM_TYPE: usize = 33;
pub(crate) const ITEM_DATA_LENGTH: usize = 34;
pub(crate) const ITEM_DATA: usize = 35;
pub(crate) const PONG_OFFSET: usize = 6477;

// ---- Fields of the other parts, from which values are handed out as they lie there

/// A message's data in the line reader's part.
pub(crate) const MESSAGE_DATA_OFFSET: usize = 19;
/// In a setting.
pub(crate) const SETTING_EDITION_OFFSET: usize = 1;
pub(crate) const SETTING_LENGTH_OFFSET: usize = 5;
pub(crate) const SETTING_VALUE_OFFSET: usize = 7;
/// The wireless passphrase's record in the settings store, for the radio's driver: 1 byte, 1 if a value is held, else 0.
pub const PASSPHRASE_RECORD: usize = 8469;
/// The passphrase's edition in the settings store: 4 bytes, little-endian.
pub const PASSPHRASE_EDITION: usize = 8470;
/// The passphrase's length in the settings store: 2 bytes, little-endian.
pub const PASSPHRASE_LENGTH: usize = 8474;
/// The passphrase in the settings store: `LONGEST_PASSPHRASE` bytes, of which as many as its length says count.
pub const PASSPHRASE_VALUE: usize = 8476;
/// In the registers.
pub(crate) const BOOT_FAILURE_OFFSET: usize = 18;
pub(crate) const PANIC_OFFSET: usize = 535;
/// In a record.
pub(crate) const RECORD_CODE_OFFSET: usize = 1;
pub(crate) const RECORD_WHOLE_OFFSET: usize = 3;
pub(crate) const RECORD_KEPT_OFFSET: usize = 5;

/// A key's value has at most so many bytes.
pub const LONGEST_VALUE: usize = {
    let (mut longest, mut index) = (0, 0);
    while index < LONGEST_SETTINGS.len() {
        if LONGEST_SETTINGS[index] > longest {
            longest = LONGEST_SETTINGS[index];
        }
        index += 1;
    }
    longest
};

/// Where the setting of a key lies; the store's length for a key that has none.
pub(crate) const fn setting_offset(key: usize) -> usize {
    let (mut offset, mut index) = (0, 0);
    while index < LONGEST_SETTINGS.len() && FIRST_SETTING + index < key {
        offset += SETTING_VALUE_OFFSET + LONGEST_SETTINGS[index];
        index += 1;
    }
    offset
}

const _: () = assert!(setting_offset(usize::MAX) == SETTINGS_LENGTH, "the settings store has one setting behind the other");
const _: () = assert!(
    setting_offset(FIRST_SETTING + LONGEST_SETTINGS.len() - 1) == PASSPHRASE_RECORD
        && PASSPHRASE_VALUE + LONGEST_PASSPHRASE == SETTINGS_LENGTH
);
const _: () = assert!(
    PASSPHRASE_EDITION == PASSPHRASE_RECORD + SETTING_EDITION_OFFSET && PASSPHRASE_LENGTH == PASSPHRASE_RECORD + SETTING_LENGTH_OFFSET
);
const _: () = assert!(START_ITEMS + MOST_ITEMS * ITEM_LENGTH == START_ITEM_COUNT, "the start data have one item behind the other");
