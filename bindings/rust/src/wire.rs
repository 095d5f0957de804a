//! Defines what goes over the wire by name: commands of requests and of replies, keys, the results of a set, and bits.
//! Assumes nothing: `tests/interface.py` compares the numbers with the crates, and `tests/wire.rs` the rows with `docs/WIRE.md`.

use crate::limits::{FIRST_SETTING, LONGEST_SETTINGS, SHORTEST_PASSPHRASE};
use crate::numbers::numbered;
use core::ops::RangeInclusive;

// A field of data is its name and its width in bytes; one of width n is the rest.

numbered! {
    /// The command of a request.
    Command as u8, "command":
    /// Data: none. No reply.
    Reboot = 0x01, "reboot";
    /// Data: none. No reply.
    PowerOff = 0x02, "power off";
    /// Data: none. Reply: 0x03.
    Bsu = 0x03, "bsu";
    /// Data: none. Reply: 0x04.
    Identity = 0x04, "identity";
    /// Data: none. Reply: 0x05.
    Mac = 0x05, "mac";
    /// Data: reason 1, rest n (1 to 4,104 bytes). No reply.
    BootFailure = 0x06, "boot failure";
    /// Data: cause 2, rest n (2 to 4,104 bytes). Reply: 0x01.
    Panic = 0x07, "panic";
    /// Data: none. Reply: 0x06.
    Status = 0x08, "status";
    /// Data: none. Reply: 0x01.
    StartAcknowledged = 0x09, "start acknowledged";
    /// Data: none. Reply: 0x07.
    Alert = 0x0a, "alert";
    /// Data: hash 32, offset 8 (40 bytes). Reply: 0x09.
    ImageBlock = 0x0d, "image block";
    /// Data: key 1, maxresponse 2 (3 bytes). Reply: 0x0a.
    KeyLookup = 0x0e, "key lookup";
    /// Data: index 4 (4 bytes). Reply: 0x0b.
    Inventory = 0x0f, "inventory";
    /// Data: key 1, value n (1 to 4,104 bytes). Reply: 0x0c.
    KeySet = 0x10, "key set";
}

numbered! {
    /// The command of a reply.
    ReplyCommand as u8, "reply":
    /// Data: none.
    Acknowledged = 0x01, "acknowledged";
    /// Data: reason 1 (1 byte).
    DecodeFailure = 0x02, "decode failure";
    /// Data: bsu 1 (1 byte).
    Bsu = 0x03, "bsu";
    /// Data: model 11, revision 4, serial 11 (26 bytes).
    Identity = 0x04, "identity";
    /// Data: base 6, count 2, stride 1 (9 bytes).
    Mac = 0x05, "mac";
    /// Data: status 8, options 8 (16 bytes).
    Status = 0x06, "status";
    /// Data: action 1, text n (1 to 257 bytes).
    Alert = 0x07, "alert";
    /// Data: block n (0 to 4,096 bytes).
    ImageBlock = 0x09, "image block";
    /// Data: result 1, value n (1 to 4,097 bytes). In version 2 edition 4 stands ahead of the last field (1 to 4,101 bytes).
    KeyLookup = 0x0a, "key lookup";
    /// Data: result 1, name 32, type 1, data n (34 to 98 bytes).
    Inventory = 0x0b, "inventory";
    /// Data: result 1 (1 byte).
    KeySet = 0x0c, "key set";
}

numbered! {
    /// A key of the supervisor's stores.
    Key as u8, "key":
    /// 4 to 4 bytes. Set: no. Look up: yes. Image: no.
    Ping = 0, "the text pong";
    /// 0 to 64 bytes. Set: no. Look up: yes. Image: no.
    ImageId = 1, "the recovery image's ID";
    /// 8 to 8 bytes. Set: no. Look up: yes. Image: no.
    Inventory = 2, "the number of items, then the inventory's version, which is zero";
    /// 0 to 256 bytes. Set: yes. Look up: yes. Image: yes.
    EtcSystem = 3, "the content of the main processor's file etc/system";
    /// 0 to 4,096 bytes. Set: yes. Look up: yes. Image: yes.
    DtraceConf = 4, "the content of its dtrace configuration";
    /// 0 to 4,096 bytes. Set: yes. Look up: yes. Image: yes.
    WithdrawnKeys = 5, "the list of withdrawn keys";
    /// 8 to 63 bytes. Set: yes. Look up: no. Image: no.
    Passphrase = 6, "the wireless passphrase";
}

numbered! {
    /// The result of a key set that stores nothing; the number is the one on the wire, where 0 is a stored value.
    NotSet as u8, "set result":
    BadKey = 1, "no such key";
    ReadOnly = 2, "the key cannot be set";
    TooLong = 3, "the value is longer than the longest, or shorter than the shortest";
    LastEdition = 4, "the key has the last edition";
}

impl core::error::Error for NotSet {}

numbered! {
    /// A bit of the status.
    StatusBit as u64, "status":
    Restarted = 0x1, "a start sets it, and a start acknowledged clears it";
    Alerts = 0x2, "an alert that is posted sets it, and an alert request that leaves none waiting clears it";
}

numbered! {
    /// A bit of the startup options.
    OptionBit as u64, "option":
    Recovery = 0x001, "fetch the image by image block requests";
    Kbm = 0x002, "enable KBM debugging";
    BootRd = 0x004, "enable BootRD debugging";
    Prom = 0x008, "enable PROM debugging";
    Kmdb = 0x010, "load KMDB";
    KmdbBoot = 0x020, "load KMDB and enter it at boot";
    Ramdisk = 0x040, "mount the ramdisk as root";
    NetBoot = 0x080, "boot from the network";
    Verbose = 0x100, "enable a verbose boot";
}

impl Command {
    /// The command of its reply; `None` where it gets none.
    #[must_use]
    pub const fn reply(self) -> Option<ReplyCommand> {
        Some(match self {
            Command::Reboot | Command::PowerOff | Command::BootFailure => return None,
            Command::Panic | Command::StartAcknowledged => ReplyCommand::Acknowledged,
            Command::Bsu => ReplyCommand::Bsu,
            Command::Identity => ReplyCommand::Identity,
            Command::Mac => ReplyCommand::Mac,
            Command::Status => ReplyCommand::Status,
            Command::Alert => ReplyCommand::Alert,
            Command::ImageBlock => ReplyCommand::ImageBlock,
            Command::KeyLookup => ReplyCommand::KeyLookup,
            Command::Inventory => ReplyCommand::Inventory,
            Command::KeySet => ReplyCommand::KeySet,
        })
    }
}

impl Key {
    /// How many bytes a value that is set may have; `None` where the key cannot be set.
    #[must_use]
    pub const fn set_lengths(self) -> Option<RangeInclusive<usize>> {
        let key = self as usize;
        if key < FIRST_SETTING {
            return None;
        }
        let shortest = if matches!(self, Key::Passphrase) { SHORTEST_PASSPHRASE } else { 0 };
        Some(shortest..=LONGEST_SETTINGS[key - FIRST_SETTING])
    }
}

/// The result of a key set by its number on the wire.
pub(crate) fn set_result(number: u64) -> Option<Result<(), NotSet>> {
    if number == 0 {
        Some(Ok(()))
    } else {
        NotSet::of(number).map(Err)
    }
}
