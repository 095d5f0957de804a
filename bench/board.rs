// Defines the yardsticks' supervisor: typed state in arrays, the measured requests, and the calls that fill and save it.
// Assumes documents 01 and 02; the requests that the benchmark does not send are not here.

use crate::receiver::{write, End, Head, Reader, Yardstick, TOP_BIT};
use std::ops::RangeInclusive;

pub const FIRST_SETTING: u8 = 3;
/// The lengths of each setting's value, from key 3 on.
pub const LENGTHS: [RangeInclusive<usize>; 4] = [0..=256, 0..=4096, 0..=4096, 8..=63];
const PASSPHRASE: u8 = 6;
const RESTARTED: u64 = 1;
const ALERTS: u64 = 2;

/// At most N bytes.
#[derive(Clone, Copy)]
pub struct Bytes<const N: usize> {
    length: usize,
    bytes: [u8; N],
}

impl<const N: usize> Bytes<N> {
    pub const NONE: Bytes<N> = Bytes { length: 0, bytes: [0; N] };

    pub fn of(bytes: &[u8]) -> Bytes<N> {
        let mut of = Bytes::NONE;
        of.set(bytes);
        of
    }

    pub fn set(&mut self, bytes: &[u8]) {
        self.bytes[..bytes.len()].copy_from_slice(bytes);
        self.length = bytes.len();
    }

    pub fn get(&self) -> &[u8] {
        &self.bytes[..self.length]
    }
}

/// What the factory gives: the image's hash and ID, and the items.
pub struct Factory {
    pub hash: [u8; 32],
    pub id: Bytes<64>,
    pub items: Vec<Item>,
}

pub struct Item {
    pub result: u8,
    pub name: [u8; 32],
    pub kind: u8,
    pub data: Bytes<64>,
}

/// A setting: how often it was set, whether it has a value, and the value.
pub struct Setting {
    pub edition: u32,
    pub held: bool,
    pub value: Bytes<4096>,
}

impl Setting {
    pub const NONE: Setting = Setting { edition: 0, held: false, value: Bytes::NONE };

    /// Stores a value; gives the result of the key set.
    fn set(&mut self, lengths: &RangeInclusive<usize>, value: &[u8]) -> u8 {
        if !lengths.contains(&value.len()) {
            return 3;
        }
        let Some(edition) = self.edition.checked_add(1) else { return 4 };
        self.edition = edition;
        self.held = true;
        self.value.set(value);
        0
    }
}

#[derive(Clone, Copy)]
struct Alert {
    action: u8,
    text: Bytes<256>,
}

impl Alert {
    const NONE: Alert = Alert { action: 0, text: Bytes::NONE };
}

/// The alerts that wait, from the oldest on, in a ring.
struct Alerts {
    slots: [Alert; 8],
    oldest: usize,
    count: usize,
}

impl Alerts {
    const NONE: Alerts = Alerts { slots: [Alert::NONE; 8], oldest: 0, count: 0 };

    fn put(&mut self, action: u8, text: &[u8]) {
        let slot = &mut self.slots[(self.oldest + self.count) % 8];
        slot.action = action;
        slot.text.set(text);
        self.count += 1;
    }

    fn take(&mut self) -> Alert {
        if self.count == 0 {
            return Alert::NONE;
        }
        let oldest = self.slots[self.oldest];
        self.oldest = (self.oldest + 1) % 8;
        self.count -= 1;
        oldest
    }
}

/// The last alert reply: what it answered, in which version, and with what.
struct Retained {
    head: Head,
    alert: Alert,
}

/// A recorded boot failure or panic: its code, how long its rest was, and the first bytes of that.
#[derive(Clone, Copy)]
pub struct Record {
    pub code: u16,
    pub length: usize,
    pub kept: Bytes<512>,
}

impl Record {
    fn of(code: u16, rest: &[u8], most: usize) -> Record {
        Record { code, length: rest.len(), kept: Bytes::of(&rest[..rest.len().min(most)]) }
    }
}

/// Replies that wait to be taken: at most one, and a 00 ahead of it where a reply was cut off.
struct Outbox {
    bytes: [u8; 4142],
    begin: usize,
    end: usize,
    last_non_zero: bool,
}

impl Outbox {
    /// Drops what is unsent.
    fn discard(&mut self) {
        self.bytes[0] = 0;
        self.begin = 0;
        self.end = usize::from(self.last_non_zero);
    }

    fn reply<Y: Yardstick>(&mut self, head: Head, first: &[u8], rest: &[u8]) {
        self.discard();
        self.end += write::<Y>(head, first, rest, &mut self.bytes[self.end..]).unwrap_or(0);
    }

    /// The reply to a lookup: its result, the edition in the second version, and the value.
    fn value<Y: Yardstick>(&mut self, head: Head, found: Result<(u32, &[u8]), u8>) {
        match found {
            Err(result) => self.reply::<Y>(head, &[result], &[]),
            Ok((edition, value)) if head.version == Y::rules().edition_version => {
                let [a, b, c, d] = edition.to_le_bytes();
                self.reply::<Y>(head, &[0, a, b, c, d], value);
            }
            Ok((_, value)) => self.reply::<Y>(head, &[0], value),
        }
    }

    fn fail<Y: Yardstick>(&mut self, version: u32, sequence: u64, reason: u8) {
        self.reply::<Y>(Head { version, sequence: sequence | TOP_BIT, command: 0x02 }, &[reason], &[]);
    }
}

/// All that requests read and change.
struct State {
    factory: Factory,
    /// The value of key 2: the number of items, and the inventory's version.
    inventory: [u8; 8],
    settings: [Setting; LENGTHS.len()],
    status: u64,
    options: u64,
    alerts: Alerts,
    retained: Option<Retained>,
    boot_failure: Option<Record>,
    panic: Option<Record>,
}

impl State {
    /// The edition and the value of a key, or the result of a lookup that finds none.
    fn lookup<Y: Yardstick>(&self, key: u8, most: u16) -> Result<(u32, &[u8]), u8> {
        let found = match key {
            0 => (0, &b"pong"[..]),
            1 => (0, self.factory.id.get()),
            2 => (0, &self.inventory[..]),
            _ if key >= Y::rules().keys => return Err(1),
            _ if key == Y::rules().set_only => return Err(4),
            _ => match &self.settings[usize::from(key - FIRST_SETTING)] {
                Setting { held: false, .. } => return Err(2),
                setting => (setting.edition, setting.value.get()),
            },
        };
        if found.1.len() > usize::from(most) { Err(3) } else { Ok(found) }
    }

    fn set<Y: Yardstick>(&mut self, key: u8, value: &[u8]) -> u8 {
        match key.checked_sub(FIRST_SETTING).map(usize::from) {
            None => 2,
            Some(place) if key < Y::rules().keys => self.settings[place].set(&LENGTHS[place], value),
            Some(_) => 1,
        }
    }

    /// The alert that a request gets, and the version in which it gets it.
    fn alert<Y: Yardstick>(&mut self, head: Head) -> &Retained {
        let again = |retained: &Retained| Y::rules().resends && retained.head.sequence == head.sequence;
        if !self.retained.as_ref().is_some_and(again) {
            let alert = self.alerts.take();
            if self.alerts.count == 0 {
                self.status &= !ALERTS;
            }
            self.retained = Some(Retained { head, alert });
        }
        self.retained.as_ref().expect("it was just set")
    }

    /// A block of the image, where the request has its hash.
    fn block<'i>(&self, image: &'i [u8], data: &[u8]) -> &'i [u8] {
        let offset = u64::from_le_bytes(data[32..].try_into().unwrap());
        let ours = data[..32] == self.factory.hash && offset < image.len() as u64;
        let tail = if ours { &image[offset as usize..] } else { &[] };
        &tail[..tail.len().min(4096)]
    }

    /// Result, name and type of an item, and its data.
    fn item<Y: Yardstick>(&self, index: u32) -> ([u8; 34], &[u8]) {
        let mut first = [0; 34];
        let Some(item) = self.factory.items.get(index as usize) else {
            first[0] = 1;
            return (first, &[]);
        };
        first[0] = item.result;
        first[1..33].copy_from_slice(&item.name);
        first[33] = item.kind;
        (first, if item.result == Y::rules().item_result { item.data.get() } else { &[] })
    }
}

/// A good message: what it does, and its reply.
fn request<Y: Yardstick>(state: &mut State, outbox: &mut Outbox, image: &[u8], head: Head, data: &[u8]) {
    if !matches!(head.version, 1 | 2) {
        return outbox.fail::<Y>(1, head.sequence, 5);
    }
    if head.sequence & TOP_BIT != 0 {
        return outbox.fail::<Y>(head.version, head.sequence, 6);
    }
    let to = |command| Head { sequence: head.sequence | TOP_BIT, command, ..head };
    match (head.command, data.len()) {
        (0x06, 1..) => {
            state.boot_failure = Some(Record::of(data[0].into(), &data[1..], Y::rules().most_kept));
            outbox.discard();
        }
        (0x07, 2..) => {
            state.panic = Some(Record::of(u16::from_le_bytes([data[0], data[1]]), &data[2..], Y::rules().most_kept));
            outbox.reply::<Y>(to(0x01), &[], &[]);
        }
        (0x08, 0) => outbox.reply::<Y>(to(0x06), &state.status.to_le_bytes(), &state.options.to_le_bytes()),
        (0x0a, 0) => {
            let Retained { head: first, alert } = state.alert::<Y>(head);
            outbox.reply::<Y>(Head { version: first.version, ..to(0x07) }, &[alert.action], alert.text.get());
        }
        (0x0d, 40) => outbox.reply::<Y>(to(0x09), &[], state.block(image, data)),
        (0x0e, 3) => {
            let found = state.lookup::<Y>(data[0], u16::from_le_bytes([data[1], data[2]]));
            outbox.value::<Y>(to(0x0a), found);
        }
        (0x0f, 4) => {
            let (first, rest) = state.item::<Y>(u32::from_le_bytes(data.try_into().unwrap()));
            outbox.reply::<Y>(to(0x0b), &first, rest);
        }
        (0x10, 1..) => outbox.reply::<Y>(to(0x0c), &[state.set::<Y>(data[0], &data[1..])], &[]),
        (0x06..=0x08 | 0x0a | 0x0d..=0x10, _) => outbox.fail::<Y>(head.version, head.sequence, 7),
        _ => outbox.fail::<Y>(1, u64::MAX, 3),
    }
}

pub struct Supervisor<Y> {
    reader: Reader<Y>,
    outbox: Outbox,
    state: State,
}

impl<Y: Yardstick> Supervisor<Y> {
    pub fn new(factory: Factory) -> Supervisor<Y> {
        let state = State {
            inventory: (factory.items.len() as u64).to_le_bytes(),
            factory,
            settings: [Setting::NONE; LENGTHS.len()],
            status: RESTARTED,
            options: 0,
            alerts: Alerts::NONE,
            retained: None,
            boot_failure: None,
            panic: None,
        };
        Supervisor { reader: Reader::new(), outbox: Outbox { bytes: [0; 4142], begin: 0, end: 0, last_non_zero: false }, state }
    }

    pub fn receive(&mut self, image: &[u8], piece: &[u8]) {
        let mut rest = piece;
        while !rest.is_empty() {
            let (used, end) = self.reader.read(rest);
            rest = &rest[used..];
            match end {
                End::More | End::Empty => {}
                End::Failure { reason, sequence } => self.outbox.fail::<Y>(1, sequence.unwrap_or(u64::MAX), reason),
                End::Message { head, length } => self.carry(image, head, length),
            }
        }
    }

    fn carry(&mut self, image: &[u8], head: Head, length: usize) {
        let data = self.reader.data(length);
        let passphrase = head.command == 0x10 && data.first() == Some(&PASSPHRASE);
        request::<Y>(&mut self.state, &mut self.outbox, image, head, data);
        if passphrase {
            self.reader.wipe();
        }
    }

    pub fn take(&mut self, room: &mut [u8]) -> usize {
        let outbox = &mut self.outbox;
        let moved = room.len().min(outbox.end - outbox.begin);
        room[..moved].copy_from_slice(&outbox.bytes[outbox.begin..outbox.begin + moved]);
        outbox.begin += moved;
        if moved > 0 {
            outbox.last_non_zero = room[moved - 1] != 0;
        }
        moved
    }

    /// Posts an alert, or gives the refusal.
    pub fn post(&mut self, action: u8, text: &[u8]) -> Result<(), u32> {
        if text.len() > 256 {
            return Err(9);
        }
        if self.state.alerts.count == Y::rules().most_alerts {
            return Err(10);
        }
        self.state.alerts.put(action, text);
        self.state.status |= ALERTS;
        Ok(())
    }

    /// The settings, from key 3 on.
    pub fn settings(&self) -> &[Setting; LENGTHS.len()] {
        &self.state.settings
    }

    pub fn settings_mut(&mut self) -> &mut [Setting; LENGTHS.len()] {
        &mut self.state.settings
    }

    /// The last boot failure, and the last panic.
    pub fn records(&self) -> [Option<Record>; 2] {
        [self.state.boot_failure, self.state.panic]
    }
}
