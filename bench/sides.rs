// Defines what is measured and compared: the library's ends and the yardsticks' under one name each, and the two states of a supervisor.
// Assumes that a call which a row makes is not refused.

use crate::board::{self, Bytes, Factory};
use crate::plain::Plain;
use crate::receiver::Yardstick;
use crate::{images, main_end};
use oatcastle::requester::{Handed, Requester, RequesterStorage};
use oatcastle::{write_frame, Bsu, Item, ItemResult, Key, Request, StartData, Supervisor, SupervisorStorage, LONGEST_FRAME};
use std::num::NonZeroU8;

pub const HASH: [u8; 32] = [7; 32];
pub const ACTION: u8 = 9;
const ID: [u8; 64] = [0x69; 64];

/// A supervisor.
pub trait Side {
    fn start(items: &[Item]) -> Self;
    fn receive(&mut self, image: &[u8], piece: &[u8]);
    fn take(&mut self, room: &mut [u8]) -> usize;
    fn post(&mut self, text: &[u8]);
}

/// A supervisor whose settings are saved and restored.
pub trait Saver: Side {
    fn save(&self, room: &mut [u8]) -> usize;
    fn restore(&mut self, image: &[u8]);
}

/// A main processor's end.
pub trait Asker {
    fn start() -> Self;
    fn restart(&mut self);
    /// Puts a lookup out.
    fn ask(&mut self, out: &mut [u8]);
    /// Hands the answer in; gives the length of its data.
    fn hear(&mut self, piece: &[u8]) -> usize;
}

pub fn start_data(items: &[Item]) -> StartData {
    let mut data = StartData::new(Bsu::A).with_hash(HASH).with_image_id(&ID);
    items.iter().for_each(|&item| data.add_item(item).expect("an item that is allowed"));
    data
}

pub fn factory(items: &[Item]) -> Factory {
    let item = |item: &Item| board::Item { result: item.result.number(), name: item.name, kind: item.kind, data: Bytes::of(item.data) };
    Factory { hash: HASH, id: Bytes::of(&ID), items: items.iter().map(item).collect() }
}

impl Side for Supervisor<'static> {
    fn start(items: &[Item]) -> Self {
        Supervisor::start_in(Box::leak(Box::new(SupervisorStorage::new())), &start_data(items))
    }

    fn receive(&mut self, image: &[u8], piece: &[u8]) {
        Supervisor::receive(self, image, piece);
    }

    fn take(&mut self, room: &mut [u8]) -> usize {
        Supervisor::take(self, room).len()
    }

    fn post(&mut self, text: &[u8]) {
        Supervisor::post(self, NonZeroU8::new(ACTION).expect("not 0"), text).expect("room for an alert");
    }
}

impl Saver for Supervisor<'static> {
    fn save(&self, room: &mut [u8]) -> usize {
        Supervisor::save(self, room).expect("room for an image").len()
    }

    fn restore(&mut self, image: &[u8]) {
        Supervisor::restore(self, image).expect("a good image");
    }
}

impl Side for Plain {
    fn start(items: &[Item]) -> Self {
        Plain::start(&start_data(items))
    }

    fn receive(&mut self, image: &[u8], piece: &[u8]) {
        Plain::receive(self, image, piece);
    }

    fn take(&mut self, room: &mut [u8]) -> usize {
        Plain::take(self, room)
    }

    fn post(&mut self, text: &[u8]) {
        Plain::post(self, ACTION, text);
    }
}

impl<Y: Yardstick> Side for board::Supervisor<Y> {
    fn start(items: &[Item]) -> Self {
        board::Supervisor::new(factory(items))
    }

    fn receive(&mut self, image: &[u8], piece: &[u8]) {
        board::Supervisor::receive(self, image, piece);
    }

    fn take(&mut self, room: &mut [u8]) -> usize {
        board::Supervisor::take(self, room)
    }

    fn post(&mut self, text: &[u8]) {
        board::Supervisor::post(self, ACTION, text).expect("room for an alert");
    }
}

impl<Y: Yardstick> Saver for board::Supervisor<Y> {
    fn save(&self, room: &mut [u8]) -> usize {
        images::save::<Y>(self.settings(), room).expect("room for an image")
    }

    fn restore(&mut self, image: &[u8]) {
        images::restore::<Y>(self.settings_mut(), image).expect("a good image");
    }
}

impl Asker for Requester<'static> {
    fn start() -> Self {
        Requester::start_in(Box::leak(Box::new(RequesterStorage::new())))
    }

    fn restart(&mut self) {
        Requester::restart(self);
    }

    fn ask(&mut self, out: &mut [u8]) {
        self.request(&Request::lookup(Key::WithdrawnKeys, 4096), out).expect("none is outstanding");
    }

    fn hear(&mut self, piece: &[u8]) -> usize {
        match self.receive(piece).handed {
            Handed::Answer(message) => message.data.len(),
            _ => panic!("no answer"),
        }
    }
}

impl<Y: Yardstick> Asker for main_end::MainEnd<Y> {
    fn start() -> Self {
        main_end::MainEnd::new()
    }

    fn restart(&mut self) {
        *self = main_end::MainEnd::new();
    }

    fn ask(&mut self, out: &mut [u8]) {
        self.request(0x0e, &[5, 0, 16], out).expect("none is outstanding");
    }

    fn hear(&mut self, piece: &[u8]) -> usize {
        self.receive(piece).answer.expect("an answer").1
    }
}

/// The state of a supervisor that a row is about.
#[derive(Clone, Copy, PartialEq, Eq)]
pub enum State {
    /// Just started, with one item, and the value or alert that the row's request asks for.
    Started,
    /// 64 items with data, every setting at its longest, 8 alerts, both records.
    Full,
}

impl State {
    pub const fn name(self) -> &'static str {
        match self {
            State::Started => "as started",
            State::Full => "full",
        }
    }

    pub const fn items(self) -> usize {
        match self {
            State::Started => 1,
            State::Full => 64,
        }
    }

    /// A supervisor in this state.
    pub fn side<S: Side>(self) -> S {
        let item = Item { result: ItemResult::Found, name: [0x6e; 32], kind: 4, data: &[0x64; 64] };
        let mut side = S::start(&vec![item; self.items()]);
        if self == State::Full {
            fill(&mut side);
        }
        side
    }
}

/// Fills a supervisor that has started: settings, records and alerts.
pub fn fill<S: Side>(side: &mut S) {
    for (key, length) in [(3, 256), (4, 4096), (5, 4096), (6, 63)] {
        side.receive(&[], &set(key, &noise(length)));
    }
    side.receive(&[], &frame(1, 1, 0x06, &noise(4104)));
    side.receive(&[], &frame(1, 1, 0x07, &noise(4104)));
    (0..8).for_each(|_| side.post(&noise(256)));
    side.take(&mut [0; 5000]);
}

/// Bytes that look random, always the same.
pub fn noise(length: usize) -> Vec<u8> {
    let mut state = 1u64;
    (0..length)
        .map(|_| {
            state = state.wrapping_mul(6_364_136_223_846_793_005).wrapping_add(1_442_695_040_888_963_407);
            (state >> 56) as u8
        })
        .collect()
}

pub fn frame(version: u32, sequence: u64, command: u8, data: &[u8]) -> Vec<u8> {
    let mut room = [0; LONGEST_FRAME];
    write_frame(version, sequence, command, data, &[], &mut room).expect("the frame fits").to_vec()
}

/// The frame of a key set.
pub fn set(key: u8, value: &[u8]) -> Vec<u8> {
    frame(1, 1, 0x10, &[&[key][..], value].concat())
}
