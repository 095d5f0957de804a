// Defines the comparison of a yardstick with the library on random inputs: what they answer, write, keep and hand out.
// Assumes nothing: a difference ends the run.

use crate::board::{self, Setting, FIRST_SETTING};
use crate::random::Random;
use crate::receiver::{self, End, Head, Yardstick, TOP_BIT};
use crate::sides::{fill, frame, Side, HASH};
use crate::{images, link, main_end};
use oatcastle::requester::{Handed, Requester, RequesterStorage};
use oatcastle::{checksum, write_frame, Item, ItemResult, Key, LineReader, NotFound, ReadEnd, ReaderStorage, Request, Supervisor};
use oatcastle::{LONGEST_FRAME, LONGEST_IMAGE, PASSPHRASE_RECORD};
use std::num::NonZeroU8;

const ROUNDS: usize = 4000;

pub fn compare<Y: Yardstick>() {
    line::<Y>();
    supervisor::<Y>();
    settings::<Y>();
    main_end::<Y>();
    link::compare();
}

/// The line layer: sums, frames written, frames read.
pub fn line<Y: Yardstick>() {
    let mut random = Random(1);
    for round in 0..ROUNDS {
        let length = if round < 600 { round } else { random.below(20_000) };
        let body = random.bytes(length);
        assert_eq!(checksum(&body), Y::checksum(&body), "{}: checksum of {length} bytes", Y::NAME);
    }
    for _ in 0..ROUNDS {
        written::<Y>(&mut random);
    }
    let mut storage = ReaderStorage::new();
    let mut reader = LineReader::start_in(&mut storage);
    let mut other = receiver::Reader::<Y>::new();
    for _ in 0..ROUNDS {
        let frame = any_frame(&mut random);
        pieces(&mut random, &frame, |piece| read(&mut reader, &mut other, piece));
    }
}

/// One message written into one room, that may be too short.
fn written<Y: Yardstick>(random: &mut Random) {
    let most = random.pick(&[2056, 2056, 40]);
    let (first, rest) = (random.below(most), random.below(most));
    let (first, rest) = (random.bytes(first), random.bytes(rest));
    let head = Head { version: random.next() as u32, sequence: random.next(), command: random.byte() };
    let size = first.len() + rest.len() + 19;
    let near = size + random.below(20);
    let room = random.pick(&[LONGEST_FRAME, size + size / 254 + 2, near]);
    let (mut ours, mut others) = (vec![0; room], vec![0; room]);
    let other = receiver::write::<Y>(head, &first, &rest, &mut others);
    match write_frame(head.version, head.sequence, head.command, &first, &rest, &mut ours) {
        Ok(frame) => assert_eq!(other.map(|length| &others[..length]), Ok(frame), "{}: frame", Y::NAME),
        Err(refusal) => assert_eq!(other, Err(refusal.number()), "{}: refusal", Y::NAME),
    }
}

/// Bytes, often with one that is changed, cut out or put in, and at times a long frame in their place.
fn damaged(random: &mut Random, mut bytes: Vec<u8>) -> Vec<u8> {
    let place = random.below(bytes.len());
    match random.below(8) {
        0 => bytes[place] = random.byte(),
        1 => drop(bytes.remove(place)),
        2 => bytes.insert(place, random.byte()),
        3 => {
            let length = 4120 + random.below(30);
            bytes = if random.percent(50) { random.bytes_of(1, length) } else { vec![1; length] };
            bytes.push(0);
        }
        _ => {}
    }
    bytes
}

fn any_frame(random: &mut Random) -> Vec<u8> {
    let most = random.pick(&[4, 300, 4105]);
    let length = random.below(most);
    let data = random.bytes(length);
    let frame = frame(random.next() as u32, random.next(), random.byte(), &data);
    damaged(random, frame)
}

/// The bytes in pieces, cut anywhere.
fn pieces(random: &mut Random, bytes: &[u8], mut each: impl FnMut(&[u8])) {
    let mut rest = bytes;
    while !rest.is_empty() {
        let cut = if random.percent(50) { rest.len() } else { 1 + random.below(rest.len()) };
        each(&rest[..cut]);
        rest = &rest[cut..];
    }
}

/// One piece read by as many calls as it takes.
fn read<Y: Yardstick>(reader: &mut LineReader, other: &mut receiver::Reader<Y>, piece: &[u8]) {
    let mut rest = piece;
    while !rest.is_empty() {
        let (used, found) = other.read(rest);
        let read = reader.read(rest);
        assert_eq!(used, read.used, "{}: bytes read", Y::NAME);
        rest = &rest[used..];
        let end = match read.end {
            ReadEnd::More => End::More,
            ReadEnd::Empty => End::Empty,
            ReadEnd::Failure(failure) => End::Failure { reason: failure.reason.number(), sequence: failure.sequence },
            ReadEnd::Message(message) => {
                assert_eq!(other.data(message.data.len()), message.data, "{}: data", Y::NAME);
                let head = Head { version: message.version, sequence: message.sequence, command: message.command };
                End::Message { head, length: message.data.len() }
            }
            end => panic!("{end:?} is not known here"),
        };
        assert_eq!(found, end, "{}: answer", Y::NAME);
    }
}

/// Requests to a supervisor as started, with few items and full, in pieces, with alerts posted and replies taken in part or whole.
pub fn supervisor<Y: Yardstick>() {
    let mut random = Random(2);
    let image = random.bytes_of(3, 9000);
    for (items, full) in [(0, false), (5, false), (64, true)] {
        let data: Vec<Vec<u8>> = (0..items).map(|_| some_bytes(&mut random, 65)).collect();
        let items: Vec<Item> = data.iter().map(|data| any_item(&mut random, data)).collect();
        let (mut ours, mut other) = (Supervisor::start(&items), board::Supervisor::<Y>::start(&items));
        if full {
            fill(&mut ours);
            fill(&mut other);
        }
        for _ in 0..ROUNDS / 3 {
            turn(&mut random, &image, &mut ours, &mut other);
        }
    }
}

fn any_item<'d>(random: &mut Random, data: &'d [u8]) -> Item<'d> {
    let result = random.pick(&[ItemResult::Found, ItemResult::Absent, ItemResult::Failed]);
    Item { result, name: [random.byte(); 32], kind: random.byte(), data }
}

/// Fewer than so many bytes.
fn some_bytes(random: &mut Random, most: usize) -> Vec<u8> {
    let length = random.below(most);
    random.bytes(length)
}

/// An alert posted or not, a request, and some of the reply.
fn turn<Y: Yardstick>(random: &mut Random, image: &[u8], ours: &mut Supervisor<'static>, other: &mut board::Supervisor<Y>) {
    if random.percent(15) {
        let (action, text) = (random.byte().max(1), some_bytes(random, 259));
        let posted = ours.post(NonZeroU8::new(action).expect("not 0"), &text);
        assert_eq!(posted.map_err(|refusal| refusal.number()), other.post(action, &text), "{}: post", Y::NAME);
    }
    let request = any_request(random, image.len());
    pieces(random, &request, |piece| {
        ours.receive(image, piece);
        other.receive(image, piece);
    });
    let size = random.pick(&[5000, 5000, 1, 30]);
    let (mut room, mut other_room) = (vec![0; size], vec![0; size]);
    let taken = other.take(&mut other_room);
    assert_eq!(Supervisor::take(ours, &mut room), &other_room[..taken], "{}: reply", Y::NAME);
    same_settings(ours, other);
    let records = [ours.boot_failure_record(), ours.panic_record()];
    for (record, other) in records.iter().zip(&other.records()) {
        let record = record.as_ref().map(|record| (record.code, record.length, record.kept));
        assert_eq!(record, other.as_ref().map(|other| (other.code, other.length, other.kept.get())), "{}: record", Y::NAME);
    }
}

/// Both have the same settings; the passphrase as it lies in the library's store.
fn same_settings<Y: Yardstick>(ours: &Supervisor, other: &board::Supervisor<Y>) {
    let held = |key: Key| Some(&other.settings()[usize::from(key.number() - FIRST_SETTING)]).filter(|setting| setting.held);
    let of = |setting: &Setting| (setting.edition, setting.value.get().to_vec());
    for key in [Key::EtcSystem, Key::DtraceConf, Key::WithdrawnKeys] {
        let found = ours.lookup(key, 4096).map(|found| (found.edition, found.value.to_vec()));
        assert_eq!(found, held(key).map(of).ok_or(NotFound::NoValue), "{}: {key}", Y::NAME);
    }
    let &[there, a, b, c, d, length, _, ref value @ ..] = &ours.settings_store()[PASSPHRASE_RECORD..] else { panic!("no record of key 6") };
    let found = (there == 1).then(|| (u32::from_le_bytes([a, b, c, d]), value[..length.into()].to_vec()));
    assert_eq!(found, held(Key::Passphrase).map(of), "{}: key 6", Y::NAME);
}

/// A request that a yardstick carries out, or one that fails.
fn any_request(random: &mut Random, image: usize) -> Vec<u8> {
    let command = random.pick(&[0x06, 0x07, 0x08, 0x0a, 0x0a, 0x0d, 0x0d, 0x0e, 0x0e, 0x0f, 0x0f, 0x10, 0x10, 0x0b, 0x55]);
    let key = random.pick(&[0, 1, 2, 3, 4, 4, 4, 5, 5, 6, 6, 7, 0xff]);
    let data = match command {
        _ if random.percent(10) => vec![random.pick(&[0, 4]); random.below(4)],
        0x06 | 0x07 => some_bytes(random, 1000),
        0x0d => {
            let hash = random.pick(&[HASH, HASH, HASH, [8; 32]]);
            [&hash[..], &(random.below(image + 3) as u64).to_le_bytes()].concat()
        }
        0x0e => {
            let most = random.pick(&[4096, 4096, 4095, 256, 255, 64, 63, 8, 4, 3, 0u16]);
            [&[key][..], &most.to_le_bytes()].concat()
        }
        0x0f => (random.below(67) as u32).to_le_bytes().to_vec(),
        0x10 => {
            let most = random.pick(&[4104, 4104, 300, 80, 10]);
            let any = random.below(most);
            let length = random.pick(&[any, any, 256, 4096, 63]);
            [&[key][..], &random.bytes(length)].concat()
        }
        _ => Vec::new(),
    };
    let version = random.pick(&[1, 1, 2, 2, 3]);
    let sequence = random.next() >> random.pick(&[0, 1, 1, 61, 61, 61]);
    let request = frame(version, sequence, command, &data);
    if random.percent(60) { request } else { damaged(random, request) }
}

/// Images saved into rooms of any length, damaged, and restored.
pub fn settings<Y: Yardstick>() {
    let mut random = Random(3);
    let (mut ours, mut other) = (Supervisor::start(&[]), board::Supervisor::<Y>::start(&[]));
    for _ in 0..ROUNDS / 2 {
        let request = any_set(&mut random);
        ours.receive(&[], &request);
        other.receive(&[], &request);
        let size = random.pick(&[LONGEST_IMAGE, LONGEST_IMAGE, 2, 300]);
        let (mut room, mut other_room) = (vec![0; size], vec![0; size]);
        let saved = images::save::<Y>(other.settings(), &mut other_room).map(|length| &other_room[..length]);
        let image = ours.save(&mut room);
        assert_eq!(image.map_err(|refusal| refusal.number()), saved, "{}: image", Y::NAME);
        let Ok(image) = image else { continue };
        let mut image = damaged(&mut random, image.to_vec());
        if random.percent(20) {
            image.truncate(random.below(image.len() + 1));
        }
        if random.percent(20) {
            image = [&record(&mut random)[..], &record(&mut random), b"KE"].concat();
        }
        let restored = ours.restore(&image).map_err(|fault| (fault.fault.number(), fault.offset));
        assert_eq!(restored, images::restore::<Y>(other.settings_mut(), &image), "{}: restore", Y::NAME);
        same_settings(&ours, &other);
    }
}

/// A set of any setting, often of its longest value.
fn any_set(random: &mut Random) -> Vec<u8> {
    let (key, length) = random.pick(&[(3, 256), (4, 4096), (5, 4096), (5, 64), (6, 63), (3, 0)]);
    let length = if random.percent(30) { length } else { random.below(length + 1) };
    frame(1, 1, 0x10, &[&[key][..], &random.bytes(length)].concat())
}

/// A record of an image with any key near the settings'.
fn record(random: &mut Random) -> Vec<u8> {
    let value = some_bytes(random, 300);
    let length = (value.len() as u16).to_le_bytes();
    let body = [b"KV", &[random.pick(&[2, 3, 4, 5, 6])][..], &random.byte().to_le_bytes(), &[0; 3], &length, &value].concat();
    [&body[..], &checksum(&body).to_le_bytes()].concat()
}

/// Requests of the main processor's end, and what may come back: answers, late replies, failures, damage.
pub fn main_end<Y: Yardstick>() {
    let mut random = Random(4);
    let mut storage = RequesterStorage::new();
    let (mut ours, mut other) = (Requester::start_in(&mut storage), main_end::MainEnd::<Y>::new());
    let mut number = 0;
    for _ in 0..ROUNDS {
        let (command, data) = (random.pick(&[0x08, 0x0e, 0x10, 0x10, 0x06]), some_bytes(&mut random, 4106));
        let size = random.pick(&[LONGEST_FRAME, LONGEST_FRAME, 30]);
        let (mut room, mut other_room) = (vec![0; size], vec![0; size]);
        let asked = other.request(command, &data, &mut other_room).map(|length| &other_room[..length]);
        let request = ours.request(&Request::raw(command, &data), &mut room);
        assert_eq!(request.map_err(|refusal| refusal.number()), asked, "{}: request", Y::NAME);
        number += u64::from(asked.is_ok());
        let reply = any_reply(&mut random, number);
        pieces(&mut random, &reply, |piece| heard(&mut ours, &mut other, piece));
        let sent = other.send(&mut other_room).map(|length| &other_room[..length]);
        assert_eq!(ours.send(&mut room).map_err(|refusal| refusal.number()), sent, "{}: sent again", Y::NAME);
    }
}

fn any_reply(random: &mut Random, number: u64) -> Vec<u8> {
    let number = random.pick(&[number, number, number, number, number.wrapping_sub(1)]) | random.pick(&[TOP_BIT, TOP_BIT, TOP_BIT, 0]);
    let data = some_bytes(random, 4105);
    let (version, command) = (random.pick(&[1, 1, 1, 2]), random.pick(&[0x0a, 0x06, 0x0c, 0x02]));
    let reply = frame(version, random.pick(&[number, number, number, u64::MAX]), command, &data);
    damaged(random, reply)
}

/// One piece heard by as many calls as it takes.
fn heard<Y: Yardstick>(ours: &mut Requester, other: &mut main_end::MainEnd<Y>, piece: &[u8]) {
    let mut rest = piece;
    while !rest.is_empty() {
        let heard = other.receive(rest);
        let received = ours.receive(rest);
        assert_eq!((heard.used, heard.unsent), (received.used, received.unsent), "{}: heard", Y::NAME);
        rest = &rest[heard.used..];
        let answer = match received.handed {
            Handed::Answer(message) => Some((message.sequence, message.command, message.data)),
            _ => None,
        };
        let other = heard.answer.map(|(head, length)| (head.sequence, head.command, other.data(length)));
        assert_eq!(other, answer, "{}: answer", Y::NAME);
    }
}
