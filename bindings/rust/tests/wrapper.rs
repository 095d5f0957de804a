// Defines tests of the safe wrapper: each method once with its answer, and the refusals that its types leave possible.
// Assumes the static library is linked.

#[allow(dead_code)]
#[path = "../src/limits.rs"]
mod limits;
#[allow(dead_code)]
#[path = "../src/raw.rs"]
mod raw;

use limits::{FACTORY_LENGTH, FIRST_SETTING, LONGEST_SETTINGS, OUTBOX_LENGTH, READER_LENGTH, REGISTERS_LENGTH, SETTINGS_LENGTH};
use oatcastle::requester::{Handed, Outstanding, Received, Requester, RequesterStorage, State};
use oatcastle::{
    checksum, update_probes, write_frame, AddressPlan, Bsu, Command, Counters, Failure, Fault, Item, ItemResult, Key, LineReader, Message,
    NotFound, NotSet, OptionBit, Options, Probe, ReadEnd, ReaderStorage, Reason, Record, Refusal, Request, StartData, StaticCell, Status,
    Step, StepEnd, Supervisor, SupervisorStorage, Tail, LONGEST_ALERT, LONGEST_DATA, LONGEST_FRAME, LONGEST_IMAGE, LONGEST_IMAGE_ID,
    LONGEST_ITEM_DATA, LONGEST_PASSPHRASE, LONGEST_VALUE, MOST_ALERTS, MOST_ITEMS, MOST_KEPT, MOST_PENDING, PASSPHRASE_EDITION,
    PASSPHRASE_LENGTH, PASSPHRASE_RECORD, PASSPHRASE_VALUE, SHORTEST_PASSPHRASE,
};
use std::num::NonZeroU8;

const ONE: NonZeroU8 = NonZeroU8::MIN;

fn request(sequence: u64, command: u8, data: &[u8]) -> Vec<u8> {
    write_frame(1, sequence, command, data, &[], &mut [0; LONGEST_FRAME]).unwrap().to_vec()
}

/// Version, sequence, command and data of the one message in these bytes.
fn message(bytes: &[u8]) -> (u32, u64, u8, Vec<u8>) {
    let mut storage = ReaderStorage::new();
    let mut reader = LineReader::start_in(&mut storage);
    let read = reader.read(bytes);
    assert_eq!(read.used, bytes.len());
    let ReadEnd::Message(Message { version, sequence, command, data, .. }) = read.end else { panic!("no message") };
    (version, sequence, command, data.to_vec())
}

fn reply(supervisor: &mut Supervisor, image: &[u8], frame: &[u8]) -> (u8, Vec<u8>) {
    supervisor.receive(image, frame);
    let mut room = [0; MOST_PENDING];
    let (version, sequence, command, data) = message(supervisor.take(&mut room));
    assert_eq!((version, sequence >> 63), (1, 1));
    (command, data)
}

/// What a lookup gives, by its value or its result.
fn found<'s>(supervisor: &'s Supervisor, key: Key, maxresponse: u16) -> Result<&'s [u8], NotFound> {
    supervisor.lookup(key, maxresponse).map(|found| found.value)
}

/// The key of a setting by its place among them.
fn setting(index: usize) -> Key {
    Key::from_number((FIRST_SETTING + index) as u8).expect("a key")
}

/// Reason and sequence of a frame that failed.
fn failed(end: ReadEnd) -> (Reason, Option<u64>) {
    let ReadEnd::Failure(Failure { reason, sequence, .. }) = end else { panic!("{end:?} is no failure") };
    (reason, sequence)
}

/// Code, length and kept bytes of a record.
fn recorded(record: Option<Record<'_>>) -> Option<(u16, usize, &[u8])> {
    record.map(|record| (record.code, record.length, record.kept))
}

static UNIT: StartData = StartData::new(Bsu::B)
    .with_identity(*b"model-12345", 7, *b"serial-0001")
    .with_mac(AddressPlan { base: [1, 2, 3, 4, 5, 6], count: 8, stride: 9 })
    .with_hash([5; 32])
    .with_image_id(b"image")
    .with_item(Item { result: ItemResult::Found, name: [6; 32], kind: 4, data: b"data" })
    .with_item(Item { result: ItemResult::Absent, name: [7; 32], kind: 5, data: b"kept back" });

#[test]
fn start_data_come_back() {
    let mut storage = SupervisorStorage::new();
    let mut supervisor = Supervisor::start_in(&mut storage, &UNIT);
    assert_eq!(reply(&mut supervisor, &[], &request(1, 3, &[])), (3, vec![0x42]));
    assert_eq!(reply(&mut supervisor, &[], &request(2, 4, &[])), (4, b"model-12345\x07\0\0\0serial-0001".to_vec()));
    assert_eq!(reply(&mut supervisor, &[], &request(3, 5, &[])), (5, vec![1, 2, 3, 4, 5, 6, 8, 0, 9]));
    let item = [&[0][..], &[6; 32], &[4], b"data"].concat();
    assert_eq!(reply(&mut supervisor, &[], &request(4, 0x0f, &[0, 0, 0, 0])), (0x0b, item));
    let item = [&[2][..], &[7; 32], &[5]].concat();
    assert_eq!(reply(&mut supervisor, &[], &request(5, 0x0f, &[1, 0, 0, 0])), (0x0b, item));
    let asked = [&[5; 32][..], &4u64.to_le_bytes()].concat();
    assert_eq!(reply(&mut supervisor, b"an image", &request(6, 0x0d, &asked)), (9, b"mage".to_vec()));
    assert_eq!(found(&supervisor, Key::ImageId, 64), Ok(&b"image"[..]));
    assert_eq!(found(&supervisor, Key::Inventory, 8), Ok(&[2, 0, 0, 0, 0, 0, 0, 0][..]));
}

#[test]
fn start_data_have_bounds() {
    let item = |result, data| Item { result, name: [0; 32], kind: 0, data };
    let mut data = StartData::new(Bsu::A);
    assert_eq!(data.set_image_id(&[1; LONGEST_IMAGE_ID]), Ok(()));
    let before = data.clone();
    assert_eq!(data.set_image_id(&[1; LONGEST_IMAGE_ID + 1]), Err(Refusal::BadStart));
    assert_eq!(data.add_item(item(ItemResult::Found, &[0; LONGEST_ITEM_DATA + 1])), Err(Refusal::BadStart));
    assert_eq!(data, before);
    for _ in 0..MOST_ITEMS {
        assert_eq!(data.add_item(item(ItemResult::Failed, &[0; LONGEST_ITEM_DATA])), Ok(()));
    }
    let before = data.clone();
    assert_eq!(data.add_item(item(ItemResult::Found, &[])), Err(Refusal::BadStart));
    assert_eq!(data, before);
    let mut storage = SupervisorStorage::new();
    let supervisor = Supervisor::start_in(&mut storage, &data);
    assert_eq!(found(&supervisor, Key::ImageId, 64), Ok(&[1; LONGEST_IMAGE_ID][..]));
    data.set_image_id(b"id").unwrap();
    let supervisor = Supervisor::start_in(&mut storage, &data);
    assert_eq!(found(&supervisor, Key::ImageId, 64), Ok(&b"id"[..]));
    assert_eq!(found(&supervisor, Key::Inventory, 8), Ok(&[MOST_ITEMS as u8, 0, 0, 0, 0, 0, 0, 0][..]));
}

#[test]
fn local_calls() {
    let mut storage = SupervisorStorage::new();
    let mut supervisor = Supervisor::start_in(&mut storage, &StartData::new(Bsu::A));
    assert!(supervisor.signal());
    let flags = |supervisor: &Supervisor| (supervisor.flags().reboot, supervisor.flags().power_off);
    assert_eq!(flags(&supervisor), (false, false));
    assert_eq!(supervisor.boot_failure_record(), None);
    assert_eq!(supervisor.panic_record(), None);
    assert_eq!(found(&supervisor, Key::Ping, 3), Err(NotFound::TooLong));
    assert_eq!(found(&supervisor, Key::Ping, 4), Ok(&b"pong"[..]));
    assert_eq!(found(&supervisor, Key::ImageId, 0), Ok(&[][..]));
    assert_eq!(found(&supervisor, Key::EtcSystem, 4), Err(NotFound::NoValue));
    supervisor.receive(&[], &request(1, 1, &[]));
    supervisor.receive(&[], &request(1, 6, b"\x09why"));
    supervisor.receive(&[], &request(1, 7, b"\x34\x12how"));
    assert_eq!(flags(&supervisor), (true, false));
    assert_eq!(recorded(supervisor.boot_failure_record()), Some((9, 3, &b"why"[..])));
    assert_eq!(recorded(supervisor.panic_record()), Some((0x1234, 3, &b"how"[..])));
    assert_eq!(Options::of(512), Err(Refusal::BadValue));
    assert_eq!(Options::of(511).map(Options::bits), Ok(511));
    supervisor.set_options(Options::NONE.with(OptionBit::Verbose).with(OptionBit::Recovery));
    assert_eq!(reply(&mut supervisor, &[], &request(2, 8, &[])), (6, [&1u64.to_le_bytes()[..], &257u64.to_le_bytes()].concat()));
    supervisor.receive(&[], &request(3, 2, &[]));
    assert_eq!(flags(&supervisor), (true, true));
    supervisor.receive(&[], &request(4, 9, &[]));
    assert!(!supervisor.signal());
    supervisor.restart(&StartData::new(Bsu::A));
    assert_eq!(supervisor.panic_record(), None);
    assert!(supervisor.signal());
}

#[test]
fn editions() {
    let mut storage = SupervisorStorage::new();
    let mut supervisor = Supervisor::start_in(&mut storage, &UNIT);
    let editions = [Key::Ping, Key::ImageId, Key::Inventory, Key::WithdrawnKeys, Key::Passphrase].map(|key| supervisor.edition(key));
    assert_eq!(editions, [Ok(0), Ok(0), Ok(0), Err(NotFound::NoValue), Err(NotFound::SetOnly)]);
    for edition in 1..=3 {
        assert_eq!(reply(&mut supervisor, &[], &request(edition, 0x10, b"\x05list")), (0x0c, vec![0]));
        assert_eq!(supervisor.lookup(Key::WithdrawnKeys, 4).map(|found| (found.edition, found.value)), Ok((edition as u32, &b"list"[..])));
    }
    let mut room = [0; LONGEST_FRAME];
    supervisor.receive(&[], write_frame(2, 4, 0x0e, &[5], &[4, 0], &mut room).unwrap());
    let (version, _, command, data) = message(supervisor.take(&mut [0; MOST_PENDING]));
    assert_eq!((version, command, data), (2, 0x0a, b"\0\x03\0\0\0list".to_vec()));
    supervisor.restart(&UNIT);
    assert_eq!(supervisor.edition(Key::WithdrawnKeys), Err(NotFound::NoValue));
}

#[test]
fn passphrase() {
    let mut storage = SupervisorStorage::new();
    let mut supervisor = Supervisor::start_in(&mut storage, &UNIT);
    let mut set_only = |length: usize, result: u8| {
        assert_eq!(
            reply(&mut supervisor, &[], &request(1, 0x10, &[&[6][..], &bytes(length)].concat())),
            (0x0c, vec![result]),
            "{length} bytes"
        );
        for maxresponse in [0, 1, LONGEST_PASSPHRASE as u16, u16::MAX] {
            assert_eq!(supervisor.lookup(Key::Passphrase, maxresponse), Err(NotFound::SetOnly));
            assert_eq!(reply(&mut supervisor, &[], &request(2, 0x0e, &[&[6][..], &maxresponse.to_le_bytes()].concat())), (0x0a, vec![4]));
        }
        assert_eq!(supervisor.edition(Key::Passphrase), Err(NotFound::SetOnly));
    };
    for (length, result) in [(SHORTEST_PASSPHRASE - 1, 3), (LONGEST_PASSPHRASE + 1, 3), (SHORTEST_PASSPHRASE, 0), (LONGEST_PASSPHRASE, 0)] {
        set_only(length, result);
    }
    assert_eq!(NotFound::SetOnly.to_string(), "lookup result 4: nobody may read the key, whether or not it has a value");
}

/// The passphrase's fields in the settings store, where the radio's driver reads them.
#[test]
fn the_settings_store_has_the_passphrase() {
    let fields = |supervisor: &Supervisor| {
        let store = supervisor.settings_store();
        let length = u16::from_le_bytes([store[PASSPHRASE_LENGTH], store[PASSPHRASE_LENGTH + 1]]).into();
        let edition = u32::from_le_bytes(store[PASSPHRASE_EDITION..][..4].try_into().unwrap());
        (store[PASSPHRASE_RECORD], edition, store[PASSPHRASE_VALUE..][..length].to_vec())
    };
    let mut storage = SupervisorStorage::new();
    let mut supervisor = Supervisor::start_in(&mut storage, &UNIT);
    assert_eq!(fields(&supervisor), (0, 0, vec![]));
    for (edition, length) in [(1, SHORTEST_PASSPHRASE), (2, LONGEST_PASSPHRASE), (3, 20)] {
        assert_eq!(reply(&mut supervisor, &[], &request(1, 0x10, &[&[6][..], &bytes(length)].concat())), (0x0c, vec![0]));
        assert_eq!(fields(&supervisor), (1, edition, bytes(length)));
    }
    assert_eq!(reply(&mut supervisor, &[], &request(1, 0x10, &[&[6][..], &bytes(LONGEST_PASSPHRASE + 1)].concat())), (0x0c, vec![3]));
    assert_eq!(fields(&supervisor), (1, 3, bytes(20)));
    supervisor.restart(&UNIT);
    assert_eq!(fields(&supervisor), (0, 0, vec![]));
}

/// The supervisor's parts, started and lent to the C functions themselves, and a supervisor in storage of the wrapper.
struct Both<'s> {
    parts: [Vec<u8>; 5],
    supervisor: Supervisor<'s>,
}

impl Both<'_> {
    fn start<'s>(storage: &'s mut SupervisorStorage, data: &StartData) -> Both<'s> {
        let mut parts = [READER_LENGTH, OUTBOX_LENGTH, FACTORY_LENGTH, SETTINGS_LENGTH, REGISTERS_LENGTH].map(|length| vec![0xee; length]);
        let [reader, outbox, factory, settings, registers] = parts.each_mut().map(|part| (part.as_mut_ptr(), part.len()));
        // SAFETY: each pointer is valid for the length behind it, and no two runs overlap.
        let number = unsafe {
            raw::oatcastle_start(
                data.bytes().as_ptr(),
                reader.0,
                reader.1,
                outbox.0,
                outbox.1,
                factory.0,
                factory.1,
                settings.0,
                settings.1,
                registers.0,
                registers.1,
            )
        };
        assert_eq!(number, 0);
        Both { parts, supervisor: Supervisor::start_in(storage, data) }
    }

    fn receive(&mut self, piece: &[u8]) {
        let [reader, outbox, factory, settings, registers] = self.parts.each_mut().map(|part| (part.as_mut_ptr(), part.len()));
        // SAFETY: each pointer is valid for the length behind it, and no two runs overlap.
        let number = unsafe {
            raw::oatcastle_receive(
                [].as_ptr(),
                0,
                piece.as_ptr(),
                piece.len(),
                reader.0,
                reader.1,
                outbox.0,
                outbox.1,
                factory.0,
                factory.1,
                settings.0,
                settings.1,
                registers.0,
                registers.1,
            )
        };
        assert_eq!(number, 0);
        self.supervisor.receive(&[], piece);
    }

    /// Every lookup, edition and both records, as the library copies them out and as the wrapper hands them out.
    fn compare(&self) {
        let [_, _, factory, settings, registers] = &self.parts;
        let keys = || (0..=u8::MAX).filter_map(Key::from_number);
        assert_eq!(keys().count(), FIRST_SETTING + LONGEST_SETTINGS.len());
        for (key, maxresponse) in keys().flat_map(|key| [0, 3, 4, 5, 8, 64, 256, 1000, 4095, u16::MAX].map(|most| (key, most))) {
            let (mut room, mut answer) = ([0; LONGEST_VALUE], raw::LookupAnswer::default());
            // SAFETY: each pointer is valid for the length behind it, and what is written overlaps nothing else.
            let number = unsafe {
                raw::oatcastle_lookup(
                    factory.as_ptr(),
                    factory.len(),
                    settings.as_ptr(),
                    settings.len(),
                    key.number(),
                    maxresponse,
                    room.as_mut_ptr(),
                    room.len(),
                    &mut answer,
                )
            };
            assert_eq!(number, 0);
            match found(&self.supervisor, key, maxresponse) {
                Ok(value) => assert_eq!((value, 0), (&room[..answer.length as usize], answer.result), "{key}, {maxresponse}"),
                Err(result) => assert_eq!(u64::from(result.number()), answer.result, "{key}, {maxresponse}"),
            }
        }
        for key in keys() {
            let mut answer = raw::EditionAnswer::default();
            // SAFETY: each pointer is valid for the length behind it, and what is written overlaps nothing else.
            let number = unsafe {
                raw::oatcastle_edition(factory.as_ptr(), factory.len(), settings.as_ptr(), settings.len(), key.number(), &mut answer)
            };
            assert_eq!(number, 0);
            let answered = self.supervisor.edition(key);
            assert_eq!(answered, self.supervisor.lookup(key, u16::MAX).map(|found| found.edition), "{key}");
            let wanted = answered.map_or_else(|result| [result.number().into(), 0], |edition| [0, edition.into()]);
            assert_eq!([answer.result, answer.edition], wanted, "{key}");
        }
        let copies = [raw::oatcastle_boot_failure_record, raw::oatcastle_panic_record];
        for (copy, record) in copies.into_iter().zip([self.supervisor.boot_failure_record(), self.supervisor.panic_record()]) {
            let (mut room, mut answer) = ([0; MOST_KEPT], raw::RecordAnswer::default());
            // SAFETY: each pointer is valid for the length behind it, and what is written overlaps nothing else.
            let number = unsafe { copy(registers.as_ptr(), registers.len(), room.as_mut_ptr(), room.len(), &mut answer) };
            assert_eq!(number, 0);
            let wanted = (answer.code as u16, answer.length as usize, &room[..answer.kept as usize]);
            assert_eq!(recorded(record), (answer.present == 1).then_some(wanted));
        }
    }
}

/// So many bytes, no two neighbours the same.
fn bytes(length: usize) -> Vec<u8> {
    (0..length).map(|k| (k * 7 + k / 251) as u8).collect()
}

#[test]
fn values_are_those_that_the_library_copies_out() {
    let mut storage = SupervisorStorage::new();
    for length in [0, 1, LONGEST_IMAGE_ID - 1, LONGEST_IMAGE_ID] {
        let mut data = UNIT.clone();
        data.set_image_id(&bytes(length)).unwrap();
        Both::start(&mut storage, &data).compare();
    }
    let mut both = Both::start(&mut storage, &UNIT);
    for (index, longest) in LONGEST_SETTINGS.into_iter().enumerate() {
        for length in [1, 0, 63, longest - 1, longest, longest + 1, 7, 8] {
            both.receive(&request(1, 0x10, &[&[(FIRST_SETTING + index) as u8][..], &bytes(length)].concat()));
            both.compare();
        }
    }
    for length in [0, 1, MOST_KEPT - 1, MOST_KEPT, MOST_KEPT + 1, LONGEST_DATA - 2] {
        both.receive(&request(1, 6, &[&[9][..], &bytes(length)].concat()));
        both.compare();
        both.receive(&request(1, 7, &[&[0x34, 0x12][..], &bytes(length)].concat()));
        both.compare();
    }
    both.receive(&request(1, 6, &[&[0xff][..], &bytes(LONGEST_DATA - 1)].concat()));
    both.compare();
}

#[test]
fn message_data_are_those_that_the_library_copies_out() {
    let mut state = [0; READER_LENGTH];
    let mut storage = ReaderStorage::new();
    let mut reader = LineReader::start_in(&mut storage);
    for length in [0, 1, 253, 254, 255, 2000, LONGEST_DATA] {
        let frame = request(7, 0x55, &bytes(length));
        let (mut answer, mut room) = (raw::LineReadAnswer::default(), [0; LONGEST_DATA]);
        // SAFETY: each pointer is valid for the length behind it, and what is written overlaps nothing else.
        let numbers = unsafe {
            [
                raw::oatcastle_line_read(state.as_mut_ptr(), state.len(), frame.as_ptr(), frame.len(), &mut answer),
                raw::oatcastle_line_data(state.as_ptr(), state.len(), answer.length, room.as_mut_ptr(), room.len()),
            ]
        };
        assert_eq!((numbers, answer.length), ([0, 0], length as u64));
        let ReadEnd::Message(message) = reader.read(&frame).end else { panic!("no message") };
        assert_eq!(message.data, &room[..length]);
    }
}

#[test]
fn settings_are_saved_and_restored() {
    let mut storage = SupervisorStorage::new();
    let mut supervisor = Supervisor::start_in(&mut storage, &StartData::new(Bsu::A));
    let mut room = [0; LONGEST_IMAGE];
    assert_eq!(supervisor.save(&mut room), Ok(&b"KE"[..]));
    for (index, longest) in LONGEST_SETTINGS.into_iter().enumerate() {
        let data = [&[(FIRST_SETTING + index) as u8][..], &bytes(longest)].concat();
        assert_eq!(reply(&mut supervisor, &[], &request(1, 0x10, &data)), (0x0c, vec![0]));
    }
    let image = supervisor.save(&mut room).unwrap().to_vec();
    assert_eq!(image.len(), LONGEST_IMAGE);
    assert_eq!(supervisor.save(&mut room[1..]), Err(Refusal::NoRoom));
    let mut other = SupervisorStorage::new();
    let mut restored = Supervisor::start_in(&mut other, &UNIT);
    assert_eq!(restored.restore(&image), Ok(()));
    // keys 3, 4 and 5; the passphrase behind them is not saved
    for (index, longest) in LONGEST_SETTINGS.into_iter().take(3).enumerate() {
        assert_eq!(restored.lookup(setting(index), u16::MAX).map(|found| (found.edition, found.value)), Ok((1, &bytes(longest)[..])));
    }
    assert_eq!(restored.save(&mut room), Ok(&image[..]));
    assert_eq!(restored.restore(b"KE"), Ok(()));
    assert_eq!(found(&restored, Key::EtcSystem, 256), Err(NotFound::NoValue));
}

#[test]
fn image_faults_have_offsets() {
    let mut storage = SupervisorStorage::new();
    let mut supervisor = Supervisor::start_in(&mut storage, &StartData::new(Bsu::A));
    assert_eq!(reply(&mut supervisor, &[], &request(1, 0x10, b"\x03a")), (0x0c, vec![0]));
    let mut room = [0; LONGEST_IMAGE];
    let image = supervisor.save(&mut room).unwrap().to_vec();
    let changed = |place: usize, byte: u8| {
        let mut image = image.clone();
        image[place] = byte;
        image
    };
    let faults = [
        (changed(1, b'W'), Fault::BadMark, 0),
        (changed(2, 6), Fault::BadKey, 2),
        (changed(8, 2), Fault::TooLong, 7),
        (changed(9, b'b'), Fault::BadChecksum, 10),
        (image[..13].to_vec(), Fault::CutShort, 13),
        (vec![], Fault::CutShort, 0),
        ([&image[..], b"KE"].concat(), Fault::BytesAfter, 14),
    ];
    for (image, fault, offset) in faults {
        let answered = supervisor.restore(&image).unwrap_err();
        assert_eq!((answered.fault, answered.offset), (fault, offset));
        assert_eq!(found(&supervisor, Key::EtcSystem, 256), Ok(&b"a"[..]));
    }
}

#[test]
fn storage_in_a_static() {
    static STORAGE: StaticCell<SupervisorStorage> = StaticCell::new(SupervisorStorage::new());
    let mut supervisor: Supervisor<'static> = Supervisor::start_in(STORAGE.take().unwrap(), &UNIT);
    assert!(STORAGE.take().is_none());
    assert_eq!(reply(&mut supervisor, &[], &request(1, 3, &[])), (3, vec![0x42]));
    let moved = std::thread::spawn(move || found(&supervisor, Key::ImageId, 64).map(<[u8]>::to_vec));
    assert_eq!(moved.join().unwrap(), Ok(b"image".to_vec()));
}

#[test]
fn one_storage_is_taken_once() {
    static CELL: StaticCell<u64> = StaticCell::new(7);
    let takers: Vec<_> = (0..16).map(|_| std::thread::spawn(|| CELL.take().map(|value| *value))).collect();
    let taken: Vec<u64> = takers.into_iter().filter_map(|taker| taker.join().unwrap()).collect();
    assert_eq!(taken, [7]);
}

#[test]
fn a_start_forgets_what_the_storage_held() {
    let mut storage = SupervisorStorage::new();
    let mut supervisor = Supervisor::start_in(&mut storage, &UNIT);
    supervisor.receive(&[], &request(1, 0x10, b"\x03value"));
    supervisor.receive(&[], &[5, 5]);
    let mut supervisor = Supervisor::start_in(&mut storage, &UNIT);
    assert_eq!(found(&supervisor, Key::EtcSystem, 256), Err(NotFound::NoValue));
    assert_eq!(supervisor.take(&mut [0; 64]), []);
    assert_eq!(reply(&mut supervisor, &[], &request(1, 3, &[])), (3, vec![0x42]));
}

/// A copy of the storage would not fit the stack of the thread.
#[test]
fn a_start_lays_nothing_out_on_the_stack() {
    const STACK: usize = 16 * 1024;
    static STORAGE: StaticCell<SupervisorStorage> = StaticCell::new(SupervisorStorage::new());
    assert!(size_of::<SupervisorStorage>() > STACK);
    assert_eq!([size_of::<Supervisor>(), size_of::<Requester>(), size_of::<LineReader>()], [size_of::<usize>(); 3]);
    let start = || Supervisor::start_in(STORAGE.take().unwrap(), &UNIT).signal();
    assert!(std::thread::Builder::new().stack_size(STACK).spawn(start).unwrap().join().unwrap());
}

#[test]
fn refusals_are_errors() {
    let refusals: [Box<dyn std::error::Error>; 3] = [
        Box::new(write_frame(1, 1, 1, &[], &[], &mut []).unwrap_err()),
        Box::new(Options::of(1 << 63).unwrap_err()),
        Box::new(NotFound::NoValue),
    ];
    let texts = refusals.map(|refusal| refusal.to_string());
    assert_eq!(
        texts,
        [
            "refused as 8: the room is too short for the whole output",
            "refused as 13: an option bit above the highest",
            "lookup result 2: the key has no value",
        ]
    );
    assert_eq!(Reason::Magic.to_string(), "reason 4: the magic differs");
    assert_eq!(oatcastle::rot::Type::SinkRequest.to_string(), "type 8: sink request");
}

#[test]
fn storage_shows_no_setting() {
    let mut storage = SupervisorStorage::new();
    let mut supervisor = Supervisor::start_in(&mut storage, &UNIT);
    supervisor.receive(&[], &request(1, 0x10, b"\x03secret"));
    assert_eq!(format!("{supervisor:?}"), "Supervisor { signal: true, flags: Flags { reboot: false, power_off: false }, .. }");
    assert_eq!(format!("{storage:?}"), "SupervisorStorage { .. }");
    assert_eq!(format!("{UNIT:?}"), "StartData { bsu: B, items: 2, .. }");
}

#[test]
fn alerts() {
    let mut storage = SupervisorStorage::new();
    let mut supervisor = Supervisor::start_in(&mut storage, &StartData::new(Bsu::A));
    assert_eq!(supervisor.post(ONE, &[0; LONGEST_ALERT + 1]), Err(Refusal::TooLong));
    for number in 0..MOST_ALERTS {
        assert_eq!(supervisor.post(ONE, &[number as u8]), Ok(()));
    }
    assert_eq!(supervisor.post(ONE, &[8]), Err(Refusal::AlertsFull));
    assert_eq!(reply(&mut supervisor, &[], &request(1, 0x0a, &[])), (7, vec![1, 0]));
    assert_eq!(reply(&mut supervisor, &[], &request(1, 0x0a, &[])), (7, vec![1, 0]));
    assert_eq!(reply(&mut supervisor, &[], &request(2, 0x0a, &[])), (7, vec![1, 1]));
}

/// What a step answers: the bytes read, the command of a request that it carried out, and of a key set the key and the result.
type Carried = (usize, Command, Option<(u8, Result<(), NotSet>)>);

fn carried(step: Step) -> Carried {
    let StepEnd::Request(carried) = step.end else { panic!("{step:?} carried nothing out") };
    (step.used, carried.command, carried.set.map(|set| (set.key, set.result)))
}

#[test]
fn steps() {
    let mut storage = SupervisorStorage::new();
    let mut supervisor = Supervisor::start_in(&mut storage, &StartData::new(Bsu::A));
    let mut step = |piece: &[u8]| {
        let step = supervisor.step(&[], piece);
        (step.used, step.end)
    };
    assert_eq!(step(&[2]), (1, StepEnd::More));
    assert_eq!(step(&[0, 0]), (1, StepEnd::Failure(Reason::Form)));
    assert_eq!(step(&[0]), (1, StepEnd::Empty));
}

/// Every command, and of a key set every result that a fresh supervisor gives, by a step and by one that counts.
#[test]
fn steps_tell_what_they_carried_out() {
    let data = |command| match command {
        Command::BootFailure => 1,
        Command::Panic => 2,
        Command::ImageBlock => 40,
        Command::KeyLookup => 3,
        Command::Inventory => 4,
        _ => 0,
    };
    let commands = (0..=u8::MAX).filter_map(Command::from_number).filter(|&command| command != Command::KeySet);
    let mut frames: Vec<(Vec<u8>, Command, Option<(u8, Result<(), NotSet>)>)> =
        commands.map(|command| (request(1, command.number(), &vec![0; data(command)]), command, None)).collect();
    for key in 0..=u8::MAX {
        for length in [0, 8, 64, 257, 4097] {
            let result = match Key::from_number(key).map(Key::set_lengths) {
                None => Err(NotSet::BadKey),
                Some(None) => Err(NotSet::ReadOnly),
                Some(Some(lengths)) if lengths.contains(&length) => Ok(()),
                Some(Some(_)) => Err(NotSet::TooLong),
            };
            frames.push((request(1, 0x10, &[&[key][..], &bytes(length)].concat()), Command::KeySet, Some((key, result))));
        }
    }
    let (mut one, mut other, mut counters) = (SupervisorStorage::new(), SupervisorStorage::new(), Counters::new());
    let (mut plain, mut counted) = (Supervisor::start_in(&mut one, &UNIT), Supervisor::start_in(&mut other, &UNIT));
    for (frame, command, set) in &frames {
        let stored = set.filter(|(_, result)| result.is_ok()).and_then(|(key, _)| Key::from_number(key));
        for step in [plain.step(&[], frame), counted.step_counted(&mut counters, &[], frame)] {
            assert_eq!(step.end.stored(), stored);
            assert_eq!(carried(step), (frame.len(), *command, *set));
        }
    }
    assert_eq!(counters, Counters { good: frames.len() as u32, ..Counters::new() });
}

#[test]
fn line() {
    let mut storage = ReaderStorage::new();
    let mut reader = LineReader::start_in(&mut storage);
    let frame = request(9, 0x55, &[3; 300]);
    assert_eq!(message(&frame), (1, 9, 0x55, vec![3; 300]));
    assert_eq!(reader.read(&frame[..40]).end, ReadEnd::More);
    assert_eq!(reader.tail(), Tail::Bytes(40));
    assert_eq!(reader.read(&[1; 4200]).end, ReadEnd::More);
    assert_eq!(reader.tail(), Tail::TooLong);
    assert_eq!(failed(reader.read(&[0]).end), (Reason::Form, None));
    assert_eq!(reader.read(&[0, 0]).end, ReadEnd::Empty);
    let mut damaged = request(9, 0x55, &[3; 5]);
    damaged[18] ^= 1;
    assert_eq!(failed(reader.read(&damaged).end), (Reason::Checksum, Some(9)));
    assert_eq!(write_frame(1, 1, 1, &[0; 4000], &[0; 105], &mut [0; LONGEST_FRAME]), Err(Refusal::TooLong));
    assert_eq!(write_frame(1, 1, 1, &[], &[], &mut [0; 20]), Err(Refusal::NoRoom));
    assert_eq!([checksum(b"abcde"), checksum(b"abcdef"), checksum(b"abcdefgh"), checksum(&[])], [0xc8f0, 0x2057, 0x0627, 0]);
}

#[test]
fn address_plans() {
    let plan = AddressPlan { base: [0x02, 0, 0, 0, 0xff, 0xfe], count: 3, stride: 1 };
    let mut rows = [[0; 6]; 8];
    rows[..3].copy_from_slice(&[[2, 0, 0, 0, 0xff, 0xfe], [2, 0, 0, 0, 0xff, 0xff], [2, 0, 0, 1, 0, 0]]);
    assert_eq!((plan.addresses(), plan.fits()), (rows, Ok(())));
    let last = AddressPlan { base: [0xff; 6], count: 1, stride: 255 };
    rows = [[0; 6]; 8];
    rows[0] = [0xff; 6];
    assert_eq!((last.addresses(), last.fits()), (rows, Ok(())));
    let past = AddressPlan { count: 2, ..last };
    assert_eq!((past.addresses(), past.fits()), ([[0; 6]; 8], Err(Refusal::PlanPasses)));
    let none = AddressPlan { count: 0, ..last };
    assert_eq!((none.addresses(), none.fits()), ([[0; 6]; 8], Ok(())));
}

/// Indices and results on the list of three records with results 9, 8 and 1, what the call answers, and the results that it leaves.
fn probed(indices: &[u64], results: &[u8], answer: Result<(), Refusal>, left: [u8; 3]) {
    let records = |results: [u8; 3]| [0, 1, 2].map(|k| Probe { address: 0x50 + k as u8, result: results[k] });
    let mut list = records([9, 8, 1]);
    assert_eq!(update_probes(&mut list, indices, results), answer);
    assert_eq!(list, records(left));
}

#[test]
fn probe_lists() {
    let refused = Err(Refusal::BadProbe);
    probed(&[], &[], Ok(()), [9, 8, 1]);
    probed(&[2, 0, 1], &[0, 2, 3], Ok(()), [2, 3, 0]);
    probed(&[1, 2, 1], &[0, 2, 3], Ok(()), [9, 3, 2]);
    probed(&[1, 1], &[3, 0], Ok(()), [9, 0, 1]);
    probed(&[0, 1, 3], &[0, 2, 0], refused, [9, 8, 1]);
    probed(&[0, 1, u64::MAX], &[0, 2, 0], refused, [9, 8, 1]);
    probed(&[0, 1, 2], &[0, 2, 1], refused, [9, 8, 1]);
    for result in (4..=255).chain([1]) {
        probed(&[0], &[result], refused, [9, 8, 1]);
    }
    probed(&[0, 1], &[0], refused, [9, 8, 1]);
    probed(&[0], &[0, 0], refused, [9, 8, 1]);
    probed(&[], &[0], refused, [9, 8, 1]);
    assert_eq!(update_probes(&mut [], &[], &[]), Ok(()));
    assert_eq!(update_probes(&mut [], &[0], &[0]), refused);
    let mut one = [Probe { address: 255, result: 0 }];
    assert_eq!(update_probes(&mut one, &[0; 3], &[2, 0, 3]), Ok(()));
    assert_eq!(one, [Probe { address: 255, result: 3 }]);
    let mut many: Vec<Probe> = (0..300).map(|k| Probe { address: k as u8, result: 1 }).collect();
    assert_eq!(update_probes(&mut many, &[299, 256], &[2, 3]), Ok(()));
    let changed: Vec<(usize, u8)> = many.iter().enumerate().filter(|(_, p)| p.result != 1).map(|(k, p)| (k, p.result)).collect();
    assert_eq!(changed, [(256, 3), (299, 2)]);
    assert!(many.iter().enumerate().all(|(k, p)| p.address == k as u8));
}

#[test]
fn root_of_trust() {
    use oatcastle::rot::{copy_payload, crc, read, write, Received, Type, LONGEST_MESSAGE, LONGEST_PAYLOAD};
    let message = |input: &[u8]| match read(input, &mut []) {
        Ok(Received::Message(message)) => (message.kind, message.payload.to_vec()),
        other => panic!("{other:?} is no message"),
    };
    let asked = [1, 2, 1, 0, 35, 236, 249, 41, 9];
    let answered = [0x01, 0x03, 0x01, 0x00, 0x94, 0x76, 0x94, 0xf5, 0x09];
    assert_eq!(crc(&[1, 2, 1, 0, 9]), 0x29f9ec23);
    let mut out = [0; LONGEST_MESSAGE];
    assert_eq!(write(Type::EchoRequest, &[9], &mut out), Ok(&asked[..]));
    assert_eq!(read(&asked, &mut out), Ok(Received::Echoed(&answered)));
    assert_eq!(read(&asked, &mut [0; 8]), Err(Refusal::NoRoom));
    let longer = [&answered[..], &[0, 7]].concat();
    assert_eq!(message(&longer), (Type::EchoResponse, vec![9]));
    let mut room = [0; 2];
    assert_eq!(copy_payload(&longer, &mut room), Ok(()));
    assert_eq!(room, [9, 0]);
    assert_eq!(copy_payload(&longer, &mut []), Err(Refusal::NoRoom));
    assert_eq!(read(&[0, 5], &mut []), Ok(Received::Nothing));
    assert_eq!(write(Type::SinkRequest, &[0; LONGEST_PAYLOAD + 1], &mut out), Err(Refusal::PayloadTooLong));
    let longest = write(Type::SinkRequest, &[7; LONGEST_PAYLOAD], &mut out).unwrap().to_vec();
    assert_eq!(message(&longest), (Type::SinkRequest, vec![7; LONGEST_PAYLOAD]));
    assert_eq!(read(&longest[..519], &mut []), Err(Refusal::CutShort));
    assert_eq!(read(&[], &mut []), Err(Refusal::NoInput));
    assert_eq!(read(&[5], &mut []), Err(Refusal::BadProtocol));
    assert_eq!(read(&asked[..7], &mut []), Err(Refusal::ShortHeader));
    assert_eq!(read(&[1, 2, 1, 2, 0, 0, 0, 0], &mut []), Err(Refusal::PayloadTooLong));
    assert_eq!(read(&[1, 0, 0, 0, 0, 0, 0, 0], &mut []), Err(Refusal::BadCrc));
    let unlisted = [&[1, 10, 0, 0][..], &crc(&[1, 10, 0, 0]).to_le_bytes()].concat();
    assert_eq!(read(&unlisted, &mut []), Err(Refusal::BadType));
}

#[test]
fn frames_are_counted() {
    let mut storage = SupervisorStorage::new();
    let mut supervisor = Supervisor::start_in(&mut storage, &StartData::new(Bsu::A));
    let mut counters = Counters { good: u32::MAX - 1, reason3: 9, ..Counters::new() };
    let piece = [&request(1, 8, &[])[..], &request(2, 8, &[]), &request(3, 8, &[]), &[0, 0, 2, 0, 1, 0]].concat();
    supervisor.receive_counted(&mut counters, &[], &piece);
    assert_eq!(counters, Counters { good: u32::MAX, empty: 2, reason1: 1, reason3: 10, ..Counters::default() });
    counters.clear();
    assert_eq!(counters, Counters::new());
    supervisor.receive(&[], &[0]);
    supervisor.receive_counted(&mut counters, &[], &[2]);
    supervisor.restart(&StartData::new(Bsu::A));
    supervisor.receive_counted(&mut counters, &[], &[0]);
    assert_eq!(counters, Counters { empty: 1, ..Counters::default() });
    let _ = supervisor.step(&[], &[0]);
    assert_eq!(supervisor.step_counted(&mut counters, &[], &[2]).end, StepEnd::More);
    assert_eq!(counters, Counters { empty: 1, ..Counters::default() });
    assert_eq!(supervisor.step_counted(&mut counters, &[], &[0, 0]).end, StepEnd::Failure(Reason::Form));
    assert_eq!(supervisor.step_counted(&mut counters, &[], &[0]).end, StepEnd::Empty);
    assert_eq!(counters, Counters { empty: 2, reason1: 1, ..Counters::default() });
}

/// A way to receive a piece with a counter block.
type Receives = fn(&mut Supervisor<'_>, &mut Counters, &[u8]);

/// What a supervisor replies to a stream in pieces of this length, all taken behind each, and what it counts.
fn served(stream: &[u8], length: usize, receives: Receives) -> (Vec<u8>, Counters) {
    let (mut storage, mut counters) = (SupervisorStorage::new(), Counters::new());
    let mut supervisor = Supervisor::start_in(&mut storage, &StartData::new(Bsu::A));
    let (mut replies, mut room) = (Vec::new(), [0; MOST_PENDING]);
    for piece in stream.chunks(length) {
        receives(&mut supervisor, &mut counters, piece);
        replies.extend_from_slice(supervisor.take(&mut room));
    }
    (replies, counters)
}

/// A receive collects a piece without a 00; steps do not, and leave the same.
#[test]
fn pieces_are_received_as_by_steps() {
    let steps: Receives = |supervisor, counters, mut piece| {
        while !piece.is_empty() {
            piece = &piece[supervisor.step_counted(counters, &[], piece).used..];
        }
    };
    let sets = [b"one".to_vec(), vec![7; 200], vec![0; 70]].map(|value| request(1, 0x10, &[&[3][..], &value].concat()));
    let (status, lookup) = (request(2, 8, &[]), request(3, 0x0e, &[3, 0, 1]));
    let overlong = [vec![1; LONGEST_FRAME], vec![0]].concat();
    let stream = [&[0][..], &sets[0], &status, &[5, 0, 0], &sets[1], &overlong, &lookup, &sets[2], &lookup, &status[..9]].concat();
    for length in [1, 2, 3, 7, 8, 20, 63, 64, 65, 200, stream.len()] {
        let by_steps = served(&stream, length, steps);
        assert_eq!(by_steps.1, Counters { good: 6, empty: 2, reason1: 2, ..Counters::new() });
        assert_eq!(served(&stream, length, |s, counters, piece| s.receive_counted(counters, &[], piece)), by_steps);
        assert_eq!(served(&stream, length, |s, _, piece| s.receive(&[], piece)).0, by_steps.0);
    }
}

/// Bytes read, whether a recovery ended for want of a number, and whether a frame is to go out, where nothing is handed out.
fn nothing(received: Received) -> (usize, bool, bool) {
    assert_eq!(received.handed, Handed::Nothing);
    (received.used, received.ended, received.unsent)
}

fn fetched(handed: Handed) -> (u64, u64, u32) {
    let Handed::Status(Status { status, options, set_bits, .. }) = handed else { panic!("{handed:?} is no status") };
    (status, options, set_bits)
}

/// Version, sequence, command and data of what is handed out as an answer or as an alert.
fn answered(handed: Handed, alert: bool) -> (u32, u64, u8, Vec<u8>) {
    let (Handed::Answer(message) | Handed::Alert(message)) = handed else { panic!("{handed:?} is no message") };
    assert_eq!(matches!(handed, Handed::Alert(_)), alert);
    (message.version, message.sequence, message.command, message.data.to_vec())
}

/// Command, number, and whether it is unsent and an original stands behind it, of what is outstanding; `kind` says in which state.
fn outstanding(state: State, kind: fn(Outstanding) -> State) -> (u8, u64, bool, bool) {
    let (State::Waiting(held) | State::RecoveryStatus(held) | State::RecoveryAcknowledge(held) | State::RecoveryAlert(held)) = state else {
        panic!("{state:?} has nothing outstanding")
    };
    assert_eq!(kind(held), state);
    assert_eq!(state.recovering(), !matches!(state, State::Waiting(_)));
    (held.command, held.number, held.unsent, held.original)
}

const LOOKUP: Request = Request::lookup(Key::Ping, 4);

#[test]
fn main_processor() {
    let reply = |number: u64, command: u8, data: &[u8]| {
        write_frame(1, number | 1 << 63, command, data, &[], &mut [0; LONGEST_FRAME]).unwrap().to_vec()
    };
    let status = |number: u64, value: u64| reply(number, 6, &[value.to_le_bytes(), 5u64.to_le_bytes()].concat());
    let mut storage = RequesterStorage::new();
    let mut main = Requester::start_in(&mut storage);
    let mut out = [0; LONGEST_FRAME];
    assert_eq!(main.state(), State::Idle);
    assert_eq!(main.request(&LOOKUP, &mut [0; 20]), Err(Refusal::NoRoom));
    assert_eq!(main.state(), State::Idle);
    assert_eq!(main.request(&LOOKUP, &mut out), Ok(&request(1, 0x0e, &[0, 4, 0])[..]));
    assert_eq!(outstanding(main.state(), State::Waiting), (0x0e, 1, false, false));
    assert_eq!(main.request(&Request::raw(0x0e, &[0; 4105]), &mut out), Err(Refusal::TooLong));
    assert_eq!(main.request(&Request::status(), &mut out), Err(Refusal::Outstanding));
    assert_eq!(main.send(&mut out), Ok(&[][..]));
    let other = reply(2, 0x0b, b"late");
    assert_eq!(nothing(main.receive(&other)), (other.len(), false, false));
    assert_eq!(nothing(main.receive(&[2, 0, 1])), (2, false, true));
    assert_eq!(outstanding(main.state(), State::Waiting), (0x0e, 1, true, false));
    assert_eq!(main.send(&mut out), Ok(&request(1, 0x0e, &[0, 4, 0])[..]));
    main.interrupt().unwrap();
    assert_eq!(outstanding(main.state(), State::RecoveryStatus), (0x08, 2, true, true));
    assert_eq!(main.send(&mut out), Ok(&request(2, 0x08, &[])[..]));
    assert_eq!(outstanding(main.state(), State::RecoveryStatus), (0x08, 2, false, true));
    assert_eq!(fetched(main.receive(&status(2, 7)).handed), (7, 5, 3));
    assert_eq!(outstanding(main.state(), State::RecoveryAcknowledge), (0x09, 3, true, true));
    assert_eq!(main.send(&mut out), Ok(&request(3, 0x09, &[])[..]));
    assert_eq!(main.receive(&reply(3, 1, &[])).handed, Handed::Nothing);
    assert_eq!(main.send(&mut out), Ok(&request(4, 0x08, &[])[..]));
    assert_eq!(fetched(main.receive(&status(4, 2)).handed), (2, 5, 1));
    assert_eq!(outstanding(main.state(), State::RecoveryAlert), (0x0a, 5, true, true));
    assert_eq!(main.send(&mut out), Ok(&request(5, 0x0a, &[])[..]));
    assert_eq!(answered(main.receive(&reply(5, 7, &[1, 9])).handed, true), (1, 5 | 1 << 63, 7, vec![1, 9]));
    assert_eq!(main.send(&mut out), Ok(&request(6, 0x08, &[])[..]));
    assert!(main.receive(&status(6, 4)).unsent);
    assert_eq!(outstanding(main.state(), State::Waiting), (0x0e, 7, true, false));
    assert_eq!(main.send(&mut out), Ok(&request(7, 0x0e, &[0, 4, 0])[..]));
    assert_eq!(answered(main.receive(&reply(7, 0x0b, b"\0pong")).handed, false), (1, 7 | 1 << 63, 0x0b, b"\0pong".to_vec()));
    assert_eq!(main.state(), State::Idle);
    assert_eq!(main.request(&Request::reboot(), &mut out), Ok(&request(8, 0x01, &[])[..]));
    assert_eq!(main.state(), State::Idle);
    assert_eq!(main.request(&Request::status(), &mut out), Ok(&request(9, 0x08, &[])[..]));
}
