// Defines tests of what the wrapper does with numbers that the library's promises rule out, or that no run comes to: it panics, in safe code, or says so.
// Assumes that the functions defined here, all that the wrapper calls, are linked in place of the static library's.

use oatcastle::requester::{Requester, RequesterStorage};
use oatcastle::{
    checksum, rot, update_probes, write_frame, AddressPlan, AskError, Bsu, Counters, Key, LineReader, Options, ReaderStorage, Refusal,
    Request, StartData, Supervisor, SupervisorStorage, Uart,
};
use std::cell::Cell;
use std::convert::Infallible;
use std::num::NonZeroU8;
use std::panic::{catch_unwind, AssertUnwindSafe};

type Pointer = *mut u8;
/// As many numbers as the longest answer has.
type Answer = [u64; 10];

thread_local! {
    /// What every function returns, and the numbers that it answers.
    static SAID: Cell<(u32, Answer)> = const { Cell::new((0, [0; 10])) };
}

macro_rules! library {
    ($($name:ident($($kind:ty),*) $(answers $count:literal)?;)*) => {$(library!(one $name($($kind),*) $($count)?);)*};
    (one $name:ident($($kind:ty),*)) => {
        #[no_mangle]
        extern "C" fn $name($(_: $kind),*) -> u32 {
            SAID.get().0
        }
    };
    (one $name:ident($($kind:ty),*) $count:literal) => {
        #[no_mangle]
        extern "C" fn $name($(_: $kind,)* answer: *mut u64) -> u32 {
            let (number, numbers) = SAID.get();
            // SAFETY: the wrapper lends an answer of so many numbers.
            unsafe { answer.copy_from_nonoverlapping(numbers[..$count].as_ptr(), $count) };
            number
        }
    };
}

library! {
    oatcastle_line_start(Pointer, usize);
    oatcastle_line_read(Pointer, usize, Pointer, usize) answers 7;
    oatcastle_line_tail(Pointer, usize) answers 2;
    oatcastle_line_write(u32, u64, u8, Pointer, usize, Pointer, usize, Pointer, usize) answers 1;
    oatcastle_line_checksum(Pointer, usize) answers 1;
    oatcastle_start(Pointer, Pointer, usize, Pointer, usize, Pointer, usize, Pointer, usize, Pointer, usize);
    oatcastle_receive(Pointer, usize, Pointer, usize, Pointer, usize, Pointer, usize, Pointer, usize, Pointer, usize, Pointer, usize);
    oatcastle_collect(Pointer, usize, Pointer, usize) answers 1;
    oatcastle_step(Pointer, usize, Pointer, usize, Pointer, usize, Pointer, usize, Pointer, usize, Pointer, usize, Pointer, usize) answers 6;
    oatcastle_clear_counters(Pointer);
    oatcastle_receive_counted(Pointer, Pointer, usize, Pointer, usize, Pointer, usize, Pointer, usize, Pointer, usize, Pointer, usize, Pointer, usize);
    oatcastle_step_counted(Pointer, Pointer, usize, Pointer, usize, Pointer, usize, Pointer, usize, Pointer, usize, Pointer, usize, Pointer, usize) answers 6;
    oatcastle_take(Pointer, usize, Pointer, usize) answers 1;
    oatcastle_post(Pointer, usize, u8, Pointer, usize);
    oatcastle_set_options(Pointer, usize, u64);
    oatcastle_lookup(Pointer, usize, Pointer, usize, u8, u16, Pointer, usize) answers 2;
    oatcastle_edition(Pointer, usize, Pointer, usize, u8) answers 2;
    oatcastle_save(Pointer, usize, Pointer, usize) answers 1;
    oatcastle_restore(Pointer, usize, Pointer, usize) answers 1;
    oatcastle_signal(Pointer, usize) answers 1;
    oatcastle_flags(Pointer, usize) answers 2;
    oatcastle_requester_start(Pointer, usize, Pointer, usize);
    oatcastle_requester_request(Pointer, usize, u8, Pointer, usize, Pointer, usize) answers 1;
    oatcastle_requester_interrupt(Pointer, usize);
    oatcastle_requester_send(Pointer, usize, Pointer, usize) answers 1;
    oatcastle_requester_receive(Pointer, usize, Pointer, usize, Pointer, usize) answers 10;
    oatcastle_requester_state(Pointer, usize) answers 5;
    oatcastle_addresses(Pointer, u16, u8, Pointer, usize);
    oatcastle_plan(Pointer, u16, u8);
    oatcastle_probe_update(Pointer, usize, Pointer, usize, Pointer, usize);
    oatcastle_rot_read(Pointer, usize, Pointer, usize) answers 3;
    oatcastle_rot_payload(Pointer, usize, Pointer, usize);
    oatcastle_rot_write(u8, Pointer, usize, Pointer, usize) answers 1;
    oatcastle_rot_crc(Pointer, usize) answers 1;
}

/// What each call is made on.
struct World<'s> {
    supervisor: Supervisor<'s>,
    main: Requester<'s>,
    reader: LineReader<'s>,
    counters: Counters,
}

type Call = fn(&mut World<'_>);

/// What a call gives means nothing here.
fn made<T>(_: T) {}

const PLAN: AddressPlan = AddressPlan { base: [0; 6], count: 1, stride: 1 };
const DATA: StartData = StartData::new(Bsu::A);

const CALLS: [(&str, Call); 34] = [
    ("LineReader::restart", |w| w.reader.restart()),
    ("read", |w| made(w.reader.read(&[1]))),
    ("tail", |w| made(w.reader.tail())),
    ("write_frame", |_| made(write_frame(1, 1, 1, &[], &[], &mut [0; 64]))),
    ("checksum", |_| made(checksum(&[1]))),
    ("Supervisor::restart", |w| w.supervisor.restart(&DATA)),
    ("receive", |w| w.supervisor.receive(&[], &[1])),
    ("receive_counted", |w| w.supervisor.receive_counted(&mut w.counters, &[], &[1])),
    ("step", |w| made(w.supervisor.step(&[], &[1]))),
    ("step_counted", |w| made(w.supervisor.step_counted(&mut w.counters, &[], &[1]))),
    ("clear", |w| w.counters.clear()),
    ("take", |w| made(w.supervisor.take(&mut [0; 64]))),
    ("post", |w| made(w.supervisor.post(NonZeroU8::MIN, &[]))),
    ("set_options", |w| w.supervisor.set_options(Options::NONE)),
    ("lookup", |w| made(w.supervisor.lookup(Key::EtcSystem, 256))),
    ("lookup of the passphrase", |w| made(w.supervisor.lookup(Key::Passphrase, 256))),
    ("edition", |w| made(w.supervisor.edition(Key::EtcSystem))),
    ("save", |w| made(w.supervisor.save(&mut [0; 64]))),
    ("restore", |w| made(w.supervisor.restore(&[1]))),
    ("signal", |w| made(w.supervisor.signal())),
    ("flags", |w| made(w.supervisor.flags())),
    ("Requester::restart", |w| w.main.restart()),
    ("request", |w| made(w.main.request(&Request::status(), &mut [0; 64]))),
    ("interrupt", |w| made(w.main.interrupt())),
    ("send", |w| made(w.main.send(&mut [0; 64]))),
    ("Requester::receive", |w| made(w.main.receive(&[1]))),
    ("state", |w| made(w.main.state())),
    ("addresses", |_| made(PLAN.addresses())),
    ("fits", |_| made(PLAN.fits())),
    ("update_probes", |_| made(update_probes(&mut [], &[], &[]))),
    ("rot::read", |_| made(rot::read(&[1; 64], &mut [0; 64]))),
    ("rot::copy_payload", |_| made(rot::copy_payload(&[1; 64], &mut []))),
    ("rot::write", |_| made(rot::write(rot::Type::SinkRequest, &[], &mut [0; 64]))),
    ("rot::crc", |_| made(rot::crc(&[]))),
];

/// The calls that panic where the library returns this number and answers these.
fn panicking(number: u32, answer: Answer) -> Vec<&'static str> {
    SAID.set((0, [0; 10]));
    let (mut far, mut near, mut storage) = (SupervisorStorage::new(), RequesterStorage::new(), ReaderStorage::new());
    let mut world = World {
        supervisor: Supervisor::start_in(&mut far, &DATA),
        main: Requester::start_in(&mut near),
        reader: LineReader::start_in(&mut storage),
        counters: Counters::new(),
    };
    SAID.set((number, answer));
    let panics = |call: Call, world: &mut World| match catch_unwind(AssertUnwindSafe(|| call(world))) {
        Ok(()) => false,
        Err(panic) => {
            assert_eq!(panic.downcast_ref(), Some(&"liboatcastle.a answered what its promise rules out"));
            true
        }
    };
    CALLS.into_iter().filter(|&(_, call)| panics(call, &mut world)).map(|(name, _)| name).collect()
}

#[test]
fn numbers() {
    let every = CALLS.map(|(name, _)| name).to_vec();
    assert_eq!(panicking(12, [0; 10]), every);
    assert_eq!(panicking(1, [0; 10]), every);
    assert_eq!(panicking(u32::MAX, [0; 10]), every);
}

#[test]
fn answers() {
    let lengths = ["write_frame", "receive", "receive_counted", "take", "save", "request", "send", "rot::write"];
    let kinds =
        ["read", "step", "step_counted", "lookup", "lookup of the passphrase", "edition", "Requester::receive", "state", "rot::read"];
    let mut wanted = [&lengths[..], &kinds].concat();
    wanted.sort_unstable();
    let mut found = panicking(0, [u64::MAX; 10]);
    found.sort_unstable();
    assert_eq!(found, wanted);
    let first = [
        "write_frame",
        "receive",
        "receive_counted",
        "take",
        "lookup",
        "lookup of the passphrase",
        "edition",
        "save",
        "request",
        "send",
        "state",
        "rot::read",
        "rot::write",
    ];
    assert_eq!(panicking(0, said([65])), first);
    assert_eq!(panicking(0, said([0])), ["lookup of the passphrase"]);
}

/// An answer that begins with these numbers and goes on with 0.
fn said<const N: usize>(numbers: [u64; N]) -> Answer {
    let mut answer = [0; 10];
    answer[..N].copy_from_slice(&numbers);
    answer
}

/// Whether a call panics on an answer that begins with these numbers.
fn panics<const N: usize>(name: &str, numbers: [u64; N]) -> bool {
    panicking(0, said(numbers)).contains(&name)
}

/// A message, a reply, a reason or a payload that the kinds allow and the lent bytes do not hold.
#[test]
fn parts() {
    assert!(panics("read", [0, 2, 0, 1, 1, 1, 4124]) && !panics("read", [0, 2, 0, 1, 1, 1, 4104]));
    assert!(panics("read", [0, 3, 8]) && !panics("read", [0, 3, 4]));
    assert!(panics("edition", [3]) && !panics("edition", [2]) && panics("edition", [1]));
    assert!(panics("edition", [0, 1 << 32]) && !panics("edition", [0, u32::MAX.into()]));
    assert!(panics("lookup", [1]) && !panics("lookup", [4]) && panics("lookup", [5]));
    assert!(panics("Requester::receive", [0, 1, 0, 0, 1, 1, 4124]) && !panics("Requester::receive", [0, 1, 0, 0, 1, 1, 4104]));
    assert!(panics("state", [5]) && !panics("state", [4]));
    assert!(panics("rot::read", [1, 10]) && !panics("rot::read", [1, 9, 56]));
    assert!(panics("rot::read", [1, 9, 57]) && panics("rot::read", [2, 0, 65]));
}

/// A recovery that ends for want of a number, which no run comes to: waiting for an answer says so.
#[test]
fn no_number_is_left() {
    struct Nothing;
    impl Uart for Nothing {
        type Error = Infallible;
        fn read(&mut self, room: &mut [u8]) -> Result<usize, Infallible> {
            Ok(room.len())
        }
        fn write(&mut self, _: &[u8]) -> Result<(), Infallible> {
            Ok(())
        }
    }
    SAID.set((0, [0; 10]));
    let mut storage = RequesterStorage::new();
    let mut main = Requester::start_in(&mut storage);
    SAID.set((0, said([1, 0, 1])));
    assert_eq!(main.wait(&mut Nothing, &mut [0; 64], |_| ()), Err(AskError::Refused(Refusal::NoNumber)));
}

/// A command, a key or a result that a step cannot have carried out.
#[test]
fn carried_out() {
    for name in ["step", "step_counted"] {
        assert!(panics(name, [0, 3, 8]) && !panics(name, [0, 3, 7]));
        assert!(panics(name, [0, 2, 0, 0x11]) && panics(name, [0, 2]) && !panics(name, [0, 2, 0, 8]));
        assert!(panics(name, [0, 2, 0, 0x10, 256]) && !panics(name, [0, 2, 0, 0x10, 255]));
        assert!(panics(name, [0, 2, 0, 0x10, 6, 5]) && !panics(name, [0, 2, 0, 0x10, 6, 4]));
    }
}
