//! Defines an image for a bare Cortex-M4: both ends of the wire in storage that the linker lays out, and what the calls give, printed over semihosting.
//! Assumes image.ld, and a debugger or an emulator that serves semihosting. Ends with 1 at a panic.
#![no_std]
#![no_main]

use core::arch::{asm, global_asm};
use core::fmt::{self, Write};
use core::panic::PanicInfo;
use oatcastle::requester::{Handed, Requester, RequesterStorage, State};
use oatcastle::{
    checksum, rot, update_probes, AddressPlan, Bsu, Key, NotFound, Probe, Refusal, Reply, Request, StartData, StaticCell, Supervisor,
    SupervisorStorage, LONGEST_FRAME, MOST_PENDING,
};

static STORAGE: StaticCell<SupervisorStorage> = StaticCell::new(SupervisorStorage::new());
static REQUESTER: StaticCell<RequesterStorage> = StaticCell::new(RequesterStorage::new());
static DATA: StartData = StartData::new(Bsu::A).with_image_id(b"image");

/// The status request with sequence 1.
const STATUS: [u8; 21] =
    [0x06, 0xcc, 0x19, 0xde, 0x01, 0x01, 0x01, 0x01, 0x02, 0x01, 0x01, 0x01, 0x01, 0x01, 0x01, 0x01, 0x04, 0x08, 0xcf, 0x66, 0x00];

// The vector table's first two words, and what runs first: memory that begins as zero is made so, then `run` is called.
global_asm!(
    ".section .vectors, \"a\"",
    ".word stack_top",
    ".word reset",
    ".section .text.reset, \"ax\"",
    ".thumb_func",
    ".global reset",
    "reset:",
    "ldr r0, =bss_start",
    "ldr r1, =bss_end",
    "movs r2, #0",
    "1: cmp r0, r1",
    "bhs 2f",
    "str r2, [r0], #4",
    "b 1b",
    "2: bl run",
    "b .",
    ".ltorg",
);

/// A request to the debugger; its number and its argument.
fn semihosting(number: usize, argument: usize) {
    // SAFETY: the debugger reads the text or ends the program, and writes r0 alone.
    unsafe { asm!("bkpt #0xab", inout("r0") number => _, in("r1") argument, options(nostack)) };
}

/// Ends the emulator, with 0 or with 1.
fn end(good: bool) -> ! {
    semihosting(0x18, if good { 0x20026 } else { 0x20023 });
    loop {}
}

struct Console;

impl Write for Console {
    fn write_str(&mut self, text: &str) -> fmt::Result {
        for byte in text.bytes() {
            semihosting(0x03, &byte as *const u8 as usize);
        }
        Ok(())
    }
}

#[panic_handler]
fn panicked(panic: &PanicInfo<'_>) -> ! {
    // where even this cannot be printed, the end with 1 still tells
    let _ = writeln!(Console, "{panic}");
    end(false)
}

fn print(bytes: &[u8]) -> fmt::Result {
    for (index, byte) in bytes.iter().enumerate() {
        write!(Console, "{}{byte:02x}", if index == 0 { "" } else { " " })?;
    }
    writeln!(Console)
}

/// A request of the main processor over a wire that loses nothing, and what is made of its reply.
fn ask<T>(main: &mut Requester, supervisor: &mut Supervisor, request: &Request, made: impl Fn(Reply) -> T) -> Result<T, Refusal> {
    let mut room = [0; LONGEST_FRAME];
    supervisor.receive(&[], main.request(request, &mut room)?);
    let mut room = [0; MOST_PENDING];
    let mut piece = supervisor.take(&mut room);
    while !piece.is_empty() {
        let received = main.receive(piece);
        piece = &piece[received.used..];
        if let Handed::Answer(message) = received.handed {
            return Ok(made(message.reply().expect("a reply")));
        }
    }
    panic!("no answer")
}

/// The calls whose lengths, lists or numbers have 64 bits where this processor has 32.
fn calls(supervisor: &mut Supervisor) -> Result<(), Refusal> {
    let mut main = Requester::start_in(REQUESTER.take().expect("taken once"));
    let set = Request::key_set(Key::EtcSystem, b"value").expect("5 bytes are allowed");
    assert!(ask(&mut main, supervisor, &set, |reply| reply == Reply::KeySet(Ok(())))?);
    assert_eq!(main.state(), State::Idle);
    assert_eq!(supervisor.lookup(Key::EtcSystem, 256).map(|found| found.value), Ok(&b"value"[..]));
    assert_eq!(supervisor.edition(Key::EtcSystem), Ok(1));
    assert_eq!(supervisor.lookup(Key::EtcSystem, 4), Err(NotFound::TooLong));
    assert_eq!(supervisor.lookup(Key::ImageId, 64).map(|found| found.value), Ok(&b"image"[..]));
    let lookup = Request::lookup(Key::EtcSystem, 5);
    assert!(ask(&mut main, supervisor, &lookup, |reply| matches!(reply, Reply::KeyLookup(Ok(found)) if found.value == b"value"))?);
    let mut list = [Probe { address: 0x50, result: 9 }; 3];
    update_probes(&mut list, &[2, 0], &[3, 2])?;
    assert_eq!(list.map(|probe| probe.result), [2, 9, 3]);
    assert_eq!(update_probes(&mut list, &[1 << 32], &[0]), Err(Refusal::BadProbe));
    let plan = AddressPlan { base: [2, 0, 0, 0, 0xff, 0xff], count: 2, stride: 1 };
    assert_eq!(plan.addresses()[1], [2, 0, 0, 1, 0, 0]);
    assert_eq!((checksum(b"abcde"), rot::crc(&[1, 2, 1, 0, 9])), (0xc8f0, 0x29f9ec23));
    Ok(())
}

#[no_mangle]
extern "C" fn run() -> ! {
    let mut supervisor = Supervisor::start_in(STORAGE.take().expect("taken once"), &DATA);
    for byte in STATUS {
        supervisor.receive(&[], &[byte]);
    }
    let mut room = [0; MOST_PENDING];
    print(supervisor.take(&mut room)).expect("printed");
    calls(&mut supervisor).expect("not refused");
    writeln!(Console, "all calls as expected").expect("printed");
    end(true)
}
