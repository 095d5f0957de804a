//! Defines safe types over the library's C functions. The supervisor, the main processor's end and a line reader work in storage that is
//! lent to them, and no call can lend less.
//! Assumes the static library is linked and its functions do what `docs/PROMISES.md` says; nothing of the standard library is used.
//!
//! The supervisor in a `static`, and the status request that document 01 calls L12:
//! ```
//! use oatcastle::{Bsu, StartData, StaticCell, Supervisor, SupervisorStorage, MOST_PENDING};
//!
//! static STORAGE: StaticCell<SupervisorStorage> = StaticCell::new(SupervisorStorage::new());
//! static DATA: StartData = StartData::new(Bsu::A);
//!
//! let mut supervisor = Supervisor::start_in(STORAGE.take().expect("taken once"), &DATA);
//! let request = [6, 0xcc, 0x19, 0xde, 1, 1, 1, 1, 2, 1, 1, 1, 1, 1, 1, 1, 4, 8, 0xcf, 0x66, 0];
//! supervisor.receive(&[], &request);
//! let mut room = [0; MOST_PENDING];
//! assert_eq!(supervisor.take(&mut room).len(), 37);
//! ```
//!
//! A call that no refusal of its promise can meet here returns its answer and no `Result`. Refusal 12 cannot come: each starts in parts of
//! the published lengths, and nothing else writes them while it lives. For a started supervisor that is the theorem `no-12` of
//! `crates/supervisor_claims`, for the main processor's end that of `crates/requester_claims`. For a line reader it is `stays-valid` of
//! `crates/line_claims`. Were a number to come that a promise rules out, as from a library of another version, the call panics.
#![no_std]
#![deny(unsafe_op_in_unsafe_fn, missing_docs, missing_debug_implementations)]
#![warn(
    clippy::undocumented_unsafe_blocks,
    clippy::missing_errors_doc,
    clippy::missing_panics_doc,
    clippy::must_use_candidate,
    clippy::return_self_not_must_use
)]

mod cell;
mod limits;
mod line;
mod numbers;
mod plan;
mod probes;
// Data, values and records are handed out as they lie in the parts; the calls that copy them out are there for the tests.
#[allow(dead_code)]
mod raw;
mod reply;
mod request;
pub mod requester;
pub mod rot;
mod serve;
mod start;
mod supervisor;
mod wire;

pub use cell::{Critical, StaticCell};
pub use limits::{
    ADDRESS_LENGTH, ADDRESS_ROWS, LONGEST_ALERT, LONGEST_BLOCK, LONGEST_DATA, LONGEST_FRAME, LONGEST_IMAGE, LONGEST_IMAGE_ID,
    LONGEST_ITEM_DATA, LONGEST_PASSPHRASE, LONGEST_VALUE, MOST_ALERTS, MOST_ITEMS, MOST_KEPT, MOST_PENDING, PASSPHRASE_EDITION,
    PASSPHRASE_LENGTH, PASSPHRASE_RECORD, PASSPHRASE_VALUE, SETTINGS_LENGTH, SHORTEST_PASSPHRASE,
};
pub use line::{checksum, write_frame, Failure, LineReader, Message, Read, ReadEnd, ReaderStorage, Tail};
pub use numbers::{Fault, NotFound, Reason, Refusal};
pub use plan::AddressPlan;
pub use probes::update_probes;
pub use raw::{Counters, Probe};
pub use reply::{Alert, BadReply, Identity, Reply, Status, Value};
pub use request::Request;
pub use serve::{AskError, Uart, Waited};
pub use start::{Bsu, Item, ItemResult, StartData};
pub use supervisor::{Carried, Flags, Found, ImageFault, KeySet, Options, Record, Step, StepEnd, Supervisor, SupervisorStorage};
pub use wire::{Command, Key, NotSet, OptionBit, ReplyCommand, StatusBit};

use raw::Length;

/// The version of this crate and of the library's interface.
pub const VERSION: &str = "0.3.0";

/// A run as the library takes it: its first element and its length.
fn lent<T>(run: &[T]) -> (*const T, Length) {
    (run.as_ptr(), run.len() as Length)
}

/// The same of a run that the library writes.
fn lent_mut<T>(run: &mut [T]) -> (*mut T, Length) {
    let length = run.len() as Length;
    (run.as_mut_ptr(), length)
}

/// The first bytes of a run, as many as the library says.
fn first(run: &[u8], count: u64) -> &[u8] {
    part(run, 0, count as usize)
}

/// So many bytes of a run from an offset on.
fn part(run: &[u8], offset: usize, length: usize) -> &[u8] {
    match run.get(offset..).and_then(|rest| rest.get(..length)) {
        Some(part) => part,
        None => ruled_out(),
    }
}

/// What a call's number means where a caller can meet refusals of its promise. 12 is not among them: `no-12` of `crates/supervisor_claims` and of
/// `crates/requester_claims` rules it out.
fn checked(number: u32) -> Result<(), Refusal> {
    match (number, Refusal::of(number.into())) {
        (0, _) => Ok(()),
        (_, Some(refusal)) => Err(refusal),
        (_, None) => ruled_out(),
    }
}

/// Where a caller can meet none: 12 is ruled out by the same theorems, and for a line reader by `stays-valid` of `crates/line_claims`; 8 since what is lent is long
/// enough; 11 and 13 by the types.
fn done(number: u32) {
    if number != 0 {
        ruled_out()
    }
}

/// The library answered what its promise rules out. A panic, and no assumption that it cannot be reached: a wrong archive may be linked.
#[cold]
#[inline(never)]
fn ruled_out() -> ! {
    panic!("liboatcastle.a answered what its promise rules out")
}
