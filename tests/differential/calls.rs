// Defines the calls with their arguments, the lengths lent with one, and what the model says of one.
// Assumes the parts of docs/STATE.md and the answers of bindings/rust/src/raw.rs, each a C struct of u64 fields alone.

use crate::library::{
    CollectAnswer, EditionAnswer, FlagsAnswer, LineReadAnswer, LineTailAnswer, LineWriteAnswer, LookupAnswer, RecordAnswer, RestoreAnswer, SaveAnswer, SignalAnswer,
    StepAnswer, TakeAnswer,
};
use crate::model::Told;
use crate::plans::Plan;
use crate::random::Random;
use crate::state::{FACTORY, LINE, NAMES, OUTBOX, READER, REGISTERS, SETTINGS, START_LENGTH};
use std::fmt;

/// An image of the pool, and how much of it is lent.
#[derive(Clone, Copy)]
pub struct Image {
    pub which: usize,
    pub length: usize,
}

#[derive(Clone)]
pub enum Call {
    LineStart { part: usize },
    LineRead { part: usize, piece: Vec<u8> },
    Collect { part: usize, piece: Vec<u8> },
    LineData { part: usize, length: u64 },
    LineTail { part: usize },
    LineWrite { version: u32, sequence: u64, command: u8, head: Vec<u8>, rest: Vec<u8> },
    Start { data: Box<[u8; START_LENGTH]> },
    Receive { image: Image, piece: Vec<u8> },
    Step { image: Image, piece: Vec<u8> },
    Take,
    Post { action: u8, text: Vec<u8> },
    SetOptions { options: u64 },
    Lookup { key: u8, most: u16 },
    Edition { key: u8 },
    Save,
    Restore { image: Vec<u8> },
    Signal,
    Flags,
    BootFailure,
    Panic,
    Addresses { plan: Plan },
    PlanFits { plan: Plan },
}

impl Call {
    pub fn parts(&self) -> &'static [usize] {
        match self {
            Call::LineStart { part: LINE } | Call::LineRead { part: LINE, .. } | Call::Collect { part: LINE, .. } => &[LINE],
            Call::LineData { part: LINE, .. } | Call::LineTail { part: LINE } => &[LINE],
            Call::LineStart { .. } | Call::LineRead { .. } | Call::LineData { .. } | Call::LineTail { .. } | Call::Collect { .. } => &[READER],
            Call::LineWrite { .. } | Call::Addresses { .. } | Call::PlanFits { .. } => &[],
            Call::Start { .. } | Call::Receive { .. } | Call::Step { .. } => &[READER, OUTBOX, FACTORY, SETTINGS, REGISTERS],
            Call::Take => &[OUTBOX],
            Call::Lookup { .. } | Call::Edition { .. } => &[FACTORY, SETTINGS],
            Call::Save | Call::Restore { .. } => &[SETTINGS],
            _ => &[REGISTERS],
        }
    }

    pub fn starts(&self) -> bool {
        matches!(self, Call::LineStart { .. } | Call::Start { .. })
    }

    /// How many numbers the answer has.
    pub fn answers(&self) -> usize {
        match self {
            Call::LineRead { .. } => fields::<LineReadAnswer>(),
            Call::Collect { .. } => fields::<CollectAnswer>(),
            Call::LineTail { .. } => fields::<LineTailAnswer>(),
            Call::LineWrite { .. } => fields::<LineWriteAnswer>(),
            Call::Step { .. } => fields::<StepAnswer>(),
            Call::Take => fields::<TakeAnswer>(),
            Call::Lookup { .. } => fields::<LookupAnswer>(),
            Call::Edition { .. } => fields::<EditionAnswer>(),
            Call::Save => fields::<SaveAnswer>(),
            Call::Restore { .. } => fields::<RestoreAnswer>(),
            Call::Signal => fields::<SignalAnswer>(),
            Call::Flags => fields::<FlagsAnswer>(),
            Call::BootFailure | Call::Panic => fields::<RecordAnswer>(),
            _ => 0,
        }
    }

    /// The wire that the call's piece comes from: the line state's (0) or the supervisor's (1).
    pub fn wire(&self) -> usize {
        usize::from(!matches!(self, Call::LineRead { part: LINE, .. } | Call::Collect { part: LINE, .. }))
    }

    /// How many bytes of its piece the call has read, if it was carried out and answered these numbers.
    pub fn used(&self, answer: &[u64]) -> usize {
        match self {
            Call::LineRead { .. } => answered::<LineReadAnswer>(answer).used as usize,
            Call::Collect { .. } => answered::<CollectAnswer>(answer).taken as usize,
            Call::Step { .. } => answered::<StepAnswer>(answer).used as usize,
            Call::Receive { piece, .. } => piece.len(),
            _ => 0,
        }
    }
}

impl fmt::Display for Call {
    fn fmt(&self, out: &mut fmt::Formatter) -> fmt::Result {
        let image = |image: &Image| format!("image {} of {} bytes", image.which, image.length);
        match self {
            Call::LineStart { part } => write!(out, "oatcastle_line_start({})", NAMES[*part]),
            Call::LineRead { part, piece } => write!(out, "oatcastle_line_read({}, piece {})", NAMES[*part], hex(piece)),
            Call::Collect { part, piece } => write!(out, "oatcastle_collect({}, piece {})", NAMES[*part], hex(piece)),
            Call::LineData { part, length } => write!(out, "oatcastle_line_data({}, {length})", NAMES[*part]),
            Call::LineTail { part } => write!(out, "oatcastle_line_tail({})", NAMES[*part]),
            Call::LineWrite { version, sequence, command, head, rest } => {
                write!(out, "oatcastle_line_write({version}, {sequence:#x}, {command:#x}, head {}, rest {})", hex(head), hex(rest))
            }
            Call::Start { data } => write!(out, "oatcastle_start({})", hex(&data[..])),
            Call::Receive { image: lent, piece } => write!(out, "oatcastle_receive({}, piece {})", image(lent), hex(piece)),
            Call::Step { image: lent, piece } => write!(out, "oatcastle_step({}, piece {})", image(lent), hex(piece)),
            Call::Take => write!(out, "oatcastle_take"),
            Call::Post { action, text } => write!(out, "oatcastle_post({action}, {})", hex(text)),
            Call::SetOptions { options } => write!(out, "oatcastle_set_options({options:#x})"),
            Call::Lookup { key, most } => write!(out, "oatcastle_lookup(key {key}, maxresponse {most})"),
            Call::Edition { key } => write!(out, "oatcastle_edition(key {key})"),
            Call::Save => write!(out, "oatcastle_save"),
            Call::Restore { image } => write!(out, "oatcastle_restore({})", hex(image)),
            Call::Signal => write!(out, "oatcastle_signal"),
            Call::Flags => write!(out, "oatcastle_flags"),
            Call::BootFailure => write!(out, "oatcastle_boot_failure_record"),
            Call::Panic => write!(out, "oatcastle_panic_record"),
            Call::Addresses { plan } => write!(out, "oatcastle_addresses({plan})"),
            Call::PlanFits { plan } => write!(out, "oatcastle_plan({plan})"),
        }
    }
}

/// The lengths lent with a call.
#[derive(Clone, Copy, Debug)]
pub struct Lent {
    pub parts: [usize; 6],
    pub room: usize,
}

fn fields<A>() -> usize {
    size_of::<A>() / size_of::<u64>()
}

/// The numbers of an answer in the order of its fields.
pub fn numbers<A: Copy>(answer: A) -> Vec<u64> {
    // An answer is a struct of u64 fields alone.
    unsafe { std::slice::from_raw_parts((&raw const answer).cast(), fields::<A>()) }.to_vec()
}

/// The answer of these numbers; what is behind them does not matter.
pub fn answered<A: Copy>(numbers: &[u64]) -> A {
    assert!(numbers.len() >= fields::<A>());
    // An answer is a struct of u64 fields alone.
    unsafe { numbers.as_ptr().cast::<A>().read() }
}

/// The answer of a step that tells this.
pub fn step_answer(told: Told) -> StepAnswer {
    let Told { used, kind, reason, command, key, result } = told;
    StepAnswer { used: used as u64, kind: kind.into(), reason: reason.into(), command: command.into(), key: key.into(), result: result.into() }
}

/// Numbers that stand in an answer ahead of a call.
pub fn pattern(random: &mut Random, count: usize) -> Vec<u64> {
    (0..count).map(|_| random.next()).collect()
}

/// What the model says of a call.
#[derive(Default)]
pub struct Outcome {
    pub code: u32,
    pub answer: Vec<u64>,
    pub room: Vec<u8>,
    /// Parts that may differ afterwards; their meaning is compared, the bytes of all others.
    pub changed: [bool; 6],
    /// The bytes of a part from an offset to its published length, where they are settled one by one.
    pub exact: Vec<(usize, usize, Vec<u8>)>,
}

pub fn refused(code: u32) -> Outcome {
    Outcome { code, ..Outcome::default() }
}

pub fn hex(bytes: &[u8]) -> String {
    let mut text = format!("[{}]", bytes.len());
    for byte in bytes.iter().take(96) {
        text += &format!(" {byte:02x}");
    }
    if bytes.len() > 96 {
        text += " ...";
    }
    text
}

pub fn same(what: &str, model: &[u8], library: &[u8]) -> Result<(), String> {
    if model == library {
        return Ok(());
    }
    let place = model.iter().zip(library).position(|(a, b)| a != b).unwrap_or(model.len().min(library.len()));
    let from = place.saturating_sub(8);
    Err(format!(
        "{what}, first at place {place}\n  model   from {from}: {}\n  library from {from}: {}",
        hex(model.get(from..).unwrap_or(&[])),
        hex(library.get(from..).unwrap_or(&[]))
    ))
}
