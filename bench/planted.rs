// Defines a faulty yardstick, which the comparison with the library must tell from it: `ordinary` with one fault at a time.
// Assumes that a difference is a panic, and one thread.

use crate::compare::{line, main_end, settings, supervisor};
use crate::link;
use crate::ordinary::Ordinary;
use crate::receiver::{Frame, Rules, Yardstick};
use std::panic;
use std::sync::atomic::{AtomicUsize, Ordering};

/// The fault planted now, by its place in `FAULTS`.
static PLANTED: AtomicUsize = AtomicUsize::new(0);

#[derive(Clone, Copy)]
enum Plant {
    Sum,
    LastOneWritten,
    LastOneRead,
    LongFrameRead,
    Crc,
    /// A rule of the papers that is changed.
    Rule(fn(&mut Rules)),
}

/// Each fault in words, the part of the comparison that must see it, and what it is.
static FAULTS: [(&str, fn(), Plant); 18] = [
    ("sums of 255 are not 0", line::<Faulty>, Plant::Sum),
    ("a full group that ends the message has a 01 behind it", line::<Faulty>, Plant::LastOneWritten),
    ("a last 01 behind a full group reads as nothing", line::<Faulty>, Plant::LastOneRead),
    ("bytes past the longest form are dropped", line::<Faulty>, Plant::LongFrameRead),
    ("there is no key 6", supervisor::<Faulty>, Plant::Rule(|rules| rules.keys = 6)),
    ("key 6 is looked up", supervisor::<Faulty>, Plant::Rule(|rules| rules.set_only = 7)),
    ("no lookup carries an edition", supervisor::<Faulty>, Plant::Rule(|rules| rules.edition_version = 3)),
    ("version 1 carries an edition, and version 2 none", supervisor::<Faulty>, Plant::Rule(|rules| rules.edition_version = 1)),
    ("an absent item carries its data", supervisor::<Faulty>, Plant::Rule(|rules| rules.item_result = 2)),
    ("an eighth alert is refused", supervisor::<Faulty>, Plant::Rule(|rules| rules.most_alerts = 7)),
    ("an alert request sent again takes the next alert", supervisor::<Faulty>, Plant::Rule(|rules| rules.resends = false)),
    ("a record keeps 511 bytes", supervisor::<Faulty>, Plant::Rule(|rules| rules.most_kept = 511)),
    ("an image lacks key 5", settings::<Faulty>, Plant::Rule(|rules| rules.last_saved = 4)),
    ("an image has key 6", settings::<Faulty>, Plant::Rule(|rules| rules.last_saved = 6)),
    ("an image's key may be that of the record before", settings::<Faulty>, Plant::Rule(|rules| rules.key_step = 0)),
    ("the main processor's end takes version 2", main_end::<Faulty>, Plant::Rule(|rules| rules.answer_version = 2)),
    ("the main processor's end takes a long frame's 4,142nd byte", main_end::<Faulty>, Plant::Rule(|rules| rules.overlong = 4142)),
    ("the CRC is not inverted", link::planted, Plant::Crc),
];

struct Faulty;

fn planted() -> Option<Plant> {
    FAULTS.get(PLANTED.load(Ordering::Relaxed)).map(|fault| fault.2)
}

impl Yardstick for Faulty {
    const NAME: &'static str = "a faulty yardstick";

    fn rules() -> Rules {
        let mut rules = Rules::PAPERS;
        if let Some(Plant::Rule(change)) = planted() {
            change(&mut rules);
        }
        rules
    }

    fn checksum(body: &[u8]) -> u16 {
        match Ordinary::checksum(body) {
            sums if matches!(planted(), Some(Plant::Sum)) && sums % 256 == 0 && !body.is_empty() => sums + 255,
            sums => sums,
        }
    }

    fn encode(message: &[u8], out: &mut [u8]) -> Option<usize> {
        let length = Ordinary::encode(message, out)?;
        if !matches!(planted(), Some(Plant::LastOneWritten)) || message.len() < 254 || message[message.len() - 254..].contains(&0) {
            return Some(length);
        }
        out.get_mut(length - 1..=length)?.copy_from_slice(&[1, 0]);
        Some(length + 1)
    }

    fn decode(form: &mut [u8]) -> Option<usize> {
        let count = form.len();
        let full = matches!(planted(), Some(Plant::LastOneRead)) && count > 255 && form[count - 1] == 1 && form[count - 256] == 255;
        Ordinary::decode(&mut form[..count - usize::from(full)])
    }

    fn gather(frame: &mut Frame, piece: &[u8]) -> Option<usize> {
        let end = Ordinary::gather(frame, piece);
        frame.long &= !matches!(planted(), Some(Plant::LongFrameRead));
        end
    }
}

/// Whether the comparison sees the fault at this place.
fn seen(fault: usize) -> bool {
    PLANTED.store(fault, Ordering::Relaxed);
    panic::catch_unwind(FAULTS[fault].1).is_err()
}

/// How many faults the comparison sees; ends the run where it misses one, or sees one though none is planted.
pub fn count() -> usize {
    let hook = panic::take_hook();
    panic::set_hook(Box::new(|_| ()));
    let missed: Vec<&str> = (0..FAULTS.len()).filter(|&fault| !seen(fault)).map(|fault| FAULTS[fault].0).collect();
    panic::set_hook(hook);
    assert!(missed.is_empty(), "the comparison misses planted faults: {}", missed.join("; "));
    PLANTED.store(FAULTS.len(), Ordering::Relaxed);
    crate::compare::compare::<Faulty>();
    FAULTS.len()
}
