// Defines a scan of every part of both ends for the bytes of a passphrase, after each call: where they are found, they must be allowed to lie.
// Assumes that nothing else that is handed in has bytes of `LETTERS` but for checksums and code bytes; docs/STATE.md for where a passphrase may lie.

use crate::apart::unwiped;
use crate::calls::{answered, hex, Call, Image, Lent};
use crate::library::{
    self, RequesterReceiveAnswer, RequesterRequestAnswer, RequesterSendAnswer, RequesterStateAnswer, SaveAnswer, TakeAnswer,
};
use crate::model::{self, break_rule, broken, Ended, Failure, Fault, Message, Reader, FAULTS, LONGEST, PASSPHRASE, SHORTEST_PASSPHRASE, TOP_BIT};
use crate::random::Random;
use crate::state::{FORM_OFFSET, LENGTHS, LINE, NAMES, OUTBOX, PASSPHRASE_OFFSET, READER, SETTINGS, START_LENGTH, VALUE_OFFSET};
use crate::world::World;
use std::collections::{HashSet, VecDeque};
use std::ops::RangeInclusive;

/// The bytes of passphrases. So many in a row are looked for, of each of the last passphrases.
const LETTERS: RangeInclusive<u8> = 0xa0..=0xfe;
const WINDOW: usize = 4;
const VALUES: usize = 32;
/// In a run of so many calls each of these must have come up so often at least: `Tally`.
const DEMANDED: u64 = 20_000;
const DEMANDED_TIMES: u64 = 50;

/// The main processor's end: its reader's part and its own.
const MAIN_LENGTHS: [usize; 2] = [4142, 4118];
const MAIN_DATA: usize = 14;
const LONGEST_FRAME: usize = 4141;
/// A post is refused so while eight alerts wait.
const ALERTS_FULL: u32 = 10;
const NO_IMAGE: Image = Image { which: 0, length: 0 };

/// The faults with which bytes of a passphrase stay; the scan or the record must show each.
const LEAKS: [Fault; 8] = [
    Fault::WipeForgotten, Fault::WipeOnResult0, Fault::WipeOnRequest, Fault::PassphraseRest, Fault::StartKeepsReader, Fault::LineStartKeeps,
    Fault::MainStartKeepsReader, Fault::MainStartKeepsData,
];

/// How often what came up.
#[derive(Debug, Default)]
struct Tally {
    scans: u64,
    /// A set was read to its 00 by the supervisor, stored or refused.
    stored: u64,
    refused: u64,
    /// The scan found a passphrase in the reader's part: of a frame partly received, or of one that came damaged or that a line read has read.
    partly: u64,
    damaged: u64,
    /// The reply to a damaged frame had bytes of one as its sequence.
    echoed: u64,
    /// The main processor's reader part had bytes of one: it read such a reply.
    heard: u64,
    /// The main processor's part had one while its request was outstanding, and behind its answer.
    waiting: u64,
    answered: u64,
    /// A start found one.
    started: u64,
}

struct Ends {
    random: Random,
    world: World,
    /// What has come of a frame to the supervisor, and the rest of the frame.
    reader: Reader,
    wire: Vec<u8>,
    /// Whether the supervisor's reader part, its outbox and the main processor's two parts may hold bytes of a passphrase.
    reader_may: bool,
    outbox_may: bool,
    main_may: [bool; 2],
    stored: Option<Vec<u8>>,
    values: VecDeque<Vec<u8>>,
    windows: HashSet<[u8; WINDOW]>,
    main: [Vec<u8>; 2],
    answers: Vec<u8>,
    /// What was taken and is not yet on its way to the main processor, and the last image saved.
    taken: Vec<u8>,
    saved: Vec<u8>,
    calls: u64,
    tally: Tally,
}

/// Bytes that no passphrase has.
fn low(random: &mut Random, length: usize) -> Vec<u8> {
    (0..length).map(|_| random.below(usize::from(*LETTERS.start())) as u8).collect()
}

/// Where the code byte of a frame's longest group stands. A set without what is ahead of it has bytes of the value in the sequence's place.
fn longest_group(frame: &[u8]) -> usize {
    let places = std::iter::successors(Some(0), |&place| Some(place + usize::from(frame[place])));
    places.take_while(|&place| frame[place] != 0).max_by_key(|&place| frame[place]).unwrap()
}

impl Ends {
    fn new(seed: u64) -> Ends {
        let mut random = Random(seed ^ 0x7261_6365);
        let mut world = World::new(seed, false);
        world.images = vec![Vec::new()];
        let main = MAIN_LENGTHS.map(|length| low(&mut random, length));
        Ends {
            random,
            world,
            reader: Reader::default(),
            wire: Vec::new(),
            reader_may: false,
            outbox_may: false,
            main_may: [false; 2],
            stored: None,
            values: VecDeque::new(),
            windows: HashSet::new(),
            main,
            answers: Vec::new(),
            taken: Vec::new(),
            saved: Vec::new(),
            calls: 0,
            tally: Tally::default(),
        }
    }

    /// A new passphrase of this length, which the scan looks for from now on.
    fn value(&mut self, length: usize) -> Vec<u8> {
        let letters = usize::from(LETTERS.end() - LETTERS.start()) + 1;
        let value: Vec<u8> = (0..length).map(|_| LETTERS.start() + self.random.below(letters) as u8).collect();
        self.values.push_back(value.clone());
        if self.values.len() > VALUES {
            self.values.pop_front();
        }
        self.windows = self.values.iter().flat_map(|value| value.windows(WINDOW)).map(|window| window.try_into().unwrap()).collect();
        value
    }

    fn any_value(&mut self) -> Vec<u8> {
        let allowed = SHORTEST_PASSPHRASE + self.random.below(LONGEST[3] + 1 - SHORTEST_PASSPHRASE);
        let length = self.random.pick(&[allowed, allowed, allowed, 8, 63, 4, 7, 64, 300, 4103]);
        self.value(length)
    }

    fn found(&self, bytes: &[u8]) -> Option<usize> {
        bytes.windows(WINDOW).position(|window| window.iter().all(|byte| LETTERS.contains(byte)) && self.windows.contains(window))
    }

    /// Every part but for where bytes of a passphrase may lie; and the record holds the stored value and nothing else.
    fn scan(&mut self) -> Result<(), String> {
        self.tally.scans += 1;
        for part in LINE..LENGTHS.len() {
            let end = if part == SETTINGS { PASSPHRASE_OFFSET } else { LENGTHS[part] };
            let found = self.found(&self.world.parts[part][..end]);
            if part == READER && self.reader_may {
                let partly = self.reader != Reader::default();
                self.tally.partly += u64::from(partly && found.is_some());
                self.tally.damaged += u64::from(!partly && found.is_some());
            } else if part == OUTBOX && self.outbox_may {
                self.tally.echoed += u64::from(found.is_some());
            } else if let Some(place) = found {
                return Err(format!("bytes of a passphrase in the {} at {place}: {}", NAMES[part], hex(&self.world.parts[part][place..])));
            }
        }
        for part in 0..2 {
            match self.found(&self.main[part][..MAIN_LENGTHS[part]]) {
                Some(place) if !self.main_may[part] || part == 1 && place < MAIN_DATA => {
                    return Err(format!("bytes of a passphrase in the main processor's part {part} at {place}"));
                }
                found => self.tally.heard += u64::from(part == 0 && found.is_some()),
            }
        }
        self.record()
    }

    fn record(&self) -> Result<(), String> {
        let held = &self.world.parts[SETTINGS][PASSPHRASE_OFFSET + VALUE_OFFSET..LENGTHS[SETTINGS]];
        let mut padded = self.stored.clone().unwrap_or_default();
        padded.resize(LONGEST[3], 0);
        if padded == held { Ok(()) } else { Err(format!("key 6's record\n  stored  {}\n  library {}", hex(&padded), hex(held))) }
    }

    /// A call of the supervisor or of the line layer; its room has bytes of a passphrase only where the part that it hands out may have.
    fn call(&mut self, call: &Call) -> Result<(), String> {
        let mut room = vec![0; 9000];
        let mut answer = vec![0; call.answers()];
        self.world.block.prepare(&mut self.random, None);
        let code = self.world.library(call, &Lent { parts: LENGTHS, room: 9000 }, &mut room, &mut answer);
        self.calls += 1;
        if code != 0 && !(matches!(call, Call::Post { .. }) && code == ALERTS_FULL) {
            return Err(format!("{call}: refused as {code}"));
        }
        match call {
            Call::Take => self.taken.extend(&room[..answered::<TakeAnswer>(&answer).moved as usize]),
            Call::Save => self.saved = room[..answered::<SaveAnswer>(&answer).length as usize].to_vec(),
            _ => {}
        }
        let may = match call {
            Call::LineData { .. } => self.reader_may,
            Call::Take => self.outbox_may,
            _ => false,
        };
        match self.found(&room) {
            Some(place) if !may => Err(format!("{call}: bytes of a passphrase in the room at {place}")),
            _ => Ok(()),
        }
    }

    // ---- The supervisor

    fn start(&mut self) -> Result<(), String> {
        let mut data: Box<[u8; START_LENGTH]> = Box::new(low(&mut self.random, START_LENGTH).try_into().unwrap());
        data[0] = 0x41;
        data[68] = 64;
        data[START_LENGTH - 4..].fill(0);
        let before = self.world.parts[READER].clone();
        self.tally.started += u64::from(self.found(&before).is_some());
        self.call(&Call::Start { data })?;
        self.stored = None;
        self.outbox_may = false;
        self.begin_frame(&before, Fault::StartKeepsReader);
        Ok(())
    }

    /// Behind a start the reader's part holds nothing; the fault leaves what it held.
    fn begin_frame(&mut self, before: &[u8], keeps: Fault) {
        if broken(keeps) {
            self.world.parts[READER][FORM_OFFSET..].copy_from_slice(&before[FORM_OFFSET..]);
        }
        self.reader = Reader::default();
        self.reader_may = false;
    }

    /// The next frame: mostly a set of key 6, at times damaged; else a request with low bytes.
    fn next_frame(&mut self) -> Vec<u8> {
        let version = self.random.pick(&[1, 1, 1, 2, 2, 3]);
        let top = if self.random.percent(10) { TOP_BIT } else { 0 };
        let sequence = self.random.below(0x9f) as u64 | top;
        if self.random.percent(50) {
            let data = [&[PASSPHRASE], &self.any_value()[..]].concat();
            let mut frame = model::frame(version, sequence, 0x10, &data);
            let place = self.random.below(frame.len() - 1);
            match self.random.below(10) {
                0 => frame[place] ^= if frame[place] == 1 { 2 } else { 1 },
                1 => drop(frame.drain(..place)),
                2 => drop(frame.drain(..longest_group(&frame))),
                _ => {}
            }
            return frame;
        }
        let command = self.random.pick(&[0x03, 0x04, 0x05, 0x06, 0x07, 0x08, 0x0a, 0x0d, 0x0e, 0x0e, 0x0f, 0x10, 0x10]);
        let length = match command {
            0x0d => 40,
            0x0e => 3,
            0x0f => 4,
            0x06 | 0x07 | 0x10 => 2 + self.random.below(300),
            _ => 0,
        };
        let mut data = low(&mut self.random, length);
        if matches!(command, 0x0e | 0x10) {
            data[0] = self.random.pick(&[3, 4, 5, if command == 0x0e { PASSPHRASE } else { 5 }]);
        }
        model::frame(version, sequence, command, &data)
    }

    /// A piece of the frame that is on its way, by a call of the supervisor, a collect or a read of the line layer.
    fn deliver(&mut self) -> Result<(), String> {
        if self.wire.is_empty() {
            self.wire = self.next_frame();
        }
        let some = 1 + self.random.below(self.wire.len());
        let length = self.random.pick(&[some, some, self.wire.len()]);
        let piece: Vec<u8> = self.wire.drain(..length).collect();
        let line = self.random.percent(5);
        let call = match self.random.below(3) {
            _ if line => Call::LineRead { part: READER, piece: piece.clone() },
            2 if !piece.contains(&0) => Call::Collect { part: READER, piece: piece.clone() },
            0 => Call::Step { image: NO_IMAGE, piece: piece.clone() },
            _ => Call::Receive { image: NO_IMAGE, piece: piece.clone() },
        };
        let left = unwiped(&self.world.parts[READER], &piece);
        let record = self.world.parts[SETTINGS].clone();
        let ended = self.reader.read(&piece).1;
        self.reader_may |= piece.iter().any(|byte| LETTERS.contains(byte));
        self.call(&call)?;
        match ended {
            _ if line => {}
            Ended::Message(message) => {
                self.outbox_may &= message.command == 0x06;
                if model::sets(&message, PASSPHRASE) {
                    self.set(&message, &left, &record);
                }
            }
            Ended::Failure(Failure { sequence, .. }) => self.outbox_may = sequence.is_some_and(|number| self.found(&number.to_le_bytes()).is_some()),
            _ => {}
        }
        Ok(())
    }

    /// The supervisor has read a set of key 6 to its 00; a fault leaves of it what the line layer alone leaves, or the record's rest.
    fn set(&mut self, message: &Message, left: &[u8], record: &[u8]) {
        let passes = matches!(message.version, 1 | 2) && message.sequence & TOP_BIT == 0;
        let value = &message.data[1..];
        let stores = passes && (SHORTEST_PASSPHRASE..=LONGEST[3]).contains(&value.len());
        if stores {
            self.stored = Some(value.to_vec());
            self.tally.stored += 1;
        } else {
            self.tally.refused += 1;
        }
        self.reader_may = false;
        if broken(Fault::WipeForgotten) || broken(Fault::WipeOnResult0) && !stores || broken(Fault::WipeOnRequest) && !passes {
            self.world.parts[READER].copy_from_slice(left);
        }
        if broken(Fault::PassphraseRest) && stores {
            let rest = PASSPHRASE_OFFSET + VALUE_OFFSET + value.len();
            self.world.parts[SETTINGS][rest..].copy_from_slice(&record[rest..]);
        }
    }

    /// One of the calls that receive nothing; often a take where the reply has bytes of a passphrase.
    fn other(&mut self) -> Result<(), String> {
        let random = &mut self.random;
        let call = match random.below(14) {
            _ if self.outbox_may && random.percent(70) => Call::Take,
            0 => Call::LineData { part: READER, length: random.pick(&[0, 29, 64, 4104]) },
            1 => Call::LineTail { part: READER },
            2 => Call::Signal,
            3 => Call::Flags,
            4 => Call::Lookup { key: random.below(7) as u8, most: random.pick(&[0, 63, u16::MAX]) },
            5 => Call::Edition { key: random.below(7) as u8 },
            6 => Call::Save,
            7 => Call::BootFailure,
            8 => Call::Panic,
            9 => Call::SetOptions { options: 3 },
            10 => Call::Post { action: 1, text: low(random, 20) },
            11 if !self.saved.is_empty() => Call::Restore { image: self.saved.clone() },
            _ => Call::Take,
        };
        self.call(&call)
    }

    fn line_start(&mut self) -> Result<(), String> {
        let before = self.world.parts[READER].clone();
        self.call(&Call::LineStart { part: READER })?;
        self.begin_frame(&before, Fault::LineStartKeeps);
        Ok(())
    }

    // ---- The main processor's end

    fn main_start(&mut self) {
        let before = self.main.clone();
        let [reader, main] = &mut self.main;
        // The pointers are to slices of these lengths.
        let code = unsafe { library::oatcastle_requester_start(reader.as_mut_ptr(), reader.len(), main.as_mut_ptr(), main.len()) };
        assert_eq!(code, 0);
        if broken(Fault::MainStartKeepsData) {
            self.main[1][MAIN_DATA..].copy_from_slice(&before[1][MAIN_DATA..]);
        }
        if broken(Fault::MainStartKeepsReader) {
            self.main[0][FORM_OFFSET..].copy_from_slice(&before[0][FORM_OFFSET..]);
        }
        self.main_may = [false; 2];
        self.answers.clear();
    }

    /// What is outstanding.
    fn standing(&self) -> RequesterStateAnswer {
        let mut answer = RequesterStateAnswer::default();
        // The pointers are to a slice of this length and to an answer.
        let code = unsafe { library::oatcastle_requester_state(self.main[1].as_ptr(), self.main[1].len(), &mut answer) };
        assert_eq!(code, 0);
        answer
    }

    /// A set of key 6, or a request with few low bytes; refused where one is outstanding.
    fn main_request(&mut self) {
        let (command, data) = if self.random.percent(40) {
            (0x10, [&[PASSPHRASE], &self.any_value()[..]].concat())
        } else {
            let length = self.random.below(3);
            (0x0e, low(&mut self.random, length))
        };
        let mut answer = RequesterRequestAnswer::default();
        let mut room = vec![0; LONGEST_FRAME];
        let part = &mut self.main[1];
        // The pointers are to slices of these lengths and to an answer.
        let code = unsafe {
            library::oatcastle_requester_request(part.as_mut_ptr(), part.len(), command, data.as_ptr(), data.len(), room.as_mut_ptr(), room.len(), &mut answer)
        };
        self.main_may[1] |= code == 0 && command == 0x10;
    }

    fn main_send(&mut self) {
        let mut answer = RequesterSendAnswer::default();
        let mut room = vec![0; LONGEST_FRAME];
        let part = &mut self.main[1];
        // The pointers are to slices of these lengths and to an answer.
        unsafe { library::oatcastle_requester_send(part.as_mut_ptr(), part.len(), room.as_mut_ptr(), room.len(), &mut answer) };
    }

    /// A piece of what was taken of the supervisor, or of a reply to the one outstanding, at times damaged.
    fn main_receive(&mut self) {
        if self.answers.is_empty() && self.random.percent(50) {
            self.answers = std::mem::take(&mut self.taken);
        }
        if self.answers.is_empty() {
            self.answers = model::frame(1, self.standing().number | TOP_BIT, 0x06, &[0; 16]);
            if self.random.percent(20) {
                self.answers[3] ^= 1;
            }
        }
        let length = 1 + self.random.below(self.answers.len());
        let piece: Vec<u8> = self.answers.drain(..length).collect();
        self.main_may[0] |= piece.iter().any(|byte| LETTERS.contains(byte));
        let mut answer = RequesterReceiveAnswer::default();
        let [reader, main] = &mut self.main;
        // The pointers are to slices of these lengths and to an answer.
        unsafe {
            library::oatcastle_requester_receive(
                piece.as_ptr(), piece.len(), reader.as_mut_ptr(), reader.len(), main.as_mut_ptr(), main.len(), &mut answer,
            )
        };
    }

    fn main_turn(&mut self) {
        match self.random.below(20) {
            0 => self.main_start(),
            1..=5 => self.main_request(),
            6 => {
                let part = &mut self.main[1];
                // The pointer is to a slice of this length.
                unsafe { library::oatcastle_requester_interrupt(part.as_mut_ptr(), part.len()) };
            }
            7..=9 => self.main_send(),
            _ => self.main_receive(),
        }
        self.calls += 1;
        if self.main_may[1] && self.found(&self.main[1]).is_some() {
            let idle = self.standing().state == 0;
            self.tally.waiting += u64::from(!idle);
            self.tally.answered += u64::from(idle);
        }
    }

    fn turn(&mut self) -> Result<(), String> {
        match self.random.below(100) {
            0 => self.start()?,
            1 => self.line_start()?,
            2..=54 => self.deliver()?,
            55..=74 => self.other()?,
            _ => self.main_turn(),
        }
        self.scan()
    }

    fn run(&mut self, count: u64) -> Result<(), String> {
        let line = Call::LineStart { part: LINE };
        self.start()?;
        self.call(&line)?;
        self.main_start();
        self.scan()?;
        while self.calls < count {
            self.turn().map_err(|difference| format!("call {}: {difference}", self.calls))?;
        }
        Ok(())
    }
}

/// Each leak must show, and then nothing.
pub fn compare(seed: u64, count: u64) -> Result<String, String> {
    for leak in LEAKS {
        let place = FAULTS.iter().position(|&(fault, _)| fault == leak).unwrap();
        break_rule(place + 1);
        let mut ends = Ends::new(seed);
        let found = ends.run(count).is_err();
        break_rule(0);
        if !found {
            return Err(format!("bytes that stay ({}) are not found in {count} calls", FAULTS[place].1));
        }
        println!("a scan, bytes that stay ({}): found after {} calls", FAULTS[place].1, ends.calls);
    }
    let mut ends = Ends::new(seed);
    ends.run(count)?;
    let Tally { scans, stored, refused, partly, damaged, echoed, heard, waiting, answered, started } = ends.tally;
    let times = format!(
        "{stored} sets stored and {refused} refused; found in the reader's part behind {partly} calls with a set partly received and behind {damaged} with one damaged or read by a \
         line read, there ahead of {started} starts; found in the outbox behind {echoed} with the reply to a damaged set, and behind {heard} in the main processor's reader part; found in the main processor's part behind {waiting} calls with its request outstanding and behind {answered} after its answer"
    );
    if count >= DEMANDED && [stored, refused, partly, damaged, echoed, heard, waiting, answered, started].iter().any(|&times| times < DEMANDED_TIMES) {
        return Err(format!("too seldom: {times}"));
    }
    Ok(format!("{scans} scans of all parts, no byte elsewhere; {times}"))
}
