// Defines document 01, as document 02 amends it, as ordinary Rust over typed state: checksum, COBS, the tests for reading, requests, replies and local calls.
// Assumes nothing but these documents and RFD 316; a fault number changes one rule, so that the comparison itself can be tested.

use std::collections::VecDeque;
use std::sync::atomic::{AtomicUsize, Ordering};

pub const MAGIC: u32 = 0x01DE_19CC;
pub const LONGEST_FORM: usize = 4140;
pub const SHORTEST_MESSAGE: usize = 19;
pub const LONGEST_MESSAGE: usize = 4123;
pub const LONGEST_DATA: usize = 4104;
pub const TOP_BIT: u64 = 1 << 63;
/// The commands of requests.
pub const COMMANDS: [u8; 14] = [0x01, 0x02, 0x03, 0x04, 0x05, 0x06, 0x07, 0x08, 0x09, 0x0a, 0x0d, 0x0e, 0x0f, 0x10];
pub const MOST_ITEMS: usize = 64;
/// The longest value of each settings key, from 3 on.
pub const LONGEST: [usize; 4] = [256, 4096, 4096, 63];
/// The key that is set and never read back, and its shortest value.
pub const PASSPHRASE: u8 = 6;
pub const SHORTEST_PASSPHRASE: usize = 8;
pub const LAST_EDITION: u32 = u32::MAX;

macro_rules! faults {
    ($($name:ident: $words:literal,)*) => {
        /// One rule of the model that can be made wrong.
        #[derive(Clone, Copy, PartialEq, Eq)]
        pub enum Fault { $($name),* }
        /// Every fault with its words; its number is its position, counted from 1.
        pub const FAULTS: &[(Fault, &str)] = &[$((Fault::$name, $words)),*];
    };
}

faults! {
    SumsMod256: "the checksum's sums are taken mod 256",
    FfAsZero: "a checksum byte ff matches 00",
    ZeroAfterFullGroup: "a full group is read as if a zero followed",
    CodeAfterFullGroup: "the writer ends a full group with a code byte 01",
    LastOneAccepted: "a last 01 after a full group is let through",
    LongestForm: "4,141 bytes before the 00 are let through",
    LongFrameReason: "an overlong frame is answered as reason 3",
    ShortMessage: "a message of 18 bytes passes the length test",
    MagicBeforeChecksum: "magic is tested ahead of the checksum",
    TopBitBeforeVersion: "the sequence's top bit is tested ahead of the version",
    UnknownNamed: "an unknown command is answered with the request's sequence",
    NoSeparator: "no 00 goes out after half an old reply",
    SeparatorAlways: "a 00 goes out ahead of every reply",
    EmptyDiscards: "an empty frame discards what is unsent",
    SilentKeeps: "a request without a reply keeps what is unsent",
    AlertCopyDropped: "any request drops the retained alert reply",
    RebootKeepsCopy: "reboot and power off keep the retained alert reply",
    RebootDropsAlerts: "reboot and power off drop the alerts that wait",
    AlertBitKept: "status bit 1 stays when no alert waits",
    ResendTakes: "a resent alert request takes the next alert",
    AckClearsBoth: "start acknowledged clears all status bits",
    PanicSilent: "a panic earns no reply",
    RecordKeeps511: "a record keeps 511 bytes",
    RecordLengthKept: "a record's length is that of the kept bytes",
    BootFailuresKept: "a newer boot failure does not replace the older",
    Block4095: "an image block has at most 4,095 bytes",
    HashIgnored: "the image's hash is not compared",
    OffsetTruncated: "an image offset is taken mod 2 to the 32",
    Key3At257: "key 3 takes 257 bytes",
    Key5At1024: "key 5 takes 1,024 bytes at most",
    EmptyIsNone: "a stored empty value is no value",
    MostIsBelow: "a value as long as maxresponse is too long",
    ReadOnlyAfterLength: "setting a read-only key with a long value gives 3",
    FirstVersionOnly: "every reply carries version 1",
    UnknownInVersion: "an unknown command is answered in the request's version",
    ResentInVersion: "a resent alert goes out in the version that asks again",
    MostCountsEdition: "maxresponse counts the edition too",
    EndBeforeLength: "setting a key at its last edition gives 4 for a long value too",
    RefusedCounts: "a set that gives 3 adds to the edition",
    OtherEdition: "a lookup carries the edition of another key",
    PassphraseHandedOut: "key 6 is looked up as any other setting",
    PassphraseNoValue: "a lookup of key 6 gives 2 where no value is held",
    PassphraseTooLong: "a lookup of key 6 gives 3 where its value is longer than maxresponse",
    PassphraseEdition: "the edition of key 6 is handed out",
    PassphraseOf7: "key 6 takes 7 bytes",
    PassphraseOf64: "key 6 takes 64 bytes",
    PassphraseSaved: "an image holds key 6",
    PassphraseRestored: "an image restores key 6",
    PassphraseLost: "a restore takes key 6 away",
    PassphraseOf7Held: "12 lets a passphrase of 7 bytes through",
    PassphraseOf64Held: "12 lets a passphrase of 64 bytes through",
    PassphraseEmptyHeld: "12 lets a passphrase of no bytes through",
    LengthNotHeld: "12 lets a length stand where no value is held",
    EditionNotHeld: "12 lets an edition stand where no value is held",
    Key7Found: "key 7 is looked up as key 6 is",
    WipeForgotten: "the reader's part is not wiped behind a set of key 6",
    WipeOneShort: "the wipe leaves the last byte of the reader's part",
    WipeFrameOnly: "the wipe reaches as far as the frame alone",
    WipeOnResult0: "the reader's part is wiped behind a set of key 6 with result 0 alone",
    WipeOnRequest: "a set of key 6 that fails by version or sequence leaves the reader's part",
    WipeKey5: "the reader's part is wiped behind a set of key 5 too",
    WipeLookup: "the reader's part is wiped behind a lookup of key 6 too",
    WipeLineRead: "a line read wipes behind a set of key 6",
    CollectTakes00: "a collect takes the 00 too",
    CollectOneShort: "a collect leaves the last byte ahead of a 00",
    CollectSaysPiece: "a collect says the whole piece's length",
    CollectSaysKept: "a collect says the bytes kept alone, not those past the longest form",
    WipeMain: "the main processor's end wipes its reader's part behind an answer",
    PassphraseRest: "a set of key 6 leaves the rest of a longer value before it",
    OtherRest: "a set of any key clears the rest of a longer value before it",
    StartKeepsReader: "a start of the supervisor leaves the reader's bytes",
    LineStartKeeps: "a start of the line layer leaves its bytes",
    MainStartKeepsReader: "a start of the main processor's end leaves the reader's bytes",
    MainStartKeepsData: "a start of the main processor's end leaves a request's data",
    MainAnswerClears: "an answer clears the data of its request",
    ItemDataKept: "an item with result 2 carries its data",
    ItemIndexLast: "the index equal to the count gives the last item",
    OptionBit9: "option bit 9 is let through",
    ActionAfterLength: "a long alert with action 0 is refused as 9",
    FullBeforeLong: "a long alert while 8 wait is refused as 10",
    NineAlerts: "a ninth alert is let through",
    SignalBit0: "the line signal follows bit 0 alone",
    TwelveLast: "8 is tested ahead of 12",
    RefusedAnswers: "a call that is refused writes its answer",
    StepCommandBefore: "a step tells the command of the request before",
    StepFailureTold: "a step tells the command of a request that fails",
    StepKeyAsResult: "a step tells the key of a set as its result",
    StepLookupResult: "a step tells the result of a lookup",
    StepPassphraseHeld: "a step that sets key 6 tells whether a value was held",
    ItemsPastCount: "start tests items past their count",
    Items16: "start takes 16 items at most",
    StartKeepsFlag: "start keeps that a byte was taken and non-zero",
    TakeOneLess: "take leaves the last pending byte",
    TakeFlagAny: "any taken byte counts as non-zero",
    PlanEightRows: "an address plan is tested over its eight rows alone",
    PlanOneFurther: "an address plan is tested one address past its last",
    PlanHighestPasses: "an address plan that ends at ff:ff:ff:ff:ff:ff passes",
    PlanNonePasses: "an address plan that counts no address can pass",
    PlanPastCount: "rows of an address plan past its count are kept",
    PlanRowsKept: "an address plan that passes keeps its rows",
    PlanCarryOneByte: "the stride of an address plan carries into one byte alone",
    PlanLowestFirst: "rows of an address plan have the lowest byte first",
    ProbeAtLength: "an index at the probe list's length is let through",
    ProbeResult1: "a probe's result 1 is let through",
    ProbeEarlierWins: "a part of the probe list named twice keeps the earlier result",
    ProbeAddress: "an update of the probe list writes the address too",
    ProbeWritesFirst: "changes of the probe list ahead of a bad one are made",
    ProbeLengths: "an index without a result, or a result without an index, is passed over",
    ProbeNoChanges: "no changes of the probe list are refused",
    CrcLowBitFirst: "the root-of-trust CRC takes the low bit first",
    CrcNotComplemented: "the root-of-trust CRC is not complemented",
    CrcOverRest: "the root-of-trust CRC is taken over bytes past the payload too",
    EchoUnderRequestCrc: "the echo's answer carries the request's CRC",
    HeaderBeforeProtocol: "22 is tested ahead of 21",
    TypeBeforeCrc: "26 is tested ahead of 25",
    Payload513: "a payload of 513 bytes is let through",
    LinkRefusedAnswers: "a call of the root-of-trust link that is refused writes its answer",
    CounterWraps: "a counter goes on from 4,294,967,295 to 0",
    CounterExchanged: "the counters of reasons 5 and 6 are exchanged",
    CounterLineGood: "a message that the line layer finds good is counted as a good request",
    CounterFirstOnly: "only the first frame of a piece is counted",
    CounterOverlongEarly: "an overlong frame is counted ahead of its 00 too",
    CounterEmptyIgnored: "an empty frame is not counted",
    CounterStartCounts: "what a start drops of a frame is counted",
    CounterStepNothing: "a counted step counts nothing",
    CounterStepTwice: "a counted step counts its frame twice",
    CounterRefused: "a counted call that is refused counts its frame",
    AnyReply: "a good reply under any number is the answer",
    AnyVersion: "a reply of any version is taken",
    FailureHanded: "a decode failure under the newest number is handed out",
    AllOnesDropped: "a decode failure under all ones is dropped",
    AgainNewNumber: "a request is sent again under a new number",
    OverlongAgain: "a request is sent again at an overlong frame's 00 too",
    Bit1First: "a recovery serves bit 1 first",
    TwoBitsCounted: "the set bits of a status are those of bits 0 and 1",
    AcknowledgeHanded: "the answer to a recovery's 0x09 is handed out",
    InterruptAgain: "an interrupt begins a recovery anew",
    OriginalLost: "a recovery forgets the request that it cuts off",
    OriginalOldNumber: "the request that was cut off goes out under its step's number",
    FourteenForgets: "an interrupt refused as 14 forgets the request",
    NumbersEndEarly: "the numbers end one below the last",
    EndMissed: "a recovery goes on without a number",
    EndKeeps: "a recovery that ends with 14 keeps the request that it cut off",
    EndSends: "a recovery that ends with 14 leaves a frame to go out",
    OutstandingBeforeLong: "17 is tested ahead of 9",
    RebootOutstanding: "0x01 stays outstanding",
    StatusAsSequence: "a status stands in the sequence's field too",
    MainRefusedAnswers: "a call of the main processor's end that is refused writes its answer",
    StateKeptCommand: "the state tells the command of the request that a recovery cut off",
    StateNumberBefore: "the state tells the number before the newest",
    StateNumberIdle: "the state tells the newest number where nothing is outstanding",
    StateIdleWaiting: "the state is idle while the caller's request is outstanding",
    StateOtherStep: "the state tells a recovery's acknowledgement as its alert",
    StateUnsentOnce: "the state tells a frame that is to go out again as sent",
    StateUnsentIdle: "the state tells that a frame is to go out where nothing is outstanding",
    StateOriginalWaiting: "the state tells the caller's outstanding request as one that was cut off",
    StateOriginalAlways: "the state tells of every recovery that it cut a request off",
    KeyTwice: "an image's key equal to the one before is let through",
    OffsetNextField: "an image's length over its limit is found at the field behind it",
    WrittenEarly: "records of an image ahead of a fault are restored",
    MarkNotSummed: "an image's checksum leaves out the record's mark",
    AbsentKept: "a setting that an image lacks stays",
    EditionKept: "a restore keeps the editions",
    OffsetOfGood: "a restore that is carried out writes an offset",
}

static FAULT: AtomicUsize = AtomicUsize::new(0);

/// Makes the rule of this number wrong; 0 makes none.
pub fn break_rule(number: usize) {
    FAULT.store(number, Ordering::Relaxed);
}

pub fn broken(fault: Fault) -> bool {
    let number = FAULT.load(Ordering::Relaxed);
    number != 0 && FAULTS[number - 1].0 == fault
}

// The line layer

pub fn checksum(body: &[u8]) -> u16 {
    let modulus = if broken(Fault::SumsMod256) { 256 } else { 255 };
    let (mut first, mut second) = (0u32, 0u32);
    for &byte in body {
        first = (first + u32::from(byte)) % modulus;
        second = (second + first) % modulus;
    }
    (second * 256 + first) as u16
}

pub fn cobs(bytes: &[u8]) -> Vec<u8> {
    let mut form = Vec::with_capacity(bytes.len() + bytes.len() / 254 + 1);
    let mut rest = bytes;
    loop {
        let run = rest.iter().take(254).take_while(|&&byte| byte != 0).count();
        form.push(run as u8 + 1);
        form.extend_from_slice(&rest[..run]);
        rest = &rest[run..];
        if run < 254 {
            if rest.is_empty() {
                return form;
            }
            rest = &rest[1..];
        } else if rest.is_empty() {
            if broken(Fault::CodeAfterFullGroup) {
                form.push(1);
            }
            return form;
        }
    }
}

pub fn uncobs(form: &[u8]) -> Option<Vec<u8>> {
    let mut bytes = Vec::with_capacity(form.len());
    let mut place = 0;
    let mut full = false;
    while place < form.len() {
        let code = usize::from(form[place]);
        if code == 0 {
            return None;
        }
        if full && form[place..] == [1] && !broken(Fault::LastOneAccepted) {
            return None;
        }
        full = code == 255;
        let group = form.get(place + 1..place + code)?;
        bytes.extend_from_slice(group);
        place += code;
        if place < form.len() && (code < 255 || broken(Fault::ZeroAfterFullGroup)) {
            bytes.push(0);
        }
    }
    Some(bytes)
}

/// A message with any magic, without its checksum.
pub fn body(magic: u32, version: u32, sequence: u64, command: u8, data: &[u8]) -> Vec<u8> {
    let mut bytes = Vec::with_capacity(LONGEST_MESSAGE);
    bytes.extend_from_slice(&magic.to_le_bytes());
    bytes.extend_from_slice(&version.to_le_bytes());
    bytes.extend_from_slice(&sequence.to_le_bytes());
    bytes.push(command);
    bytes.extend_from_slice(data);
    bytes
}

pub fn frame(version: u32, sequence: u64, command: u8, data: &[u8]) -> Vec<u8> {
    let mut message = body(MAGIC, version, sequence, command, data);
    let sums = checksum(&message);
    message.extend_from_slice(&sums.to_le_bytes());
    let mut form = cobs(&message);
    form.push(0);
    form
}

#[derive(Clone, Debug, PartialEq, Eq)]
pub struct Message {
    pub version: u32,
    pub sequence: u64,
    pub command: u8,
    pub data: Vec<u8>,
}

/// A reason, and the request's sequence where the reply carries it.
#[derive(Clone, Copy, Debug, PartialEq, Eq)]
pub struct Failure {
    pub reason: u8,
    pub sequence: Option<u64>,
}

fn number(bytes: &[u8]) -> u64 {
    bytes.iter().rev().fold(0, |high, &byte| high << 8 | u64::from(byte))
}

fn same_sums(held: u16, sums: u16) -> bool {
    if broken(Fault::FfAsZero) {
        held % 256 % 255 == sums % 256 % 255 && held / 256 % 255 == sums / 256 % 255
    } else {
        held == sums
    }
}

/// The line layer's tests of a frame that is not empty.
pub fn judge(form: &[u8], long: bool) -> Result<Message, Failure> {
    let nameless = |reason| Failure { reason, sequence: None };
    if long {
        return Err(nameless(if broken(Fault::LongFrameReason) { 3 } else { 1 }));
    }
    let bytes = uncobs(form).ok_or(nameless(1))?;
    let shortest = if broken(Fault::ShortMessage) { 18 } else { SHORTEST_MESSAGE };
    if bytes.len() < shortest || bytes.len() > LONGEST_MESSAGE {
        return Err(nameless(3));
    }
    let (ahead, sums) = bytes.split_at(bytes.len() - 2);
    let sequence = number(&bytes[8..16]);
    let named = |reason| Failure { reason, sequence: Some(sequence) };
    let magic_differs = number(&bytes[..4]) != u64::from(MAGIC);
    if broken(Fault::MagicBeforeChecksum) && magic_differs {
        return Err(named(4));
    }
    if !same_sums(number(sums) as u16, checksum(ahead)) {
        return Err(named(2));
    }
    if magic_differs {
        return Err(named(4));
    }
    Ok(Message {
        version: number(&bytes[4..8]) as u32,
        sequence,
        command: ahead.get(16).copied().unwrap_or(0),
        data: ahead.get(17..).unwrap_or(&[]).to_vec(),
    })
}

/// Whether a message that the line layer finds good is a set of this key, whatever else is wrong with it.
pub fn sets(message: &Message, key: u8) -> bool {
    message.command == 0x10 && message.data.first() == Some(&key)
}

/// The bytes since the last 00, or that they are more than 4,140.
#[derive(Clone, Debug, PartialEq, Eq, Default)]
pub struct Reader {
    pub bytes: Vec<u8>,
    pub long: bool,
}

pub enum Ended {
    More,
    Empty,
    Message(Message),
    Failure(Failure),
}

/// How many bytes of frames a read has written at most that began with so many held and has read so many of a piece.
pub fn reach(held: usize, piece: &[u8], used: usize) -> usize {
    let new = piece[..used].iter().filter(|&&byte| byte != 0).count();
    LONGEST_FORM.min(held + new)
}

impl Reader {
    /// How many bytes of the frame are held.
    pub fn reach(&self) -> usize {
        if self.long { LONGEST_FORM } else { LONGEST_FORM.min(self.bytes.len()) }
    }

    /// Takes the bytes ahead of the piece's first 00; gives how many.
    pub fn collect(&mut self, piece: &[u8]) -> usize {
        let mut taken = piece.iter().take_while(|&&byte| byte != 0).count();
        if taken < piece.len() {
            taken += usize::from(broken(Fault::CollectTakes00));
            taken -= usize::from(taken > 0 && broken(Fault::CollectOneShort));
        }
        let room = LONGEST_FORM - self.reach();
        self.read(&piece[..taken]);
        match () {
            () if broken(Fault::CollectSaysPiece) => piece.len(),
            () if broken(Fault::CollectSaysKept) => taken.min(room),
            () => taken,
        }
    }

    /// Reads up to the piece's end or its first 00; gives how many bytes were read.
    pub fn read(&mut self, piece: &[u8]) -> (usize, Ended) {
        let stop = piece.iter().position(|&byte| byte == 0);
        let new = &piece[..stop.unwrap_or(piece.len())];
        let limit = if broken(Fault::LongestForm) { LONGEST_FORM + 1 } else { LONGEST_FORM };
        if self.long || self.bytes.len() + new.len() > limit {
            self.long = true;
            self.bytes.clear();
        } else {
            self.bytes.extend_from_slice(new);
        }
        if stop.is_none() {
            return (piece.len(), Ended::More);
        }
        let done = std::mem::take(self);
        let ended = if done.bytes.is_empty() && !done.long {
            Ended::Empty
        } else {
            match judge(&done.bytes, done.long) {
                Ok(message) => Ended::Message(message),
                Err(failure) => Ended::Failure(failure),
            }
        };
        (new.len() + 1, ended)
    }
}

// The supervisor

#[derive(Clone, Debug, PartialEq, Eq)]
pub struct Item {
    pub result: u8,
    pub name: [u8; 32],
    pub kind: u8,
    pub data: Vec<u8>,
}

#[derive(Clone, Debug, PartialEq, Eq)]
pub struct Factory {
    pub bsu: u8,
    pub model: [u8; 11],
    pub revision: u32,
    pub serial: [u8; 11],
    pub base: [u8; 6],
    pub count: u16,
    pub stride: u8,
    pub hash: [u8; 32],
    pub image_id: Vec<u8>,
    pub items: Vec<Item>,
}

#[derive(Clone, Debug, PartialEq, Eq, Default)]
pub struct Outbox {
    pub pending: Vec<u8>,
    pub last_non_zero: bool,
}

impl Outbox {
    /// The bytes that go out for a room of this length.
    pub fn take(&mut self, room: usize) -> Vec<u8> {
        let less = usize::from(broken(Fault::TakeOneLess) && self.pending.len() > 1);
        let moved = room.min(self.pending.len() - less);
        let out: Vec<u8> = self.pending.drain(..moved).collect();
        if let Some(&last) = out.last() {
            self.last_non_zero = last != 0 || broken(Fault::TakeFlagAny);
        }
        out
    }

    fn replace(&mut self, reply: Option<Vec<u8>>) {
        let mut pending = Vec::new();
        if self.last_non_zero && !broken(Fault::NoSeparator) || broken(Fault::SeparatorAlways) {
            pending.push(0);
        }
        pending.extend(reply.unwrap_or_default());
        self.pending = pending;
    }
}

#[derive(Clone, Debug, PartialEq, Eq)]
pub struct Record {
    pub code: u16,
    pub length: usize,
    pub kept: Vec<u8>,
}

#[derive(Clone, Debug, PartialEq, Eq)]
pub struct Alert {
    pub action: u8,
    pub text: Vec<u8>,
}

/// The reply to the last alert request, as first written.
#[derive(Clone, Debug, PartialEq, Eq)]
pub struct Retained {
    pub version: u32,
    pub sequence: u64,
    pub alert: Alert,
}

#[derive(Clone, Debug, PartialEq, Eq)]
pub struct Registers {
    pub status: u64,
    pub options: u64,
    pub reboot: bool,
    pub power_off: bool,
    pub boot_failure: Option<Record>,
    pub panic: Option<Record>,
    pub alerts: VecDeque<Alert>,
    pub retained: Option<Retained>,
}

impl Registers {
    pub fn fresh() -> Registers {
        Registers {
            status: 1,
            options: 0,
            reboot: false,
            power_off: false,
            boot_failure: None,
            panic: None,
            alerts: VecDeque::new(),
            retained: None,
        }
    }

    pub fn signal(&self) -> bool {
        if broken(Fault::SignalBit0) {
            self.status & 1 != 0
        } else {
            self.status != 0
        }
    }

    pub fn post(&mut self, action: u8, text: &[u8]) -> Result<(), u32> {
        let long = text.len() > 256;
        let most = if broken(Fault::NineAlerts) { 9 } else { 8 };
        let full = self.alerts.len() >= most;
        if broken(Fault::ActionAfterLength) && long {
            return Err(9);
        }
        if action == 0 {
            return Err(13);
        }
        if broken(Fault::FullBeforeLong) && full {
            return Err(10);
        }
        if long {
            return Err(9);
        }
        if full {
            return Err(10);
        }
        self.alerts.push_back(Alert { action, text: text.to_vec() });
        self.status |= 2;
        Ok(())
    }

    pub fn set_options(&mut self, options: u64) -> Result<(), u32> {
        let highest = if broken(Fault::OptionBit9) { 9 } else { 8 };
        if options >> (highest + 1) != 0 {
            return Err(13);
        }
        self.options = options;
        Ok(())
    }

    fn next_alert(&mut self, version: u32, sequence: u64) -> Retained {
        if let Some(held) = &self.retained {
            if held.sequence == sequence && !broken(Fault::ResendTakes) {
                let version = if broken(Fault::ResentInVersion) { version } else { held.version };
                return Retained { version, ..held.clone() };
            }
        }
        let alert = self.alerts.pop_front().unwrap_or(Alert { action: 0, text: Vec::new() });
        let reply = Retained { version, sequence, alert };
        self.retained = Some(reply.clone());
        if self.alerts.is_empty() && !broken(Fault::AlertBitKept) {
            self.status &= !2;
        }
        reply
    }
}

fn record(code: u16, rest: &[u8]) -> Record {
    let most = if broken(Fault::RecordKeeps511) { 511 } else { 512 };
    let kept = rest[..rest.len().min(most)].to_vec();
    Record { code, length: if broken(Fault::RecordLengthKept) { kept.len() } else { rest.len() }, kept }
}

/// The edition counts the successful sets since start, or from the restored edition on.
#[derive(Clone, Debug, PartialEq, Eq, Default)]
pub struct Setting {
    pub edition: u32,
    pub value: Option<Vec<u8>>,
}

pub type Settings = [Setting; 4];

/// The result of a lookup of key 6, whatever it holds.
fn set_only(held: &Setting, most: u16) -> u8 {
    match &held.value {
        None if broken(Fault::PassphraseNoValue) => 2,
        Some(value) if value.len() > usize::from(most) && broken(Fault::PassphraseTooLong) => 3,
        _ => 4,
    }
}

/// Key lookup: the result, and the value where it is 0.
pub fn lookup(factory: &Factory, settings: &Settings, key: u8, most: u16) -> (u8, Vec<u8>) {
    let value = match key {
        0 => Some(b"pong".to_vec()),
        1 => Some(factory.image_id.clone()),
        2 => {
            let mut both = (factory.items.len() as u32).to_le_bytes().to_vec();
            both.extend_from_slice(&0u32.to_le_bytes());
            Some(both)
        }
        3..=5 => settings[usize::from(key) - 3].value.clone(),
        PASSPHRASE if broken(Fault::PassphraseHandedOut) => settings[3].value.clone(),
        PASSPHRASE => return (set_only(&settings[3], most), Vec::new()),
        7 if broken(Fault::Key7Found) => return (4, Vec::new()),
        _ => return (1, Vec::new()),
    };
    let limit = usize::from(most);
    match value {
        None => (2, Vec::new()),
        Some(value) if value.is_empty() && key >= 3 && broken(Fault::EmptyIsNone) => (2, value),
        Some(value) if value.len() > limit || broken(Fault::MostIsBelow) && value.len() == limit => (3, Vec::new()),
        Some(value) => (0, value),
    }
}

/// The edition of a key: a lookup's result whatever maxresponse is, and the edition where it is 0.
pub fn edition(settings: &Settings, key: u8) -> (u8, u32) {
    match key {
        0..=2 => (0, 0),
        3..=5 => {
            let setting = &settings[usize::from(key) - 3];
            let other = &settings[(usize::from(key) - 2) % 3];
            match setting.value {
                None => (2, 0),
                Some(_) if broken(Fault::OtherEdition) => (0, other.edition),
                Some(_) => (0, setting.edition),
            }
        }
        PASSPHRASE if broken(Fault::PassphraseEdition) && settings[3].value.is_some() => (0, settings[3].edition),
        PASSPHRASE => (4, 0),
        _ => (1, 0),
    }
}

fn set_key(settings: &mut Settings, key: u8, value: &[u8]) -> u8 {
    let most = match key {
        0..=2 if broken(Fault::ReadOnlyAfterLength) && value.len() > LONGEST[0] => return 3,
        0..=2 => return 2,
        3 => LONGEST[0] + usize::from(broken(Fault::Key3At257)),
        5 if broken(Fault::Key5At1024) => 1024,
        PASSPHRASE => LONGEST[3] + usize::from(broken(Fault::PassphraseOf64)),
        4..=5 => LONGEST[usize::from(key) - 3],
        _ => return 1,
    };
    let shortest = if key == PASSPHRASE { SHORTEST_PASSPHRASE - usize::from(broken(Fault::PassphraseOf7)) } else { 0 };
    let setting = &mut settings[usize::from(key) - 3];
    let ended = setting.edition == LAST_EDITION;
    if ended && broken(Fault::EndBeforeLength) {
        return 4;
    }
    if value.len() < shortest || value.len() > most {
        setting.edition += u32::from(!ended && broken(Fault::RefusedCounts));
        return 3;
    }
    if ended {
        return 4;
    }
    *setting = Setting { edition: setting.edition + 1, value: Some(value.to_vec()) };
    0
}

#[derive(Clone, Debug)]
pub struct Supervisor {
    pub reader: Reader,
    pub outbox: Outbox,
    pub factory: Factory,
    pub settings: Settings,
    pub registers: Registers,
}

/// A reply to a valid request.
struct Reply {
    version: u32,
    command: u8,
    data: Vec<u8>,
}

/// A key, and the edition and the value that a set has stored.
pub struct Stored {
    pub key: u8,
    pub edition: u32,
    pub value: Vec<u8>,
}

/// What the frames of a call may have changed, how often each reason, each command in each version and each result of a set came, and kind and reason
/// of each step.
pub struct Touched {
    pub outbox: bool,
    pub settings: bool,
    pub registers: bool,
    /// How many frame bytes of the reader's part the frames may have written: up to the last wipe, if there was one, and since then.
    pub wiped: Option<usize>,
    pub reach: usize,
    /// The sets with result 0.
    pub stored: Vec<Stored>,
    pub reasons: [u64; 8],
    pub commands: [[u64; 17]; 2],
    pub sets: [u64; 5],
    pub ends: Vec<(u8, u8)>,
}

impl Touched {
    pub fn none() -> Touched {
        Touched {
            outbox: false,
            settings: false,
            registers: false,
            wiped: None,
            reach: 0,
            stored: Vec::new(),
            reasons: [0; 8],
            commands: [[0; 17]; 2],
            sets: [0; 5],
            ends: Vec::new(),
        }
    }
}

/// What a step tells: bytes read, kind (0 more, 1 empty, 2 request, 3 failure), a failure's reason, a request's command, and key and result of a key set.
#[derive(Clone, Copy, Debug, Default, PartialEq, Eq)]
pub struct Told {
    pub used: usize,
    pub kind: u8,
    pub reason: u8,
    pub command: u8,
    pub key: u8,
    pub result: u8,
}

fn reply_frame(version: u32, sequence: u64, command: u8, data: &[u8]) -> Vec<u8> {
    frame(if broken(Fault::FirstVersionOnly) { 1 } else { version }, sequence, command, data)
}

/// What is told of a request that was carried out; whether key 6 held a value before is nobody's to know.
fn told_of(request: &Message, reply: Option<&Reply>, held: bool) -> Told {
    let told = Told { kind: 2, command: request.command, ..Told::default() };
    match (request.command, reply) {
        (0x10, Some(reply)) => {
            let (key, result) = (request.data[0], reply.data[0]);
            let leak = broken(Fault::StepPassphraseHeld) && key == PASSPHRASE && held;
            let result = if broken(Fault::StepKeyAsResult) { key } else { result + u8::from(leak) };
            Told { key, result, ..told }
        }
        (0x0e, Some(reply)) if broken(Fault::StepLookupResult) => Told { result: reply.data[0], ..told },
        _ => told,
    }
}

/// Whether the reader's part is wiped behind a good message.
fn wipes(message: &Message, told: &Told) -> bool {
    if sets(message, 5) && broken(Fault::WipeKey5) || message.command == 0x0e && message.data.first() == Some(&PASSPHRASE) && broken(Fault::WipeLookup) {
        return true;
    }
    let kept = broken(Fault::WipeForgotten)
        || broken(Fault::WipeOnResult0) && (told.kind != 2 || told.result != 0)
        || broken(Fault::WipeOnRequest) && told.kind != 2;
    sets(message, PASSPHRASE) && !kept
}

impl Supervisor {
    pub fn start(factory: Factory, before: &Outbox) -> Supervisor {
        Supervisor {
            reader: Reader::default(),
            outbox: Outbox { pending: Vec::new(), last_non_zero: before.last_non_zero && broken(Fault::StartKeepsFlag) },
            factory,
            settings: Settings::default(),
            registers: Registers::fresh(),
        }
    }

    /// Reads up to the piece's end or its first 00.
    pub fn step(&mut self, image: &[u8], piece: &[u8], touched: &mut Touched) -> Told {
        let held = self.reader.reach();
        let (used, ended) = self.reader.read(piece);
        touched.reach = touched.reach.max(reach(held, piece, used));
        let told = Told { used, ..Told::default() };
        match ended {
            Ended::More => told,
            Ended::Empty => {
                if broken(Fault::EmptyDiscards) {
                    self.outbox.replace(None);
                    touched.outbox = true;
                }
                Told { kind: 1, ..told }
            }
            Ended::Message(message) => {
                let told = Told { used, ..self.message(&message, image, touched) };
                if wipes(&message, &told) {
                    touched.wiped = Some(std::mem::take(&mut touched.reach));
                }
                told
            }
            Ended::Failure(failure) => Told { used, ..self.fail(1, failure, touched) },
        }
    }

    /// A message that the line layer finds good: carried out, or answered as a failure.
    fn message(&mut self, message: &Message, image: &[u8], touched: &mut Touched) -> Told {
        let held = self.settings[3].value.is_some();
        let reply = match self.request(message, image, touched) {
            Ok(reply) => reply,
            Err((version, failure)) => {
                let told = self.fail(version, failure, touched);
                return if broken(Fault::StepFailureTold) { Told { command: message.command, ..told } } else { told };
            }
        };
        let told = told_of(message, reply.as_ref(), held);
        touched.outbox = true;
        if reply.is_some() || !broken(Fault::SilentKeeps) {
            self.outbox.replace(reply.map(|reply| reply_frame(reply.version, message.sequence | TOP_BIT, reply.command, &reply.data)));
        }
        told
    }

    fn fail(&mut self, version: u32, failure: Failure, touched: &mut Touched) -> Told {
        touched.outbox = true;
        touched.reasons[usize::from(failure.reason)] += 1;
        let sequence = failure.sequence.map_or(u64::MAX, |sequence| sequence | TOP_BIT);
        self.outbox.replace(Some(reply_frame(version, sequence, 2, &[failure.reason])));
        Told { kind: 3, reason: failure.reason, ..Told::default() }
    }

    pub fn receive(&mut self, image: &[u8], piece: &[u8], touched: &mut Touched) {
        let mut rest = piece;
        while !rest.is_empty() {
            let told = self.step(image, rest, touched);
            touched.ends.push((told.kind, told.reason));
            rest = &rest[told.used..];
        }
    }

    /// The supervisor's tests, each with the version of its reply, then what the request does.
    fn request(&mut self, message: &Message, image: &[u8], touched: &mut Touched) -> Result<Option<Reply>, (u32, Failure)> {
        let named = |reason| (if reason < 6 { 1 } else { message.version }, Failure { reason, sequence: Some(message.sequence) });
        let top = message.sequence & TOP_BIT != 0;
        if broken(Fault::TopBitBeforeVersion) && top {
            return Err(named(6));
        }
        if !matches!(message.version, 1 | 2) {
            return Err(named(5));
        }
        if top {
            return Err(named(6));
        }
        let data = &message.data[..];
        let length_right = match message.command {
            0x01..=0x05 | 0x08..=0x0a => data.is_empty(),
            0x06 | 0x10 => !data.is_empty(),
            0x07 => data.len() >= 2,
            0x0d => data.len() == 40,
            0x0e => data.len() == 3,
            0x0f => data.len() == 4,
            _ if broken(Fault::UnknownNamed) => return Err(named(3)),
            _ if broken(Fault::UnknownInVersion) => return Err((message.version, Failure { reason: 3, sequence: None })),
            _ => return Err((1, Failure { reason: 3, sequence: None })),
        };
        if !length_right {
            return Err(named(7));
        }
        touched.commands[message.version as usize - 1][usize::from(message.command)] += 1;
        if matches!(message.command, 0x01 | 0x02) {
            if !broken(Fault::RebootKeepsCopy) {
                self.registers.retained = None;
            }
            if broken(Fault::RebootDropsAlerts) {
                self.registers.alerts.clear();
            }
        }
        if broken(Fault::AlertCopyDropped) && message.command != 0x0a {
            self.registers.retained = None;
            touched.registers = true;
        }
        let registers = &mut self.registers;
        let factory = &self.factory;
        let mut version = message.version;
        let answer = match message.command {
            0x01 => {
                touched.registers = true;
                registers.reboot = true;
                None
            }
            0x02 => {
                touched.registers = true;
                registers.power_off = true;
                None
            }
            0x03 => Some((0x03, vec![factory.bsu])),
            0x04 => {
                let mut reply = factory.model.to_vec();
                reply.extend_from_slice(&factory.revision.to_le_bytes());
                reply.extend_from_slice(&factory.serial);
                Some((0x04, reply))
            }
            0x05 => {
                let mut reply = factory.base.to_vec();
                reply.extend_from_slice(&factory.count.to_le_bytes());
                reply.push(factory.stride);
                Some((0x05, reply))
            }
            0x06 => {
                touched.registers = true;
                if !(broken(Fault::BootFailuresKept) && registers.boot_failure.is_some()) {
                    registers.boot_failure = Some(record(u16::from(data[0]), &data[1..]));
                }
                None
            }
            0x07 => {
                touched.registers = true;
                registers.panic = Some(record(number(&data[..2]) as u16, &data[2..]));
                if broken(Fault::PanicSilent) { None } else { Some((0x01, Vec::new())) }
            }
            0x08 => {
                let mut reply = registers.status.to_le_bytes().to_vec();
                reply.extend_from_slice(&registers.options.to_le_bytes());
                Some((0x06, reply))
            }
            0x09 => {
                touched.registers = true;
                registers.status &= if broken(Fault::AckClearsBoth) { 0 } else { !1 };
                Some((0x01, Vec::new()))
            }
            0x0a => {
                touched.registers = true;
                let retained = registers.next_alert(version, message.sequence);
                version = retained.version;
                let mut reply = vec![retained.alert.action];
                reply.extend_from_slice(&retained.alert.text);
                Some((0x07, reply))
            }
            0x0d => {
                let mut offset = number(&data[32..]);
                if broken(Fault::OffsetTruncated) {
                    offset &= 0xffff_ffff;
                }
                let ours = data[..32] == factory.hash || broken(Fault::HashIgnored);
                let most = if broken(Fault::Block4095) { 4095 } else { 4096 };
                let block = if ours && offset < image.len() as u64 {
                    let tail = &image[offset as usize..];
                    tail[..tail.len().min(most)].to_vec()
                } else {
                    Vec::new()
                };
                Some((0x09, block))
            }
            0x0e => {
                let less = if version == 2 && broken(Fault::MostCountsEdition) { 4 } else { 0 };
                let most = (number(&data[1..]) as u16).saturating_sub(less);
                let (result, value) = lookup(factory, &self.settings, data[0], most);
                let mut reply = vec![result];
                if version == 2 && result == 0 {
                    reply.extend_from_slice(&edition(&self.settings, data[0]).1.to_le_bytes());
                }
                reply.extend_from_slice(&value);
                Some((0x0a, reply))
            }
            0x0f => {
                let mut index = number(data) as usize;
                if broken(Fault::ItemIndexLast) && index == factory.items.len() && index > 0 {
                    index -= 1;
                }
                let mut reply = Vec::new();
                match factory.items.get(index) {
                    None => {
                        reply.push(1);
                        reply.extend_from_slice(&[0; 33]);
                    }
                    Some(item) => {
                        reply.push(item.result);
                        reply.extend_from_slice(&item.name);
                        reply.push(item.kind);
                        if item.result == 0 || broken(Fault::ItemDataKept) {
                            reply.extend_from_slice(&item.data);
                        }
                    }
                }
                Some((0x0b, reply))
            }
            _ => {
                let before = self.settings.clone();
                let result = set_key(&mut self.settings, data[0], &data[1..]);
                touched.settings |= self.settings != before;
                if result == 0 {
                    let edition = self.settings[usize::from(data[0]) - 3].edition;
                    touched.stored.push(Stored { key: data[0], edition, value: data[1..].to_vec() });
                }
                touched.sets[usize::from(result)] += 1;
                Some((0x0c, vec![result]))
            }
        };
        Ok(answer.map(|(command, data)| Reply { version, command, data }))
    }
}
