// Defines an example: both ends in one program over a wire that drops, damages and delays bytes, and what went over it, printed.
// Assumes the static library. Ends with 1 if an answer handed out is not one that the supervisor gave to that request.
// usage: bad_wire [SEED [REQUESTS]]

use oatcastle::requester::{Handed, Requester, RequesterStorage, State};
use oatcastle::{
    Bsu, Command, Key, LineReader, Message, ReadEnd, ReaderStorage, Refusal, Request, StartData, Supervisor, SupervisorStorage,
    LONGEST_FRAME,
};
use std::collections::{HashMap, VecDeque};
use std::num::NonZeroU8;

const TOP_BIT: u64 = 1 << 63;
/// Ticks without an answer until the main processor does something about it; one byte goes each way in a tick.
const PATIENCE: u64 = 600;

/// A seeded generator (splitmix64).
struct Random(u64);

impl Random {
    fn next(&mut self) -> u64 {
        self.0 = self.0.wrapping_add(0x9e37_79b9_7f4a_7c15);
        let mixed = (self.0 ^ self.0 >> 30).wrapping_mul(0xbf58_476d_1ce4_e5b9);
        let mixed = (mixed ^ mixed >> 27).wrapping_mul(0x94d0_49bb_1331_11eb);
        mixed ^ mixed >> 31
    }

    fn below(&mut self, limit: u64) -> u64 {
        self.next() % limit
    }
}

/// A message as it was put on the wire.
#[derive(Clone, PartialEq, Eq)]
struct Sent {
    sequence: u64,
    command: u8,
    data: Vec<u8>,
}

impl Sent {
    fn of(message: &Message) -> Sent {
        Sent { sequence: message.sequence, command: message.command, data: message.data.to_vec() }
    }
}

/// One direction of the wire, and a reader of what is put on it before anything happens to it.
struct Line<'s> {
    name: &'static str,
    bytes: VecDeque<(u64, u8)>,
    last: u64,
    clean: LineReader<'s>,
}

impl<'s> Line<'s> {
    fn new(name: &'static str, storage: &'s mut ReaderStorage) -> Line<'s> {
        Line { name, bytes: VecDeque::new(), last: 0, clean: LineReader::start_in(storage) }
    }

    /// Puts a byte on the wire; gives the message whose frame it ends.
    fn put(&mut self, tick: u64, byte: u8, random: &mut Random) -> Option<Sent> {
        let (mut sent, mut due) = (byte, tick + 3);
        match random.below(900) {
            0 => {
                println!("{tick:7} {}: {byte:02x} dropped", self.name);
                return self.heard(tick, byte);
            }
            1 | 2 => {
                sent ^= 1 << random.below(8);
                println!("{tick:7} {}: {byte:02x} became {sent:02x}", self.name);
            }
            3 => {
                due += random.below(60);
                println!("{tick:7} {}: {byte:02x} delayed to {due}", self.name);
            }
            _ => (),
        }
        self.last = self.last.max(due);
        self.bytes.push_back((self.last, sent));
        self.heard(tick, byte)
    }

    fn heard(&mut self, tick: u64, byte: u8) -> Option<Sent> {
        let ReadEnd::Message(message) = self.clean.read(&[byte]).end else { return None };
        let sent = Sent::of(&message);
        println!("{tick:7} {}: {:016x} command {:02x}, {} bytes of data", self.name, sent.sequence, sent.command, sent.data.len());
        Some(sent)
    }

    fn get(&mut self, tick: u64) -> Option<u8> {
        let &(due, byte) = self.bytes.front()?;
        (due <= tick).then(|| {
            self.bytes.pop_front();
            byte
        })
    }
}

/// The main processor: what it asks for, and what it has heard.
struct Main<'s> {
    requester: Requester<'s>,
    out: VecDeque<u8>,
    /// Command and data of the request that was made last.
    made: (u8, Vec<u8>),
    quiet: u64,
    answers: u64,
    alerts: u64,
    statuses: u64,
    starts: u64,
}

/// Storage for both ends, and for a reader of each direction.
struct Storage {
    main: RequesterStorage,
    supervisor: SupervisorStorage,
    there: ReaderStorage,
    back: ReaderStorage,
}

static DATA: StartData = StartData::new(Bsu::A);

/// Both ends, the wire between them, and what went over it since the last start.
struct World<'s> {
    random: Random,
    main: Main<'s>,
    supervisor: Supervisor<'s>,
    there: Line<'s>,
    back: Line<'s>,
    asked: HashMap<u64, Sent>,
    given: HashMap<u64, Vec<Sent>>,
}

impl<'s> World<'s> {
    fn new(storage: &'s mut Storage, seed: u64) -> World<'s> {
        let main = Main {
            requester: Requester::start_in(&mut storage.main),
            out: VecDeque::new(),
            made: (0, Vec::new()),
            quiet: 0,
            answers: 0,
            alerts: 0,
            statuses: 0,
            starts: 1,
        };
        World {
            random: Random(seed),
            main,
            supervisor: Supervisor::start_in(&mut storage.supervisor, &DATA),
            there: Line::new("main to supervisor", &mut storage.there),
            back: Line::new("supervisor to main", &mut storage.back),
            asked: HashMap::new(),
            given: HashMap::new(),
        }
    }

    /// The supervisor's turn: a byte in, a byte out, and now and then an alert.
    fn supervise(&mut self, tick: u64) {
        if self.random.below(1500) == 0 {
            let text = format!("alert at {tick}");
            match self.supervisor.post(NonZeroU8::MIN, text.as_bytes()) {
                Ok(()) => println!("{tick:7} supervisor: posts \"{text}\""),
                Err(refusal) => println!("{tick:7} supervisor: an alert is {refusal}"),
            }
        }
        if let Some(byte) = self.there.get(tick) {
            self.supervisor.receive(&[], &[byte]);
        }
        if let &[byte] = self.supervisor.take(&mut [0]) {
            if let Some(sent) = self.back.put(tick, byte, &mut self.random) {
                self.given.entry(sent.sequence).or_default().push(sent);
            }
        }
    }

    /// The main processor's turn: a byte in, a byte out.
    fn listen(&mut self, tick: u64) -> Result<bool, Refusal> {
        self.main.quiet += 1;
        let mut right = true;
        if let Some(byte) = self.back.get(tick) {
            right = self.hear(tick, byte)?;
        }
        if let Some(byte) = self.main.out.pop_front() {
            self.main.quiet = 0;
            if let Some(sent) = self.there.put(tick, byte, &mut self.random) {
                self.asked.insert(sent.sequence, sent);
            }
        }
        Ok(right)
    }

    /// One received byte; whether what it hands out is right.
    fn hear(&mut self, tick: u64, byte: u8) -> Result<bool, Refusal> {
        let received = self.main.requester.receive(&[byte]);
        let (unsent, handed) = (received.unsent, received.handed);
        let right = match handed {
            Handed::Status(status) => {
                println!("{tick:7} main: status {:x}, options {:x}, {} bits set", status.status, status.options, status.set_bits);
                self.main.statuses += 1;
                true
            }
            Handed::Answer(message) => {
                let (sent, made) = (Sent::of(&message), self.main.made.clone());
                self.main.answers += 1;
                self.settle(tick, &sent, |asked| (asked.command, &asked.data) == (made.0, &made.1))
            }
            Handed::Alert(message) => {
                let sent = Sent::of(&message);
                self.main.alerts += 1;
                self.settle(tick, &sent, |asked| asked.command == Command::Alert.number())
            }
            _ => true,
        };
        if unsent {
            self.send()?;
        }
        Ok(right)
    }

    /// An answer handed out: the supervisor gave it under this number, and what was asked under this number is what is wanted.
    fn settle(&self, tick: u64, sent: &Sent, wanted: impl Fn(&Sent) -> bool) -> bool {
        let text = String::from_utf8_lossy(&sent.data);
        println!("{tick:7} main: answer {:016x} command {:02x} \"{}\"", sent.sequence, sent.command, text.escape_debug());
        let given = self.given.get(&sent.sequence).is_some_and(|all| all.contains(sent));
        given && self.asked.get(&(sent.sequence & !TOP_BIT)).is_some_and(wanted)
    }

    /// The frame that is to go out, behind those that are on their way.
    fn send(&mut self) -> Result<(), Refusal> {
        let mut room = [0; LONGEST_FRAME];
        let frame = self.main.requester.send(&mut room)?;
        self.main.out.extend(frame);
        Ok(())
    }

    fn interrupt(&mut self) -> Result<(), Refusal> {
        self.main.requester.interrupt()?;
        self.send()
    }

    fn ask(&mut self) -> Result<(), Refusal> {
        let value = self.random.next().to_le_bytes();
        let request = match self.random.below(5) {
            0 => Request::bsu(),
            1 => Request::lookup(Key::Ping, u16::MAX),
            2 => Request::lookup(Key::EtcSystem, u16::MAX),
            3 => Request::status(),
            _ => Request::key_set(Key::EtcSystem, &value).expect("8 bytes are allowed"),
        };
        let mut room = [0; LONGEST_FRAME];
        let frame = self.main.requester.request(&request, &mut room)?;
        self.main.out.extend(frame);
        self.main.made = (request.command(), [request.head(), request.rest()].concat());
        Ok(())
    }

    /// Gives up: bytes on their way are thrown away, a frame that has begun is ended by a 00 and its reply thrown away too, and the numbers begin again.
    fn start(&mut self, tick: u64) {
        println!("{tick:7} main: nothing comes in a recovery; starts again");
        self.supervisor.receive(&[], &[0]);
        while !self.supervisor.take(&mut [0; 64]).is_empty() {}
        self.there.bytes.clear();
        self.back.bytes.clear();
        self.back.clean.restart();
        self.given.clear();
        self.asked.clear();
        self.main.out.clear();
        self.main.requester.restart();
        self.main.starts += 1;
    }

    /// What the main processor does of its own: an interrupt at the line signal or for want of an answer, a start, the next request.
    fn decide(&mut self, tick: u64) -> Result<(), Refusal> {
        if !self.main.out.is_empty() {
            return Ok(());
        }
        let late = self.main.quiet > PATIENCE;
        match self.main.requester.state() {
            State::Idle if self.supervisor.signal() => {
                println!("{tick:7} main: the line signal; interrupts");
                self.interrupt()
            }
            State::Idle => self.ask(),
            State::Waiting(_) if late => {
                println!("{tick:7} main: no answer; interrupts");
                self.interrupt()
            }
            state if late && state.recovering() => {
                self.start(tick);
                Ok(())
            }
            _ => Ok(()),
        }
    }
}

fn run(seed: u64, requests: u64) -> Result<bool, Refusal> {
    let mut storage = Storage {
        main: RequesterStorage::new(),
        supervisor: SupervisorStorage::new(),
        there: ReaderStorage::new(),
        back: ReaderStorage::new(),
    };
    let mut world = World::new(&mut storage, seed);
    let mut tick = 0;
    while world.main.answers < requests {
        world.decide(tick)?;
        world.supervise(tick);
        if !world.listen(tick)? {
            println!("{tick:7} main: that answer was not given to this request");
            return Ok(false);
        }
        tick += 1;
    }
    let Main { answers, alerts, statuses, starts, .. } = world.main;
    println!("seed {seed}: {tick} ticks, {starts} starts, {statuses} statuses, {alerts} alerts, {answers} answers; each alert and answer is the one that the supervisor gave to its request");
    Ok(true)
}

fn main() {
    let mut words = std::env::args().skip(1).map(|word| word.parse::<u64>().expect("a number"));
    let (seed, requests) = (words.next().unwrap_or(1), words.next().unwrap_or(40));
    match run(seed, requests) {
        Ok(true) => (),
        Ok(false) => std::process::exit(1),
        Err(refusal) => {
            println!("{refusal}");
            std::process::exit(1);
        }
    }
}
