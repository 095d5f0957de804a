// Defines the main processor's end on a serial port or pty. It sets and looks keys up as lines of standard input ask, and prints a line for
// each and for each alert. Assumes device.rs.
// usage: main_end WIRE LINE      input: `set KEY HEX` or `get KEY`
// output: `stored KEY`, `value KEY HEX`, `refused KEY RESULT`, `alert ACTION TEXT`

#[path = "../device.rs"]
mod device;

use oatcastle::requester::{Handed, Requester, RequesterStorage, State};
use oatcastle::{write_frame, Command, Key, LineReader, ReadEnd, ReaderStorage, Request, LONGEST_FRAME};
use std::collections::hash_map::RandomState;
use std::collections::VecDeque;
use std::fs::File;
use std::hash::{BuildHasher, Hasher};
use std::io::{self, BufRead, Write};
use std::sync::mpsc::{self, Receiver, RecvTimeoutError};
use std::thread;
use std::time::Duration;

/// How long an answer may take after the last byte that came.
const ANSWER: Duration = Duration::from_millis(100);
const TOP_BIT: u64 = 1 << 63;

enum Event {
    Wire(Vec<u8>),
    Line,
    Input(String),
    /// The input has ended.
    End,
}

struct Program<'s> {
    requester: Requester<'s>,
    wire: File,
    events: Receiver<Event>,
    lines: VecDeque<String>,
    ended: bool,
    /// The data of the last answer.
    answer: Vec<u8>,
}

impl Program<'_> {
    fn send_unsent(&mut self) -> io::Result<()> {
        let mut room = [0; LONGEST_FRAME];
        self.wire.write_all(self.requester.send(&mut room).map_err(io::Error::other)?)
    }

    /// Begins a recovery; adds nothing where one is under way.
    fn interrupt(&mut self) -> io::Result<()> {
        self.requester.interrupt().map_err(io::Error::other)?;
        self.send_unsent()
    }

    fn receive(&mut self, mut piece: &[u8]) -> io::Result<()> {
        while !piece.is_empty() {
            let received = self.requester.receive(piece);
            piece = &piece[received.used..];
            match received.handed {
                Handed::Answer(message) => self.answer = message.data.to_vec(),
                Handed::Alert(message) => print_alert(message.data),
                _ => (),
            }
            if received.ended {
                return Err(io::Error::other("no request number is left"));
            }
            self.send_unsent()?;
        }
        Ok(())
    }

    /// Waits for an event, at most so long; lines of input are kept. None where nothing came.
    fn next(&mut self, most: Duration) -> io::Result<Option<Event>> {
        let event = match self.events.recv_timeout(most) {
            Ok(event) => event,
            Err(RecvTimeoutError::Timeout) => return Ok(None),
            Err(RecvTimeoutError::Disconnected) => return Err(io::Error::other("the devices cannot be read")),
        };
        match &event {
            Event::Wire(piece) if piece.is_empty() => return Err(io::Error::other("the wire cannot be read")),
            Event::Input(line) => self.lines.push_back(line.clone()),
            Event::End => self.ended = true,
            _ => (),
        }
        Ok(Some(event))
    }

    /// Waits for an event, at most so long, and serves it. Whether one came.
    fn serve(&mut self, most: Duration) -> io::Result<bool> {
        let event = self.next(most)?;
        match &event {
            Some(Event::Wire(piece)) => self.receive(piece)?,
            Some(Event::Line) => self.interrupt()?,
            _ => (),
        }
        Ok(event.is_some())
    }

    /// Starts: numbers begin at 1 again, so that a reply from before must not be taken for an answer. A lookup goes out under a number that
    /// nobody had. The wire keeps the order: once its reply is there, nothing older comes.
    fn start(&mut self) -> io::Result<()> {
        let mut storage = ReaderStorage::new();
        let mut reader = LineReader::start_in(&mut storage);
        let number = (RandomState::new().build_hasher().finish() | 1 << 62) & !TOP_BIT;
        loop {
            self.send_marker(number)?;
            if self.marker_came(&mut reader, number)? {
                self.requester.restart();
                return Ok(());
            }
        }
    }

    /// The 00 ends a frame of which a part went out.
    fn send_marker(&mut self, number: u64) -> io::Result<()> {
        let mut room = [0; 64];
        let ping = [Key::Ping.number(), 4, 0];
        let frame = write_frame(1, number, Command::KeyLookup.number(), &ping, &[], &mut room).map_err(io::Error::other)?;
        self.wire.write_all(&[0])?;
        self.wire.write_all(frame)
    }

    /// Reads until the marker's reply, or until nothing comes for a while; whether it came. What else came is thrown away.
    fn marker_came(&mut self, reader: &mut LineReader, number: u64) -> io::Result<bool> {
        while let Some(event) = self.next(ANSWER)? {
            let Event::Wire(piece) = event else { continue };
            let mut rest = &piece[..];
            while !rest.is_empty() {
                let read = reader.read(rest);
                rest = &rest[read.used..];
                if matches!(read.end, ReadEnd::Message(message) if message.sequence == number | TOP_BIT) {
                    return Ok(true);
                }
            }
        }
        Ok(false)
    }

    /// Waits until nothing is outstanding. An answer that does not come is asked for by a recovery; one in a recovery is given up. Whether
    /// it came.
    fn settled(&mut self) -> io::Result<bool> {
        loop {
            let state = self.requester.state();
            if state == State::Idle {
                return Ok(true);
            }
            if self.serve(ANSWER)? {
                continue;
            }
            if state.recovering() {
                return Ok(false);
            }
            self.interrupt()?;
        }
    }

    fn asked(&mut self, request: &Request) -> io::Result<bool> {
        let mut room = [0; LONGEST_FRAME];
        self.wire.write_all(self.requester.request(request, &mut room).map_err(io::Error::other)?)?;
        self.settled()
    }

    /// Asks until the answer is there: its first byte, and the others. What was given up may have been carried out: setting a value once
    /// more leaves it as it is.
    fn ask(&mut self, request: &Request) -> io::Result<(u8, &[u8])> {
        self.answer.clear();
        while !self.asked(request)? {
            self.start()?;
        }
        match &self.answer[..] {
            [result, rest @ ..] => Ok((*result, rest)),
            [] => Err(io::Error::other("an answer without data")),
        }
    }

    /// Does what a line of input asks, and gives the line to print.
    fn obey(&mut self, line: &str) -> io::Result<String> {
        let words: Vec<&str> = line.split_whitespace().collect();
        let key = words.get(1).and_then(|word| word.parse::<u8>().ok());
        let (result, done) = match (&words[..], key) {
            (["set", _, rest @ ..], Some(key)) if rest.len() < 2 => {
                let value = bytes_of(rest.first().unwrap_or(&""));
                let (result, _) = self.ask(&Request::raw(Command::KeySet.number(), &[&[key][..], &value].concat()))?;
                (result, format!("stored {key}"))
            }
            (["get", _], Some(key)) => {
                let (result, value) = self.ask(&Request::raw(Command::KeyLookup.number(), &[key, 0xff, 0xff]))?;
                (result, format!("value {key} {}", hex_of(value)))
            }
            _ => return Ok("set KEY HEX, or get KEY".to_string()),
        };
        Ok(if result == 0 { done } else { format!("refused {} {result}", words[1]) })
    }
}

fn print_alert(data: &[u8]) {
    if let [action, text @ ..] = data {
        println!("alert {action} {}", String::from_utf8_lossy(text));
    }
}

fn hex_of(bytes: &[u8]) -> String {
    bytes.iter().map(|byte| format!("{byte:02x}")).collect()
}

/// The bytes of a row of hex digits, as many as there are.
fn bytes_of(hex: &str) -> Vec<u8> {
    hex.as_bytes().chunks_exact(2).map_while(|pair| u8::from_str_radix(std::str::from_utf8(pair).ok()?, 16).ok()).collect()
}

/// The wire, the line and the input, each read by a thread of its own.
fn events(wire: &File, line: File) -> io::Result<Receiver<Event>> {
    let (sender, events) = mpsc::channel();
    device::read_in_thread(wire.try_clone()?, sender.clone(), Event::Wire);
    device::read_in_thread(line, sender.clone(), |_| Event::Line);
    thread::spawn(move || {
        for line in io::stdin().lock().lines().map_while(Result::ok) {
            let _ = sender.send(Event::Input(line));
        }
        let _ = sender.send(Event::End);
    });
    Ok(events)
}

fn main() -> io::Result<()> {
    let words: Vec<String> = std::env::args().skip(1).collect();
    let [wire, line] = &words[..] else { return Err(io::Error::other("usage: main_end WIRE LINE")) };
    let (wire, line) = (device::open(wire, 0)?, device::open(line, 0)?);
    let events = events(&wire, line)?;
    let mut storage = RequesterStorage::new();
    let requester = Requester::start_in(&mut storage);
    let mut program = Program { requester, wire, events, lines: VecDeque::new(), ended: false, answer: Vec::new() };
    loop {
        program.start()?;
        program.interrupt()?;
        if program.settled()? {
            break;
        }
    }
    while !program.ended || !program.lines.is_empty() {
        if let Some(line) = program.lines.pop_front() {
            println!("{}", program.obey(&line)?);
            continue;
        }
        program.serve(Duration::MAX)?;
        while !program.settled()? {
            program.start()?;
        }
    }
    Ok(())
}
