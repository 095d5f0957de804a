// Defines tests of both ends over a wire: any bytes in any pieces are served as byte by byte, failures of the wire, and asking through time-outs and recoveries.
// Assumes the static library is linked.

use oatcastle::requester::{Handed, Requester, RequesterStorage, State};
use oatcastle::{
    AskError, Bsu, Counters, Key, LineReader, Message, ReadEnd, ReaderStorage, Refusal, Reply, Request, StartData, StatusBit, StepEnd,
    Supervisor, SupervisorStorage, Uart, Waited, LONGEST_FRAME, MOST_PENDING,
};
use std::collections::VecDeque;
use std::num::NonZeroU8;

static DATA: StartData = StartData::new(Bsu::A);

/// A seeded generator (splitmix64).
struct Random(u64);

impl Random {
    fn next(&mut self) -> u64 {
        self.0 = self.0.wrapping_add(0x9e37_79b9_7f4a_7c15);
        let mixed = (self.0 ^ self.0 >> 30).wrapping_mul(0xbf58_476d_1ce4_e5b9);
        let mixed = (mixed ^ mixed >> 27).wrapping_mul(0x94d0_49bb_1331_11eb);
        mixed ^ mixed >> 31
    }

    fn below(&mut self, limit: usize) -> usize {
        (self.next() % limit as u64) as usize
    }
}

fn frame(sequence: u64, request: &Request) -> Vec<u8> {
    request.write_frame(1, sequence, &mut [0; LONGEST_FRAME]).unwrap().to_vec()
}

/// A stream of requests, some damaged, with spare 00s between them.
fn stream(random: &mut Random) -> Vec<u8> {
    let mut bytes = Vec::new();
    for sequence in 1..20 {
        let value = vec![sequence as u8; random.below(300)];
        let mut frame = match random.below(5) {
            0 => frame(sequence, &Request::status()),
            1 => frame(sequence, &Request::lookup(Key::DtraceConf, 4096)),
            2 => frame(sequence, &Request::key_set(Key::DtraceConf, &value).unwrap()),
            3 => frame(sequence, &Request::boot_failure(1, &value)),
            _ => frame(sequence, &Request::raw(0x55, &value)),
        };
        let place = random.below(frame.len());
        match random.below(6) {
            0 => frame[place] = random.next() as u8,
            1 => drop(frame.remove(place)),
            2 => frame.insert(place, 0),
            3 => frame.extend([0, 0]),
            _ => {}
        }
        bytes.extend(frame);
    }
    bytes
}

/// Bytes that came, read in pieces of any length, and what was written; a write fails where `fails` says its number.
struct Wire<'r> {
    came: VecDeque<u8>,
    written: Vec<u8>,
    random: &'r mut Random,
    writes: usize,
    fails: Option<usize>,
}

#[derive(Debug, PartialEq, Eq)]
struct Broken;

impl<'r> Wire<'r> {
    fn new(came: &[u8], random: &'r mut Random) -> Wire<'r> {
        Wire { came: came.iter().copied().collect(), written: Vec::new(), random, writes: 0, fails: None }
    }
}

impl Uart for Wire<'_> {
    type Error = Broken;

    fn read(&mut self, room: &mut [u8]) -> Result<usize, Broken> {
        let length = self.came.len().min(1 + self.random.below(room.len()));
        for (place, byte) in room.iter_mut().zip(self.came.drain(..length)) {
            *place = byte;
        }
        Ok(length)
    }

    fn write(&mut self, bytes: &[u8]) -> Result<(), Broken> {
        self.writes += 1;
        if self.fails == Some(self.writes) {
            return Err(Broken);
        }
        self.written.extend_from_slice(bytes);
        Ok(())
    }
}

/// What a supervisor sends that takes byte by byte and sends all at once, and what it counts and ends.
fn expected(came: &[u8]) -> (Vec<u8>, Counters, Vec<StepEnd>) {
    let (mut storage, mut sent, mut counters, mut ends) = (SupervisorStorage::new(), Vec::new(), Counters::new(), Vec::new());
    let mut supervisor = Supervisor::start_in(&mut storage, &DATA);
    for byte in came {
        let end = supervisor.step_counted(&mut counters, &[], &[*byte]).end;
        ends.extend((end != StepEnd::More).then_some(end));
        sent.extend_from_slice(supervisor.take(&mut [0; MOST_PENDING]));
    }
    (sent, counters, ends)
}

#[test]
fn any_bytes_are_served() {
    let mut random = Random(1);
    for _ in 0..400 {
        let came = stream(&mut random);
        let (sent, counted, ended) = expected(&came);
        let mut storage = SupervisorStorage::new();
        let mut supervisor = Supervisor::start_in(&mut storage, &DATA);
        let (mut wire, mut ends) = (Wire::new(&came, &mut random), Vec::new());
        assert_eq!(supervisor.serve(&[], &mut wire, |_, end| ends.push(end)), Ok(()));
        assert_eq!((&wire.written, &ends), (&sent, &ended));
        supervisor.restart(&DATA);
        let (mut wire, mut counters, mut ends) = (Wire::new(&came, &mut random), Counters::new(), Vec::new());
        assert_eq!(supervisor.serve_counted(&mut counters, &[], &mut wire, |_, end| ends.push(end)), Ok(()));
        assert_eq!((wire.written, counters, ends), (sent, counted, ended));
    }
}

/// Sequences of the whole messages in these bytes.
fn sequences(bytes: &[u8]) -> Vec<u64> {
    let (mut storage, mut found, mut rest) = (ReaderStorage::new(), Vec::new(), bytes);
    let mut reader = LineReader::start_in(&mut storage);
    while !rest.is_empty() {
        let read = reader.read(rest);
        rest = &rest[read.used..];
        if let ReadEnd::Message(message) = read.end {
            found.push(message.sequence & !(1 << 63));
        }
    }
    found
}

#[test]
fn a_write_that_fails_is_told_and_serving_goes_on() {
    let value = [7; 200];
    let requests = [Request::key_set(Key::DtraceConf, &value).unwrap(), Request::lookup(Key::DtraceConf, 4096), Request::status()];
    let came: Vec<u8> = requests.iter().zip(1..).flat_map(|(request, sequence)| frame(sequence, request)).collect();
    let mut random = Random(2);
    for fails in 1..=6 {
        let mut storage = SupervisorStorage::new();
        let mut supervisor = Supervisor::start_in(&mut storage, &DATA);
        let mut wire = Wire { fails: Some(fails), ..Wire::new(&came, &mut random) };
        assert_eq!(supervisor.serve(&[], &mut wire, |_, _| ()), Err(Broken), "write {fails}");
        wire.came = [vec![0], frame(9, &Request::status())].concat().into();
        wire.write(&[0]).unwrap();
        assert_eq!(supervisor.serve(&[], &mut wire, |_, _| ()), Ok(()));
        assert_eq!(sequences(&wire.written).last(), Some(&9), "write {fails}");
    }
}

#[test]
fn what_each_frame_was_is_told_behind_its_reply() {
    let came = [frame(1, &Request::key_set(Key::EtcSystem, b"v").unwrap()), frame(2, &Request::reboot())].concat();
    let (mut storage, mut random) = (SupervisorStorage::new(), Random(3));
    let mut supervisor = Supervisor::start_in(&mut storage, &DATA);
    let (mut wire, mut seen) = (Wire::new(&came, &mut random), Vec::new());
    let each =
        |supervisor: &mut Supervisor, end: StepEnd| seen.push((end.stored(), supervisor.flags().reboot, supervisor.take(&mut [0]).len()));
    supervisor.serve(&[], &mut wire, each).unwrap();
    assert_eq!(seen, [(Some(Key::EtcSystem), false, 0), (None, true, 0)]);
}

// ---- The main processor's end

/// A wire with a supervisor at its end. It loses the bytes that come back while `losing` is not 0, and counts it down at each read that gives none.
struct Far<'s> {
    supervisor: Supervisor<'s>,
    losing: usize,
    /// How many bytes were written.
    written: usize,
}

impl Uart for Far<'_> {
    type Error = Broken;

    fn read(&mut self, room: &mut [u8]) -> Result<usize, Broken> {
        if self.losing == 0 {
            return Ok(self.supervisor.take(room).len());
        }
        while !self.supervisor.take(&mut [0; 64]).is_empty() {}
        self.losing -= 1;
        Ok(0)
    }

    fn write(&mut self, bytes: &[u8]) -> Result<(), Broken> {
        self.written += bytes.len();
        self.supervisor.receive(&[], bytes);
        Ok(())
    }
}

struct World {
    near: RequesterStorage,
    far: SupervisorStorage,
}

impl World {
    fn new() -> World {
        World { near: RequesterStorage::new(), far: SupervisorStorage::new() }
    }

    fn start(&mut self) -> (Requester<'_>, Far<'_>) {
        let supervisor = Supervisor::start_in(&mut self.far, &DATA);
        (Requester::start_in(&mut self.near), Far { supervisor, losing: 0, written: 0 })
    }
}

/// Command and data of the answer.
fn answer(waited: Waited) -> (u8, Vec<u8>) {
    let Waited::Answer(Message { command, data, .. }) = waited else { panic!("{waited:?} is no answer") };
    (command, data.to_vec())
}

#[test]
fn requests_are_answered() {
    let (mut world, mut room) = (World::new(), [0; LONGEST_FRAME]);
    let (mut main, mut far) = world.start();
    let value = vec![9; 4096];
    let set = Request::key_set(Key::WithdrawnKeys, &value).unwrap();
    assert_eq!(answer(main.ask(&set, &mut far, &mut room, |_| ()).unwrap()), (0x0c, vec![0]));
    let list = Request::lookup(Key::WithdrawnKeys, 4096);
    assert_eq!(answer(main.ask(&list, &mut far, &mut room, |_| ()).unwrap()), (0x0a, [&[0][..], &value].concat()));
    for request in [Request::reboot(), Request::power_off(), Request::boot_failure(1, b"why")] {
        assert_eq!(main.ask(&request, &mut far, &mut room, |_| ()), Ok(Waited::Idle));
    }
    assert!(far.supervisor.flags().reboot && far.supervisor.boot_failure_record().is_some());
    assert_eq!(main.wait(&mut far, &mut room, |_| ()), Ok(Waited::Idle));
}

/// A lost answer: time-out, recovery with its statuses and an alert, and the request anew.
#[test]
fn a_lost_answer_is_asked_for_again() {
    let (mut world, mut room) = (World::new(), [0; LONGEST_FRAME]);
    let (mut main, mut far) = world.start();
    far.supervisor.post(NonZeroU8::MIN, b"fan").unwrap();
    far.losing = 2;
    assert_eq!(main.ask(&Request::lookup(Key::Ping, 4), &mut far, &mut room, |_| ()), Ok(Waited::TimedOut));
    assert_eq!(main.wait(&mut far, &mut room, |_| ()), Ok(Waited::TimedOut));
    assert!(matches!(main.state(), State::Waiting(_)));
    main.interrupt().unwrap();
    let (mut statuses, mut alerts) = (Vec::new(), Vec::new());
    let each = |handed: Handed| match handed {
        Handed::Status(status) => statuses.push((status.has(StatusBit::Restarted), status.has(StatusBit::Alerts))),
        Handed::Alert(message) => alerts.push(format!("{:?}", message.reply())),
        other => panic!("{other:?} was handed out"),
    };
    assert_eq!(answer(main.wait(&mut far, &mut room, each).unwrap()), (0x0a, b"\0pong".to_vec()));
    assert_eq!(statuses, [(true, true), (false, true), (false, false)]);
    assert_eq!(alerts, [format!("Ok(Alert(Some(Alert {{ action: 1, text: {:?} }})))", b"fan")]);
    assert_eq!(main.state(), State::Idle);
}

#[test]
fn a_recovery_alone_ends_idle() {
    let (mut world, mut room) = (World::new(), [0; LONGEST_FRAME]);
    let (mut main, mut far) = world.start();
    assert!(far.supervisor.signal());
    main.interrupt().unwrap();
    assert_eq!(main.wait(&mut far, &mut room, |_| ()), Ok(Waited::Idle));
    assert!(!far.supervisor.signal());
}

#[test]
fn refusals_and_failures_are_told() {
    let (mut world, mut room) = (World::new(), [0; LONGEST_FRAME]);
    let (mut main, mut far) = world.start();
    let refused = |refusal| Err(AskError::Refused(refusal));
    assert_eq!(main.ask(&Request::raw(1, &[0; 4105]), &mut far, &mut room, |_| ()), refused(Refusal::TooLong));
    assert_eq!(main.ask(&Request::status(), &mut far, &mut room[..20], |_| ()), refused(Refusal::NoRoom));
    far.losing = 1;
    assert_eq!(main.ask(&Request::status(), &mut far, &mut room, |_| ()), Ok(Waited::TimedOut));
    assert_eq!(main.ask(&Request::status(), &mut far, &mut room, |_| ()), refused(Refusal::Outstanding));
    main.interrupt().unwrap();
    assert_eq!(main.wait(&mut far, &mut [], |_| ()), refused(Refusal::NoRoom));
    let mut random = Random(4);
    let mut broken = Wire { fails: Some(1), ..Wire::new(&[], &mut random) };
    assert_eq!(main.wait(&mut broken, &mut room, |_| ()), Err(AskError::Uart(Broken)));
    let texts = [AskError::Refused(Refusal::NoRoom), AskError::Uart("cut")].map(|error| error.to_string());
    assert_eq!(texts, ["refused as 8: the room is too short for the whole output", "cut"]);
}

/// Bytes behind an answer are left on the wire for the next call.
#[test]
fn bytes_behind_an_answer_are_kept() {
    let (mut world, mut room, mut random) = (World::new(), [0; LONGEST_FRAME], Random(5));
    let (mut main, mut far) = world.start();
    let pong = |far: &mut Far, sequence| {
        far.supervisor.receive(&[], &frame(sequence, &Request::lookup(Key::Ping, 4)));
        far.supervisor.take(&mut [0; MOST_PENDING]).to_vec()
    };
    let came = [pong(&mut far, 1), pong(&mut far, 2), vec![0]].concat();
    let mut wire = Wire::new(&came, &mut random);
    for left in [came.len() / 2 + 1, 1] {
        let request = Request::lookup(Key::Ping, 4);
        let waited = main.ask(&request, &mut wire, &mut room, |_| ()).unwrap();
        let Waited::Answer(message) = waited else { panic!("{waited:?} is no answer") };
        assert!(matches!(message.reply(), Ok(Reply::KeyLookup(Ok(value))) if value.value == b"pong"));
        assert_eq!(wire.came.len(), left);
    }
}
