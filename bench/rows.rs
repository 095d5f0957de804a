// Defines the rows of the benchmark: what each side does in one of them, checked once to give the same on all sides.
// Assumes what sides.rs has under one name.

use crate::board::Supervisor as Yard;
use crate::main_end::MainEnd;
use crate::ordinary::Ordinary;
use crate::plain::Plain;
use crate::receiver::{self, Head, Yardstick};
use crate::sides::{frame, noise, set, Asker, Saver, Side, State, HASH};
use crate::strong::Strong;
use crate::{link, Action, Case};
use oatcastle::requester::Requester;
use oatcastle::{checksum, write_frame, LineReader, ReadEnd, ReaderStorage, Supervisor, LONGEST_DATA, LONGEST_FRAME, LONGEST_IMAGE};
use std::hint::black_box;

/// The piece of a frame that arrives whole.
const WHOLE: usize = LONGEST_FRAME;
/// So many answers, under the numbers from 1 on, and then a restart.
const ANSWERS: u64 = 4;

/// A frame read in pieces of so many bytes.
fn reading(name: &'static str, data: &[u8], piece: usize) -> Case {
    let frame = frame(1, 1, 0x55, data);
    let mut reader = LineReader::start_in(Box::leak(Box::new(ReaderStorage::new())));
    assert!(matches!(reader.read(&frame).end, ReadEnd::Message(_)));
    let copy = frame.clone();
    let library = Box::new(move || {
        for part in copy.chunks(piece) {
            black_box(reader.read(black_box(part)).used);
        }
    });
    let sides = [library as Action, reading_by::<Ordinary>(&frame, piece), reading_by::<Strong>(&frame, piece)];
    Case { name, state: "", bytes: frame.len(), sides }
}

fn reading_by<Y: Yardstick + 'static>(frame: &[u8], piece: usize) -> Action {
    let mut reader = receiver::Reader::<Y>::new();
    let frame = frame.to_vec();
    Box::new(move || {
        for part in frame.chunks(piece) {
            black_box(reader.read(black_box(part)));
        }
    })
}

fn writing(name: &'static str, data: &[u8]) -> Case {
    let (mut out, copy) = ([0; LONGEST_FRAME], data.to_vec());
    let library = Box::new(move || {
        black_box(write_frame(1, 1, 0x55, black_box(&copy), &[], &mut out).map(<[u8]>::len).ok());
    });
    let bytes = frame(1, 1, 0x55, data).len();
    Case { name, state: "", bytes, sides: [library, writing_by::<Ordinary>(data), writing_by::<Strong>(data)] }
}

fn writing_by<Y: Yardstick>(data: &[u8]) -> Action {
    let (mut out, data) = ([0; LONGEST_FRAME], data.to_vec());
    Box::new(move || {
        let head = Head { version: 1, sequence: 1, command: 0x55 };
        black_box(receiver::write::<Y>(head, black_box(&data), &[], &mut out).ok());
    })
}

fn summing(name: &'static str, body: Vec<u8>) -> Case {
    let sides = [checksum, Ordinary::checksum, Strong::checksum].map(|sum: fn(&[u8]) -> u16| {
        let body = body.clone();
        Box::new(move || {
            black_box(sum(black_box(&body)));
        }) as Action
    });
    Case { name, state: "", bytes: body.len(), sides }
}

/// A request to a supervisor in a state.
struct Row {
    name: &'static str,
    state: State,
    image: Vec<u8>,
    /// Received ahead of the first request: what it asks for.
    first: Vec<u8>,
    request: Vec<u8>,
    piece: usize,
}

impl Row {
    fn new(name: &'static str, state: State, request: Vec<u8>) -> Row {
        Row { name, state, image: Vec::new(), first: Vec::new(), request, piece: WHOLE }
    }

    fn behind(self, first: &[u8]) -> Row {
        Row { first: first.to_vec(), ..self }
    }

    fn with_image(self, image: Vec<u8>) -> Row {
        Row { image, ..self }
    }

    fn in_single_bytes(self) -> Row {
        Row { piece: 1, ..self }
    }
}

/// The request received in pieces, and its reply taken whole, by a supervisor of this type and by the yardsticks.
fn serving<L: Side + 'static>(row: Row) -> Case {
    let (library, reply) = ready::<L>(&row);
    let (ordinary, ordinary_reply) = ready::<Yard<Ordinary>>(&row);
    let (strong, strong_reply) = ready::<Yard<Strong>>(&row);
    assert!(reply == ordinary_reply && reply == strong_reply, "{}: the replies differ", row.name);
    let sides = [served(library, &row), served(ordinary, &row), served(strong, &row)];
    Case { name: row.name, state: row.state.name(), bytes: row.request.len() + reply.len(), sides }
}

/// A supervisor in the row's state, and its reply to the row's request.
fn ready<S: Side>(row: &Row) -> (S, Vec<u8>) {
    let mut side: S = row.state.side();
    let mut room = vec![0; 5000];
    side.receive(&row.image, &row.first);
    side.take(&mut room);
    side.receive(&row.image, &row.request);
    let taken = side.take(&mut room);
    room.truncate(taken);
    (side, room)
}

fn served<S: Side + 'static>(mut side: S, row: &Row) -> Action {
    let (image, request, piece, mut room) = (row.image.clone(), row.request.clone(), row.piece, [0; 5000]);
    Box::new(move || {
        for part in request.chunks(piece) {
            side.receive(black_box(&image), black_box(part));
        }
        black_box(side.take(&mut room));
    })
}

/// An alert request, whose number is another than the last one's, its reply taken whole, and an alert posted.
fn alerting(name: &'static str, state: State) -> Case {
    let sides = [alerted::<Supervisor>(state), alerted::<Yard<Ordinary>>(state), alerted::<Yard<Strong>>(state)];
    let [(library, reply), (ordinary, ordinary_reply), (strong, strong_reply)] = sides;
    assert!(reply == ordinary_reply && reply == strong_reply, "{name}: the replies differ");
    Case { name, state: state.name(), bytes: frame(1, 1, 0x0a, &[]).len() + reply.len(), sides: [library, ordinary, strong] }
}

fn alerted<S: Side + 'static>(state: State) -> (Action, Vec<u8>) {
    let mut side: S = state.side();
    let (text, mut room) = (noise(256), vec![0; 5000]);
    if state == State::Started {
        side.post(&text);
    }
    let requests = [frame(1, 1, 0x0a, &[]), frame(1, 2, 0x0a, &[])];
    let mut turn = move |room: &mut [u8], number: usize| {
        side.receive(&[], black_box(&requests[number]));
        let taken = side.take(room);
        side.post(black_box(&text));
        taken
    };
    let taken = turn(&mut room, 1);
    let (reply, mut number) = (room[..taken].to_vec(), 0);
    let action = Box::new(move || {
        black_box(turn(&mut room, number));
        number = 1 - number;
    });
    (action, reply)
}

/// The settings saved, and an image of them restored.
fn saving() -> [Case; 2] {
    let sides = [saved::<Supervisor>(), saved::<Yard<Ordinary>>(), saved::<Yard<Strong>>()];
    let [(library, image), (ordinary, ordinary_image), (strong, strong_image)] = sides;
    assert!(image == ordinary_image && image == strong_image, "the images differ");
    let (state, bytes) = (State::Full.name(), image.len());
    let restoring = [restored::<Supervisor>(&image), restored::<Yard<Ordinary>>(&image), restored::<Yard<Strong>>(&image)];
    let save = Case { name: "save all settings", state, bytes, sides: [library, ordinary, strong] };
    [save, Case { name: "restore all settings", state, bytes, sides: restoring }]
}

fn saved<S: Saver + 'static>() -> (Action, Vec<u8>) {
    let side: S = State::Full.side();
    let mut room = vec![0; LONGEST_IMAGE];
    let length = side.save(&mut room);
    let image = room[..length].to_vec();
    let action = Box::new(move || {
        black_box(side.save(black_box(&mut room)));
    });
    (action, image)
}

fn restored<S: Saver + 'static>(image: &[u8]) -> Action {
    let (mut side, image): (S, _) = (State::Full.side(), image.to_vec());
    Box::new(move || side.restore(black_box(&image)))
}

/// A lookup put out by the main processor's end, and its answer taken.
fn asking(name: &'static str, data: &[u8]) -> Case {
    let answers: Vec<Vec<u8>> = (1..=ANSWERS).map(|number| frame(1, number | receiver::TOP_BIT, 0x0a, data)).collect();
    let bytes = frame(1, 1, 0x0e, &[5, 0, 16]).len() + answers[0].len();
    let sides = [asked::<Requester>(&answers), asked::<MainEnd<Ordinary>>(&answers), asked::<MainEnd<Strong>>(&answers)];
    Case { name, state: "", bytes, sides }
}

fn asked<A: Asker + 'static>(answers: &[Vec<u8>]) -> Action {
    let (mut end, answers, mut out) = (A::start(), answers.to_vec(), [0; LONGEST_FRAME]);
    let mut next = 0;
    Box::new(move || {
        if next == answers.len() {
            end.restart();
            next = 0;
        }
        end.ask(black_box(&mut out));
        assert_eq!(end.hear(black_box(&answers[next])), LONGEST_DATA);
        next += 1;
    })
}

/// The rows of the line layer, of the main processor's end and of the root-of-trust link.
fn lines() -> Vec<Case> {
    let (random, zeros) = (noise(LONGEST_DATA), vec![0; LONGEST_DATA]);
    vec![
        reading("read 4104 random bytes", &random, WHOLE),
        reading("read 4104 zeros", &zeros, WHOLE),
        reading("read a short frame", &[], WHOLE),
        writing("write 4104 random bytes", &random),
        writing("write 4104 zeros", &zeros),
        writing("write a short frame", &[]),
        reading("read a short frame byte by byte", &[], 1),
        reading("read 4104 random bytes byte by byte", &random, 1),
        summing("checksum of 4121 bytes", noise(4121)),
        asking("answer of 4104 random bytes", &random),
        link::reading("root-of-trust message of 512 bytes", oatcastle::rot::Type::SinkRequest, &random[..512]),
        link::reading("root-of-trust echo of 512 bytes", oatcastle::rot::Type::EchoRequest, &random[..512]),
    ]
}

/// The rows of a supervisor in one state.
fn supervisors(state: State) -> Vec<Case> {
    let block = frame(1, 1, 0x0d, &[&HASH[..], &4096u64.to_le_bytes()].concat());
    let (random, zeros) = (noise(4096), vec![0; 4096]);
    let status = || frame(1, 1, 0x08, &[]);
    let lookup = |name, version, value: &[u8]| {
        serving::<Supervisor>(Row::new(name, state, frame(version, 1, 0x0e, &[5, 0, 16])).behind(&set(5, value)))
    };
    let last = frame(1, 1, 0x0f, &(state.items() as u32 - 1).to_le_bytes());
    vec![
        serving::<Supervisor>(Row::new("image block of 4096 random bytes", state, block.clone()).with_image(noise(3 * 4096))),
        serving::<Supervisor>(Row::new("image block of 4096 zeros", state, block).with_image(vec![0; 3 * 4096])),
        serving::<Supervisor>(Row::new("key 4 set to 4096 random bytes", state, set(4, &random))),
        serving::<Supervisor>(Row::new("key 4 set to 4096 zeros", state, set(4, &zeros))),
        lookup("lookup of 4096 bytes in version 1", 1, &random),
        lookup("lookup of 4096 bytes in version 2", 2, &random),
        lookup("lookup of 64 bytes in version 1", 1, &random[..64]),
        lookup("lookup of 64 bytes in version 2", 2, &random[..64]),
        serving::<Supervisor>(Row::new("inventory item", state, last)),
        alerting("alert taken", state),
        serving::<Supervisor>(Row::new("status request", state, status())),
        serving::<Supervisor>(Row::new("single bytes through the wrapper: status request", state, status()).in_single_bytes()),
        serving::<Plain>(Row::new("plain receive byte by byte: status request", state, status()).in_single_bytes()),
        serving::<Supervisor>(Row::new("single bytes through the wrapper: key 4 set", state, set(4, &random)).in_single_bytes()),
        serving::<Plain>(Row::new("plain receive byte by byte: key 4 set", state, set(4, &random)).in_single_bytes()),
    ]
}

pub fn all() -> Vec<Case> {
    let states = [State::Started, State::Full].into_iter().flat_map(supervisors);
    lines().into_iter().chain(states).chain(saving()).collect()
}
