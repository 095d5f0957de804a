// Defines the differential test's program: random histories of calls on the static library and on the model, compared call by call.
// Assumes the C functions of include/oatcastle.h, docs/STATE.md for the lent bytes and documents 01 and 02 for everything else.

mod apart;
mod calls;
mod counters;
mod history;
mod images;
#[path = "../../bindings/rust/src/raw.rs"]
mod library;
mod link;
mod model;
mod plans;
mod probes;
mod random;
mod requester;
mod state;
mod traces;
mod traffic;
mod twins;
mod world;

use calls::{same, Call, Image, Lent};
use model::{break_rule, FAULTS};
use state::{LENGTHS, START_LENGTH};
use std::process::ExitCode;
use world::{World, FIELDS};

/// From so many calls on, a run fails if a refusal, reason, command or field did not come up, or if too few bytes were compared byte by byte.
const DEMANDED: u64 = 100_000;
const DEMANDED_BYTES: u64 = 10_000_000;

/// The library's checksum of a body.
fn checksum(body: &[u8]) -> u16 {
    let mut answer = library::LineChecksumAnswer { checksum: u64::MAX };
    // The pointers are to a slice of this length and to an answer.
    let number = unsafe { library::oatcastle_line_checksum(body.as_ptr(), body.len(), &mut answer) };
    assert_eq!(number, 0);
    u16::try_from(answer.checksum).expect("a checksum has 16 bits")
}

/// Bodies of every length up to the longest message's, on both sides.
fn checksums(seed: u64) -> Result<(), String> {
    let mut body = Vec::new();
    let mut number = seed;
    for _ in 0..4122 {
        same("a checksum", &model::checksum(&body).to_le_bytes(), &checksum(&body).to_le_bytes())?;
        number = number.wrapping_mul(6364136223846793005).wrapping_add(1442695040888963407);
        body.push((number >> 56) as u8);
    }
    Ok(())
}

/// The line samples of document 01, L6 to L9 on the model alone, the others on both sides.
fn samples(world: &mut World) -> Result<(), String> {
    for (text, sums) in [("abcde", 0xc8f0), ("abcdef", 0x2057), ("abcdefgh", 0x0627), ("", 0)] {
        same("L1 to L4", &u16::to_le_bytes(sums), &model::checksum(text.as_bytes()).to_le_bytes())?;
        same("L1 to L4", &u16::to_le_bytes(sums), &checksum(text.as_bytes()).to_le_bytes())?;
    }
    for byte in [0x00, 0xff] {
        same("L5", &[0, 0], &model::checksum(&[byte]).to_le_bytes())?;
        same("L5", &[0, 0], &checksum(&[byte]).to_le_bytes())?;
    }
    let forms: [(&[u8], &[u8]); 4] = [(&[], &[1]), (&[0], &[1, 1]), (&[0x11, 0x22], &[3, 0x11, 0x22]), (&[0x11, 0], &[2, 0x11, 1])];
    for (bytes, form) in forms {
        same("L6 to L9", form, &model::cobs(bytes))?;
    }
    let nameless = |reason| {
        let mut message = vec![0x06, 0xcc, 0x19, 0xde, 0x01, 0x01, 0x01, 0x01, 0x0d];
        message.extend_from_slice(&[0xff; 8]);
        message.extend_from_slice(reason);
        message.push(0);
        message
    };
    let status = [
        0x06, 0xcc, 0x19, 0xde, 0x01, 0x01, 0x01, 0x01, 0x02, 0x01, 0x01, 0x01, 0x01, 0x01, 0x01, 0x01, 0x04, 0x08, 0xcf, 0x66, 0x00,
    ];
    let status_reply = [
        0x06, 0xcc, 0x19, 0xde, 0x01, 0x01, 0x01, 0x01, 0x02, 0x01, 0x01, 0x01, 0x01, 0x01, 0x01, 0x04, 0x80, 0x06, 0x01, 0x01, 0x01,
        0x01, 0x01, 0x01, 0x01, 0x01, 0x01, 0x01, 0x01, 0x01, 0x01, 0x01, 0x01, 0x03, 0x4f, 0x5a, 0x00,
    ];
    let reason_3 = model::frame(1, u64::MAX, 2, &[3]);
    let runs: [(&str, &[u8], Vec<u8>); 3] = [
        ("L10", &[2, 0], nameless(&[0x02, 0x01, 0xc9, 0x21])),
        ("L11", &[1, 0], reason_3),
        ("L12", &status, status_reply.to_vec()),
    ];
    let whole = Lent { parts: LENGTHS, room: 0 };
    for (name, input, output) in runs {
        let mut data = Box::new([0; START_LENGTH]);
        data[0] = 0x41;
        world.call(&Call::Start { data }, &whole)?;
        let mut taken = Vec::new();
        for &byte in input {
            world.call(&Call::Receive { image: Image { which: 0, length: 0 }, piece: vec![byte] }, &whole)?;
            taken.extend(world.call(&Call::Take, &Lent { room: 5000, ..whole })?.room);
        }
        same(name, &output, &taken)?;
    }
    Ok(())
}

/// Calls of the root-of-trust link, of the probe list, of the main processor's end, and then so many of all others.
fn compare(world: &mut World, seed: u64, count: u64) -> Result<(), String> {
    link::compare(seed, count / 10, &mut world.tally.calls)?;
    probes::compare(seed, count / 10, &mut world.tally.calls)?;
    requester::compare(seed, count / 5, &mut world.tally.calls)?;
    world.history(world.tally.calls + count)
}

fn plain(seed: u64, count: u64, trace: bool) -> ExitCode {
    let mut world = World::new(seed, trace);
    let result = samples(&mut world)
        .and_then(|()| counters::cases(&mut world))
        .and_then(|()| images::cases(&mut world))
        .and_then(|()| checksums(seed))
        .and_then(|()| compare(&mut world, seed, count));
    let tally = &world.tally;
    let missing = tally.missing();
    if let Err(difference) = &result {
        println!("seed {seed}, {difference}");
    }
    let refused: u64 = tally.refusals.values().sum();
    println!("wire bytes fed {}, calls refused {refused}, reasons {:?}, commands {:?}, set results {:?}", tally.fed, &tally.reasons[1..], tally.commands, tally.sets);
    println!("fields given a forbidden value {} of {FIELDS}; not met:{}", tally.fields.len(), if missing.is_empty() { " none" } else { &missing });
    println!(
        "seed {seed}: {}; {} calls, {} bytes compared: {} of answers and rooms, {} of lent bytes; {} bytes of parts by what they mean",
        if result.is_ok() { "no difference" } else { "a difference" },
        tally.calls,
        tally.said + tally.lent,
        tally.said,
        tally.lent,
        tally.meant
    );
    let enough = count < DEMANDED || missing.is_empty() && tally.said + tally.lent >= DEMANDED_BYTES;
    if result.is_ok() && enough { ExitCode::SUCCESS } else { ExitCode::FAILURE }
}

/// Each of these faults of the model must show as a difference.
fn faults(numbers: &[usize], seed: u64, count: u64) -> ExitCode {
    let mut missed = 0;
    for &number in numbers {
        break_rule(number);
        let mut world = World::new(seed, false);
        let result = compare(&mut world, seed, count);
        let words = FAULTS[number - 1].1;
        match result {
            Ok(()) => {
                println!("fault {number} ({words}): not found in {count} calls");
                missed += 1;
            }
            Err(difference) if numbers.len() == 1 => println!("fault {number} ({words}): found at seed {seed}, {difference}"),
            Err(_) => println!("fault {number} ({words}): found after {} calls", world.tally.calls),
        }
    }
    println!("{} of {} faults found", numbers.len() - missed, numbers.len());
    if missed == 0 { ExitCode::SUCCESS } else { ExitCode::FAILURE }
}

/// Prints what a run says, and ends as it did.
fn print_result(result: Result<String, String>, seed: u64) -> ExitCode {
    let (Ok(said) | Err(said)) = &result;
    println!("seed {seed}: {}; {said}", if result.is_ok() { "no difference" } else { "a difference" });
    if result.is_ok() { ExitCode::SUCCESS } else { ExitCode::FAILURE }
}

fn usage() -> ExitCode {
    eprintln!("usage: run [--trace] SEED COUNT, run --broken NUMBER|all [SEED COUNT], run --twins SEED COUNT, run --traces SEED COUNT, run --faults");
    ExitCode::from(2)
}

fn main() -> ExitCode {
    let words: Vec<String> = std::env::args().skip(1).collect();
    let mut rest: Vec<&str> = words.iter().map(String::as_str).collect();
    let trace = rest.first() == Some(&"--trace");
    if trace {
        rest.remove(0);
    }
    let numbers = |seed: &str, count: &str| Some((seed.parse::<u64>().ok()?, count.parse::<u64>().ok()?));
    match rest[..] {
        ["--faults"] => {
            for (place, (_, words)) in FAULTS.iter().enumerate() {
                println!("{} {words}", place + 1);
            }
            ExitCode::SUCCESS
        }
        ["--broken", which, ref more @ ..] => {
            let chosen: Vec<usize> = match which.parse::<usize>() {
                Ok(number) if (1..=FAULTS.len()).contains(&number) => vec![number],
                _ if which == "all" => (1..=FAULTS.len()).collect(),
                _ => return usage(),
            };
            let limits = match more {
                [] => Some((1, 200_000)),
                [seed, count] => numbers(seed, count),
                _ => None,
            };
            limits.map_or_else(usage, |(seed, count)| faults(&chosen, seed, count))
        }
        ["--twins", seed, count] => numbers(seed, count).map_or_else(usage, |(seed, count)| print_result(twins::compare(seed, count), seed)),
        ["--traces", seed, count] => numbers(seed, count).map_or_else(usage, |(seed, count)| print_result(traces::compare(seed, count), seed)),
        [seed, count] => numbers(seed, count).map_or_else(usage, |(seed, count)| plain(seed, count, trace)),
        _ => usage(),
    }
}
