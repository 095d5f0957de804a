// Defines the measurement of a receive with the counter block beside one without: the same pieces on two supervisors, in one process.
// Assumes a quiet machine. Writes CSV to standard output.

use oatcastle::{write_frame, Bsu, Counters, StartData, Supervisor, SupervisorStorage, LONGEST_FRAME};
use std::hint::black_box;
use std::time::Instant;

const ROUNDS: usize = 201;
const ROUND_NANOSECONDS: f64 = 5e5;

fn frame(command: u8, data: &[u8]) -> Vec<u8> {
    write_frame(1, 1, command, data, &[], &mut [0; LONGEST_FRAME]).expect("the frame fits").to_vec()
}

fn time(times: usize, mut action: impl FnMut()) -> f64 {
    let begin = Instant::now();
    for _ in 0..times {
        action();
    }
    begin.elapsed().as_nanos() as f64 / times as f64
}

/// The minimum time of all rounds of each, in which the two take turns.
fn measure(name: &str, piece: &[u8]) {
    let (mut one_storage, mut other_storage) = (SupervisorStorage::new(), SupervisorStorage::new());
    let mut plain = Supervisor::start_in(&mut one_storage, &StartData::new(Bsu::A));
    let mut counted = Supervisor::start_in(&mut other_storage, &StartData::new(Bsu::A));
    let mut counters = Counters::new();
    let mut one = || plain.receive(&[], black_box(piece));
    let mut other = || counted.receive_counted(&mut counters, &[], black_box(piece));
    let times = (ROUND_NANOSECONDS / time(20, &mut one).max(1.0)).max(5.0) as usize;
    let mut minimum = [f64::INFINITY; 2];
    for _ in 0..ROUNDS {
        minimum[0] = minimum[0].min(time(times, &mut one));
        minimum[1] = minimum[1].min(time(times, &mut other));
    }
    println!("{name},{},{:.0},{:.0},{:.2}", piece.len(), minimum[0], minimum[1], minimum[1] / minimum[0]);
    assert_ne!(black_box(counters), Counters::default());
}

fn main() {
    println!("piece,bytes,plain ns,counted ns,ratio");
    measure("a status request", &frame(8, &[]));
    measure("100 status requests", &frame(8, &[]).repeat(100));
    measure("a boot failure of 4104 bytes", &frame(6, &[0x5a; 4104]));
    measure("100 empty frames", &[0; 100]);
}
