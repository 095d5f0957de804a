// Defines the benchmark: the static library through the crate `oatcastle` against two yardsticks in Rust, in one process, as times.
// Assumes a quiet machine, and that --compare has found no difference. Writes CSV to standard output.
//
// usage: bench [ROUNDS | --compare | --profile CASE STATE SIDE TIMES]

mod board;
mod compare;
mod images;
mod link;
mod main_end;
mod ordinary;
mod plain;
mod planted;
#[path = "../tests/differential/random.rs"]
#[allow(dead_code)]
mod random;
mod receiver;
mod rows;
mod sides;
mod strong;

use std::time::Instant;

const ROUNDS: usize = 151;
const ROUND_NANOSECONDS: f64 = 5e5;

type Action = Box<dyn FnMut()>;

/// One case, by the library, by `ordinary` and by `strong`; the state is that of a supervisor.
struct Case {
    name: &'static str,
    state: &'static str,
    bytes: usize,
    sides: [Action; 3],
}

fn time(action: &mut Action, times: usize) -> f64 {
    let begin = Instant::now();
    for _ in 0..times {
        action();
    }
    begin.elapsed().as_nanos() as f64 / times as f64
}

fn times(action: &mut Action) -> usize {
    let once = time(action, 8).max(1.0);
    ((ROUND_NANOSECONDS / once) as usize).max(1)
}

/// The minimum time of all rounds, in which the sides take turns.
fn measure(case: &mut Case, rounds: usize) {
    let counts: Vec<usize> = case.sides.iter_mut().map(times).collect();
    let mut minimum = [f64::INFINITY; 3];
    for _ in 0..rounds {
        for side in 0..3 {
            minimum[side] = minimum[side].min(time(&mut case.sides[side], counts[side]));
        }
    }
    let [library, ordinary, strong] = minimum;
    println!("{},{},{},{library:.1},{ordinary:.1},{strong:.1}", case.name, case.state, case.bytes);
}

/// Compares without timing: yardsticks, each case once, planted faults.
fn compare(cases: &mut [Case]) {
    compare::compare::<ordinary::Ordinary>();
    compare::compare::<strong::Strong>();
    cases.iter_mut().flat_map(|case| &mut case.sides).for_each(|side| side());
    println!("bench: two yardsticks agree with the library, and {} cases run; {} planted faults seen", cases.len(), planted::count());
}

/// Runs one side of one case so many times, for a profile.
fn profile(cases: &mut [Case], words: &[String]) {
    let [name, state, side, times] = words else { panic!("CASE STATE SIDE TIMES are wanted") };
    let case = cases.iter_mut().find(|case| case.name == name && case.state == state).expect("a case of this name and state");
    let side = ["library", "ordinary", "strong"].iter().position(|name| name == side).expect("a side of this name");
    (0..times.parse().expect("a number")).for_each(|_: usize| case.sides[side]());
}

fn main() {
    let words: Vec<String> = std::env::args().skip(1).collect();
    let mut cases = rows::all();
    match words.first().map(String::as_str) {
        Some("--compare") => compare(&mut cases),
        Some("--profile") => profile(&mut cases, &words[1..]),
        rounds => {
            let rounds = rounds.map_or(ROUNDS, |rounds| rounds.parse().expect("a number of rounds"));
            println!("case,state,bytes,library ns,ordinary ns,strong ns");
            cases.iter_mut().for_each(|case| measure(case, rounds));
        }
    }
}
