// Defines the simulation's program: both ends over a wire with seeded faults, and everything handed out compared with what the supervisor carried out.
// Assumes the C functions of include/oatcastle.h, documents 01 and 02, and the model of tests/differential.

mod alerts;
mod claims;
mod editions;
mod ends;
mod faults;
mod heard;
mod ledger;
mod lists;
mod missed;
mod numbers;
mod recovery;
mod requests;
mod saving;
mod second;
mod simulation;
mod standing;
mod starts;
mod tally;
mod trips;
mod values;
mod wire;
mod wrong;

#[path = "../../bindings/rust/src/raw.rs"]
#[allow(dead_code)]
mod library;
#[path = "../../bindings/rust/src/limits.rs"]
#[allow(dead_code)]
mod limits;

// the models of both ends, and what they stand beside
#[path = "../differential/calls.rs"]
#[allow(dead_code)]
mod calls;
#[path = "../differential/counters.rs"]
#[allow(dead_code)]
mod counters;
#[path = "../differential/images.rs"]
#[allow(dead_code)]
mod images;
#[path = "../differential/model.rs"]
#[allow(dead_code)]
mod model;
#[path = "../differential/plans.rs"]
#[allow(dead_code)]
mod plans;
#[path = "../differential/random.rs"]
#[allow(dead_code)]
mod random;
#[path = "../differential/requester.rs"]
#[allow(dead_code)]
mod requester;
#[path = "../differential/state.rs"]
#[allow(dead_code)]
mod state;
#[path = "../differential/world.rs"]
#[allow(dead_code)]
mod world;

use claims::{Claim, CLAIMS};
use faults::Fault;
use simulation::Simulation;
use std::process::ExitCode;
use std::time::Instant;
use wire::{Kind, KINDS};

/// From so many requests on, a run fails if something of what it is for did not come up, or a claim came up with its hypotheses less often than this.
const DEMANDED: u64 = 50_000;
const HELD: u64 = 300;
/// Turns for each request at most: beyond that the run has come to a stop.
const TURNS: u64 = 400;
/// How often each kind of damage on purpose must lead to an answer that the supervisor never made.
const WRONG_ANSWERS: u64 = 20;

fn run(simulation: &mut Simulation, requests: u64) -> Result<(), String> {
    while simulation.tally.requests < requests {
        simulation.turn()?;
        if simulation.turns > TURNS * requests + 10_000 {
            return Err("no request goes out".to_string());
        }
    }
    Ok(())
}

/// What came up, by name.
fn counts(simulation: &Simulation) -> Vec<(&'static str, u64)> {
    let Simulation { tally, ledger, there, back, .. } = simulation;
    let faults = wire::FAULTS.iter().zip(there.faults.iter().zip(back.faults)).map(|(&name, (there, back))| (name, there + back));
    let ends = [tally.counts(), ledger.tally.counts(), ledger.lists.tally.counts(), faults.collect()].concat();
    [ends, ledger.values.tally.counts(), ledger.alerts.tally.counts(), ledger.editions.tally.counts(), ledger.trips.tally.counts()].concat()
}

/// What a kind of wire does not have.
fn ruled_out(kind: Kind, name: &str) -> bool {
    match name {
        "of these, a set had brought the list since" | "frames again" | "older lists brought back by a set whose frame came again" => kind == Kind::InOrder,
        "requests of the second program" | "replies of version 2 that the main processor's end read" | "lookups in version 2 that found a value" => kind != Kind::Second,
        _ => false,
    }
}

/// What did not come up, or not often enough.
fn missing(kind: Kind, simulation: &Simulation) -> Vec<&'static str> {
    let counted = counts(simulation).into_iter().filter(|&(name, count)| count == 0 && !ruled_out(kind, name)).map(|(name, _)| name);
    let held = CLAIMS.iter().zip(&simulation.ledger.claims.counts).filter(|(_, count)| count.held < HELD).map(|(claim, _)| claim.1);
    counted.chain(held).collect()
}

/// A run over one kind of wire: wherever the hypotheses of a claim hold, it must be so.
fn plain(kind: Kind, words: &str, seed: u64, requests: u64) -> bool {
    let begun = Instant::now();
    let mut simulation = Simulation::new(kind, seed);
    let result = run(&mut simulation, requests);
    println!("{words}");
    for (name, count) in counts(&simulation).iter().filter(|(name, _)| !ruled_out(kind, name)) {
        println!("{count:>12} {name}");
    }
    for ((_, name), count) in CLAIMS.iter().zip(&simulation.ledger.claims.counts) {
        println!("{:>12} times {name} with its hypotheses; {} without, {} of these not so", count.held, count.void, count.wrong);
    }
    if let Err(difference) = &result {
        println!("seed {seed}, turn {}: {difference}", simulation.turns);
    }
    let missing = missing(kind, &simulation);
    let enough = requests < DEMANDED || missing.is_empty();
    if !enough {
        println!("not met: {}", missing.join(", "));
    }
    println!(
        "{words}, seed {seed}: {}; {} requests, {} answers, {} bytes, {:.1} s",
        if result.is_ok() { "no difference" } else { "a difference" },
        simulation.tally.requests,
        simulation.tally.answers,
        simulation.there.carried + simulation.back.carried,
        begun.elapsed().as_secs_f64()
    );
    result.is_ok() && enough
}

/// The runs over the kinds of wire of this name; over all without one.
fn wires(name: Option<&str>, seed: u64, requests: u64) -> ExitCode {
    let mut all = true;
    for (kind, _, words) in KINDS.into_iter().filter(|kind| name.is_none_or(|name| name == kind.1)) {
        all &= plain(kind, words, seed, requests);
    }
    if all { ExitCode::SUCCESS } else { ExitCode::FAILURE }
}

/// Each kind of damage on purpose: answers that the supervisor never made are handed out, and none where the hypotheses hold.
fn missed(seed: u64, requests: u64) -> ExitCode {
    let mut unseen = 0;
    for (kind, words) in missed::ALL {
        let mut simulation = Simulation::new(Kind::Bad, seed);
        simulation.missed = Some(kind);
        while simulation.tally.requests < requests && simulation.ledger.claims.wrong() < WRONG_ANSWERS {
            if let Err(difference) = simulation.turn() {
                println!("seed {seed}, {words}: the hypotheses hold, and still {difference}");
                return ExitCode::FAILURE;
            }
        }
        let claims = &simulation.ledger.claims;
        println!("{words}: {} wrong answers in {} requests", claims.wrong(), simulation.tally.requests);
        if let Some(first) = &claims.first_wrong {
            println!("  the first: {first}");
        }
        unseen += u64::from(claims.wrong() < WRONG_ANSWERS);
    }
    if unseen == 0 { ExitCode::SUCCESS } else { ExitCode::FAILURE }
}

/// The words of a fault, and what was found of it: where a claim is given, by that one alone.
fn fault(fault: Fault, words: &str, only: Option<Claim>, seed: u64, requests: u64) -> bool {
    model::break_rule(faults::rule(fault));
    let mut simulation = Simulation::new(fault.wire(), seed);
    simulation.ledger.plant_fault(fault, only);
    let result = run(&mut simulation, requests);
    let first = |difference: &str| difference.lines().next().map_or(String::new(), |line| line.chars().take(150).collect());
    let found = match &result {
        Ok(()) => format!("not found in {requests} requests"),
        Err(difference) => format!("found after {} requests: {}", simulation.tally.requests, first(difference)),
    };
    println!("{words}: {found}");
    result.is_err()
}

/// Each planted fault must show as a difference.
fn faults(seed: u64, requests: u64) -> ExitCode {
    let (mut found, mut all) = (0, 0);
    for &(planted, words) in faults::FAULTS {
        let one_by_one: Vec<Option<Claim>> = if planted.claims().is_empty() { vec![None] } else { planted.claims().iter().copied().map(Some).collect() };
        for only in one_by_one {
            found += u64::from(fault(planted, words, only, seed, requests));
            all += 1;
        }
    }
    println!("{found} of {all} faults found");
    if found == all { ExitCode::SUCCESS } else { ExitCode::FAILURE }
}

/// The lines of one recovery, to be drawn.
fn recovery(seed: u64, requests: u64) -> ExitCode {
    match recovery::found(&mut Simulation::new(Kind::Bad, seed), requests) {
        Ok(lines) => {
            for (turn, words) in lines {
                println!("{turn} {words}");
            }
            ExitCode::SUCCESS
        }
        Err(why) => {
            println!("{why}");
            ExitCode::FAILURE
        }
    }
}

fn usage() -> ExitCode {
    eprintln!("usage: run [SEED REQUESTS | --wire NAME SEED REQUESTS | --missed SEED REQUESTS | --faults SEED REQUESTS | --recovery SEED REQUESTS]");
    eprintln!("NAME: {}", KINDS.map(|kind| kind.1).join(", "));
    ExitCode::from(2)
}

fn main() -> ExitCode {
    let words: Vec<String> = std::env::args().skip(1).collect();
    let (mode, name, numbers) = match &words[..] {
        [mode, name, seed, requests] if mode == "--wire" && KINDS.iter().any(|kind| kind.1 == name) => ("", Some(&name[..]), [seed, requests]),
        [mode, seed, requests] => (&mode[..], None, [seed, requests]),
        [seed, requests] => ("", None, [seed, requests]),
        _ => return usage(),
    };
    let (Ok(seed), Ok(requests)) = (numbers[0].parse(), numbers[1].parse()) else { return usage() };
    match mode {
        "" => wires(name, seed, requests),
        "--missed" => missed(seed, requests),
        "--faults" => faults(seed, requests),
        "--recovery" => recovery(seed, requests),
        _ => usage(),
    }
}
