// Defines one recovery of a run to be drawn: a lookup of the list whose reply comes damaged, an interrupt for an alert, and the lookup anew.
// Assumes the words of the simulation's journal.

use crate::simulation::Simulation;

/// What follows these words, in order.
fn all<'j>(journal: &'j [(u64, String)], words: &str) -> Vec<&'j str> {
    journal.iter().filter_map(|(_, line)| line.strip_prefix(words)).collect()
}

fn first(journal: &[(u64, String)], words: &str) -> Option<usize> {
    journal.iter().position(|(_, line)| line.starts_with(words))
}

/// Every frame is read, whole but for one reply; then one interrupt, one alert that was posted meanwhile, and the answer.
fn fits(journal: &[(u64, String)]) -> bool {
    let [puts, read, replies, heard] = ["main puts ", "supervisor reads ", "supervisor puts ", "main reads "].map(|words| all(journal, words));
    let damaged = heard.iter().zip(&replies).filter(|(heard, reply)| heard != reply).count();
    let one = |words| all(journal, words).len() == 1;
    puts == read
        && heard.len() == replies.len()
        && damaged == 1
        && first(journal, "main reads failed") < first(journal, "interrupt")
        && first(journal, "main reads failed").is_some()
        && all(journal, "status ") == ["2", "0"]
        && all(journal, "signal ") == ["on", "off"]
        && ["start ", "restore"].into_iter().all(|words| all(journal, words).is_empty())
        && ["interrupt", "alert ", "post "].into_iter().all(one)
        && puts.len() == 6
        && replies.len() == 6
        && puts[0] == puts[1]
        && puts[0].find(" 0e 05ffff").is_some_and(|digits| digits <= 2)
        && all(journal, "answer ").iter().all(|answer| answer.strip_prefix("list ").is_some_and(|rest| rest.bytes().all(|byte| byte.is_ascii_digit())))
}

/// The lines of the first such recovery, each with its turn.
pub fn found(simulation: &mut Simulation, requests: u64) -> Result<Vec<(u64, String)>, String> {
    simulation.journal = Some(Vec::new());
    while simulation.tally.requests < requests {
        simulation.turn()?;
        let journal = simulation.journal.as_mut().expect("a journal");
        if journal.iter().any(|(_, line)| line.starts_with("answer ")) && fits(journal) {
            return Ok(std::mem::take(journal));
        }
        if let Some(last) = journal.iter().rposition(|(_, line)| line.starts_with("request ")) {
            journal.drain(..last);
        }
    }
    Err(format!("no such recovery in {requests} requests"))
}
