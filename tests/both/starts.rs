// Defines the starts of either end, of both together, and what a start of the main processor's end does with bytes that are still on their way.
// Assumes document 01's start and document 02's item 2: numbers begin anew, and what was read of a frame is dropped.

use crate::missed::Missed;
use crate::model;
use crate::second::{Second, SECONDS};
use crate::simulation::{Caller, Simulation};
use crate::standing::Known;
use crate::wire::Frames;

/// What happens until the next start of the main processor's end.
#[derive(Default)]
pub struct Mood {
    /// The supervisor is neither started alone nor restored.
    pub calm: bool,
    /// The caller asks for alerts of its own, and for reboots and power-offs.
    pub own_alerts: bool,
    pub reboots: bool,
    pub second: Second,
}

impl Simulation {
    fn begin_supervisor(&mut self) {
        self.tally.supervisor_starts += 1;
        self.supervisor.start(&self.start_data);
        self.model = model::Supervisor::start(self.model.factory.clone(), &self.model.outbox);
        self.ledger.supervisor_started();
        self.list_held();
        self.supervisor_read = Frames::default();
        self.note(|| "start supervisor".to_string());
    }

    /// The supervisor's start, at any moment: half a reply may be out. Its caller ends that with a 00, or not, and restores an image, or not.
    pub fn start_supervisor(&mut self) -> Result<(), String> {
        self.begin_supervisor();
        if self.last_put != 0 && self.random.percent(50) {
            self.last_put = 0;
            self.back.put(&[0], self.turns, &mut self.random);
        }
        if self.random.percent(60) { self.restore_behind_start() } else { Ok(()) }
    }

    /// A start of the main processor's end, at times together with the supervisor's.
    pub fn start_again(&mut self) -> Result<(), String> {
        if self.random.percent(40) {
            return self.start_main();
        }
        self.tally.both_starts += 1;
        self.begin_supervisor();
        self.start_main()?;
        self.ledger.both_started();
        Ok(())
    }

    /// All that is on its way is thrown away; a 00 ends, at times, what the supervisor has read of a frame, and its reply, which may be one to a whole frame from
    /// before, is thrown away too.
    fn throw_away(&mut self) -> Result<(), String> {
        self.there.clear();
        self.back.clear();
        if self.random.percent(70) {
            self.supervise(vec![0])?;
        }
        self.supervisor_puts()?;
        while !self.model.outbox.pending.is_empty() {
            self.supervisor_puts()?;
        }
        self.back.clear();
        Ok(())
    }

    /// What was on its way comes later still, at times; at times a 00 goes out between that and the first frame.
    fn late_bytes(&mut self) {
        if self.random.percent(50) {
            let turns = self.random.below(60) as u64;
            self.back.hold(self.turns + turns);
        }
        if self.random.percent(70) {
            self.send_behind(&[0]);
        }
    }

    /// The main processor's start: what is on its way is thrown away first, or still comes.
    pub fn start_main(&mut self) -> Result<(), String> {
        self.tally.main_starts += 1;
        self.tally.half_requests += u64::from(!self.supervisor_read.between());
        let before = self.known.requester.newest;
        let kept = self.missed.map_or_else(|| self.random.percent(40), |missed| missed == Missed::Late);
        self.tally.kept_starts += u64::from(kept);
        if !kept {
            self.throw_away()?;
        }
        self.main.start();
        self.known = Known::default();
        self.ledger.main_started();
        self.main_read = Frames::default();
        let turns = self.turns;
        let starts_again = self.random.percent(25).then(|| turns + self.random.below(200) as u64);
        self.caller = Caller { heard_at: turns, starts_again, ..Caller::default() };
        self.stands()?;
        self.count_on(kept.then_some(before));
        if kept {
            self.late_bytes();
        }
        let random = &mut self.random;
        self.mood = Mood { calm: random.percent(50), own_alerts: random.percent(50), reboots: random.percent(30), second: random.pick(&SECONDS) };
        self.note(|| "start main".to_string());
        Ok(())
    }
}
