// Defines where numbers begin behind a start, also close to their end or to the newest before, and what the caller does about 14.
// Assumes document 02's item 2: numbers run to 0x7ffffffffffffffe, an interrupt that is refused changes nothing, and a recovery that ends so forgets the original.

use crate::requester::LAST;
use crate::simulation::Simulation;

/// One start of the main processor's end in so many is close to the last number, and at most so many numbers are left then.
const CLOSE: usize = 4;
const LEFT: usize = 40;
/// Where bytes from before are still on their way, its numbers begin at times so many at most below the newest before.
const BELOW: usize = 4;

impl Simulation {
    /// Behind a start: at times the main processor's end is as if it had been started long ago. Given is the newest number before, where bytes from before still come.
    pub fn count_on(&mut self, before: Option<u64>) {
        let number = if self.random.below(CLOSE) == 0 {
            self.tally.near_starts += 1;
            LAST - self.random.below(LEFT + 1) as u64
        } else if let Some(before) = before.filter(|_| self.random.percent(40)) {
            before.saturating_sub(self.random.below(BELOW) as u64)
        } else {
            return;
        };
        self.main.count_on(number);
        self.known.requester.newest = number;
        self.ledger.counted_on(number);
    }

    /// A request was refused: as 17 where one is outstanding, else as 14 where no number is left.
    pub fn request_refused(&mut self, number: u32) {
        self.tally.outstanding += u64::from(number == 17);
        self.tally.requests_refused += u64::from(number == 14);
        self.caller.refused |= number == 14;
    }

    /// An interrupt was refused as 14.
    pub fn interrupt_refused(&mut self) {
        self.tally.interrupts_refused += 1;
        self.caller.refused = true;
        self.caller.refused_waiting = self.caller.asked_for.is_some();
    }

    /// A recovery ended with 14. The caller's request is then forgotten, and nothing goes out.
    pub fn recovery_ended(&mut self) -> Result<(), String> {
        self.tally.recoveries_ended += 1;
        self.tally.originals_forgotten += u64::from(self.caller.asked_for.is_some());
        self.caller.asked_for = None;
        let frame = self.sends()?;
        if frame.is_empty() { Ok(()) } else { Err("a frame goes out behind a recovery that ended with 14".to_string()) }
    }
}
