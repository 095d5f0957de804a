// Defines a second program on the main processor: it looks keys up in version 2, and now and then sets one, over the same wire.
// Assumes document 02's item 5. Its numbers are high ones of its own, or close to those of the main processor's end.

use crate::model::frame;
use crate::simulation::Simulation;

/// Its own numbers begin here.
const OWN_NUMBERS: u64 = 1 << 62;
/// It puts a frame out in one turn of so many.
const SELDOM: usize = 60;

/// What it does beside lookups and sets under numbers of its own, until the next start of the main processor's end.
#[derive(Clone, Copy, Default, PartialEq, Eq)]
pub enum Second {
    #[default]
    Nothing,
    /// It takes numbers close to the newest one of the main processor's end.
    Numbers,
    /// It asks for alerts, and for a reboot.
    Alerts,
    Reboots,
}

pub const SECONDS: [Second; 5] = [Second::Nothing, Second::Nothing, Second::Numbers, Second::Alerts, Second::Reboots];

impl Simulation {
    /// Its request, behind the frames that are on their way.
    pub fn second_program(&mut self) {
        if self.random.below(SELDOM) != 0 {
            return;
        }
        self.tally.second += 1;
        self.serial += 1;
        let number = OWN_NUMBERS + self.serial;
        let key = self.random.pick(&[5, 5, 5, 4, 3]);
        let version = self.random.pick(&[1, 2]);
        let more = if self.random.percent(40) { self.mood.second } else { Second::Nothing };
        let frame = match more {
            Second::Nothing if self.random.percent(3) => frame(version, number, 0x10, &[&[key], &self.value()[..]].concat()),
            Second::Nothing => frame(2, number, 0x0e, &[key, 0xff, 0xff]),
            Second::Numbers => self.colliding(version, key),
            Second::Alerts => frame(version, number, 0x0a, &[]),
            Second::Reboots => frame(version, number, 0x01, &[]),
        };
        self.second_sends(&frame);
    }

    /// A lookup or a status under a number that the main processor's end had, has in use, or will have soon.
    fn colliding(&mut self, version: u32, key: u8) -> Vec<u8> {
        let number = (self.known.requester.newest + self.random.pick(&[0, 1, 2, 2, 3])).saturating_sub(1);
        if self.random.percent(50) { frame(version, number, 0x0e, &[key, 0xff, 0xff]) } else { frame(version, number, 0x08, &[]) }
    }
}
