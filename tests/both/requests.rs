// Defines what the main processor's caller asks for: all requests, some that the supervisor cannot decode, and values that tell sets apart.
// Assumes document 01's commands.

use crate::limits;
use crate::simulation::{Simulation, IMAGE_LENGTH};

impl Simulation {
    /// A value that no other setting has.
    pub fn value(&mut self) -> Vec<u8> {
        self.serial += 1;
        let more = match self.random.below(50) {
            0 => self.random.below(4_000),
            1..=5 => 100 + self.random.below(400),
            6..=25 => 0,
            _ => self.random.below(20),
        };
        [format!("list {}", self.serial).as_bytes(), &self.random.bytes(more)].concat()
    }

    pub fn request(&mut self) -> (u8, Vec<u8>) {
        let few = self.random.below(20) as u8;
        let most = self.random.pick(&[65_535u16, 65_535, 65_535, 12, 0]).to_le_bytes();
        match self.random.below(1_000) {
            0..=399 => (0x0e, vec![5, most[0], most[1]]),
            400..=599 => (0x10, [&[5], &self.value()[..]].concat()),
            600..=649 => (0x0e, vec![few % 7, most[0], most[1]]),
            650..=699 => (0x10, [&[few % 7], &self.value()[..]].concat()),
            700..=769 if self.mood.own_alerts => (0x0a, Vec::new()),
            700..=819 => (0x08, Vec::new()),
            820..=849 => (0x09, Vec::new()),
            850..=909 => (self.random.pick(&[0x03, 0x04, 0x05]), Vec::new()),
            910..=929 => (0x0f, u32::from(few / 6).to_le_bytes().to_vec()),
            930..=944 => {
                let offset = self.random.pick(&[0, 1_000, IMAGE_LENGTH as u64 - 300, IMAGE_LENGTH as u64]);
                let hash = &self.start_data[limits::START_IMAGE_HASH..][..32];
                (0x0d, [hash, &offset.to_le_bytes()].concat())
            }
            945..=964 => (0x07, self.random.bytes(2 + usize::from(few))),
            965..=974 => (0x06, self.random.bytes(1 + usize::from(few))),
            975..=989 if self.mood.reboots => (0x01, Vec::new()),
            990..=998 if self.mood.reboots => (0x02, Vec::new()),
            // one that the supervisor cannot decode, at times
            _ if self.random.percent(90) => (0x03, Vec::new()),
            _ => (self.random.pick(&[0x0b, 0x0c, 0x05]), vec![few]),
        }
    }
}
