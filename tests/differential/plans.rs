// Defines the address plan of document 02, item 9, over numbers of 64 bits, and random plans.
// Assumes nothing but that item; a fault changes one rule, as in the model.

use crate::model::{broken, Fault};
use crate::random::Random;
use std::fmt;

const HIGHEST: u64 = 0xffff_ffff_ffff;
const ROWS: u64 = 8;
pub const ROWS_LENGTH: usize = 48;

#[derive(Clone, Copy)]
pub struct Plan {
    pub base: [u8; 6],
    pub count: u16,
    pub stride: u8,
}

impl fmt::Display for Plan {
    fn fmt(&self, out: &mut fmt::Formatter) -> fmt::Result {
        write!(out, "base {:02x?}, count {}, stride {}", self.base, self.count, self.stride)
    }
}

fn bytes(address: u64) -> [u8; 6] {
    let [_, _, a, b, c, d, e, f] = address.to_be_bytes();
    if broken(Fault::PlanLowestFirst) { [f, e, d, c, b, a] } else { [a, b, c, d, e, f] }
}

impl Plan {
    fn address(&self, i: u64) -> u64 {
        let [a, b, c, d, e, f] = self.base;
        let base = u64::from_be_bytes([0, 0, a, b, c, d, e, f]);
        let sum = base + i * u64::from(self.stride);
        if broken(Fault::PlanCarryOneByte) { base & !0xffff | sum & 0xffff } else { sum }
    }

    pub fn passes(&self) -> bool {
        let mut steps = match u64::from(self.count) {
            0 if broken(Fault::PlanNonePasses) => 1,
            0 => return false,
            count => count - 1,
        };
        if broken(Fault::PlanEightRows) {
            steps = steps.min(ROWS - 1);
        }
        if broken(Fault::PlanOneFurther) {
            steps += 1;
        }
        let last = self.address(steps);
        if broken(Fault::PlanHighestPasses) { last >= HIGHEST } else { last > HIGHEST }
    }

    /// The eight rows, one after the other.
    pub fn rows(&self) -> Vec<u8> {
        let none = self.passes() && !broken(Fault::PlanRowsKept);
        let counted = |i| i < u64::from(self.count) || broken(Fault::PlanPastCount);
        (0..ROWS).flat_map(|i| if counted(i) && !none { bytes(self.address(i)) } else { [0; 6] }).collect()
    }

    /// A random plan: bases whose last bytes carry, and last addresses near the highest, among them.
    pub fn random(random: &mut Random) -> Plan {
        let any = random.next() as u16;
        let count = random.pick(&[0, 1, 2, 7, 8, 9, 65535, any, any % 12]);
        let other = random.byte();
        let stride = random.pick(&[0, 1, 254, 255, other, other]);
        let base = match random.below(3) {
            0 => random.next() & HIGHEST,
            1 => (random.next() & HIGHEST | (1 << (8 * (1 + random.below(5)))) - 1).wrapping_sub(random.below(600) as u64) & HIGHEST,
            _ => {
                let far = u64::from(count.saturating_sub(1)) * u64::from(stride);
                (HIGHEST - far + 2).saturating_sub(random.below(5) as u64).min(HIGHEST)
            }
        };
        let [_, _, a, b, c, d, e, f] = base.to_be_bytes();
        Plan { base: [a, b, c, d, e, f], count, stride }
    }
}
