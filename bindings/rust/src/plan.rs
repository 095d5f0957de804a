//! Defines the address plan.
//! Assumes the C functions of `raw`.

use crate::limits::{ADDRESS_LENGTH, ADDRESS_ROWS};
use crate::{checked, done, lent_mut, raw, Refusal};

/// A base, how many addresses are counted from it on, and their distance.
///
/// ```
/// let plan = oatcastle::AddressPlan { base: [2, 0, 0, 0, 0xff, 0xff], count: 2, stride: 1 };
/// assert_eq!(plan.fits(), Ok(()));
/// assert_eq!(plan.addresses()[..3], [[2, 0, 0, 0, 0xff, 0xff], [2, 0, 0, 1, 0, 0], [0; 6]]);
/// ```
#[derive(Clone, Copy, Debug, PartialEq, Eq)]
pub struct AddressPlan {
    /// The most significant byte first.
    pub base: [u8; ADDRESS_LENGTH],
    /// How many addresses, the base the first of them.
    pub count: u16,
    /// From each address to the next.
    pub stride: u8,
}

impl AddressPlan {
    /// The first eight addresses; rows past the count are zero, and all are where `fits` refuses.
    #[must_use]
    pub fn addresses(&self) -> [[u8; ADDRESS_LENGTH]; ADDRESS_ROWS] {
        let mut rows = [[0; ADDRESS_LENGTH]; ADDRESS_ROWS];
        let room = lent_mut(rows.as_flattened_mut());
        // SAFETY: the pointers are to an address and to as many bytes as the length behind it says, and these do not overlap.
        done(unsafe { raw::oatcastle_addresses(self.base.as_ptr(), self.count, self.stride, room.0, room.1) });
        rows
    }

    /// Whether every counted address is at most ff:ff:ff:ff:ff:ff.
    ///
    /// # Errors
    ///
    /// `PlanPasses` where the last counted address passes that.
    pub fn fits(&self) -> Result<(), Refusal> {
        // SAFETY: the pointer is to an address.
        checked(unsafe { raw::oatcastle_plan(self.base.as_ptr(), self.count, self.stride) })
    }
}
