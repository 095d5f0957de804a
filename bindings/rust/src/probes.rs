//! Defines the update of the bus driver's probe list.
//! Assumes the C function of `raw`.

use crate::raw::{Length, Probe};
use crate::{checked, lent, lent_mut, raw, Refusal};

// An index of `update_probes` is a `Length` in all but its name, on every target.
const _: () = assert!(size_of::<u64>() == size_of::<Length>() && align_of::<u64>() == align_of::<Length>());

/// Gives the part at each index the result at the same place of `results`, 0, 2 or 3; a part named twice keeps the later one.
///
/// # Errors
///
/// `BadProbe`, and nothing is changed, where one index is at or past the list's length, one result is another, or the two lists differ in length.
/// ```
/// use oatcastle::{update_probes, Probe, Refusal};
///
/// let mut list = [Probe { address: 0x50, result: 9 }, Probe { address: 0x51, result: 9 }];
/// assert_eq!(update_probes(&mut list, &[1], &[2]), Ok(()));
/// assert_eq!(list, [Probe { address: 0x50, result: 9 }, Probe { address: 0x51, result: 2 }]);
/// assert_eq!(update_probes(&mut list, &[2], &[0]), Err(Refusal::BadProbe));
/// ```
pub fn update_probes(list: &mut [Probe], indices: &[u64], results: &[u8]) -> Result<(), Refusal> {
    let (list, indices, results) = (lent_mut(list), lent(indices), lent(results));
    // SAFETY: each pointer is valid for the length behind it, the list overlaps nothing else, and a `Length` has the size and the alignment of a u64.
    checked(unsafe { raw::oatcastle_probe_update(list.0, list.1, indices.0.cast::<Length>(), indices.1, results.0, results.1) })
}
