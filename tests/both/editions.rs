// Defines the values that lookups found at each edition of keys 3, 4 and 5, as the supervisor carried them out.
// Assumes `same-edition-same-list`: between a start or an accepted restore and the next, an edition is that of one value.

use crate::claims::{Claim, Claims};
use crate::heard::{FIRST_KEY, KEYS};
use crate::model::LAST_EDITION;
use crate::tally::tally;
use std::collections::HashMap;

tally! {
    last: "lookups at the last edition, as one before",
    on_wire: "lookups in version 2 that found a value",
    local: "local lookups that found a value",
}

#[derive(Default)]
pub struct Editions {
    values: [HashMap<u32, Vec<u8>>; KEYS],
    pub tally: Tally,
}

impl Editions {
    /// The supervisor's start, or a restore that it accepted.
    pub fn begun_anew(&mut self) {
        self.values.iter_mut().for_each(HashMap::clear);
    }

    /// A lookup of a key with result 0.
    pub fn found(&mut self, key: u8, edition: u32, value: &[u8], claims: &mut Claims) -> Result<(), String> {
        let Some(values) = key.checked_sub(FIRST_KEY).and_then(|place| self.values.get_mut(usize::from(place))) else { return Ok(()) };
        let Some(before) = values.get(&edition) else {
            values.insert(edition, value.to_vec());
            return Ok(());
        };
        self.tally.last += u64::from(edition == LAST_EDITION);
        let said = if before == value { Ok(()) } else { Err(format!("key {key} has two values at edition {edition}")) };
        claims.settle(Claim::SameEdition, true, said)
    }
}
