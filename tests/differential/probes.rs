// Defines the probe list of document 02's item 4 as ordinary Rust, and random updates of one on both sides, compared.
// Assumes the C function of include/oatcastle.h; a fault number of the model changes one rule, so that the comparison itself can be tested.

use crate::library::{self, Probe};
use crate::model::{broken, Fault};
use crate::random::Random;

/// From so many calls on, the comparison fails if one of the cases did not come up.
const DEMANDED: u64 = 5_000;
const CASES: [&str; 7] = ["done", "refused", "an empty list", "no changes", "a part named twice", "a bad change last", "lists of different lengths"];

/// Records ahead of the list and behind it, which no call may change.
const AROUND: usize = 2;

fn allowed(length: usize, (index, result): (usize, u8)) -> bool {
    let within = index < length || broken(Fault::ProbeAtLength) && index == length;
    within && (matches!(result, 0 | 2 | 3) || broken(Fault::ProbeResult1) && result == 1)
}

/// The number that the call answers, and the list that it leaves: each record by the last change that names it.
fn update(list: &[Probe], indices: &[usize], results: &[u8]) -> (u32, Vec<Probe>) {
    let changes: Vec<(usize, u8)> = indices.iter().copied().zip(results.iter().copied()).collect();
    let good = changes.iter().take_while(|&&change| allowed(list.len(), change)).count();
    let paired = indices.len() == results.len() || broken(Fault::ProbeLengths);
    let refused = good < changes.len() || !paired || broken(Fault::ProbeNoChanges) && changes.is_empty();
    let made = match refused {
        true if broken(Fault::ProbeWritesFirst) => &changes[..good],
        true => &[],
        false => &changes[..],
    };
    let record = |(place, own): (usize, &Probe)| {
        let mut named = made.iter().filter(|change| change.0 == place);
        let chosen = if broken(Fault::ProbeEarlierWins) { named.next() } else { named.last() };
        let address = |result| if broken(Fault::ProbeAddress) { result } else { own.address };
        chosen.map_or(*own, |&(_, result)| Probe { address: address(result), result })
    };
    (if refused { 15 } else { 0 }, list.iter().enumerate().map(record).collect())
}

/// A list, and changes of it: mostly good, and in one call out of a few with one bad change at any index.
fn arguments(random: &mut Random) -> (Vec<Probe>, Vec<usize>, Vec<u8>) {
    let few = random.below(6);
    let many = random.below(300);
    let length = random.pick(&[0, 1, few, few, few, many]);
    let list: Vec<Probe> = (0..length).map(|_| Probe { address: random.byte(), result: random.byte() }).collect();
    let count = if random.percent(15) { 0 } else { random.below(8) };
    let mut indices: Vec<usize> = (0..count).map(|_| random.below(length)).collect();
    let mut results: Vec<u8> = (0..count).map(|_| random.pick(&[0, 2, 3])).collect();
    if count > 0 && random.percent(30) {
        let place = if random.percent(50) { count - 1 } else { random.below(count) };
        let far = random.next() as usize;
        match random.below(2) {
            0 => indices[place] = random.pick(&[length, length, length + 1, usize::MAX, far]),
            _ => results[place] = if random.percent(50) { 1 } else { random.byte() },
        }
    }
    match random.below(12) {
        0 => results.push(0),
        1 => drop(results.pop()),
        _ => (),
    }
    (list, indices, results)
}

/// Which of the cases a call is.
fn cases(list: &[Probe], indices: &[usize], results: &[u8], code: u32) -> [bool; 7] {
    let last = indices.len().min(results.len()).saturating_sub(1);
    let paired = indices.len() == results.len();
    let change = |k: usize| (indices[k], results[k]);
    [
        code == 0,
        code == 15,
        list.is_empty(),
        indices.is_empty() && paired,
        code == 0 && (1..indices.len()).any(|k| indices[..k].contains(&indices[k])),
        paired && last > 0 && (0..last).all(|k| allowed(list.len(), change(k))) && !allowed(list.len(), change(last)),
        !paired,
    ]
}

fn bytes(records: &[Probe]) -> Vec<u8> {
    records.iter().flat_map(|record| [record.address, record.result]).collect()
}

/// One call on both sides, the list amid records that must stay.
fn compared(random: &mut Random, met: &mut [u64; 7]) -> Result<(), String> {
    let (list, indices, results) = arguments(random);
    let around = Probe { address: random.byte(), result: random.byte() };
    let mut lent = [&[around; AROUND][..], &list, &[around; AROUND]].concat();
    // The pointers are to slices of these lengths.
    let code = unsafe {
        let inner = &mut lent[AROUND..AROUND + list.len()];
        library::oatcastle_probe_update(inner.as_mut_ptr(), inner.len(), indices.as_ptr(), indices.len(), results.as_ptr(), results.len())
    };
    let (number, left) = update(&list, &indices, &results);
    let words = format!("list of {} records {:02x?}, indices {indices:?}, results {results:?}", list.len(), bytes(&list));
    if code != number {
        return Err(format!("{words}: the model says {number}, the library {code}"));
    }
    crate::calls::same(&words, &bytes(&[&[around; AROUND][..], &left, &[around; AROUND]].concat()), &bytes(&lent))?;
    for (count, case) in met.iter_mut().zip(cases(&list, &indices, &results, code)) {
        *count += u64::from(case);
    }
    Ok(())
}

/// So many random updates.
pub fn compare(seed: u64, count: u64, calls: &mut u64) -> Result<(), String> {
    let mut random = Random(seed ^ 0x7072_6f62);
    let mut met = [0u64; 7];
    for _ in 0..count {
        *calls += 1;
        compared(&mut random, &mut met).map_err(|difference| format!("probe list call {calls}: {difference}"))?;
    }
    let missing: Vec<&str> = CASES.iter().zip(met).filter(|(_, times)| *times == 0).map(|(case, _)| *case).collect();
    if count >= DEMANDED && !missing.is_empty() {
        return Err(format!("probe list calls: not met {missing:?}"));
    }
    Ok(())
}
