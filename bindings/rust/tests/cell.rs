// Defines tests of the cell that lends its value once: with atomic exchange, in a critical section, and by the two steps of processors without atomic exchange.
// Assumes a host with threads.

#[path = "../src/cell.rs"]
mod cell;

use cell::{mark_in_two, Critical, StaticCell};
use std::sync::atomic::{AtomicBool, Ordering};
use std::sync::{Barrier, Mutex};

static LOCK: Mutex<()> = Mutex::new(());

/// One thread at a time.
struct Locked;

// SAFETY: only the thread that holds the lock is in `work`, and every taker here goes by it or by atomic exchange.
unsafe impl Critical for Locked {
    fn run(&mut self, work: &mut dyn FnMut()) {
        let _held = LOCK.lock().unwrap();
        work();
    }
}

/// What so many threads that begin at once are given.
fn at_once<T: Send + 'static>(take: impl Fn(usize) -> Option<T> + Sync) -> Vec<T> {
    const THREADS: usize = 8;
    let begin = Barrier::new(THREADS);
    std::thread::scope(|scope| {
        let takers: Vec<_> = (0..THREADS)
            .map(|thread| {
                scope.spawn({
                    let (begin, take) = (&begin, &take);
                    move || {
                        begin.wait();
                        take(thread)
                    }
                })
            })
            .collect();
        takers.into_iter().filter_map(|taker| taker.join().unwrap()).collect()
    })
}

fn cell() -> &'static StaticCell<u64> {
    Box::leak(Box::new(StaticCell::new(7)))
}

#[test]
fn one_taker_has_the_value() {
    for _ in 0..200 {
        let (plain, locked, mixed) = (cell(), cell(), cell());
        assert_eq!(at_once(|_| plain.take()), [&7]);
        assert_eq!(at_once(|_| locked.take_in(Locked)), [&7]);
        assert_eq!(at_once(|thread| if thread % 2 == 0 { mixed.take() } else { mixed.take_in(Locked) }), [&7]);
        assert!(plain.take().is_none() && locked.take_in(Locked).is_none());
        assert_eq!(format!("{mixed:?}"), "StaticCell { taken: true, .. }");
    }
}

/// The two steps in a critical section: one thread is the first.
#[test]
fn one_is_first_by_two_steps() {
    for _ in 0..200 {
        let taken = AtomicBool::new(false);
        let first = |_| {
            let mut first = false;
            Locked.run(&mut || first = mark_in_two(&taken));
            first.then_some(())
        };
        assert_eq!(at_once(first).len(), 1);
        assert!(taken.load(Ordering::Relaxed));
    }
}

/// A section that calls `work` never gives nothing, and one that calls it twice gives the value once.
#[test]
fn a_section_may_call_work_any_number_of_times() {
    struct Times(usize);
    // SAFETY: one thread takes these cells.
    unsafe impl Critical for Times {
        fn run(&mut self, work: &mut dyn FnMut()) {
            (0..self.0).for_each(|_| work());
        }
    }
    let value = cell();
    assert_eq!(value.take_in(Times(0)), None);
    assert_eq!(value.take_in(Times(2)).copied(), Some(7));
    assert_eq!(value.take_in(Times(2)), None);
}
