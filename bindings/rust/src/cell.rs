//! Defines a cell for a `static` whose value is lent once, so that a caller needs no `static mut`.
//! Assumes nothing.

use core::cell::UnsafeCell;
use core::fmt;
use core::sync::atomic::{AtomicBool, Ordering};

/// A value in a `static` that is lent out once, for as long as the program runs.
///
/// ```
/// use oatcastle::{Bsu, StartData, StaticCell, Supervisor, SupervisorStorage};
///
/// static STORAGE: StaticCell<SupervisorStorage> = StaticCell::new(SupervisorStorage::new());
/// static DATA: StartData = StartData::new(Bsu::A).with_image_id(b"1.2.3");
///
/// let storage = STORAGE.take().expect("taken once");
/// let supervisor: Supervisor<'static> = Supervisor::start_in(storage, &DATA);
/// assert!(supervisor.signal());
/// assert!(STORAGE.take().is_none());
/// ```
/// A value that may not be sent to another thread does not compile in a `static` cell:
/// ```compile_fail,E0277
/// static CELL: oatcastle::StaticCell<*const u8> = oatcastle::StaticCell::new(core::ptr::null());
/// ```
pub struct StaticCell<T> {
    taken: AtomicBool,
    value: UnsafeCell<T>,
}

// SAFETY: a shared cell gives its value out at most once, as one `&mut T`, to whichever thread asks first; so T itself need not be shared, only sent.
unsafe impl<T: Send> Sync for StaticCell<T> {}

/// A critical section of the caller's, for processors without atomic exchange (ARMv6-M, RV32IMC).
///
/// ```
/// use oatcastle::Critical;
///
/// /// For one core: interrupts are off while `work` runs, and then as they were.
/// struct InterruptsOff;
///
/// # mod cpu { pub fn disable_interrupts() -> bool { true } pub fn restore_interrupts(_: bool) {} }
/// // SAFETY: there is one core, and no interrupt is taken while `work` runs.
/// unsafe impl Critical for InterruptsOff {
///     fn run(&mut self, work: &mut dyn FnMut()) {
///         let before = cpu::disable_interrupts();
///         work();
///         cpu::restore_interrupts(before);
///     }
/// }
/// # static CELL: oatcastle::StaticCell<u8> = oatcastle::StaticCell::new(7);
/// # assert_eq!(CELL.take_in(InterruptsOff).copied(), Some(7));
/// # assert_eq!(CELL.take_in(InterruptsOff), None);
/// ```
/// It is unsafe to implement, since a cell relies on it; without the word this does not compile:
/// ```compile_fail,E0200
/// struct Nothing;
/// impl oatcastle::Critical for Nothing {
///     fn run(&mut self, work: &mut dyn FnMut()) {
///         work();
///     }
/// }
/// ```
///
/// # Safety
///
/// While `run` calls `work`, nothing else runs that may take the same cell: no interrupt, no other core, no other thread.
pub unsafe trait Critical {
    /// Calls `work` in the critical section.
    fn run(&mut self, work: &mut dyn FnMut());
}

impl<T> StaticCell<T> {
    /// A cell that has not been taken.
    #[must_use]
    pub const fn new(value: T) -> StaticCell<T> {
        StaticCell { taken: AtomicBool::new(false), value: UnsafeCell::new(value) }
    }

    /// The value, at the first call; `None` at every other. It is there where the processor has atomic exchange; elsewhere there is `take_in`.
    #[cfg(target_has_atomic = "8")]
    #[must_use]
    pub fn take(&'static self) -> Option<&'static mut T> {
        self.lend(mark_at_once(&self.taken))
    }

    /// The value, at the first call of this or `take`; `None` at every other. It asks for no atomic exchange, but for a critical section.
    #[must_use]
    pub fn take_in(&'static self, mut critical: impl Critical) -> Option<&'static mut T> {
        let mut first = false;
        critical.run(&mut || first |= mark(&self.taken));
        self.lend(first)
    }

    /// At most one such reference is given out.
    #[allow(clippy::mut_from_ref)]
    fn lend(&'static self, first: bool) -> Option<&'static mut T> {
        // SAFETY: `first` comes from `mark` or `mark_at_once`, which give true once for a cell, so no other reference to the value was or will be made.
        first.then(|| unsafe { &mut *self.value.get() })
    }
}

/// Marks a cell as taken, in a critical section: whether this was the first time. Where the processor has atomic exchange it is used, for `take` may run at once.
fn mark(taken: &AtomicBool) -> bool {
    #[cfg(target_has_atomic = "8")]
    return mark_at_once(taken);
    #[cfg(not(target_has_atomic = "8"))]
    return mark_in_two(taken);
}

#[cfg(target_has_atomic = "8")]
fn mark_at_once(taken: &AtomicBool) -> bool {
    !taken.swap(true, Ordering::AcqRel)
}

/// The same in two steps, between which nothing may come.
#[cfg_attr(target_has_atomic = "8", allow(dead_code))]
pub(crate) fn mark_in_two(taken: &AtomicBool) -> bool {
    let first = !taken.load(Ordering::Acquire);
    taken.store(true, Ordering::Release);
    first
}

impl<T> fmt::Debug for StaticCell<T> {
    fn fmt(&self, out: &mut fmt::Formatter<'_>) -> fmt::Result {
        out.debug_struct("StaticCell").field("taken", &self.taken.load(Ordering::Relaxed)).finish_non_exhaustive()
    }
}
