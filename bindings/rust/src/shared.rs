//! What the handles of a log share.
use crate::names::Setup;
use std::sync::atomic::{AtomicBool, AtomicU32, Ordering};
use std::sync::{Condvar, Mutex, PoisonError};
use std::time::{Duration, Instant};

/// The setup of a log, and its readers that wait.
///
/// A writer appends before it looks whether a reader waits, and a reader says that it waits before it looks at the tail, so one of
/// them sees the other.
#[derive(Debug)]
pub(crate) struct Shared {
    pub setup: Setup,
    waiters: AtomicU32,
    is_closed: AtomicBool,
    lock: Mutex<()>,
    changed: Condvar,
}

impl Shared {
    pub(crate) fn new(setup: Setup) -> Self {
        Shared {
            setup,
            waiters: AtomicU32::new(0),
            is_closed: AtomicBool::new(false),
            lock: Mutex::new(()),
            changed: Condvar::new(),
        }
    }

    /// Wakes the readers that wait, if there are any.
    pub(crate) fn wake(&self) {
        if self.waiters.load(Ordering::SeqCst) > 0 {
            drop(self.lock.lock().unwrap_or_else(PoisonError::into_inner));
            self.changed.notify_all();
        }
    }

    /// No record comes any more.
    pub(crate) fn close(&self) {
        self.is_closed.store(true, Ordering::SeqCst);
        self.wake();
    }

    /// Waits until the tail is above `after`, the log is closed, or the time is over. Answers the tail.
    pub(crate) fn wait<T: Copy + PartialOrd>(&self, after: T, time: Duration, mut tail: impl FnMut() -> T) -> T {
        let began = Instant::now();
        self.waiters.fetch_add(1, Ordering::SeqCst);
        let mut guard = self.lock.lock().unwrap_or_else(PoisonError::into_inner);
        let found = loop {
            let is_closed = self.is_closed.load(Ordering::SeqCst);
            let found = tail();
            let left = time.saturating_sub(began.elapsed());
            if found > after || is_closed || left.is_zero() {
                break found;
            }
            let waited = self.changed.wait_timeout(guard, left);
            guard = waited.unwrap_or_else(PoisonError::into_inner).0;
        };
        drop(guard);
        self.waiters.fetch_sub(1, Ordering::SeqCst);
        found
    }
}
