//! A handle that is owned, and how it goes from thread to thread.
use crate::raw::Handle;
use std::fmt::{self, Debug, Formatter};
use std::sync::atomic::{AtomicBool, Ordering};

/// A handle, which is freed when it is dropped.
///
/// The library wants a handle to go to another thread by a start, a join, a lock, or a sequentially consistent atomic. Safe
/// Rust may also send it by less, as channels do. So each call ends with a sequentially consistent store to `baton`, and the next one
/// begins with a load of it: whatever brought the handle to another thread, the load sees that store.
pub(crate) struct Held<H: Handle> {
    handle: H,
    baton: AtomicBool,
}

// SAFETY: the library lets a handle go to another thread in the way that `call` takes.
unsafe impl<H: Handle> Send for Held<H> {}

impl<H: Handle> Held<H> {
    /// A handle that leads to nothing.
    pub(crate) fn nothing() -> Self {
        Held {
            handle: H::NOTHING,
            baton: AtomicBool::new(false),
        }
    }

    /// Calls the library with the handle.
    pub(crate) fn call<R>(&mut self, call: impl FnOnce(&mut H) -> R) -> R {
        self.baton.load(Ordering::SeqCst);
        let result = call(&mut self.handle);
        self.baton.store(true, Ordering::SeqCst);
        result
    }
}

impl<H: Handle> Drop for Held<H> {
    fn drop(&mut self) {
        // SAFETY: the handle is as the last call left it, and nothing uses it afterwards.
        self.call(|handle| unsafe { handle.free() });
    }
}

impl<H: Handle> Debug for Held<H> {
    fn fmt(&self, out: &mut Formatter<'_>) -> fmt::Result {
        out.write_str("..")
    }
}
