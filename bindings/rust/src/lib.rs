//! The confluo log, kept and asked from Rust.
//!
//! A [`Log`] is opened from the text of a setup, which names what is kept and what is asked. It takes a fixed number of
//! records, at most 65,536. A [`Writer`] appends records, a [`Reader`] asks the questions of the setup; each may run in
//! a thread of its own at the same time as all others, and none takes a lock. An [`Answer`] is exactly the
//! question's meaning on the records below the tail that it names. A [`Span`] asks logs that follow one another as one, and a
//! [`Rolling`] log opens them itself.
//!
//! ```
//! use confluo::{Body, Log, Sizes};
//! use std::thread;
//!
//! let setup = "schema records ts:u64,len:u32\nask all total len *\n";
//! let mut log = Log::open(setup, Sizes { writers: 2, ..Sizes::default() })?;
//! let mut reader = log.reader()?;
//! let mut threads = Vec::new();
//! for _ in 0..2 {
//!     let mut writer = log.writer()?;
//!     threads.push(thread::spawn(move || {
//!         for k in 0..100 {
//!             writer.append_values(k, &[1_000 * u64::from(k), 60])?;
//!         }
//!         Ok::<(), confluo::AppendError>(())
//!     }));
//! }
//! for thread in threads {
//!     thread.join().unwrap()?;
//! }
//! let answer = reader.ask(0)?;
//! assert_eq!(answer.tail, 200);
//! assert!(matches!(answer.body, Body::Quad(quad) if quad.sum == 12_000));
//! # Ok::<(), Box<dyn std::error::Error>>(())
//! ```
//!
//! # Threads
//!
//! A log, a writer, a reader and a span may be sent to another thread, by any means, and are used by one thread at a time: they
//! are [`Send`] and not [`Sync`]. They may be dropped in any order; the memory of a log goes with the last of them. A
//! forked child of a process that had threads must not use those of its parent. The deepest call takes less than 64 KiB
//! of stack.
//!
//! ```compile_fail
//! fn shared<T: Sync>() {}
//! shared::<confluo::Reader>();
//! ```
//!
//! # Linking
//!
//! `libconfluo.a` is sought in the folder that the environment variable `CONFLUO_LIB_DIR` names when the crate is built,
//! or else in `bindings/out`, where `make -C bindings archive` puts it. It is for Linux on x86-64. When a log is opened or a setup is checked,
//! its version is compared with the one that this crate was written for: an older one, or one of another major number, is
//! [`OpenError::Version`].
#![deny(missing_docs)]
#![warn(clippy::pedantic)]

mod answer;
mod error;
mod handle;
mod log;
mod names;
mod raw;
mod reader;
mod rolling;
mod row;
mod shared;
mod span;
mod writer;

pub use answer::{merge, Answer, Body, Group, Groups, KeyedGroup, KeyedMark, Mark, Quad, Top};
pub use error::{
    AddError, AppendError, AskError, CloseError, Code, Error, Fault, GroupsError, LineError, MergeError, OpenError,
    ReportError, RowError, SpanError, TakeError,
};
pub use log::{check, Log, Sizes};
pub use names::{Asks, Attribute, Lane, LaneKind, Op, Part, Question, Setup, Trigger};
pub use reader::{Reader, Rows};
pub use rolling::{Placed, Rolling, RollingReader, RollingWriter};
pub use row::{Row, Value};
pub use span::Span;
pub use writer::{Appended, Batch, Capture, Room, Writer};

/// The examples of the documents, which are run as those of the crate are, where they are.
#[cfg(all(doctest, confluo_documents))]
#[doc = include_str!("../../../docs/LIBRARY.md")]
pub struct Documents;

/// The version of the library: 1,000,000 for the major number, 1,000 for the minor one, 1 for the patch.
#[must_use]
pub fn version() -> u32 {
    // SAFETY: the call takes nothing.
    unsafe { raw::confluo_version() }
}
