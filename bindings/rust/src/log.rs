//! Logs.
use crate::error::{CloseError, OpenError, TakeError};
use crate::handle::Held;
use crate::names::{Attribute, Lane, Question, Setup, Trigger};
use crate::raw;
use crate::reader::Reader;
use crate::shared::Shared;
use crate::writer::Writer;
use std::sync::Arc;

/// How large a log is.
#[derive(Clone, Copy, Debug, PartialEq, Eq, Hash)]
pub struct Sizes {
    /// How many records it takes, 1 to 65,536.
    pub capacity: u32,
    /// How many writers it has, 1 to 15.
    pub writers: u32,
    /// How many nodes each writer has, 0 to 65,536: one for each proper prefix of a key that an index or another lane
    /// meets. `docs/GUIDE.md` says how many a capture needs.
    pub nodes: u32,
}

impl Default for Sizes {
    /// 65,536 records by one writer of 4,096 nodes.
    fn default() -> Self {
        Sizes {
            capacity: 65_536,
            writers: 1,
            nodes: 4_096,
        }
    }
}

impl Sizes {
    fn raw(self) -> raw::Sizes {
        raw::Sizes {
            capacity: self.capacity,
            writers: self.writers,
            nodes: self.nodes,
            reserved: 0,
        }
    }
}

/// How many bytes the words of a log of this setup and these sizes would take. Nothing is opened.
///
/// # Errors
///
/// As for [`Log::open`].
///
/// ```
/// let sizes = confluo::Sizes::default();
/// assert!(confluo::check("schema packet\n", sizes)? > 10_000_000);
/// let said = confluo::check("schema packet\nindex\n", sizes).unwrap_err().to_string();
/// assert!(said.starts_with("the setup is faulty: line 2, code 3: a statement has its words"));
/// # Ok::<(), confluo::OpenError>(())
/// ```
pub fn check(setup: &str, sizes: Sizes) -> Result<u64, OpenError> {
    OpenError::check_version()?;
    let (mut bytes, mut fault) = (0, raw::Fault::default());
    // SAFETY: the memory is ours, and the text as long as said.
    let code = unsafe { raw::confluo_check(setup.as_ptr(), setup.len(), &sizes.raw(), &mut bytes, &mut fault) };
    OpenError::check(code, &fault)?;
    Ok(bytes)
}

/// A log, of which writers and readers are taken.
#[derive(Debug)]
pub struct Log {
    held: Held<raw::Log>,
    shared: Arc<Shared>,
}

impl Log {
    /// Opens a log of the setup.
    ///
    /// # Errors
    ///
    /// [`OpenError::Version`] if the library is none for this crate, [`OpenError::Setup`] if the text is no setup, else
    /// [`OpenError::Sizes`] if a size is out of range; [`OpenError::Memory`].
    pub fn open(setup: &str, sizes: Sizes) -> Result<Log, OpenError> {
        OpenError::check_version()?;
        let (mut held, mut fault) = (Held::nothing(), raw::Fault::default());
        // SAFETY: the memory is ours, and the text as long as said.
        let code =
            held.call(|log| unsafe { raw::confluo_open(log, setup.as_ptr(), setup.len(), &sizes.raw(), &mut fault) });
        OpenError::check(code, &fault)?;
        let mut width = 0;
        // SAFETY: the memory is ours. The call is refused only for a handle that leads to nothing.
        held.call(|log| unsafe { raw::confluo_width(log, &mut width) });
        let setup = Setup {
            text: setup.to_owned(),
            width,
            attributes: named(&mut held, raw::ATTRIBUTES, Attribute::of),
            lanes: named(&mut held, raw::LANES, Lane::of),
            triggers: named(&mut held, raw::TRIGGERS, Trigger::of),
            questions: named(&mut held, raw::QUESTIONS, Question::of),
        };
        let shared = Arc::new(Shared::new(setup));
        Ok(Log { held, shared })
    }

    /// Takes a writer that is not taken, that of the greatest number. A writer that is dropped, in whatever thread, can be taken again.
    ///
    /// # Errors
    ///
    /// [`TakeError::NoWriter`] if all are taken; [`TakeError::Memory`].
    ///
    /// ```
    /// use confluo::{Log, Sizes, TakeError};
    ///
    /// let mut log = Log::open("schema records ts:u64\n", Sizes::default())?;
    /// let mut writer = log.writer()?;
    /// assert_eq!(log.writer().err(), Some(TakeError::NoWriter));
    /// std::thread::spawn(move || writer.append_values(0, &[1_000])).join().unwrap()?;
    /// assert_eq!(log.writer()?.append_values(1, &[2_000])?, 1);
    /// # Ok::<(), Box<dyn std::error::Error>>(())
    /// ```
    pub fn writer(&mut self) -> Result<Writer, TakeError> {
        let (mut writer, mut number) = (Held::nothing(), 0);
        // SAFETY: the handles are two, and the number is ours.
        let code = self
            .held
            .call(|log| writer.call(|writer| unsafe { raw::confluo_take_writer(log, writer, &mut number) }));
        TakeError::check(code)?;
        Ok(Writer::new(writer, number, Arc::clone(&self.shared)))
    }

    /// Takes a reader. Take as many as you like.
    ///
    /// # Errors
    ///
    /// [`TakeError::Memory`].
    pub fn reader(&mut self) -> Result<Reader, TakeError> {
        let mut reader = Held::nothing();
        // SAFETY: the handles are two.
        let code = self
            .held
            .call(|log| reader.call(|reader| unsafe { raw::confluo_take_reader(log, reader) }));
        TakeError::check(code)?;
        Ok(Reader::new(reader, Arc::clone(&self.shared)))
    }

    /// Closes the log, once all its writers are dropped: no record comes to it any more. The reader that is left has seen every record;
    /// [`Reader::ask_seen`] gives the final answers, and [`Reader::report`] their text with the history of the log. Other readers may
    /// stay. A log that is not closed comes back.
    ///
    /// # Errors
    ///
    /// [`CloseError::Busy`] while a writer is taken; [`CloseError::Memory`].
    ///
    /// ```
    /// use confluo::{CloseError, Log, Sizes};
    ///
    /// let mut log = Log::open("schema records ts:u64\nask all list *\n", Sizes::default())?;
    /// let mut writer = log.writer()?;
    /// writer.append_values(7, &[1_000])?;
    /// let (log, refused) = log.close().unwrap_err();
    /// assert_eq!(refused, CloseError::Busy);
    /// drop(writer);
    /// let mut reader = log.close().map_err(|(_, refused)| refused)?;
    /// assert_eq!(reader.report()?, "records 1\nask all list 1: 7\norder 0*1\n");
    /// # Ok::<(), Box<dyn std::error::Error>>(())
    /// ```
    pub fn close(mut self) -> Result<Reader, (Log, CloseError)> {
        let mut reader = Held::nothing();
        // SAFETY: the handles are two.
        let code = self
            .held
            .call(|log| reader.call(|reader| unsafe { raw::confluo_close(log, reader) }));
        match CloseError::check(code) {
            Ok(()) => {
                self.shared.close();
                Ok(Reader::new(reader, Arc::clone(&self.shared)))
            }
            Err(refused) => Err((self, refused)),
        }
    }

    /// What the setup says.
    #[must_use]
    pub fn setup(&self) -> &Setup {
        &self.shared.setup
    }

    /// The number of the question of that name, if there is one.
    #[must_use]
    pub fn question(&self, name: &str) -> Option<u32> {
        self.shared.setup.question(name)
    }
}

/// All things of a sort that the setup names.
fn named<T>(held: &mut Held<raw::Log>, sort: u32, made: impl Fn(String, &raw::About) -> T) -> Vec<T> {
    let mut found = Vec::new();
    for number in 0.. {
        let (mut name, mut count, mut about) = ([0; 32], 0, raw::About::default());
        // SAFETY: the memory is ours, and as long as said.
        let code = held.call(|log| unsafe {
            match raw::confluo_name(log, sort, number, name.as_mut_ptr(), name.len(), &mut count) {
                raw::OK => raw::confluo_tell(log, sort, number, &mut about),
                code => code,
            }
        });
        if code != raw::OK {
            break;
        }
        let name = &name[..count.min(name.len())];
        found.push(made(String::from_utf8_lossy(name).into_owned(), &about));
    }
    found
}
