//! Readers.
use crate::answer::{Answer, Body, Groups};
use crate::error::{AskError, GroupsError, LineError, ReportError, RowError};
use crate::handle::Held;
use crate::names::Setup;
use crate::raw;
use crate::row::{Row, Value};
use crate::shared::Shared;
use std::sync::Arc;
use std::time::Duration;

/// A reader of a log.
#[derive(Debug)]
pub struct Reader {
    pub(crate) held: Held<raw::Reader>,
    pub(crate) shared: Arc<Shared>,
}

impl Reader {
    pub(crate) fn new(held: Held<raw::Reader>, shared: Arc<Shared>) -> Self {
        Reader { held, shared }
    }

    /// What the setup of the log says.
    #[must_use]
    pub fn setup(&self) -> &Setup {
        &self.shared.setup
    }

    /// The number of the question of that name, if there is one.
    #[must_use]
    pub fn question(&self, name: &str) -> Option<u32> {
        self.shared.setup.question(name)
    }

    /// The number of the index, filter, aggregate or tally of that name, if there is one.
    #[must_use]
    pub fn lane(&self, name: &str) -> Option<u32> {
        self.shared.setup.lane(name)
    }

    /// The place of the attribute of that name among the values of a [`Row`], if there is one.
    #[must_use]
    pub fn attribute(&self, name: &str) -> Option<usize> {
        self.shared.setup.attribute(name)
    }

    /// Asks the question of that name, as [`ask`](Reader::ask) does.
    ///
    /// # Errors
    ///
    /// As for [`ask`](Reader::ask).
    ///
    /// ```
    /// use confluo::{AskError, Log, Sizes};
    ///
    /// let mut log = Log::open("schema records ts:u64\nask all list *\n", Sizes::default())?;
    /// let mut reader = log.reader()?;
    /// assert_eq!(reader.ask_named("all")?.tail, 0);
    /// assert_eq!(reader.ask_named("other"), Err(AskError::NoQuestion));
    /// # Ok::<(), confluo::Error>(())
    /// ```
    pub fn ask_named(&mut self, name: &str) -> Result<Answer, AskError> {
        let number = self.question(name).ok_or(AskError::NoQuestion)?;
        self.ask(number)
    }

    /// Asks the question of that name on the records that the reader has seen, as [`ask_seen`](Reader::ask_seen) does.
    ///
    /// # Errors
    ///
    /// As for [`ask`](Reader::ask).
    pub fn ask_seen_named(&mut self, name: &str) -> Result<Answer, AskError> {
        let number = self.question(name).ok_or(AskError::NoQuestion)?;
        self.ask_seen(number)
    }

    /// Asks the question of that number in the setup, from 0, on all records below the tail.
    ///
    /// # Errors
    ///
    /// [`AskError::NoQuestion`] if the setup has none of that number; [`AskError::Memory`].
    pub fn ask(&mut self, question: u32) -> Result<Answer, AskError> {
        let mut head = raw::Head::default();
        // SAFETY: the memory is ours.
        let code = self
            .held
            .call(|reader| unsafe { raw::confluo_ask(reader, question, &mut head) });
        AskError::check(code)?;
        Ok(self.answer(&head))
    }

    /// Asks the question that a line of the setup's language says, as one more line of the setup, on all records below the tail. Its name
    /// must be new, and the setup must have fewer than 32 questions.
    ///
    /// # Errors
    ///
    /// [`LineError::NoQuestion`] if it is more than one line, says nothing or states something else, [`LineError::Line`] if it is
    /// faulty; [`LineError::Memory`].
    ///
    /// ```
    /// use confluo::{Body, LineError, Log, Sizes};
    ///
    /// let mut log = Log::open("schema records ts:u64,len:u32\n", Sizes::default())?;
    /// let (mut writer, mut reader) = (log.writer()?, log.reader()?);
    /// writer.append_values(0, &[1_000, 60])?;
    /// writer.append_values(1, &[2_000, 90])?;
    /// assert_eq!(reader.ask_text("ask long list len>80")?.body, Body::Places(vec![1]));
    /// assert_eq!(reader.ask_text("index lens len"), Err(LineError::NoQuestion));
    /// assert!(matches!(reader.ask_text("ask long"), Err(LineError::Line(fault)) if fault.code == 3));
    /// # Ok::<(), Box<dyn std::error::Error>>(())
    /// ```
    pub fn ask_text(&mut self, line: &str) -> Result<Answer, LineError> {
        let (mut head, mut fault) = (raw::Head::default(), raw::Fault::default());
        // SAFETY: the memory is ours, and the line as long as said.
        let code = self
            .held
            .call(|reader| unsafe { raw::confluo_ask_text(reader, line.as_ptr(), line.len(), &mut head, &mut fault) });
        LineError::check(code, &fault)?;
        Ok(self.answer(&head))
    }

    /// Asks a question on the records that the reader has seen: those below the tail that [`tail`](Reader::tail) or
    /// [`ask`](Reader::ask) found last, none at first. So all questions of a report have one tail.
    ///
    /// # Errors
    ///
    /// As for [`ask`](Reader::ask).
    ///
    /// ```
    /// use confluo::{Body, Log, Sizes};
    ///
    /// let setup = "schema records ts:u64,len:u32\nask one total len *\nask other list len>50\n";
    /// let mut log = Log::open(setup, Sizes::default())?;
    /// let (mut writer, mut reader) = (log.writer()?, log.reader()?);
    /// writer.append_values(0, &[1_000, 60])?;
    /// let tail = reader.tail();
    /// writer.append_values(1, &[2_000, 90])?;
    /// for question in 0..2 {
    ///     assert_eq!(reader.ask_seen(question)?.tail, tail);
    /// }
    /// assert_eq!(reader.ask(1)?.body, Body::Places(vec![0, 1]));
    /// # Ok::<(), Box<dyn std::error::Error>>(())
    /// ```
    pub fn ask_seen(&mut self, question: u32) -> Result<Answer, AskError> {
        let mut head = raw::Head::default();
        // SAFETY: the memory is ours.
        let code = self
            .held
            .call(|reader| unsafe { raw::confluo_ask_seen(reader, question, &mut head) });
        AskError::check(code)?;
        Ok(self.answer(&head))
    }

    /// All groups of the aggregate or tally of that number among the lanes, on the records that the reader has seen. Groups of several
    /// logs can be [merged](crate::merge), which marks and tops cannot.
    ///
    /// # Errors
    ///
    /// [`GroupsError::NoLane`] if the setup has none of that number, or it is an index, a filter or an aggregate by a key, whose groups a
    /// question gives; [`GroupsError::Memory`].
    pub fn groups(&mut self, lane: u32) -> Result<Groups, GroupsError> {
        let mut head = raw::Head::default();
        // SAFETY: the memory is ours.
        let code = self
            .held
            .call(|reader| unsafe { raw::confluo_groups(reader, lane, &mut head) });
        GroupsError::check(code)?;
        Ok(Groups::of(head.tail, &self.words(&head)))
    }

    /// Reads back the record at that offset.
    ///
    /// # Errors
    ///
    /// [`RowError::NoRow`] if the offset is not below the tail that the reader saw last; [`RowError::Memory`].
    pub fn row(&mut self, offset: u32) -> Result<Row, RowError> {
        // SAFETY: the memory is as long as said.
        row_by(|number, values, length, count| {
            self.held
                .call(|reader| unsafe { raw::confluo_row(reader, offset, number, values, length, count) })
        })
    }

    /// All records that the reader has seen, read back one by one, in the order of their offsets.
    ///
    /// ```
    /// use confluo::{Log, Sizes};
    ///
    /// let mut log = Log::open("schema records ts:u64\n", Sizes::default())?;
    /// let (mut writer, mut reader) = (log.writer()?, log.reader()?);
    /// for number in 7..10 {
    ///     writer.append_values(number, &[1_000])?;
    /// }
    /// reader.tail();
    /// let numbers: Result<Vec<u32>, _> = reader.rows().map(|row| row.map(|it| it.number)).collect();
    /// assert_eq!(numbers?, [7, 8, 9]);
    /// # Ok::<(), confluo::Error>(())
    /// ```
    pub fn rows(&mut self) -> Rows<'_> {
        Rows { reader: self, next: 0 }
    }

    /// The report of the records that the reader has seen, as `confluo run` prints it: how many they are, what each question and trigger
    /// of the setup means on them, and the order in which the writers appended them.
    ///
    /// # Errors
    ///
    /// [`ReportError::Memory`].
    pub fn report(&mut self) -> Result<String, ReportError> {
        // SAFETY: the memory is as long as said.
        report_by(|text, length, count| {
            self.held
                .call(|reader| unsafe { raw::confluo_report(reader, text, length, count) })
        })
    }

    /// How many records are below the tail now.
    pub fn tail(&mut self) -> u32 {
        let mut tail = 0;
        // SAFETY: the memory is ours. The call is refused only for a handle that leads to nothing.
        self.held.call(|reader| unsafe { raw::confluo_tail(reader, &mut tail) });
        tail
    }

    /// Waits until more than `after` records are below the tail, the log is closed, or the time is over, and answers how many are below
    /// the tail then. The thread sleeps meanwhile.
    ///
    /// ```
    /// use confluo::{Log, Sizes};
    /// use std::{thread, time::Duration};
    ///
    /// let mut log = Log::open("schema records ts:u64\n", Sizes::default())?;
    /// let (mut writer, mut reader) = (log.writer()?, log.reader()?);
    /// let appends = thread::spawn(move || writer.append_values(0, &[1_000]));
    /// assert_eq!(reader.wait(0, Duration::from_secs(60)), 1);
    /// appends.join().unwrap()?;
    /// # Ok::<(), confluo::Error>(())
    /// ```
    pub fn wait(&mut self, after: u32, time: Duration) -> u32 {
        let shared = Arc::clone(&self.shared);
        shared.wait(after, time, || self.tail())
    }

    /// The answer of that head, whose words the reader holds.
    fn answer(&mut self, head: &raw::Head) -> Answer {
        let body = Body::of(head.kind, &self.words(head));
        Answer { tail: head.tail, body }
    }

    fn words(&mut self, head: &raw::Head) -> Vec<u64> {
        // SAFETY: the memory is as long as said.
        words_by(head, |words, length| {
            self.held
                .call(|reader| unsafe { raw::confluo_words(reader, 0, words, length) })
        })
    }
}

/// The record that a call shows in memory of its own.
pub(crate) fn row_by(call: impl FnOnce(*mut u32, *mut raw::Value, usize, *mut usize) -> u32) -> Result<Row, RowError> {
    let mut values = vec![raw::Value::default(); MOST_ATTRIBUTES];
    let (mut number, mut count) = (0, 0);
    let length = values.len();
    RowError::check(call(&mut number, values.as_mut_ptr(), length, &mut count))?;
    let values = values.iter().take(count).map(Value::of).collect();
    Ok(Row { number, values })
}

/// The words of the answer of that head, which a call copies.
pub(crate) fn words_by(head: &raw::Head, call: impl FnOnce(*mut u64, usize) -> usize) -> Vec<u64> {
    let length = usize::try_from(head.count).expect("an answer is in memory");
    let mut words = vec![0; length];
    let copied = call(words.as_mut_ptr(), length);
    words.truncate(copied);
    words
}

/// The text of a report, which a call copies.
pub(crate) fn report_by(mut call: impl FnMut(*mut u8, usize, &mut usize) -> u32) -> Result<String, ReportError> {
    let mut text = vec![0; 1 << 16]; // the library makes the text at each call
    loop {
        let mut count = 0;
        ReportError::check(call(text.as_mut_ptr(), text.len(), &mut count))?;
        if count <= text.len() {
            return Ok(String::from_utf8_lossy(&text[..count]).into_owned());
        }
        text.resize(count, 0);
    }
}

/// The records that a reader has seen, from [`Reader::rows`]. It ends after the last one, or after an error.
#[derive(Debug)]
pub struct Rows<'a> {
    reader: &'a mut Reader,
    next: u32,
}

impl Iterator for Rows<'_> {
    type Item = Result<Row, RowError>;

    fn next(&mut self) -> Option<Self::Item> {
        let row = self.reader.row(self.next);
        self.next = if row.is_ok() {
            self.next.saturating_add(1)
        } else {
            u32::MAX
        };
        match row {
            Err(RowError::NoRow) => None,
            row => Some(row),
        }
    }
}

/// How many attributes a schema has at most.
const MOST_ATTRIBUTES: usize = 32;
