//! Spans: readers of logs that follow one another.
use crate::answer::{Answer, Body, Groups};
use crate::error::{AddError, AskError, GroupsError, ReportError, RowError, SpanError};
use crate::handle::Held;
use crate::names::Setup;
use crate::raw;
use crate::reader::{report_by, row_by, words_by, Reader};
use crate::row::Row;
use crate::shared::Shared;
use std::sync::Arc;

/// Readers of logs of one setup and the same sizes, each of which goes on where the one before is full. They answer as one reader of one
/// log that has the records of all: offsets count from the first record of the first log, and a tail is how many records are seen
/// together. A log is looked at as soon as all records are seen that the log before it takes, so one that is left before it is full hides
/// those behind it.
///
/// A rolling log keeps the last so many logs:
///
/// ```
/// use confluo::{AppendError, Body, Log, Sizes, Span};
///
/// let setup = "schema records ts:u64,len:u32\nask all total len *\n";
/// let sizes = Sizes { capacity: 100, ..Sizes::default() };
/// let mut log = Log::open(setup, sizes)?;
/// let mut writer = log.writer()?;
/// let mut span = Span::of(log.reader()?).map_err(|(_, refused)| refused)?;
/// for k in 0..1_000 {
///     if writer.append_values(k, &[1_000, 60]) == Err(AppendError::Full) {
///         log = Log::open(setup, sizes)?; // go on in the next log, and keep the last 3
///         writer = log.writer()?;
///         writer.append_values(k, &[1_000, 60])?;
///         span.add(log.reader()?).map_err(|(_, refused)| refused)?;
///         if span.logs() > 3 {
///             span.drop_first();
///         }
///     }
/// }
/// let answer = span.ask_named("all")?;
/// assert!(matches!(answer.body, Body::Quad(quad) if (answer.tail, quad.sum) == (300, 18_000)));
/// # Ok::<(), confluo::Error>(())
/// ```
#[derive(Debug)]
pub struct Span {
    held: Held<raw::Span>,
    shared: Arc<Shared>,
}

impl Span {
    /// A span of the log of one reader, with what that has seen. A reader that is refused comes back.
    ///
    /// # Errors
    ///
    /// [`SpanError::Memory`].
    pub fn of(mut reader: Reader) -> Result<Span, (Reader, SpanError)> {
        let mut held = Held::nothing();
        // SAFETY: the handles are two.
        let code = reader
            .held
            .call(|reader| held.call(|span| unsafe { raw::confluo_span_of(reader, span) }));
        let shared = Arc::clone(&reader.shared);
        match SpanError::check(code) {
            Ok(()) => Ok(Span { held, shared }),
            Err(refused) => Err((reader, refused)),
        }
    }

    /// Adds the reader of the log that comes next, behind the others. A reader that is refused comes back.
    ///
    /// # Errors
    ///
    /// [`AddError::Unlike`] if its log was opened from another text of a setup or with other sizes, else [`AddError::Full`] if the logs
    /// would take more than 2^20 records together; [`AddError::Memory`].
    pub fn add(&mut self, mut reader: Reader) -> Result<(), (Reader, AddError)> {
        // SAFETY: the handles are two.
        let code = self.held.call(|span| {
            reader
                .held
                .call(|reader| unsafe { raw::confluo_span_add(span, reader) })
        });
        AddError::check(code).map_err(|refused| (reader, refused))
    }

    /// Lets the first log go, unless it is the only one, and says whether it did. Offsets count from the log behind it then.
    pub fn drop_first(&mut self) -> bool {
        // SAFETY: the handle is ours. The call is refused if there is only one log.
        self.held.call(|span| unsafe { raw::confluo_span_drop_first(span) }) == raw::OK
    }

    /// How many logs it has.
    #[must_use]
    pub fn logs(&mut self) -> usize {
        let mut logs = 0;
        // SAFETY: the memory is ours. The call is refused only for a handle that leads to nothing.
        self.held
            .call(|span| unsafe { raw::confluo_span_logs(span, &mut logs) });
        logs
    }

    /// What the setup of the logs says.
    #[must_use]
    pub fn setup(&self) -> &Setup {
        &self.shared.setup
    }

    /// How many records are seen of all logs now.
    pub fn tail(&mut self) -> u32 {
        let mut tail = 0;
        // SAFETY: the memory is ours. The call is refused only for a handle that leads to nothing.
        self.held
            .call(|span| unsafe { raw::confluo_span_tail(span, &mut tail) });
        tail
    }

    /// Asks the question of that name, as [`ask`](Span::ask) does.
    ///
    /// # Errors
    ///
    /// As for [`ask`](Span::ask).
    pub fn ask_named(&mut self, name: &str) -> Result<Answer, AskError> {
        let number = self.setup().question(name).ok_or(AskError::NoQuestion)?;
        self.ask(number)
    }

    /// Asks the question of that number in the setup, from 0, on all records below the tail.
    ///
    /// # Errors
    ///
    /// [`AskError::NoQuestion`] if the setup has none of that number; [`AskError::Memory`].
    pub fn ask(&mut self, question: u32) -> Result<Answer, AskError> {
        let mut head = raw::Head::default();
        // SAFETY: the memory is ours.
        let code = self
            .held
            .call(|span| unsafe { raw::confluo_span_ask(span, question, &mut head) });
        AskError::check(code)?;
        Ok(self.answer(&head))
    }

    /// Asks a question on the records that the span has seen: those that [`tail`](Span::tail) or [`ask`](Span::ask) found last.
    ///
    /// # Errors
    ///
    /// As for [`ask`](Span::ask).
    pub fn ask_seen(&mut self, question: u32) -> Result<Answer, AskError> {
        let mut head = raw::Head::default();
        // SAFETY: the memory is ours.
        let code = self
            .held
            .call(|span| unsafe { raw::confluo_span_ask_seen(span, question, &mut head) });
        AskError::check(code)?;
        Ok(self.answer(&head))
    }

    /// All groups of the aggregate or tally of that number among the lanes, on the records that the span has seen.
    ///
    /// # Errors
    ///
    /// [`GroupsError::NoLane`] if the setup has none of that number, or it is an index, a filter or an aggregate by a key;
    /// [`GroupsError::Memory`].
    pub fn groups(&mut self, lane: u32) -> Result<Groups, GroupsError> {
        let mut head = raw::Head::default();
        // SAFETY: the memory is ours.
        let code = self
            .held
            .call(|span| unsafe { raw::confluo_span_groups(span, lane, &mut head) });
        GroupsError::check(code)?;
        Ok(Groups::of(head.tail, &self.words(&head)))
    }

    /// Reads back the record at that offset.
    ///
    /// # Errors
    ///
    /// [`RowError::NoRow`] if the span has seen no record there; [`RowError::Memory`].
    pub fn row(&mut self, offset: u32) -> Result<Row, RowError> {
        // SAFETY: the memory is as long as said.
        row_by(|number, values, length, count| {
            self.held
                .call(|span| unsafe { raw::confluo_span_row(span, offset, number, values, length, count) })
        })
    }

    /// All records that the span has seen, read back one by one, in the order of their offsets. It ends after the last one, or after an
    /// error.
    pub fn rows(&mut self) -> impl Iterator<Item = Result<Row, RowError>> + '_ {
        let mut next = Some(0_u32);
        std::iter::from_fn(move || {
            let row = self.row(next?);
            next = next.filter(|_| row.is_ok()).and_then(|it| it.checked_add(1));
            Some(row).filter(|it| *it != Err(RowError::NoRow))
        })
    }

    /// The report of the records that the span has seen, as [`Reader::report`] gives it of one log that has the records of all.
    ///
    /// # Errors
    ///
    /// [`ReportError::Memory`].
    pub fn report(&mut self) -> Result<String, ReportError> {
        // SAFETY: the memory is as long as said.
        report_by(|text, length, count| {
            self.held
                .call(|span| unsafe { raw::confluo_span_report(span, text, length, count) })
        })
    }

    /// The answer of that head, whose words the span holds.
    fn answer(&mut self, head: &raw::Head) -> Answer {
        let body = Body::of(head.kind, &self.words(head));
        Answer { tail: head.tail, body }
    }

    fn words(&mut self, head: &raw::Head) -> Vec<u64> {
        // SAFETY: the memory is as long as said.
        words_by(head, |words, length| {
            self.held
                .call(|span| unsafe { raw::confluo_span_words(span, 0, words, length) })
        })
    }
}
