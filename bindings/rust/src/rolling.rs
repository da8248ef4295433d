//! Logs that go on in their next segment by themselves.
use crate::answer::{Answer, Groups};
use crate::error::{AppendError, AskError, Code, GroupsError, OpenError, ReportError, RowError, SpanError, TakeError};
use crate::log::{Log, Sizes};
use crate::names::Setup;
use crate::raw;
use crate::reader::Reader;
use crate::row::{Row, Value};
use crate::shared::Shared;
use crate::span::Span;
use crate::writer::{Batch, Capture, Writer};
use std::collections::VecDeque;
use std::sync::atomic::{AtomicU64, Ordering};
use std::sync::{Arc, Mutex, MutexGuard, PoisonError};
use std::time::Duration;

/// How many records a span takes at most.
const MOST_RECORDS: u64 = 1 << 20;

/// A log of segments, each a [`Log`] of one setup and the same sizes: a writer that finds its segment full opens the next one, and goes on
/// there.
///
/// If it keeps all segments (`keep` is 0), they take at most 2^20 records in all, and then it is [full](AppendError::Full). Else it keeps the
/// last `keep` ones, and there is no end.
///
/// A record has a place among all that were ever appended. What a reader sees begins with its first segment: offsets and tails count from
/// there, and [`before`](RollingReader::before) is the place of its offset 0. A reader sees the records of a segment once it has seen all
/// that the segment before it takes: a slow writer delays what comes after its record, and nothing is lost, unless its segment is let go.
///
/// The calls of the library for logs and spans are proved; the list of segments is tested. It is shared by all threads. Appends within a
/// segment and questions take no lock; who comes to another segment takes one for a moment, in which none is opened or freed.
///
/// ```
/// use confluo::{Body, Rolling, Sizes};
///
/// let setup = "schema records ts:u64,len:u32\nask all total len *\n";
/// let sizes = Sizes { capacity: 100, ..Sizes::default() };
/// let rolling = Rolling::open(setup, sizes, 3)?; // the last 3 segments
/// let (mut writer, mut reader) = (rolling.writer()?, rolling.reader()?);
/// for k in 0..1_000 {
///     assert_eq!(writer.append_values(k, &[1_000, 60])?, u64::from(k));
/// }
/// let answer = reader.ask_named("all")?;
/// assert!(matches!(answer.body, Body::Quad(quad) if (answer.tail, quad.sum) == (300, 18_000)));
/// assert_eq!(reader.before(), 700);
/// # Ok::<(), confluo::Error>(())
/// ```
#[derive(Debug)]
pub struct Rolling {
    core: Arc<Core>,
}

impl Rolling {
    /// Opens a rolling log, whose segments have these sizes. `keep` is how many are kept; 0: all.
    ///
    /// # Errors
    ///
    /// As for [`Log::open`]; [`OpenError::Sizes`] also if `keep` is not 0 and `keep + 1` segments take more than 2^20 records.
    pub fn open(setup: &str, sizes: Sizes, keep: u32) -> Result<Rolling, OpenError> {
        let log = Log::open(setup, sizes)?;
        if keep != 0 && (u64::from(keep) + 1) * u64::from(sizes.capacity) > MOST_RECORDS {
            return Err(OpenError::Sizes);
        }
        let shared = Shared::new(log.setup().clone());
        let first = Segment::of(log, 0, sizes.writers).map_err(|refused| opening(refused.code()))?;
        let core = Core {
            sizes,
            keep: u64::from(keep),
            shared,
            newest: AtomicU64::new(0),
            segments: Mutex::new(VecDeque::from([Arc::new(first)])),
            free: Mutex::new((1 << sizes.writers) - 1),
        };
        Ok(Rolling { core: Arc::new(core) })
    }

    /// Takes a writer that is not taken, that of the greatest number. A writer that is dropped can be taken again.
    ///
    /// # Errors
    ///
    /// [`TakeError::NoWriter`] if all are taken.
    pub fn writer(&self) -> Result<RollingWriter, TakeError> {
        let number = self.core.take_number().ok_or(TakeError::NoWriter)?;
        let segment = self.core.newest();
        let held = segment.take(number);
        let core = Arc::clone(&self.core);
        Ok(RollingWriter {
            held,
            number,
            segment,
            core,
        })
    }

    /// Takes a reader of all segments that are kept. It has seen the records that are below the tail now. Take as many as you like.
    ///
    /// # Errors
    ///
    /// [`SpanError::Memory`].
    pub fn reader(&self) -> Result<RollingReader, SpanError> {
        let first = Arc::clone(&lock(&self.core.segments)[0]);
        let span = Span::of(first.reader()?).map_err(|(_, refused)| refused)?;
        let core = Arc::clone(&self.core);
        let mut reader = RollingReader {
            span,
            last: first.number,
            core,
        };
        reader.tail()?;
        Ok(reader)
    }

    /// What the setup says.
    #[must_use]
    pub fn setup(&self) -> &Setup {
        &self.core.shared.setup
    }
}

/// What a writer uses of a segment: the segment's writer of its number, and a reader that says whether the segment is full.
#[derive(Debug)]
struct Used {
    writer: Writer,
    probe: Reader,
}

/// A log, its number among the segments, and what its writers use, each under its number.
#[derive(Debug)]
struct Segment {
    number: u64,
    log: Mutex<Log>,
    parts: Mutex<Vec<Option<Used>>>,
}

impl Segment {
    fn of(mut log: Log, number: u64, writers: u32) -> Result<Self, TakeError> {
        let mut parts = Vec::new();
        for _ in 0..writers {
            let (writer, probe) = (log.writer()?, log.reader()?);
            parts.push(Used { writer, probe });
        }
        parts.sort_by_key(|it| it.writer.number());
        let parts = Mutex::new(parts.into_iter().map(Some).collect());
        let log = Mutex::new(log);
        Ok(Segment { number, log, parts })
    }

    fn reader(&self) -> Result<Reader, SpanError> {
        lock(&self.log).reader().map_err(|refused| spanning(refused.code()))
    }

    /// What is under that number. Whoever has the number takes it once, and puts it back if the number goes to another.
    fn take(&self, number: u32) -> Option<Used> {
        lock(&self.parts)[number as usize].take()
    }
}

/// What the parts of a rolling log share.
#[derive(Debug)]
struct Core {
    sizes: Sizes,
    keep: u64,
    shared: Shared,
    newest: AtomicU64, // the number of the last segment
    segments: Mutex<VecDeque<Arc<Segment>>>,
    free: Mutex<u32>, // the numbers of writers that are not taken, as bits
}

impl Core {
    fn capacity(&self) -> u64 {
        u64::from(self.sizes.capacity)
    }

    fn take_number(&self) -> Option<u32> {
        let mut free = lock(&self.free);
        let number = (u32::BITS - free.leading_zeros()).checked_sub(1)?;
        *free ^= 1 << number;
        Some(number)
    }

    fn newest(&self) -> Arc<Segment> {
        let segments = lock(&self.segments);
        Arc::clone(&segments[segments.len() - 1])
    }

    /// The segments behind that number that are kept.
    fn after(&self, number: u64) -> Vec<Arc<Segment>> {
        if self.newest.load(Ordering::SeqCst) == number {
            return Vec::new();
        }
        let segments = lock(&self.segments);
        segments.iter().filter(|it| it.number > number).cloned().collect()
    }

    /// Opens the segment after that one, unless it is there, and lets those go that are beyond the last ones which are kept.
    fn extend(&self, full: u64) -> Result<(), AppendError> {
        if self.newest.load(Ordering::SeqCst) > full {
            return Ok(());
        }
        if self.keep == 0 && (full + 2) * self.capacity() > MOST_RECORDS {
            return Err(AppendError::Full);
        }
        let made = match self.next(full + 1) {
            Ok(made) => Arc::new(made),
            Err(_) if self.newest.load(Ordering::SeqCst) > full => return Ok(()),
            Err(refused) => return Err(refused),
        };
        let mut gone = Vec::new(); // freed when the list is not held any more
        let mut segments = lock(&self.segments);
        if self.newest.load(Ordering::SeqCst) == full {
            segments.push_back(made);
            self.newest.store(full + 1, Ordering::SeqCst);
        }
        while self.keep != 0 && segments.len() as u64 > self.keep {
            gone.extend(segments.pop_front());
        }
        drop(segments);
        Ok(())
    }

    fn next(&self, number: u64) -> Result<Segment, AppendError> {
        let log = Log::open(&self.shared.setup.text, self.sizes).map_err(|refused| appending(refused.code()))?;
        Segment::of(log, number, self.sizes.writers).map_err(|refused| appending(refused.code()))
    }
}

/// A writer of a rolling log. Its calls answer the place of the record.
#[derive(Debug)]
pub struct RollingWriter {
    held: Option<Used>, // always there, but while it is dropped
    number: u32,
    segment: Arc<Segment>,
    core: Arc<Core>,
}

impl RollingWriter {
    /// Its own number, which it has in all segments.
    #[must_use]
    pub fn number(&self) -> u32 {
        self.number
    }

    /// Appends the record of a captured frame, as [`Writer::append`] does.
    ///
    /// # Errors
    ///
    /// As there, but for [`AppendError::Full`], which comes only if all segments are kept and there is no room for another, for good.
    /// [`AppendError::Nodes`]: the writer has too few nodes left in this segment; in the next one it has all again.
    pub fn append(&mut self, capture: &Capture, bytes: &[u8]) -> Result<u64, AppendError> {
        self.append_by(|writer| writer.append(capture, bytes))
    }

    /// Appends a record of numbers, as [`Writer::append_values`] does.
    ///
    /// # Errors
    ///
    /// As there, but for full segments, as for [`append`](RollingWriter::append).
    pub fn append_values(&mut self, number: u32, values: &[u64]) -> Result<u64, AppendError> {
        self.append_by(|writer| writer.append_values(number, values))
    }

    /// Appends a record of values, as [`Writer::append_row`] does.
    ///
    /// # Errors
    ///
    /// As there, but for full segments, as for [`append`](RollingWriter::append).
    pub fn append_row(&mut self, number: u32, values: &[Value]) -> Result<u64, AppendError> {
        self.append_by(|writer| writer.append_row(number, values))
    }

    /// Appends the frames of a batch from that one on, as [`Writer::append_many`] does, until one is refused.
    pub fn append_many(&mut self, batch: &Batch, from: usize) -> Placed {
        let mut places = Vec::new();
        let refused = loop {
            let base = self.base();
            let done = match &mut self.held {
                Some(used) => used.writer.append_many(batch, from + places.len()),
                None => break Some(AppendError::Full),
            };
            places.extend(done.offsets.iter().map(|it| base + u64::from(*it)));
            match done.refused {
                None => break None,
                Some(refused) => match self.go_on(refused) {
                    Ok(()) => (),
                    Err(refused) => break Some(refused),
                },
            }
        };
        self.core.shared.wake();
        Placed { places, refused }
    }

    /// Appends by a call, in the next segment if this one is full, and wakes the readers that wait.
    fn append_by(&mut self, mut call: impl FnMut(&mut Writer) -> Result<u32, AppendError>) -> Result<u64, AppendError> {
        let place = loop {
            let base = self.base();
            let done = match &mut self.held {
                Some(used) => call(&mut used.writer),
                None => Err(AppendError::Full),
            };
            match done {
                Ok(offset) => break Ok(base + u64::from(offset)),
                Err(refused) => match self.go_on(refused) {
                    Ok(()) => (),
                    Err(refused) => break Err(refused),
                },
            }
        };
        self.core.shared.wake();
        place
    }

    /// The place of the first record of its segment.
    fn base(&self) -> u64 {
        self.segment.number * self.core.capacity()
    }

    /// Goes to the newest segment, if what was refused says that this one is full; else that is the answer.
    fn go_on(&mut self, refused: AppendError) -> Result<(), AppendError> {
        let is_full = match refused {
            AppendError::Full => true,
            AppendError::Nodes => self.is_full(), // a full log may say so too
            _ => false,
        };
        if !is_full {
            return Err(refused);
        }
        self.core.extend(self.segment.number)?;
        self.segment = self.core.newest();
        self.held = self.segment.take(self.number);
        Ok(())
    }

    fn is_full(&mut self) -> bool {
        let is_left = self.core.newest.load(Ordering::SeqCst) > self.segment.number;
        let tail = self.held.as_mut().map_or(0, |used| used.probe.tail());
        is_left || tail == self.core.sizes.capacity
    }
}

impl Drop for RollingWriter {
    /// Its number can be taken again, with what it used of its segment.
    fn drop(&mut self) {
        lock(&self.segment.parts)[self.number as usize] = self.held.take();
        *lock(&self.core.free) |= 1 << self.number;
    }
}

/// What came of a batch in a rolling log.
#[derive(Clone, Debug, PartialEq, Eq, Hash)]
pub struct Placed {
    /// The places of the frames that were appended.
    pub places: Vec<u64>,
    /// Why the next frame was not appended, unless all were.
    pub refused: Option<AppendError>,
}

/// A reader of a rolling log, which asks its segments as one log. It looks for new segments, and lets those go that are beyond the last ones
/// which are kept, when it looks at the tail: in [`tail`](RollingReader::tail), [`ask`](RollingReader::ask) and
/// [`wait`](RollingReader::wait).
#[derive(Debug)]
pub struct RollingReader {
    span: Span,
    last: u64, // the number of the span's last segment
    core: Arc<Core>,
}

impl RollingReader {
    /// What the setup says.
    #[must_use]
    pub fn setup(&self) -> &Setup {
        &self.core.shared.setup
    }

    /// How many segments it has.
    #[must_use]
    pub fn segments(&mut self) -> usize {
        self.span.logs()
    }

    /// The place of its offset 0: how many records are in the segments before its first one.
    #[must_use]
    pub fn before(&mut self) -> u64 {
        (self.last + 1 - self.span.logs() as u64) * self.core.capacity()
    }

    /// How many records are below the tail now, from its first segment on.
    ///
    /// # Errors
    ///
    /// [`SpanError::Memory`].
    pub fn tail(&mut self) -> Result<u32, SpanError> {
        self.follow()?;
        Ok(self.span.tail())
    }

    /// Asks the question of that number in the setup, from 0, on all records below the tail.
    ///
    /// # Errors
    ///
    /// [`AskError::NoQuestion`] if the setup has none of that number; [`AskError::Memory`].
    pub fn ask(&mut self, question: u32) -> Result<Answer, AskError> {
        self.follow().map_err(|refused| asking(refused.code()))?;
        self.span.ask(question)
    }

    /// Asks the question of that name, as [`ask`](RollingReader::ask) does.
    ///
    /// # Errors
    ///
    /// As for [`ask`](RollingReader::ask).
    pub fn ask_named(&mut self, name: &str) -> Result<Answer, AskError> {
        let number = self.setup().question(name).ok_or(AskError::NoQuestion)?;
        self.ask(number)
    }

    /// Asks a question on the records that it has seen: those that the last look at the tail found.
    ///
    /// # Errors
    ///
    /// As for [`ask`](RollingReader::ask).
    pub fn ask_seen(&mut self, question: u32) -> Result<Answer, AskError> {
        self.span.ask_seen(question)
    }

    /// All groups of the aggregate or tally of that number among the lanes, on the records that it has seen.
    ///
    /// # Errors
    ///
    /// As for [`Span::groups`].
    pub fn groups(&mut self, lane: u32) -> Result<Groups, GroupsError> {
        self.span.groups(lane)
    }

    /// The report of the records that it has seen, as [`Span::report`] gives it.
    ///
    /// # Errors
    ///
    /// [`ReportError::Memory`].
    pub fn report(&mut self) -> Result<String, ReportError> {
        self.span.report()
    }

    /// Reads back the record at that offset.
    ///
    /// # Errors
    ///
    /// [`RowError::NoRow`] if it has seen no record there; [`RowError::Memory`].
    pub fn row(&mut self, offset: u32) -> Result<Row, RowError> {
        self.span.row(offset)
    }

    /// All records that it has seen, read back one by one, in the order of their offsets. It ends after the last one, or after an error.
    pub fn rows(&mut self) -> impl Iterator<Item = Result<Row, RowError>> + '_ {
        self.span.rows()
    }

    // With `report` of Span: pub fn report(&mut self) -> Result<String, ReportError> { self.span.report() }

    /// Waits until a record at the place `after`, or behind it, is below the tail, or the time is over, and answers the place of the tail
    /// then: [`before`](RollingReader::before) and the tail together. The thread sleeps meanwhile.
    ///
    /// # Errors
    ///
    /// [`SpanError::Memory`].
    pub fn wait(&mut self, after: u64, time: Duration) -> Result<u64, SpanError> {
        let core = Arc::clone(&self.core);
        let mut refused = None;
        let end = core.shared.wait(after, time, || match self.end() {
            Ok(end) => end,
            Err(it) => {
                refused = Some(it);
                u64::MAX // no need to wait
            }
        });
        refused.map_or(Ok(end), Err)
    }

    fn end(&mut self) -> Result<u64, SpanError> {
        let tail = self.tail()?;
        Ok(self.before() + u64::from(tail))
    }

    /// Adds the segments that are new to the span, and lets the first ones go.
    fn follow(&mut self) -> Result<(), SpanError> {
        for segment in self.core.after(self.last) {
            let is_next = segment.number == self.last + 1;
            let keep = if is_next { self.core.keep } else { 1 };
            let added = self.span.add(segment.reader()?);
            added.map_err(|(_, refused)| spanning(refused.code()))?;
            self.last = segment.number;
            while keep != 0 && self.span.logs() as u64 > keep {
                self.span.drop_first();
            }
        }
        Ok(())
    }
}

/// What a part holds for a moment. No part panics while it holds it.
fn lock<T>(held: &Mutex<T>) -> MutexGuard<'_, T> {
    held.lock().unwrap_or_else(PoisonError::into_inner)
}

fn opening(code: Code) -> OpenError {
    match OpenError::check(code.number(), &raw::Fault::default()) {
        Err(refused) => refused,
        Ok(()) => OpenError::Memory,
    }
}

fn spanning(code: Code) -> SpanError {
    SpanError::check(code.number()).err().unwrap_or(SpanError::Memory)
}

fn asking(code: Code) -> AskError {
    AskError::check(code.number()).err().unwrap_or(AskError::Memory)
}

fn appending(code: Code) -> AppendError {
    AppendError::check(code.number()).err().unwrap_or(AppendError::Memory)
}
