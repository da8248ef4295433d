//! Writers.
use crate::error::AppendError;
use crate::handle::Held;
use crate::raw;
use crate::row::Value;
use crate::shared::Shared;
use std::ops::Range;
use std::sync::Arc;

/// What a captured frame has besides its bytes.
#[derive(Clone, Copy, Debug, PartialEq, Eq, Hash)]
pub struct Capture {
    /// When it was captured, in nanoseconds since the epoch.
    pub ns: u64,
    /// A number of yours, which the record keeps; it need not ascend.
    pub number: u32,
    /// Its length on the wire, in bytes.
    pub length: u32,
    /// Its link-layer header type, as libpcap numbers them; 1 is Ethernet.
    pub link: u32,
}

impl Capture {
    fn raw(&self) -> raw::Capture {
        raw::Capture {
            ns: self.ns,
            number: self.number,
            length: self.length,
            link: self.link,
            reserved: 0,
        }
    }
}

/// Captured frames that are appended in one call, with their bytes in one buffer.
#[derive(Default)]
pub struct Batch {
    frames: Vec<raw::Frame>,
    bytes: Vec<u8>,
}

impl Batch {
    /// A batch without frames.
    #[must_use]
    pub fn new() -> Self {
        Batch::default()
    }

    /// Adds a frame.
    pub fn push(&mut self, capture: &Capture, bytes: &[u8]) {
        self.frames.push(raw::Frame {
            capture: capture.raw(),
            from: self.bytes.len() as u64,
            count: bytes.len() as u64,
        });
        self.bytes.extend_from_slice(bytes);
    }

    /// A batch without frames over a buffer, such as a capture file that was read: [`push_part`](Batch::push_part) adds frames of it
    /// without a copy.
    #[must_use]
    pub fn over(bytes: Vec<u8>) -> Self {
        Batch {
            frames: Vec::new(),
            bytes,
        }
    }

    /// Adds the frame whose bytes stand in that part of the buffer. If they do not all stand there, it is refused when it is appended, as
    /// [`AppendError::Frame`].
    pub fn push_part(&mut self, capture: &Capture, part: Range<usize>) {
        self.frames.push(raw::Frame {
            capture: capture.raw(),
            from: part.start as u64,
            count: part.len() as u64,
        });
    }

    /// How many frames it has.
    #[must_use]
    pub fn len(&self) -> usize {
        self.frames.len()
    }

    /// Whether it has none.
    #[must_use]
    pub fn is_empty(&self) -> bool {
        self.frames.is_empty()
    }

    /// Drops the frames and the bytes, and keeps the memory for others.
    pub fn clear(&mut self) {
        self.frames.clear();
        self.bytes.clear();
    }
}

/// What came of a batch.
#[derive(Clone, Debug, PartialEq, Eq, Hash)]
pub struct Appended {
    /// The offsets of the frames that were appended.
    pub offsets: Vec<u32>,
    /// Why the next frame was not appended, unless all were.
    pub refused: Option<AppendError>,
}

/// What a log has room for, and a writer of it.
#[derive(Clone, Copy, Debug, PartialEq, Eq, Hash)]
pub struct Room {
    /// How many records the log takes in all.
    pub capacity: u32,
    /// How many of them are below the tail, as far as this writer knows.
    pub covered: u32,
    /// How many nodes the writer has left.
    pub nodes_left: u32,
}

/// A writer of a log.
#[derive(Debug)]
pub struct Writer {
    held: Held<raw::Writer>,
    number: u32,
    shared: Arc<Shared>,
}

impl Writer {
    pub(crate) fn new(held: Held<raw::Writer>, number: u32, shared: Arc<Shared>) -> Self {
        Writer { held, number, shared }
    }

    /// Calls the library with the writer, which may append, and then wakes the readers that wait.
    fn append_by(&mut self, call: impl FnOnce(&mut raw::Writer) -> u32) -> u32 {
        let code = self.held.call(call);
        self.shared.wake();
        code
    }

    /// Its own number: the greatest that was free when it was taken, from the number of writers less 1 down to 0.
    #[must_use]
    pub fn number(&self) -> u32 {
        self.number
    }

    /// Appends the record of a captured frame, whose captured bytes these are, and answers its offset. A frame whose headers cannot
    /// be read is a record all the same, with 0 in those fields.
    ///
    /// # Errors
    ///
    /// [`AppendError::Unfit`] if the log's schema is not one of packets, [`AppendError::Frame`], [`AppendError::Memory`],
    /// [`AppendError::Nodes`], after which the writer has no nodes left and appends the rows that need no new one, and
    /// [`AppendError::Full`] for good. A full log may answer `Nodes` to a writer that it has not answered `Full` yet.
    ///
    /// ```
    /// use confluo::{Body, Capture, Log, Sizes};
    ///
    /// let setup = "schema packet\nask ethernet list etype==0x0800\n";
    /// let mut log = Log::open(setup, Sizes::default())?;
    /// let mut frame = [0; 60];
    /// frame[12] = 8;
    /// let capture = Capture { ns: 1_000, number: 7, length: 60, link: 1 };
    /// assert_eq!(log.writer()?.append(&capture, &frame)?, 0);
    /// assert_eq!(log.reader()?.ask(0)?.body, Body::Places(vec![0]));
    /// # Ok::<(), Box<dyn std::error::Error>>(())
    /// ```
    pub fn append(&mut self, capture: &Capture, bytes: &[u8]) -> Result<u32, AppendError> {
        let (capture, mut offset) = (capture.raw(), 0);
        // SAFETY: the memory is ours, and the bytes as many as said.
        let code = self.append_by(|writer| unsafe {
            raw::confluo_append(writer, &capture, bytes.as_ptr(), bytes.len(), &mut offset)
        });
        answered(code, offset)
    }

    /// Appends a record of numbers, one for each attribute of the schema in its order, and answers its offset.
    ///
    /// # Errors
    ///
    /// As for [`append`](Writer::append), but for the frame. A row is [`AppendError::Unfit`] if there are too few or too many
    /// numbers, one is too large for its attribute, or an attribute takes bytes.
    pub fn append_values(&mut self, number: u32, values: &[u64]) -> Result<u32, AppendError> {
        let mut offset = 0;
        // SAFETY: the memory is ours, and the numbers as many as said.
        let code = self.append_by(|writer| unsafe {
            raw::confluo_append_values(writer, number, values.as_ptr(), values.len(), &mut offset)
        });
        answered(code, offset)
    }

    /// Appends the frames of a batch from that one on, until one is refused. If frame `from + offsets.len()` is refused, you may go on with
    /// it, or after it, here or in another log. If the batch has fewer than `from` frames, that is [`AppendError::Sizes`].
    ///
    /// ```
    /// use confluo::{Appended, AppendError, Batch, Capture, Log, Sizes};
    ///
    /// let mut log = Log::open("schema packet\n", Sizes { capacity: 2, ..Sizes::default() })?;
    /// let mut batch = Batch::new();
    /// for number in 0..3 {
    ///     batch.push(&Capture { ns: 1_000, number, length: 60, link: 1 }, &[0; 60]);
    /// }
    /// let appended = log.writer()?.append_many(&batch, 0);
    /// assert_eq!(appended, Appended { offsets: vec![0, 1], refused: Some(AppendError::Full) });
    /// # Ok::<(), Box<dyn std::error::Error>>(())
    /// ```
    pub fn append_many(&mut self, batch: &Batch, from: usize) -> Appended {
        let Some(frames) = batch.frames.get(from..) else {
            let refused = Some(AppendError::Sizes);
            return Appended {
                offsets: Vec::new(),
                refused,
            };
        };
        let (mut offsets, mut done) = (vec![0; frames.len()], 0);
        // SAFETY: the memory is ours, and as long as said.
        let code = self.append_by(|writer| unsafe {
            raw::confluo_append_many(
                writer,
                frames.as_ptr(),
                frames.len(),
                batch.bytes.as_ptr(),
                batch.bytes.len(),
                offsets.as_mut_ptr(),
                offsets.len(),
                &mut done,
            )
        });
        offsets.truncate(done);
        Appended {
            offsets,
            refused: AppendError::check(code).err(),
        }
    }

    /// Appends a record of values, one for each attribute of the schema in its order, and answers its offset.
    ///
    /// # Errors
    ///
    /// As for [`append_values`](Writer::append_values). A row is also [`AppendError::Unfit`] if a value is not of its attribute's kind,
    /// or a string has another length than its attribute's.
    ///
    /// ```
    /// use confluo::{Log, Row, Sizes, Value};
    ///
    /// let mut log = Log::open("schema records ts:u64,mac:b6\n", Sizes::default())?;
    /// let (mut writer, mut reader) = (log.writer()?, log.reader()?);
    /// let values = vec![Value::Number(1_000), Value::Bytes(vec![2, 0, 0, 0, 0, 1])];
    /// let offset = writer.append_row(7, &values)?;
    /// assert_eq!(reader.tail(), 1);
    /// assert_eq!(reader.row(offset)?, Row { number: 7, values });
    /// # Ok::<(), Box<dyn std::error::Error>>(())
    /// ```
    pub fn append_row(&mut self, number: u32, values: &[Value]) -> Result<u32, AppendError> {
        let values: Option<Vec<_>> = values.iter().map(Value::raw).collect();
        let values = values.ok_or(AppendError::Unfit)?;
        let mut offset = 0;
        // SAFETY: the memory is ours, and the values as many as said.
        let code = self.append_by(|writer| unsafe {
            raw::confluo_append_row(writer, number, values.as_ptr(), values.len(), &mut offset)
        });
        answered(code, offset)
    }

    /// What the log has room for, and the writer.
    pub fn room(&mut self) -> Room {
        let mut room = raw::Room::default();
        // SAFETY: the memory is ours. The call is refused only for a handle that leads to nothing.
        self.held
            .call(|writer| unsafe { raw::confluo_room_of(writer, &mut room) });
        Room {
            capacity: room.capacity,
            covered: room.covered,
            nodes_left: room.nodes_left,
        }
    }
}

fn answered(code: u32, offset: u32) -> Result<u32, AppendError> {
    AppendError::check(code)?;
    Ok(offset)
}
