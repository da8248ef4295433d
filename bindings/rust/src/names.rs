//! What a setup names.
use crate::error::{AppendError, Error};
use crate::log::{Log, Sizes};
use crate::raw::About;
use crate::writer::Capture;

/// What the setup of a log says. The log and its readers share it, from [`Log::setup`] and [`Reader::setup`](crate::Reader::setup).
#[derive(Clone, Debug)]
pub struct Setup {
    pub(crate) text: String,
    pub(crate) width: u64,
    pub(crate) attributes: Vec<Attribute>,
    pub(crate) lanes: Vec<Lane>,
    pub(crate) triggers: Vec<Trigger>,
    pub(crate) questions: Vec<Question>,
}

impl Setup {
    /// Its text.
    #[must_use]
    pub fn text(&self) -> &str {
        &self.text
    }

    /// How wide a bucket is, in nanoseconds.
    #[must_use]
    pub fn width(&self) -> u64 {
        self.width
    }

    /// The attributes of the schema, in its order.
    #[must_use]
    pub fn attributes(&self) -> &[Attribute] {
        &self.attributes
    }

    /// Indexes, filters, aggregates and tallies, in the order of their lines.
    #[must_use]
    pub fn lanes(&self) -> &[Lane] {
        &self.lanes
    }

    /// The triggers, in the order of their lines.
    #[must_use]
    pub fn triggers(&self) -> &[Trigger] {
        &self.triggers
    }

    /// The questions, in the order of their lines.
    #[must_use]
    pub fn questions(&self) -> &[Question] {
        &self.questions
    }

    /// The number of the question of that name, if there is one.
    #[must_use]
    pub fn question(&self, name: &str) -> Option<u32> {
        number_of(self.questions.iter().map(|it| &it.name), name)
    }

    /// The number of the index, filter, aggregate or tally of that name, if there is one.
    #[must_use]
    pub fn lane(&self, name: &str) -> Option<u32> {
        number_of(self.lanes.iter().map(|it| &it.name), name)
    }

    /// The place of the attribute of that name among the values of a [`Row`](crate::Row), if there is one.
    #[must_use]
    pub fn attribute(&self, name: &str) -> Option<usize> {
        self.attributes.iter().position(|it| it.name == name)
    }

    /// Whether a log of this setup takes the frames of a link. A log of one record is opened and dropped.
    ///
    /// # Errors
    ///
    /// [`Code::Memory`](crate::Code::Memory).
    ///
    /// ```
    /// use confluo::{Log, Sizes};
    ///
    /// let log = Log::open("schema packet\n", Sizes::default())?;
    /// assert!(log.setup().reads_link(1)? && !log.setup().reads_link(147)?);
    /// # Ok::<(), confluo::Error>(())
    /// ```
    pub fn reads_link(&self, link: u32) -> Result<bool, Error> {
        let sizes = Sizes {
            capacity: 1,
            writers: 1,
            nodes: 0,
        };
        let (ns, number, length) = (0, 0, 0);
        let capture = Capture {
            ns,
            number,
            length,
            link,
        };
        match Log::open(&self.text, sizes)?.writer()?.append(&capture, &[]) {
            Ok(_) | Err(AppendError::Nodes) => Ok(true),
            Err(AppendError::Frame | AppendError::Unfit) => Ok(false),
            Err(refused) => Err(refused.into()),
        }
    }
}

/// The place of a name among others.
fn number_of<'a>(mut names: impl Iterator<Item = &'a String>, name: &str) -> Option<u32> {
    names
        .position(|it| it == name)
        .and_then(|place| u32::try_from(place).ok())
}

/// An attribute of the schema.
#[derive(Clone, Debug, PartialEq, Eq, Hash)]
pub struct Attribute {
    /// Its name.
    pub name: String,
    /// Whether its values are numbers, of 8 times `size` bits; else they are strings of `size` bytes.
    pub is_number: bool,
    /// How many bytes a value has.
    pub size: u32,
}

/// An index, a filter, an aggregate or a tally.
#[derive(Clone, Debug, PartialEq, Eq, Hash)]
pub struct Lane {
    /// Its name.
    pub name: String,
    /// What it is. Attributes are given by their numbers.
    pub kind: LaneKind,
}

/// What a lane is.
#[derive(Clone, Copy, Debug, PartialEq, Eq, Hash)]
#[non_exhaustive]
pub enum LaneKind {
    /// It finds records by the attribute `key`.
    Index {
        /// The attribute.
        key: u32,
    },
    /// It finds records of an expression by bucket.
    Filter,
    /// It measures an attribute by bucket.
    Aggregate {
        /// The attribute.
        measure: u32,
    },
    /// It measures an attribute by the attribute `key`.
    Tally {
        /// The attribute of the keys.
        key: u32,
        /// The attribute that is measured.
        measure: u32,
    },
    /// It measures an attribute by bucket and by the attribute `key`.
    KeyedAggregate {
        /// The attribute of the keys.
        key: u32,
        /// The attribute that is measured.
        measure: u32,
    },
    /// Of a kind that this crate does not know: the library is a later one.
    Unknown(u32),
}

/// A trigger: it fires in a bucket of the aggregate whose `part` compares by `op` with `number`.
#[derive(Clone, Debug, PartialEq, Eq, Hash)]
pub struct Trigger {
    /// Its name.
    pub name: String,
    /// The number of the aggregate among the lanes.
    pub lane: u32,
    /// The part of the quad.
    pub part: Part,
    /// How it is compared.
    pub op: Op,
    /// With what.
    pub number: u64,
}

/// A question.
#[derive(Clone, Debug, PartialEq, Eq, Hash)]
pub struct Question {
    /// Its name.
    pub name: String,
    /// What it asks. Lanes and attributes are given by their numbers.
    pub asks: Asks,
}

/// What a question asks. The ends of a range belong to it.
#[derive(Clone, Copy, Debug, PartialEq, Eq, Hash)]
#[allow(missing_docs)] // the fields have the names of the setup's words
#[non_exhaustive]
pub enum Asks {
    /// Which records match an expression.
    List,
    /// Which records have a value in the range.
    Find { lane: u32, low: u64, high: u64 },
    /// Which records of a filter are in these buckets.
    Between { lane: u32, low: u64, high: u64 },
    /// What an aggregate measured in these buckets.
    Measure { lane: u32, low: u64, high: u64 },
    /// In which buckets a part of the aggregate compares so.
    Fired { lane: u32, part: Part, op: Op, number: u64 },
    /// Which keys have the greatest part.
    Top { lane: u32, part: Part, count: u32 },
    /// What the attribute adds up to over the records that match.
    Total { attribute: u32 },
    /// All groups of an aggregate or a tally.
    Groups { lane: u32 },
    /// Of a kind that this crate does not know: the library is a later one.
    Unknown(u32),
}

/// A part of a quad.
#[derive(Clone, Copy, Debug, PartialEq, Eq, Hash)]
#[allow(missing_docs)]
#[non_exhaustive]
pub enum Part {
    Count,
    Sum,
    Least,
    Greatest,
    /// One that this crate does not know: the library is a later one.
    Unknown(u32),
}

/// How numbers are compared.
#[derive(Clone, Copy, Debug, PartialEq, Eq, Hash)]
#[allow(missing_docs)]
#[non_exhaustive]
pub enum Op {
    Equal,
    NotEqual,
    Less,
    AtMost,
    Greater,
    AtLeast,
    /// One that this crate does not know: the library is a later one.
    Unknown(u32),
}

impl Part {
    fn of(number: u32) -> Self {
        let parts = [Part::Count, Part::Sum, Part::Least, Part::Greatest];
        parts.get(number as usize).copied().unwrap_or(Part::Unknown(number))
    }
}

impl Op {
    fn of(number: u32) -> Self {
        let ops = [Op::Equal, Op::NotEqual, Op::Less, Op::AtMost, Op::Greater, Op::AtLeast];
        ops.get(number as usize).copied().unwrap_or(Op::Unknown(number))
    }
}

impl Attribute {
    pub(crate) fn of(name: String, about: &About) -> Self {
        Attribute {
            name,
            is_number: about.kind != 0,
            size: if about.kind == 0 { about.size } else { about.kind / 8 },
        }
    }
}

impl Lane {
    pub(crate) fn of(name: String, about: &About) -> Self {
        let (key, measure) = (about.of, about.size);
        let kind = match about.kind {
            0 => LaneKind::Index { key },
            1 => LaneKind::Filter,
            2 => LaneKind::Aggregate { measure },
            3 => LaneKind::Tally { key, measure },
            4 => LaneKind::KeyedAggregate { key, measure },
            other => LaneKind::Unknown(other),
        };
        Lane { name, kind }
    }
}

impl Trigger {
    pub(crate) fn of(name: String, about: &About) -> Self {
        Trigger {
            name,
            lane: about.of,
            part: Part::of(about.part),
            op: Op::of(about.op),
            number: about.low,
        }
    }
}

impl Question {
    pub(crate) fn of(name: String, about: &About) -> Self {
        let (lane, low, high) = (about.of, about.low, about.high);
        let asks = match about.kind {
            0 => Asks::List,
            1 => Asks::Find { lane, low, high },
            2 => Asks::Between { lane, low, high },
            3 => Asks::Measure { lane, low, high },
            4 => Asks::Fired {
                lane,
                part: Part::of(about.part),
                op: Op::of(about.op),
                number: low,
            },
            5 => Asks::Top {
                lane,
                part: Part::of(about.part),
                count: about.size,
            },
            6 => Asks::Total { attribute: lane },
            7 => Asks::Groups { lane },
            other => Asks::Unknown(other),
        };
        Question { name, asks }
    }
}
