//! Answers, and groups that can be merged.
use crate::error::MergeError;
use crate::raw;

/// An answer: exactly the question's meaning on the first `tail` records of the log.
#[derive(Clone, Debug, PartialEq, Eq, Hash)]
pub struct Answer {
    /// How many records it is about.
    pub tail: u32,
    /// What was found.
    pub body: Body,
}

/// What a question found.
#[derive(Clone, Debug, PartialEq, Eq, Hash)]
#[non_exhaustive]
pub enum Body {
    /// The offsets of the records, ascending, of `list`, `find` and `between`.
    Places(Vec<u32>),
    /// What `measure` and `total` add up.
    Quad(Quad),
    /// Where a trigger fires, by ascending bucket, of `fired`.
    Marks(Vec<Mark>),
    /// The greatest keys, the heaviest first, ties by ascending key, of `top`.
    Tops(Vec<Top>),
    /// All groups of an aggregate or a tally, by ascending bucket or key, of `groups`.
    Groups(Vec<Group>),
    /// Where a trigger on an aggregate by a key fires, by ascending bucket and then key, of `fired`.
    KeyedMarks(Vec<KeyedMark>),
    /// All groups of an aggregate by a key, by ascending bucket and then key, of `groups`.
    KeyedGroups(Vec<KeyedGroup>),
    /// Of a kind that this crate does not know: the library is a later one.
    Unknown {
        /// The kind.
        kind: u32,
        /// The words of the answer.
        words: Vec<u64>,
    },
}

/// Count, sum, least and greatest of values.
#[repr(C)]
#[derive(Clone, Copy, Debug, Default, PartialEq, Eq, Hash)]
pub struct Quad {
    /// How many values.
    pub count: u64,
    /// Their sum.
    pub sum: u64,
    /// The least of them; of none 0.
    pub least: u64,
    /// The greatest of them; of none 0.
    pub greatest: u64,
}

/// A bucket of time in which a trigger fires.
#[derive(Clone, Copy, Debug, PartialEq, Eq, Hash)]
pub struct Mark {
    /// The bucket: the time over the width of buckets, rounded down.
    pub bucket: u64,
    /// The trigger's part of it.
    pub value: u64,
}

/// A bucket and a key for which a trigger on an aggregate by a key fires.
#[derive(Clone, Copy, Debug, PartialEq, Eq, Hash)]
pub struct KeyedMark {
    /// The bucket: the time over the width of buckets, rounded down.
    pub bucket: u64,
    /// The value of the key's attribute.
    pub key: u64,
    /// The trigger's part of the records of both.
    pub value: u64,
}

/// A key of a tally.
#[derive(Clone, Copy, Debug, PartialEq, Eq, Hash)]
pub struct Top {
    /// The key.
    pub key: u64,
    /// The question's part of it.
    pub value: u64,
}

/// What an aggregate or a tally measured for one bucket or key.
#[repr(C)]
#[derive(Clone, Copy, Debug, PartialEq, Eq, Hash)]
pub struct Group {
    /// The bucket of the aggregate, or the key of the tally.
    pub key: u64,
    /// What was measured.
    pub quad: Quad,
}

/// What an aggregate by a key measured for one bucket and one key.
#[derive(Clone, Copy, Debug, PartialEq, Eq, Hash)]
pub struct KeyedGroup {
    /// The bucket: the time over the width of buckets, rounded down.
    pub bucket: u64,
    /// The value of the key's attribute.
    pub key: u64,
    /// What was measured.
    pub quad: Quad,
}

/// The words of a group.
const GROUP: usize = std::mem::size_of::<Group>() / std::mem::size_of::<u64>();

/// All groups of a lane, by ascending key, of the first `tail` records of the log.
#[derive(Clone, Debug, PartialEq, Eq, Hash)]
pub struct Groups {
    /// How many records they are about.
    pub tail: u32,
    /// The groups.
    pub groups: Vec<Group>,
}

impl Quad {
    fn of(words: &[u64]) -> Self {
        Quad {
            count: words[0],
            sum: words[1],
            least: words[2],
            greatest: words[3],
        }
    }
}

fn groups_of(words: &[u64]) -> Vec<Group> {
    let group = |words: &[u64]| Group {
        key: words[0],
        quad: Quad::of(&words[1..]),
    };
    words.chunks_exact(GROUP).map(group).collect()
}

fn keyed_groups_of(words: &[u64]) -> Vec<KeyedGroup> {
    let group = |words: &[u64]| KeyedGroup {
        bucket: words[0],
        key: words[1],
        quad: Quad::of(&words[2..]),
    };
    words.chunks_exact(GROUP + 1).map(group).collect()
}

fn keyed_marks_of(words: &[u64]) -> Vec<KeyedMark> {
    let mark = |words: &[u64]| KeyedMark {
        bucket: words[0],
        key: words[1],
        value: words[2],
    };
    words.chunks_exact(3).map(mark).collect()
}

impl Body {
    /// The body of that kind with these words.
    pub(crate) fn of(kind: u32, words: &[u64]) -> Self {
        let pairs = || words.chunks_exact(2).map(|pair| (pair[0], pair[1]));
        match kind {
            #[allow(clippy::cast_possible_truncation)] // offsets are below 65,536
            raw::PLACES => Body::Places(words.iter().map(|&place| place as u32).collect()),
            raw::QUAD => Body::Quad(Quad::of(words)),
            raw::MARKS => Body::Marks(pairs().map(|(bucket, value)| Mark { bucket, value }).collect()),
            raw::TOPS => Body::Tops(pairs().map(|(key, value)| Top { key, value }).collect()),
            raw::GROUPS => Body::Groups(groups_of(words)),
            raw::KEYED_MARKS => Body::KeyedMarks(keyed_marks_of(words)),
            raw::KEYED_GROUPS => Body::KeyedGroups(keyed_groups_of(words)),
            _ => Body::Unknown {
                kind,
                words: words.to_vec(),
            },
        }
    }
}

impl Groups {
    /// The groups, by ascending key.
    pub fn iter(&self) -> std::slice::Iter<'_, Group> {
        self.groups.iter()
    }

    pub(crate) fn of(tail: u32, words: &[u64]) -> Self {
        Groups {
            tail,
            groups: groups_of(words),
        }
    }
}

impl IntoIterator for Groups {
    type Item = Group;
    type IntoIter = std::vec::IntoIter<Group>;

    fn into_iter(self) -> Self::IntoIter {
        self.groups.into_iter()
    }
}

impl<'a> IntoIterator for &'a Groups {
    type Item = &'a Group;
    type IntoIter = std::slice::Iter<'a, Group>;

    fn into_iter(self) -> Self::IntoIter {
        self.iter()
    }
}

/// Merges the groups of one lane in two logs of one setup: those of one key become one, and they ascend by key, in whatever order they
/// stood. Merged groups can be merged again.
///
/// # Errors
///
/// [`MergeError::NoGroups`] if a quad is none (of no number all is 0; else numbers are below 2^32, and the sum is that of so many), or both
/// lists have more than 2^20 numbers together, which is the sum of all counts; [`MergeError::Memory`].
///
/// ```
/// use confluo::{merge, Group, Quad};
///
/// let group = |key, len| Group { key, quad: Quad { count: 1, sum: len, least: len, greatest: len } };
/// let merged = merge(&[group(1, 60), group(2, 90)], &[group(1, 40)])?;
/// assert_eq!(merged[0], Group { key: 1, quad: Quad { count: 2, sum: 100, least: 40, greatest: 60 } });
/// assert_eq!(merged[1], group(2, 90));
/// # Ok::<(), confluo::MergeError>(())
/// ```
pub fn merge(one: &[Group], other: &[Group]) -> Result<Vec<Group>, MergeError> {
    let mut merged = vec![Group::of_none(); one.len() + other.len()];
    let mut count = 0;
    // SAFETY: a group is so many words in a row. The memory is ours, and as long as said; the merged list is apart from both.
    let code = unsafe {
        raw::confluo_merge(
            one.as_ptr().cast(),
            GROUP * one.len(),
            other.as_ptr().cast(),
            GROUP * other.len(),
            merged.as_mut_ptr().cast(),
            GROUP * merged.len(),
            &mut count,
        )
    };
    MergeError::check(code)?;
    merged.truncate(count / GROUP);
    Ok(merged)
}

impl Group {
    fn of_none() -> Self {
        Group {
            key: 0,
            quad: Quad::default(),
        }
    }
}
