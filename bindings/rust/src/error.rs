//! Why calls are refused.
use crate::raw;
use std::error::Error as StdError;
use std::fmt::{self, Display, Formatter};

/// The rules that a line of a setup may break, by the code of a fault, from 1.
const RULES: [&str; 14] = [
    "each byte of a line is printed ASCII",
    "the first word begins a statement; the schema comes first and once, `width` at most once",
    "a statement has its words, its fixed words are spelled as shown, and a new name is a name",
    "the list of `schema records` is NAME:KIND with commas between, at most 24, and has `ts:u64`",
    "no name is given twice, and a question is `live` once",
    "a name stands for an attribute, or for a thing of that kind on a line above",
    "a number or value has its form and range",
    "an index, a tally and `by` are over numbers; measured are numbers below 2^32",
    "at most 16 indexes, filters, aggregates and tallies, 16 triggers, 32 questions, 65536 bytes",
    "the expression can be read: comparisons joined by && and ||, no parentheses",
    "the names in an expression are attributes",
    "the operators suit: == != < <= > >= in, not in; of bytes only == and !=",
    "the values in an expression are in their attribute's range",
    "an expression has at most 32 comparisons",
];

/// What a call was refused for, of all calls together.
#[derive(Clone, Copy, Debug, PartialEq, Eq, Hash)]
#[non_exhaustive]
pub enum Code {
    /// Out of memory.
    Memory,
    /// A size is out of range, or a batch has fewer frames than said.
    Sizes,
    /// The setup or the line is faulty; [`Error::fault`] says where.
    Setup,
    /// All writers of the log are taken.
    NoWriter,
    /// The log is full.
    Full,
    /// The writer has too few nodes for this row.
    Nodes,
    /// The row does not fit the schema of the log.
    Unfit,
    /// The frame is too long, or of a link that the schema does not read.
    Frame,
    /// The setup has no such question, or the line says none.
    NoQuestion,
    /// The setup has no such lane, it measures nothing, or it is an aggregate by a key.
    NoLane,
    /// The reader has seen no record at that offset.
    NoRow,
    /// The words are not groups of a log, or of too many numbers.
    NoGroups,
    /// A writer of the log is taken.
    Busy,
    /// The log of the reader has another setup or other sizes than those of the span.
    Unlike,
    /// The span has one log, which stays.
    OneLog,
    /// A code that this crate does not know, or that the call does not answer in the version that it was written for.
    Unknown(u32),
}

impl Code {
    /// The code of that number.
    #[must_use]
    pub fn of(number: u32) -> Self {
        match number {
            raw::MEMORY => Code::Memory,
            raw::SIZES => Code::Sizes,
            raw::SETUP => Code::Setup,
            raw::NO_WRITER => Code::NoWriter,
            raw::FULL => Code::Full,
            raw::NODES => Code::Nodes,
            raw::UNFIT => Code::Unfit,
            raw::FRAME => Code::Frame,
            raw::NO_QUESTION => Code::NoQuestion,
            raw::NO_LANE => Code::NoLane,
            raw::NO_ROW => Code::NoRow,
            raw::NO_GROUPS => Code::NoGroups,
            raw::BUSY => Code::Busy,
            raw::UNLIKE => Code::Unlike,
            raw::ONE_LOG => Code::OneLog,
            other => Code::Unknown(other),
        }
    }

    /// The number that `confluo.h` has for it.
    #[must_use]
    pub fn number(self) -> u32 {
        match self {
            Code::Memory => raw::MEMORY,
            Code::Sizes => raw::SIZES,
            Code::Setup => raw::SETUP,
            Code::NoWriter => raw::NO_WRITER,
            Code::Full => raw::FULL,
            Code::Nodes => raw::NODES,
            Code::Unfit => raw::UNFIT,
            Code::Frame => raw::FRAME,
            Code::NoQuestion => raw::NO_QUESTION,
            Code::NoLane => raw::NO_LANE,
            Code::NoRow => raw::NO_ROW,
            Code::NoGroups => raw::NO_GROUPS,
            Code::Busy => raw::BUSY,
            Code::Unlike => raw::UNLIKE,
            Code::OneLog => raw::ONE_LOG,
            Code::Unknown(number) => number,
        }
    }
}

impl Display for Code {
    fn fmt(&self, out: &mut Formatter<'_>) -> fmt::Result {
        out.write_str(&message(self.number()))
    }
}

/// Why any call was refused. Each error of a call turns into this one, so that `?` takes all.
///
/// ```
/// use confluo::{Code, Error, Log, Sizes};
///
/// fn first(setup: &str) -> Result<u32, Error> {
///     let mut log = Log::open(setup, Sizes::default())?;
///     Ok(log.writer()?.append_values(0, &[1_000])?)
/// }
///
/// assert_eq!(first("schema records ts:u64\n"), Ok(0));
/// assert_eq!(first("schema records ts:u64,len:u32\n").unwrap_err().code(), Code::Unfit);
/// let faulty = first("schema packet\nindex\n").unwrap_err();
/// assert_eq!((faulty.code(), faulty.fault().map(|it| it.line)), (Code::Setup, Some(2)));
/// ```
#[derive(Clone, Copy, Debug, PartialEq, Eq, Hash)]
pub struct Error {
    code: Code,
    fault: Option<Fault>,
    version: Option<u32>,
}

impl Error {
    /// What the call was refused for.
    #[must_use]
    pub fn code(&self) -> Code {
        self.code
    }

    /// What is wrong with the setup or the line, if that is the reason.
    #[must_use]
    pub fn fault(&self) -> Option<Fault> {
        self.fault
    }
}

impl Display for Error {
    fn fmt(&self, out: &mut Formatter<'_>) -> fmt::Result {
        match (self.version, self.fault) {
            (Some(version), _) => write_version(out, version),
            (_, Some(fault)) => write!(out, "{}: {fault}", self.code),
            _ => Display::fmt(&self.code, out),
        }
    }
}

impl StdError for Error {}

impl From<Code> for Error {
    fn from(code: Code) -> Self {
        let (fault, version) = (None, None);
        Error { code, fault, version }
    }
}

/// The first faulty line of a setup, and what is wrong with it.
#[derive(Clone, Copy, Debug, PartialEq, Eq, Hash)]
pub struct Fault {
    /// The line, from 1; 0 if the whole text is too long.
    pub line: u32,
    /// The code of the fault, as the list of `docs/FORMATS.md` has it.
    pub code: u32,
}

impl Fault {
    pub(crate) fn of(fault: &raw::Fault) -> Self {
        Fault {
            line: fault.line,
            code: fault.code,
        }
    }

    /// The rule that the line breaks; empty if this version does not know the code.
    #[must_use]
    pub fn rule(&self) -> &'static str {
        (self.code as usize)
            .checked_sub(1)
            .and_then(|place| RULES.get(place))
            .copied()
            .unwrap_or("")
    }
}

impl Display for Fault {
    fn fmt(&self, out: &mut Formatter<'_>) -> fmt::Result {
        write!(out, "line {}, code {}", self.line, self.code)?;
        match self.rule() {
            "" => Ok(()),
            rule => write!(out, ": {rule}"),
        }
    }
}

/// Errors, each with the library's codes for its cases.
macro_rules! errors {
    ($($(#[$doc:meta])* $name:ident { $($(#[$case_doc:meta])* $case:ident = $code:ident,)* })*) => {
        $(
            $(#[$doc])*
            #[derive(Clone, Copy, Debug, PartialEq, Eq, Hash)]
            #[non_exhaustive]
            pub enum $name {
                $($(#[$case_doc])* $case,)*
                /// A code that this crate does not know of the call: the library is a later one.
                Unknown(u32),
            }

            impl $name {
                /// What the code of a call says.
                pub(crate) fn check(code: u32) -> Result<(), Self> {
                    match code {
                        raw::OK => Ok(()),
                        $(raw::$code => Err($name::$case),)*
                        _ => Err($name::Unknown(code)),
                    }
                }

                /// What the call was refused for.
                #[must_use]
                pub fn code(&self) -> Code {
                    match self {
                        $($name::$case => Code::of(raw::$code),)*
                        $name::Unknown(code) => Code::Unknown(*code),
                    }
                }
            }

            impl Display for $name {
                fn fmt(&self, out: &mut Formatter<'_>) -> fmt::Result {
                    Display::fmt(&self.code(), out)
                }
            }

            impl StdError for $name {}

            impl From<$name> for Error {
                fn from(refused: $name) -> Self {
                    refused.code().into()
                }
            }
        )*
    };
}

errors! {
    /// Why a writer or a reader was not taken.
    TakeError {
        /// Out of memory.
        Memory = MEMORY,
        /// All writers of the log are taken.
        NoWriter = NO_WRITER,
    }
    /// Why a log was not closed.
    CloseError {
        /// Out of memory.
        Memory = MEMORY,
        /// A writer of the log is taken.
        Busy = BUSY,
    }
    /// Why a span was not made.
    SpanError {
        /// Out of memory.
        Memory = MEMORY,
    }
    /// Why a reader was not added to a span.
    AddError {
        /// Out of memory.
        Memory = MEMORY,
        /// Its log was opened from another text of a setup or with other sizes than those of the span.
        Unlike = UNLIKE,
        /// The logs would take more than 2^20 records together.
        Full = FULL,
    }
    /// Why a report was not made.
    ReportError {
        /// Out of memory.
        Memory = MEMORY,
    }
    /// Why a record was not appended.
    AppendError {
        /// Out of memory.
        Memory = MEMORY,
        /// The log is full: it has taken as many records as it can.
        Full = FULL,
        /// The writer has too few nodes for this row, and none left now; a row that needs no new one still fits.
        Nodes = NODES,
        /// The row does not fit the schema of the log.
        Unfit = UNFIT,
        /// The frame has 2^32 bytes or more, or the schema does not read its link.
        Frame = FRAME,
        /// The batch has fewer frames than are to be passed over.
        Sizes = SIZES,
    }
    /// Why a question was not answered.
    AskError {
        /// Out of memory.
        Memory = MEMORY,
        /// The setup has no question of that number.
        NoQuestion = NO_QUESTION,
    }
    /// Why the groups of a lane were refused.
    GroupsError {
        /// Out of memory.
        Memory = MEMORY,
        /// The setup has no lane of that number, or it is an index, a filter or an aggregate by a key.
        NoLane = NO_LANE,
    }
    /// Why lists of groups were not merged.
    MergeError {
        /// Out of memory.
        Memory = MEMORY,
        /// A quad is not one of a log, or both lists have more than 2^20 numbers together.
        NoGroups = NO_GROUPS,
    }
    /// Why a record was not read back.
    RowError {
        /// Out of memory.
        Memory = MEMORY,
        /// The offset is not below the tail that the reader saw last.
        NoRow = NO_ROW,
    }
}

/// Why a log was not opened.
#[derive(Clone, Copy, Debug, PartialEq, Eq, Hash)]
#[non_exhaustive]
pub enum OpenError {
    /// Out of memory.
    Memory,
    /// A size is out of range.
    Sizes,
    /// The setup is faulty.
    Setup(Fault),
    /// The library is older than this crate, or of another major number: its version, as [`version`](crate::version) gives it.
    Version(u32),
    /// A code that this crate does not know of the call: the library is a later one.
    Unknown(u32),
}

impl OpenError {
    pub(crate) fn check(code: u32, fault: &raw::Fault) -> Result<(), Self> {
        match code {
            raw::OK => Ok(()),
            raw::MEMORY => Err(OpenError::Memory),
            raw::SIZES => Err(OpenError::Sizes),
            raw::SETUP => Err(OpenError::Setup(Fault::of(fault))),
            _ => Err(OpenError::Unknown(code)),
        }
    }

    /// Whether the library is of a version that this crate can call.
    pub(crate) fn check_version() -> Result<(), Self> {
        match crate::version() {
            found if fits(found) => Ok(()),
            found => Err(OpenError::Version(found)),
        }
    }

    /// What the call was refused for. A version is [`Code::Unknown`].
    #[must_use]
    pub fn code(&self) -> Code {
        match self {
            OpenError::Memory => Code::Memory,
            OpenError::Sizes => Code::Sizes,
            OpenError::Setup(_) => Code::Setup,
            OpenError::Version(number) | OpenError::Unknown(number) => Code::Unknown(*number),
        }
    }
}

impl Display for OpenError {
    fn fmt(&self, out: &mut Formatter<'_>) -> fmt::Result {
        Display::fmt(&Error::from(*self), out)
    }
}

impl StdError for OpenError {}

impl From<OpenError> for Error {
    fn from(refused: OpenError) -> Self {
        let (fault, version) = match refused {
            OpenError::Setup(fault) => (Some(fault), None),
            OpenError::Version(version) => (None, Some(version)),
            _ => (None, None),
        };
        let code = refused.code();
        Error { code, fault, version }
    }
}

/// Why the question of a line was not answered.
#[derive(Clone, Copy, Debug, PartialEq, Eq, Hash)]
#[non_exhaustive]
pub enum LineError {
    /// Out of memory.
    Memory,
    /// The line is more than one line, says nothing, or states something else.
    NoQuestion,
    /// The line is faulty: line 1 of the fault, or 0 if there is no room for it after the setup, with 65,536 bytes in all.
    Line(Fault),
    /// A code that this crate does not know of the call: the library is a later one.
    Unknown(u32),
}

impl LineError {
    pub(crate) fn check(code: u32, fault: &raw::Fault) -> Result<(), Self> {
        match code {
            raw::OK => Ok(()),
            raw::MEMORY => Err(LineError::Memory),
            raw::NO_QUESTION => Err(LineError::NoQuestion),
            // The library counts the line on from those of the setup.
            raw::SETUP => Err(LineError::Line(Fault {
                line: fault.line.min(1),
                code: fault.code,
            })),
            _ => Err(LineError::Unknown(code)),
        }
    }

    /// What the call was refused for.
    #[must_use]
    pub fn code(&self) -> Code {
        match self {
            LineError::Memory => Code::Memory,
            LineError::NoQuestion => Code::NoQuestion,
            LineError::Line(_) => Code::Setup,
            LineError::Unknown(number) => Code::Unknown(*number),
        }
    }
}

impl Display for LineError {
    fn fmt(&self, out: &mut Formatter<'_>) -> fmt::Result {
        Display::fmt(&Error::from(*self), out)
    }
}

impl StdError for LineError {}

impl From<LineError> for Error {
    fn from(refused: LineError) -> Self {
        let fault = match refused {
            LineError::Line(fault) => Some(fault),
            _ => None,
        };
        Error {
            fault,
            ..refused.code().into()
        }
    }
}

/// Whether this crate can call a library of that version: none that is older than its own, or of another major number.
fn fits(found: u32) -> bool {
    found >= raw::VERSION && found / 1_000_000 == raw::VERSION / 1_000_000
}

fn write_version(out: &mut Formatter<'_>, found: u32) -> fmt::Result {
    let shown = |number: u32| format!("{}.{}.{}", number / 1_000_000, number / 1_000 % 1_000, number % 1_000);
    write!(
        out,
        "libconfluo has version {}, and this crate needs {}",
        shown(found),
        shown(raw::VERSION)
    )?;
    out.write_str(" or a later one with the same major number")
}

/// The library's text for a code.
fn message(code: u32) -> String {
    let mut text = [0; 64];
    // SAFETY: the memory is ours, and as long as said.
    let length = unsafe { raw::confluo_message(code, 0, text.as_mut_ptr(), text.len()) };
    String::from_utf8_lossy(&text[..length]).into_owned()
}

#[cfg(test)]
mod tests {
    use super::*;

    #[test]
    fn versions_fit() {
        let cases = [
            (23_999, false),
            (24_000, true),
            (29_007, true),
            (999_999, true),
            (1_000_000, false),
        ];
        for (version, wanted) in cases {
            assert_eq!(fits(version), wanted, "{version}");
        }
        let said = OpenError::Version(3_002).to_string();
        assert!(said.starts_with("libconfluo has version 0.3.2, and this crate needs 0.24.0"));
    }

    #[test]
    fn codes_have_their_numbers() {
        for number in 0..40 {
            assert_eq!(Code::of(number).number(), number);
        }
        assert_eq!(AppendError::check(99), Err(AppendError::Unknown(99)));
        assert_eq!(Error::from(AppendError::Unknown(99)).code(), Code::Unknown(99));
    }

    #[test]
    fn faults_have_rules() {
        let fault = |code| Fault { line: 2, code };
        assert_eq!(fault(3).to_string(), format!("line 2, code 3: {}", RULES[2]));
        assert_eq!((fault(0).rule(), fault(15).rule()), ("", ""));
    }
}
