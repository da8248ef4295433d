//! The library's own calls, as the last part of `confluo.h` lists them.
use std::os::raw::c_void;

/// A handle: nothing if it is not `full`. Its fields are the library's.
macro_rules! handles {
    ($($name:ident: $free:ident;)*) => {
        $(
            #[repr(C)]
            pub struct $name {
                full: bool,
                at: *mut c_void,
            }

            impl Handle for $name {
                const NOTHING: Self = $name { full: false, at: std::ptr::null_mut() };

                unsafe fn free(&mut self) {
                    $free(self);
                }
            }
        )*

        extern "C" {
            $(fn $free(handle: *mut $name);)*
        }
    };
}

/// What all handles have.
pub trait Handle {
    /// The handle that leads to nothing.
    const NOTHING: Self;

    /// Frees what it leads to.
    ///
    /// # Safety
    ///
    /// The handle is as the last call left it, and the duties of `confluo.h` about threads are kept.
    unsafe fn free(&mut self);
}

handles! {
    Log: confluo_free_log;
    Writer: confluo_free_writer;
    Reader: confluo_free_reader;
    Span: confluo_free_span;
}

#[repr(C)]
pub struct Sizes {
    pub capacity: u32,
    pub writers: u32,
    pub nodes: u32,
    pub reserved: u32,
}

#[repr(C)]
#[derive(Default)]
pub struct Fault {
    pub line: u32,
    pub code: u32,
}

#[repr(C)]
pub struct Capture {
    pub ns: u64,
    pub number: u32,
    pub length: u32,
    pub link: u32,
    pub reserved: u32,
}

#[repr(C)]
pub struct Frame {
    pub capture: Capture,
    pub from: u64,
    pub count: u64,
}

#[repr(C)]
#[derive(Clone, Default)]
pub struct Value {
    pub number: u64,
    pub kind: u32,
    pub length: u32,
    pub bytes: [u8; 16],
}

#[repr(C)]
#[derive(Default)]
pub struct About {
    pub kind: u32,
    pub of: u32,
    pub part: u32,
    pub op: u32,
    pub low: u64,
    pub high: u64,
    pub size: u32,
    pub reserved: u32,
}

#[repr(C)]
#[derive(Default)]
pub struct Room {
    pub capacity: u32,
    pub covered: u32,
    pub nodes_left: u32,
    pub reserved: u32,
}

#[repr(C)]
#[derive(Default)]
pub struct Head {
    pub tail: u32,
    pub kind: u32,
    pub count: u64,
}

/// `CONFLUO_VERSION` of the header that this crate is written for.
pub const VERSION: u32 = 24_000;

pub const OK: u32 = 0;
pub const MEMORY: u32 = 1;
pub const SIZES: u32 = 2;
pub const SETUP: u32 = 3;
pub const NO_WRITER: u32 = 5;
pub const FULL: u32 = 6;
pub const NODES: u32 = 7;
pub const UNFIT: u32 = 8;
pub const FRAME: u32 = 9;
pub const NO_QUESTION: u32 = 10;
pub const NO_LANE: u32 = 11;
pub const NO_ROW: u32 = 12;
pub const NO_GROUPS: u32 = 14;
pub const BUSY: u32 = 15;
pub const UNLIKE: u32 = 16;
pub const ONE_LOG: u32 = 17;

pub const PLACES: u32 = 0;
pub const QUAD: u32 = 1;
pub const MARKS: u32 = 2;
pub const TOPS: u32 = 3;
pub const GROUPS: u32 = 4;
pub const KEYED_MARKS: u32 = 5;
pub const KEYED_GROUPS: u32 = 6;

pub const NUMBER: u32 = 0;
pub const BYTES: u32 = 1;

pub const ATTRIBUTES: u32 = 0;
pub const LANES: u32 = 1;
pub const TRIGGERS: u32 = 2;
pub const QUESTIONS: u32 = 3;

extern "C" {
    pub fn confluo_version() -> u32;
    pub fn confluo_message(code: u32, from: usize, out: *mut u8, out_len: usize) -> usize;
    pub fn confluo_check(
        setup: *const u8,
        setup_len: usize,
        sizes: *const Sizes,
        bytes: *mut u64,
        fault: *mut Fault,
    ) -> u32;
    pub fn confluo_open(
        log: *mut Log,
        setup: *const u8,
        setup_len: usize,
        sizes: *const Sizes,
        fault: *mut Fault,
    ) -> u32;
    pub fn confluo_take_writer(log: *mut Log, writer: *mut Writer, number: *mut u32) -> u32;
    pub fn confluo_take_reader(log: *mut Log, reader: *mut Reader) -> u32;
    pub fn confluo_close(log: *mut Log, reader: *mut Reader) -> u32;
    pub fn confluo_append(
        writer: *mut Writer,
        capture: *const Capture,
        bytes: *const u8,
        bytes_len: usize,
        offset: *mut u32,
    ) -> u32;
    pub fn confluo_append_values(
        writer: *mut Writer,
        number: u32,
        values: *const u64,
        values_len: usize,
        offset: *mut u32,
    ) -> u32;
    pub fn confluo_append_many(
        writer: *mut Writer,
        frames: *const Frame,
        frames_len: usize,
        bytes: *const u8,
        bytes_len: usize,
        offsets: *mut u32,
        offsets_len: usize,
        done: *mut usize,
    ) -> u32;
    pub fn confluo_append_row(
        writer: *mut Writer,
        number: u32,
        values: *const Value,
        values_len: usize,
        offset: *mut u32,
    ) -> u32;
    pub fn confluo_room_of(writer: *mut Writer, room: *mut Room) -> u32;
    pub fn confluo_ask(reader: *mut Reader, question: u32, head: *mut Head) -> u32;
    pub fn confluo_ask_seen(reader: *mut Reader, question: u32, head: *mut Head) -> u32;
    pub fn confluo_ask_text(
        reader: *mut Reader,
        line: *const u8,
        line_len: usize,
        head: *mut Head,
        fault: *mut Fault,
    ) -> u32;
    pub fn confluo_groups(reader: *mut Reader, lane: u32, head: *mut Head) -> u32;
    pub fn confluo_merge(
        one: *const u64,
        one_len: usize,
        other: *const u64,
        other_len: usize,
        out: *mut u64,
        out_len: usize,
        count: *mut usize,
    ) -> u32;
    pub fn confluo_row(
        reader: *mut Reader,
        offset: u32,
        number: *mut u32,
        values: *mut Value,
        values_len: usize,
        count: *mut usize,
    ) -> u32;
    pub fn confluo_words(reader: *mut Reader, from: usize, out: *mut u64, out_len: usize) -> usize;
    pub fn confluo_span_of(reader: *mut Reader, span: *mut Span) -> u32;
    pub fn confluo_span_add(span: *mut Span, reader: *mut Reader) -> u32;
    pub fn confluo_span_drop_first(span: *mut Span) -> u32;
    pub fn confluo_span_logs(span: *mut Span, logs: *mut usize) -> u32;
    pub fn confluo_span_tail(span: *mut Span, tail: *mut u32) -> u32;
    pub fn confluo_span_ask(span: *mut Span, question: u32, head: *mut Head) -> u32;
    pub fn confluo_span_ask_seen(span: *mut Span, question: u32, head: *mut Head) -> u32;
    pub fn confluo_span_groups(span: *mut Span, lane: u32, head: *mut Head) -> u32;
    pub fn confluo_span_row(
        span: *mut Span,
        offset: u32,
        number: *mut u32,
        values: *mut Value,
        values_len: usize,
        count: *mut usize,
    ) -> u32;
    pub fn confluo_span_words(span: *mut Span, from: usize, out: *mut u64, out_len: usize) -> usize;
    pub fn confluo_span_report(span: *mut Span, text: *mut u8, text_len: usize, count: *mut usize) -> u32;
    pub fn confluo_report(reader: *mut Reader, text: *mut u8, text_len: usize, count: *mut usize) -> u32;
    pub fn confluo_tail(reader: *mut Reader, tail: *mut u32) -> u32;
    pub fn confluo_name(
        log: *mut Log,
        sort: u32,
        number: u32,
        name: *mut u8,
        name_len: usize,
        count: *mut usize,
    ) -> u32;
    pub fn confluo_tell(log: *mut Log, sort: u32, number: u32, about: *mut About) -> u32;
    pub fn confluo_width(log: *mut Log, width: *mut u64) -> u32;
}
