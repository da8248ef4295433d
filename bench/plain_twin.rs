//! The plain Rust twin: what the log keeps and answers, by one mutex around a `Vec` and maps, with nothing proved.
//!
//!     rustc --edition 2021 -O -o plain_twin_rust bench/plain_twin.rs
//!     ./plain_twin_rust FORM LANES THREADS [BATCH]
//!
//! Words, data and output are those of bench/library_speed.c. FORM is `rows`, with LANES maps from a key to the offsets of its
//! records, or `frames`, which are read as docs/FORMATS.md says (Ethernet, IPv4, TCP and UDP without options), with the same lanes as the
//! usual setup: an index by sender, a filter by second, an aggregate and a trigger. A record is appended under the mutex, which is
//! taken once for each record, or once for BATCH of them; a question is asked under it.
use std::collections::BTreeMap;
use std::env;
use std::process::exit;
use std::sync::{Arc, Barrier, Mutex};
use std::thread;
use std::time::Instant;

const RECORDS: usize = 65_536;
const WIDTH: usize = 20;
const QUESTIONS: [(&str, u32); 4] = [("find", 500), ("measure", 20_000), ("fired", 20_000), ("list", 50)];

type Row = [u64; WIDTH];

#[derive(Clone, Copy)]
struct Quad {
    count: u64,
    sum: u64,
    least: u64,
    greatest: u64,
}

const NONE: Quad = Quad {
    count: 0,
    sum: 0,
    least: u64::MAX,
    greatest: 0,
};

impl Quad {
    fn join(self, other: Quad) -> Quad {
        Quad {
            count: self.count + other.count,
            sum: self.sum + other.sum,
            least: self.least.min(other.least),
            greatest: self.greatest.max(other.greatest),
        }
    }
}

/// The records in order, and the maps of its lanes.
#[derive(Default)]
struct Store {
    rows: Vec<(u32, Row)>,
    indexes: Vec<BTreeMap<u64, Vec<u32>>>,
    buckets: BTreeMap<u64, (Vec<u32>, Option<Quad>)>,
    is_usual: bool,
}

/// A captured frame: its time, its length on the wire, and its bytes.
struct Frame {
    ns: u64,
    length: u64,
    bytes: [u8; 54],
}

impl Store {
    fn append(&mut self, number: u32, row: Row) -> u32 {
        let offset = self.rows.len() as u32;
        for (lane, index) in self.indexes.iter_mut().enumerate() {
            let key = row[if self.is_usual { 11 } else { lane + 1 }];
            index.entry(key).or_default().push(offset);
        }
        if self.is_usual {
            let (places, quad) = self.buckets.entry(row[0] / 1_000_000_000).or_default();
            places.push(offset);
            let one = Quad {
                count: 1,
                sum: row[2],
                least: row[2],
                greatest: row[2],
            };
            *quad = Some(quad.unwrap_or(NONE).join(one));
        }
        self.rows.push((number, row));
        offset
    }

    /// The words of the answer.
    #[inline(never)]
    fn ask(&self, question: &str) -> Vec<u64> {
        match question {
            "find" => self.indexes[0]
                .get(&0x0a00_0007)
                .into_iter()
                .flatten()
                .map(|&place| place.into())
                .collect(),
            "measure" => {
                let all = self.buckets.range(0..=1_000_000).filter_map(|(_, (_, quad))| *quad);
                let quad = all.fold(NONE, Quad::join);
                vec![quad.count, quad.sum, quad.least, quad.greatest]
            }
            "fired" => {
                let sums = self
                    .buckets
                    .iter()
                    .filter_map(|(bucket, (_, quad))| Some([*bucket, (*quad)?.sum]));
                sums.filter(|mark| mark[1] > 570_000).flatten().collect()
            }
            _ => (0..)
                .zip(&self.rows)
                .filter(|(_, (_, row))| row[2] > 1_080)
                .map(|(place, _)| place)
                .collect(),
        }
    }
}

fn number(bytes: &[u8]) -> u64 {
    bytes.iter().fold(0, |sum, byte| sum << 8 | u64::from(*byte))
}

/// The row of an Ethernet frame in the order of the schema: ts caplen len dmac smac etype kind tos iplen ttl proto src dst sport dport
/// seq ack flags win vlan.
fn row_of(frame: &Frame) -> Row {
    let f = &frame.bytes[..];
    let mut row = [0; WIDTH];
    row[..6].copy_from_slice(&[
        frame.ns,
        f.len() as u64,
        frame.length,
        number(&f[..6]),
        number(&f[6..12]),
        number(&f[12..14]),
    ]);
    if row[5] != 0x0800 || f[14] != 0x45 {
        return row;
    }
    row[6..13].copy_from_slice(&[
        1,
        f[15].into(),
        number(&f[16..18]),
        f[22].into(),
        f[23].into(),
        number(&f[26..30]),
        number(&f[30..34]),
    ]);
    if f[23] == 6 && number(&f[20..22]) % 8_192 == 0 {
        row[6] = 2;
        row[13..19].copy_from_slice(&[
            number(&f[34..36]),
            number(&f[36..38]),
            number(&f[38..42]),
            number(&f[42..46]),
            f[47].into(),
            number(&f[48..50]),
        ]);
    }
    row
}

/// The packets of `confluo synth --seed 1`, all TCP, and rows of numbers.
fn draw() -> (Vec<Frame>, Vec<Row>) {
    let mut state = 1_u64;
    let mut next = || {
        state = state
            .wrapping_mul(6_364_136_223_846_793_005)
            .wrapping_add(1_442_695_040_888_963_407);
        (state >> 32) as u32
    };
    let front = [2, 0, 0, 0, 0, 1, 2, 0, 0, 0, 0, 2, 8, 0, 0x45, 0];
    let mut frames = Vec::with_capacity(RECORDS);
    let mut rows = Vec::with_capacity(RECORDS);
    for k in 0..RECORDS as u32 {
        let r = next();
        let length = 64 + (r >> 20) % 1_024;
        let mut bytes = [0; 54];
        bytes[..16].copy_from_slice(&front);
        bytes[16..18].copy_from_slice(&((length - 14) as u16).to_be_bytes());
        bytes[22..24].copy_from_slice(&[64, 6]);
        bytes[26..30].copy_from_slice(&(0x0a00_0000 + r % 16).to_be_bytes());
        bytes[30..34].copy_from_slice(&(0x0a00_0100 + (r >> 4) % 16).to_be_bytes());
        bytes[34..36].copy_from_slice(&((40_000 + (r >> 10) % 256) as u16).to_be_bytes());
        bytes[36..38].copy_from_slice(&443_u16.to_be_bytes());
        bytes[38..42].copy_from_slice(&k.to_be_bytes());
        bytes[46..49].copy_from_slice(&[0x50, 0x10, 4]);
        let ns = u64::from(1 + k / 1_000) * 1_000_000_000 + u64::from(k % 1_000) * 1_000_000;
        frames.push(Frame {
            ns,
            length: length.into(),
            bytes,
        });
        let mut row = [0; WIDTH];
        row[0] = ns;
        row[1..].fill_with(|| u64::from(next() % 256));
        rows.push(row);
    }
    (frames, rows)
}

/// Runs the threads at once, and prints the seconds from the first one's begin to the last one's end.
fn timed(name: &str, calls: u32, threads: usize, work: impl Fn(usize) + Send + Sync + 'static) {
    let (work, start) = (Arc::new(work), Arc::new(Barrier::new(threads)));
    let spawned: Vec<_> = (0..threads)
        .map(|thread| {
            let (work, start) = (Arc::clone(&work), Arc::clone(&start));
            thread::spawn(move || {
                start.wait();
                let began = Instant::now();
                work(thread);
                (began, Instant::now())
            })
        })
        .collect();
    let times: Vec<_> = spawned.into_iter().map(|thread| thread.join().unwrap()).collect();
    let (began, ended) = (times.iter().map(|it| it.0).min(), times.iter().map(|it| it.1).max());
    println!("{name} {:.6} {calls}", (ended.unwrap() - began.unwrap()).as_secs_f64());
}

fn main() {
    let words: Vec<String> = env::args().collect();
    let numbers: Vec<usize> = words.iter().skip(2).filter_map(|word| word.parse().ok()).collect();
    if words.len() < 4 || numbers.len() + 2 != words.len() || numbers[1] == 0 {
        eprintln!("usage: plain_twin_rust rows|frames LANES THREADS [BATCH]");
        exit(2);
    }
    let (lanes, threads, batch) = (numbers[0], numbers[1], numbers.get(2).copied().unwrap_or(1));
    let is_usual = words[1] == "frames";
    let indexes = vec![BTreeMap::new(); if is_usual { 1 } else { lanes }];
    let store = Arc::new(Mutex::new(Store {
        indexes,
        is_usual,
        ..Store::default()
    }));
    let (frames, rows) = draw();
    let at = Arc::clone(&store);
    timed("append", RECORDS as u32, threads, move |thread| {
        let mine: Vec<usize> = (thread..RECORDS).step_by(threads).collect();
        for part in mine.chunks(batch) {
            let made: Vec<Row> = part
                .iter()
                .map(|&k| if is_usual { row_of(&frames[k]) } else { rows[k] })
                .collect();
            let mut store = at.lock().unwrap();
            for (&k, row) in part.iter().zip(made) {
                store.append(k as u32, row);
            }
        }
    });
    if store.lock().unwrap().rows.len() != RECORDS {
        exit(1);
    }
    for (name, asked) in QUESTIONS.iter().filter(|_| is_usual) {
        let at = Arc::clone(&store);
        timed(name, *asked, threads, move |_| {
            let words: usize = (0..*asked).map(|_| at.lock().unwrap().ask(name).len()).sum();
            if words == 0 {
                exit(1);
            }
        });
    }
}
