//! A program of six threads: four append, two ask while they do, and the main one closes the log and looks at its report.
#![forbid(unsafe_code)]

use confluo::{Body, Error, Log, Reader, Sizes, Writer};
use std::sync::atomic::{AtomicU32, Ordering};
use std::thread;
use std::time::Duration;

const WRITERS: u32 = 4;
const READERS: u32 = 2;
const EACH: u32 = 1_000;
const SETUP: &str = "\
schema records ts:u64,host:u32,len:u16
index hosts host
filter every *
aggregate bytes every len
tally senders host len *
trigger busy bytes sum > 25000
ask all total len *
ask one find hosts 99 99
ask marks fired busy
ask most top senders sum 2
";
const REPORT: &str = "\
records 4000
ask all total count 4000 sum 247760 least 60 greatest 1500
ask one find 4: 500 500 500 500
ask marks fired 1: 7=29960
ask most top 2: 4=35520 1=30500
alert busy 7 29960
order ";

/// A writer's thread that runs, until this is dropped.
struct Running<'a>(&'a AtomicU32);

impl Drop for Running<'_> {
    fn drop(&mut self) {
        self.0.fetch_sub(1, Ordering::SeqCst);
    }
}

fn append(mut writer: Writer, _running: Running<'_>) -> Result<(), Error> {
    for k in 0..EACH {
        let host = if k == 500 { 99 } else { k % 8 };
        let length = if k == 700 { 1_500 } else { 60 + k % 2 };
        writer.append_values(k, &[u64::from(k) * 10_000_000, host.into(), length.into()])?;
    }
    Ok(())
}

/// Asks all questions at one tail, until the writers have ended.
fn ask(mut reader: Reader, running: &AtomicU32) -> Result<u32, Error> {
    let mut before = 0;
    loop {
        let more = running.load(Ordering::SeqCst) > 0;
        let time = if more {
            Duration::from_millis(10)
        } else {
            Duration::ZERO
        };
        let tail = reader.wait(before, time);
        assert!(tail >= before, "the tail fell");
        for name in ["one", "marks", "most"] {
            assert_eq!(reader.ask_seen_named(name)?.tail, tail);
        }
        let all = reader.ask_seen_named("all")?;
        assert!(matches!(all.body, Body::Quad(quad) if quad.count == u64::from(tail)));
        if !more {
            return Ok(tail);
        }
        before = tail;
    }
}

#[test]
fn four_append_and_two_ask() -> Result<(), Error> {
    let sizes = Sizes {
        capacity: WRITERS * EACH,
        writers: WRITERS,
        nodes: 256,
    };
    let mut log = Log::open(SETUP, sizes)?;
    let writers = (0..WRITERS).map(|_| log.writer()).collect::<Result<Vec<_>, _>>()?;
    let readers = (0..READERS).map(|_| log.reader()).collect::<Result<Vec<_>, _>>()?;
    let running = AtomicU32::new(WRITERS);
    let running = &running;
    thread::scope(|scope| {
        let appends: Vec<_> = (writers.into_iter())
            .map(|it| {
                let here = Running(running);
                scope.spawn(move || append(it, here))
            })
            .collect();
        let asks: Vec<_> = (readers.into_iter())
            .map(|it| scope.spawn(move || ask(it, running)))
            .collect();
        for it in appends {
            it.join().expect("no writer panics")?;
        }
        for it in asks {
            assert_eq!(it.join().expect("no reader panics")?, WRITERS * EACH);
        }
        Ok::<(), Error>(())
    })?;
    let mut last = log.close().map_err(|(_, refused)| refused)?;
    let report = last.report()?;
    assert!(report.starts_with(REPORT), "{report}");
    Ok(())
}
