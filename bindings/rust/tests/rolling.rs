//! Rolling logs: threads, writers and readers that are slow, full logs, and what is refused.
use confluo::{
    AppendError, AskError, Batch, Body, Capture, GroupsError, Log, OpenError, Placed, Rolling, RollingReader, RowError,
    Sizes, TakeError, Value,
};
use std::collections::BTreeMap;
use std::error::Error;
use std::sync::atomic::{AtomicBool, AtomicU64, Ordering};
use std::thread;
use std::time::{Duration, Instant};

const PLAIN: &str = "schema records ts:u64,len:u32\nask all total len *\n";
const HOSTS: &str = "schema records ts:u64,host:u32\nindex hosts host\nask all list *\n";
const RECORDS: &str = "schema records ts:u64,writer:u32,k:u32,len:u32\ntally keys writer len *\nask all total len *\n";

fn sizes(capacity: u32, writers: u32, nodes: u32) -> Sizes {
    Sizes {
        capacity,
        writers,
        nodes,
    }
}

fn quad_of(reader: &mut RollingReader) -> (u64, u64) {
    match reader.ask_seen(0).expect("an answer").body {
        Body::Quad(quad) => (quad.count, quad.sum),
        other => panic!("{other:?}"),
    }
}

#[test]
fn many_threads_append_while_two_ask() -> Result<(), Box<dyn Error>> {
    const EACH: u32 = 50_000;
    for keep in [0, 3] {
        let rolling = Rolling::open(RECORDS, sizes(1_024, 4, 64), keep)?;
        let is_over = AtomicBool::new(false);
        let ask = |reader: &mut RollingReader| {
            let (mut before, mut is_last) = (0, false);
            while !is_last {
                is_last = is_over.load(Ordering::SeqCst);
                let tail = u64::from(reader.tail().expect("memory"));
                let end = reader.before() + tail;
                assert!(end >= before && (keep == 0 || reader.segments() <= keep as usize));
                let (count, sum) = quad_of(reader);
                let groups = reader.groups(0).expect("groups").groups;
                assert_eq!(count, tail);
                assert_eq!(groups.iter().map(|it| it.quad.count).sum::<u64>(), tail);
                assert_eq!(groups.iter().map(|it| it.quad.sum).sum::<u64>(), sum);
                before = end;
            }
            assert_eq!(before, 4 * u64::from(EACH));
        };
        let mut places = BTreeMap::new();
        thread::scope(|threads| -> Result<(), Box<dyn Error>> {
            let mut appends = Vec::new();
            for _ in 0..2 {
                let mut reader = rolling.reader()?;
                threads.spawn(move || ask(&mut reader));
            }
            for _ in 0..4 {
                let mut writer = rolling.writer()?;
                let number = u64::from(writer.number());
                appends.push(threads.spawn(move || {
                    let mut append = |k| writer.append_values(7, &[1_000, number, u64::from(k), 40 + number]);
                    (0..EACH)
                        .map(|k| (append(k).expect("room"), (number, k)))
                        .collect::<Vec<_>>()
                }));
            }
            for it in appends {
                places.extend(it.join().expect("no writer panics"));
            }
            is_over.store(true, Ordering::SeqCst);
            Ok(())
        })?;
        assert!(places.keys().copied().eq(0..4 * u64::from(EACH)));
        let mut reader = rolling.reader()?;
        drop(rolling);
        let (tail, before) = (u64::from(reader.tail()?), reader.before());
        assert_eq!(before + tail, 4 * u64::from(EACH));
        assert_eq!(keep == 0, before == 0);
        for (row, place) in reader.rows().zip(before..) {
            let (number, k) = places[&place];
            assert_eq!(row?.values[1..3], [Value::Number(number), Value::Number(u64::from(k))]);
        }
        let sum: u64 = places.range(before..).map(|(_, it)| 40 + it.0).sum();
        assert_eq!(quad_of(&mut reader), (tail, sum));
    }
    Ok(())
}

#[test]
fn parts_come_and_go() -> Result<(), Box<dyn Error>> {
    let rolling = Rolling::open(PLAIN, sizes(4, 3, 0), 2)?;
    let (is_over, appended) = (AtomicBool::new(false), AtomicU64::new(0));
    thread::scope(|threads| {
        threads.spawn(|| {
            for _ in 0..3_000 {
                let mut writer = rolling.writer().expect("a writer");
                for _ in 0..9 {
                    writer.append_values(0, &[1, 1]).expect("room");
                    appended.fetch_add(1, Ordering::SeqCst);
                }
            }
            is_over.store(true, Ordering::SeqCst);
        });
        for _ in 0..3 {
            threads.spawn(|| {
                while !is_over.load(Ordering::SeqCst) {
                    let least = appended.load(Ordering::SeqCst);
                    let mut reader = rolling.reader().expect("memory");
                    assert!(u64::from(reader.tail().expect("memory")) + reader.before() >= least);
                }
            });
        }
    });
    let mut reader = rolling.reader()?;
    assert_eq!((reader.tail()?, reader.before(), reader.segments()), (8, 26_992, 2));
    Ok(())
}

#[test]
fn who_was_away_comes_back() -> Result<(), Box<dyn Error>> {
    let rolling = Rolling::open(PLAIN, sizes(4, 2, 0), 2)?;
    let (mut away, mut writer, mut reader) = (rolling.writer()?, rolling.writer()?, rolling.reader()?);
    assert_eq!((away.number(), writer.number()), (1, 0));
    assert_eq!(away.append_values(0, &[1, 1])?, 0);
    assert_eq!(reader.ask(0)?.tail, 1);
    for k in 1..41 {
        assert_eq!(writer.append_values(0, &[1, 1])?, k);
    }
    assert_eq!(away.append_values(0, &[1, 1])?, 41);
    assert_eq!((reader.segments(), reader.before()), (1, 0));
    assert_eq!((reader.tail()?, reader.segments(), reader.before()), (6, 2, 36));
    Ok(())
}

#[test]
fn a_log_of_all_segments_is_full() -> Result<(), Box<dyn Error>> {
    let rolling = Rolling::open(PLAIN, sizes(65_536, 1, 0), 0)?;
    let (mut writer, mut reader) = (rolling.writer()?, rolling.reader()?);
    for k in 0..1 << 20 {
        assert_eq!(writer.append_values(0, &[1, 1])?, k);
    }
    assert_eq!(writer.append_values(0, &[1, 1]), Err(AppendError::Full));
    drop(writer);
    assert_eq!(rolling.writer()?.append_values(0, &[1, 1]), Err(AppendError::Full));
    assert_eq!(reader.tail()?, 1 << 20);
    Ok(())
}

/// How many rows of new hosts a log of 8 takes, and what it refuses the next one for.
fn taken(nodes: u32) -> Result<(u64, Option<AppendError>), Box<dyn Error>> {
    let mut writer = Log::open(HOSTS, sizes(8, 1, nodes))?.writer()?;
    for k in 0..9 {
        if let Err(refused) = writer.append_values(0, &[1, new_host(k)]) {
            return Ok((k, Some(refused)));
        }
    }
    Ok((9, None))
}

fn new_host(k: u64) -> u64 {
    k * 2_654_435_761 % (1 << 32)
}

#[test]
fn a_full_segment_does_not_lack_nodes() -> Result<(), Box<dyn Error>> {
    let mut enough = 0;
    while taken(enough)?.0 < 8 {
        enough += 1;
    }
    assert_eq!(taken(enough)?, (8, Some(AppendError::Nodes)));
    for nodes in [enough, 40] {
        let mut writer = Rolling::open(HOSTS, sizes(8, 1, nodes), 3)?.writer()?;
        let (mut place, mut known, mut refused) = (0, 0, 0);
        for k in 0..100 {
            match writer.append_values(0, &[1, new_host(k)]) {
                Ok(found) => (place, known) = (found, k),
                Err(code) => {
                    assert_eq!(code, AppendError::Nodes);
                    assert_ne!(place % 8, 7);
                    place = writer.append_values(0, &[1, new_host(known)])?;
                    refused += 1;
                }
            }
        }
        assert_eq!((place, refused > 0), (99, nodes == 40));
    }
    Ok(())
}

#[test]
fn frames_and_rows_go_on() -> Result<(), Box<dyn Error>> {
    let rolling = Rolling::open("schema packet\nask all list *\n", sizes(300, 1, 0), 2)?;
    let (mut writer, mut reader) = (rolling.writer()?, rolling.reader()?);
    let capture = |number, link| Capture {
        ns: 1_000,
        number,
        length: 60,
        link,
    };
    assert_eq!(writer.append(&capture(7, 1), &[0; 60])?, 0);
    let mut batch = Batch::new();
    (0..1_000).for_each(|number| batch.push(&capture(number, 1), &[0; 60]));
    let places = (1..1_001).collect();
    assert_eq!(writer.append_many(&batch, 0), Placed { places, refused: None });
    batch.push(&capture(7, 99), &[0; 60]);
    let done = writer.append_many(&batch, 400);
    assert_eq!((done.places.len(), done.refused), (600, Some(AppendError::Frame)));
    assert_eq!(writer.append_many(&batch, 1_002).refused, Some(AppendError::Sizes));
    assert_eq!((reader.tail()?, reader.before()), (401, 1_200));
    assert_eq!(reader.row(400)?.number, 999);
    assert_eq!(reader.row(401), Err(RowError::NoRow));
    assert!(reader.report()?.starts_with("records 401\n"));
    let rolling = Rolling::open("schema records ts:u64,mac:b6\n", sizes(2, 1, 0), 1)?;
    let (mut writer, mut reader) = (rolling.writer()?, rolling.reader()?);
    let values = [Value::Number(1), Value::Bytes(vec![2, 0, 0, 0, 0, 1])];
    for number in 0..5 {
        writer.append_row(number, &values)?;
    }
    assert_eq!((reader.tail()?, reader.row(0)?.number), (1, 4));
    Ok(())
}

#[test]
fn readers_wait() -> Result<(), Box<dyn Error>> {
    const COUNT: u64 = 2_000;
    let rolling = Rolling::open(PLAIN, sizes(16, 1, 0), 1)?;
    let (mut writer, mut reader) = (rolling.writer()?, rolling.reader()?);
    let began = Instant::now();
    assert_eq!(reader.wait(0, Duration::from_millis(20))?, 0);
    assert!(began.elapsed() >= Duration::from_millis(20));
    let waits = thread::spawn(move || {
        let mut end = 0;
        while end < COUNT {
            let was = end;
            end = reader.wait(was, Duration::from_secs(10)).expect("memory");
            assert!(end > was);
        }
    });
    for _ in 0..COUNT {
        writer.append_values(0, &[1, 1])?;
    }
    waits.join().expect("no wait panics");
    assert!(began.elapsed() < Duration::from_secs(5), "a wake was lost");
    Ok(())
}

#[test]
fn calls_are_refused() -> Result<(), Box<dyn Error>> {
    let faulty = Rolling::open("schema packet\nindex\n", sizes(65_536, 16, 0), 16);
    assert!(matches!(faulty.err(), Some(OpenError::Setup(fault)) if (fault.line, fault.code) == (2, 3)));
    for (writers, keep) in [(16, 0), (2, 16), (2, u32::MAX)] {
        let refused = Rolling::open(PLAIN, sizes(65_536, writers, 0), keep).err();
        assert_eq!(refused, Some(OpenError::Sizes));
    }
    let rolling = Rolling::open(PLAIN, sizes(65_536, 2, 0), 15)?;
    let (first, second) = (rolling.writer()?, rolling.writer()?);
    assert_eq!(rolling.writer().err(), Some(TakeError::NoWriter));
    drop(first);
    let mut third = rolling.writer()?;
    assert_eq!((second.number(), third.number()), (0, 1));
    assert_eq!(third.append_values(0, &[]), Err(AppendError::Unfit));
    let mut reader = rolling.reader()?;
    assert_eq!(reader.ask(1).err(), Some(AskError::NoQuestion));
    assert_eq!(reader.ask_named("other").err(), Some(AskError::NoQuestion));
    assert_eq!(reader.groups(0).err(), Some(GroupsError::NoLane));
    Ok(())
}
