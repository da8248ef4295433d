//! The calls that are refused, answers, the order of drops, and threads.
#![forbid(unsafe_code)]

use confluo::{
    check, merge, AddError, Answer, AppendError, AskError, Asks, Body, Capture, CloseError, Fault, Group, Groups,
    GroupsError, KeyedGroup, KeyedMark, LaneKind, Log, Mark, MergeError, Op, OpenError, Part, Quad, Reader, Row,
    RowError, Sizes, Span, TakeError, Top, Trigger, Value, Writer,
};
use std::error::Error;
use std::sync::mpsc;
use std::thread;
use std::time::{Duration, Instant};

const RECORDS: &str =
    "schema records ts:u64,host:u32,len:u32\nindex hosts host\nfilter every *\naggregate sums every len\n\
    trigger large sums sum > 40\ntally keys host len *\naggregate apart every len by host\ntrigger many apart count >= 2\n\
    ask all total len *\nask one find hosts 1 1\nask marks fired large\nask top top keys sum 2\nask each groups sums\n\
    ask pairs fired many\nask parts groups apart\n";

fn sizes(capacity: u32, writers: u32, nodes: u32) -> Sizes {
    Sizes {
        capacity,
        writers,
        nodes,
    }
}

/// Whether a type is `Sync`: `is_sync` is ambiguous, and does not compile, if it is.
macro_rules! is_not_sync {
    ($($type:ty),*) => {
        $(const _: fn() = || {
            trait Ambiguous<A> {
                fn is_sync() {}
            }
            impl<T: ?Sized> Ambiguous<()> for T {}
            struct Synced;
            impl<T: ?Sized + Sync> Ambiguous<Synced> for T {}
            <$type as Ambiguous<_>>::is_sync();
        };)*
    };
}

is_not_sync!(Log, Writer, Reader, Span);

fn is_send<T: Send>(_: &T) {}

#[test]
fn setups_are_refused() {
    let fault = OpenError::Setup(Fault { line: 2, code: 3 });
    let cases = [
        (
            "schema packet\nindex\n",
            sizes(1, 1, 0),
            fault,
            "the setup is faulty: line 2, code 3",
        ),
        (
            "schema packet\nindex\n",
            sizes(0, 99, 0),
            fault,
            "the setup is faulty: line 2, code 3",
        ),
        (RECORDS, sizes(0, 1, 0), OpenError::Sizes, "a size is out of range"),
        (RECORDS, sizes(65_537, 1, 0), OpenError::Sizes, "a size is out of range"),
        (RECORDS, sizes(1, 257, 0), OpenError::Sizes, "a size is out of range"),
        (RECORDS, sizes(1, 1, 65_537), OpenError::Sizes, "a size is out of range"),
    ];
    for (setup, sizes, error, text) in cases {
        assert_eq!(check(setup, sizes), Err(error));
        assert_eq!(Log::open(setup, sizes).err(), Some(error));
        assert!(error.to_string().starts_with(text));
    }
}

#[test]
fn calls_are_refused() -> Result<(), Box<dyn Error>> {
    let mut log = Log::open(RECORDS, sizes(2, 1, 64))?;
    let mut writer = log.writer()?;
    let mut reader = log.reader()?;
    is_send(&log);
    is_send(&writer);
    is_send(&reader);
    assert_eq!(log.writer().err(), Some(TakeError::NoWriter));
    assert_eq!(writer.append_values(0, &[]), Err(AppendError::Unfit));
    assert_eq!(writer.append_values(0, &[1, 1 << 32, 1]), Err(AppendError::Unfit));
    let capture = Capture {
        ns: 1,
        number: 0,
        length: 60,
        link: 1,
    };
    assert_eq!(writer.append(&capture, &[]), Err(AppendError::Unfit));
    assert_eq!(writer.append_values(0, &[1, 1, 10]), Ok(0));
    assert_eq!(writer.append_values(0, &[2, 1, 40]), Ok(1));
    assert_eq!(writer.append_values(0, &[3, 1, 10]), Err(AppendError::Full));
    assert_eq!(reader.ask(7), Err(AskError::NoQuestion));
    assert_eq!((writer.room().capacity, writer.room().covered), (2, 2));
    let mut other = Log::open("schema packet\n", sizes(1, 1, 0))?;
    let unread = Capture {
        link: 65_537,
        ..capture
    };
    assert_eq!(other.writer()?.append(&unread, &[]), Err(AppendError::Frame));
    Ok(())
}

#[test]
fn spans_ask_logs_as_one() -> Result<(), Box<dyn Error>> {
    let mut logs = Vec::new();
    for first in [10, 20, 30] {
        let mut log = Log::open(RECORDS, sizes(2, 1, 64))?;
        let mut writer = log.writer()?;
        for len in [first, first + 1] {
            assert!(writer.append_values(first as u32, &[1, 1, len]).is_ok());
        }
        logs.push(log);
    }
    let mut span = Span::of(logs[0].reader()?).map_err(|(_, refused)| refused)?;
    is_send(&span);
    for log in &mut logs[1..] {
        span.add(log.reader()?).map_err(|(_, refused)| refused)?;
    }
    assert_eq!((span.logs(), span.tail()), (3, 6));
    assert_eq!(span.ask_named("one")?.body, Body::Places(vec![0, 1, 2, 3, 4, 5]));
    assert_eq!(span.ask_named("other"), Err(AskError::NoQuestion));
    let answer = span.ask_seen(0)?;
    assert!(matches!(answer.body, Body::Quad(quad) if (quad.count, quad.sum) == (6, 123)));
    let groups = span.groups(3)?;
    assert_eq!((groups.tail, groups.groups[0].quad.sum), (6, 123));
    assert_eq!(span.groups(0), Err(GroupsError::NoLane));
    assert_eq!(span.row(3)?.values[2], Value::Number(21));
    assert_eq!(span.row(6), Err(RowError::NoRow));
    let numbers: Result<Vec<u32>, _> = span.rows().map(|row| row.map(|it| it.number)).collect();
    assert_eq!(numbers?, [10, 10, 20, 20, 30, 30]);
    let mut large = Log::open(RECORDS, sizes(6, 1, 64))?;
    let mut writer = large.writer()?;
    for (number, len) in [(10, 10), (10, 11), (20, 20), (20, 21), (30, 30), (30, 31)] {
        assert!(writer.append_values(number, &[1, 1, len]).is_ok());
    }
    let mut reader = large.reader()?;
    assert_eq!(reader.tail(), 6);
    assert_eq!(span.report()?, reader.report()?);
    let mut other = Log::open(RECORDS, sizes(3, 1, 64))?;
    let (mut back, refused) = span.add(other.reader()?).unwrap_err();
    assert_eq!((refused, back.ask(0)?.tail), (AddError::Unlike, 0));
    assert!(span.drop_first() && span.drop_first() && !span.drop_first());
    assert_eq!((span.logs(), span.ask(0)?.tail), (1, 2));
    Ok(())
}

#[test]
fn answers_have_forms() -> Result<(), Box<dyn Error>> {
    let mut log = Log::open(RECORDS, sizes(4, 1, 64))?;
    let mut writer = log.writer()?;
    for (host, len) in [(7, 10), (1, 25), (7, 20)] {
        writer.append_values(0, &[1, host, len])?;
    }
    let mut reader = log.reader()?;
    let quad = Quad {
        count: 3,
        sum: 55,
        least: 10,
        greatest: 25,
    };
    let part = |key, count, sum, least, greatest| KeyedGroup {
        bucket: 0,
        key,
        quad: Quad {
            count,
            sum,
            least,
            greatest,
        },
    };
    let answers = [
        Body::Quad(quad),
        Body::Places(vec![1]),
        Body::Marks(vec![Mark { bucket: 0, value: 55 }]),
        Body::Tops(vec![Top { key: 7, value: 30 }, Top { key: 1, value: 25 }]),
        Body::Groups(vec![Group { key: 0, quad }]),
        Body::KeyedMarks(vec![KeyedMark {
            bucket: 0,
            key: 7,
            value: 2,
        }]),
        Body::KeyedGroups(vec![part(1, 1, 25, 25, 25), part(7, 2, 30, 10, 20)]),
    ];
    for (question, body) in (0..).zip(answers) {
        assert_eq!(reader.ask(question)?, Answer { tail: 3, body });
    }
    Ok(())
}

#[test]
fn names_are_told() -> Result<(), Box<dyn Error>> {
    // (a reader's is that of the log, which is gone)
    let reader = Log::open(RECORDS, sizes(4, 1, 64))?.reader()?;
    let setup = reader.setup();
    let names: Vec<_> = setup
        .attributes()
        .iter()
        .map(|it| (it.name.as_str(), it.is_number, it.size))
        .collect();
    assert_eq!(names, [("ts", true, 8), ("host", true, 4), ("len", true, 4)]);
    let lanes: Vec<_> = setup.lanes().iter().map(|it| it.kind).collect();
    let kinds = [
        LaneKind::Index { key: 1 },
        LaneKind::Filter,
        LaneKind::Aggregate { measure: 2 },
        LaneKind::Tally { key: 1, measure: 2 },
        LaneKind::KeyedAggregate { key: 1, measure: 2 },
    ];
    assert_eq!(lanes, kinds);
    let (part, op, number) = (Part::Sum, Op::Greater, 40);
    let trigger = Trigger {
        name: "large".into(),
        lane: 2,
        part,
        op,
        number,
    };
    let many = Trigger {
        name: "many".into(),
        lane: 4,
        part: Part::Count,
        op: Op::AtLeast,
        number: 2,
    };
    assert_eq!(setup.triggers(), [trigger, many]);
    let asks: Vec<_> = setup.questions().iter().map(|it| it.asks).collect();
    let asked = [
        Asks::Total { attribute: 2 },
        Asks::Find {
            lane: 0,
            low: 1,
            high: 1,
        },
        Asks::Fired {
            lane: 2,
            part,
            op,
            number,
        },
        Asks::Top {
            lane: 3,
            part,
            count: 2,
        },
        Asks::Groups { lane: 2 },
        Asks::Fired {
            lane: 4,
            part: Part::Count,
            op: Op::AtLeast,
            number: 2,
        },
        Asks::Groups { lane: 4 },
    ];
    assert_eq!(asks, asked);
    assert_eq!((setup.question("marks"), setup.question("large")), (Some(2), None));
    assert_eq!((setup.width(), setup.text()), (1_000_000_000, RECORDS));
    Ok(())
}

#[test]
fn links_are_read_or_not() -> Result<(), Box<dyn Error>> {
    for (setup, reads) in [
        ("schema packet\nindex hosts src\n", [true, true, false]),
        ("schema packet6\n", [true, true, true]),
        (RECORDS, [false, false, false]),
    ] {
        let log = Log::open(setup, sizes(4, 1, 0))?;
        for (link, reads) in [1, 113, 276].into_iter().zip(reads) {
            assert_eq!(log.setup().reads_link(link)?, reads, "link {link} of {setup}");
        }
    }
    Ok(())
}

#[test]
fn all_is_asked_at_one_tail() -> Result<(), Box<dyn Error>> {
    let mut log = Log::open(RECORDS, sizes(4, 1, 64))?;
    let (mut writer, mut reader) = (log.writer()?, log.reader()?);
    writer.append_row(7, &[Value::Number(1), Value::Number(9), Value::Number(30)])?;
    assert_eq!(reader.row(0), Err(RowError::NoRow));
    assert_eq!(reader.ask_seen(0)?.tail, 0);
    assert_eq!(reader.tail(), 1);
    writer.append_values(8, &[2, 9, 50])?;
    assert_eq!(reader.ask_seen(0)?.tail, 1);
    let quad = Quad {
        count: 1,
        sum: 30,
        least: 30,
        greatest: 30,
    };
    let groups = reader.groups(3)?;
    assert_eq!(
        groups,
        Groups {
            tail: 1,
            groups: vec![Group { key: 9, quad }]
        }
    );
    let twice = Quad {
        count: 2,
        sum: 60,
        ..quad
    };
    assert_eq!(merge(&groups.groups, &groups.groups)?, [Group { key: 9, quad: twice }]);
    let wrong = Group {
        key: 9,
        quad: Quad { count: 0, ..quad },
    };
    assert_eq!(merge(&[wrong], &[]), Err(MergeError::NoGroups));
    for lane in [0, 4, 5] {
        assert_eq!(reader.groups(lane), Err(GroupsError::NoLane));
    }
    assert_eq!(reader.ask_seen(7), Err(AskError::NoQuestion));
    let row = Row {
        number: 7,
        values: vec![Value::Number(1), Value::Number(9), Value::Number(30)],
    };
    assert_eq!(reader.row(0)?, row);
    assert_eq!(reader.row(1), Err(RowError::NoRow));
    let long = [Value::Number(1), Value::Number(9), Value::Bytes(vec![0; 17])];
    assert_eq!(writer.append_row(9, &long), Err(AppendError::Unfit));
    Ok(())
}

#[test]
fn logs_are_closed() -> Result<(), Box<dyn Error>> {
    let mut log = Log::open("schema records ts:u64\nask all list *\n", sizes(4, 2, 0))?;
    let (mut first, mut second) = (log.writer()?, log.writer()?);
    let mut early = log.reader()?;
    first.append_values(8, &[1])?;
    second.append_values(7, &[1])?;
    drop(first);
    let (log, refused) = log.close().unwrap_err();
    assert_eq!(refused, CloseError::Busy);
    assert_eq!(refused.to_string(), "a writer of the log is taken");
    thread::spawn(move || drop(second)).join().unwrap();
    let mut last = log.close().map_err(|(_, refused)| refused)?;
    assert_eq!(last.report()?, "records 2\nask all list 2: 7 8\norder 1*1 0*1\n");
    assert_eq!(last.ask_seen(0)?.tail, 2);
    assert_eq!(early.report()?, "records 0\nask all list 0:\norder\n");
    assert_eq!(early.tail(), 2);
    assert_eq!(early.report()?, last.report()?);
    Ok(())
}

#[test]
fn readers_wait() -> Result<(), Box<dyn Error>> {
    const ROUNDS: u32 = 2_000;
    let long = Duration::from_secs(10);
    let mut log = Log::open("schema records ts:u64\n", sizes(ROUNDS, 1, 0))?;
    let mut other = Log::open("schema records ts:u64\n", sizes(ROUNDS, 1, 0))?;
    let (mut writer, mut reader) = (log.writer()?, log.reader()?);
    let (mut answers, mut asks) = (other.writer()?, other.reader()?);
    let began = Instant::now();
    assert_eq!(reader.wait(0, Duration::from_millis(20)), 0);
    assert!(began.elapsed() >= Duration::from_millis(20));
    // Each appends once the other has. A wake that is lost takes ten seconds.
    let echo = thread::spawn(move || {
        for k in 0..ROUNDS {
            assert_eq!(reader.wait(k, long), k + 1);
            answers.append_values(k, &[1]).expect("room");
        }
        reader
    });
    for k in 0..ROUNDS {
        let began = Instant::now();
        writer.append_values(k, &[1])?;
        assert_eq!(asks.wait(k, long), k + 1);
        assert!(began.elapsed() < long / 2, "a wake was lost");
    }
    let mut reader = echo.join().expect("no echo panics");
    drop(writer);
    let began = Instant::now();
    let waits = thread::spawn(move || reader.wait(ROUNDS, long));
    thread::sleep(Duration::from_millis(20));
    log.close().map_err(|(_, refused)| refused)?;
    assert_eq!(waits.join().expect("no wait panics"), ROUNDS);
    assert!(began.elapsed() < long / 2, "the end was not told");
    Ok(())
}

#[test]
fn parts_are_dropped_in_any_order() -> Result<(), Box<dyn Error>> {
    for first in 0..3 {
        let mut log = Log::open(RECORDS, sizes(4, 1, 64))?;
        let (mut writer, mut reader) = (log.writer()?, log.reader()?);
        match first {
            0 => {
                drop(log);
                writer.append_values(0, &[1, 1, 1])?;
                assert_eq!(reader.tail(), 1);
            }
            1 => {
                drop(writer);
                assert_eq!(reader.tail(), 0);
            }
            _ => {
                drop(reader);
                drop(log);
                assert_eq!(writer.append_values(0, &[1, 1, 1]), Ok(0));
            }
        }
    }
    Ok(())
}

#[test]
fn writers_and_readers_run_at_the_same_time() -> Result<(), Box<dyn Error>> {
    const EACH: u32 = 1_000;
    let mut log = Log::open(RECORDS, sizes(4 * EACH, 4, 64))?;
    // A channel hands handles over by acquire and release alone.
    let (send, receive) = mpsc::channel();
    for _ in 0..4 {
        send.send((log.writer()?, log.reader()?))?;
    }
    drop((send, log));
    let threads: Vec<_> = receive
        .into_iter()
        .map(|(mut writer, mut reader)| {
            let asks = thread::spawn(move || {
                let mut before = 0;
                while before < 4 * EACH {
                    let answer = reader.ask(0).expect("an answer");
                    assert!(answer.tail >= before);
                    let count = u64::from(answer.tail);
                    assert!(matches!(answer.body, Body::Quad(quad) if (quad.count, quad.sum) == (count, 10 * count)));
                    before = answer.tail;
                }
            });
            let appends = thread::spawn(move || {
                for k in 0..EACH {
                    writer
                        .append_values(k, &[u64::from(k), u64::from(k % 4), 10])
                        .expect("room");
                }
            });
            [asks, appends]
        })
        .collect();
    for thread in threads.into_iter().flatten() {
        thread.join().expect("no thread panics");
    }
    Ok(())
}
