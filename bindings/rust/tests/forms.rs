//! What the crate itself makes of arguments, answers and refusals. A stand-in of the library is enough for these.
#![forbid(unsafe_code)]

use confluo::{AppendError, AskError, Batch, Body, Capture, Code, Error, LineError, Log, Quad, Row, Sizes, Value};

const RECORDS: &str = "schema records ts:u64,len:u32\nask all total len *\nask some list *\n";

fn sizes(capacity: u32) -> Sizes {
    Sizes {
        capacity,
        ..Sizes::default()
    }
}

#[test]
fn all_refusals_are_one_error() -> Result<(), Error> {
    fn appended(setup: &str, values: &[u64]) -> Result<u32, Error> {
        Ok(Log::open(setup, sizes(1))?.writer()?.append_values(0, values)?)
    }
    assert_eq!(appended(RECORDS, &[1, 60]), Ok(0));
    assert_eq!(appended(RECORDS, &[1]).unwrap_err().code(), Code::Unfit);
    let faulty = appended("schema packet\nindex\n", &[]).unwrap_err();
    assert_eq!((faulty.code(), faulty.code().number()), (Code::Setup, 3));
    assert_eq!(faulty.fault().map(|it| (it.line, it.code)), Some((2, 3)));
    assert!(faulty
        .to_string()
        .starts_with("the setup is faulty: line 2, code 3: a statement has its words"));
    let mut log = Log::open(RECORDS, sizes(1))?;
    let _writer = log.writer()?;
    let refused: Error = log.writer().unwrap_err().into();
    assert_eq!(refused.code(), Code::NoWriter);
    assert_eq!(refused.to_string(), "all writers are taken");
    Ok(())
}

#[test]
fn questions_have_names() -> Result<(), Error> {
    let mut log = Log::open(RECORDS, sizes(4))?;
    let (mut writer, mut reader) = (log.writer()?, log.reader()?);
    writer.append_values(7, &[1, 60])?;
    assert_eq!((log.question("some"), log.question("none")), (Some(1), None));
    assert_eq!((reader.question("some"), reader.lane("some")), (Some(1), None));
    assert_eq!(reader.attribute("len"), Some(1));
    let quad = Quad {
        count: 1,
        sum: 60,
        least: 60,
        greatest: 60,
    };
    assert_eq!(reader.ask_named("all")?.body, Body::Quad(quad));
    drop(log);
    assert_eq!(reader.ask_seen_named("some")?.body, Body::Places(vec![0]));
    assert_eq!(reader.ask_named("none"), Err(AskError::NoQuestion));
    Ok(())
}

#[test]
fn a_line_is_line_1() -> Result<(), Error> {
    let mut reader = Log::open(RECORDS, sizes(4))?.reader()?;
    assert!(matches!(reader.ask_text("ask"), Err(LineError::Line(fault)) if (fault.line, fault.code) == (1, 3)));
    Ok(())
}

#[test]
fn records_are_read_one_by_one() -> Result<(), Error> {
    let mut log = Log::open(RECORDS, sizes(4))?;
    let (mut writer, mut reader) = (log.writer()?, log.reader()?);
    for k in 0..3 {
        writer.append_values(7 + k, &[u64::from(k), 60])?;
    }
    assert_eq!(reader.rows().count(), 0);
    reader.tail();
    let rows: Vec<Row> = reader.rows().collect::<Result<_, _>>()?;
    assert_eq!(rows.iter().map(|it| it.number).collect::<Vec<_>>(), [7, 8, 9]);
    assert_eq!(rows[2].values, [Value::Number(2), Value::Number(60)]);
    Ok(())
}

#[test]
fn a_batch_begins_within_it() -> Result<(), Error> {
    let mut log = Log::open("schema packet\n", sizes(4))?;
    let mut writer = log.writer()?;
    let mut batch = Batch::new();
    let capture = Capture {
        ns: 1_000,
        number: 0,
        length: 60,
        link: 1,
    };
    batch.push(&capture, &[0; 60]);
    let appended = writer.append_many(&batch, 2);
    assert_eq!(
        (appended.offsets.len(), appended.refused),
        (0, Some(AppendError::Sizes))
    );
    let appended = writer.append_many(&batch, 1);
    assert_eq!((appended.offsets.len(), appended.refused), (0, None));
    let appended = writer.append_many(&batch, 0);
    assert_eq!((appended.offsets, appended.refused), (vec![0], None));
    Ok(())
}

#[test]
fn a_batch_is_over_a_buffer() -> Result<(), Error> {
    let mut log = Log::open("schema packet\n", sizes(4))?;
    let mut writer = log.writer()?;
    let mut batch = Batch::over(vec![0; 120]);
    let capture = Capture {
        ns: 1_000,
        number: 0,
        length: 60,
        link: 1,
    };
    batch.push_part(&capture, 0..60);
    batch.push_part(&capture, 60..120);
    batch.push_part(&capture, 61..121);
    let appended = writer.append_many(&batch, 0);
    assert_eq!(
        (appended.offsets, appended.refused),
        (vec![0, 1], Some(AppendError::Frame))
    );
    Ok(())
}
