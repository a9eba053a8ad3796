//! Tests of the crate's own code over the library. `tests/library` of the repository tries more of it.

use std::io::{self, Cursor, Read, Write};
use std::num::NonZeroU32;
use wolzenn::*;

/// A batch with sequence 1 that sets `a` to `1`, as docs/FORMATS.md lays it out.
const BATCH: &[u8] = b"\x01\0\0\0\0\0\0\0\x01\0\0\0\x01\x01a\x011";

fn log_of(records: &[&[u8]], number: Option<NonZeroU32>) -> Vec<u8> {
    let mut log = LogWriter::new(Vec::new(), number);
    for record in records {
        log.append(record).unwrap();
    }
    assert_eq!(log.offset(), log.get_ref().len() as u64);
    log.into_inner()
}

#[test]
fn checksums() {
    assert_eq!(crc32c(b"123456789"), 0xe306_9283);
    assert_eq!(crc32c_extend(crc32c(b"1234"), b"56789"), 0xe306_9283);
    assert_eq!(crc32c(b""), 0);
    assert_eq!(crc32c_mask(0), 0xa282_ead8);
}

#[test]
fn a_batch_and_its_records() {
    let mut batch = Batch::new().unwrap();
    batch.put(b"a", b"1").unwrap();
    batch.set_sequence(1);
    assert_eq!(batch.bytes(), BATCH);
    batch.delete(b"b").unwrap();
    batch.log_data(b"").unwrap();
    batch.single_delete(b"c").unwrap();
    assert_eq!(batch.head(), BatchHead { sequence: 1, count: 3 });
    let bytes = batch.bytes();
    let ops: Vec<Op> = BatchRecords::new(&bytes).collect::<Result<_, _>>().unwrap();
    assert_eq!(ops, [Op::Put(b"a", b"1"), Op::Delete(b"b"), Op::LogData(b""), Op::SingleDelete(b"c")]);
    assert_eq!(batch.put(b"k", &vec![0; MAX_BATCH]), Err(Error::TooLarge));
    assert_eq!(batch.append(b"none"), Err(Error::NoBatch(End { at: 0, why: Why::Short })));
    assert_eq!(batch.bytes(), bytes);
    batch.append(BATCH).unwrap();
    assert_eq!(batch.head().count, 4);
    batch.clear();
    assert_eq!(batch.bytes(), [0; BATCH_HEADER_LEN]);
}

#[test]
fn bytes_that_are_no_batch() {
    assert_eq!(read_batch(BATCH), Ok(BatchHead { sequence: 1, count: 1 }));
    let short = BatchRecords::new(b"few").collect::<Vec<_>>();
    assert_eq!(short, [Err(Error::NoBatch(End { at: 0, why: Why::Short }))]);
    let mut bytes = BATCH.to_vec();
    bytes.push(9);
    let found = BatchRecords::new(&bytes).collect::<Vec<_>>();
    assert_eq!(found, [Ok(Op::Put(b"a", b"1")), Err(Error::NoBatch(End { at: 17, why: Why::Tag(9) }))]);
    assert!(read_batch(&bytes).unwrap_err().to_string().contains("tag 9"));
}

#[test]
fn operations_of_all_kinds() {
    // A merge in the family 300, the name of a transaction that is committed, and a tag that isn't known.
    let mut bytes = BATCH[..BATCH_HEADER_LEN].to_vec();
    bytes.extend(b"\x06\xac\x02\x01k\x01+\x0b\x03xid\x0d\x14");
    assert_eq!(batch_head(&bytes), Some(BatchHead { sequence: 1, count: 1 }));
    assert!(read_batch(&bytes).is_err() && batch_head(b"few").is_none());
    let found = Operations::new(&bytes).collect::<Vec<_>>();
    let [Ok(merge), Ok(commit), Ok(mark), Err(Error::NoBatch(end))] = found[..] else {
        panic!("three operations and a fault: {found:?}")
    };
    assert_eq!((merge.tag, merge.family, merge.sequences), (6, 300, 1));
    assert_eq!((merge.first, merge.second), (Some(&b"k"[..]), Some(&b"+"[..])));
    assert_eq!((commit.tag, commit.sequences, commit.first, commit.second), (0x0b, 0, Some(&b"xid"[..]), None));
    assert_eq!((mark.tag, mark.first), (0x0d, None));
    assert_eq!(end, End { at: bytes.len() as u64 - 1, why: Why::Tag(0x14) });
    let short = Operations::new(b"few").collect::<Vec<_>>();
    assert_eq!(short, [Err(Error::NoBatch(End { at: 0, why: Why::Short }))]);
}

#[test]
fn a_batch_of_another_thread() {
    let mut batch = Batch::new().unwrap();
    batch.put(b"a", b"1").unwrap();
    let written = std::thread::spawn(move || {
        batch.set_sequence(1);
        log_of(&[&batch.bytes()], None)
    });
    let recovery = recover(&written.join().unwrap(), None, Mode::Point).unwrap();
    assert_eq!(std::thread::spawn(move || recovery.get(b"a")).join().unwrap(), Some(b"1".to_vec()));
}

#[test]
fn a_recovery_that_threads_share() {
    let recovery = recover(&log_of(&[BATCH], None), None, Mode::Point).unwrap();
    let threads: Vec<_> = (0..4)
        .map(|_| {
            let mine = recovery.share().unwrap();
            std::thread::spawn(move || (0..1000).all(|_| mine.get(b"a") == Some(b"1".to_vec()) && mine.groups() == 1))
        })
        .collect();
    drop(recovery);
    assert!(threads.into_iter().all(|it| it.join().unwrap()));
}

#[test]
fn logs_in_turn() {
    let mut batch = Batch::new().unwrap();
    let mut log_with = |first, key: &[u8], value: Option<&[u8]>, number| {
        batch.clear();
        match value {
            Some(value) => batch.put(key, value).unwrap(),
            None => batch.delete(key).unwrap(),
        }
        batch.set_sequence(first);
        log_of(&[&batch.bytes()], number)
    };
    for number in [None, NonZeroU32::new(7)] {
        let (one, two) = (log_with(1, b"a", Some(b"1"), number), log_with(3, b"b", Some(b"2"), number));
        let (three, lower) = (log_with(4, b"a", None, number), log_with(3, b"a", None, number));
        let mut recovery = recover(&one, number, Mode::Absolute).unwrap();
        let shared = recovery.share().unwrap();
        assert_eq!(recovery.recover_more(&two, number, Mode::Absolute), Ok(true));
        assert_eq!((recovery.groups(), recovery.len(), recovery.last()), (1, 2, 3));
        // A log that the mode refuses changes nothing.
        let refused = recovery.recover_more(&three[..three.len() - 1], number, Mode::Absolute);
        assert_eq!(refused, Err(Error::Damage(End { at: 0, why: Why::BadLength })));
        assert_eq!((recovery.groups(), recovery.len(), recovery.last()), (1, 2, 3));
        assert_eq!(recovery.recover_more(&three, number, Mode::Point), Ok(true));
        assert_eq!((recovery.get(b"a"), recovery.get(b"b").as_deref()), (None, Some(&b"2"[..])));
        assert_eq!((shared.get(b"a").as_deref(), shared.last()), (Some(&b"1"[..]), 1));
        // Its sequence doesn't rise, so that recovery ends in it.
        assert_eq!(recovery.recover_more(&lower, number, Mode::Point), Ok(true));
        assert_eq!((recovery.groups(), recovery.kept(), recovery.last()), (0, 0, 4));
        assert_eq!(recovery.end(), End { at: 0, why: Why::Order { first: 3, last: 4 } });
        assert_eq!(recovery.recover_more(&log_with(9, b"c", Some(b""), number), number, Mode::Point), Ok(false));
        assert_eq!((recovery.len(), recovery.last()), (1, 4));
    }
    // A log that was written over an older one is whole where the older one's fragment comes next.
    let (six, seven) = (NonZeroU32::new(6), NonZeroU32::new(7));
    let mut over = log_with(1, b"a", Some(b"1"), seven);
    over.extend(log_with(9, b"x", Some(b"9"), six));
    let mut recovery = recover(&over, seven, Mode::Point).unwrap();
    assert_eq!(recovery.end().why, Why::OldLog(6));
    let later = log_with(2, b"b", Some(b"2"), NonZeroU32::new(8));
    assert_eq!(recovery.recover_more(&later, NonZeroU32::new(8), Mode::Absolute), Ok(true));
    assert_eq!((recovery.len(), recovery.last(), recovery.end().why), (2, 2, Why::Clean));
    // One with a higher number shows that the log was read with a wrong one: it isn't whole.
    let mut recovery = recover(&log_with(1, b"a", Some(b"1"), seven), six, Mode::Point).unwrap();
    assert_eq!((recovery.len(), recovery.end().why), (0, Why::OldLog(7)));
    assert_eq!(recovery.recover_more(&later, NonZeroU32::new(8), Mode::Point), Ok(false));
}

#[test]
fn a_place_that_advances() {
    let mut second = BATCH.to_vec();
    second[0] = 2;
    let log = log_of(&[BATCH, &second], None);
    let mut place = Place::default();
    assert_eq!(place.advance(&log[..30], None), Ok(End { at: 24, why: Why::ShortHeader }));
    assert_eq!(place, Place { at: 24, last: 1 });
    assert_eq!(place.advance(&log, None), Ok(End { at: 48, why: Why::Clean }));
    assert_eq!(place, Place { at: 48, last: 2 });
    let recovery = recover(&log, None, Mode::Point).unwrap();
    assert_eq!((place.at, place.last), (recovery.kept(), recovery.last()));
    assert_eq!(place.advance(&log[..47], None), Err(Error::PastEnd));
    assert_eq!(place, Place { at: 48, last: 2 });
}

#[test]
fn records_of_a_log() {
    for number in [None, NonZeroU32::new(7)] {
        let long = vec![5; 3 * BLOCK_LEN];
        let log = log_of(&[BATCH, b"", &long], number);
        let mut records = Records::new(&log, number).unwrap();
        let found: Vec<Record> = (&mut records).collect::<Result<_, _>>().unwrap();
        assert_eq!(found.iter().map(|it| it.bytes.as_slice()).collect::<Vec<_>>(), [BATCH, b"", &long]);
        assert_eq!(records.end(), Some(End { at: log.len() as u64, why: Why::Clean }));
        assert!(records.next().is_none());
        let mut read = Vec::new();
        Cursor::from(found[2].clone()).read_to_end(&mut read).unwrap();
        assert_eq!(read, long);
        let mut cut = Records::new(&log[..log.len() - 1], number).unwrap();
        assert_eq!(cut.by_ref().count(), 2);
        assert_eq!(cut.end().unwrap().why, Why::BadLength);
    }
}

#[test]
fn a_scan_past_damage() {
    for number in [None, NonZeroU32::new(7)] {
        let mut log = log_of(&[BATCH, b"more"], number);
        let whole: Vec<Scanned> = Scan::new(&log, number).unwrap().collect::<Result<_, _>>().unwrap();
        assert!(whole.iter().all(|it| it.unread.is_none()) && whole[0].record.bytes == BATCH);
        let place = whole[0].record.end;
        log[place as usize - 1] ^= 1;
        let mut scan = Scan::new(&log, number).unwrap();
        let found: Vec<Scanned> = scan.by_ref().collect::<Result<_, _>>().unwrap();
        let unread = Unread { from: 0, to: place, end: End { at: 0, why: Why::BadChecksum } };
        assert_eq!(found, [Scanned { unread: Some(unread), record: whole[1].record.clone() }]);
        assert_eq!(scan.end(), Some(End { at: log.len() as u64, why: Why::Clean }));
        assert!(scan.next().is_none());
        let after = Scan::after(&log, number, place).unwrap().collect::<Result<Vec<_>, _>>().unwrap();
        assert_eq!(after, whole[1..]);
        assert_eq!(Scan::after(&log, number, log.len() as u64 + 1).unwrap_err(), Error::PastEnd);
    }
}

#[test]
fn records_after_a_place() {
    let mut batch = Batch::new().unwrap();
    batch.put(b"b", b"2").unwrap();
    batch.put(b"c", b"3").unwrap();
    batch.set_sequence(2);
    for number in [None, NonZeroU32::new(7)] {
        let log = log_of(&[BATCH, b"none", &batch.bytes()], number);
        let all: Vec<Record> = Records::new(&log, number).unwrap().collect::<Result<_, _>>().unwrap();
        // The log has grown by its last two records.
        let place = all[0].end;
        let mut first = Records::new(&log[..place as usize], number).unwrap();
        assert_eq!(first.by_ref().collect::<Result<Vec<_>, _>>().unwrap(), all[..1]);
        let mut more = Records::after(&log, number, place).unwrap();
        assert_eq!(more.by_ref().collect::<Result<Vec<_>, _>>().unwrap(), all[1..]);
        assert_eq!(more.end(), Some(End { at: log.len() as u64, why: Why::Clean }));
        // What is no batch isn't skipped, and 3 is the last sequence of the last batch.
        for (since, from) in [(1, 0), (2, 1), (3, 1)] {
            let found = Records::after(&log, number, 0).unwrap().since(since);
            assert_eq!(found.collect::<Result<Vec<_>, _>>().unwrap(), all[from..]);
        }
        let last = Records::new(&log, number).unwrap().since(4);
        assert_eq!(last.collect::<Result<Vec<_>, _>>().unwrap(), all[1..2]);
        let past = Records::after(&log, number, log.len() as u64 + 1).unwrap_err();
        assert_eq!((past, io::Error::from(past).kind()), (Error::PastEnd, io::ErrorKind::InvalidInput));
    }
}

#[test]
fn a_recovery() {
    let mut log = LogWriter::new(Vec::new(), None);
    let mut batch = Batch::new().unwrap();
    for (first, key, value) in [(1, b"b", b"2"), (2, b"a", b"1"), (3, b"c", b"3")] {
        batch.clear();
        batch.put(key, value).unwrap();
        batch.set_sequence(first);
        log.append(&batch.bytes()).unwrap();
    }
    let kept = log.offset();
    let mut log = log.into_inner();
    log.extend([1, 2, 3]);
    let recovery = recover(&log, None, Mode::Point).unwrap();
    assert_eq!((recovery.groups(), recovery.len(), recovery.last(), recovery.kept()), (3, 3, 3, kept));
    assert_eq!(recovery.end(), End { at: kept, why: Why::ShortHeader });
    let keys = |pairs: Pairs| pairs.map(|pair| pair.key[0]).collect::<Vec<_>>();
    assert_eq!(keys(recovery.pairs()), b"abc");
    assert_eq!(keys(recovery.pairs_from(0, b"aa")), b"bc");
    assert_eq!(recovery.pairs().rev().map(|pair| pair.value[0]).collect::<Vec<_>>(), b"321");
    assert_eq!(recovery.get(b"b").as_deref(), Some(&b"2"[..]));
    assert_eq!((recovery.get(b"bb"), recovery.find(0, b"bb"), recovery.find(0, b"d")), (None, Err(2), Err(3)));
    let refused = recover(&log, None, Mode::Absolute).unwrap_err();
    assert_eq!(refused, Error::Damage(recovery.end()));
    assert_eq!(io::Error::from(refused).kind(), io::ErrorKind::InvalidData);
    // The log is resumed at `kept`, once it is cut there.
    log.truncate(recovery.kept() as usize);
    let mut log = LogWriter::resume(log, None, recovery.kept());
    batch.set_sequence(recovery.last() + 1);
    log.append(&batch.bytes()).unwrap();
    assert_eq!(recover(&log.into_inner(), None, Mode::Absolute).unwrap().groups(), 4);
}

#[test]
fn a_recovery_with_families() {
    let mut batch = Batch::new().unwrap();
    batch.put_cf(300, b"a", b"1").unwrap();
    batch.put_cf(2, b"b", b"2").unwrap();
    batch.put_cf(0, b"c", b"3").unwrap();
    batch.put_cf(2, b"d", b"4").unwrap();
    batch.delete_cf(2, b"d").unwrap();
    batch.single_delete_cf(3, b"e").unwrap();
    batch.set_sequence(1);
    let bytes = batch.bytes();
    let ops: Vec<Op> = BatchRecords::new(&bytes).collect::<Result<_, _>>().unwrap();
    assert_eq!(ops[0], Op::PutCf(300, b"a", b"1"));
    // A record of the default family names none.
    assert_eq!(ops[2..], [
        Op::Put(b"c", b"3"),
        Op::PutCf(2, b"d", b"4"),
        Op::DeleteCf(2, b"d"),
        Op::SingleDeleteCf(3, b"e")
    ]);
    let recovery = recover(&log_of(&[&bytes], None), None, Mode::Absolute).unwrap();
    let pairs: Vec<_> = recovery.pairs().map(|pair| (pair.family, pair.key[0], pair.value[0])).collect();
    assert_eq!(pairs, [(0, b'c', b'3'), (2, b'b', b'2'), (300, b'a', b'1')]);
    assert_eq!((recovery.get(b"b"), recovery.get_cf(2, b"b").as_deref()), (None, Some(&b"2"[..])));
    assert_eq!((recovery.find(1, b""), recovery.find(300, b"a"), recovery.find(301, b"")), (Err(1), Ok(2), Err(3)));
}

/// A sink that takes this number of bytes, and no more.
struct Full(usize);

impl Write for Full {
    fn write(&mut self, bytes: &[u8]) -> io::Result<usize> {
        let taken = self.0.min(bytes.len());
        self.0 -= taken;
        if taken == 0 {
            Err(io::Error::other("full"))
        } else {
            Ok(taken)
        }
    }

    fn flush(&mut self) -> io::Result<()> {
        Ok(())
    }
}

#[test]
fn a_write_that_fails_is_the_last() {
    let mut log = LogWriter::new(Full(30), None);
    assert_eq!(log.append(BATCH).unwrap(), 24);
    assert!(log.append(BATCH).is_err());
    assert!(log.append(b"").is_err());
    assert_eq!(log.offset(), 24);
}
