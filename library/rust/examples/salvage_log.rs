//! Writes what is whole in damaged logs of RocksDB or LevelDB as a new log, which opens in the strictest mode.
//!
//!     salvage_log LOG.. NEW [--number N]
//!
//! Each record that a scan of a LOG finds, also after damage, is written to NEW as it is, in the order of the files, if
//! it is a whole batch: all its operations are of kinds that RocksDB writes, and as many take a sequence as it says. N
//! is the LOGs' number, where their fragments have one; if it isn't given, it is that of a LOG's first header. In NEW
//! they have none. A LOG is only read. NEW must be new: it is called NEW.part until it is whole and synced.
//!
//! For each LOG it prints `unread FROM TO AT REASON` for a stretch before a record in which none reads, `left START END
//! REASON` for a record that isn't written, and where and why no more was read; and last how many records are written
//! and are left out, and the stretches and bytes that don't read. What follows damage may be of another history. The
//! status is 3 if a LOG can't be read or NEW can't be written; 7 if NEW or NEW.part is there; and 8 if nothing was
//! written, since a LOG is compressed, or not one of its fragments reads: it is no log, or encrypted.

use std::fmt::Display;
use std::fs::File;
use std::io;
use std::num::NonZeroU32;
use std::path::Path;
use std::process::ExitCode;
use wolzenn::{batch_head, crc32c, crc32c_mask, Error, LogWriter, Operations, Records, Scan, Why, BLOCK_LEN};

/// Why the program ends: its status, and a sentence.
struct Stop(u8, String);

fn stop(status: u8, path: &str, why: impl Display) -> Stop {
    Stop(status, format!("{path}: {why}"))
}

/// Why the program ends where the system has refused something about a file.
fn stop_by_system(path: &str) -> impl Fn(io::Error) -> Stop + '_ {
    move |error| stop(if error.kind() == io::ErrorKind::AlreadyExists { 7 } else { 3 }, path, error)
}

/// Whether the fragment at the start of a block reads.
fn reads_at(log: &[u8], number: Option<NonZeroU32>, place: u64) -> Result<bool, Error> {
    let mut records = Records::after(log, number, place)?;
    records.next().transpose()?;
    Ok(records.end().is_none_or(|end| end.at > place || matches!(end.why, Why::Unfinished | Why::BadOrder)))
}

/// Whether RocksDB has compressed the log: its first fragment, of the kind 9, says so.
fn is_compressed(log: &[u8]) -> bool {
    let [a, b, c, d, low, high, 9, ..] = *log else { return false };
    let end = 7 + usize::from(u16::from_le_bytes([low, high]));
    end <= log.len().min(BLOCK_LEN) && u32::from_le_bytes([a, b, c, d]) == crc32c_mask(crc32c(&log[6..end]))
}

/// The number in the log's first header, if it has one and a fragment reads there with it.
fn number_of(log: &[u8]) -> Result<Option<NonZeroU32>, Error> {
    let number = match log {
        [_, _, _, _, _, _, 5..=8, a, b, c, d, ..] => NonZeroU32::new(u32::from_le_bytes([*a, *b, *c, *d])),
        _ => None,
    };
    Ok(if reads_at(log, number, 0)? { number } else { None })
}

/// Why a record is no whole batch of known operations, or `None` if it is one.
fn fault_of(record: &[u8]) -> Option<Why> {
    let Some(head) = batch_head(record) else { return Some(Why::Short) };
    let mut found = 0;
    for operation in Operations::new(record) {
        match operation {
            Ok(operation) => found += u64::from(operation.sequences),
            Err(Error::NoBatch(end)) => return Some(end.why),
            Err(_) => return Some(Why::Short),
        }
    }
    Some(Why::Count { said: head.count, found }).filter(|_| found != u64::from(head.count))
}

/// The new log, and what is counted.
struct Salvage<'a> {
    part: &'a str,
    writer: LogWriter<&'a File>,
    kept: u64,
    left: u64,
    stretches: u64,
    unread: u64,
}

impl Salvage<'_> {
    /// Writes the whole batches of a log.
    fn add(&mut self, path: &str, log: &[u8], given: Option<Option<NonZeroU32>>) -> Result<(), Stop> {
        let failed = |error: Error| stop(3, path, error);
        println!("log {path}");
        let number = given.map_or_else(|| number_of(log), Ok).map_err(failed)?;
        if is_compressed(log) {
            return Err(stop(8, path, "it is compressed, which RocksDB reads, and this doesn't"));
        }
        let before = self.kept + self.left;
        let mut scan = Scan::new(log, number).map_err(failed)?;
        for found in &mut scan {
            let found = found.map_err(failed)?;
            if let Some(unread) = found.unread {
                println!("unread {} {} {}", unread.from, unread.to, unread.end);
                self.stretches += 1;
                self.unread += unread.to - unread.from;
            }
            if let Some(why) = fault_of(&found.record.bytes) {
                println!("left {} {} {why}", found.record.start, found.record.end);
                self.left += 1;
            } else {
                self.writer.append(&found.record.bytes).map_err(stop_by_system(self.part))?;
                self.kept += 1;
            }
        }
        if let Some(end) = scan.end() {
            println!("end {end}");
        }
        let mut places = (0..log.len() as u64).step_by(BLOCK_LEN);
        let reads = log.is_empty() || self.kept + self.left > before;
        if !reads && !places.any(|place| reads_at(log, number, place).unwrap_or(true)) {
            return Err(stop(8, path, "not one fragment reads: it is no log, or encrypted, or has another number"));
        }
        Ok(())
    }
}

/// Writes the whole batches of the logs to a new file, and gives it its name.
fn write_new(part: &str, new: &str, logs: &[String], given: Option<Option<NonZeroU32>>) -> Result<(), Stop> {
    let file = File::options().write(true).create_new(true).open(part).map_err(stop_by_system(part))?;
    let writer = LogWriter::new(&file, None);
    let mut found = Salvage { part, writer, kept: 0, left: 0, stretches: 0, unread: 0 };
    let written = logs.iter().try_for_each(|path| {
        let log = std::fs::read(path).map_err(|_| stop(3, path, "it can't be read"))?;
        found.add(path, &log, given)
    });
    let synced = written.and_then(|()| file.sync_all().map_err(stop_by_system(part)));
    let named = synced.and_then(|()| std::fs::hard_link(part, new).map_err(stop_by_system(new)));
    std::fs::remove_file(part).map_err(stop_by_system(part)).and(named)?;
    // Syncs the file's entry in its folder, which the file's own sync doesn't make safe.
    let folder = Path::new(new).parent().filter(|folder| *folder != Path::new(""));
    File::open(folder.unwrap_or(Path::new("."))).and_then(|it| it.sync_all()).map_err(stop_by_system(new))?;
    println!("kept {} left {} unread {} {}", found.kept, found.left, found.stretches, found.unread);
    Ok(())
}

fn main() -> ExitCode {
    let mut words: Vec<String> = std::env::args().skip(1).collect();
    let mut given = None;
    if let [.., name, number] = words.as_slice() {
        if name == "--number" {
            given = Some(number.parse().ok().and_then(NonZeroU32::new));
            words.truncate(words.len() - 2);
        }
    }
    let [logs @ .., new] = words.as_slice() else { return usage() };
    if logs.is_empty() {
        return usage();
    }
    match write_new(&format!("{new}.part"), new, logs, given) {
        Ok(()) => ExitCode::SUCCESS,
        Err(Stop(status, why)) => {
            eprintln!("salvage_log: {why}");
            ExitCode::from(status)
        }
    }
}

fn usage() -> ExitCode {
    eprintln!("salvage_log LOG.. NEW [--number N]");
    ExitCode::from(2)
}
