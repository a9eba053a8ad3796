//! Follows a log that another program writes: prints each batch once, where it is and which sequences it has, from the
//! one on that has the sequence SINCE or a later one. Where bytes are damaged it goes on with the next record that
//! reads.
//!
//!     follow_log LOG SINCE [NUMBER]
//!
//! NUMBER is the log's own, where its fragments have one. `unread FROM TO` is before a record that comes after damage,
//! and says where no record reads, and why; what follows it may be of another history. It ends where no record has come
//! for a second: the last line says where and why no more was read. It ends at once if the log was cut before the end
//! of the last record.
//!
//! Only the bytes up to the end of the last record are kept, and those after it are read anew each time, also where the
//! file is as long as before: a program that resumes the log cuts off an incomplete record, and one that writes a log
//! over an older file doesn't make it longer. What is read first may be older than what is read last. So that no record
//! reads in a stretch counts only once it was read a second time: then all that was written before the next record is
//! there.

use std::error::Error;
use std::fs::File;
use std::io::{Read, Seek, SeekFrom};
use std::num::NonZeroU32;
use std::thread;
use std::time::{Duration, Instant};
use wolzenn::{read_batch, End, Record, Scan, Why};

const PAUSE: Duration = Duration::from_millis(20);
const QUIET: Duration = Duration::from_secs(1);

/// The log so far; what is asked for; where the last record ended, and when that was found; where the next record began
/// when a stretch before it was seen for the first time; and where and why no more was read.
struct Followed {
    file: File,
    bytes: Vec<u8>,
    number: Option<NonZeroU32>,
    since: u64,
    place: u64,
    found_at: Instant,
    seen: u64,
    end: End,
}

/// Prints the batch of a record, if it is one that is asked for.
fn print_record(record: &Record, since: u64) {
    let place = format!("record {} {}", record.start, record.end);
    match read_batch(&record.bytes) {
        Ok(head) if head.count == 0 || head.sequence + u64::from(head.count - 1) < since => {}
        Ok(head) => println!("{place}  batch {} {}", head.sequence, head.count),
        Err(wolzenn::Error::NoBatch(end)) => println!("{place}  no batch: {}", end.why),
        Err(error) => println!("{place}  {error}"),
    }
}

impl Followed {
    /// Reads anew what the file has after the last record.
    fn read_rest(&mut self) -> Result<(), Box<dyn Error>> {
        self.bytes.truncate(self.place as usize);
        self.file.seek(SeekFrom::Start(self.place))?;
        self.file.read_to_end(&mut self.bytes)?;
        if self.file.metadata()?.len() < self.place {
            return Err("the log was cut before the end of the last record".into());
        }
        Ok(())
    }

    /// Prints the records after the last one. Says whether to read anew at once: before a stretch that is to be read a
    /// second time.
    fn print_more(&mut self) -> Result<bool, wolzenn::Error> {
        let mut scan = Scan::after(&self.bytes, self.number, self.place)?;
        for found in &mut scan {
            let found = found?;
            if let Some(unread) = found.unread {
                if unread.to != self.seen {
                    self.seen = unread.to;
                    return Ok(true);
                }
                println!("unread {} {} {}", unread.from, unread.to, unread.end.why);
            }
            print_record(&found.record, self.since);
            self.place = found.record.end;
            self.found_at = Instant::now();
        }
        self.end = scan.end().unwrap_or(self.end);
        Ok(false)
    }
}

fn main() -> Result<(), Box<dyn Error>> {
    let mut words = std::env::args().skip(1);
    let file = File::open(words.next().ok_or("follow_log LOG SINCE [NUMBER]")?)?;
    let since = words.next().ok_or("follow_log LOG SINCE [NUMBER]")?.parse()?;
    let number = words.next().map(|word| word.parse()).transpose()?.and_then(NonZeroU32::new);
    let end = End { at: 0, why: Why::Clean };
    let found_at = Instant::now();
    let mut log = Followed { file, bytes: Vec::new(), number, since, place: 0, found_at, seen: 0, end };
    let mut is_next = false;
    while is_next || log.found_at.elapsed() < QUIET {
        if !is_next {
            thread::sleep(PAUSE);
        }
        log.read_rest()?;
        is_next = log.print_more()?;
    }
    println!("end {}", log.end);
    Ok(())
}
