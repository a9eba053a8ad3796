//! Writes a log that RocksDB opens: a batch, a group of two batches, and a batch of many blocks.
//!
//!     write_log LOG [NUMBER]
//!
//! Each record is safe once the file is synced, which this program does itself. If LOG exists, the log is resumed: what
//! it recovers is kept, and the rest is truncated. If nothing of it would be kept, as with a wrong NUMBER, it is left
//! as it is.

use std::error::Error;
use std::fs::{File, OpenOptions};
use std::io::{Seek, SeekFrom};
use std::num::NonZeroU32;
use std::path::Path;
use wolzenn::{recover, Batch, LogWriter, Mode};

/// Writes a batch as the next record of the log, with the next sequences, and syncs the file.
fn commit(log: &mut LogWriter<File>, batch: &mut Batch, last: &mut u64) -> Result<(), Box<dyn Error>> {
    batch.set_sequence(*last + 1);
    let end = log.append(&batch.bytes())?;
    log.get_ref().sync_all()?;
    *last += u64::from(batch.head().count);
    println!("safe up to sequence {last}, {end} bytes");
    Ok(())
}

fn main() -> Result<(), Box<dyn Error>> {
    let mut words = std::env::args().skip(1);
    let path = words.next().ok_or("write_log LOG [NUMBER]")?;
    let number = words.next().map(|word| word.parse()).transpose()?.and_then(NonZeroU32::new);

    // Where the log is new, nothing is recovered, and it begins at 0.
    let mut file = OpenOptions::new().read(true).write(true).create(true).truncate(false).open(&path)?;
    let found = std::fs::read(&path)?;
    let recovery = recover(&found, number, Mode::Tail)?;
    if recovery.kept() == 0 && !found.is_empty() {
        return Err(format!("nothing of {path} would be kept: end {}", recovery.end()).into());
    }
    file.set_len(recovery.kept())?;
    file.sync_all()?;
    // Syncs the file's entry in its folder, which the file's own sync doesn't make safe.
    let folder = Path::new(&path).parent().filter(|folder| *folder != Path::new(""));
    File::open(folder.unwrap_or(Path::new(".")))?.sync_all()?;
    file.seek(SeekFrom::Start(recovery.kept()))?;
    let mut last = recovery.last();
    let mut log = LogWriter::resume(file, number, recovery.kept());

    // A batch of three records, of which two count: log data takes no sequence.
    let mut batch = Batch::new()?;
    batch.put(b"apple", b"red")?;
    batch.put(b"plum", b"blue")?;
    batch.log_data(b"a note")?;
    commit(&mut log, &mut batch, &mut last)?;

    // A group: two batches, as two clients may have built them, which go into the log as one record.
    let mut first = Batch::new()?;
    first.put(b"apple", b"green")?;
    let mut second = Batch::new()?;
    second.delete(b"plum")?;
    second.put(b"pear", b"")?;
    batch.clear();
    batch.append(&first.bytes())?;
    batch.append(&second.bytes())?;
    commit(&mut log, &mut batch, &mut last)?;

    // A value of three blocks, so that the record is cut into fragments.
    batch.clear();
    batch.put(b"quince", &[b'v'; 100_000])?;
    batch.single_delete(b"pear")?;
    commit(&mut log, &mut batch, &mut last)
}
