//! Prints a log of RocksDB or LevelDB: where each record is, and what the batch in it does.
//!
//!     print_log LOG [NUMBER]
//!
//! NUMBER is the log's own, where its fragments have one. Operations of every kind are printed, with their strings in
//! hexadecimal, `-` for none, after the number of the column family that they name. The last line says where reading
//! ended, and why.

use std::error::Error;
use std::num::NonZeroU32;
use wolzenn::{batch_head, Operation, Operations, Records};

fn hex(bytes: &[u8]) -> String {
    if bytes.is_empty() {
        return "-".to_owned();
    }
    bytes.iter().map(|byte| format!("{byte:02x}")).collect()
}

/// The words for tags from 0 on, with a star where the operation names a family.
const KINDS: [&str; 26] = [
    "del", "put", "merge", "note", "del*", "put*", "merge*", "sdel", "sdel*", "beginprepare", "endprepare", "commit",
    "rollback", "noop", "deleterange*", "deleterange", "blobindex*", "blobindex", "beginpersistedprepare",
    "beginunprepare", "", "committimestamp", "putentity", "putentity*", "timedput", "timedput*",
];

fn print_operation(operation: &Operation) {
    let kind = KINDS[usize::from(operation.tag)];
    let family = kind.ends_with('*').then(|| format!(" {}", operation.family)).unwrap_or_default();
    let strings = [operation.first, operation.second].into_iter().flatten().map(|it| format!(" {}", hex(it)));
    println!("  {}{family}{}", kind.trim_end_matches('*'), strings.collect::<String>());
}

/// Prints what the batch of a record says of itself, and its operations, up to the first that can't be read.
fn print_batch(bytes: &[u8]) -> Result<(), wolzenn::Error> {
    let head = batch_head(bytes);
    if let Some(head) = head {
        println!("  batch {} {}", head.sequence, head.count);
    }
    let mut sequences = 0;
    for operation in Operations::new(bytes) {
        let operation = operation?;
        print_operation(&operation);
        sequences += u64::from(operation.sequences);
    }
    if head.is_some_and(|head| u64::from(head.count) != sequences) {
        println!("  no batch: count");
    }
    Ok(())
}

fn main() -> Result<(), Box<dyn Error>> {
    let mut words = std::env::args().skip(1);
    let log = std::fs::read(words.next().ok_or("print_log LOG [NUMBER]")?)?;
    let number = words.next().map(|word| word.parse()).transpose()?.and_then(NonZeroU32::new);
    let mut records = Records::new(&log, number)?;
    for record in &mut records {
        let record = record?;
        println!("record {} {}", record.start, record.end);
        if let Err(error) = print_batch(&record.bytes) {
            println!("  {error}");
        }
    }
    if let Some(end) = records.end() {
        println!("end {end}");
    }
    Ok(())
}
