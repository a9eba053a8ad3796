//! Writing a log.

use crate::raw;
use std::io::{self, Write};
use std::num::NonZeroU32;

/// Writes the records of a log one after another. What is written becomes safe by a sync of the file, which is up to
/// the caller.
#[derive(Debug)]
pub struct LogWriter<W> {
    sink: W,
    number: Option<NonZeroU32>,
    offset: u64,
    buffer: Vec<u8>,
    has_failed: bool,
}

impl<W: Write> LogWriter<W> {
    /// A new log with this number, if it has one.
    pub fn new(sink: W, number: Option<NonZeroU32>) -> LogWriter<W> {
        LogWriter::resume(sink, number, 0)
    }

    /// A log that is resumed at this offset, as [`Recovery::kept`](crate::Recovery::kept) gives it. What is written to
    /// the sink must land there: a file is truncated to this length first, and its cursor is at its end.
    pub fn resume(sink: W, number: Option<NonZeroU32>, offset: u64) -> LogWriter<W> {
        LogWriter { sink, number, offset, buffer: Vec::new(), has_failed: false }
    }

    /// Writes a record, and answers the offset after it. Where that fails, the sink may have a part of it: then no
    /// more is written, each further call fails with [`ErrorKind::Other`](io::ErrorKind::Other), and another writer
    /// may resume the log at [`offset`](LogWriter::offset), once it is truncated there. A log that would have 2^64
    /// bytes or more is refused before anything is written.
    pub fn append(&mut self, record: &[u8]) -> io::Result<u64> {
        if self.has_failed {
            return Err(io::Error::other("an earlier record was not written"));
        }
        let len = raw::record_len(self.number, self.offset, record.len());
        let end = self.offset.checked_add(len as u64).ok_or_else(|| io::Error::other("the log is too long"))?;
        self.buffer.clear();
        self.buffer.try_reserve(len).map_err(|_| io::Error::from(io::ErrorKind::OutOfMemory))?;
        self.buffer.resize(len, 0);
        raw::record_text(self.number, self.offset, record, &mut self.buffer);
        self.has_failed = true;
        self.sink.write_all(&self.buffer)?;
        self.has_failed = false;
        self.offset = end;
        Ok(self.offset)
    }

    /// Flushes the sink.
    pub fn flush(&mut self) -> io::Result<()> {
        self.sink.flush()
    }

    /// The offset after the last record that was written.
    pub fn offset(&self) -> u64 {
        self.offset
    }

    /// What it writes to, for example to sync it.
    pub fn get_ref(&self) -> &W {
        &self.sink
    }

    /// Gives back what it writes to.
    pub fn into_inner(self) -> W {
        self.sink
    }
}
