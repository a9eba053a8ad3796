//! Reading the records of a log.

use crate::raw::{Handle, Next};
use crate::{End, Error};
use std::io::Cursor;
use std::iter::FusedIterator;
use std::num::NonZeroU32;

/// A record of a log.
#[derive(Clone, Debug, PartialEq, Eq)]
pub struct Record {
    /// The offset of its first fragment.
    pub start: u64,
    /// The offset after its last fragment.
    pub end: u64,
    /// What it holds.
    pub bytes: Vec<u8>,
}

impl AsRef<[u8]> for Record {
    fn as_ref(&self) -> &[u8] {
        &self.bytes
    }
}

/// Lets it be read piece by piece.
impl From<Record> for Cursor<Vec<u8>> {
    fn from(record: Record) -> Self {
        Cursor::new(record.bytes)
    }
}

/// The records of a log from its first on, or from a place on, up to where reading ends. [`Records::end`] says then
/// where that is, and why.
#[derive(Debug)]
pub struct Records<'a> {
    reader: Handle,
    log: &'a [u8],
    since: Option<u64>,
    end: Option<End>,
    failed: Option<Error>,
}

impl<'a> Records<'a> {
    /// The records of a log with this number, if it has one.
    pub fn new(log: &'a [u8], number: Option<NonZeroU32>) -> Result<Records<'a>, Error> {
        let reader = Handle::reader(number)?;
        Ok(Records { reader, log, since: None, end: None, failed: None })
    }

    /// The records after a place of a log with this number, if it has one: after the end of a record
    /// ([`Record::end`]), or 0. So of a log that grows, each record is read once: `log` is then all that it has by now,
    /// from its start on. At any other place they are those that would be read if a record ended there.
    /// [`Error::PastEnd`] if the log ends before the place.
    pub fn after(log: &'a [u8], number: Option<NonZeroU32>, place: u64) -> Result<Records<'a>, Error> {
        let reader = Handle::reader_at(number, place, log)?;
        Ok(Records { reader, log, since: None, end: None, failed: None })
    }

    /// Skips the batches that take no sequence, or whose last one is lower than `sequence`. A record that is no batch
    /// isn't skipped.
    pub fn since(self, sequence: u64) -> Records<'a> {
        Records { since: Some(sequence), ..self }
    }

    /// Where reading ended, and why: once there was no next record.
    pub fn end(&self) -> Option<End> {
        self.end
    }

    /// Reads the next record into a buffer, whose content it replaces, and answers its offsets: that of its first
    /// fragment, and the one after its last. At `None` the buffer stays as it is. After `None` and after an error each
    /// further call answers the same.
    pub fn read_into(&mut self, buffer: &mut Vec<u8>) -> Result<Option<(u64, u64)>, Error> {
        if let Some(error) = self.failed {
            return Err(error);
        }
        let read = self.try_read_into(buffer);
        self.failed = read.err();
        read
    }

    fn try_read_into(&mut self, buffer: &mut Vec<u8>) -> Result<Option<(u64, u64)>, Error> {
        match self.reader.next(self.log, self.since)? {
            Next::Record { start, end, len } => {
                buffer.clear();
                buffer.try_reserve_exact(len).map_err(|_| Error::NoMemory)?;
                buffer.resize(len, 0);
                self.reader.record(buffer);
                Ok(Some((start, end)))
            }
            Next::End(end) => {
                self.end = Some(end);
                Ok(None)
            }
        }
    }
}

impl Iterator for Records<'_> {
    type Item = Result<Record, Error>;

    fn next(&mut self) -> Option<Result<Record, Error>> {
        if self.failed.is_some() {
            return None;
        }
        let mut bytes = Vec::new();
        let read = self.read_into(&mut bytes).transpose()?;
        Some(read.map(|(start, end)| Record { start, end, bytes }))
    }
}

impl FusedIterator for Records<'_> {}
