//! Reading the records of a log, also those after damage.

use crate::raw::{Found, Handle};
use crate::{End, Error, Record};
use std::iter::FusedIterator;
use std::num::NonZeroU32;

/// A stretch of a log in which no record reads.
#[derive(Clone, Copy, Debug, PartialEq, Eq)]
pub struct Unread {
    /// Where it begins: at the end of a record, or where the scan began.
    pub from: u64,
    /// Where the next record begins.
    pub to: u64,
    /// Where and why reading first ended there.
    pub end: End,
}

/// A record that a scan found.
#[derive(Clone, Debug, PartialEq, Eq)]
pub struct Scanned {
    /// The stretch before it, if there is one.
    pub unread: Option<Unread>,
    /// The record.
    pub record: Record,
}

/// The records of a log from a place on, also those after damage. [`Scan::end`] says then where and why reading first
/// ended since the last one.
///
/// What comes after a stretch that isn't read is there, and isn't recovered: something may be missing before it.
#[derive(Debug)]
pub struct Scan<'a> {
    scan: Handle,
    log: &'a [u8],
    end: Option<End>,
    failed: Option<Error>,
}

impl<'a> Scan<'a> {
    /// The records of a log with this number, if it has one.
    pub fn new(log: &'a [u8], number: Option<NonZeroU32>) -> Result<Scan<'a>, Error> {
        Scan::after(log, number, 0)
    }

    /// The records after a place of a log with this number, if it has one: after the end of a record
    /// ([`Record::end`]), or 0. So of a log that grows, each record is found once at most: `log` is then all that it
    /// has by now, from its start on. At any other place they are those that would be found if a record ended there.
    /// [`Error::PastEnd`] if the log ends before the place.
    pub fn after(log: &'a [u8], number: Option<NonZeroU32>, place: u64) -> Result<Scan<'a>, Error> {
        let scan = Handle::scan(number, place, log)?;
        Ok(Scan { scan, log, end: None, failed: None })
    }

    /// Where and why reading first ended since the last record: once there was no next one.
    pub fn end(&self) -> Option<End> {
        self.end
    }

    fn find(&mut self) -> Result<Option<Scanned>, Error> {
        match self.scan.find_next(self.log)? {
            Found::Record { unread, start, end, len } => {
                let mut bytes = Vec::new();
                bytes.try_reserve_exact(len).map_err(|_| Error::NoMemory)?;
                bytes.resize(len, 0);
                self.scan.found(&mut bytes);
                Ok(Some(Scanned { unread, record: Record { start, end, bytes } }))
            }
            Found::End(end) => {
                self.end = Some(end);
                Ok(None)
            }
        }
    }
}

impl Iterator for Scan<'_> {
    type Item = Result<Scanned, Error>;

    fn next(&mut self) -> Option<Result<Scanned, Error>> {
        if self.failed.is_some() {
            return None;
        }
        let found = self.find();
        self.failed = found.as_ref().err().copied();
        found.transpose()
    }
}

impl FusedIterator for Scan<'_> {}
