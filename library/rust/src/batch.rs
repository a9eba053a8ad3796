//! Building batches, and reading them.

use crate::raw::{self, Handle, Step};
use crate::{End, Error, Why, BATCH_HEADER_LEN};
use std::iter::FusedIterator;

/// A batch's sequence, and how many of its records count.
#[derive(Clone, Copy, Debug, PartialEq, Eq)]
pub struct BatchHead {
    /// The sequence of its first record that counts.
    pub sequence: u64,
    /// How many of its records count. Each of these takes a sequence.
    pub count: u32,
}

/// A batch that is built.
#[derive(Debug)]
pub struct Batch {
    held: Handle,
}

impl Batch {
    /// A batch of no records, with the sequence 0.
    pub fn new() -> Result<Batch, Error> {
        Ok(Batch { held: Handle::batch()? })
    }

    /// Adds a key with its value after the other records. Where that can't be done, the batch is as it was.
    pub fn put(&mut self, key: &[u8], value: &[u8]) -> Result<(), Error> {
        self.held.put(key, value)
    }

    /// Adds a deletion of a key, as [`put`](Batch::put) adds a value.
    pub fn delete(&mut self, key: &[u8]) -> Result<(), Error> {
        self.held.delete(key)
    }

    /// Adds a single deletion: of a key that was set at most once.
    pub fn single_delete(&mut self, key: &[u8]) -> Result<(), Error> {
        self.held.single_delete(key)
    }

    /// Adds a key of a column family with its value, as [`put`](Batch::put) adds one of the default family. The record
    /// names the family, unless that is the default one, whose number is 0.
    pub fn put_cf(&mut self, family: u32, key: &[u8], value: &[u8]) -> Result<(), Error> {
        self.held.put_cf(family, key, value)
    }

    /// Adds a deletion of a key of a column family, as [`put_cf`](Batch::put_cf) adds a value.
    pub fn delete_cf(&mut self, family: u32, key: &[u8]) -> Result<(), Error> {
        self.held.delete_cf(family, key)
    }

    /// Adds a single deletion of a key of a column family, as [`put_cf`](Batch::put_cf) adds a value.
    pub fn single_delete_cf(&mut self, family: u32, key: &[u8]) -> Result<(), Error> {
        self.held.single_delete_cf(family, key)
    }

    /// Adds bytes that are only in the log, and take no sequence.
    pub fn log_data(&mut self, blob: &[u8]) -> Result<(), Error> {
        self.held.log_data(blob)
    }

    /// Adds the records of another batch's bytes, whose sequence is ignored: so several batches make one record of the
    /// log, a group.
    pub fn append(&mut self, bytes: &[u8]) -> Result<(), Error> {
        self.held.append(bytes)
    }

    /// Takes all records out, and sets the sequence to 0.
    pub fn clear(&mut self) {
        self.held.clear()
    }

    /// Sets the sequence of its first record that counts.
    pub fn set_sequence(&mut self, sequence: u64) {
        self.held.set_sequence(sequence)
    }

    /// Its sequence, and how many of its records count.
    pub fn head(&self) -> BatchHead {
        self.held.head()
    }

    /// Its bytes, which are those of RocksDB's `WriteBatch::Data()`.
    pub fn bytes(&self) -> Vec<u8> {
        let mut bytes = Vec::new();
        self.read_into(&mut bytes);
        bytes
    }

    /// Copies its bytes into a buffer, whose content they replace.
    pub fn read_into(&self, buffer: &mut Vec<u8>) {
        buffer.clear();
        buffer.resize(self.held.batch_len(), 0);
        self.held.batch_bytes(buffer);
    }
}

/// Looks through the bytes of a batch: its sequence and its count, or `Error::NoBatch`.
pub fn read_batch(bytes: &[u8]) -> Result<BatchHead, Error> {
    raw::read_batch(bytes)
}

/// A record of a batch. Those with `Cf` name the column family of their key; the others are about the default one,
/// whose number is 0. Later versions may know more kinds.
#[derive(Clone, Copy, Debug, PartialEq, Eq)]
#[non_exhaustive]
pub enum Op<'a> {
    /// Gives a key a value.
    Put(&'a [u8], &'a [u8]),
    /// Takes a key out.
    Delete(&'a [u8]),
    /// Takes a key out that was set at most once.
    SingleDelete(&'a [u8]),
    /// Gives a key of a family a value.
    PutCf(u32, &'a [u8], &'a [u8]),
    /// Takes a key of a family out.
    DeleteCf(u32, &'a [u8]),
    /// Takes a key of a family out that was set at most once.
    SingleDeleteCf(u32, &'a [u8]),
    /// Bytes that are only in the log.
    LogData(&'a [u8]),
}

/// The records of a batch's bytes, which they borrow. Where there is no record they give an error, and nothing more
/// after it. [`read_batch`] says beforehand whether there will be an error.
#[derive(Clone, Debug)]
pub struct BatchRecords<'a> {
    bytes: &'a [u8],
    at: Option<usize>,
}

impl<'a> BatchRecords<'a> {
    /// The records after the header.
    pub fn new(bytes: &'a [u8]) -> BatchRecords<'a> {
        BatchRecords { bytes, at: Some(BATCH_HEADER_LEN) }
    }
}

/// What the iterators give for a step, from which they go on or end.
fn item_of<T>(step: Step<T>, at: &mut Option<usize>) -> Option<Result<T, Error>> {
    match step {
        Step::Op(op, next) => {
            *at = Some(next);
            Some(Ok(op))
        }
        Step::End => None,
        Step::NoBatch(end) => {
            *at = None;
            Some(Err(Error::NoBatch(end)))
        }
        // There are fewer bytes than a header has.
        Step::Past => {
            *at = None;
            Some(Err(Error::NoBatch(End { at: 0, why: Why::Short })))
        }
    }
}

impl<'a> Iterator for BatchRecords<'a> {
    type Item = Result<Op<'a>, Error>;

    fn next(&mut self) -> Option<Result<Op<'a>, Error>> {
        let step = raw::next_op(self.bytes, self.at?);
        item_of(step, &mut self.at)
    }
}

impl FusedIterator for BatchRecords<'_> {}

/// What the header of a batch's bytes says, whatever comes after it: also where [`read_batch`] gives an error. `None`
/// where there are fewer bytes than a header has.
pub fn batch_head(bytes: &[u8]) -> Option<BatchHead> {
    raw::batch_head(bytes)
}

/// An operation of a batch, of any kind that RocksDB writes, also of those that recovery doesn't apply. Its strings are
/// those that `wz_tag` of the header `wolzenn.h` names: the key and the value of a merge, say, or a transaction's name.
#[derive(Clone, Copy, Debug, PartialEq, Eq)]
#[non_exhaustive]
pub struct Operation<'a> {
    /// What it is: `ValueType` of RocksDB's db/dbformat.h.
    pub tag: u8,
    /// The column family that it names. It is 0, which is the default one, where it names none.
    pub family: u32,
    /// How many sequences it takes: one or none.
    pub sequences: u32,
    /// Its first string, if it has one.
    pub first: Option<&'a [u8]>,
    /// Its second string, if it has two.
    pub second: Option<&'a [u8]>,
}

/// The operations of a batch's bytes, of all kinds, as [`BatchRecords`] gives those that recovery applies. Where it
/// isn't known what comes next they give an error, and nothing more after it.
#[derive(Clone, Debug)]
pub struct Operations<'a> {
    bytes: &'a [u8],
    at: Option<usize>,
}

impl<'a> Operations<'a> {
    /// The operations after the header.
    pub fn new(bytes: &'a [u8]) -> Operations<'a> {
        Operations { bytes, at: Some(BATCH_HEADER_LEN) }
    }
}

impl<'a> Iterator for Operations<'a> {
    type Item = Result<Operation<'a>, Error>;

    fn next(&mut self) -> Option<Result<Operation<'a>, Error>> {
        let step = raw::next_operation(self.bytes, self.at?);
        item_of(step, &mut self.at)
    }
}

impl FusedIterator for Operations<'_> {}
