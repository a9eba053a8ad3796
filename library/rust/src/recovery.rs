//! Recovering a log.

use crate::raw::{self, Handle, Summary};
use crate::{End, Error};
use std::iter::FusedIterator;
use std::num::NonZeroU32;

/// Which ends of a log recovery accepts. Later versions may have more.
#[derive(Clone, Copy, Debug, PartialEq, Eq)]
#[non_exhaustive]
pub enum Mode {
    /// Any end: the records before it are recovered (kPointInTimeRecovery).
    Point,
    /// The end of a whole log, and one where the last write is incomplete.
    Tail,
    /// The end of a whole log (kAbsoluteConsistency).
    Absolute,
}

/// A key that a log recovers, with its column family, whose number is 0 for the default one, and its value.
#[derive(Clone, Debug, PartialEq, Eq)]
pub struct Pair {
    /// The key's column family.
    pub family: u32,
    /// The key.
    pub key: Vec<u8>,
    /// Its value.
    pub value: Vec<u8>,
}

/// What a log recovers: the pairs of key and value that its batches leave; or several logs, one after another.
#[derive(Debug)]
pub struct Recovery {
    held: Handle,
    summary: Summary,
}

/// Recovers a log with this number, if it has one: the batches before the first place that can't be read, or where a
/// record is no batch or its sequences don't rise or are too high. `Error::Damage` where the mode doesn't accept the
/// end.
pub fn recover(log: &[u8], number: Option<NonZeroU32>, mode: Mode) -> Result<Recovery, Error> {
    let (held, summary) = Handle::recovery(log, number, mode)?;
    Ok(Recovery { held, summary })
}

/// A place in a log: the end of a record, or the log's start; and the last sequence up to there, 0 where there is none.
/// The default is the start.
#[derive(Clone, Copy, Debug, Default, PartialEq, Eq)]
pub struct Place {
    /// The offset.
    pub at: u64,
    /// The last sequence.
    pub last: u64,
}

impl Place {
    /// Moves it to the end of the last record that [`recover`] keeps, where the log may be resumed, and answers where
    /// recovery ends. No pairs are made. Of a log that has grown since the last call only what came after that is read;
    /// `log` is nevertheless all that it has by now. [`Error::PastEnd`] if the log ends before the place, which stays
    /// then. Whether the log is kept up to the place isn't looked at: it is read on from there as if it were, but
    /// where it goes from any other place isn't promised. For a log that follows another one, which is whole
    /// ([`Recovery::recover_more`] says when), it starts at the offset 0 with the last sequence of that one.
    pub fn advance(&mut self, log: &[u8], number: Option<NonZeroU32>) -> Result<End, Error> {
        raw::recover_place(log, number, self)
    }
}

impl Recovery {
    /// The same recovery once more, for another thread. Nothing is copied: what was recovered is freed with the last of
    /// them.
    pub fn share(&self) -> Result<Recovery, Error> {
        Ok(Recovery { held: self.held.shared()?, summary: self.summary.clone() })
    }

    /// Recovers one more log with this number, if it has one: the log that was written right after those of this
    /// recovery. Its batches change the pairs, and their sequences must rise above [`last`](Recovery::last). So several
    /// logs are recovered in the order in which they were written. From then on [`groups`](Recovery::groups),
    /// [`kept`](Recovery::kept) and [`end`](Recovery::end) are about this log, and the rest about all of them.
    ///
    /// Whether it was: not if an earlier log isn't whole, since recovery ended in that one. A log is whole whose end is
    /// [`Why::Clean`](crate::Why::Clean), or, if it has a number, [`Why::OldLog`](crate::Why::OldLog) with a lower one
    /// right after the last record kept. `Error::Damage` where the mode doesn't accept the end. At an error the
    /// recovery stays as it was, as if the log hadn't been given: recover no later one over it. Each call copies the
    /// pairs of all logs so far: a recovery that was [shared](Recovery::share) before keeps its own.
    pub fn recover_more(&mut self, log: &[u8], number: Option<NonZeroU32>, mode: Mode) -> Result<bool, Error> {
        let Some(summary) = self.held.recover_more(log, number, mode)? else {
            return Ok(false);
        };
        self.summary = summary;
        Ok(true)
    }

    /// How many records of the log are recovered. Each is one batch.
    pub fn groups(&self) -> usize {
        self.summary.groups
    }

    /// The last sequence, 0 where there is none.
    pub fn last(&self) -> u64 {
        self.summary.last
    }

    /// The offset after the last record that is recovered, 0 where there is none. The log may be resumed there, once
    /// it is truncated there.
    pub fn kept(&self) -> u64 {
        self.summary.kept
    }

    /// Where recovery ended, and why.
    pub fn end(&self) -> End {
        self.summary.end
    }

    /// How many pairs there are.
    pub fn len(&self) -> usize {
        self.summary.pairs
    }

    /// Whether there are none.
    pub fn is_empty(&self) -> bool {
        self.len() == 0
    }

    /// The pair with this index, from 0 on, by family and in a family in the byte order of the keys.
    pub fn pair(&self, index: usize) -> Option<Pair> {
        let (family, key_len, value_len) = self.held.pair_len(index)?;
        let (mut key, mut value) = (vec![0; key_len], vec![0; value_len]);
        self.held.pair(index, &mut key, &mut value);
        Some(Pair { family, key, value })
    }

    /// The index of the pair of this key of a family. Where the key has none, the error is the index of the next key's
    /// pair, or [`len`](Recovery::len) where there is none.
    pub fn find(&self, family: u32, key: &[u8]) -> Result<usize, usize> {
        self.held.find(family, key)
    }

    /// The value of a key of the default family, if it has one.
    pub fn get(&self, key: &[u8]) -> Option<Vec<u8>> {
        self.get_cf(0, key)
    }

    /// The value of a key of a family, if it has one.
    pub fn get_cf(&self, family: u32, key: &[u8]) -> Option<Vec<u8>> {
        let index = self.find(family, key).ok()?;
        self.pair(index).map(|pair| pair.value)
    }

    /// All pairs, by family and in a family in the byte order of the keys.
    pub fn pairs(&self) -> Pairs<'_> {
        Pairs { recovery: self, front: 0, back: self.len() }
    }

    /// The pairs from this key of a family on. Those of the families after it come too.
    pub fn pairs_from(&self, family: u32, key: &[u8]) -> Pairs<'_> {
        let front = self.find(family, key).unwrap_or_else(|next| next);
        Pairs { recovery: self, front, back: self.len() }
    }
}

impl<'a> IntoIterator for &'a Recovery {
    type Item = Pair;
    type IntoIter = Pairs<'a>;

    fn into_iter(self) -> Pairs<'a> {
        self.pairs()
    }
}

/// The pairs of a recovery, by family and in a family in the byte order of their keys.
#[derive(Clone, Debug)]
pub struct Pairs<'a> {
    recovery: &'a Recovery,
    front: usize,
    back: usize,
}

impl Iterator for Pairs<'_> {
    type Item = Pair;

    fn next(&mut self) -> Option<Self::Item> {
        if self.front >= self.back {
            return None;
        }
        self.front += 1;
        self.recovery.pair(self.front - 1)
    }

    fn size_hint(&self) -> (usize, Option<usize>) {
        let left = self.back - self.front;
        (left, Some(left))
    }
}

impl DoubleEndedIterator for Pairs<'_> {
    fn next_back(&mut self) -> Option<Self::Item> {
        if self.front >= self.back {
            return None;
        }
        self.back -= 1;
        self.recovery.pair(self.back)
    }
}

impl ExactSizeIterator for Pairs<'_> {}

impl FusedIterator for Pairs<'_> {}
