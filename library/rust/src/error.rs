//! Why something wasn't done, and why reading ended.

use std::fmt;
use std::io;

/// Where reading or recovery ended, and why; or why bytes are no batch.
#[derive(Clone, Copy, Debug, PartialEq, Eq)]
pub struct End {
    /// The offset of the fragment or the record that the reason is about.
    pub at: u64,
    /// Why.
    pub why: Why,
}

/// Why reading or recovery ended, or why bytes are no batch. It is printed in the words of the repository's
/// `docs/RECOVERY.md`. Later versions may know more.
#[derive(Clone, Copy, Debug, PartialEq, Eq)]
#[non_exhaustive]
pub enum Why {
    /// The log ends after a whole record or the zeros behind it in a block, or is empty.
    Clean,
    /// A fragment's header is incomplete.
    ShortHeader,
    /// A header of zeros.
    Zeros,
    /// A fragment passes the end of its block or of the log.
    BadLength,
    /// A fragment of no type that such a log has: this one.
    BadType(u8),
    /// A fragment's checksum differs.
    BadChecksum,
    /// Bytes that aren't zeros where a block ends.
    BadTrailer,
    /// A fragment of another log, which has this number.
    OldLog(u32),
    /// A fragment is where none of its type may be.
    BadOrder,
    /// The log ends inside a record.
    Unfinished,
    /// A batch whose header or record is incomplete.
    Short,
    /// A length or a family in a batch isn't in its shortest spelling, or too large.
    BadVarint,
    /// A record of a batch has a tag that isn't read: this one.
    Tag(u8),
    /// A batch's header has another count than its records.
    Count {
        /// The count in the header.
        said: u32,
        /// The count of the records.
        found: u64,
    },
    /// A batch's run of sequences doesn't begin above the last one before it.
    Order {
        /// Its first sequence.
        first: u64,
        /// The last sequence before it.
        last: u64,
    },
    /// A batch's run of sequences passes 2^56 - 1.
    High {
        /// Its first sequence.
        first: u64,
        /// How many sequences it has.
        count: u32,
    },
}

impl fmt::Display for Why {
    fn fmt(&self, f: &mut fmt::Formatter<'_>) -> fmt::Result {
        match *self {
            Why::Clean => f.write_str("clean"),
            Why::ShortHeader => f.write_str("shortheader"),
            Why::Zeros => f.write_str("zeros"),
            Why::BadLength => f.write_str("badlength"),
            Why::BadType(kind) => write!(f, "badtype {kind}"),
            Why::BadChecksum => f.write_str("badchecksum"),
            Why::BadTrailer => f.write_str("badtrailer"),
            Why::OldLog(number) => write!(f, "oldlog {number}"),
            Why::BadOrder => f.write_str("badorder"),
            Why::Unfinished => f.write_str("unfinished"),
            Why::Short => f.write_str("short"),
            Why::BadVarint => f.write_str("badvarint"),
            Why::Tag(tag) => write!(f, "tag {tag}"),
            Why::Count { said, found } => write!(f, "count {said} {found}"),
            Why::Order { first, last } => write!(f, "order {first} {last}"),
            Why::High { first, count } => write!(f, "high {first} {count}"),
        }
    }
}

impl fmt::Display for End {
    fn fmt(&self, f: &mut fmt::Formatter<'_>) -> fmt::Result {
        write!(f, "{} {}", self.at, self.why)
    }
}

/// Why something wasn't done. Later versions may know more.
#[derive(Clone, Copy, Debug, PartialEq, Eq)]
#[non_exhaustive]
pub enum Error {
    /// There was no memory.
    NoMemory,
    /// The batch would have more than [`MAX_BATCH`](crate::MAX_BATCH) bytes.
    TooLarge,
    /// The log ends here in a way that the mode doesn't accept.
    Damage(End),
    /// The bytes are no batch, or there is no record at this place.
    NoBatch(End),
    /// The log ends before the place where reading should begin.
    PastEnd,
}

impl fmt::Display for Error {
    fn fmt(&self, f: &mut fmt::Formatter<'_>) -> fmt::Result {
        match self {
            Error::NoMemory => f.write_str("no memory"),
            Error::TooLarge => f.write_str("the batch would have too many bytes"),
            Error::Damage(end) => write!(f, "the log ends at {} by {}", end.at, end.why),
            Error::NoBatch(end) => write!(f, "no batch: at {} {}", end.at, end.why),
            Error::PastEnd => f.write_str("the log ends before this place"),
        }
    }
}

impl std::error::Error for Error {}

impl From<Error> for io::Error {
    fn from(error: Error) -> io::Error {
        let kind = match error {
            Error::NoMemory => io::ErrorKind::OutOfMemory,
            Error::TooLarge | Error::PastEnd => io::ErrorKind::InvalidInput,
            Error::Damage(_) | Error::NoBatch(_) => io::ErrorKind::InvalidData,
        };
        io::Error::new(kind, error)
    }
}
