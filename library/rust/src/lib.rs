//! The logs and write batches of RocksDB and LevelDB, read and written by proved code.
//!
//! The code is that of the repository's `library/wolzenn.h`: written in Rattle, proved there, and linked here as an
//! archive, which `library/build` makes. This crate makes it safe to call. The crate itself isn't proved; only its
//! module `raw` has `unsafe`.
//!
//! ```no_run
//! use wolzenn::{recover, Mode};
//!
//! let log = std::fs::read("000012.log")?;
//! let recovery = recover(&log, None, Mode::Point)?;
//! for pair in recovery.pairs() {
//!     println!("{} {:?} {:?}", pair.family, pair.key, pair.value);
//! }
//! println!("ended at {}: {}", recovery.end().at, recovery.end().why);
//! # Ok::<(), Box<dyn std::error::Error>>(())
//! ```
//!
//! A log is borrowed bytes, so it is in memory as a whole. `number` is the log's number where its fragments have one
//! (RocksDB's `recycle_log_file_num`), and `None` where they have none, as in LevelDB's logs and most of RocksDB's.
//!
//! A reader, a scan, a recovery and a batch may go to another thread, but not be shared by threads.
//!
//! A call panics if the archive that was linked is of another version than this crate: that is a mistake of the build,
//! and nothing would be right after it.

#![deny(unsafe_code)]
#![warn(missing_docs)]

mod batch;
mod checksum;
mod error;
#[allow(unsafe_code)]
mod raw;
mod reading;
mod recovery;
mod scanning;
mod writing;

pub use batch::{batch_head, read_batch, Batch, BatchHead, BatchRecords, Op, Operation, Operations};
pub use checksum::{crc32c, crc32c_extend, crc32c_mask};
pub use error::{End, Error, Why};
pub use reading::{Record, Records};
pub use recovery::{recover, Mode, Pair, Pairs, Place, Recovery};
pub use scanning::{Scan, Scanned, Unread};
pub use writing::LogWriter;

/// Whether the archive that was linked was built of sources that had been proved on the machine that built it.
pub fn is_proved() -> bool {
    raw::is_proved()
}

/// The bytes of a log's block.
pub const BLOCK_LEN: usize = 32_768;

/// The bytes of a batch's header.
pub const BATCH_HEADER_LEN: usize = 12;

/// The most bytes of a [`Batch`].
pub const MAX_BATCH: usize = 16_777_216;
