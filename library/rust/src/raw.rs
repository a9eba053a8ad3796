//! The library's functions, and what makes each of them safe to call. No other module has `unsafe`.

use crate::{BatchHead, End, Error, Mode, Op, Operation, Place, Unread, Why};
use std::cell::UnsafeCell;
use std::ffi::c_void;
use std::fmt;
use std::num::NonZeroU32;

/// The version of the library that this crate is for: `WZ_VERSION` of its header.
const VERSION: u32 = 8;

// As in library/wolzenn.h, which says what each code means.
const DONE: u32 = 0;
const NO_MEMORY: u32 = 1;
const END: u32 = 4;
const TOO_LARGE: u32 = 5;
const DAMAGE: u32 = 6;
const NO_BATCH: u32 = 7;
const RANGE: u32 = 8;
const UNREAD: u32 = 9;

const DELETION: u32 = 0;
const VALUE: u32 = 1;
const LOG_DATA: u32 = 3;
const DELETION_CF: u32 = 4;
const VALUE_CF: u32 = 5;
const SINGLE_DELETION: u32 = 7;
const SINGLE_DELETION_CF: u32 = 8;

#[repr(C)]
struct RawHandle {
    full: bool,
    at: *mut c_void,
}

#[repr(C)]
#[derive(Default)]
struct RawEnd {
    at: u64,
    why: u32,
    first: u64,
    second: u64,
}

#[repr(C)]
#[derive(Default)]
struct RawRecord {
    start: u64,
    end: u64,
    len: usize,
}

#[repr(C)]
#[derive(Default)]
struct RawUnread {
    from: u64,
    to: u64,
    end: RawEnd,
}

#[repr(C)]
#[derive(Default)]
struct RawRecovered {
    groups: usize,
    pairs: usize,
    last: u64,
    kept: u64,
    end: RawEnd,
}

#[repr(C)]
#[derive(Default)]
struct RawPairLens {
    family: u32,
    key_len: usize,
    value_len: usize,
}

#[repr(C)]
#[derive(Default)]
struct RawBatchHead {
    sequence: u64,
    count: u32,
}

#[repr(C)]
#[derive(Default)]
struct RawOp {
    kind: u32,
    family: u32,
    key_at: usize,
    key_len: usize,
    value_at: usize,
    value_len: usize,
}

#[repr(C)]
struct RawPlace {
    at: u64,
    last: u64,
}

#[repr(C)]
#[derive(Default)]
struct RawOperation {
    tag: u32,
    family: u32,
    sequences: u32,
    strings: u32,
    first_at: usize,
    first_len: usize,
    second_at: usize,
    second_len: usize,
}

extern "C" {
    fn wz_version() -> u32;
    fn wz_is_proved() -> bool;
    fn wz_close(handle: *mut RawHandle);
    fn wz_crc32c(bytes: *const u8, len: usize) -> u32;
    fn wz_crc32c_extend(crc: u32, bytes: *const u8, len: usize) -> u32;
    fn wz_crc32c_mask(crc: u32) -> u32;
    fn wz_reader_open(handle: *mut RawHandle, number: u32) -> u32;
    fn wz_reader_open_at(handle: *mut RawHandle, number: u32, place: u64, log: *const u8, log_len: usize) -> u32;
    fn wz_reader_next(
        handle: *mut RawHandle,
        log: *const u8,
        log_len: usize,
        record: *mut RawRecord,
        end: *mut RawEnd,
    ) -> u32;
    fn wz_reader_next_since(
        handle: *mut RawHandle,
        since: u64,
        log: *const u8,
        log_len: usize,
        record: *mut RawRecord,
        end: *mut RawEnd,
    ) -> u32;
    fn wz_reader_record(handle: *mut RawHandle, buffer: *mut u8, buffer_len: usize) -> u32;
    fn wz_scan_open_at(handle: *mut RawHandle, number: u32, place: u64, log: *const u8, log_len: usize) -> u32;
    fn wz_scan_next(
        handle: *mut RawHandle,
        log: *const u8,
        log_len: usize,
        record: *mut RawRecord,
        unread: *mut RawUnread,
        end: *mut RawEnd,
    ) -> u32;
    fn wz_scan_record(handle: *mut RawHandle, buffer: *mut u8, buffer_len: usize) -> u32;
    fn wz_recover(
        handle: *mut RawHandle,
        number: u32,
        mode: u32,
        log: *const u8,
        log_len: usize,
        summary: *mut RawRecovered,
    ) -> u32;
    fn wz_recover_more(
        handle: *mut RawHandle,
        number: u32,
        mode: u32,
        log: *const u8,
        log_len: usize,
        summary: *mut RawRecovered,
    ) -> u32;
    fn wz_pair_len(handle: *mut RawHandle, index: usize, lens: *mut RawPairLens) -> u32;
    fn wz_pair(
        handle: *mut RawHandle,
        index: usize,
        key: *mut u8,
        key_len: usize,
        value: *mut u8,
        value_len: usize,
    ) -> u32;
    fn wz_pair_find(
        handle: *mut RawHandle,
        family: u32,
        key: *const u8,
        key_len: usize,
        index: *mut usize,
    ) -> u32;
    fn wz_recovery_share(handle: *mut RawHandle, other: *mut RawHandle) -> u32;
    fn wz_batch_new(handle: *mut RawHandle) -> u32;
    fn wz_batch_put(handle: *mut RawHandle, key: *const u8, key_len: usize, value: *const u8, value_len: usize)
        -> u32;
    fn wz_batch_delete(handle: *mut RawHandle, key: *const u8, key_len: usize) -> u32;
    fn wz_batch_single_delete(handle: *mut RawHandle, key: *const u8, key_len: usize) -> u32;
    fn wz_batch_put_cf(
        handle: *mut RawHandle,
        family: u32,
        key: *const u8,
        key_len: usize,
        value: *const u8,
        value_len: usize,
    ) -> u32;
    fn wz_batch_delete_cf(handle: *mut RawHandle, family: u32, key: *const u8, key_len: usize) -> u32;
    fn wz_batch_single_delete_cf(handle: *mut RawHandle, family: u32, key: *const u8, key_len: usize) -> u32;
    fn wz_batch_log_data(handle: *mut RawHandle, blob: *const u8, blob_len: usize) -> u32;
    fn wz_batch_append(handle: *mut RawHandle, bytes: *const u8, len: usize) -> u32;
    fn wz_batch_clear(handle: *mut RawHandle) -> u32;
    fn wz_batch_set_sequence(handle: *mut RawHandle, sequence: u64) -> u32;
    fn wz_batch_get(handle: *mut RawHandle, head: *mut RawBatchHead) -> u32;
    fn wz_batch_len(handle: *mut RawHandle, len: *mut usize) -> u32;
    fn wz_batch_bytes(handle: *mut RawHandle, buffer: *mut u8, buffer_len: usize) -> u32;
    fn wz_batch_read(bytes: *const u8, len: usize, head: *mut RawBatchHead, why: *mut RawEnd) -> u32;
    fn wz_batch_next(bytes: *const u8, len: usize, at: *mut usize, op: *mut RawOp, why: *mut RawEnd) -> u32;
    fn wz_batch_read_head(bytes: *const u8, len: usize, head: *mut RawBatchHead) -> u32;
    fn wz_operation_next(
        bytes: *const u8,
        len: usize,
        at: *mut usize,
        operation: *mut RawOperation,
        why: *mut RawEnd,
    ) -> u32;
    fn wz_recover_place(
        number: u32,
        log: *const u8,
        log_len: usize,
        place: *mut RawPlace,
        end: *mut RawEnd,
    ) -> u32;
    fn wz_log_record_len(number: u32, offset: u64, len: usize) -> usize;
    fn wz_log_record(
        number: u32,
        offset: u64,
        record: *const u8,
        record_len: usize,
        buffer: *mut u8,
        buffer_len: usize,
        len: *mut usize,
    ) -> u32;
}

/// Panics where the archive that was linked is of another version: there the structs above may have another layout. So
/// it comes before each call, except for those with a handle, which was made after it.
fn check_version() {
    // SAFETY: it takes nothing, and is the same in each version.
    let found = unsafe { wz_version() };
    assert!(
        found == VERSION,
        "the crate wolzenn is for version {VERSION} of libwolzenn.a, and version {found} was linked: run library/build \
         of the crate's own repository, or set WOLZENN_LIB to a folder with that version"
    );
}

/// Compares an answer that only a fault of the library could make another one.
fn wanted(code: u32, wanted: u32) {
    assert_eq!(code, wanted, "an answer of the library");
}

/// The answer of a function that may find no memory, or a batch too large.
fn done(code: u32) -> Result<(), Error> {
    match code {
        DONE => Ok(()),
        NO_MEMORY => Err(Error::NoMemory),
        TOO_LARGE => Err(Error::TooLarge),
        _ => unreachable!("the answer {code} of the library"),
    }
}

fn number_of(number: Option<NonZeroU32>) -> u32 {
    number.map_or(0, NonZeroU32::get)
}

fn end_of(raw: &RawEnd) -> End {
    let why = match raw.why {
        1 => Why::Clean,
        2 => Why::ShortHeader,
        3 => Why::Zeros,
        4 => Why::BadLength,
        5 => Why::BadType(raw.first as u8),
        6 => Why::BadChecksum,
        7 => Why::BadTrailer,
        8 => Why::OldLog(raw.first as u32),
        9 => Why::BadOrder,
        10 => Why::Unfinished,
        11 => Why::Short,
        12 => Why::BadVarint,
        13 => Why::Tag(raw.first as u8),
        14 => Why::Count { said: raw.first as u32, found: raw.second },
        15 => Why::Order { first: raw.first, last: raw.second },
        16 => Why::High { first: raw.first, count: raw.second as u32 },
        why => unreachable!("the reason {why} of the library"),
    };
    End { at: raw.at, why }
}

fn mode_of(mode: Mode) -> u32 {
    match mode {
        Mode::Point => 0,
        Mode::Tail => 1,
        Mode::Absolute => 2,
    }
}

/// What a recovery says, by its code.
fn summary_of(code: u32, raw: RawRecovered) -> Result<Summary, Error> {
    let RawRecovered { groups, pairs, last, kept, end } = raw;
    if code == DAMAGE {
        return Err(Error::Damage(end_of(&end)));
    }
    done(code)?;
    Ok(Summary { groups, pairs, last, kept, end: end_of(&end) })
}

/// A handle that holds a reader, a scan, a recovery or a batch. It isn't `Sync`, so no two calls use it at once, and no
/// function of the library calls back. So a call has the handle to itself, also where it is shared here.
pub(crate) struct Handle {
    raw: UnsafeCell<RawHandle>,
}

// SAFETY: that nothing in a handle belongs to a thread is proved (`handle_crosses` of the crate `wolzenn_c`).
unsafe impl Send for Handle {}

/// What reading on gives.
pub(crate) enum Next {
    Record { start: u64, end: u64, len: usize },
    End(End),
}

/// What a scan finds next.
pub(crate) enum Found {
    Record { unread: Option<Unread>, start: u64, end: u64, len: usize },
    End(End),
}

/// What the library says about a recovery.
#[derive(Clone, Debug)]
pub(crate) struct Summary {
    pub groups: usize,
    pub pairs: usize,
    pub last: u64,
    pub kept: u64,
    pub end: End,
}

impl fmt::Debug for Handle {
    fn fmt(&self, f: &mut fmt::Formatter<'_>) -> fmt::Result {
        f.write_str("Handle")
    }
}

impl Drop for Handle {
    fn drop(&mut self) {
        // SAFETY: the handle is as the library left it, or holds nothing.
        unsafe { wz_close(self.raw.get()) }
    }
}

impl Handle {
    /// A handle that holds nothing.
    fn empty() -> Handle {
        check_version();
        Handle { raw: UnsafeCell::new(RawHandle { full: false, at: std::ptr::null_mut() }) }
    }

    pub fn reader(number: Option<NonZeroU32>) -> Result<Handle, Error> {
        let handle = Handle::empty();
        // SAFETY: the handle holds nothing.
        done(unsafe { wz_reader_open(handle.raw.get(), number_of(number)) })?;
        Ok(handle)
    }

    /// A reader that begins at a place of the log.
    pub fn reader_at(number: Option<NonZeroU32>, place: u64, log: &[u8]) -> Result<Handle, Error> {
        let handle = Handle::empty();
        // SAFETY: the handle holds nothing, and the slice is that many bytes, as all slices below are.
        let code = unsafe { wz_reader_open_at(handle.raw.get(), number_of(number), place, log.as_ptr(), log.len()) };
        if code == RANGE {
            return Err(Error::PastEnd);
        }
        done(code)?;
        Ok(handle)
    }

    /// Reads on in the log; given a sequence, up to a batch that has it or a later one.
    pub fn next(&mut self, log: &[u8], since: Option<u64>) -> Result<Next, Error> {
        let (mut record, mut end) = (RawRecord::default(), RawEnd::default());
        let (handle, at, len) = (self.raw.get(), log.as_ptr(), log.len());
        // SAFETY: the handle is ours alone. `Records` sees to it that the bytes are equal at each call; where they
        // aren't, other records are read.
        let code = match since {
            None => unsafe { wz_reader_next(handle, at, len, &mut record, &mut end) },
            Some(since) => unsafe { wz_reader_next_since(handle, since, at, len, &mut record, &mut end) },
        };
        match code {
            DONE => Ok(Next::Record { start: record.start, end: record.end, len: record.len }),
            END => Ok(Next::End(end_of(&end))),
            code => Err(done(code).expect_err("an answer that isn't DONE")),
        }
    }

    /// Copies the record that was read last, which has as many bytes as the buffer.
    pub fn record(&self, buffer: &mut [u8]) {
        // SAFETY: the handle is used by this call alone, and the buffer is ours alone.
        let code = unsafe { wz_reader_record(self.raw.get(), buffer.as_mut_ptr(), buffer.len()) };
        wanted(code, DONE);
    }

    /// A scan that begins at a place of the log.
    pub fn scan(number: Option<NonZeroU32>, place: u64, log: &[u8]) -> Result<Handle, Error> {
        let handle = Handle::empty();
        // SAFETY: the handle holds nothing.
        let code = unsafe { wz_scan_open_at(handle.raw.get(), number_of(number), place, log.as_ptr(), log.len()) };
        if code == RANGE {
            return Err(Error::PastEnd);
        }
        done(code)?;
        Ok(handle)
    }

    /// Finds the next record of the log, with the stretch before it that doesn't read.
    pub fn find_next(&mut self, log: &[u8]) -> Result<Found, Error> {
        let (mut record, mut unread, mut end) = (RawRecord::default(), RawUnread::default(), RawEnd::default());
        // SAFETY: the handle is ours alone. `Scan` sees to it that the bytes are equal at each call; where they aren't,
        // other records are found.
        let code = unsafe {
            wz_scan_next(self.raw.get(), log.as_ptr(), log.len(), &mut record, &mut unread, &mut end)
        };
        let before = match code {
            DONE => None,
            UNREAD => Some(Unread { from: unread.from, to: unread.to, end: end_of(&unread.end) }),
            END => return Ok(Found::End(end_of(&end))),
            code => return Err(done(code).expect_err("an answer that isn't DONE")),
        };
        Ok(Found::Record { unread: before, start: record.start, end: record.end, len: record.len })
    }

    /// Copies the record that was found last, which has as many bytes as the buffer.
    pub fn found(&self, buffer: &mut [u8]) {
        // SAFETY: the handle is used by this call alone, and the buffer is ours alone.
        let code = unsafe { wz_scan_record(self.raw.get(), buffer.as_mut_ptr(), buffer.len()) };
        wanted(code, DONE);
    }

    pub fn recovery(log: &[u8], number: Option<NonZeroU32>, mode: Mode) -> Result<(Handle, Summary), Error> {
        let (handle, mut raw) = (Handle::empty(), RawRecovered::default());
        let (number, mode, len) = (number_of(number), mode_of(mode), log.len());
        // SAFETY: the handle holds nothing, and the summary is ours alone.
        let code = unsafe { wz_recover(handle.raw.get(), number, mode, log.as_ptr(), len, &mut raw) };
        Ok((handle, summary_of(code, raw)?))
    }

    /// Recovers one more log, or `None` where recovery has ended in an earlier one. At an error the handle holds what
    /// it held.
    pub fn recover_more(
        &mut self,
        log: &[u8],
        number: Option<NonZeroU32>,
        mode: Mode,
    ) -> Result<Option<Summary>, Error> {
        let mut raw = RawRecovered::default();
        let (number, mode, len) = (number_of(number), mode_of(mode), log.len());
        // SAFETY: the handle is ours alone, and so is the summary.
        let code = unsafe { wz_recover_more(self.raw.get(), number, mode, log.as_ptr(), len, &mut raw) };
        if code == END {
            return Ok(None);
        }
        summary_of(code, raw).map(Some)
    }

    /// The family of a pair's key, and how many bytes its key and its value have, if it is there.
    pub fn pair_len(&self, index: usize) -> Option<(u32, usize, usize)> {
        let mut lens = RawPairLens::default();
        // SAFETY: the handle is used by this call alone.
        let code = unsafe { wz_pair_len(self.raw.get(), index, &mut lens) };
        if code == END {
            return None;
        }
        wanted(code, DONE);
        Some((lens.family, lens.key_len, lens.value_len))
    }

    /// Copies a pair, which has as many bytes as the buffers.
    pub fn pair(&self, index: usize, key: &mut [u8], value: &mut [u8]) {
        // SAFETY: the handle is used by this call alone, and the buffers are two of the caller's.
        let code =
            unsafe { wz_pair(self.raw.get(), index, key.as_mut_ptr(), key.len(), value.as_mut_ptr(), value.len()) };
        wanted(code, DONE);
    }

    pub fn find(&self, family: u32, key: &[u8]) -> Result<usize, usize> {
        let mut index = 0;
        // SAFETY: the handle is used by this call alone.
        let code = unsafe { wz_pair_find(self.raw.get(), family, key.as_ptr(), key.len(), &mut index) };
        if code == END {
            return Err(index);
        }
        wanted(code, DONE);
        Ok(index)
    }

    /// Another handle that holds the same recovery.
    pub fn shared(&self) -> Result<Handle, Error> {
        let other = Handle::empty();
        // SAFETY: the handle is used by this call alone, and the other one holds nothing.
        done(unsafe { wz_recovery_share(self.raw.get(), other.raw.get()) })?;
        Ok(other)
    }

    pub fn batch() -> Result<Handle, Error> {
        let handle = Handle::empty();
        // SAFETY: the handle holds nothing.
        done(unsafe { wz_batch_new(handle.raw.get()) })?;
        Ok(handle)
    }

    pub fn put(&mut self, key: &[u8], value: &[u8]) -> Result<(), Error> {
        // SAFETY: the handle is ours alone.
        done(unsafe { wz_batch_put(self.raw.get(), key.as_ptr(), key.len(), value.as_ptr(), value.len()) })
    }

    pub fn delete(&mut self, key: &[u8]) -> Result<(), Error> {
        // SAFETY: the handle is ours alone.
        done(unsafe { wz_batch_delete(self.raw.get(), key.as_ptr(), key.len()) })
    }

    pub fn single_delete(&mut self, key: &[u8]) -> Result<(), Error> {
        // SAFETY: the handle is ours alone.
        done(unsafe { wz_batch_single_delete(self.raw.get(), key.as_ptr(), key.len()) })
    }

    pub fn put_cf(&mut self, family: u32, key: &[u8], value: &[u8]) -> Result<(), Error> {
        // SAFETY: the handle is ours alone.
        done(unsafe {
            wz_batch_put_cf(self.raw.get(), family, key.as_ptr(), key.len(), value.as_ptr(), value.len())
        })
    }

    pub fn delete_cf(&mut self, family: u32, key: &[u8]) -> Result<(), Error> {
        // SAFETY: the handle is ours alone.
        done(unsafe { wz_batch_delete_cf(self.raw.get(), family, key.as_ptr(), key.len()) })
    }

    pub fn single_delete_cf(&mut self, family: u32, key: &[u8]) -> Result<(), Error> {
        // SAFETY: the handle is ours alone.
        done(unsafe { wz_batch_single_delete_cf(self.raw.get(), family, key.as_ptr(), key.len()) })
    }

    pub fn log_data(&mut self, blob: &[u8]) -> Result<(), Error> {
        // SAFETY: the handle is ours alone.
        done(unsafe { wz_batch_log_data(self.raw.get(), blob.as_ptr(), blob.len()) })
    }

    pub fn append(&mut self, bytes: &[u8]) -> Result<(), Error> {
        // SAFETY: the handle is ours alone.
        let code = unsafe { wz_batch_append(self.raw.get(), bytes.as_ptr(), bytes.len()) };
        if code == NO_BATCH {
            return Err(read_batch(bytes).expect_err("bytes that are no batch"));
        }
        done(code)
    }

    pub fn clear(&mut self) {
        // SAFETY: the handle is ours alone.
        wanted(unsafe { wz_batch_clear(self.raw.get()) }, DONE);
    }

    pub fn set_sequence(&mut self, sequence: u64) {
        // SAFETY: the handle is ours alone.
        wanted(unsafe { wz_batch_set_sequence(self.raw.get(), sequence) }, DONE);
    }

    pub fn head(&self) -> BatchHead {
        let mut head = RawBatchHead::default();
        // SAFETY: the handle is used by this call alone.
        wanted(unsafe { wz_batch_get(self.raw.get(), &mut head) }, DONE);
        BatchHead { sequence: head.sequence, count: head.count }
    }

    pub fn batch_len(&self) -> usize {
        let mut len = 0;
        // SAFETY: the handle is used by this call alone.
        wanted(unsafe { wz_batch_len(self.raw.get(), &mut len) }, DONE);
        len
    }

    /// Copies the batch's bytes, which are as many as the buffer has.
    pub fn batch_bytes(&self, buffer: &mut [u8]) {
        // SAFETY: the handle is used by this call alone, and the buffer is the caller's.
        let code = unsafe { wz_batch_bytes(self.raw.get(), buffer.as_mut_ptr(), buffer.len()) };
        wanted(code, DONE);
    }
}

pub(crate) fn is_proved() -> bool {
    check_version();
    // SAFETY: it takes nothing.
    unsafe { wz_is_proved() }
}

pub(crate) fn crc32c(bytes: &[u8]) -> u32 {
    check_version();
    // SAFETY: the slice is that many bytes.
    unsafe { wz_crc32c(bytes.as_ptr(), bytes.len()) }
}

pub(crate) fn crc32c_extend(crc: u32, bytes: &[u8]) -> u32 {
    check_version();
    // SAFETY: the slice is that many bytes.
    unsafe { wz_crc32c_extend(crc, bytes.as_ptr(), bytes.len()) }
}

pub(crate) fn crc32c_mask(crc: u32) -> u32 {
    check_version();
    // SAFETY: it takes a number, any one.
    unsafe { wz_crc32c_mask(crc) }
}

pub(crate) fn read_batch(bytes: &[u8]) -> Result<BatchHead, Error> {
    check_version();
    let (mut head, mut why) = (RawBatchHead::default(), RawEnd::default());
    // SAFETY: the slice is that many bytes, and the two are ours alone.
    let code = unsafe { wz_batch_read(bytes.as_ptr(), bytes.len(), &mut head, &mut why) };
    if code == NO_BATCH {
        return Err(Error::NoBatch(end_of(&why)));
    }
    wanted(code, DONE);
    Ok(BatchHead { sequence: head.sequence, count: head.count })
}

/// What a batch's header says, if there are as many bytes.
pub(crate) fn batch_head(bytes: &[u8]) -> Option<BatchHead> {
    check_version();
    let mut head = RawBatchHead::default();
    // SAFETY: the slice is that many bytes, and the head is ours alone.
    let code = unsafe { wz_batch_read_head(bytes.as_ptr(), bytes.len(), &mut head) };
    if code == NO_BATCH {
        return None;
    }
    wanted(code, DONE);
    Some(BatchHead { sequence: head.sequence, count: head.count })
}

/// Moves a place of a log on, and answers where recovery ends.
pub(crate) fn recover_place(log: &[u8], number: Option<NonZeroU32>, place: &mut Place) -> Result<End, Error> {
    check_version();
    let (mut raw, mut end) = (RawPlace { at: place.at, last: place.last }, RawEnd::default());
    // SAFETY: the slice is that many bytes, and the two are ours alone.
    let code = unsafe { wz_recover_place(number_of(number), log.as_ptr(), log.len(), &mut raw, &mut end) };
    if code == RANGE {
        return Err(Error::PastEnd);
    }
    done(code)?;
    (place.at, place.last) = (raw.at, raw.last);
    Ok(end_of(&end))
}

/// What there is at a place of a batch's bytes.
pub(crate) enum Step<T> {
    /// A record or an operation, and the place after it.
    Op(T, usize),
    End,
    NoBatch(End),
    /// The place is past the end.
    Past,
}

/// Why there is no record or operation at a place, if the answer says so.
fn no_step<T>(code: u32, why: &RawEnd) -> Option<Step<T>> {
    match code {
        END => Some(Step::End),
        NO_BATCH => Some(Step::NoBatch(end_of(why))),
        RANGE => Some(Step::Past),
        code => {
            wanted(code, DONE);
            None
        }
    }
}

pub(crate) fn next_operation(bytes: &[u8], mut at: usize) -> Step<Operation<'_>> {
    check_version();
    let (mut found, mut why) = (RawOperation::default(), RawEnd::default());
    // SAFETY: the slice is that many bytes, and the three are ours alone.
    let code = unsafe { wz_operation_next(bytes.as_ptr(), bytes.len(), &mut at, &mut found, &mut why) };
    if let Some(step) = no_step(code, &why) {
        return step;
    }
    let first = &bytes[found.first_at..found.first_at + found.first_len];
    let second = &bytes[found.second_at..found.second_at + found.second_len];
    let operation = Operation {
        tag: found.tag as u8,
        family: found.family,
        sequences: found.sequences,
        first: (found.strings > 0).then_some(first),
        second: (found.strings > 1).then_some(second),
    };
    Step::Op(operation, at)
}

pub(crate) fn next_op(bytes: &[u8], mut at: usize) -> Step<Op<'_>> {
    check_version();
    let (mut op, mut why) = (RawOp::default(), RawEnd::default());
    // SAFETY: the slice is that many bytes, and the three are ours alone.
    let code = unsafe { wz_batch_next(bytes.as_ptr(), bytes.len(), &mut at, &mut op, &mut why) };
    if let Some(step) = no_step(code, &why) {
        return step;
    }
    let key = &bytes[op.key_at..op.key_at + op.key_len];
    let value = &bytes[op.value_at..op.value_at + op.value_len];
    let op = match op.kind {
        DELETION => Op::Delete(key),
        DELETION_CF => Op::DeleteCf(op.family, key),
        VALUE => Op::Put(key, value),
        VALUE_CF => Op::PutCf(op.family, key, value),
        LOG_DATA => Op::LogData(key),
        SINGLE_DELETION => Op::SingleDelete(key),
        SINGLE_DELETION_CF => Op::SingleDeleteCf(op.family, key),
        kind => unreachable!("the kind {kind} of the library"),
    };
    Step::Op(op, at)
}

pub(crate) fn record_len(number: Option<NonZeroU32>, offset: u64, len: usize) -> usize {
    check_version();
    // SAFETY: it takes numbers, any ones.
    unsafe { wz_log_record_len(number_of(number), offset, len) }
}

/// Puts a record's bytes of the log into a buffer, which has as many.
pub(crate) fn record_text(number: Option<NonZeroU32>, offset: u64, record: &[u8], buffer: &mut [u8]) {
    check_version();
    let mut len = 0;
    // SAFETY: the record is shared and the buffer is the caller's alone, so that they don't overlap.
    let code = unsafe {
        wz_log_record(
            number_of(number),
            offset,
            record.as_ptr(),
            record.len(),
            buffer.as_mut_ptr(),
            buffer.len(),
            &mut len,
        )
    };
    wanted(code, DONE);
    wanted(u32::from(len == buffer.len()), 1);
}
