//! The floor of a log without groups, for `engine_program` in this folder: threads that write the same batches, each
//! with one call of the system under a mutex. It keeps no map and answers no reads, and nothing is proved.
//!
//! The arguments are those of `engine_program`, without the words for the stages and the table, and so is the output.

use std::env;
use std::error::Error;
use std::fs::File;
use std::hint::black_box;
use std::io::{self, Write};
use std::sync::{Mutex, PoisonError};
use std::thread;
use std::time::Instant;

const BLOCK_LEN: usize = 32768;

/// The bytes of a fragment's header.
const HEADER_LEN: usize = 7;

/// The bytes of a batch's header.
const BATCH_HEADER_LEN: usize = 12;

/// The longest value.
const VALUE: [u8; 1000] = [7; 1000];

/// How far apart the ordered keys of two clients begin.
const APART: u64 = 1 << 32;

/// What all clients should write.
#[derive(Clone, Copy)]
struct Work {
    clients: u64,
    /// How many batches each client writes.
    times: u64,
    sync: bool,
    /// How many additions are in a batch.
    records: u32,
    /// The bytes of a value.
    value: usize,
    /// Whether the keys of a client come in order.
    ordered: bool,
    /// How many column families there are. Each key is in one of them.
    families: u64,
}

fn main() -> Result<(), Box<dyn Error>> {
    let words: Vec<String> = env::args().skip(1).collect();
    let [clients, times, how, records, value, order, path @ ..] = words.as_slice() else {
        return Err("how many clients, how many batches each, `sync` or `plain`, the additions of a batch, the bytes of \
            a value, and `ordered` or `random`"
            .into());
    };
    let (order, families) = match order.split_once(':') {
        Some((order, families)) => (order, families.parse::<u64>()?.max(1)),
        None => (order.as_str(), 1),
    };
    let work = Work {
        clients: clients.parse()?,
        times: times.parse()?,
        sync: how == "sync",
        records: records.parse()?,
        value: value.parse::<usize>()?.min(VALUE.len()),
        ordered: order == "ordered",
        families,
    };
    match path {
        [path, ..] => time(File::create_new(path)?, work),
        [] => time(Vec::<u8>::with_capacity(room_of(work)), work),
    }
}

/// The bytes that the log of all batches takes, or more.
fn room_of(work: Work) -> usize {
    (work.clients * work.times * ((work.value as u64 + 20) * u64::from(work.records) + 40)) as usize + 65536
}

fn time<D: Disk + Send>(disk: D, work: Work) -> Result<(), Box<dyn Error>> {
    let pieces = Vec::with_capacity(BLOCK_LEN);
    let log = Mutex::new(Log { tables: Tables::new(), disk, pieces, len: 0, last: 0, batches: 0 });
    let start = Instant::now();
    thread::scope(|scope| {
        let clients: Vec<_> = (0..work.clients)
            .map(|client| {
                let log = &log;
                scope.spawn(move || write_all(log, work, client))
            })
            .collect();
        clients
            .into_iter()
            .try_for_each(|client| client.join().unwrap_or_else(|_| Err(io::Error::other("a client ended badly"))))
    })?;
    let micros = start.elapsed().as_micros();
    let log = log.into_inner().unwrap_or_else(PoisonError::into_inner);
    println!("{micros} {0} {0} {1}", log.batches, log.len);
    Ok(())
}

/// One client writes its batches.
fn write_all<D: Disk>(log: &Mutex<Log<D>>, work: Work, seed: u64) -> io::Result<()> {
    let mut keys = Keys::of(seed, work.ordered);
    let mut batch = Vec::new();
    for _ in 0..work.times {
        fill(&mut batch, &mut keys, work);
        let first = log.lock().unwrap_or_else(PoisonError::into_inner).write(&mut batch, work.sync)?;
        black_box(first);
    }
    Ok(())
}

/// A batch of `work.records` additions.
fn fill(batch: &mut Vec<u8>, keys: &mut Keys, work: Work) {
    batch.clear();
    batch.resize(BATCH_HEADER_LEN, 0);
    batch[8..].copy_from_slice(&work.records.to_le_bytes());
    // The additions so far are in the batch.
    for _ in 0..work.records {
        let number = keys.number();
        // The tag of a value, and that of one in a family, with the family's number.
        match number % work.families {
            0 => batch.push(1),
            family => batch.extend_from_slice(&[5, family as u8]),
        }
        // First the key, then the value, each after its length.
        for string in [&key_of(number)[..], &VALUE[..work.value]] {
            push_len(batch, string.len());
            batch.extend_from_slice(string);
        }
    }
}

/// A length as a varint.
fn push_len(batch: &mut Vec<u8>, mut len: usize) {
    // The lowest seven bits of what is left go next.
    while len >= 128 {
        batch.push((len % 128) as u8 | 128);
        len /= 128;
    }
    batch.push(len as u8);
}

/// The keys of a client: numbers in order, or those of a linear congruential generator.
struct Keys {
    state: u64,
    ordered: bool,
}

impl Keys {
    fn of(seed: u64, ordered: bool) -> Keys {
        Keys { state: if ordered { seed.wrapping_mul(APART) } else { seed }, ordered }
    }

    fn number(&mut self) -> u64 {
        if self.ordered {
            self.state = self.state.wrapping_add(1);
            return self.state;
        }
        self.state = self
            .state
            .wrapping_mul(6_364_136_223_846_793_005)
            .wrapping_add(1_442_695_040_888_963_407);
        self.state >> 1
    }
}

fn key_of(number: u64) -> [u8; 16] {
    let mut key = *b"key:000000000000";
    key[8..].copy_from_slice(&number.to_be_bytes());
    key
}

trait Disk {
    fn append(&mut self, piece: &[u8]) -> io::Result<()>;

    fn sync(&mut self) -> io::Result<()>;
}

impl Disk for Vec<u8> {
    fn append(&mut self, piece: &[u8]) -> io::Result<()> {
        self.extend_from_slice(piece);
        Ok(())
    }

    fn sync(&mut self) -> io::Result<()> {
        Ok(())
    }
}

impl Disk for File {
    fn append(&mut self, piece: &[u8]) -> io::Result<()> {
        self.write_all(piece)
    }

    fn sync(&mut self) -> io::Result<()> {
        self.sync_data()
    }
}

struct Log<D> {
    tables: Tables,
    disk: D,
    /// Where a record's fragments are put together.
    pieces: Vec<u8>,
    len: u64,
    last: u64,
    batches: u64,
}

impl<D: Disk> Log<D> {
    /// Writes a batch as a record of its own, with the next sequences.
    fn write(&mut self, batch: &mut [u8], sync: bool) -> io::Result<u64> {
        let first = self.last + 1;
        batch[..8].copy_from_slice(&first.to_le_bytes());
        self.pieces.clear();
        let mut start = 0;
        while start < batch.len() {
            start = self.put_fragment(batch, start);
        }
        self.disk.append(&self.pieces)?;
        self.len += self.pieces.len() as u64;
        if sync {
            self.disk.sync()?;
        }
        self.last += u64::from(u32::from_le_bytes([batch[8], batch[9], batch[10], batch[11]]));
        self.batches += 1;
        Ok(first)
    }

    /// Puts the next fragment of a record, and says where the one after it starts.
    fn put_fragment(&mut self, record: &[u8], start: usize) -> usize {
        let mut left = BLOCK_LEN - (self.len as usize + self.pieces.len()) % BLOCK_LEN;
        if left < HEADER_LEN {
            self.pieces.resize(self.pieces.len() + left, 0);
            left = BLOCK_LEN;
        }
        let part = &record[start..record.len().min(start + left - HEADER_LEN)];
        let end = start + part.len();
        let kind = match (start == 0, end == record.len()) {
            (true, true) => 1,
            (true, false) => 2,
            (false, false) => 3,
            (false, true) => 4,
        };
        let crc = self.tables.extend(self.tables.extend(0, &[kind]), part);
        let masked = crc.rotate_right(15).wrapping_add(0xa282_ead8);
        self.pieces.extend_from_slice(&masked.to_le_bytes());
        self.pieces.extend_from_slice(&(part.len() as u16).to_le_bytes());
        self.pieces.push(kind);
        self.pieces.extend_from_slice(part);
        end
    }
}

/// CRC-32C, sixteen bytes a step.
struct Tables([[u32; 256]; 16]);

impl Tables {
    fn new() -> Tables {
        let mut tables = [[0; 256]; 16];
        for byte in 0..256 {
            tables[0][byte] = (0..8).fold(byte as u32, |r, _| (r >> 1) ^ ((r & 1) * 0x82f6_3b78));
        }
        for far in 1..16 {
            for byte in 0..256 {
                let near: u32 = tables[far - 1][byte];
                tables[far][byte] = (near >> 8) ^ tables[0][(near & 0xff) as usize];
            }
        }
        Tables(tables)
    }

    fn extend(&self, crc: u32, bytes: &[u8]) -> u32 {
        let (chunks, rest) = bytes.as_chunks::<16>();
        let mut register = !crc;
        for chunk in chunks {
            let at = |n: usize| u32::from_le_bytes([chunk[n], chunk[n + 1], chunk[n + 2], chunk[n + 3]]);
            let later = self.over(8, at(4)) ^ self.over(4, at(8)) ^ self.over(0, at(12));
            register = later ^ self.over(12, register ^ at(0));
        }
        for byte in rest {
            register = self.0[0][((register ^ u32::from(*byte)) & 0xff) as usize] ^ (register >> 8);
        }
        !register
    }

    /// What four bytes give when `far` bytes come after them.
    fn over(&self, far: usize, word: u32) -> u32 {
        self.0[far + 3][(word & 0xff) as usize]
            ^ self.0[far + 2][(word >> 8 & 0xff) as usize]
            ^ self.0[far + 1][(word >> 16 & 0xff) as usize]
            ^ self.0[far][(word >> 24) as usize]
    }
}
