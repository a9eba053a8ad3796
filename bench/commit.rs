//! What `commit_program` in this folder does, in plain Rust: the same bytes by the same steps, and nothing is proved.
//!
//! The arguments and the output are those of `commit_program`.

use std::env;
use std::error::Error;
use std::fs::File;
use std::io;
use std::os::unix::fs::FileExt;
use std::slice;
use std::time::Instant;

const BLOCK_LEN: usize = 32768;

/// The bytes of a fragment's header.
const HEADER_LEN: usize = 7;

/// The bytes of a batch's header.
const BATCH_HEADER_LEN: usize = 12;

fn main() -> Result<(), Box<dyn Error>> {
    let words: Vec<String> = env::args().skip(1).collect();
    let [commits, len, path @ ..] = words.as_slice() else {
        return Err("how many commits, and how many bytes a value has".into());
    };
    let (commits, len) = (commits.parse::<u64>()?, len.parse::<usize>()?);
    let batch = batch_of(b"sixteen bytes of", &vec![7; len]);
    match path {
        [path, ..] => time(FileDisk { file: File::create_new(path)?, len: 0 }, batch, commits),
        [] => {
            let room = commits as usize * (batch.len() + batch.len() / 1024 + 64);
            time(Vec::<u8>::with_capacity(room), batch, commits)
        }
    }
}

fn time<D: Disk>(disk: D, mut batch: Vec<u8>, commits: u64) -> Result<(), Box<dyn Error>> {
    let mut log = Log { tables: Tables::new(), disk, block: vec![0; BLOCK_LEN], len: 0 };
    let start = Instant::now();
    for first in 1..=commits {
        batch[..8].copy_from_slice(&first.to_le_bytes());
        log.add_group(first, slice::from_ref(&batch))?;
    }
    println!("{} {}", start.elapsed().as_micros(), log.len);
    Ok(())
}

/// A batch of one addition.
fn batch_of(key: &[u8], value: &[u8]) -> Vec<u8> {
    let mut bytes = vec![0; BATCH_HEADER_LEN];
    bytes[8] = 1;
    bytes.push(1);
    for string in [key, value] {
        let mut len = string.len();
        while len >= 128 {
            bytes.push((len % 128 + 128) as u8);
            len /= 128;
        }
        bytes.push(len as u8);
        bytes.extend_from_slice(string);
    }
    bytes
}

trait Disk {
    fn append(&mut self, piece: &[u8]) -> io::Result<()>;
}

impl Disk for Vec<u8> {
    fn append(&mut self, piece: &[u8]) -> io::Result<()> {
        self.extend_from_slice(piece);
        Ok(())
    }
}

struct FileDisk {
    file: File,
    len: u64,
}

impl Disk for FileDisk {
    fn append(&mut self, piece: &[u8]) -> io::Result<()> {
        self.file.write_all_at(piece, self.len)?;
        self.len += piece.len() as u64;
        Ok(())
    }
}

struct Log<D> {
    tables: Tables,
    disk: D,
    /// Where a fragment is put together.
    block: Vec<u8>,
    len: u64,
}

impl<D: Disk> Log<D> {
    /// Writes a group of batches as one record: a header, and the batches' bytes after their own headers.
    fn add_group(&mut self, first: u64, members: &[Vec<u8>]) -> io::Result<()> {
        match members {
            [only] if only[..8] == first.to_le_bytes() => self.add_record(only, &[]),
            _ => {
                let count: u32 = members.iter().map(|m| u32::from_le_bytes([m[8], m[9], m[10], m[11]])).sum();
                let mut header = [0; BATCH_HEADER_LEN];
                header[..8].copy_from_slice(&first.to_le_bytes());
                header[8..].copy_from_slice(&count.to_le_bytes());
                self.add_record(&header, members)
            }
        }
    }

    fn add_record<'a>(&mut self, mut front: &'a [u8], mut behind: &'a [Vec<u8>]) -> io::Result<()> {
        let bodies: usize = behind.iter().map(|member| member.len() - BATCH_HEADER_LEN).sum();
        let len = front.len() + bodies;
        let mut start = 0;
        loop {
            let mut left = BLOCK_LEN - self.len as usize % BLOCK_LEN;
            if left < HEADER_LEN {
                self.disk.append(&[0; HEADER_LEN][..left])?;
                self.len += left as u64;
                left = BLOCK_LEN;
            }
            let part = (len - start).min(left - HEADER_LEN);
            let end = HEADER_LEN + part;
            let mut at = HEADER_LEN;
            while end - at > front.len() {
                self.block[at..at + front.len()].copy_from_slice(front);
                at += front.len();
                front = &behind[0][BATCH_HEADER_LEN..];
                behind = &behind[1..];
            }
            let (now, later) = front.split_at(end - at);
            self.block[at..end].copy_from_slice(now);
            front = later;
            let kind = match (start == 0, start + part == len) {
                (true, true) => 1,
                (true, false) => 2,
                (false, false) => 3,
                (false, true) => 4,
            };
            let crc = self.tables.extend(self.tables.extend(0, &[kind]), &self.block[HEADER_LEN..end]);
            let masked = crc.rotate_right(15).wrapping_add(0xa282_ead8);
            self.block[..4].copy_from_slice(&masked.to_le_bytes());
            self.block[4..6].copy_from_slice(&(part as u16).to_le_bytes());
            self.block[6] = kind;
            self.disk.append(&self.block[..end])?;
            self.len += end as u64;
            start += part;
            if start == len {
                return Ok(());
            }
        }
    }
}

/// CRC-32C, sixteen bytes a step.
struct Tables([[u32; 256]; 16]);

impl Tables {
    fn new() -> Tables {
        let mut tables = [[0; 256]; 16];
        for byte in 0..256 {
            tables[0][byte] = (0..8).fold(byte as u32, |r, _| (r >> 1) ^ ((r & 1) * 0x82f6_3b78));
        }
        for far in 1..16 {
            for byte in 0..256 {
                let near: u32 = tables[far - 1][byte];
                tables[far][byte] = (near >> 8) ^ tables[0][(near & 0xff) as usize];
            }
        }
        Tables(tables)
    }

    fn extend(&self, crc: u32, bytes: &[u8]) -> u32 {
        let (chunks, rest) = bytes.as_chunks::<16>();
        let mut register = !crc;
        for chunk in chunks {
            let at = |n: usize| u32::from_le_bytes([chunk[n], chunk[n + 1], chunk[n + 2], chunk[n + 3]]);
            let later = self.over(8, at(4)) ^ self.over(4, at(8)) ^ self.over(0, at(12));
            register = later ^ self.over(12, register ^ at(0));
        }
        for byte in rest {
            register = self.0[0][((register ^ u32::from(*byte)) & 0xff) as usize] ^ (register >> 8);
        }
        !register
    }

    /// What four bytes give when `far` bytes come after them.
    fn over(&self, far: usize, word: u32) -> u32 {
        self.0[far + 3][(word & 0xff) as usize]
            ^ self.0[far + 2][(word >> 8 & 0xff) as usize]
            ^ self.0[far + 1][(word >> 16 & 0xff) as usize]
            ^ self.0[far][(word >> 24) as usize]
    }
}
