//! What the script `recover` in this folder measures with.
//!
//!     recover make LOG MIB FAMILIES
//!         writes a log of about MIB MiB, whose keys are in this number of column families
//!     recover measure LOG PROGRAM N FAMILIES [NAME PEER]..
//!         times `PROGRAM LOG recover`, a plain pass of CRC-32C over the log, and how each PEER, a program built of
//!         `recover_peer.cc` in this folder, opens a database with as many families with the log, each N times
//!     recover fill LOG KEYS
//!         writes a log that puts KEYS keys
//!     recover resume LOG PROGRAM N
//!         times `PROGRAM LOG recover` and `PROGRAM LOG run --resume` of one small batch, each N times, and tells the
//!         most memory that they had

use std::env;
use std::error::Error;
use std::fs;
use std::io::Write;
use std::path::Path;
use std::process::{Command, Stdio};
use std::time::Duration;

const BLOCK_LEN: usize = 32_768;
const HEADER_LEN: usize = 7;

/// The kinds of fragments.
const FULL: u8 = 1;
const FIRST: u8 = 2;
const MIDDLE: u8 = 3;
const LAST: u8 = 4;

/// The tag of a value and that of a deletion, and those in a family.
const VALUE: u8 = 1;
const DELETION: u8 = 0;
const VALUE_IN: u8 = 5;
const DELETION_IN: u8 = 4;

/// How many keys the log has.
const KEYS: u64 = 50_000;

type Failure = Box<dyn Error>;

fn main() -> Result<(), Failure> {
    let words: Vec<String> = env::args().skip(1).collect();
    let words: Vec<&str> = words.iter().map(String::as_str).collect();
    match words[..] {
        ["make", log, mib, families] => make(Path::new(log), mib.parse::<usize>()? << 20, families.parse()?),
        ["measure", log, program, rounds, families, ref peers @ ..] => {
            measure(log, program, rounds.parse()?, families, peers)
        }
        ["fill", log, keys] => fill(Path::new(log), keys.parse()?),
        ["resume", log, program, rounds] => resume(log, program, rounds.parse()?),
        _ => Err("usage: recover make LOG MIB FAMILIES | recover measure LOG PROGRAM N FAMILIES [NAME PEER].. \
            | recover fill LOG KEYS | recover resume LOG PROGRAM N"
            .into()),
    }
}

/// CRC-32C, one byte a step, by a table of 256 entries.
struct Checksum {
    table: [u32; 256],
}

impl Checksum {
    fn new() -> Checksum {
        let mut table = [0; 256];
        for (byte, entry) in table.iter_mut().enumerate() {
            *entry = (0..8).fold(byte as u32, |crc, _| {
                if crc & 1 == 1 { (crc >> 1) ^ 0x82f6_3b78 } else { crc >> 1 }
            });
        }
        Checksum { table }
    }

    fn of(&self, bytes: &[u8]) -> u32 {
        !bytes.iter().fold(!0, |crc: u32, byte| {
            (crc >> 8) ^ self.table[usize::from(crc as u8 ^ byte)]
        })
    }

    fn masked(&self, bytes: &[u8]) -> u32 {
        self.of(bytes).rotate_right(15).wrapping_add(0xa282_ead8)
    }
}

/// A linear congruential generator.
struct Random {
    state: u64,
}

impl Random {
    fn below(&mut self, limit: u64) -> u64 {
        self.state = self
            .state
            .wrapping_mul(6_364_136_223_846_793_005)
            .wrapping_add(1_442_695_040_888_963_407);
        (self.state >> 33) % limit
    }
}

/// Writes batches with rising sequences until the log has `len` bytes or more.
fn make(path: &Path, len: usize, families: u64) -> Result<(), Failure> {
    let checksum = Checksum::new();
    let mut random = Random { state: 1 };
    let mut log = Vec::with_capacity(len + (1 << 20));
    let mut sequence = 1;
    while log.len() < len {
        let batch = batch(&mut random, &mut sequence, families.clamp(1, 128));
        put_record(&checksum, &mut log, &batch);
    }
    fs::write(path, &log)?;
    Ok(())
}

/// A batch of 1 to 20 records, of which about one in ten deletes its key. Most values have 16 to 400 bytes, and one in
/// a thousand has 100,000, so that its record lies in several blocks. A key is in one of at most 128 families.
fn batch(random: &mut Random, sequence: &mut u64, families: u64) -> Vec<u8> {
    let count = 1 + random.below(20);
    let mut bytes = Vec::new();
    bytes.extend_from_slice(&sequence.to_le_bytes());
    bytes.extend_from_slice(&(count as u32).to_le_bytes());
    for _ in 0..count {
        let number = random.below(KEYS);
        let (key, family) = (format!("key:{number:08}"), (number % families) as u8);
        if random.below(10) == 0 {
            put_tag(&mut bytes, [DELETION, DELETION_IN], family);
            put_string(&mut bytes, key.as_bytes());
        } else {
            let len = match random.below(1000) {
                0 => 100_000,
                _ => 16 + random.below(385) as usize,
            };
            let value: Vec<u8> = (0..len).map(|_| random.below(256) as u8).collect();
            put_tag(&mut bytes, [VALUE, VALUE_IN], family);
            put_string(&mut bytes, key.as_bytes());
            put_string(&mut bytes, &value);
        }
    }
    *sequence += count;
    bytes
}

/// How many keys a batch of a filled log has.
const BATCH_KEYS: u64 = 10;

/// The factor for the number of a key, so that keys come in another order. It is a prime.
const STEP: u64 = 611_953;

/// Writes batches that put `keys` keys, each once, with values of 100 bytes.
fn fill(path: &Path, keys: u64) -> Result<(), Failure> {
    let checksum = Checksum::new();
    let (mut random, mut log) = (Random { state: 1 }, Vec::new());
    for first in (1..=keys).step_by(BATCH_KEYS as usize) {
        let end = keys.min(first + BATCH_KEYS - 1);
        let mut bytes = first.to_le_bytes().to_vec();
        bytes.extend_from_slice(&((end + 1 - first) as u32).to_le_bytes());
        for number in first..=end {
            bytes.push(VALUE);
            put_string(&mut bytes, format!("key:{:08}", number * STEP % keys).as_bytes());
            let value: Vec<u8> = (0..100).map(|_| b'a' + random.below(26) as u8).collect();
            put_string(&mut bytes, &value);
        }
        put_record(&checksum, &mut log, &bytes);
    }
    fs::write(path, &log)?;
    Ok(())
}

/// The first of these tags for the default family, and the second one for another, with the family's number.
fn put_tag(bytes: &mut Vec<u8>, tags: [u8; 2], family: u8) {
    match family {
        0 => bytes.push(tags[0]),
        _ => bytes.extend_from_slice(&[tags[1], family]),
    }
}

/// A string after its length, a varint.
fn put_string(bytes: &mut Vec<u8>, string: &[u8]) {
    let mut len = string.len();
    while len >= 0x80 {
        bytes.push(len as u8 | 0x80);
        len >>= 7;
    }
    bytes.push(len as u8);
    bytes.extend_from_slice(string);
}

/// Adds a record at the end of the log, in fragments none of which crosses the end of a block.
fn put_record(checksum: &Checksum, log: &mut Vec<u8>, record: &[u8]) {
    let (mut rest, mut is_first) = (record, true);
    loop {
        let left = BLOCK_LEN - log.len() % BLOCK_LEN;
        if left < HEADER_LEN {
            log.resize(log.len() + left, 0);
            continue;
        }
        let (part, behind) = rest.split_at(rest.len().min(left - HEADER_LEN));
        let kind = match (is_first, behind.is_empty()) {
            (true, true) => FULL,
            (true, false) => FIRST,
            (false, false) => MIDDLE,
            (false, true) => LAST,
        };
        put_fragment(checksum, log, kind, part);
        if behind.is_empty() {
            return;
        }
        (rest, is_first) = (behind, false);
    }
}

fn put_fragment(checksum: &Checksum, log: &mut Vec<u8>, kind: u8, part: &[u8]) {
    let mut checked = vec![kind];
    checked.extend_from_slice(part);
    log.extend_from_slice(&checksum.masked(&checked).to_le_bytes());
    log.extend_from_slice(&(part.len() as u16).to_le_bytes());
    log.extend_from_slice(&checked);
}

/// Times all of them, and prints the best times, as rates too, and how many times the time of `recover` each of the
/// others takes.
fn measure(log: &str, program: &str, rounds: usize, families: &str, peers: &[&str]) -> Result<(), Failure> {
    let bytes = fs::read(log)?;
    let keys = recovered_keys(log, program, bytes.len())?;
    let mut peers = peers
        .chunks_exact(2)
        .flat_map(|pair| Peer::of(pair[0], pair[1]))
        .collect::<Vec<Peer>>();
    let checksum = Checksum::new();
    let (mut recovery, mut plain) = (Duration::MAX, Duration::MAX);
    let mut sum = 0;
    for _ in 0..rounds {
        let start = spent(CHILDREN)?;
        let ended = Command::new(program)
            .args([log, "recover"])
            .stdout(Stdio::null())
            .status()?;
        recovery = recovery.min(spent(CHILDREN)? - start);
        if !ended.success() {
            return Err(format!("recover ended with {ended}").into());
        }
        let start = spent(OWN)?;
        sum = checksum.of(std::hint::black_box(&bytes));
        plain = plain.min(spent(OWN)? - start);
        for peer in &mut peers {
            peer.open(log, families, keys)?;
        }
    }
    println!("log                      {} bytes, {keys} keys, CRC-32C {sum:08x}", bytes.len());
    let show = |name: &str, time: Duration| {
        let (seconds, ratio) = (time.as_secs_f64(), time.as_secs_f64() / recovery.as_secs_f64());
        println!("{name:<24} {seconds:6.3} s {:8.1} MB/s {ratio:8.2}", bytes.len() as f64 / 1e6 / seconds);
    };
    show("recover", recovery);
    show("CRC-32C, a byte a step", plain);
    for peer in &peers {
        show(&format!("{}, to {}", peer.name, peer.to), peer.best);
    }
    Ok(())
}

/// A program that opens a database with the log.
struct Peer {
    name: String,
    program: String,
    /// Where what it recovers is kept.
    to: &'static str,
    best: Duration,
}

impl Peer {
    /// The same program in both ways of opening.
    fn of(name: &str, program: &str) -> [Peer; 2] {
        ["tables", "memory"].map(|to| Peer {
            name: name.to_string(),
            program: program.to_string(),
            to,
            best: Duration::MAX,
        })
    }

    /// Opens a new database once, which must then have `keys` keys.
    fn open(&mut self, log: &str, families: &str, keys: u64) -> Result<(), Failure> {
        let folder = format!("{log}.database");
        let output = Command::new(&self.program).args([&folder, log, self.to, families]).output()?;
        fs::remove_dir_all(&folder)?;
        let text = String::from_utf8(output.stdout)?;
        let mut words = text.split_whitespace().map(str::parse::<u64>);
        let (Some(micros), Some(found)) = (words.next(), words.next()) else {
            return Err(format!("{}: {}", self.name, String::from_utf8_lossy(&output.stderr)).into());
        };
        if found? != keys {
            return Err(format!("{} has not {keys} keys", self.name).into());
        }
        self.best = self.best.min(Duration::from_micros(micros?));
        Ok(())
    }
}

/// Whose processor time `spent` tells: that of this program, or of those which it started and which have ended.
const OWN: i32 = 0;
const CHILDREN: i32 = -1;

/// A `struct rusage` of Linux on x86-64: the time in the program and that in the system for it, each in seconds and
/// microseconds; then the most KiB of memory, and fields that aren't used.
#[repr(C)]
#[derive(Default)]
struct Usage {
    times: [i64; 4],
    others: [i64; 14],
}

impl Usage {
    /// Both times together.
    fn time(&self) -> Result<Duration, Failure> {
        let [seconds, microseconds, system_seconds, system_microseconds] = self.times;
        let whole = u64::try_from(seconds + system_seconds)?;
        Ok(Duration::from_secs(whole)
            + Duration::from_micros(u64::try_from(microseconds + system_microseconds)?))
    }
}

unsafe extern "C" {
    fn getrusage(who: i32, usage: *mut Usage) -> i32;
    fn wait4(child: i32, status: *mut i32, options: i32, usage: *mut Usage) -> i32;
}

/// The processor time so far.
fn spent(who: i32) -> Result<Duration, Failure> {
    let mut usage = Usage::default();
    // SAFETY: the system writes one `struct rusage`, which is as large as `Usage`.
    if unsafe { getrusage(who, &mut usage) } != 0 {
        return Err("the system tells no processor time".into());
    }
    usage.time()
}

/// How many keys `recover` finds in the log, which it must read to the end.
fn recovered_keys(log: &str, program: &str, len: usize) -> Result<u64, Failure> {
    let output = Command::new(program).args([log, "recover"]).output()?;
    let text = String::from_utf8(output.stdout)?;
    let last = text.lines().last().unwrap_or_default();
    if last != format!("end {len} clean") {
        return Err(format!("recover ended with `{last}`").into());
    }
    let state = text.lines().find(|line| line.starts_with("state ")).ok_or("recover printed no map")?;
    Ok(state.split(' ').next_back().unwrap_or_default().parse()?)
}

/// A script of one small batch.
const SCRIPT: &[u8] = b"client 1\nget key:00000000\nput new 1\ncommit\n";

/// Times the recovery of a log, and runs that resume it, and prints the best times and the most memory of each.
fn resume(log: &str, program: &str, rounds: usize) -> Result<(), Failure> {
    let len = fs::metadata(log)?.len();
    println!("log                      {len} bytes");
    let shards = ["run", "--resume", "--table", "shards"];
    for words in [&["recover"][..], &shards[..2], &shards[..]] {
        let (mut best, mut most) = (Duration::MAX, 0);
        for _ in 0..rounds {
            let copy = format!("{log}.copy");
            fs::copy(log, &copy)?;
            let (time, memory) = called(program, &copy, words)?;
            (best, most) = (best.min(time), most.max(memory));
        }
        println!("{:<28} {:6.3} s {:6} MiB", words.join(" "), best.as_secs_f64(), most >> 10);
    }
    Ok(())
}

/// The processor time of a call that reads the script, and the most KiB of memory that it had.
fn called(program: &str, log: &str, words: &[&str]) -> Result<(Duration, i64), Failure> {
    let mut child = Command::new(program)
        .arg(log)
        .args(words)
        .stdin(Stdio::piped())
        .stdout(Stdio::null())
        .spawn()?;
    child.stdin.take().ok_or("no input")?.write_all(SCRIPT)?;
    let (mut status, mut usage) = (0, Usage::default());
    // SAFETY: the system writes one number and one `struct rusage`, which is as large as `Usage`. Nobody else waits
    // for this child.
    let ended = unsafe { wait4(child.id() as i32, &mut status, 0, &mut usage) };
    if ended < 0 || status != 0 {
        return Err(format!("{} ended with {status}", words.join(" ")).into());
    }
    Ok((usage.time()?, usage.others[0]))
}
