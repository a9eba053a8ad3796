//! Times Rust's BTreeMap as `tree_program` in this folder times the memtable's tree: the same versions in the same
//! order, and the same lookups.
//!
//! The arguments are those of `tree_program`, and so is the output. Where there are several families, a key begins with
//! its family's number.

use std::cmp::Reverse;
use std::collections::BTreeMap;
use std::env;
use std::error::Error;
use std::hint::black_box;
use std::time::{Duration, Instant};

/// How many versions a batch makes.
const BATCH: u64 = 1000;

/// Versions are in the order of their keys, and those of one key with the newer first.
type Version = (Vec<u8>, Reverse<u64>);

type Versions = BTreeMap<Version, Option<Vec<u8>>>;

fn main() -> Result<(), Box<dyn Error>> {
    let mut words = env::args().skip(1);
    let batches = words.next().ok_or("how many thousand?")?.parse::<u64>()?;
    let versions = batches * BATCH;
    let keys = match words.next() {
        Some(word) => word.parse::<u64>()?.max(1),
        None => versions / 4 + 1,
    };
    let newest = words.next().is_some_and(|word| word == "newest");
    let families = match words.next() {
        Some(word) => word.parse::<u64>()?.max(1),
        None => 1,
    };
    let mut random = Random { state: 1 };
    let mut tree = Versions::new();
    let mut inserting = Duration::ZERO;
    for at in 0..batches {
        let batch = batch(&mut random, keys, families, at * BATCH);
        let start = Instant::now();
        for (version, value) in batch {
            tree.insert(version, value);
        }
        inserting += start.elapsed();
    }
    let start = Instant::now();
    let found = look_up_all(&tree, &mut random, keys, families, versions, newest);
    let looking = start.elapsed();
    println!("{} {} {found}", inserting.as_micros(), looking.as_micros());
    Ok(())
}

/// A linear congruential generator.
struct Random {
    state: u64,
}

impl Random {
    fn below(&mut self, limit: u64) -> u64 {
        self.state = self
            .state
            .wrapping_mul(6_364_136_223_846_793_005)
            .wrapping_add(1_442_695_040_888_963_407);
        (self.state >> 33) % limit
    }
}

/// Puts the bytes of a key in place of others: after its family's number, where there are several.
fn put_key(bytes: &mut Vec<u8>, key: u64, families: u64) {
    bytes.clear();
    if families > 1 {
        bytes.extend_from_slice(&((key % families) as u32).to_be_bytes());
    }
    bytes.extend_from_slice(&key.to_be_bytes());
}

/// Values for random keys, with the sequences from one on.
fn batch(random: &mut Random, keys: u64, families: u64, first: u64) -> Vec<(Version, Option<Vec<u8>>)> {
    (0..BATCH)
        .map(|at| {
            let mut key = Vec::with_capacity(12);
            put_key(&mut key, random.below(keys), families);
            ((key, Reverse(first + at)), Some(at.to_be_bytes().to_vec()))
        })
        .collect()
}

/// Looks up random keys, at random sequences or all at the last one, and says how many have a value there.
fn look_up_all(
    tree: &Versions,
    random: &mut Random,
    keys: u64,
    families: u64,
    versions: u64,
    newest: bool,
) -> u64 {
    let mut found = 0;
    let mut wanted = (Vec::with_capacity(12), Reverse(0));
    for _ in 0..versions {
        let key = random.below(keys);
        let drawn = random.below(versions);
        let at = if newest { versions } else { drawn };
        put_key(&mut wanted.0, key, families);
        wanted.1 = Reverse(at);
        if black_box(look_up(tree, &wanted)).is_some() {
            found += 1;
        }
    }
    found
}

/// The value of a key at a sequence: what its newest version up to the sequence says.
fn look_up<'a>(tree: &'a Versions, wanted: &Version) -> Option<&'a [u8]> {
    let ((key, _), value) = tree.range(wanted..).next()?;
    if *key == wanted.0 { value.as_deref() } else { None }
}
