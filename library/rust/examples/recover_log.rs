//! Recovers a log, and prints what it leaves.
//!
//!     recover_log LOG [NUMBER [point|tail|absolute]]
//!
//! NUMBER is the log's own, or 0 where it has none. Where the mode doesn't accept the end, it prints `damage` with the
//! end, and the status is 8.

use std::num::NonZeroU32;
use std::process::ExitCode;
use wolzenn::{recover, Error, Mode};

fn hex(bytes: &[u8]) -> String {
    if bytes.is_empty() {
        return "-".to_owned();
    }
    bytes.iter().map(|byte| format!("{byte:02x}")).collect()
}

fn main() -> Result<ExitCode, Box<dyn std::error::Error>> {
    let mut words = std::env::args().skip(1);
    let log = std::fs::read(words.next().ok_or("recover_log LOG [NUMBER [MODE]]")?)?;
    let number = words.next().map(|word| word.parse()).transpose()?.and_then(NonZeroU32::new);
    let mode = match words.next().as_deref() {
        Some("absolute") => Mode::Absolute,
        Some("tail") => Mode::Tail,
        _ => Mode::Point,
    };
    let recovery = match recover(&log, number, mode) {
        Err(Error::Damage(end)) => {
            println!("damage {end}");
            return Ok(ExitCode::from(8));
        }
        other => other?,
    };
    println!("groups {}\nstate {} {}", recovery.groups(), recovery.last(), recovery.len());
    for pair in &recovery {
        // The default family isn't named.
        let family = if pair.family == 0 { String::new() } else { format!("{} ", pair.family) };
        println!("{family}{} {}", hex(&pair.key), hex(&pair.value));
    }
    println!("end {}", recovery.end());
    Ok(ExitCode::SUCCESS)
}
