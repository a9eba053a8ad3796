//! Checksums.

use crate::raw;

/// The CRC-32C of the bytes.
pub fn crc32c(bytes: &[u8]) -> u32 {
    raw::crc32c(bytes)
}

/// The CRC-32C of some bytes followed by these, from the CRC-32C of the former.
pub fn crc32c_extend(crc: u32, bytes: &[u8]) -> u32 {
    raw::crc32c_extend(crc, bytes)
}

/// The form that a checksum has in a log.
pub fn crc32c_mask(crc: u32) -> u32 {
    raw::crc32c_mask(crc)
}
