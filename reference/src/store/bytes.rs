//! Little-endian number fields and the checksums that seal items on disk.

/// The 16-bit number at `at`.
pub fn u16_at(bytes: &[u8], at: usize) -> u16 {
    u16::from_le_bytes([bytes[at], bytes[at + 1]])
}

/// The 32-bit number at `at`.
pub fn u32_at(bytes: &[u8], at: usize) -> u32 {
    u32::from_le_bytes([bytes[at], bytes[at + 1], bytes[at + 2], bytes[at + 3]])
}

pub fn put_u16(bytes: &mut [u8], at: usize, value: u16) {
    bytes[at..at + 2].copy_from_slice(&value.to_le_bytes());
}

pub fn put_u32(bytes: &mut [u8], at: usize, value: u32) {
    bytes[at..at + 4].copy_from_slice(&value.to_le_bytes());
}

pub fn all_zero(bytes: &[u8]) -> bool {
    bytes.iter().all(|&byte| byte == 0)
}

/// Document 01's check, over 16-bit words.
pub fn checksum(bytes: &[u8]) -> u32 {
    let (mut a, mut b) = (1u32, 0u32);
    for word in bytes.chunks_exact(2) {
        a = (a + u32::from(u16_at(word, 0))) % 65_535;
        b = (b + a) % 65_535;
    }
    b * 65_536 + a
}

/// The same over single bytes: the check of images under the second heading.
pub fn byte_checksum(bytes: &[u8]) -> u32 {
    let (mut a, mut b) = (1u32, 0u32);
    for &byte in bytes {
        a = (a + u32::from(byte)) % 65_535;
        b = (b + a) % 65_535;
    }
    b * 65_536 + a
}

/// Whether a record's or note's last four bytes hold the checksum of those before.
pub fn is_sealed(item: &[u8]) -> bool {
    let at = item.len() - 4;
    checksum(&item[..at]) == u32_at(item, at)
}

/// Sets a record's or note's last four bytes to the checksum of those before.
pub fn seal(item: &mut [u8]) {
    let at = item.len() - 4;
    let sum = checksum(&item[..at]);
    put_u32(item, at, sum);
}
