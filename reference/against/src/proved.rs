//! The proved functions, called with slices. Each takes a slice as a pointer and a length.

mod c {
    extern "C" {
        pub fn pagestore_inspect(
            volume: *const u8,
            volume_len: usize,
            page: u32,
            buffer: *mut u8,
            buffer_len: usize,
        ) -> u32;
        pub fn pagestore_checksum(part: *const u8, part_len: usize) -> u32;
        pub fn pagestore_byte_sum(part: *const u8, part_len: usize) -> u32;
        pub fn pagestore_cycles(
            volume: *mut u8,
            volume_len: usize,
            memory: *mut u8,
            memory_len: usize,
            count: u32,
        ) -> u32;
    }
}

/// Inspection: 0 or the refusal.
#[inline]
pub fn inspect(volume: &[u8], page: u32, buffer: &mut [u8]) -> u32 {
    // SAFETY: both slices are live, apart from each other, and as long as is said.
    unsafe {
        c::pagestore_inspect(volume.as_ptr(), volume.len(), page, buffer.as_mut_ptr(), buffer.len())
    }
}

/// The checksum of bytes.
#[inline]
pub fn checksum(part: &[u8]) -> u32 {
    // SAFETY: the slice is live and as long as is said.
    unsafe { c::pagestore_checksum(part.as_ptr(), part.len()) }
}

/// The byte sum of bytes.
#[inline]
pub fn byte_checksum(part: &[u8]) -> u32 {
    // SAFETY: the slice is live and as long as is said.
    unsafe { c::pagestore_byte_sum(part.as_ptr(), part.len()) }
}

/// Cycles of calls on a made volume; gives the number of refusals.
#[inline]
pub fn cycles(volume: &mut [u8], memory: &mut [u8], count: u32) -> u32 {
    // SAFETY: both slices are live, apart from each other, and as long as is said.
    unsafe {
        c::pagestore_cycles(
            volume.as_mut_ptr(),
            volume.len(),
            memory.as_mut_ptr(),
            memory.len(),
            count,
        )
    }
}
