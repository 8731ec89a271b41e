//! What reading the same bytes takes at least.

const FREE_FILL: [u8; 4] = [0xde, 0xad, 0xbe, 0xef];

/// Whether two runs are equal. The compiler makes this a call of the system's memcmp.
#[inline(never)]
pub fn compare(bytes: &[u8], copy: &[u8]) -> bool {
    bytes == copy
}

/// Sets all bytes to 0. The compiler makes this a call of the system's memset.
#[inline(never)]
pub fn clear(bytes: &mut [u8]) {
    bytes.fill(0);
}

/// The sum of all words of eight bytes.
#[inline(never)]
pub fn read(bytes: &[u8]) -> u64 {
    let mut sum = 0u64;
    for word in bytes.chunks_exact(8) {
        let word = word.try_into().expect("eight bytes");
        sum = sum.wrapping_add(u64::from_ne_bytes(word));
    }
    sum
}

/// Where a run first differs from the free fill, one byte after the other.
#[inline(never)]
pub fn scan(bytes: &[u8]) -> Option<usize> {
    for (i, &byte) in bytes.iter().enumerate() {
        if byte != FREE_FILL[i % 4] {
            return Some(i);
        }
    }
    None
}

/// A run of the free fill.
pub fn filled(length: usize) -> Vec<u8> {
    FREE_FILL.into_iter().cycle().take(length).collect()
}
