//! The key by which the library's table finds an identity, so that lists can be made against it.
//! Whoever changes the key there changes this function too; nothing else here knows it.

/// How many keys there are.
pub const KEYS: usize = 512;

/// The key of a SID, below [`KEYS`]: its words in pairs, the last two among them, xored and mixed.
pub fn key(sid: &[u8]) -> usize {
    let mut x = u64_at(sid, sid.len() - 8);
    let mut at = 8;
    while at + 8 < sid.len() {
        x ^= u64_at(sid, at);
        at += 8;
    }
    let (low, high) = (x & 0xFFFF_FFFF, x >> 32);
    let mixed = low.wrapping_mul(1_640_531_527).wrapping_add(high.wrapping_mul(1_013_904_223));
    (mixed >> 23) as usize & (KEYS - 1)
}

fn u64_at(bytes: &[u8], at: usize) -> u64 {
    let mut eight = [0; 8];
    eight.copy_from_slice(&bytes[at..at + 8]);
    u64::from_le_bytes(eight)
}
