//! Dumps with the two bytes of each word swapped, to hold one byte order against the other.

/// Swaps the bytes of each pair; an odd last byte stays.
pub fn swap_pairs(bytes: &mut [u8]) {
    for pair in bytes.chunks_exact_mut(2) {
        pair.swap(0, 1);
    }
}

/// The same of a dump's copy.
pub fn swapped(mut dump: Vec<u8>) -> Vec<u8> {
    swap_pairs(&mut dump);
    dump
}
