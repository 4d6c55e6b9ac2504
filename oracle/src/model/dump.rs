//! The words of a chip's bytes: which byte of a word is which, by the fifth slip of document 02.

/// Which byte of a word comes first in a dump, where words have two.
#[derive(Debug, Clone, Copy, PartialEq, Eq)]
pub enum Order {
    LowFirst,
    HighFirst,
}

/// The word of this number. An odd last byte is in none.
pub fn word(bytes: &[u8], number: u64, word_bytes: usize, order: Order) -> u32 {
    let first = number as usize * word_bytes;
    let byte = |place: usize| u32::from(bytes[place]);
    match order {
        _ if word_bytes == 1 => byte(first),
        Order::LowFirst => byte(first) + 256 * byte(first + 1),
        Order::HighFirst => 256 * byte(first) + byte(first + 1),
    }
}

/// Puts a word behind those that a dump has.
pub fn put(dump: &mut Vec<u8>, word: u64, word_bytes: usize, order: Order) {
    let (low, high) = ((word % 256) as u8, (word / 256) as u8);
    match order {
        _ if word_bytes == 1 => dump.push(low),
        Order::LowFirst => dump.extend([low, high]),
        Order::HighFirst => dump.extend([high, low]),
    }
}

#[cfg(test)]
mod tests {
    use super::Order::{HighFirst, LowFirst};
    use super::{put, word};

    const DUMP: [u8; 5] = [0x12, 0x34, 0x56, 0x78, 0x9A];

    #[test]
    fn words_of_two_bytes() {
        for (order, words) in [(LowFirst, [0x3412, 0x7856]), (HighFirst, [0x1234, 0x5678])] {
            let mut dump = Vec::new();
            for (number, wanted) in (0..).zip(words) {
                assert_eq!(word(&DUMP, number, 2, order), wanted);
                put(&mut dump, wanted.into(), 2, order);
            }
            assert_eq!(dump, DUMP[..4]);
        }
    }

    #[test]
    fn words_of_one_byte_have_no_order() {
        for order in [LowFirst, HighFirst] {
            let mut dump = Vec::new();
            for number in 0..5 {
                let told = word(&DUMP, number, 1, order);
                put(&mut dump, told.into(), 1, order);
            }
            assert_eq!(dump, DUMP);
        }
    }
}
