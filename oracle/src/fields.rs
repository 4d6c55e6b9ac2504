//! The numbers of one line, taken in order.

pub struct Fields {
    numbers: std::vec::IntoIter<u64>,
}

impl Fields {
    /// The numbers of a line; none where something else stands in it.
    pub fn of(line: &str) -> Option<Self> {
        let numbers: Option<Vec<u64>> = line
            .split_ascii_whitespace()
            .map(|word| word.parse().ok())
            .collect();
        Some(Self {
            numbers: numbers?.into_iter(),
        })
    }

    pub fn number(&mut self) -> Option<u64> {
        self.numbers.next()
    }

    pub fn byte(&mut self) -> Option<u8> {
        u8::try_from(self.number()?).ok()
    }

    pub fn word(&mut self) -> Option<u32> {
        u32::try_from(self.number()?).ok()
    }

    pub fn flag(&mut self) -> Option<bool> {
        match self.number()? {
            0 => Some(false),
            1 => Some(true),
            _ => None,
        }
    }

    pub fn bytes(&mut self, count: usize) -> Option<Vec<u8>> {
        (0..count).map(|_| self.byte()).collect()
    }

    pub fn array<const N: usize>(&mut self) -> Option<[u8; N]> {
        self.bytes(N)?.try_into().ok()
    }

    pub fn is_empty(&self) -> bool {
        self.numbers.len() == 0
    }
}
