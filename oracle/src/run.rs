//! Which cases to go through: seed, count and kinds.

pub struct Run {
    pub seed: u64,
    pub count: u64,
    pub kinds: Vec<u64>,
}

impl Run {
    /// Kinds are digits in a row, as 579; none named is all.
    pub fn read(seed: &str, count: &str, kinds: &[&str]) -> Option<Self> {
        let digits = match kinds {
            [] => "123456789",
            [digits] => digits,
            _ => return None,
        };
        let kinds: Option<Vec<u64>> = digits
            .chars()
            .map(|digit| digit.to_digit(10).map(u64::from))
            .collect();
        Some(Self {
            seed: seed.parse().ok()?,
            count: count.parse().ok()?,
            kinds: kinds.filter(|kinds| kinds.iter().all(|kind| (1..=9).contains(kind)))?,
        })
    }
}
