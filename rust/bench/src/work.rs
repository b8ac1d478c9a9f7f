//! What is entered and sought.

use plots::Record;
use std::collections::HashSet;

/// How keys are spread.
#[derive(Clone, Copy, PartialEq, Eq)]
pub enum Pattern {
    /// Anywhere.
    Random,
    /// Rows of 32 neighbouring keys at random places.
    Bursts,
}

impl Pattern {
    pub fn title(self) -> &'static str {
        match self {
            Pattern::Random => "Random keys",
            Pattern::Bursts => "Rows of 32 neighbouring keys",
        }
    }

    /// In the file.
    pub fn name(self) -> &'static str {
        match self {
            Pattern::Random => "random",
            Pattern::Bursts => "bursts",
        }
    }
}

/// The keys of a row.
const BURST: u32 = 32;

pub struct Work {
    /// In the order of their entry: bursts row by row.
    pub records: Vec<Record>,
    /// Their keys in another order.
    pub held: Vec<u32>,
    /// As many keys of the same pattern that are not held.
    pub absent: Vec<u32>,
    pub today: u32,
}

impl Work {
    pub fn new(pattern: Pattern, count: usize) -> Work {
        let mut random = Random(count as u64);
        let mut drawn = HashSet::new();
        let mut keys = Vec::new();
        while keys.len() < 2 * count {
            let key = random.word();
            let row = if pattern == Pattern::Bursts { BURST } else { 1 };
            for key in key..=key.saturating_add(row - 1) {
                if key != 0 && drawn.insert(key) {
                    keys.push(key);
                }
            }
        }
        keys.truncate(2 * count);
        let mut absent = keys.split_off(count);
        let records = keys.iter().map(|&key| record(key, &mut random)).collect();
        random.shuffle(&mut keys);
        random.shuffle(&mut absent);
        Work { records, held: keys, absent, today: 46_000 }
    }
}

/// A lawful record, perpetual one time in four.
fn record(key: u32, random: &mut Random) -> Record {
    let price = random.word();
    match random.below(4) {
        0 => Record { key, price, lease: 0, last: 0 },
        _ => Record { key, price, lease: 1 + random.below(36_525), last: random.below(100_000) },
    }
}

/// splitmix64.
struct Random(u64);

impl Random {
    fn word(&mut self) -> u32 {
        self.0 = self.0.wrapping_add(0x9e37_79b9_7f4a_7c15);
        let mut z = self.0;
        z = (z ^ z >> 30).wrapping_mul(0xbf58_476d_1ce4_e5b9);
        z = (z ^ z >> 27).wrapping_mul(0x94d0_49bb_1331_11eb);
        ((z ^ z >> 31) >> 32) as u32
    }

    fn below(&mut self, bound: u32) -> u32 {
        ((u64::from(self.word()) * u64::from(bound)) >> 32) as u32
    }

    fn shuffle(&mut self, list: &mut [u32]) {
        for i in (1..list.len()).rev() {
            list.swap(i, self.below(i as u32 + 1) as usize);
        }
    }
}
