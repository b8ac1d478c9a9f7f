//! What is measured: the proved library, plain Rust and a sorted map behind one trait. SQLite has a module of its own.

use plots::{Record, Refusal, Sizes, Store, Summary};
use std::cmp::Reverse;
use std::collections::BTreeMap;
use std::ops::Bound::{Excluded, Unbounded};

pub const THETA: u32 = 6;
pub const BLOCKS: u32 = 4_096;

/// An index of records in the order of their keys.
pub trait Index {
    /// Forgets every record.
    fn clear(&mut self);
    /// Enters a record with a new key: whether it fits.
    fn enter(&mut self, record: Record) -> bool;
    fn remove(&mut self, key: u32) -> Option<Record>;
    fn find(&mut self, key: u32) -> Option<Record>;
    /// The record with the smallest key above the given one.
    fn next(&mut self, key: u32) -> Option<Record>;
    /// Writes the records of a range to the output, which has room for them; gives their count.
    fn range(&mut self, low: u32, high: u32, out: &mut [u32]) -> usize;
    fn summary(&mut self, low: u32, high: u32, today: u32) -> Summary;
}

/// The proved library.
pub struct Proved(Store<Vec<u32>>, Sizes);

impl Proved {
    pub fn new(capacity: u32) -> Proved {
        let sizes = Sizes { theta: THETA, capacity, nodes: BLOCKS, pages: BLOCKS };
        Proved(Store::new(sizes).expect("sizes inside their limits"), sizes)
    }

    pub fn words(&self) -> &[u32] {
        self.0.words()
    }
}

impl Index for Proved {
    fn clear(&mut self) {
        self.0.set_up(self.1).expect("words of this size");
    }

    fn enter(&mut self, record: Record) -> bool {
        match self.0.enter(record) {
            Ok(_) => true,
            Err(Refusal::NoRoom) => false,
            Err(refusal) => panic!("{refusal}"),
        }
    }

    fn remove(&mut self, key: u32) -> Option<Record> {
        self.0.remove(key).expect("a sound store")
    }

    fn find(&mut self, key: u32) -> Option<Record> {
        self.0.find(key).expect("a sound store")
    }

    fn next(&mut self, key: u32) -> Option<Record> {
        self.0.next(key).expect("a sound store")
    }

    fn range(&mut self, low: u32, high: u32, out: &mut [u32]) -> usize {
        self.0.range_into(low, high, out).expect("a sound store").count
    }

    fn summary(&mut self, low: u32, high: u32, today: u32) -> Summary {
        self.0.summary(low, high, today).expect("a sound store")
    }
}

/// Plain Rust, with the same checks.
pub struct Plain(Vec<u32>, Sizes);

impl Plain {
    pub fn new(capacity: u32) -> Plain {
        let sizes = Sizes { theta: THETA, capacity, nodes: BLOCKS, pages: BLOCKS };
        let mut plain = Plain(vec![0; sizes.words()], sizes);
        plain.clear();
        plain
    }

    fn found(found: plain::Found) -> Option<Record> {
        match found.number {
            0 => Some(found.record.words().into()),
            1 => None,
            number => panic!("refused with {number}"),
        }
    }
}

impl Index for Plain {
    fn clear(&mut self) {
        let Sizes { theta, capacity, nodes, pages } = self.1;
        assert_eq!(plain::set_up(&mut self.0, theta, capacity, nodes, pages).number, 0);
    }

    fn enter(&mut self, record: Record) -> bool {
        match plain::enter(&mut self.0, plain::Record::of(record.into())).number {
            0 => true,
            plain::answer::FULL => false,
            number => panic!("refused with {number}"),
        }
    }

    fn remove(&mut self, key: u32) -> Option<Record> {
        Plain::found(plain::remove(&mut self.0, key))
    }

    fn find(&mut self, key: u32) -> Option<Record> {
        Plain::found(plain::find(&self.0, key))
    }

    fn next(&mut self, key: u32) -> Option<Record> {
        Plain::found(plain::next(&self.0, key))
    }

    fn range(&mut self, low: u32, high: u32, out: &mut [u32]) -> usize {
        let answer = plain::range(&self.0, low, high, out);
        assert_eq!(answer.number, 0);
        answer.count as usize
    }

    fn summary(&mut self, low: u32, high: u32, today: u32) -> Summary {
        let answer = plain::summary(&self.0, low, high, today);
        assert_eq!(answer.number, 0);
        let earliest = (answer.key != 0).then_some(answer.key);
        Summary { count: answer.count, total: answer.total, earliest }
    }
}

/// The standard library's sorted map: no limits, no checks, memory of its own.
#[derive(Default)]
pub struct Map(BTreeMap<u32, Record>);

impl Index for Map {
    fn clear(&mut self) {
        self.0.clear();
    }

    fn enter(&mut self, record: Record) -> bool {
        assert!(self.0.insert(record.key, record).is_none());
        true
    }

    fn remove(&mut self, key: u32) -> Option<Record> {
        self.0.remove(&key)
    }

    fn find(&mut self, key: u32) -> Option<Record> {
        self.0.get(&key).copied()
    }

    fn next(&mut self, key: u32) -> Option<Record> {
        self.0.range((Excluded(key), Unbounded)).next().map(|(_, &record)| record)
    }

    fn range(&mut self, low: u32, high: u32, out: &mut [u32]) -> usize {
        let mut count = 0;
        for ((_, &record), room) in self.0.range(low..=high).zip(out.as_chunks_mut::<4>().0) {
            *room = record.into();
            count += 1;
        }
        count
    }

    fn summary(&mut self, low: u32, high: u32, today: u32) -> Summary {
        let mut sheet = Summary::default();
        let mut earliest = (u32::MAX, Reverse(0));
        for (&key, record) in self.0.range(low..=high) {
            sheet.count += 1;
            if record.lease > 0 {
                let left = (record.last + 1).saturating_sub(today).min(record.lease);
                sheet.total += u64::from(record.price) * u64::from(left) / u64::from(record.lease);
                let ended = (record.last, Reverse(record.price));
                if ended < earliest {
                    (earliest, sheet.earliest) = (ended, Some(key));
                }
            }
        }
        sheet
    }
}
