//! A store and its operations.

use crate::{ffi, Entered, Part, Record, Refusal, Sizes, Summary};
use std::iter::FusedIterator;

/// A store over words: a `Vec<u32>`, a `&mut [u32]`, an array, or for readings a `&[u32]`.
///
/// [`new`](Store::new) takes memory for a store of some sizes; [`over`](Store::over) takes words as they are, which
/// [`set_up`](Store::set_up) then makes a store, or which are one already. Words beyond the size are never touched.
///
/// ```
/// use plots::{Record, Refusal, Sizes, Store};
///
/// let mut lent = [7; 70];
/// let mut store = Store::over(&mut lent);
/// assert_eq!(store.find(1), Err(Refusal::HeadBroken));
/// assert_eq!(store.set_up(Sizes { theta: 1, capacity: 1, nodes: 4, pages: 4 }), Ok(68));
/// store.enter(Record { key: 5, price: 90_000, lease: 0, last: 0 })?;
/// assert_eq!(lent[68..], [7, 7]);
///
/// let readings = Store::over(&lent);
/// assert_eq!(readings.find(5)?.map(|record| record.price), Some(90_000));
/// # Ok::<(), Refusal>(())
/// ```
#[derive(Clone, Copy, Debug, PartialEq, Eq, Hash)]
pub struct Store<W> {
    words: W,
}

impl Store<Vec<u32>> {
    /// A new store of exactly its size, set up. Refused: `OutsideLimits`.
    pub fn new(sizes: Sizes) -> Result<Self, Refusal> {
        let mut store = Store::over(Vec::new());
        // Without a word set-up is refused: with `OutsideLimits`, or else with `TooShort`.
        if store.set_up(sizes) == Err(Refusal::TooShort) {
            store.words = vec![0; sizes.words()];
        }
        store.set_up(sizes).map(|_| store)
    }
}

impl<W> Store<W> {
    /// A store over words as they are.
    pub fn over(words: W) -> Self {
        Store { words }
    }

    /// Gives the words back.
    pub fn into_words(self) -> W {
        self.words
    }
}

impl<W: AsRef<[u32]> + AsMut<[u32]>> Store<W> {
    /// Clears the words and heads them as a store that holds nothing; gives its size. Words beyond the size stay.
    /// Refused: `OutsideLimits`, `TooShort`.
    pub fn set_up(&mut self, sizes: Sizes) -> Result<usize, Refusal> {
        let Sizes { theta, capacity, nodes, pages } = sizes;
        let mut reply = [0];
        match ffi::set_up(self.words.as_mut(), theta, capacity, nodes, pages, &mut reply) {
            0 => Ok(reply[0] as usize),
            number => Err(Refusal::of(number)),
        }
    }

    /// Enters a record. Refused: `HeadBroken`, `RecordOutside`, `Damaged`, `KeyHeld`, `NoRoom`.
    ///
    /// ```
    /// use plots::{Record, Refusal, Sizes, Store};
    ///
    /// let mut store = Store::new(Sizes { theta: 6, capacity: 1, nodes: 75, pages: 2 })?;
    /// let record = Record { key: u32::MAX, price: 100, lease: 10, last: 500 };
    /// store.enter(record)?;
    /// assert_eq!(store.enter(record), Err(Refusal::KeyHeld));
    /// assert_eq!(store.enter(Record { key: 0, ..record }), Err(Refusal::RecordOutside));
    /// assert_eq!(store.enter(Record { lease: 36_526, ..record }), Err(Refusal::RecordOutside));
    /// // The two highest keys need 76 nodes.
    /// assert_eq!(store.enter(Record { key: u32::MAX - 1, ..record }), Err(Refusal::NoRoom));
    /// # Ok::<(), Refusal>(())
    /// ```
    #[inline]
    pub fn enter(&mut self, record: Record) -> Result<Entered, Refusal> {
        let Record { key, price, lease, last } = record;
        let mut reply = [0; 4];
        match ffi::enter(self.words.as_mut(), key, price, lease, last, &mut reply) {
            0 => {
                let [key, levels, nodes, pages] = ffi::narrow(&reply);
                Ok(Entered { key, levels, nodes, pages })
            }
            number => Err(Refusal::of(number)),
        }
    }

    /// Takes the record with a key out and gives it. Blocks that it leaves are released; the next entries take them first.
    /// Refused: `HeadBroken`, `Damaged`.
    ///
    /// ```
    /// use plots::{Entered, Record, Refusal, Sizes, Store};
    ///
    /// let mut store = Store::new(Sizes { theta: 6, capacity: 1, nodes: 76, pages: 2 })?;
    /// let record = Record { key: u32::MAX, price: 100, lease: 10, last: 500 };
    /// store.enter(record)?;
    /// // The two highest keys need 76 nodes, each of them alone needs one.
    /// let other = Record { key: u32::MAX - 1, ..record };
    /// assert_eq!(store.enter(other)?, Entered { key: u32::MAX - 1, levels: 6, nodes: 76, pages: 2 });
    /// assert_eq!(store.remove(u32::MAX)?, Some(record));
    /// assert_eq!(store.remove(u32::MAX)?, None);
    /// assert_eq!(store.enter(record)?, Entered { key: u32::MAX, levels: 6, nodes: 76, pages: 2 });
    /// # Ok::<(), Refusal>(())
    /// ```
    #[inline]
    pub fn remove(&mut self, key: u32) -> Result<Option<Record>, Refusal> {
        let mut reply = [0; 4];
        let number = ffi::remove(self.words.as_mut(), key, &mut reply);
        found(number, &reply)
    }
}

impl<W: AsRef<[u32]>> Store<W> {
    /// The words.
    pub fn words(&self) -> &[u32] {
        self.words.as_ref()
    }

    /// The record with a key. Refused: `HeadBroken`, `Damaged`.
    #[inline]
    pub fn find(&self, key: u32) -> Result<Option<Record>, Refusal> {
        let mut reply = [0; 4];
        let number = ffi::find(self.words(), key, &mut reply);
        found(number, &reply)
    }

    /// The record with the smallest key above the given one. Refused: `HeadBroken`, `Damaged`.
    ///
    /// ```
    /// use plots::{Record, Refusal, Sizes, Store};
    ///
    /// let mut store = Store::new(Sizes { theta: 2, capacity: 1, nodes: 4, pages: 4 })?;
    /// store.enter(Record { key: 1 << 30, ..Record::default() })?;
    /// store.enter(Record { key: 1 << 31, ..Record::default() })?;
    /// assert_eq!(store.next(1 << 30)?.map(|record| record.key), Some(1 << 31));
    ///
    /// // The count of page 2 is damaged: a reading that visits the page is refused, another is not.
    /// let mut words = store.into_words();
    /// words[16 + 4 * 12 + 5] = 2;
    /// let store = Store::over(words);
    /// assert_eq!(store.next(1 << 30), Err(Refusal::Damaged));
    /// assert_eq!(store.next(0)?.map(|record| record.key), Some(1 << 30));
    /// # Ok::<(), Refusal>(())
    /// ```
    #[inline]
    pub fn next(&self, key: u32) -> Result<Option<Record>, Refusal> {
        let mut reply = [0; 4];
        let number = ffi::next(self.words(), key, &mut reply);
        found(number, &reply)
    }

    /// The records with keys from low to high, in the order of their keys, read in parts of 64 records. It ends after a
    /// refusal: `HeadBroken`, `LowAboveHigh`, `Damaged`.
    ///
    /// ```
    /// use plots::{Record, Refusal, Sizes, Store};
    ///
    /// let mut store = Store::new(Sizes { theta: 4, capacity: 8, nodes: 100, pages: 100 })?;
    /// for i in 1..=200 {
    ///     store.enter(Record { key: i << 20, price: i, lease: 0, last: 0 })?;
    /// }
    /// let mut price = 0;
    /// for record in store.range(50 << 20, u32::MAX) {
    ///     price += record?.price;
    /// }
    /// assert_eq!(price, (50..=200).sum());
    /// assert_eq!(store.range(0, u32::MAX).count(), 200);
    /// assert_eq!(store.range(2, 1).next(), Some(Err(Refusal::LowAboveHigh)));
    /// # Ok::<(), Refusal>(())
    /// ```
    pub fn range(&self, low: u32, high: u32) -> Records<'_> {
        Records { words: self.words(), low: Some(low), high, part: [0; 4 * PART], at: 0, end: 0 }
    }

    /// Writes the records with keys from low to high to the output, four words each (key, price, lease days, last day):
    /// as many whole ones as fit. Its other words stay. Refused: `HeadBroken`, `LowAboveHigh`, `Damaged`.
    ///
    /// ```
    /// use plots::{Part, Record, Refusal, Sizes, Store};
    ///
    /// let mut store = Store::new(Sizes { theta: 1, capacity: 2, nodes: 4, pages: 4 })?;
    /// store.enter(Record { key: 3, price: 30, lease: 0, last: 0 })?;
    /// store.enter(Record { key: 5, price: 50, lease: 0, last: 0 })?;
    /// let mut out = [7; 6];
    /// assert_eq!(store.range_into(0, 9, &mut out), Ok(Part { count: 1, more: Some(5) }));
    /// assert_eq!(out, [3, 30, 0, 0, 7, 7]);
    /// assert_eq!(store.range_into(5, 9, &mut out), Ok(Part { count: 1, more: None }));
    /// # Ok::<(), Refusal>(())
    /// ```
    #[inline]
    pub fn range_into(&self, low: u32, high: u32, out: &mut [u32]) -> Result<Part, Refusal> {
        part(self.words(), low, high, out)
    }

    /// Sums up the records with keys from low to high, on a day 0 to 99,999. Refused: `HeadBroken`, `LowAboveHigh`,
    /// `RecordOutside`, `Damaged`.
    ///
    /// ```
    /// use plots::{Record, Refusal, Sizes, Store, Summary};
    ///
    /// let mut store = Store::new(Sizes { theta: 1, capacity: 2, nodes: 4, pages: 4 })?;
    /// store.enter(Record { key: 9, price: 1_250_000, lease: 36_525, last: 66_000 })?;
    /// assert_eq!(store.summary(1, 9, 46_000)?, Summary { count: 1, total: 684_496, earliest: Some(9) });
    /// assert_eq!(store.summary(1, 8, 46_000)?, Summary { count: 0, total: 0, earliest: None });
    /// assert_eq!(store.summary(1, 9, 100_000), Err(Refusal::RecordOutside));
    /// # Ok::<(), Refusal>(())
    /// ```
    #[inline]
    pub fn summary(&self, low: u32, high: u32, today: u32) -> Result<Summary, Refusal> {
        let mut reply = [0; 3];
        match ffi::summary(self.words(), low, high, today, &mut reply) {
            0 => Ok(Summary { count: reply[0], total: reply[1], earliest: some_key(reply[2]) }),
            number => Err(Refusal::of(number)),
        }
    }
}

/// How many records a part of a range has.
const PART: usize = 64;

/// The records of a range, in the order of their keys: an iterator that [`Store::range`] gives.
#[derive(Clone, Debug)]
pub struct Records<'a> {
    words: &'a [u32],
    /// Where the next part begins, if there is one.
    low: Option<u32>,
    high: u32,
    part: [u32; 4 * PART],
    /// The words of the part that have been given, and those that were written.
    at: usize,
    end: usize,
}

impl Iterator for Records<'_> {
    type Item = Result<Record, Refusal>;

    fn next(&mut self) -> Option<Self::Item> {
        if self.at == self.end {
            let low = self.low.take()?;
            match part(self.words, low, self.high, &mut self.part) {
                Ok(part) => (self.low, self.at, self.end) = (part.more, 0, 4 * part.count),
                Err(refusal) => return Some(Err(refusal)),
            }
        }
        let record: &[u32; 4] = self.part[self.at..self.end].first_chunk()?;
        self.at += 4;
        Some(Ok(Record::from(*record)))
    }
}

impl FusedIterator for Records<'_> {}

fn part(words: &[u32], low: u32, high: u32, out: &mut [u32]) -> Result<Part, Refusal> {
    let mut reply = [0; 2];
    match ffi::range(words, low, high, out, &mut reply) {
        0 => Ok(Part { count: reply[0] as usize, more: some_key(reply[1]) }),
        number => Err(Refusal::of(number)),
    }
}

#[inline]
fn found(number: u32, reply: &[u64; 4]) -> Result<Option<Record>, Refusal> {
    match number {
        0 => Ok(Some(Record::from(ffi::narrow(reply)))),
        1 => Ok(None),
        number => Err(Refusal::of(number)),
    }
}

/// A key in a reply; 0 is none.
fn some_key(word: u64) -> Option<u32> {
    (word != 0).then_some(word as u32)
}
