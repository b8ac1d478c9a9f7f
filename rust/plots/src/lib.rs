//! The plot index, an ordered tree of records over a lent slice of 32-bit words: a safe wrapper over the proved library
//! `libexports.a` (x86-64 Linux).
//!
//! A [`Store`] holds or borrows the words. Every operation is defined on any words, damaged ones too: it answers or is
//! refused with a [`Refusal`], never panics, takes no memory, and a refused call changes nothing.
//!
//! The sample of the scope paper:
//!
//! ```
//! use plots::{Entered, Record, Refusal, Sizes, Store, Summary};
//!
//! let sizes = Sizes { theta: 1, capacity: 1, nodes: 4, pages: 4 };
//! assert_eq!(sizes.words(), 68);
//! let mut store = Store::new(sizes)?;
//!
//! let leased = Record { key: 2147483648, price: 1250000, lease: 36525, last: 66000 };
//! let perpetual = Record { key: 3221225472, price: 90000, lease: 0, last: 0 };
//! let ended = Record { key: 1073741824, price: 60000, lease: 9131, last: 45999 };
//! assert_eq!(store.enter(leased)?, Entered { key: 2147483648, levels: 1, nodes: 1, pages: 1 });
//! assert_eq!(store.enter(perpetual)?, Entered { key: 3221225472, levels: 2, nodes: 3, pages: 2 });
//! assert_eq!(store.enter(ended)?, Entered { key: 1073741824, levels: 2, nodes: 3, pages: 3 });
//!
//! assert_eq!(store.find(3221225472)?, Some(perpetual));
//! assert_eq!(store.next(0)?, Some(ended));
//! assert_eq!(store.next(3221225472)?, None);
//! assert_eq!(store.summary(1, u32::MAX, 46000)?, Summary { count: 3, total: 684496, earliest: Some(1073741824) });
//! let keys: Result<Vec<u32>, Refusal> = store.range(1, u32::MAX).map(|record| Ok(record?.key)).collect();
//! assert_eq!(keys?, [1073741824, 2147483648, 3221225472]);
//!
//! assert_eq!(store.remove(3221225472)?, Some(perpetual));
//! assert_eq!(store.find(3221225472)?, None);
//! # Ok::<(), Refusal>(())
//! ```
#![deny(missing_docs)]
#![deny(unsafe_code)]

pub mod ffi;
mod refusal;
mod store;

pub use refusal::Refusal;
pub use store::{Records, Store};

/// A record: four words.
#[derive(Clone, Copy, Debug, Default, PartialEq, Eq, Hash)]
pub struct Record {
    /// The key, not 0.
    pub key: u32,
    /// The price in pence.
    pub price: u32,
    /// The lease days: 1 to 36,525, or 0 for a perpetual lease.
    pub lease: u32,
    /// The last day: 0 to 99,999, and 0 for a perpetual lease.
    pub last: u32,
}

impl From<[u32; 4]> for Record {
    fn from([key, price, lease, last]: [u32; 4]) -> Record {
        Record { key, price, lease, last }
    }
}

impl From<Record> for [u32; 4] {
    fn from(record: Record) -> [u32; 4] {
        [record.key, record.price, record.lease, record.last]
    }
}

/// What a store is set up with.
#[derive(Clone, Copy, Debug, PartialEq, Eq, Hash)]
pub struct Sizes {
    /// The largest depth of a node: 1 to 6. A node has room for 2^theta entries.
    pub theta: u32,
    /// How many records a page holds: 1 to 24.
    pub capacity: u32,
    /// Node blocks: 1 to 4,096.
    pub nodes: u32,
    /// Page blocks: 1 to 4,096.
    pub pages: u32,
}

impl Sizes {
    /// The words of a store of these sizes: 16 + nodes × (4 + 2 × 2^theta) + pages × (1 + 4 × capacity). Sizes outside
    /// their limits may give `usize::MAX`.
    ///
    /// ```
    /// let sizes = plots::Sizes { theta: 6, capacity: 24, nodes: 4096, pages: 4096 };
    /// assert_eq!(sizes.words(), 16 + 4096 * 132 + 4096 * 97);
    /// ```
    pub fn words(&self) -> usize {
        let node = 2usize.saturating_pow(self.theta).saturating_mul(2).saturating_add(4);
        let page = (self.capacity as usize).saturating_mul(4).saturating_add(1);
        let nodes = node.saturating_mul(self.nodes as usize);
        let pages = page.saturating_mul(self.pages as usize);
        nodes.saturating_add(pages).saturating_add(16)
    }
}

/// What an entry gives back.
#[derive(Clone, Copy, Debug, Default, PartialEq, Eq, Hash)]
pub struct Entered {
    /// The key entered.
    pub key: u32,
    /// The tree's levels after the entry.
    pub levels: u32,
    /// The nodes in use after the entry.
    pub nodes: u32,
    /// The pages in use after the entry.
    pub pages: u32,
}

/// The sheet of a range of keys.
#[derive(Clone, Copy, Debug, Default, PartialEq, Eq, Hash)]
pub struct Summary {
    /// How many records the range holds.
    pub count: u64,
    /// The total of their balances in pence.
    pub total: u64,
    /// The key of the earliest last day among leased records, of equal days the highest price, of equal prices the lowest key.
    pub earliest: Option<u32>,
}

/// A part of a range that was written to an output.
#[derive(Clone, Copy, Debug, Default, PartialEq, Eq, Hash)]
pub struct Part {
    /// How many records were written, four words each.
    pub count: usize,
    /// The range's first key that was not written.
    pub more: Option<u32>,
}

/// A plot's label.
#[derive(Clone, Copy, Debug, Default, PartialEq, Eq, Hash)]
pub struct Label {
    /// The section: 1 to 255.
    pub section: u32,
    /// The row: 0 to 4,095.
    pub row: u32,
    /// The place: 0 to 255.
    pub place: u32,
    /// The letter of a plot between two places: 0 for none, 1 to 15 for A to O.
    pub letter: u32,
}

/// What is left of a price today: price × days left / lease days, rounded down; 0 if the lease is perpetual. Refused:
/// `RecordOutside`.
///
/// ```
/// use plots::{balance, Refusal};
///
/// assert_eq!(balance(1_250_000, 36_525, 66_000, 46_001), Ok(684_462));
/// assert_eq!(balance(1_250_000, 36_525, 66_000, 66_000), Ok(34));
/// assert_eq!(balance(1_250_000, 0, 0, 46_000), Ok(0));
/// assert_eq!(balance(1_250_000, 36_526, 66_000, 46_000), Err(Refusal::RecordOutside));
/// ```
pub fn balance(price: u32, lease: u32, last: u32, today: u32) -> Result<u32, Refusal> {
    let mut reply = [0];
    match ffi::balance(price, lease, last, today, &mut reply) {
        0 => Ok(reply[0] as u32),
        number => Err(Refusal::of(number)),
    }
}

/// The key of a label: section × 2^24 + row × 2^12 + place × 16 + letter. Refused: `LabelOutside`.
///
/// ```
/// use plots::{key_of, Label, Refusal};
///
/// assert_eq!(key_of(Label { section: 1, row: 0, place: 0, letter: 0 }), Ok(16_777_216));
/// assert_eq!(key_of(Label { section: 255, row: 4095, place: 255, letter: 15 }), Ok(u32::MAX));
/// assert_eq!(key_of(Label { section: 0, row: 0, place: 0, letter: 0 }), Err(Refusal::LabelOutside));
/// ```
pub fn key_of(label: Label) -> Result<u32, Refusal> {
    let mut reply = [0];
    match ffi::key_of(label.section, label.row, label.place, label.letter, &mut reply) {
        0 => Ok(reply[0] as u32),
        number => Err(Refusal::of(number)),
    }
}

/// The label of a key from 2^24 on. Refused: `LabelOutside`.
///
/// ```
/// use plots::{label_of, Label, Refusal};
///
/// assert_eq!(label_of(16_777_409), Ok(Label { section: 1, row: 0, place: 12, letter: 1 }));
/// assert_eq!(label_of(16_777_215), Err(Refusal::LabelOutside));
/// ```
pub fn label_of(key: u32) -> Result<Label, Refusal> {
    let mut reply = [0; 4];
    match ffi::label_of(key, &mut reply) {
        0 => {
            let [section, row, place, letter] = reply.map(|word| word as u32);
            Ok(Label { section, row, place, letter })
        }
        number => Err(Refusal::of(number)),
    }
}

/// The key, with no letter, of a key of the old packing, section × 2^24 + row × 2^12 + place. Refused: `LabelOutside`, for a
/// place above 255 and for keys below 2^24.
///
/// ```
/// use plots::{convert, key_of, Label, Refusal};
///
/// let new = key_of(Label { section: 1, row: 0, place: 12, letter: 0 })?;
/// assert_eq!(convert(16_777_228), Ok(new));
/// assert_eq!(convert(16_777_472), Err(Refusal::LabelOutside));
/// # Ok::<(), Refusal>(())
/// ```
pub fn convert(key: u32) -> Result<u32, Refusal> {
    let mut reply = [0];
    match ffi::convert(key, &mut reply) {
        0 => Ok(reply[0] as u32),
        number => Err(Refusal::of(number)),
    }
}
