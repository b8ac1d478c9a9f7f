//! What an operation refuses, with its number.

use std::fmt;

/// Why an operation was refused. A refused call leaves every word that was lent to it as it was.
///
/// ```
/// use plots::{Refusal, Sizes, Store};
///
/// let refusal = Store::new(Sizes { theta: 7, capacity: 1, nodes: 1, pages: 1 }).unwrap_err();
/// assert_eq!(refusal, Refusal::OutsideLimits);
/// assert_eq!(refusal.number(), 4);
/// assert_eq!(refusal.to_string(), "theta, capacity, nodes or pages outside limits");
/// ```
#[derive(Clone, Copy, Debug, PartialEq, Eq, Hash)]
#[repr(u32)]
pub enum Refusal {
    /// The store's head breaks its rule.
    HeadBroken = 3,
    /// Set-up: theta, capacity, nodes or pages outside limits.
    OutsideLimits = 4,
    /// Set-up: the slice is shorter than the size.
    TooShort = 5,
    /// A record or today is outside its limits.
    RecordOutside = 6,
    /// Low is above high.
    LowAboveHigh = 7,
    /// The key is already held.
    KeyHeld = 8,
    /// A damaged block was visited.
    Damaged = 9,
    /// The entry needs more blocks than remain.
    NoRoom = 10,
    /// A label or a key is outside its limits.
    LabelOutside = 11,
}

impl Refusal {
    /// Every refusal, by number.
    pub const ALL: [Refusal; 9] = [
        Refusal::HeadBroken,
        Refusal::OutsideLimits,
        Refusal::TooShort,
        Refusal::RecordOutside,
        Refusal::LowAboveHigh,
        Refusal::KeyHeld,
        Refusal::Damaged,
        Refusal::NoRoom,
        Refusal::LabelOutside,
    ];

    /// Its number in the scope paper and in `plots.h`.
    pub fn number(self) -> u32 {
        self as u32
    }

    /// The refusal with a number.
    #[cold]
    pub(crate) fn of(number: u32) -> Refusal {
        let refusal = Refusal::ALL.into_iter().find(|refusal| refusal.number() == number);
        refusal.unwrap_or_else(|| unreachable!("the library answers no operation with {number}"))
    }
}

impl fmt::Display for Refusal {
    fn fmt(&self, f: &mut fmt::Formatter<'_>) -> fmt::Result {
        f.write_str(match self {
            Refusal::HeadBroken => "the store's head is broken",
            Refusal::OutsideLimits => "theta, capacity, nodes or pages outside limits",
            Refusal::TooShort => "the slice is shorter than the size",
            Refusal::RecordOutside => "record or today outside its limits",
            Refusal::LowAboveHigh => "low above high",
            Refusal::KeyHeld => "key already held",
            Refusal::Damaged => "a damaged block was visited",
            Refusal::NoRoom => "the entry needs more blocks than remain",
            Refusal::LabelOutside => "label or key outside its limits",
        })
    }
}

impl std::error::Error for Refusal {}
