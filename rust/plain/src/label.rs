//! Plot labels and their keys.

use crate::answer;

/// The key of a label.
#[derive(Clone, Copy, Debug, Default, PartialEq, Eq)]
pub struct Keyed {
    pub number: u32,
    pub key: u32,
}

/// The label of a key.
#[derive(Clone, Copy, Debug, Default, PartialEq, Eq)]
pub struct Labelled {
    pub number: u32,
    pub section: u32,
    pub row: u32,
    pub place: u32,
    pub letter: u32,
}

/// Section × 2^24 + row × 2^12 + place × 16 + letter. Refused with 11.
pub fn key_of(section: u32, row: u32, place: u32, letter: u32) -> Keyed {
    if !(1..=255).contains(&section) || row > 4095 || place > 255 || letter > 15 {
        return Keyed { number: answer::LABEL, key: 0 };
    }
    Keyed { number: answer::DONE, key: section << 24 | row << 12 | place << 4 | letter }
}

/// The parts of a key. A key below 2^24 has none: 11.
pub fn label_of(key: u32) -> Labelled {
    if key < 1 << 24 {
        return Labelled { number: answer::LABEL, ..Labelled::default() };
    }
    Labelled {
        number: answer::DONE,
        section: key >> 24,
        row: key >> 12 & 4095,
        place: key >> 4 & 255,
        letter: key & 15,
    }
}

/// The key, with letter 0, of a key whose lowest twelve bits are the place. Refused with 11: a place above 255, a key below
/// 2^24.
pub fn convert(key: u32) -> Keyed {
    let place = key & 4095;
    if key < 1 << 24 || place > 255 {
        return Keyed { number: answer::LABEL, key: 0 };
    }
    Keyed { number: answer::DONE, key: key - place + (place << 4) }
}
