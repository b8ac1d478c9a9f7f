//! The plot index in plain Rust: an ordered tree of records over a lent slice of 32-bit words.
//!
//! Every operation answers on any words, damaged ones too, with the number that the order of its tests gives. A refused
//! call changes nothing lent to it and returns zeros.
#![forbid(unsafe_code)]

pub mod checker;
mod descent;
mod enter;
mod head;
mod label;
mod money;
mod node;
mod page;
mod read;
mod released;
mod remove;

pub use enter::{enter, Entered};
pub use head::{set_up, SetUp};
pub use label::{convert, key_of, label_of, Keyed, Labelled};
pub use money::{balance, Balance, Record};
pub use read::{find, next, range, summary, Found, Ranged, Summary};
pub use remove::remove;

/// The answer numbers.
pub mod answer {
    pub const DONE: u32 = 0;
    pub const NONE: u32 = 1;
    pub const HEAD: u32 = 3;
    pub const SIZES: u32 = 4;
    pub const SHORT: u32 = 5;
    pub const OUTSIDE: u32 = 6;
    pub const ORDER: u32 = 7;
    pub const HELD: u32 = 8;
    pub const DAMAGED: u32 = 9;
    pub const FULL: u32 = 10;
    pub const LABEL: u32 = 11;
}
