//! Records, their limits, and the balance.

use crate::answer;

/// A record as it stands in a page: key, price in pence, lease days, last day.
#[derive(Clone, Copy, Debug, Default, PartialEq, Eq)]
pub struct Record {
    pub key: u32,
    pub price: u32,
    pub lease: u32,
    pub last: u32,
}

/// Balance's answer.
#[derive(Clone, Copy, Debug, Default, PartialEq, Eq)]
pub struct Balance {
    pub number: u32,
    pub value: u32,
}

impl Record {
    #[inline]
    pub fn of([key, price, lease, last]: [u32; 4]) -> Record {
        Record { key, price, lease, last }
    }

    #[inline]
    pub fn words(self) -> [u32; 4] {
        [self.key, self.price, self.lease, self.last]
    }

    pub fn lawful(&self) -> bool {
        self.key != 0 && term_ok(self.lease, self.last)
    }
}

pub const LEASE_MOST: u32 = 36_525;
pub const DAY_MOST: u32 = 99_999;

/// Lease days 0 with last day 0, or lease days 1 to 36,525 and a day number.
pub fn term_ok(lease: u32, last: u32) -> bool {
    if lease == 0 {
        last == 0
    } else {
        lease <= LEASE_MOST && day_ok(last)
    }
}

/// The same without a branch: a word whose top bit is set where the term is not lawful.
#[inline]
pub fn term_fault(lease: u32, last: u32) -> u32 {
    let limits = lease | LEASE_MOST.wrapping_sub(lease) | last | DAY_MOST.wrapping_sub(last);
    let perpetual = lease.wrapping_sub(1) & last.wrapping_neg();
    limits | perpetual
}

#[inline]
pub fn day_ok(day: u32) -> bool {
    day <= DAY_MOST
}

/// What is left of a price today, of a lawful term. The last day counts; a perpetual lease has no days left.
///
/// The product is below 2^48 and the quotient below 2^32, so both are exact enough in an f64: a quotient that is no whole
/// number is at least 1 / 36,525 below the next one, and rounding moves it by less than 2^-20.
#[inline]
pub fn amount(price: u32, lease: u32, last: u32, today: u32) -> u64 {
    let days = (last + 1).saturating_sub(today).min(lease);
    let product = i64::from(price) * i64::from(days);
    (product as f64 / f64::from(lease.max(1) as i32)) as i64 as u64
}

/// Price × days left / lease days, rounded down; 0 if perpetual. Refused with 6.
pub fn balance(price: u32, lease: u32, last: u32, today: u32) -> Balance {
    if !term_ok(lease, last) || !day_ok(today) {
        return Balance { number: answer::OUTSIDE, value: 0 };
    }
    Balance { number: answer::DONE, value: amount(price, lease, last, today) as u32 }
}
