//! Page blocks: the rule of a visited page, its records, and what enter and remove write into it.

use crate::head::all_zero;
use crate::money::term_fault;
use crate::node::{agree, bit};

/// A record's words: key, price, lease days, last day.
pub type Row = [u32; 4];

/// The records of a page that keeps the rule.
#[inline]
pub fn rows(page: &[u32]) -> &[Row] {
    &page[1..].as_chunks().0[..page[0] as usize]
}

/// The records of a visited page, and how many keys are below a key: 1 to C lawful ones, ascending, and zeros after.
/// None if the page is damaged.
#[inline]
pub fn visit(page: &[u32], sought: u32) -> Option<(&[Row], usize)> {
    let count = page[0] as usize;
    let all: &[Row] = page[1..].as_chunks().0;
    if count == 0 || count > all.len() {
        return None;
    }
    let (rows, rest) = all.split_at(count);
    let (mut before, mut ascending, mut outside, mut below) = (0, true, 0, 0);
    for &[key, _, lease, last] in rows {
        ascending &= key > before;
        before = key;
        outside |= term_fault(lease, last);
        below += u32::from(key < sought);
    }
    (ascending && outside as i32 >= 0 && all_zero(rest.as_flattened())).then_some((rows, below as usize))
}

/// Whether all keys agree with a key in the used bits; ascending keys do if the first and the last do.
#[inline]
pub fn all_agree(rows: &[Row], key: u32, used: u32) -> bool {
    agree(rows[0][0], key, used) && agree(rows[rows.len() - 1][0], key, used)
}

/// How many keys are below the key.
#[inline]
pub fn below(rows: &[Row], key: u32) -> usize {
    rows.partition_point(|row| row[0] < key)
}

/// How many keys are at or below the key.
#[inline]
pub fn up_to(rows: &[Row], key: u32) -> usize {
    rows.partition_point(|row| row[0] <= key)
}

/// Puts a record at its place.
#[inline]
pub fn put(page: &mut [u32], at: usize, row: Row) {
    let count = page[0] as usize;
    page[0] += 1;
    let rows: &mut [Row] = page[1..].as_chunks_mut().0;
    rows.copy_within(at..count, at + 1);
    rows[at] = row;
}

/// Writes a page of one record.
pub fn write_first(page: &mut [u32], row: Row) {
    page.fill(0);
    put(page, 0, row);
}

/// How many records have a 0 after `used` bits that all of them share.
pub fn low_count(rows: &[Row], used: u32) -> usize {
    rows.partition_point(|row| !bit(row[0], used))
}

/// Moves the records from `low` on to a new page.
pub fn halve(page: &mut [u32], new: &mut [u32], low: usize) {
    let moved = page[0] as usize - low;
    let (from, to) = (1 + 4 * low, 1 + 4 * moved);
    new[0] = moved as u32;
    new[1..to].copy_from_slice(&page[from..][..4 * moved]);
    new[to..].fill(0);
    page[0] = low as u32;
    page[from..].fill(0);
}

/// Takes the record at a place out.
#[inline]
pub fn take_out(page: &mut [u32], at: usize) {
    let count = page[0] as usize;
    page[0] -= 1;
    let rows: &mut [Row] = page[1..].as_chunks_mut().0;
    rows.copy_within(at + 1..count, at);
    rows[count - 1] = [0; 4];
}

/// Puts the records of another page behind those of this one.
pub fn append(page: &mut [u32], other: &[u32]) {
    let (count, more) = (page[0] as usize, other[0] as usize);
    page[1 + 4 * count..][..4 * more].copy_from_slice(&other[1..][..4 * more]);
    page[0] += more as u32;
}
