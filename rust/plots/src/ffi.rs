//! The eleven functions of `plots.h` over slices. Each returns the answer's number and writes the answer's values to the
//! front of `reply`, as far as they fit; its other words stay. [`Store`](crate::Store) is made of these.
//!
//! Every function is defined on any words and any arguments, so all of them are safe. What the library asks of a slice
//! holds of every Rust slice: a pointer that is not null and is aligned, also where the slice is empty, and no overlap
//! with a slice that is lent mutably. Nothing is kept after a call.
#![allow(unsafe_code)]

mod exports {
    extern "C" {
        pub fn plots_set_up(
            store: *mut u32,
            store_words: usize,
            theta: u32,
            capacity: u32,
            nodes: u32,
            pages: u32,
            reply: *mut u64,
            reply_words: usize,
        ) -> u32;
        pub fn plots_enter(
            store: *mut u32,
            store_words: usize,
            key: u32,
            price: u32,
            lease: u32,
            last: u32,
            reply: *mut u64,
            reply_words: usize,
        ) -> u32;
        pub fn plots_remove(store: *mut u32, store_words: usize, key: u32, reply: *mut u64, reply_words: usize) -> u32;
        pub fn plots_find(store: *const u32, store_words: usize, key: u32, reply: *mut u64, reply_words: usize) -> u32;
        pub fn plots_next(store: *const u32, store_words: usize, key: u32, reply: *mut u64, reply_words: usize) -> u32;
        pub fn plots_range(
            store: *const u32,
            store_words: usize,
            low: u32,
            high: u32,
            out: *mut u32,
            out_words: usize,
            reply: *mut u64,
            reply_words: usize,
        ) -> u32;
        pub fn plots_summary(
            store: *const u32,
            store_words: usize,
            low: u32,
            high: u32,
            today: u32,
            reply: *mut u64,
            reply_words: usize,
        ) -> u32;
        pub fn plots_balance(price: u32, lease: u32, last: u32, today: u32, reply: *mut u64, reply_words: usize)
            -> u32;
        pub fn plots_key_of(
            section: u32,
            row: u32,
            place: u32,
            letter: u32,
            reply: *mut u64,
            reply_words: usize,
        ) -> u32;
        pub fn plots_label_of(key: u32, reply: *mut u64, reply_words: usize) -> u32;
        pub fn plots_convert(key: u32, reply: *mut u64, reply_words: usize) -> u32;
    }
}

/// Sets a store up. Values: the size. Numbers: 0, 4, 5.
#[inline]
pub fn set_up(store: &mut [u32], theta: u32, capacity: u32, nodes: u32, pages: u32, reply: &mut [u64]) -> u32 {
    let (store, store_words) = (store.as_mut_ptr(), store.len());
    let (reply, reply_words) = (reply.as_mut_ptr(), reply.len());
    // SAFETY: both slices are lent mutably for the call, so they are valid for writes and do not overlap.
    unsafe { exports::plots_set_up(store, store_words, theta, capacity, nodes, pages, reply, reply_words) }
}

/// Enters a record. Values: the key, the levels, the nodes in use, the pages in use. Numbers: 0, 3, 6, 9, 8, 10.
#[inline]
pub fn enter(store: &mut [u32], key: u32, price: u32, lease: u32, last: u32, reply: &mut [u64]) -> u32 {
    let (store, store_words) = (store.as_mut_ptr(), store.len());
    let (reply, reply_words) = (reply.as_mut_ptr(), reply.len());
    // SAFETY: both slices are lent mutably for the call, so they are valid for writes and do not overlap.
    unsafe { exports::plots_enter(store, store_words, key, price, lease, last, reply, reply_words) }
}

/// Takes the record with a key out. Values: the key, the price, the lease days, the last day. Numbers: 0, 1, 3, 9.
#[inline]
pub fn remove(store: &mut [u32], key: u32, reply: &mut [u64]) -> u32 {
    let (store, store_words) = (store.as_mut_ptr(), store.len());
    let (reply, reply_words) = (reply.as_mut_ptr(), reply.len());
    // SAFETY: both slices are lent mutably for the call, so they are valid for writes and do not overlap.
    unsafe { exports::plots_remove(store, store_words, key, reply, reply_words) }
}

/// The record with a key. Values: the key, the price, the lease days, the last day. Numbers: 0, 1, 3, 9.
#[inline]
pub fn find(store: &[u32], key: u32, reply: &mut [u64]) -> u32 {
    let (reply, reply_words) = (reply.as_mut_ptr(), reply.len());
    // SAFETY: the store is valid for reads and the library only reads it; the reply is lent mutably for the call.
    unsafe { exports::plots_find(store.as_ptr(), store.len(), key, reply, reply_words) }
}

/// The record with the smallest key above the given one. Values and numbers as of [`find`].
#[inline]
pub fn next(store: &[u32], key: u32, reply: &mut [u64]) -> u32 {
    let (reply, reply_words) = (reply.as_mut_ptr(), reply.len());
    // SAFETY: the store is valid for reads and the library only reads it; the reply is lent mutably for the call.
    unsafe { exports::plots_next(store.as_ptr(), store.len(), key, reply, reply_words) }
}

/// Writes the records from low to high to the output, as many whole ones as fit. Values: the count of records written,
/// the first key not written or 0. Numbers: 0, 3, 7, 9.
#[inline]
pub fn range(store: &[u32], low: u32, high: u32, out: &mut [u32], reply: &mut [u64]) -> u32 {
    let (out, out_words) = (out.as_mut_ptr(), out.len());
    let (reply, reply_words) = (reply.as_mut_ptr(), reply.len());
    // SAFETY: the store is valid for reads and the library only reads it; the output and the reply are lent mutably for
    // the call, so they are valid for writes and no two of the slices overlap.
    unsafe { exports::plots_range(store.as_ptr(), store.len(), low, high, out, out_words, reply, reply_words) }
}

/// Sums up the records from low to high. Values: the count, the total balance, the key of the earliest last day or 0.
/// Numbers: 0, 3, 7, 6, 9.
#[inline]
pub fn summary(store: &[u32], low: u32, high: u32, today: u32, reply: &mut [u64]) -> u32 {
    let (reply, reply_words) = (reply.as_mut_ptr(), reply.len());
    // SAFETY: the store is valid for reads and the library only reads it; the reply is lent mutably for the call.
    unsafe { exports::plots_summary(store.as_ptr(), store.len(), low, high, today, reply, reply_words) }
}

/// What is left of a price today. Values: the balance. Numbers: 0, 6.
#[inline]
pub fn balance(price: u32, lease: u32, last: u32, today: u32, reply: &mut [u64]) -> u32 {
    // SAFETY: the reply is lent mutably for the call.
    unsafe { exports::plots_balance(price, lease, last, today, reply.as_mut_ptr(), reply.len()) }
}

/// The key of a label. Values: the key. Numbers: 0, 11.
#[inline]
pub fn key_of(section: u32, row: u32, place: u32, letter: u32, reply: &mut [u64]) -> u32 {
    // SAFETY: the reply is lent mutably for the call.
    unsafe { exports::plots_key_of(section, row, place, letter, reply.as_mut_ptr(), reply.len()) }
}

/// The label of a key. Values: the section, the row, the place, the letter. Numbers: 0, 11.
#[inline]
pub fn label_of(key: u32, reply: &mut [u64]) -> u32 {
    // SAFETY: the reply is lent mutably for the call.
    unsafe { exports::plots_label_of(key, reply.as_mut_ptr(), reply.len()) }
}

/// The key of a key of the old packing. Values: the key. Numbers: 0, 11.
#[inline]
pub fn convert(key: u32, reply: &mut [u64]) -> u32 {
    // SAFETY: the reply is lent mutably for the call.
    unsafe { exports::plots_convert(key, reply.as_mut_ptr(), reply.len()) }
}

/// The values of a reply as 32-bit numbers. Each word is read by itself: the library has just written them one by one,
/// and a wider load would wait until all of them have left the processor.
#[inline]
pub(crate) fn narrow(reply: &[u64; 4]) -> [u32; 4] {
    // SAFETY: a reference is valid for reads.
    std::array::from_fn(|i| unsafe { std::ptr::read_volatile(&reply[i]) } as u32)
}
