//! Histories of random entries and removals through the proved library: after every accepted call the store is sound and holds
//! the tree of its records, as `plain::checker` judges; the same set in several orders ends in the same tree.

#[path = "../../plain/tests/common/mod.rs"]
mod common;

use common::{record, unlawful, Keys, Rng};
use plain::checker::{canonical, check, keys, same_tree, Tree};
use plots::{Entered, Record, Refusal, Sizes, Store};
use std::collections::BTreeMap;

type Book = BTreeMap<u32, Record>;

fn lawful(record: &Record) -> bool {
    record.key != 0 && plots::balance(record.price, record.lease, record.last, 0).is_ok()
}

/// What the book answers to an entry.
fn expected(book: &Book, record: &Record, sizes: Sizes) -> Result<Entered, Refusal> {
    if !lawful(record) {
        return Err(Refusal::RecordOutside);
    }
    if book.contains_key(&record.key) {
        return Err(Refusal::KeyHeld);
    }
    let mut joined: Vec<u32> = book.keys().copied().chain([record.key]).collect();
    joined.sort();
    let tree = Tree::of(&joined, sizes.theta, sizes.capacity);
    if tree.nodes() > sizes.nodes || tree.pages() > sizes.pages {
        return Err(Refusal::NoRoom);
    }
    Ok(Entered { key: record.key, levels: tree.levels(), nodes: tree.nodes(), pages: tree.pages() })
}

/// One history in words that are longer than the size; gives how many entries it accepts. Of 100 calls some are removals, now
/// as many, now others.
fn history(seed: u64, removing: &[u32]) -> usize {
    let rng = &mut Rng(seed ^ 0x815_0000_0000);
    let theta = 1 + rng.below(6);
    let capacity = rng.one_of(&[1, 1, 2, 3, 4, 7, 8, 16, 24]);
    let (nodes, pages) = if rng.chance(50) { (600, 200) } else { (1 + rng.below(80), 1 + rng.below(40)) };
    let sizes = Sizes { theta, capacity, nodes, pages };
    let length = sizes.words();
    let mut store = Store::over(vec![0xabcd; length + 1 + rng.below(5) as usize]);
    assert_eq!(store.set_up(sizes), Ok(length));
    canonical(store.words()).unwrap();

    let mut book = Book::new();
    let mut draws = Keys::new(rng.below(Keys::KINDS), rng);
    let (mut removals, mut accepted) = (removing[0], 0);
    for _ in 0..20 + rng.below(if capacity > 8 { 200 } else { 60 }) {
        if rng.chance(10) {
            removals = rng.one_of(removing);
        }
        if rng.chance(removals) {
            let held: Vec<u32> = book.keys().copied().collect();
            let key = if held.is_empty() || rng.chance(10) { draws.draw(rng) } else { rng.one_of(&held) };
            assert_eq!(store.remove(key), Ok(book.remove(&key)), "seed {seed}");
            assert_eq!(store.find(key), Ok(None));
            canonical(store.words()).unwrap_or_else(|fault| panic!("seed {seed}: {fault}"));
            continue;
        }
        let key = draws.draw(rng);
        let record = if rng.chance(3) { unlawful(key, rng) } else { record(key, rng) };
        let record = Record::from(record.words());
        let before = store.words().to_vec();
        let answer = store.enter(record);
        assert_eq!(answer, expected(&book, &record, sizes), "seed {seed}");
        if answer.is_err() {
            assert!(store.words() == before, "seed {seed}");
            continue;
        }
        accepted += 1;
        book.insert(record.key, record);
        check(store.words()).unwrap_or_else(|fault| panic!("seed {seed}: {fault}"));
        canonical(store.words()).unwrap_or_else(|fault| panic!("seed {seed}: {fault}"));
        assert!(store.words()[length..].iter().all(|&word| word == 0xabcd));
        assert_eq!(store.find(record.key), Ok(Some(record)));
        // A new key that is accepted and then removed leaves the tree of before.
        let mut undone = store.clone();
        assert_eq!(undone.remove(record.key), Ok(Some(record)));
        assert!(same_tree(undone.words(), &before), "seed {seed}");
    }
    assert!(keys(store.words()).unwrap().iter().eq(book.keys()));
    accepted
}

#[test]
fn many_histories() {
    let accepted: usize = (0..3_000).map(|seed| history(seed, &[0])).sum();
    println!("3,000 histories, {accepted} accepted entries");
    let accepted: usize = (0..3_000).map(|seed| history(seed, &[10, 40, 60, 90])).sum();
    println!("3,000 histories with removals, {accepted} accepted entries");
}

/// The same set in several orders ends in the same tree, and another set does not.
#[test]
fn any_order() {
    let mut sets = 0;
    for seed in 0..500 {
        let rng = &mut Rng(seed ^ 0x0d3_0000_0000);
        let theta = 1 + rng.below(6);
        let capacity = rng.one_of(&[1, 2, 3, 8, 24]);
        let mut draws = Keys::new(rng.below(Keys::KINDS), rng);
        let mut book = Book::new();
        for _ in 0..5 + rng.below(100) {
            let key = draws.draw(rng).max(1);
            book.insert(key, Record::from(record(key, rng).words()));
        }
        let sorted: Vec<u32> = book.keys().copied().collect();
        let tree = Tree::of(&sorted, theta, capacity);
        if tree.nodes() > 4_096 || tree.pages() > 4_096 {
            continue;
        }
        // The tree just fits.
        let sizes = Sizes { theta, capacity, nodes: tree.nodes(), pages: tree.pages() };
        let fill = |records: &[Record]| {
            let mut store = Store::new(sizes).unwrap();
            for &record in records {
                store.enter(record).unwrap_or_else(|refusal| panic!("seed {seed}: {refusal}"));
            }
            canonical(store.words()).unwrap();
            store.into_words()
        };
        let mut records: Vec<Record> = book.values().copied().collect();
        let first = fill(&records);
        for order in 0..5 {
            match order {
                0 => records.reverse(),
                _ => rng.shuffle(&mut records),
            }
            assert!(same_tree(&first, &fill(&records)), "seed {seed}");
        }
        assert!(!same_tree(&first, &fill(&records[1..])));
        records[0].price ^= 1;
        assert!(!same_tree(&first, &fill(&records)));
        sets += 1;
    }
    println!("{sets} sets in six orders");
    assert!(sets > 400);
}

/// A store of exactly the tree's size is filled, emptied and filled again, each time in some order.
#[test]
fn filled_again() {
    for seed in 0..300 {
        let rng = &mut Rng(seed ^ 0xf1_0000_0000);
        let theta = 1 + rng.below(6);
        let capacity = rng.one_of(&[1, 2, 3, 8, 24]);
        let mut draws = Keys::new(rng.below(Keys::KINDS), rng);
        let mut book = Book::new();
        for _ in 0..5 + rng.below(100) {
            let key = draws.draw(rng).max(1);
            book.insert(key, Record::from(record(key, rng).words()));
        }
        let sorted: Vec<u32> = book.keys().copied().collect();
        let tree = Tree::of(&sorted, theta, capacity);
        if tree.nodes() > 4_096 || tree.pages() > 4_096 {
            continue;
        }
        let mut store = Store::new(Sizes { theta, capacity, nodes: tree.nodes(), pages: tree.pages() }).unwrap();
        let mut records: Vec<Record> = book.values().copied().collect();
        for _ in 0..3 {
            for &record in &records {
                store.enter(record).unwrap_or_else(|refusal| panic!("seed {seed}: {refusal}"));
            }
            canonical(store.words()).unwrap();
            rng.shuffle(&mut records);
            for &record in &records {
                assert_eq!(store.remove(record.key), Ok(Some(record)), "seed {seed}");
            }
            canonical(store.words()).unwrap();
            assert!(keys(store.words()).unwrap().is_empty());
            rng.shuffle(&mut records);
        }
    }
}

/// The starred checks of the scope paper that entries can show.
#[test]
fn desk_checks() {
    let two = |theta, nodes| {
        let mut store = Store::new(Sizes { theta, capacity: 1, nodes, pages: 2 }).unwrap();
        let record = Record { key: u32::MAX - 1, price: 1, lease: 0, last: 0 };
        store.enter(record).unwrap();
        store.enter(Record { key: u32::MAX, ..record })
    };
    assert_eq!(two(6, 75), Err(Refusal::NoRoom));
    assert_eq!(two(6, 76), Ok(Entered { key: u32::MAX, levels: 6, nodes: 76, pages: 2 }));
    assert_eq!(two(1, 528), Ok(Entered { key: u32::MAX, levels: 32, nodes: 528, pages: 2 }));
    assert_eq!(two(1, 527), Err(Refusal::NoRoom));
    let store = Store::new(Sizes { theta: 1, capacity: 1, nodes: 1, pages: 1 }).unwrap();
    assert_eq!(store.words()[4..8], [1, 0, 1, 1]);
}
