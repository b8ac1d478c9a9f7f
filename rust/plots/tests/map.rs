//! The proved library against the standard library's sorted map, on sound stores: removals, the whole list, find, next, ranges
//! whole, in parts and through the iterator, and summaries.

#[path = "../../plain/tests/common/mod.rs"]
mod common;

use common::{record, size, Keys, Rng};
use plots::{Entered, Part, Record, Refusal, Sizes, Store, Summary};
use std::cmp::Reverse;
use std::collections::BTreeMap;
use std::ops::Bound::{Excluded, Unbounded};

type Map = BTreeMap<u32, Record>;

/// The sheet of records in key order, from the paper's words.
fn sheet(records: &[Record], today: u32) -> Summary {
    let balance = |record: &Record| match record.lease {
        0 => 0,
        lease => {
            let left = (record.last + 1).saturating_sub(today).min(lease);
            u64::from(record.price) * u64::from(left) / u64::from(lease)
        }
    };
    let leased = records.iter().filter(|record| record.lease > 0);
    let first = leased.min_by_key(|record| (record.last, Reverse(record.price), record.key));
    Summary {
        count: records.len() as u64,
        total: records.iter().map(balance).sum(),
        earliest: first.map(|record| record.key),
    }
}

/// Enters random records in the store and in the map and removes some of them.
fn fill(store: &mut Store<Vec<u32>>, entries: u32, keys: &mut Keys, rng: &mut Rng) -> Map {
    let mut map = Map::new();
    for _ in 0..entries {
        let key = keys.draw(rng);
        if rng.chance(20) {
            let held = map.range(key..).next().map_or(key, |(&held, _)| held);
            assert_eq!(store.remove(held), Ok(map.remove(&held)));
        }
        let record = Record::from(record(key, rng).words());
        match store.enter(record) {
            Ok(Entered { key: entered, .. }) => {
                assert_eq!(entered, key);
                assert_eq!(map.insert(key, record), None);
            }
            Err(Refusal::KeyHeld) => assert!(map.contains_key(&key)),
            Err(Refusal::RecordOutside) => assert_eq!(key, 0),
            Err(refusal) => {
                assert_eq!(refusal, Refusal::NoRoom);
                assert!(!map.contains_key(&key));
            }
        }
    }
    map
}

/// Compares readings of the store with the map's; gives how many it made.
fn read_back(store: &Store<&[u32]>, map: &Map, tries: u32, rng: &mut Rng) -> u64 {
    let held: Vec<u32> = map.keys().copied().collect();
    let mut readings = 0;
    for _ in 0..tries {
        let mut key = || match rng.below(5) {
            0 => rng.word(),
            1 => rng.one_of(&[0, 1, u32::MAX - 1, u32::MAX]),
            _ if held.is_empty() => 0,
            _ => rng.one_of(&held).wrapping_add(rng.below(3)).wrapping_sub(1),
        };
        let (sought, a, b) = (key(), key(), key());
        assert_eq!(store.find(sought), Ok(map.get(&sought).copied()));
        let above = map.range((Excluded(sought), Unbounded)).next();
        assert_eq!(store.next(sought), Ok(above.map(|(_, &record)| record)));

        let (low, high) = (a.min(b), a.max(b));
        let within: Vec<Record> = map.range(low..=high).map(|(_, &record)| record).collect();
        let listed: Result<Vec<Record>, Refusal> = store.range(low, high).collect();
        assert_eq!(listed.as_ref(), Ok(&within));

        // Whole, and cut short.
        for room in [4 * within.len() + rng.below(9) as usize, rng.below(40) as usize] {
            let mut out = vec![3; room];
            let written = within.len().min(room / 4);
            let more = within.get(written).map(|record| record.key);
            assert_eq!(store.range_into(low, high, &mut out), Ok(Part { count: written, more }));
            let expected: Vec<u32> = within[..written].iter().flat_map(|&record| <[u32; 4]>::from(record)).collect();
            assert_eq!(out[..4 * written], expected);
            assert!(out[4 * written..].iter().all(|&word| word == 3));
        }

        // In parts of some other size.
        let mut part = vec![0; 4 * (1 + rng.below(9) as usize)];
        let (mut next, mut parts) = (Some(low), Vec::new());
        while let Some(low) = next {
            let Part { count, more } = store.range_into(low, high, &mut part).unwrap();
            parts.extend(part.as_chunks::<4>().0[..count].iter().map(|&words| Record::from(words)));
            next = more;
        }
        assert_eq!(parts, within);

        let day = rng.below(100_000);
        let today = rng.one_of(&[0, 45_999, 46_000, 99_999, day]);
        assert_eq!(store.summary(low, high, today), Ok(sheet(&within, today)));
        if low < high {
            assert_eq!(store.summary(high, low, today), Err(Refusal::LowAboveHigh));
            let mut refused = store.range(high, low);
            assert_eq!(refused.next(), Some(Err(Refusal::LowAboveHigh)));
            assert_eq!(refused.next(), None);
        }
        readings += 7;
    }
    // The whole list: one range through the iterator, one next after another, and the sheet.
    let listed: Result<Vec<Record>, Refusal> = store.range(0, u32::MAX).collect();
    let all: Vec<Record> = map.values().copied().collect();
    assert_eq!(listed.as_ref(), Ok(&all));
    let mut key = 0;
    for &record in &all {
        assert_eq!(store.next(key), Ok(Some(record)));
        key = record.key;
    }
    assert_eq!(store.next(key), Ok(None));
    assert_eq!(store.summary(0, u32::MAX, 46_000), Ok(sheet(&all, 46_000)));
    readings + all.len() as u64 + 3
}

#[test]
fn many_stores() {
    let (mut records, mut readings) = (0, 0);
    for seed in 0..1_000 {
        let rng = &mut Rng(seed ^ 0x3a9_0000_0000);
        let theta = 1 + rng.below(6);
        let capacity = rng.one_of(&[1, 2, 3, 4, 8, 24]);
        let (nodes, pages) = rng.one_of(&[(1, 1), (10, 10), (100, 40), (600, 200)]);
        let sizes = Sizes { theta, capacity, nodes, pages };
        assert_eq!(sizes.words(), size(theta, capacity, nodes, pages));
        let mut store = Store::new(sizes).unwrap();
        let entries = rng.below(400);
        let map = fill(&mut store, entries, &mut Keys::new(rng.below(Keys::KINDS), rng), rng);
        records += map.len();
        readings += read_back(&Store::over(store.words()), &map, 40, rng);
    }
    println!("1,000 stores, {records} records, {readings} readings");
}

#[test]
fn large_stores() {
    let (mut records, mut readings) = (0, 0);
    for (seed, theta, capacity, kind, entries) in
        [(1, 6, 24, 0, 50_000), (2, 6, 24, 6, 40_000), (3, 3, 16, 1, 20_000), (4, 1, 8, 0, 6_000), (5, 2, 1, 0, 2_000)]
    {
        let rng = &mut Rng(seed);
        let mut store = Store::new(Sizes { theta, capacity, nodes: 4_096, pages: 4_096 }).unwrap();
        let map = fill(&mut store, entries, &mut Keys::new(kind, rng), rng);
        records += map.len();
        readings += read_back(&Store::over(store.words()), &map, 20, rng);
    }
    println!("5 large stores, {records} records, {readings} readings");
}
