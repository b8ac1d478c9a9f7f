//! Histories of random entries and removals against a sorted map and the tree of the records held.

mod common;

use common::{literal, new_store, record, size, unlawful, Keys, Rng};
use plain::checker::{canonical, check, same_tree, Tree};
use plain::{enter, find, next, range, remove, set_up, summary, Record};
use std::collections::BTreeMap;

type Book = BTreeMap<u32, Record>;

fn words(record: &Record) -> [u32; 4] {
    [record.key, record.price, record.lease, record.last]
}

/// Compares some readings with the book.
fn read_back(store: &[u32], book: &Book, rng: &mut Rng, tries: u32) {
    let held: Vec<u32> = book.keys().copied().collect();
    for _ in 0..tries {
        let mut key = || match rng.below(5) {
            0 => rng.word(),
            1 => rng.one_of(&[0, 1, u32::MAX, u32::MAX - 1]),
            _ if held.is_empty() => 0,
            _ => rng.one_of(&held).wrapping_add(rng.below(3)).wrapping_sub(1),
        };
        let (sought, a, b) = (key(), key(), key());
        let found = find(store, sought);
        match book.get(&sought) {
            Some(&record) => assert_eq!((found.number, found.record), (0, record)),
            None => assert_eq!((found.number, found.record), (1, Record::default())),
        }
        let above = next(store, sought);
        match book.range(sought..).find(|(&key, _)| key > sought) {
            Some((_, &record)) => assert_eq!((above.number, above.record), (0, record)),
            None => assert_eq!((above.number, above.record), (1, Record::default())),
        }

        let (low, high) = (a.min(b), a.max(b));
        let within: Vec<Record> = book.range(low..=high).map(|(_, &record)| record).collect();
        let room = if rng.chance(50) { 4 * within.len() + rng.below(9) as usize } else { rng.below(40) as usize };
        let mut out = vec![3; room];
        let listed = range(store, low, high, &mut out);
        let written = within.len().min(room / 4);
        assert_eq!((listed.number, listed.count), (0, written as u64));
        assert_eq!(listed.more, within.get(written).map_or(0, |record| record.key));
        let expected: Vec<u32> = within[..written].iter().flat_map(words).collect();
        assert_eq!(out[..4 * written], expected);
        assert!(out[4 * written..].iter().all(|&word| word == 3));

        let day = rng.below(100_000);
        let today = rng.one_of(&[0, 45_999, 46_000, 99_999, day]);
        let sheet = summary(store, low, high, today);
        let (total, earliest) = literal::sheet(&within, today);
        assert_eq!((sheet.number, sheet.count, sheet.total, sheet.key), (0, within.len() as u64, total, earliest));
        if low < high {
            assert_eq!((range(store, high, low, &mut out).number, summary(store, high, low, today).number), (7, 7));
        }
    }
}

/// What the book answers to an entry: number, key, levels, nodes and pages.
fn expected(book: &Book, record: &Record, [theta, capacity, nodes, pages]: [u32; 4]) -> [u32; 5] {
    let lawful = record.key != 0 && plain::balance(record.price, record.lease, record.last, 0).number == 0;
    if !lawful {
        return [6, 0, 0, 0, 0];
    }
    let mut joined: Vec<u32> = book.keys().copied().collect();
    let Err(at) = joined.binary_search(&record.key) else { return [8, 0, 0, 0, 0] };
    joined.insert(at, record.key);
    let tree = Tree::of(&joined, theta, capacity);
    if tree.nodes() > nodes || tree.pages() > pages {
        return [10, 0, 0, 0, 0];
    }
    [0, record.key, tree.levels(), tree.nodes(), tree.pages()]
}

/// One history; every answer is the book's, and the store holds the book's tree after every accepted call. Of 100 calls some
/// are removals, now as many, now others.
fn history(seed: u64, removing: &[u32]) {
    let mut rng = Rng(seed);
    let theta = 1 + rng.below(6);
    let capacity = rng.one_of(&[1, 1, 2, 3, 4, 7, 8, 16, 24]);
    let roomy = rng.chance(50);
    let (nodes, pages) = if roomy { (600, 200) } else { (1 + rng.below(80), 1 + rng.below(40)) };
    let length = size(theta, capacity, nodes, pages);
    let tail = 1 + rng.below(5) as usize;
    let mut store = vec![0xabcd; length + tail];
    assert_eq!(set_up(&mut store, theta, capacity, nodes, pages).size as usize, length);

    let mut book = Book::new();
    let mut keys = Keys::new(rng.below(Keys::KINDS), &mut rng);
    let calls = 20 + rng.below(if capacity > 8 { 200 } else { 60 });
    let mut removals = removing[0];
    for _ in 0..calls {
        if rng.chance(10) {
            removals = rng.one_of(removing);
        }
        let before = store.clone();
        if rng.chance(removals) {
            let held: Vec<u32> = book.keys().copied().collect();
            let key = if held.is_empty() || rng.chance(10) { keys.draw(&mut rng) } else { rng.one_of(&held) };
            let answer = remove(&mut store, key);
            match book.remove(&key) {
                Some(record) => assert_eq!((answer.number, answer.record), (0, record), "seed {seed}"),
                None => {
                    assert_eq!((answer.number, answer.record), (1, Record::default()), "seed {seed}");
                    assert_eq!(store, before);
                }
            }
            assert_eq!(find(&store, key).number, 1);
        } else {
            let key = keys.draw(&mut rng);
            let record = if rng.chance(3) { unlawful(key, &mut rng) } else { record(key, &mut rng) };
            let answer = enter(&mut store, record);
            let reply = [answer.number, answer.key, answer.levels, answer.nodes, answer.pages];
            assert_eq!(reply, expected(&book, &record, [theta, capacity, nodes, pages]), "seed {seed}");
            if answer.number != 0 {
                assert_eq!(store, before);
                continue;
            }
            assert_eq!(find(&store, key).record, record);
            // A new key that is accepted and then removed leaves the tree of before.
            let mut undone = store.clone();
            assert_eq!(remove(&mut undone, key), find(&store, key));
            assert!(same_tree(&undone, &before), "seed {seed}");
            check(&undone).unwrap_or_else(|fault| panic!("seed {seed}: {fault}"));
            book.insert(key, record);
        }
        check(&store).unwrap_or_else(|fault| panic!("seed {seed}: {fault}"));
        canonical(&store).unwrap_or_else(|fault| panic!("seed {seed}: {fault}"));
        assert!(store[length..].iter().all(|&word| word == 0xabcd));
    }
    read_back(&store, &book, &mut rng, 60);
    // Entries alone end in the same tree.
    let mut alone = new_store(theta, capacity, nodes, pages);
    for &record in book.values() {
        assert_eq!(enter(&mut alone, record).number, 0);
    }
    assert!(same_tree(&store, &alone), "seed {seed}");
}

#[test]
fn many_histories() {
    for seed in 0..3_000 {
        history(seed, &[0]);
    }
}

#[test]
fn mixtures() {
    for seed in 0..3_000 {
        history(seed ^ 0x113_0000_0000, &[10, 40, 60, 90]);
    }
}

/// A store of exactly the tree's size is filled, emptied and filled again, each time in some order.
#[test]
fn filled_again() {
    for seed in 0..400 {
        let rng = &mut Rng(seed ^ 0xf111_0000_0000);
        let theta = 1 + rng.below(6);
        let capacity = rng.one_of(&[1, 2, 3, 8, 24]);
        let mut keys = Keys::new(rng.below(Keys::KINDS), rng);
        let mut book = Book::new();
        for _ in 0..5 + rng.below(150) {
            let key = keys.draw(rng).max(1);
            book.insert(key, record(key, rng));
        }
        let sorted: Vec<u32> = book.keys().copied().collect();
        let tree = Tree::of(&sorted, theta, capacity);
        if tree.nodes() > 4096 || tree.pages() > 4096 {
            continue;
        }
        let mut records: Vec<Record> = book.values().copied().collect();
        let mut store = new_store(theta, capacity, tree.nodes(), tree.pages());
        let mut first = None;
        for round in 0..4 {
            for &record in &records {
                assert_eq!(enter(&mut store, record).number, 0, "seed {seed}");
            }
            canonical(&store).unwrap();
            assert_eq!(store[8..12], [0; 4]);
            assert!(same_tree(first.get_or_insert_with(|| store.clone()), &store));
            match round {
                0 => (),
                1 => records.reverse(),
                _ => rng.shuffle(&mut records),
            }
            for &record in &records {
                assert_eq!(remove(&mut store, record.key).record, record, "seed {seed}");
                if rng.chance(10) {
                    canonical(&store).unwrap_or_else(|fault| panic!("seed {seed}: {fault}"));
                }
            }
            canonical(&store).unwrap();
            // The empty set: 1 level, 1 node, 0 pages; every other block is released.
            assert_eq!([store[7], store[10], store[11]], [1, tree.nodes() - 1, tree.pages()]);
            rng.shuffle(&mut records);
        }
    }
}

/// The same set in several orders ends in the same tree, and another set does not.
#[test]
fn any_order() {
    for seed in 0..400 {
        let mut rng = Rng(seed << 32);
        let theta = 1 + rng.below(6);
        let capacity = rng.one_of(&[1, 2, 3, 8, 24]);
        let mut keys = Keys::new(rng.below(Keys::KINDS), &mut rng);
        let mut book = Book::new();
        for _ in 0..5 + rng.below(100) {
            let key = keys.draw(&mut rng).max(1);
            book.insert(key, record(key, &mut rng));
        }
        let sorted: Vec<u32> = book.keys().copied().collect();
        let tree = Tree::of(&sorted, theta, capacity);
        if tree.nodes() > 4096 || tree.pages() > 4096 {
            continue;
        }
        // The tree just fits.
        let (nodes, pages) = (tree.nodes(), tree.pages().max(1));
        let fill = |records: &[Record]| {
            let mut store = new_store(theta, capacity, nodes, pages);
            for &record in records {
                assert_eq!(enter(&mut store, record).number, 0, "seed {seed}");
            }
            store
        };
        let mut records: Vec<Record> = book.values().copied().collect();
        let first = fill(&records);
        canonical(&first).unwrap();
        for order in 0..4 {
            match order {
                0 => records.reverse(),
                _ => rng.shuffle(&mut records),
            }
            let other = fill(&records);
            canonical(&other).unwrap();
            assert!(same_tree(&first, &other), "seed {seed}");
        }
        let fewer = fill(&records[1..]);
        assert!(!same_tree(&first, &fewer));
        records[0].price ^= 1;
        assert!(!same_tree(&first, &fill(&records)));
    }
}

/// Large stores, checked now and then.
#[test]
fn large() {
    for (theta, capacity, kind, entries) in
        [(6, 24, 0, 50_000), (6, 24, 6, 40_000), (3, 16, 1, 20_000), (1, 8, 0, 6_000), (2, 1, 0, 2_000)]
    {
        let mut rng = Rng(u64::from(theta * 100 + capacity));
        let mut keys = Keys::new(kind, &mut rng);
        let mut store = new_store(theta, capacity, 4096, 4096);
        let mut book = Book::new();
        for at in 0..entries {
            let key = keys.draw(&mut rng);
            let record = record(key, &mut rng);
            let answer = enter(&mut store, record);
            match answer.number {
                0 => assert!(book.insert(key, record).is_none()),
                8 => assert!(book.contains_key(&key)),
                6 => assert_eq!(key, 0),
                number => assert_eq!(number, 10),
            }
            if answer.number == 10 || at % (entries / 5) == 0 {
                canonical(&store).unwrap();
            }
            if answer.number == 10 {
                let mut joined: Vec<u32> = book.keys().copied().collect();
                joined.push(key);
                joined.sort();
                let tree = Tree::of(&joined, theta, capacity);
                assert!(tree.nodes() > 4096 || tree.pages() > 4096);
                break;
            }
        }
        canonical(&store).unwrap();
        read_back(&store, &book, &mut rng, 300);
        assert!(book.iter().all(|(&key, &record)| find(&store, key).record == record));
        // Three of four go, then all.
        let mut held: Vec<u32> = book.keys().copied().collect();
        rng.shuffle(&mut held);
        let quarter = held.len() / 4;
        for (left, key) in (0..held.len()).rev().zip(held) {
            let removed = remove(&mut store, key);
            assert_eq!((removed.number, Some(removed.record)), (0, book.remove(&key)));
            if left == quarter {
                canonical(&store).unwrap();
                read_back(&store, &book, &mut rng, 300);
            }
        }
        canonical(&store).unwrap();
        assert_eq!([store[4] - store[10], store[5] - store[11], store[7]], [1, 0, 1]);
    }
}
