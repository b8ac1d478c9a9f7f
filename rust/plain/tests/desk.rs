//! The desk checks, the sample, and the limits of the calls.

mod common;

use common::{new_store, size, Rng};
use plain::{balance, checker, convert, enter, find, key_of, label_of, next, range, remove, set_up, summary, Record};

fn plot(key: u32) -> Record {
    Record { key, price: 1, lease: 0, last: 0 }
}

fn entered(store: &mut [u32], record: Record) -> [u32; 5] {
    let answer = enter(store, record);
    [answer.number, answer.key, answer.levels, answer.nodes, answer.pages]
}

#[test]
fn money() {
    let value = |price, lease, last, today| {
        let answer = balance(price, lease, last, today);
        (answer.number, answer.value)
    };
    assert_eq!(value(1_250_000, 36_525, 66_000, 46_001), (0, 684_462));
    assert_eq!(value(1_250_000, 36_525, 46_000, 46_000), (0, 34));
    assert_eq!(value(1_250_000, 100, 99_999, 0), (0, 1_250_000));
    assert_eq!(value(u32::MAX, 36_525, 99_999, 63_476), (0, 4_294_849_705));
    assert_eq!(value(60_000, 9_131, 45_999, 46_000), (0, 0));
    assert_eq!(value(90_000, 0, 0, 1), (0, 0));
    assert_eq!(value(0, 36_526, 5, 1), (6, 0));
    assert_eq!(value(0, 0, 1, 1), (6, 0));
    assert_eq!(value(0, 1, 100_000, 1), (6, 0));
    assert_eq!(value(0, 1, 1, 100_000), (6, 0));
}

/// The quotient is exact: products around every kind of multiple of the lease days.
#[test]
fn exact_quotients() {
    let mut rng = Rng(2);
    for round in 0..2_000_000u32 {
        let lease = if round % 2 == 0 { 36_525 - rng.below(30) } else { 1 + rng.below(36_525) };
        let days = if round % 3 == 0 { lease - rng.below(lease.min(4)) } else { 1 + rng.below(lease) };
        let price = match round % 5 {
            0 => u32::MAX - rng.below(100),
            // Just below a multiple.
            1 => (u64::from(rng.word()) / u64::from(lease) * u64::from(lease)).saturating_sub(1) as u32,
            _ => rng.word(),
        };
        let exact = u64::from(price) * u64::from(days) / u64::from(lease);
        assert_eq!(u64::from(balance(price, lease, days, 1).value), exact, "{price} {days} {lease}");
    }
}

#[test]
fn labels() {
    assert_eq!((key_of(1, 0, 0, 0).number, key_of(1, 0, 0, 0).key), (0, 16_777_216));
    assert_eq!((key_of(255, 4095, 255, 15).number, key_of(255, 4095, 255, 15).key), (0, u32::MAX));
    for (section, row, place, letter) in
        [(0, 0, 0, 0), (256, 0, 0, 0), (1, 4096, 0, 0), (1, 0, 256, 0), (1, 0, 0, 16), (u32::MAX, 1, 1, 1)]
    {
        let refused = key_of(section, row, place, letter);
        assert_eq!((refused.number, refused.key), (11, 0));
    }
    // 12, 12A, 13
    let keys = [(12, 0), (12, 1), (13, 0)].map(|(place, letter)| key_of(1, 2, place, letter).key);
    assert!(keys.is_sorted());
    for (old, number, key) in [
        ((1 << 24) - 1, 11, 0),
        (1 << 24 | 256, 11, 0),
        (1 << 24 | 255, 0, 1 << 24 | 255 << 4),
        (255 << 24 | 4095 << 12 | 12, 0, 255 << 24 | 4095 << 12 | 12 << 4),
    ] {
        assert_eq!((convert(old).number, convert(old).key), (number, key));
    }
    for key in [0, 1, (1 << 24) - 1] {
        let label = label_of(key);
        assert_eq!([label.number, label.section, label.row, label.place, label.letter], [11, 0, 0, 0, 0]);
    }
    let mut rng = Rng(1);
    for _ in 0..10_000 {
        let key = rng.word() | 1 << 24;
        let label = label_of(key);
        assert_eq!(label.number, 0);
        assert_eq!(key_of(label.section, label.row, label.place, label.letter).key, key);
    }
}

#[test]
fn setting_up() {
    for (theta, capacity, nodes, pages) in [
        (0, 1, 1, 1),
        (7, 1, 1, 1),
        (1, 0, 1, 1),
        (1, 65, 1, 1),
        (1, 1, 0, 1),
        (1, 1, 4097, 1),
        (1, 1, 1, 0),
        (1, 1, 1, 4097),
        (u32::MAX, u32::MAX, u32::MAX, u32::MAX),
    ] {
        let mut store = vec![5; 100];
        let answer = set_up(&mut store, theta, capacity, nodes, pages);
        assert_eq!((answer.number, answer.size), (4, 0));
        assert_eq!(store, [5; 100]);
    }
    for (theta, capacity, nodes, pages) in [(1, 1, 1, 1), (6, 24, 4096, 4096), (3, 5, 7, 9)] {
        let size = size(theta, capacity, nodes, pages);
        let mut store = vec![5; size + 3];
        let answer = set_up(&mut store[..size - 1], theta, capacity, nodes, pages);
        assert_eq!((answer.number, answer.size), (5, 0));
        assert!(store.iter().all(|&word| word == 5));
        let answer = set_up(&mut store, theta, capacity, nodes, pages);
        assert_eq!((answer.number, answer.size as usize), (0, size));
        assert_eq!(store[size..], [5; 3]);
        assert_eq!(
            store[..22],
            [[theta, capacity, nodes, pages, 1, 0, 1, 1].as_slice(), &[0; 8], &[0, 1, 0, 0, 0, 0]].concat()
        );
        checker::canonical(&store).unwrap();
        // The empty set: 1 level, 1 node, 0 pages.
        assert_eq!(store[4..8], [1, 0, 1, 1]);
        assert_eq!((find(&store, 0).number, next(&store, 0).number), (1, 1));
        assert_eq!(range(&store, 0, u32::MAX, &mut []).number, 0);
        assert_eq!(summary(&store, 0, u32::MAX, 0).number, 0);
    }
}

#[test]
fn sample() {
    let mut store = new_store(1, 1, 4, 4);
    assert_eq!(store.len(), 68);
    let records = [
        Record { key: 1_073_741_824, price: 60_000, lease: 9_131, last: 45_999 },
        Record { key: 2_147_483_648, price: 1_250_000, lease: 36_525, last: 66_000 },
        Record { key: 3_221_225_472, price: 90_000, lease: 0, last: 0 },
    ];
    assert_eq!(entered(&mut store, records[1]), [0, 2_147_483_648, 1, 1, 1]);
    assert_eq!(entered(&mut store, records[2]), [0, 3_221_225_472, 2, 3, 2]);
    assert_eq!(entered(&mut store, records[0]), [0, 1_073_741_824, 2, 3, 3]);
    let words = [
        [1, 1, 4, 4, 3, 3, 3, 2, 0, 0, 0, 0, 0, 0, 0, 0].as_slice(),
        &[0, 1, 0, 2, 0, 3, 0, 0],
        &[1, 1, 1, 0, 1, 1, 1, 2],
        &[1, 2, 0, 0, 1, 1, 1, 2],
        &[0; 8],
        &[1, 2_147_483_648, 1_250_000, 36_525, 66_000],
        &[1, 3_221_225_472, 90_000, 0, 0],
        &[1, 1_073_741_824, 60_000, 9_131, 45_999],
        &[0; 5],
    ];
    assert_eq!(store, words.concat());
    checker::canonical(&store).unwrap();
    let found = find(&store, 3_221_225_472);
    assert_eq!((found.number, found.record), (0, records[2]));
    let sheet = summary(&store, 1, u32::MAX, 46_000);
    assert_eq!((sheet.number, sheet.count, sheet.total, sheet.key), (0, 3, 684_496, 1_073_741_824));

    // Low = high is lawful; an output of 3 words holds no record.
    let mut out = [9; 3];
    let listed = range(&store, 2_147_483_648, 2_147_483_648, &mut out);
    assert_eq!((listed.number, listed.count, listed.more, out), (0, 0, 2_147_483_648, [9; 3]));
    let mut out = [9; 6];
    let listed = range(&store, 0, u32::MAX, &mut out);
    assert_eq!((listed.number, listed.count, listed.more), (0, 1, 2_147_483_648));
    assert_eq!(out, [1_073_741_824, 60_000, 9_131, 45_999, 9, 9]);
    let listed = range(&store, 0, 1_073_741_824, &mut out);
    assert_eq!((listed.number, listed.count, listed.more), (0, 1, 0));
}

/// The sample's three keys handed back one by one, word by word.
#[test]
fn handed_back() {
    let mut store = new_store(1, 1, 4, 4);
    let records = [
        Record { key: 2_147_483_648, price: 1_250_000, lease: 36_525, last: 66_000 },
        Record { key: 3_221_225_472, price: 90_000, lease: 0, last: 0 },
        Record { key: 1_073_741_824, price: 60_000, lease: 9_131, last: 45_999 },
    ];
    for record in records {
        assert_eq!(entered(&mut store, record)[0], 0);
    }
    let full = store.clone();
    assert_eq!(remove(&mut store, 1).number, 1);
    assert_eq!(remove(&mut store, 0).number, 1);
    assert_eq!(store, full);

    // Keys below 2^31 have a stretch of their own, because those above need two.
    let removed = remove(&mut store, 1_073_741_824);
    assert_eq!((removed.number, removed.record), (0, records[2]));
    let words = [
        [1, 1, 4, 4, 3, 3, 3, 2, 0, 3, 0, 1, 0, 0, 0, 0].as_slice(),
        &[0, 1, 0, 2, 0, 0, 0, 0],
        &[1, 1, 1, 0, 1, 1, 1, 2],
        &[1, 2, 0, 0, 1, 1, 1, 2],
        &[0; 8],
        &[1, 2_147_483_648, 1_250_000, 36_525, 66_000],
        &[1, 3_221_225_472, 90_000, 0, 0],
        &[0; 5],
        &[0; 5],
    ];
    assert_eq!(store, words.concat());
    checker::canonical(&store).unwrap();

    // One page is enough, so one node is: the left one stays, and the root goes last.
    let removed = remove(&mut store, 3_221_225_472);
    assert_eq!((removed.number, removed.record), (0, records[1]));
    let words = [
        [1, 1, 4, 4, 3, 3, 1, 1, 3, 2, 2, 2, 0, 0, 0, 0].as_slice(),
        &[0, 1, 0, 0, 0, 1, 0, 0],
        &[0; 8],
        &[0, 0, 2, 0, 0, 0, 0, 0],
        &[0; 8],
        &[1, 2_147_483_648, 1_250_000, 36_525, 66_000],
        &[0, 3, 0, 0, 0],
        &[0; 5],
        &[0; 5],
    ];
    assert_eq!(store, words.concat());
    checker::canonical(&store).unwrap();

    // The last released are taken first, and the reply counts blocks in use.
    assert_eq!(entered(&mut store, records[1]), [0, 3_221_225_472, 2, 3, 2]);
    assert_eq!(store[4..12], [3, 3, 2, 2, 0, 3, 0, 1]);
    checker::canonical(&store).unwrap();
    for record in [records[0], records[1]] {
        assert_eq!(remove(&mut store, record.key).record, record);
    }
    assert_eq!([store[4] - store[10], store[5] - store[11], store[7]], [1, 0, 1]);
    checker::canonical(&store).unwrap();
}

#[test]
fn refusals_in_order() {
    let mut store = new_store(2, 2, 9, 9);
    assert_eq!(entered(&mut store, plot(5)), [0, 5, 1, 1, 1]);
    assert_eq!(entered(&mut store, plot(5)), [8, 0, 0, 0, 0]);
    assert_eq!(entered(&mut store, plot(0)), [6, 0, 0, 0, 0]);
    assert_eq!(entered(&mut store, Record { lease: 36_526, ..plot(6) })[0], 6);
    assert_eq!(summary(&store, 2, 1, 100_000).number, 7);
    assert_eq!(summary(&store, 1, 1, 100_000).number, 6);
    assert_eq!(range(&store, 2, 1, &mut []).number, 7);
    assert_eq!(summary(&store, 5, 5, 0).count, 1);
    // A damaged node comes before a held key, and a broken head before all.
    let mut damaged = store.clone();
    damaged[16] = 1;
    assert_eq!(entered(&mut damaged, plot(5))[0], 9);
    assert_eq!(entered(&mut damaged, plot(0))[0], 6);
    assert_eq!(summary(&damaged, 2, 1, 0).number, 7);
    assert_eq!((find(&damaged, 0).number, next(&damaged, 0).number), (9, 9));
    assert_eq!((remove(&mut damaged, 0).number, remove(&mut damaged, 5).number), (9, 9));
    damaged[8] = 1;
    assert_eq!(entered(&mut damaged, plot(0))[0], 3);
    assert_eq!(remove(&mut damaged, 5).number, 3);
    assert_eq!((summary(&damaged, 2, 1, 100_000).number, range(&damaged, 2, 1, &mut []).number), (3, 3));
    for words in [0, 1, 8, 15, 16, store.len() - 1] {
        let short = &mut store.clone()[..words];
        assert_eq!((find(short, 1).number, next(short, 1).number, entered(short, plot(9))[0]), (3, 3, 3));
    }
}

#[test]
fn top_keys() {
    let two = |theta, nodes, pages| {
        let mut store = new_store(theta, 1, nodes, pages);
        assert_eq!(entered(&mut store, plot(u32::MAX - 1)), [0, u32::MAX - 1, 1, 1, 1]);
        let before = store.clone();
        let answer = entered(&mut store, plot(u32::MAX));
        if answer[0] == 0 {
            checker::canonical(&store).unwrap();
            // Every join of every level: the tree of one key, and the same again with released blocks.
            assert_eq!(remove(&mut store, u32::MAX).number, 0);
            assert!(checker::same_tree(&store, &before));
            checker::canonical(&store).unwrap();
            assert_eq!(entered(&mut store, plot(u32::MAX)), answer);
            checker::canonical(&store).unwrap();
        } else {
            assert_eq!(store, before);
        }
        answer
    };
    assert_eq!(two(6, 76, 2), [0, u32::MAX, 6, 76, 2]);
    assert_eq!(two(6, 75, 2), [10, 0, 0, 0, 0]);
    assert_eq!(two(6, 76, 1), [10, 0, 0, 0, 0]);
    assert_eq!(two(1, 528, 2), [0, u32::MAX, 32, 528, 2]);
    assert_eq!(two(1, 527, 2), [10, 0, 0, 0, 0]);
}

#[test]
fn most_levels() {
    // L for theta 6, C 24 is 5: levels 6 break the head rule, 5 do not.
    let mut store = new_store(6, 24, 1, 1);
    store[7] = 5;
    assert_eq!(find(&store, 1).number, 9);
    store[7] = 6;
    assert_eq!(find(&store, 1).number, 3);
    for theta in 1..=6 {
        for capacity in 1..=24u32 {
            let f = capacity.ilog2();
            let mut store = new_store(theta, capacity, 1, 1);
            store[7] = (32 - f).div_ceil(theta);
            assert_eq!(find(&store, 1).number, if store[7] == 1 { 1 } else { 9 });
            store[7] += 1;
            assert_eq!(find(&store, 1).number, 3);
        }
    }
}

#[test]
fn checker_sees() {
    let mut store = new_store(2, 2, 40, 40);
    for key in 1..40 {
        assert_eq!(entered(&mut store, plot(key << 20))[0], 0);
    }
    for key in 3..30 {
        assert_eq!(remove(&mut store, key << 20).number, 0);
    }
    assert_eq!(store[10..12], [3, 14]);
    checker::canonical(&store).unwrap();
    // A taken block that is neither reached nor released.
    for (name, block) in [(8, 16 + 12 * (store[8] as usize - 1)), (9, 16 + 40 * 12 + 9 * (store[9] as usize - 1))] {
        let mut other = store.clone();
        other[name] = other[block + 10 - name];
        other[name + 2] -= 1;
        checker::check(&other).expect_err("a lost block");
        other[block + 10 - name] = 0;
        checker::check(&other).expect_err("a lost block");
    }
    // Every word of the store matters to the checker, but for those of records, where another may be lawful.
    let mut rng = Rng(3);
    for at in 0..store.len() {
        let mut other = store.clone();
        other[at] ^= 1 << rng.below(32);
        let first_page = 16 + 40 * 12;
        let of_record = at >= first_page && {
            let (page, word) = ((at - first_page) / 9, (at - first_page) % 9);
            word > 0 && word <= 4 * store[first_page + 9 * page] as usize
        };
        if !of_record {
            checker::canonical(&other).expect_err(&format!("word {at}"));
        }
        if of_record {
            assert!(!checker::same_tree(&store, &other), "word {at}");
        }
    }
}
