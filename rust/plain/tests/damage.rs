//! Damaged stores: every call answers as the literal reading does, a refused one changes nothing, and what an accepted
//! entry has stored is found.

mod common;

use common::literal::Literal;
use common::{
    bend, circle, damage, damage_around, elsewhere, joined_circle, mixture, new_store, other, record, tangle, too_deep,
    too_deep_beside, Keys, Rng,
};
use plain::{enter, find, next, range, remove, summary};

/// Removals by number; those that joined nodes, and those refused for a block that find does not visit.
#[derive(Default, Debug)]
struct Removals {
    numbers: [u64; 12],
    joining: u64,
    behind: u64,
}

/// Compares a removal with the literal reading.
fn compare_removal(store: &[u32], key: u32, seen: &mut Removals) {
    let mut changed = store.to_vec();
    let mut literal = Literal::new(store);
    let removed = remove(&mut changed, key);
    assert_eq!((removed.number, removed.record), literal.remove(key), "{key:#x}");
    assert!(changed == literal.words, "{key:#x}");
    let sought = find(store, key);
    match (removed.number, sought.number) {
        (0, _) => seen.joining += u64::from(changed[10] > store[10]),
        (9, 0) => seen.behind += 1,
        _ => assert_eq!(removed.number, sought.number),
    }
    if removed.number == 0 {
        assert_eq!(removed, sought);
        let again = find(&changed, key);
        assert!(changed[..16] != store[..16] && again.number == 3 || again.number == 1);
    } else {
        assert!(changed == store);
    }
    seen.numbers[removed.number as usize] += 1;
}

/// Compares an entry with the literal reading.
fn compare_entry(store: &[u32], record: plain::Record, seen: &mut [u64; 12]) {
    let mut changed = store.to_vec();
    let mut literal = Literal::new(store);
    let entered = enter(&mut changed, record);
    let reply = (entered.number, entered.key, entered.levels, entered.nodes, entered.pages);
    assert_eq!(reply, literal.enter(record));
    assert!(changed == literal.words);
    seen[entered.number as usize] += 1;
    if entered.number == 0 {
        let found = find(&changed, record.key);
        assert_eq!((found.number, found.record), (0, record));
    } else {
        assert!(changed == store);
    }
}

/// Compares every call on a store with the literal reading, and counts the answers by number.
fn compare(store: &[u32], rng: &mut Rng, held: &[u32], seen: &mut [u64; 12]) {
    let literal = Literal::new(store);
    let mut key = || match rng.below(4) {
        0 => rng.word(),
        1 => rng.one_of(&[0, 1, u32::MAX]),
        _ => rng.one_of(held).wrapping_add(rng.below(3)).wrapping_sub(1),
    };
    let (sought, a, b, new) = (key(), key(), key(), key());
    let found = find(store, sought);
    assert_eq!((found.number, found.record), literal.find(sought));
    seen[found.number as usize] += 1;
    let above = next(store, sought);
    assert_eq!((above.number, above.record), literal.next(sought));
    seen[above.number as usize] += 1;

    let (low, high) = (a.min(b), a.max(b));
    let mut out = vec![3; rng.below(60) as usize];
    let expected = literal.range(low, high, &out);
    let listed = range(store, low, high, &mut out);
    assert_eq!((listed.number, listed.count, listed.more, out), expected);
    seen[listed.number as usize] += 1;
    let today = rng.below(100_100);
    let sheet = summary(store, low, high, today);
    assert_eq!((sheet.number, sheet.count, sheet.total, sheet.key), literal.summary(low, high, today));
    seen[sheet.number as usize] += 1;

    compare_entry(store, record(new, rng), seen);
    let mut removals = Removals::default();
    compare_removal(store, sought, &mut removals);
    seen.iter_mut().zip(removals.numbers).for_each(|(all, more)| *all += more);
}

#[test]
fn damaged_stores() {
    let mut seen = [0; 12];
    for seed in 0..1_500 {
        let mut rng = Rng(seed ^ 0x5eed_0000_0000);
        let theta = 1 + rng.below(6).min(rng.below(6));
        let capacity = rng.one_of(&[1, 2, 3, 4, 8]);
        let (nodes, pages) = rng.one_of(&[(20, 12), (60, 60), (300, 60)]);
        let mut store = new_store(theta, capacity, nodes, pages);
        let mut keys = Keys::new(rng.below(Keys::KINDS), &mut rng);
        let mut held = vec![1];
        for _ in 0..5 + rng.below(60) {
            let key = keys.draw(&mut rng);
            if enter(&mut store, record(key, &mut rng)).number == 0 {
                held.push(key);
            }
        }
        for _ in 0..25 {
            let mut damaged = store.clone();
            for _ in 0..1 + rng.below(3) {
                damage(&mut damaged, &mut rng);
            }
            for _ in 0..4 {
                compare(&damaged, &mut rng, &held, &mut seen);
            }
        }
    }
    println!("answers by number: {seen:?}");
    for number in [0, 1, 3, 6, 8, 9, 10] {
        assert!(seen[number] > 100, "{seen:?}");
    }
}

/// Removals and entries on stores with released blocks, sound, damaged and with their chains bent.
#[test]
fn removals() {
    let (mut sound, mut damaged, mut bent) = (Removals::default(), Removals::default(), Removals::default());
    let mut entries = [0; 12];
    // More seeds for a longer run.
    let seeds: u64 = std::env::var("SEEDS").map_or(2_000, |seeds| seeds.parse().unwrap());
    for seed in 0..seeds {
        let rng = &mut Rng(seed ^ 0x4e11_0000_0000);
        let theta = 1 + rng.below(6).min(rng.below(6));
        let capacity = rng.one_of(&[1, 1, 2, 3, 4, 8, 24]);
        let (nodes, pages) = rng.one_of(&[(20, 12), (60, 60), (300, 60), (600, 60)]);
        let calls = 10 + rng.below(120);
        let (store, mut held, mut keys) = mixture([theta, capacity, nodes, pages], calls, rng);
        held.push(1);
        for _ in 0..20 {
            compare_removal(&store, rng.one_of(&held), &mut sound);
        }
        compare_removal(&store, rng.word(), &mut sound);
        for _ in 0..12 {
            let mut other = store.clone();
            for _ in 0..1 + rng.below(3) {
                damage(&mut other, rng);
            }
            for _ in 0..6 {
                compare_removal(&other, rng.one_of(&held), &mut damaged);
            }
        }
        // A look at the blocks around one key: damage that a removal of it meets more often.
        for _ in 0..40 {
            let (mut other, key) = (store.clone(), rng.one_of(&held));
            damage_around(&mut other, key, rng);
            compare_removal(&other, key, &mut damaged);
        }
        for _ in 0..12 {
            let mut other = store.clone();
            bend(&mut other, rng);
            compare_removal(&other, rng.one_of(&held), &mut bent);
            for _ in 0..4 {
                let key = if rng.chance(50) { rng.one_of(&held) ^ 1 << rng.below(32) } else { keys.draw(rng) };
                compare_entry(&other, record(key, rng), &mut entries);
            }
        }
    }
    println!("removals, sound: {sound:?}");
    println!("removals, damaged: {damaged:?}");
    println!("with chains bent: {bent:?}, entries {entries:?}");
    assert!([0, 1].iter().all(|&number| sound.numbers[number] > 100) && sound.joining > 100);
    assert!([0, 1, 3, 9].iter().all(|&number| damaged.numbers[number] > 100));
    assert!(damaged.joining > 100 && damaged.behind > 100);
    assert!([0, 1, 3].iter().all(|&number| bent.numbers[number] > 100) && bent.behind == 0);
    assert!([0, 3, 8, 9, 10].iter().all(|&number| entries[number] > 100));
}

/// Trees of sound blocks put together at random, some with a place changed.
#[test]
fn tangles() {
    let (mut removals, mut entries) = (Removals::default(), [0; 12]);
    let seeds: u64 = std::env::var("SEEDS").map_or(2_000, |seeds| seeds.parse().unwrap());
    for seed in 0..20 * seeds {
        let rng = &mut Rng(seed ^ 0x7a9_0000_0000);
        let (mut store, keys) = tangle(rng);
        for _ in 0..rng.below(3) {
            damage(&mut store, rng);
        }
        for &key in &keys {
            compare_removal(&store, key, &mut removals);
        }
        compare_entry(&store, record(rng.word(), rng), &mut entries);
    }
    println!("tangles: {removals:?}, entries {entries:?}");
    assert!(removals.joining > 1_000 && removals.behind > 1_000);
}

/// Calls go on in a damaged store: whatever is accepted is found, and what is removed is not.
#[test]
fn going_on() {
    for seed in 0..1_500 {
        let mut rng = Rng(seed ^ 0xface_0000_0000);
        let theta = 1 + rng.below(4);
        let capacity = rng.one_of(&[1, 2, 4]);
        let mut store = new_store(theta, capacity, 100, 60);
        let mut keys = Keys::new(rng.below(Keys::KINDS), &mut rng);
        let mut held = vec![1];
        for at in 0..120 {
            if at >= 20 && at % 10 == 0 {
                damage(&mut store, &mut rng);
            }
            if rng.chance(30) {
                let key = rng.one_of(&held);
                compare_removal(&store, key, &mut Removals::default());
                remove(&mut store, key);
            } else {
                let record = record(keys.draw(&mut rng), &mut rng);
                compare_entry(&store, record, &mut [0; 12]);
                enter(&mut store, record);
                held.push(record.key);
            }
        }
    }
}

/// Words of no store at all.
#[test]
fn any_words() {
    let mut rng = Rng(11);
    let mut seen = [0; 12];
    for _ in 0..20_000 {
        let length = rng.below(400) as usize;
        let mut store: Vec<u32> = (0..length).map(|_| if rng.chance(70) { rng.below(4) } else { rng.word() }).collect();
        if length > 16 && rng.chance(90) {
            let head = [
                1 + rng.below(3),
                1 + rng.below(3),
                1 + rng.below(8),
                1 + rng.below(8),
                1 + rng.below(3),
                rng.below(3),
                1,
                1 + rng.below(3),
            ];
            store[..8].copy_from_slice(&head);
            store[8..16].fill(0);
            if rng.chance(30) {
                store[8..12].fill_with(|| rng.below(3));
            }
        }
        compare(&store, &mut rng, &[1, 2, 3, 1 << 31], &mut seen);
    }
}

/// Every single word of a small store changed, in many ways.
#[test]
fn each_word() {
    let mut rng = Rng(12);
    let mut seen = [0; 12];
    for (theta, capacity) in [(1, 1), (2, 2), (3, 1), (6, 3)] {
        let mut store = new_store(theta, capacity, 40, 40);
        let mut held = vec![1];
        let mut keys = Keys::new(0, &mut rng);
        for _ in 0..25 {
            let key = keys.draw(&mut rng);
            if enter(&mut store, record(key, &mut rng)).number == 0 {
                held.push(key);
            }
        }
        for &key in &held[15..] {
            assert_eq!(remove(&mut store, key).number, 0);
        }
        for at in 0..store.len() {
            for _ in 0..3 {
                let mut damaged = store.clone();
                damaged[at] = other(damaged[at], &store, &mut rng);
                compare(&damaged, &mut rng, &held, &mut seen);
            }
        }
    }
}

/// Links that lead back: as many links as nodes are taken may be followed, and no more.
#[test]
fn circles() {
    let high = (1 << 31) + 5;
    for taken in 1..=5 {
        for found in [true, false] {
            let store = circle(taken, found, high);
            let literal = Literal::new(&store);
            for key in [high - 1, high, u32::MAX] {
                let answer = next(&store, key);
                assert_eq!((answer.number, answer.record), literal.next(key));
                assert_eq!(answer.number, if found && key < high { 0 } else { 9 });
                let mut out = [3; 8];
                let expected = literal.range(key, u32::MAX, &out);
                let listed = range(&store, key, u32::MAX, &mut out);
                assert_eq!((listed.number, listed.count, listed.more, out.to_vec()), expected);
            }
        }
    }
}

/// Level-1 nodes in a circle: a removal that joins all of them meets at last a pair that is linked against the key order too.
#[test]
fn joined_circles() {
    for theta in 1..=6 {
        for keys in [[u32::MAX, u32::MAX - 1], [1, 2]] {
            let store = joined_circle(theta, keys);
            for key in keys {
                assert_eq!(find(&store, key).number, 0);
                compare_removal(&store, key, &mut Removals::default());
                assert_eq!(remove(&mut store.clone(), key).number, 9);
            }
        }
    }
}

/// Damage behind what a range reads is not met; damage before its end is, and then nothing is written.
#[test]
fn reads_no_further() {
    let mut store = new_store(2, 1, 8, 8);
    for key in [1 << 30, 2 << 30, 3 << 30] {
        assert_eq!(enter(&mut store, plain::Record { key, price: 1, lease: 0, last: 0 }).number, 0);
    }
    // Page 3 holds the last key; its count is damaged.
    let page = 16 + 8 * 12 + 2 * 5;
    assert_eq!(store[page + 1], 3 << 30);
    store[page] = 2;
    let listed = |low, high, words: usize| {
        let mut out = vec![5; words];
        let answer = range(&store, low, high, &mut out);
        assert_eq!(
            Literal::new(&store).range(low, high, &vec![5; words]),
            (answer.number, answer.count, answer.more, out)
        );
        (answer.number, answer.count, answer.more)
    };
    assert_eq!(listed(0, 2 << 30, 8), (0, 2, 0));
    assert_eq!(listed(0, 2 << 30, 4), (0, 1, 2 << 30));
    assert_eq!(listed(0, u32::MAX, 4), (0, 1, 2 << 30));
    assert_eq!(listed(0, u32::MAX, 8), (9, 0, 0));
    assert_eq!(listed(0, (2 << 30) + 1, 8), (9, 0, 0));
    assert_eq!(listed(0, (2 << 30) - 1, 8), (0, 1, 0));
    assert_eq!(summary(&store, 0, 2 << 30, 0).number, 0);
    assert_eq!(summary(&store, 0, (2 << 30) + 1, 0).number, 9);
    assert_eq!((next(&store, 1 << 30).number, next(&store, 2 << 30).number), (0, 9));
}

/// A key that is sought in its own stretch and stands behind it: at low it is read, above it not.
#[test]
fn low_elsewhere() {
    let store = elsewhere();
    let literal = Literal::new(&store);
    for (low, high, words, expected) in [
        (77, 77, 4, (0, 1, 0)),
        (77, 77, 3, (0, 0, 77)),
        (77, 78, 4, (9, 0, 0)),
        (77, 78, 0, (0, 0, 77)),
        (76, 77, 4, (0, 1, 0)),
        (78, 79, 4, (9, 0, 0)),
    ] {
        let mut out = vec![5; words];
        let answer = range(&store, low, high, &mut out);
        assert_eq!((answer.number, answer.count, answer.more), expected, "{low} to {high}");
        assert_eq!(literal.range(low, high, &vec![5; words]), (answer.number, answer.count, answer.more, out));
    }
    assert_eq!((summary(&store, 77, 77, 0).number, summary(&store, 77, 77, 0).count), (0, 1));
    assert_eq!((find(&store, 77).number, next(&store, 77).number, next(&store, 76).number), (1, 9, 0));
}

/// The bits used before a node and its depth together are at most 32.
#[test]
fn too_many_bits() {
    let mut store = too_deep();
    let literal = Literal::new(&store);
    for key in [0, 1, 1 << 31, u32::MAX - 2, u32::MAX - 1, u32::MAX] {
        assert_eq!((find(&store, key).number, find(&store, key).record), literal.find(key));
        assert_eq!((next(&store, key).number, next(&store, key).record), literal.next(key));
    }
    assert_eq!((find(&store, u32::MAX).number, next(&store, u32::MAX).number), (9, 9));
    let record = plain::Record { key: u32::MAX - 2, price: 1, lease: 0, last: 0 };
    let before = store.clone();
    assert_eq!(enter(&mut store, record).number, 9);
    assert!(store == before);
}

/// The same of a node beside the path.
#[test]
fn too_many_bits_beside() {
    for depth in 1..=3 {
        let (mut store, key) = too_deep_beside(depth);
        assert_eq!(find(&store, key).number, 0);
        compare_removal(&store, key, &mut Removals::default());
        assert_eq!(remove(&mut store, key).number, if depth == 3 { 9 } else { 0 });
    }
}

fn plot(key: u32) -> plain::Record {
    plain::Record { key, price: 1, lease: 0, last: 0 }
}

/// Chains bent in every way, one after another: an entry that takes five of seven released nodes, and one of five pages.
#[test]
fn chains() {
    let mut store = new_store(1, 1, 40, 40);
    let keys = [1 << 31, 3 << 30, 7 << 29, 1 << 29, 1 << 27, 1 << 26, 3 << 28, 5 << 27];
    for key in keys {
        assert_eq!(enter(&mut store, plot(key)).number, 0);
    }
    for key in [7 << 29, 1 << 27, 1 << 26, 5 << 27, 3 << 30] {
        assert_eq!(remove(&mut store, key).number, 0);
    }
    plain::checker::canonical(&store).unwrap();
    let chain = |name: usize, first: usize, length: usize, next: usize| -> Vec<usize> {
        let mut number = store[name];
        (0..store[name + 2])
            .map(|_| {
                let at = first + (number as usize - 1) * length;
                number = store[at + next];
                at
            })
            .collect()
    };
    let (nodes, pages) = (chain(8, 16, 8, 2), chain(9, 16 + 40 * 8, 5, 1));
    let key = 5 << 27;
    let number = |change: &dyn Fn(&mut [u32])| {
        let mut bent = store.clone();
        change(&mut bent);
        let mut removals = Removals::default();
        compare_entry(&bent, plot(key), &mut [0; 12]);
        compare_removal(&bent, 1 << 31, &mut removals);
        // A removal takes no block: only the head rule matters to it.
        let entered = enter(&mut bent, plot(key)).number;
        assert_eq!(removals.numbers[3] == 1, entered == 3);
        assert!(removals.numbers[0] + removals.numbers[3] == 1);
        entered
    };
    let taken = {
        let mut after = store.clone();
        assert_eq!(enter(&mut after, plot(key)).number, 0);
        [store[10] - after[10], store[11] - after[11]].map(|taken| taken as usize)
    };
    assert_eq!((taken, nodes.len(), pages.len()), ([5, 1], 7, 5));

    for (name, chain, taken, next, blocks) in [(8, &nodes, taken[0], 2, store[4]), (9, &pages, taken[1], 1, store[5])] {
        let (count, all) = (name + 2, chain.len() as u32);
        // The head: a name 0 with a count, a count 0 with a name, a name that is not taken, a count too large for the head rule.
        for (at, word) in
            [(name, 0), (count, 0), (name, blocks + 1), (name, u32::MAX), (count, blocks + 1), (count, u32::MAX)]
        {
            assert_eq!(number(&|bent| bent[at] = word), 3, "word {at} is {word}");
        }
        assert_eq!(number(&|bent| bent[count] = blocks), if name == 8 { 3 } else { 0 });
        // A count too large or too small is seen only at the end of the chain.
        assert_eq!(number(&|bent| bent[count] = all + 1), 0);
        assert_eq!(number(&|bent| bent[count] = taken as u32), 9);
        assert_eq!(number(&|bent| (bent[count], bent[chain[taken - 1] + next]) = (taken as u32, 0)), 0);
        assert_eq!(number(&|bent| bent[chain[taken - 1] + next] = 0), 9);
        for (place, &block) in chain.iter().enumerate() {
            let judged = |fault: bool| if fault && place < taken { 9 } else { 0 };
            // A wrong form.
            for word in (0..if name == 8 { 8 } else { 5 }).filter(|&word| word != next) {
                assert_eq!(number(&|bent| bent[block + word] = 1), judged(true), "block {place}, word {word}");
            }
            // A next that is not taken, or 0 before the last counted.
            for word in [blocks + 1, u32::MAX] {
                assert_eq!(number(&|bent| bent[block + next] = word), judged(true));
            }
            assert_eq!(number(&|bent| bent[block + next] = 0), judged(place + 1 < chain.len()));
            // A loop: seen if the entry takes a block twice.
            for &back in &chain[..=place] {
                let to = number_of(&store, name, back);
                assert_eq!(number(&|bent| bent[block + next] = to), judged(place + 1 < taken), "{place} to {to}");
            }
        }
        // Every block in use named as released, at the front and behind it: seen where it is taken.
        for block in (1..=blocks).filter(|&block| !chain.iter().any(|&at| number_of(&store, name, at) == block)) {
            assert_eq!(number(&|bent| bent[name] = block), 9);
            assert_eq!(number(&|bent| bent[chain[0] + next] = block), if taken > 1 { 9 } else { 0 });
        }
    }
    // The last four words of the head are zero.
    for at in 12..16 {
        assert_eq!(number(&|bent| bent[at] = 1), 3);
    }
}

/// The number of the block at a place.
fn number_of(store: &[u32], name: usize, at: usize) -> u32 {
    let first = if name == 8 { 16 } else { 16 + store[2] as usize * 8 };
    ((at - first) / if name == 8 { 8 } else { 5 }) as u32 + 1
}

/// What a removal looks at beside its path, changed word by word: in the sample's tree without its lowest key the removal of
/// the highest one joins two pages, two nodes, and releases the root.
#[test]
fn beside_the_path() {
    let mut store = new_store(1, 1, 4, 4);
    for key in [1 << 31, 3 << 30, 1 << 30] {
        assert_eq!(enter(&mut store, plot(key)).number, 0);
    }
    assert_eq!(remove(&mut store, 1 << 30).number, 0);
    let [one, two, root, page] = [16, 24, 32, 48];
    assert_eq!(store[one..one + 8], [0, 1, 0, 2, 0, 0, 0, 0]);
    assert_eq!(store[two..two + 8], [1, 1, 1, 0, 1, 1, 1, 2]);
    assert_eq!(store[root..root + 8], [1, 2, 0, 0, 1, 1, 1, 2]);
    let number = |changes: &[(usize, u32)]| {
        let mut changed = store.clone();
        for &(at, word) in changes {
            changed[at] = word;
        }
        let mut seen = Removals::default();
        compare_removal(&changed, 3 << 30, &mut seen);
        assert_eq!(find(&changed, 3 << 30).number, 0);
        remove(&mut changed, 3 << 30).number
    };
    assert_eq!(number(&[]), 0);
    // The sibling page: its count, its key's bits, its lease.
    for (at, word) in
        [(page, 2), (page, 0), (page + 1, 3 << 30), (page + 1, 1 << 30), (page + 1, 0), (page + 3, 40_000)]
    {
        assert_eq!(number(&[(at, word)]), 9);
    }
    // The sibling node: its depth, its level, its page, words after its entries; and a page that is not taken.
    for (at, word) in [(one, 1), (one + 1, 2), (one + 1, 0), (one + 4, 1), (one + 5, 4), (one + 6, 1), (one + 7, 1)] {
        assert_eq!(number(&[(at, word)]), 9);
    }
    // Links: the pair links to each other, in key order only.
    for (at, word) in [(one + 3, 0), (one + 3, 3), (one + 3, 1), (two + 2, 0), (two + 2, 2), (two + 2, 3)] {
        assert_eq!(number(&[(at, word)]), 9);
    }
    assert_eq!(number(&[(one + 2, 2)]), 9);
    assert_eq!(number(&[(two + 3, 1)]), 9);
    // A neighbour on either side is another level-1 node that links back.
    for (at, word) in [(one + 2, 1), (one + 2, 3), (two + 3, 2), (two + 3, 3)] {
        assert_eq!(number(&[(at, word)]), 9);
    }
    let four = 40;
    let neighbours: [[(usize, u32); 3]; 2] =
        [[(one + 2, 4), (four + 1, 1), (four + 3, 1)], [(two + 3, 4), (four + 1, 1), (four + 2, 2)]];
    for [link, level, back] in neighbours {
        assert_eq!(number(&[(4, 4), link, level, back]), 0);
        assert_eq!(number(&[(4, 4), link, back]), 9);
        assert_eq!(number(&[(4, 4), link, level]), 9);
        assert_eq!(number(&[(4, 4), link, level, (back.0, 3)]), 9);
    }
    // Both prefixes lead to one node.
    assert_eq!(number(&[(root + 5, 2)]), 9);
    // With two records beside it in more pages the pair stays apart, and no link is looked at.
    let mut apart = new_store(1, 1, 4, 4);
    for key in [1 << 31, 3 << 30, 1 << 30] {
        assert_eq!(enter(&mut apart, plot(key)).number, 0);
    }
    for (at, word) in [(one + 2, 2), (one + 3, 0), (two + 2, 0), (two + 3, 1)] {
        let mut changed = apart.clone();
        changed[at] = word;
        compare_removal(&changed, 1 << 30, &mut Removals::default());
        assert_eq!(remove(&mut changed, 1 << 30).number, 0);
    }
}
