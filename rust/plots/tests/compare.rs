//! The proved library against plain Rust: the number, the reply, every word of the store and of the output, and the words
//! around each slice, after each of many random calls on sound stores, on damaged ones, and on words of no store; with released
//! blocks that removals leave, and with their chains bent.

#[path = "../../plain/tests/common/mod.rs"]
mod common;

use common::{
    bend, circle, damage, damage_around, elsewhere, joined_circle, other, record, size, tangle, too_deep,
    too_deep_beside, unlawful, Keys, Rng,
};
use plain::Record;
use plots::{ffi, Label, Sizes, Store};
use std::ops::Range;

#[derive(Clone, Copy, Debug)]
enum Call {
    SetUp { theta: u32, capacity: u32, nodes: u32, pages: u32 },
    Enter(Record),
    Remove(u32),
    Find(u32),
    Next(u32),
    Range { low: u32, high: u32 },
    Summary { low: u32, high: u32, today: u32 },
    Balance { price: u32, lease: u32, last: u32, today: u32 },
    KeyOf { section: u32, row: u32, place: u32, letter: u32 },
    LabelOf(u32),
    Convert(u32),
}

/// The operations in the order of `Call::index`, each with the numbers that it can answer.
const OPERATIONS: [(&str, &[usize]); 11] = [
    ("set_up", &[0, 4, 5]),
    ("enter", &[0, 3, 6, 8, 9, 10]),
    ("remove", &[0, 1, 3, 9]),
    ("find", &[0, 1, 3, 9]),
    ("next", &[0, 1, 3, 9]),
    ("range", &[0, 3, 7, 9]),
    ("summary", &[0, 3, 6, 7, 9]),
    ("balance", &[0, 6]),
    ("key_of", &[0, 11]),
    ("label_of", &[0, 11]),
    ("convert", &[0, 11]),
];

impl Call {
    fn index(self) -> usize {
        match self {
            Call::SetUp { .. } => 0,
            Call::Enter(_) => 1,
            Call::Remove(_) => 2,
            Call::Find(_) => 3,
            Call::Next(_) => 4,
            Call::Range { .. } => 5,
            Call::Summary { .. } => 6,
            Call::Balance { .. } => 7,
            Call::KeyOf { .. } => 8,
            Call::LabelOf(_) => 9,
            Call::Convert(_) => 10,
        }
    }

    /// Plain Rust's number and values.
    fn plain(self, store: &mut [u32], out: &mut [u32]) -> (u32, Vec<u64>) {
        let words = |record: Record| record.words().map(u64::from).to_vec();
        match self {
            Call::SetUp { theta, capacity, nodes, pages } => {
                let a = plain::set_up(store, theta, capacity, nodes, pages);
                (a.number, vec![a.size.into()])
            }
            Call::Enter(record) => {
                let a = plain::enter(store, record);
                (a.number, vec![a.key.into(), a.levels.into(), a.nodes.into(), a.pages.into()])
            }
            Call::Remove(key) => {
                let a = plain::remove(store, key);
                (a.number, words(a.record))
            }
            Call::Find(key) => {
                let a = plain::find(store, key);
                (a.number, words(a.record))
            }
            Call::Next(key) => {
                let a = plain::next(store, key);
                (a.number, words(a.record))
            }
            Call::Range { low, high } => {
                let a = plain::range(store, low, high, out);
                (a.number, vec![a.count, a.more.into()])
            }
            Call::Summary { low, high, today } => {
                let a = plain::summary(store, low, high, today);
                (a.number, vec![a.count, a.total, a.key.into()])
            }
            Call::Balance { price, lease, last, today } => {
                let a = plain::balance(price, lease, last, today);
                (a.number, vec![a.value.into()])
            }
            Call::KeyOf { section, row, place, letter } => {
                let a = plain::key_of(section, row, place, letter);
                (a.number, vec![a.key.into()])
            }
            Call::LabelOf(key) => {
                let a = plain::label_of(key);
                (a.number, vec![a.section.into(), a.row.into(), a.place.into(), a.letter.into()])
            }
            Call::Convert(key) => {
                let a = plain::convert(key);
                (a.number, vec![a.key.into()])
            }
        }
    }

    /// The proved library's number; its values go to the reply.
    fn proved(self, store: &mut [u32], out: &mut [u32], reply: &mut [u64]) -> u32 {
        match self {
            Call::SetUp { theta, capacity, nodes, pages } => ffi::set_up(store, theta, capacity, nodes, pages, reply),
            Call::Enter(Record { key, price, lease, last }) => ffi::enter(store, key, price, lease, last, reply),
            Call::Remove(key) => ffi::remove(store, key, reply),
            Call::Find(key) => ffi::find(store, key, reply),
            Call::Next(key) => ffi::next(store, key, reply),
            Call::Range { low, high } => ffi::range(store, low, high, out, reply),
            Call::Summary { low, high, today } => ffi::summary(store, low, high, today, reply),
            Call::Balance { price, lease, last, today } => ffi::balance(price, lease, last, today, reply),
            Call::KeyOf { section, row, place, letter } => ffi::key_of(section, row, place, letter, reply),
            Call::LabelOf(key) => ffi::label_of(key, reply),
            Call::Convert(key) => ffi::convert(key, reply),
        }
    }

    /// The same through `Store` and the functions beside it, back in numbers: none is 1, and then the values are zeros.
    fn wrapped(self, store: &mut [u32], out: &mut [u32]) -> (u32, Vec<u64>) {
        let mut store = Store::over(store);
        let words = |record: plots::Record| <[u32; 4]>::from(record).map(u64::from).to_vec();
        let key = |key: Option<u32>| u64::from(key.unwrap_or(0));
        let answer = match self {
            Call::SetUp { theta, capacity, nodes, pages } => {
                store.set_up(Sizes { theta, capacity, nodes, pages }).map(|size| vec![size as u64])
            }
            Call::Enter(record) => store
                .enter(record.words().into())
                .map(|a| vec![a.key.into(), a.levels.into(), a.nodes.into(), a.pages.into()]),
            Call::Remove(key) => store.remove(key).map(|record| record.map_or_else(Vec::new, words)),
            Call::Find(key) => store.find(key).map(|record| record.map_or_else(Vec::new, words)),
            Call::Next(key) => store.next(key).map(|record| record.map_or_else(Vec::new, words)),
            Call::Range { low, high } => store.range_into(low, high, out).map(|a| vec![a.count as u64, key(a.more)]),
            Call::Summary { low, high, today } => {
                store.summary(low, high, today).map(|a| vec![a.count, a.total, key(a.earliest)])
            }
            Call::Balance { price, lease, last, today } => {
                plots::balance(price, lease, last, today).map(|pence| vec![pence.into()])
            }
            Call::KeyOf { section, row, place, letter } => {
                plots::key_of(Label { section, row, place, letter }).map(|key| vec![key.into()])
            }
            Call::LabelOf(key) => {
                plots::label_of(key).map(|a| vec![a.section.into(), a.row.into(), a.place.into(), a.letter.into()])
            }
            Call::Convert(key) => plots::convert(key).map(|key| vec![key.into()]),
        };
        let values = [1, 4, 4, 4, 4, 2, 3, 1, 1, 4, 1][self.index()];
        match answer {
            Ok(none) if none.is_empty() => (1, vec![0; values]),
            Ok(values) => (0, values),
            Err(refusal) => (refusal.number(), vec![0; values]),
        }
    }
}

/// Words before and after each slice, which no call may touch.
const GUARDS: usize = 6;
const GUARD: u32 = 0xdead_beef;

/// A slice of words among guards.
#[derive(Clone, PartialEq)]
struct Guarded(Vec<u32>);

impl Guarded {
    fn new(words: &[u32]) -> Guarded {
        let guards = [GUARD; GUARDS];
        Guarded([&guards, words, &guards].concat())
    }

    fn inside(&self) -> Range<usize> {
        GUARDS..self.0.len() - GUARDS
    }

    fn words(&mut self) -> &mut [u32] {
        let inside = self.inside();
        &mut self.0[inside]
    }
}

/// Two stores that are to have the same words.
struct Pair {
    proved: Guarded,
    plain: Guarded,
}

#[derive(Default)]
struct Counts([[u64; 12]; 11]);

impl Pair {
    fn new(words: &[u32]) -> Pair {
        Pair { proved: Guarded::new(words), plain: Guarded::new(words) }
    }

    fn words(&self) -> &[u32] {
        &self.plain.0[self.plain.inside()]
    }

    /// Changes both in the same way.
    fn change(&mut self, change: impl FnOnce(&mut [u32])) {
        change(self.plain.words());
        self.proved.0.copy_from_slice(&self.plain.0);
    }

    /// Makes a call on both and compares everything. The store is cut to `length` words, the reply has 0 to 5 words.
    fn call_on(&mut self, call: Call, length: usize, rng: &mut Rng, counts: &mut Counts) -> u32 {
        let room = if rng.chance(30) { 0 } else { rng.below(8) } + 4 * rng.below(20);
        let before: Vec<u32> = (0..room).map(|_| rng.word()).collect();
        let (mut out, mut expected_out) = (Guarded::new(&before), Guarded::new(&before));
        let untouched = rng.next();
        let (mut reply, mut expected_reply) = ([untouched; 8], [untouched; 8]);
        let (front, reply_words) = (rng.below(3) as usize, rng.below(6) as usize);

        let wrapped = rng.chance(20).then(|| {
            let (mut store, mut out) = (self.proved.clone(), out.clone());
            (call.wrapped(&mut store.words()[..length], out.words()), store, out)
        });
        let number =
            call.proved(&mut self.proved.words()[..length], out.words(), &mut reply[front..front + reply_words]);
        let (expected, values) = call.plain(&mut self.plain.words()[..length], expected_out.words());
        let written = values.len().min(reply_words);
        expected_reply[front..front + written].copy_from_slice(&values[..written]);

        let context = || format!("{call:?}, {length} words, head {:?}", &self.words()[..16.min(length)]);
        assert_eq!(number, expected, "{}", context());
        assert_eq!(reply, expected_reply, "{}", context());
        assert!(out == expected_out, "the output differs: {}", context());
        assert!(self.proved == self.plain, "the store differs: {}", context());
        if let Some((answer, store, out)) = wrapped {
            assert_eq!(answer, (expected, values), "{}", context());
            assert!(store == self.plain && out == expected_out, "the wrapper differs: {}", context());
        }
        counts.0[call.index()][number as usize] += 1;
        number
    }

    fn call(&mut self, call: Call, rng: &mut Rng, counts: &mut Counts) -> u32 {
        let length = self.words().len();
        self.call_on(call, length, rng, counts)
    }
}

impl Counts {
    fn calls(&self) -> u64 {
        self.0.iter().flatten().sum()
    }

    /// Prints the counts; every operation has met the numbers that it can answer, `without` some, and no others.
    fn print_and_judge(&self, title: &str, without: &[usize]) {
        println!("{title}: {} calls", self.calls());
        for ((name, numbers), row) in OPERATIONS.iter().zip(&self.0) {
            let met: Vec<String> = (0..12).filter(|&i| row[i] > 0).map(|i| format!("{i}: {}", row[i])).collect();
            println!("  {name:8} {}", met.join(", "));
            for (number, &count) in row.iter().enumerate() {
                let expected = numbers.contains(&number) && !without.contains(&number);
                assert_eq!(count > 0, expected, "{title}: {name} answered {number} {count} times");
            }
        }
        assert!(self.calls() >= 100_000);
    }
}

/// Draws calls around the keys of a store.
struct Calls {
    keys: Keys,
    held: Vec<u32>,
}

impl Calls {
    fn key(&mut self, rng: &mut Rng) -> u32 {
        match rng.below(8) {
            0 => rng.word(),
            1 => rng.one_of(&[0, 1, 2, 1 << 31, u32::MAX - 1, u32::MAX]),
            2 => self.keys.draw(rng),
            _ => rng.one_of(&self.held).wrapping_add(rng.below(3)).wrapping_sub(1),
        }
    }

    fn bounds(&mut self, rng: &mut Rng) -> (u32, u32) {
        let (a, b) = (self.key(rng), self.key(rng));
        match rng.below(8) {
            0 => (a, b),
            1 => (a, a),
            2 => (0, u32::MAX),
            _ => (a.min(b), a.max(b)),
        }
    }

    /// A call on the store: readings, entries and removals.
    fn draw(&mut self, rng: &mut Rng) -> Call {
        match rng.below(11) {
            0..=2 => {
                let key = if rng.chance(80) { self.keys.draw(rng) } else { self.key(rng) };
                Call::Enter(if rng.chance(5) { unlawful(key, rng) } else { record(key, rng) })
            }
            3 | 4 => Call::Find(self.key(rng)),
            5 | 6 => Call::Next(self.key(rng)),
            7 | 8 => {
                let (low, high) = self.bounds(rng);
                Call::Range { low, high }
            }
            9 => {
                let (low, high) = self.bounds(rng);
                Call::Summary { low, high, today: day(rng) }
            }
            _ => Call::Remove(if rng.chance(80) { rng.one_of(&self.held) } else { self.key(rng) }),
        }
    }
}

/// Today: mostly a day number.
fn day(rng: &mut Rng) -> u32 {
    let (day, any) = (rng.below(100_000), rng.word());
    rng.one_of(&[0, 45_999, 46_000, 99_999, 100_000, day, day, day, any])
}

/// A call that has no store.
fn storeless(rng: &mut Rng) -> Call {
    let near = |rng: &mut Rng, bound: u32| {
        let (inside, any) = (rng.below(bound + 1), rng.word());
        rng.one_of(&[0, 1, bound, bound + 1, inside, inside, inside, any])
    };
    match rng.below(4) {
        0 => {
            let Record { price, lease, last, .. } = record(1, rng);
            let today = day(rng);
            match rng.below(4) {
                0 => Call::Balance { price, lease: near(rng, 36_525), last: near(rng, 99_999), today },
                _ => Call::Balance { price, lease, last, today },
            }
        }
        1 => {
            Call::KeyOf { section: near(rng, 255), row: near(rng, 4_095), place: near(rng, 255), letter: near(rng, 15) }
        }
        2 => {
            let any = rng.word();
            Call::LabelOf(rng.one_of(&[0, (1 << 24) - 1, 1 << 24, u32::MAX, any, any >> 6]))
        }
        _ => {
            let any = rng.word();
            Call::Convert(rng.one_of(&[(1 << 24) - 1, 1 << 24 | 255, 1 << 24 | 256, any, any & !0xf00, any >> 6]))
        }
    }
}

/// A set-up of some words of no store, with sizes inside and outside their limits, and slices too short.
fn set_up_somewhere(rng: &mut Rng, counts: &mut Counts) {
    let mut sizes = [1 + rng.below(6), 1 + rng.below(24), 1 + rng.below(12), 1 + rng.below(12)];
    if rng.chance(30) {
        let (at, any) = (rng.below(4) as usize, rng.word());
        let most = [6, 24, 4_096, 4_096][at];
        sizes[at] = rng.one_of(&[0, most, most + 1, u32::MAX, any]);
    }
    let [theta, capacity, nodes, pages] = sizes;
    let words = (Sizes { theta, capacity, nodes, pages }).words().min(600_000) as u32;
    let length = match rng.below(4) {
        0 => rng.below(words),
        1 => words,
        _ => words.saturating_add_signed(rng.below(21) as i32 - 10),
    };
    let words: Vec<u32> = (0..length).map(|_| rng.word()).collect();
    Pair::new(&words).call(Call::SetUp { theta, capacity, nodes, pages }, rng, counts);
}

/// A new store, set up on both sides, with words beyond its size, and keys of some kind.
fn start(rng: &mut Rng, theta: u32, capacity: u32, nodes: u32, pages: u32, counts: &mut Counts) -> (Pair, Calls) {
    let beyond = rng.below(4);
    let words: Vec<u32> = (0..size(theta, capacity, nodes, pages) as u32 + beyond).map(|_| rng.word()).collect();
    let mut pair = Pair::new(&words);
    assert_eq!(pair.call(Call::SetUp { theta, capacity, nodes, pages }, rng, counts), 0);
    (pair, Calls { keys: Keys::new(rng.below(Keys::KINDS), rng), held: vec![1] })
}

/// Sizes of stores, some of them too small for what is entered.
fn some_sizes(rng: &mut Rng) -> [u32; 4] {
    let theta = 1 + rng.below(6);
    let capacity = rng.one_of(&[1, 1, 2, 3, 4, 7, 8, 16, 24]);
    let (nodes, pages) = rng.one_of(&[(1, 1), (3, 2), (8, 12), (40, 30), (100, 60), (600, 60)]);
    [theta, capacity, nodes, pages]
}

/// Some calls, and removals between them: now few, now many.
fn history(pair: &mut Pair, calls: &mut Calls, length: u32, rng: &mut Rng, counts: &mut Counts) {
    let mut removals = 0;
    for _ in 0..length {
        if rng.chance(10) {
            removals = rng.one_of(&[0, 10, 50]);
        }
        if rng.chance(removals) {
            pair.call(Call::Remove(rng.one_of(&calls.held)), rng, counts);
        }
        let call = calls.draw(rng);
        let number = pair.call(call, rng, counts);
        if let (Call::Enter(record), 0) = (call, number) {
            calls.held.push(record.key);
        }
    }
}

#[test]
fn sound_stores() {
    let mut counts = Counts::default();
    for seed in 0..2_000 {
        let rng = &mut Rng(seed ^ 0xc0de_0000_0000);
        let [theta, capacity, nodes, pages] = some_sizes(rng);
        let (mut pair, mut calls) = start(rng, theta, capacity, nodes, pages, &mut counts);
        history(&mut pair, &mut calls, 200, rng, &mut counts);
        for _ in 0..40 {
            pair.call(storeless(rng), rng, &mut counts);
        }
        for _ in 0..4 {
            set_up_somewhere(rng, &mut counts);
        }
    }
    // Large stores, entered through both sides and compared now and then, then called on.
    for (seed, sizes) in [[6, 24, 4_096, 4_096], [4, 12, 4_096, 4_096], [1, 1, 4_096, 4_096], [3, 8, 2_000, 4_096]]
        .into_iter()
        .enumerate()
    {
        let rng = &mut Rng(seed as u64 ^ 0xb16_0000_0000);
        let [theta, capacity, nodes, pages] = sizes;
        let (mut pair, mut calls) = start(rng, theta, capacity, nodes, pages, &mut counts);
        for _ in 0..20_000 {
            let key = calls.keys.draw(rng);
            let Record { price, lease, last, .. } = record(key, rng);
            let answer = plain::enter(pair.plain.words(), Record { key, price, lease, last });
            assert_eq!(ffi::enter(pair.proved.words(), key, price, lease, last, &mut []), answer.number);
            if answer.number == 0 {
                calls.held.push(key);
            }
        }
        assert!(pair.proved == pair.plain);
        history(&mut pair, &mut calls, 200, rng, &mut counts);
        // Half of them go, and others take the blocks that they leave.
        for &key in calls.held.iter().step_by(2) {
            let answer = plain::remove(pair.plain.words(), key);
            assert_eq!(ffi::remove(pair.proved.words(), key, &mut []), answer.number);
        }
        assert!(pair.proved == pair.plain);
        assert!(pair.words()[11] > 0);
        for _ in 0..5_000 {
            let key = calls.keys.draw(rng);
            let Record { price, lease, last, .. } = record(key, rng);
            let answer = plain::enter(pair.plain.words(), Record { key, price, lease, last });
            assert_eq!(ffi::enter(pair.proved.words(), key, price, lease, last, &mut []), answer.number);
        }
        assert!(pair.proved == pair.plain);
        history(&mut pair, &mut calls, 200, rng, &mut counts);
    }
    counts.print_and_judge("sound stores", &[3, 9]);
}

/// Changes one to three places of a store, head words more often than others, and chains of released blocks.
fn some_damage(words: &mut [u32], rng: &mut Rng) {
    for _ in 0..1 + rng.below(3) {
        if rng.chance(30) && plain::find(words, 0).number != plain::answer::HEAD {
            bend(words, rng);
        } else if rng.chance(8) {
            let at = rng.below(16) as usize;
            words[at] = other(words[at], words, rng);
        } else {
            damage(words, rng);
        }
    }
}

#[test]
fn damaged_stores() {
    let mut counts = Counts::default();
    for seed in 0..2_000 {
        let rng = &mut Rng(seed ^ 0xdead_0000_0000);
        let [theta, capacity, nodes, pages] = some_sizes(rng);
        let (mut sound, mut calls) = start(rng, theta, capacity, nodes, pages, &mut counts);
        for _ in 0..5 + rng.below(80) {
            let key = calls.keys.draw(rng);
            if sound.call(Call::Enter(record(key, rng)), rng, &mut counts) == 0 {
                calls.held.push(key);
            }
        }
        for _ in 0..rng.below(calls.held.len() as u32) {
            sound.call(Call::Remove(rng.one_of(&calls.held)), rng, &mut counts);
        }
        for _ in 0..20 {
            let mut pair = Pair::new(sound.words());
            pair.change(|words| some_damage(words, rng));
            for _ in 0..12 {
                let call = calls.draw(rng);
                let cut = if rng.chance(2) { 1 + rng.below(20) as usize } else { 0 };
                let length = pair.words().len().saturating_sub(cut);
                pair.call_on(call, length, rng, &mut counts);
            }
            // Entries go on, with more damage, after removals that a damaged store allows.
            if rng.chance(20) {
                pair.change(|words| some_damage(words, rng));
                for _ in 0..6 {
                    pair.call(Call::Remove(rng.one_of(&calls.held)), rng, &mut counts);
                    let call = Call::Enter(record(calls.keys.draw(rng), rng));
                    pair.call(call, rng, &mut counts);
                }
            }
        }
        for _ in 0..20 {
            sound.call(storeless(rng), rng, &mut counts);
        }
        for _ in 0..2 {
            set_up_somewhere(rng, &mut counts);
        }
    }
    counts.print_and_judge("damaged stores", &[]);
}

/// Entries that take blocks, in stores with released ones and chains bent: one call on each.
#[test]
fn bent_chains() {
    let mut counts = Counts::default();
    for seed in 0..4_000 {
        let rng = &mut Rng(seed ^ 0xbe4d_0000_0000);
        let [theta, _, nodes, pages] = some_sizes(rng);
        let capacity = rng.one_of(&[1, 1, 2, 4]);
        let (mut sound, mut calls) = start(rng, theta, capacity, nodes, pages, &mut counts);
        history(&mut sound, &mut calls, 60, rng, &mut counts);
        for _ in 0..rng.below(30) {
            sound.call(Call::Remove(rng.one_of(&calls.held)), rng, &mut counts);
        }
        for _ in 0..40 {
            let mut pair = Pair::new(sound.words());
            pair.change(|words| bend(words, rng));
            let key = if rng.chance(50) { rng.one_of(&calls.held) ^ rng.below(4) } else { calls.keys.draw(rng) };
            pair.call(Call::Enter(record(key, rng)), rng, &mut counts);
            // The blocks that a removal releases join the bent chain.
            pair.call(Call::Remove(rng.one_of(&calls.held)), rng, &mut counts);
        }
    }
    println!("chains bent: {} calls, enter {:?}", counts.calls(), counts.0[1]);
    assert!([0, 3, 8, 9, 10].iter().all(|&number| counts.0[1][number] > 1_000));
}

/// Removals, each in a store where something around its key is changed, and none in some.
#[test]
fn around_the_key() {
    let mut counts = Counts::default();
    for seed in 0..4_000 {
        let rng = &mut Rng(seed ^ 0xa404_0000_0000);
        let [theta, capacity, nodes, pages] = some_sizes(rng);
        let (mut sound, mut calls) = start(rng, theta, capacity.min(4), nodes, pages, &mut counts);
        history(&mut sound, &mut calls, 80, rng, &mut counts);
        calls.held.retain(|&key| plain::find(sound.words(), key).number == 0);
        if calls.held.is_empty() {
            continue;
        }
        for _ in 0..60 {
            let mut pair = Pair::new(sound.words());
            let key = rng.one_of(&calls.held);
            if rng.chance(80) {
                pair.change(|words| damage_around(words, key, rng));
            }
            pair.call(Call::Remove(key), rng, &mut counts);
        }
    }
    println!("around the key: {} calls, remove {:?}", counts.calls(), counts.0[2]);
    assert!([0, 1, 9].iter().all(|&number| counts.0[2][number] > 1_000));
}

/// Words of no store, most of them with a lawful head.
#[test]
fn any_words() {
    let mut counts = Counts::default();
    for seed in 0..20_000 {
        let rng = &mut Rng(seed ^ 0xa11_0000_0000);
        let length = rng.below(400) as usize;
        let mut words: Vec<u32> = (0..length).map(|_| if rng.chance(70) { rng.below(4) } else { rng.word() }).collect();
        if length > 16 && rng.chance(90) {
            for (word, bound) in words.iter_mut().zip([3, 3, 8, 8, 3, 3, 1, 3]) {
                *word = 1 + rng.below(bound);
            }
            words[5] -= 1;
            words[8..16].fill(0);
            if rng.chance(30) {
                words[8..12].fill_with(|| rng.below(3));
            }
        }
        let mut pair = Pair::new(&words);
        let mut calls = Calls { keys: Keys::new(6, rng), held: vec![1, 2, 3, 1 << 31] };
        for _ in 0..6 {
            let call = calls.draw(rng);
            pair.call(call, rng, &mut counts);
        }
    }
    println!("words of no store: {} calls", counts.calls());
}

/// Trees of sound blocks put together at random.
#[test]
fn tangles() {
    let mut counts = Counts::default();
    for seed in 0..10_000 {
        let rng = &mut Rng(seed ^ 0x7a91_0000_0000);
        let (words, mut held) = tangle(rng);
        held.push(1);
        let mut pair = Pair::new(&words);
        if rng.chance(50) {
            pair.change(|words| damage(words, rng));
        }
        for &key in &held {
            Pair::new(pair.words()).call(Call::Remove(key), rng, &mut counts);
        }
        let mut calls = Calls { keys: Keys::new(6, rng), held };
        for _ in 0..10 {
            let call = calls.draw(rng);
            pair.call(call, rng, &mut counts);
        }
    }
    println!("tangles: {} calls, remove {:?}", counts.calls(), counts.0[2]);
}

/// Every single word of some small stores changed, in several ways.
#[test]
fn each_word() {
    let mut counts = Counts::default();
    let rng = &mut Rng(0xeac_0000_0000);
    for [theta, capacity, nodes, pages] in [[1, 1, 60, 30], [2, 2, 40, 30], [3, 1, 40, 30], [6, 3, 20, 20]] {
        let (mut sound, mut calls) = start(rng, theta, capacity, nodes, pages, &mut counts);
        calls.keys = Keys::new(0, rng);
        history(&mut sound, &mut calls, 80, rng, &mut counts);
        for at in 0..sound.words().len() {
            for _ in 0..3 {
                let mut pair = Pair::new(sound.words());
                pair.change(|words| words[at] = other(words[at], words, rng));
                for _ in 0..8 {
                    let call = calls.draw(rng);
                    pair.call(call, rng, &mut counts);
                }
            }
        }
    }
    println!("each word changed: {} calls", counts.calls());
}

/// Stores made by hand: links in a circle, a key outside its stretch, nodes below the last bit of a key.
#[test]
fn made_stores() {
    let mut counts = Counts::default();
    let rng = &mut Rng(0x3ade_0000_0000);
    let high = (1 << 31) + 5;
    let mut stores = vec![(elsewhere(), 77), (too_deep(), u32::MAX - 1)];
    for taken in 1..=5 {
        stores.extend([true, false].map(|found| (circle(taken, found, high), high)));
    }
    stores.extend([1, 2, 3].map(too_deep_beside));
    for theta in 1..=6 {
        stores.extend([[u32::MAX - 1, u32::MAX], [1, 2]].map(|keys| (joined_circle(theta, keys), keys[0])));
    }
    for (words, key) in stores {
        let mut calls = Calls { keys: Keys::new(6, rng), held: vec![key] };
        for key in [0, 1, key - 1, key, key + 1, u32::MAX] {
            for call in [Call::Find(key), Call::Next(key), Call::Enter(record(key, rng)), Call::Remove(key)] {
                Pair::new(&words).call(call, rng, &mut counts);
            }
        }
        for _ in 0..2_000 {
            let call = calls.draw(rng);
            Pair::new(&words).call(call, rng, &mut counts);
        }
    }
    println!("stores made by hand: {} calls", counts.calls());
}
