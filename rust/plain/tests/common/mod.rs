//! What the tests share: a random generator, keys of several kinds, lawful records, damage.
#![allow(dead_code)]

pub mod literal;

use plain::Record;

/// splitmix64.
pub struct Rng(pub u64);

impl Rng {
    pub fn next(&mut self) -> u64 {
        self.0 = self.0.wrapping_add(0x9e37_79b9_7f4a_7c15);
        let mut z = self.0;
        z = (z ^ z >> 30).wrapping_mul(0xbf58_476d_1ce4_e5b9);
        z = (z ^ z >> 27).wrapping_mul(0x94d0_49bb_1331_11eb);
        z ^ z >> 31
    }

    pub fn word(&mut self) -> u32 {
        (self.next() >> 32) as u32
    }

    /// A number below `bound`.
    pub fn below(&mut self, bound: u32) -> u32 {
        ((u64::from(self.word()) * u64::from(bound)) >> 32) as u32
    }

    pub fn one_of<T: Copy>(&mut self, choices: &[T]) -> T {
        choices[self.below(choices.len() as u32) as usize]
    }

    pub fn chance(&mut self, percent: u32) -> bool {
        self.below(100) < percent
    }

    pub fn shuffle<T>(&mut self, list: &mut [T]) {
        for i in (1..list.len()).rev() {
            list.swap(i, self.below(i as u32 + 1) as usize);
        }
    }
}

/// Keys of one kind: 0 uniform, 1 bursts of neighbours, 2 long shared prefixes, 3 extremes, 4 few bits, 5 ascending,
/// 6 mixed.
pub struct Keys {
    kind: u32,
    last: u32,
    prefix: u32,
}

impl Keys {
    pub const KINDS: u32 = 7;

    pub fn new(kind: u32, rng: &mut Rng) -> Keys {
        Keys { kind, last: rng.word(), prefix: rng.word() }
    }

    pub fn draw(&mut self, rng: &mut Rng) -> u32 {
        let kind = if self.kind == 6 { rng.below(6) } else { self.kind };
        self.last = match kind {
            0 => rng.word(),
            1 if rng.chance(10) => rng.word(),
            1 => self.last.wrapping_add(rng.below(7)).wrapping_sub(2),
            2 => {
                let kept = rng.one_of(&[8, 16, 20, 24, 28, 30]);
                (self.prefix >> (32 - kept) << (32 - kept)) | rng.word() >> kept
            }
            3 => match rng.below(4) {
                0 => rng.below(20),
                1 => u32::MAX - rng.below(20),
                2 => (1 << 31) - 10 + rng.below(20),
                _ => 1 << rng.below(32),
            },
            4 => rng.below(64) << 26 | rng.below(4),
            _ => self.last.wrapping_add(rng.below(1 << 20)),
        };
        self.last
    }
}

/// A record with some lawful price and term.
pub fn record(key: u32, rng: &mut Rng) -> Record {
    let price = if rng.chance(20) { u32::MAX - rng.below(3) } else { rng.word() >> rng.below(32) };
    if rng.chance(30) {
        return Record { key, price, lease: 0, last: 0 };
    }
    let (days, day) = (1 + rng.below(36_525), rng.below(100_000));
    let lease = rng.one_of(&[1, 2, 36_525, days]);
    let last = rng.one_of(&[0, 99_999, 46_000, day]);
    Record { key, price, lease, last }
}

/// A record outside its limits.
pub fn unlawful(key: u32, rng: &mut Rng) -> Record {
    match rng.below(4) {
        0 => Record { key: 0, price: 1, lease: 0, last: 0 },
        1 => Record { key, price: 1, lease: 36_526, last: 5 },
        2 => Record { key, price: 1, lease: 0, last: 1 },
        _ => Record { key, price: 1, lease: 10, last: 100_000 },
    }
}

/// The words of a store of these sizes.
pub fn size(theta: u32, capacity: u32, nodes: u32, pages: u32) -> usize {
    (16 + nodes * (4 + (2 << theta)) + pages * (1 + 4 * capacity)) as usize
}

/// A new store of exactly its size.
pub fn new_store(theta: u32, capacity: u32, nodes: u32, pages: u32) -> Vec<u32> {
    let mut store = vec![7; size(theta, capacity, nodes, pages)];
    assert_eq!(plain::set_up(&mut store, theta, capacity, nodes, pages).number, 0);
    store
}

/// A store after a mixture of entries and removals, the keys that it holds, and the kind of keys.
pub fn mixture(sizes: [u32; 4], calls: u32, rng: &mut Rng) -> (Vec<u32>, Vec<u32>, Keys) {
    let [theta, capacity, nodes, pages] = sizes;
    let mut store = new_store(theta, capacity, nodes, pages);
    let mut keys = Keys::new(rng.below(Keys::KINDS), rng);
    let mut held: Vec<u32> = Vec::new();
    let mut growing = 80;
    for _ in 0..calls {
        if rng.chance(5) {
            growing = rng.one_of(&[20, 50, 80]);
        }
        if held.is_empty() || rng.chance(growing) {
            let key = keys.draw(rng);
            if plain::enter(&mut store, record(key, rng)).number == 0 {
                held.push(key);
            }
        } else {
            let key = held.swap_remove(rng.below(held.len() as u32) as usize);
            assert_eq!(plain::remove(&mut store, key).number, 0);
        }
    }
    (store, held, keys)
}

/// Bends the chain of released nodes or pages of a store with a lawful head: the name or the count in the head, or some word
/// of a released block.
pub fn bend(store: &mut [u32], rng: &mut Rng) {
    let [theta, capacity, nodes, _, nodes_taken, pages_taken, ..] = *store else { unreachable!() };
    let (node_words, page_words) = (4 + (2usize << theta), 1 + 4 * capacity as usize);
    let first_page = 16 + nodes as usize * node_words;
    let (name, first, length, next, taken) =
        if rng.chance(50) { (8, 16, node_words, 2, nodes_taken) } else { (9, first_page, page_words, 1, pages_taken) };
    let count = name + 2;
    let block = |number: u32| first + (number as usize - 1) * length;
    let mut chain = Vec::new();
    let mut number = store[name];
    while (1..=taken).contains(&number) && chain.len() < store[count] as usize {
        chain.push(number);
        number = store[block(number) + next];
    }
    if chain.is_empty() {
        // A block in use is named as released, or the head rule is broken.
        let (some, anything) = (1 + rng.below(taken.max(1)), rng.below(taken + 2));
        store[name] = rng.one_of(&[some, some, some, anything]);
        store[count] = rng.one_of(&[1, 1, 1, 0, 2]);
        return;
    }
    let some = rng.one_of(&chain);
    let (last, early) = (chain[chain.len() - 1], chain[rng.below(chain.len().min(2) as u32) as usize]);
    let word = rng.below(length as u32) as usize;
    let anything = rng.below(taken + 2);
    match rng.below(10) {
        // Counts too large and too small, names 0 and others.
        0 => store[count] = store[count] + 1 + rng.below(2),
        1 => store[count] -= 1,
        2 => store[rng.one_of(&[name, count])] = 0,
        3 => store[name] = anything,
        // A loop.
        4 => store[block(some) + next] = rng.one_of(&chain),
        5 => store[block(early) + next] = rng.one_of(&[early, chain[0]]),
        // A wrong form.
        6 => store[block(early) + word] = other(store[block(early) + word], store, rng),
        // A next out of range, 0, or any.
        7 => store[block(early) + next] = rng.one_of(&[0, taken + 1, anything, u32::MAX]),
        // The last counted one names another.
        8 => store[block(last) + next] = 1 + rng.below(taken),
        // A block in use, perhaps, is the next one.
        _ => store[block(some) + next] = 1 + rng.below(taken),
    }
}

/// Some other value for a word: near the old one, small, or anything.
pub fn other(word: u32, store: &[u32], rng: &mut Rng) -> u32 {
    match rng.below(6) {
        0 => word.wrapping_add(1),
        1 => word.wrapping_sub(1),
        2 => word ^ 1 << rng.below(32),
        3 => rng.below(12),
        4 => store[rng.below(store.len() as u32) as usize],
        _ => rng.word(),
    }
}

/// Changes one place of a store, mostly a block in use.
pub fn damage(store: &mut [u32], rng: &mut Rng) {
    let [theta, capacity, nodes, _, nodes_taken, pages_taken, ..] = *store else { unreachable!() };
    let node_words = 4 + (2usize << theta.min(6));
    let capacity = capacity.clamp(1, 24);
    let page_words = 1 + 4 * capacity as usize;
    let node = 16 + rng.below(nodes_taken.clamp(1, nodes.max(1))) as usize * node_words;
    let page = 16 + nodes as usize * node_words + rng.below(pages_taken.clamp(1, 1 << 20)) as usize * page_words;
    if node + node_words > store.len() || page + page_words > store.len() || theta > 6 {
        let at = rng.below(store.len() as u32) as usize;
        store[at] = other(store[at], store, rng);
        return;
    }
    match rng.below(10) {
        // A whole run is let to point elsewhere, so that the node keeps its rule.
        0..=2 => {
            let depth = store[node].min(theta);
            let entry = rng.below(1 << depth) as usize;
            let h = store[node + 4 + 2 * entry].min(depth);
            let length = 1usize << (depth - h);
            let first = entry / length * length;
            let bound = if store[node + 1] == 1 { pages_taken } else { nodes_taken }.saturating_add(1);
            let pointer = rng.below(bound);
            for entry in first..first + length {
                store[node + 5 + 2 * entry] = pointer;
            }
        }
        // A link leads elsewhere.
        3 => store[node + 2 + rng.below(2) as usize] = rng.below(nodes_taken.saturating_add(1)),
        // Another level, count or depth.
        4 => {
            let at = rng.one_of(&[node, node + 1, page, 4, 5, 6, 7]);
            store[at] = other(store[at], store, rng);
        }
        5 => {
            let at = node + rng.below(node_words as u32) as usize;
            store[at] = other(store[at], store, rng);
        }
        // A key changes, perhaps in its place.
        6 | 7 => {
            let count = store[page].clamp(1, capacity);
            let at = page + 1 + 4 * rng.below(count) as usize;
            store[at] = match rng.below(3) {
                0 => store[at].wrapping_add(rng.below(5)),
                1 => store[at] ^ 1 << rng.below(32),
                _ => other(store[at], store, rng),
            };
        }
        8 => {
            let at = page + rng.below(page_words as u32) as usize;
            store[at] = other(store[at], store, rng);
        }
        _ => {
            let at = rng.below(store.len() as u32) as usize;
            store[at] = other(store[at], store, rng);
        }
    }
}

/// Changes what a removal of a key looks at: nodes of its path and their neighbours, pointers beside its own, pages.
pub fn damage_around(store: &mut [u32], key: u32, rng: &mut Rng) {
    let [theta, capacity, nodes, _, nodes_taken, pages_taken, ..] = *store else { unreachable!() };
    let Some(descent) = literal::Literal::new(store).descend(key) else { return };
    let node_words = 4 + (2usize << theta);
    let block = |number: u32| 16 + (number as usize - 1) * node_words;
    let at = rng.below(descent.path.len() as u32) as usize;
    let number = descent.path[at].0;
    let below = descent.path.get(at + 1).map_or(descent.pointer, |step| step.0);
    let terminal = descent.path[descent.path.len() - 1].0;
    let node = block(number);
    // Another block beside the path: what an entry of the node points to, or a neighbour.
    let entry = rng.below(1 << store[node]) as usize;
    let pointer = store[node + 5 + 2 * entry];
    let level = store[node + 1];
    let beside = match rng.below(4) {
        0 => store[node + 2],
        1 => store[node + 3],
        _ if level > 1 => pointer,
        _ => number,
    };
    let beside = if beside == 0 { number } else { beside };
    match rng.below(9) {
        // Two entries lead to one block.
        0..=2 => {
            let length = 1 << (store[node] - store[node + 4 + 2 * entry]);
            let first = entry / length * length;
            let (any_node, any_page) = (1 + rng.below(nodes_taken), rng.below(pages_taken + 1));
            let pointer = match level {
                1 => rng.one_of(&[any_page, below, 0]),
                _ => rng.one_of(&[any_node, below, terminal]),
            };
            for entry in first..first + length {
                store[node + 5 + 2 * entry] = pointer;
            }
        }
        // Links.
        3 | 4 => {
            let any = rng.below(nodes_taken + 1);
            store[block(beside) + 2 + rng.below(2) as usize] = rng.one_of(&[0, number, terminal, any, beside]);
        }
        5 => store[block(beside) + 1] = rng.below(4),
        6 => {
            let at = block(beside) + rng.below(node_words as u32) as usize;
            store[at] = other(store[at], store, rng);
        }
        // A page beside.
        _ => {
            let terminal = block(terminal);
            let entry = rng.below(1 << store[terminal]) as usize;
            let page = store[terminal + 5 + 2 * entry].max(1);
            let page = 16 + nodes as usize * node_words + (page as usize - 1) * (1 + 4 * capacity as usize);
            let at = page + rng.below(2 + 4 * store[page].min(capacity - 1)) as usize;
            store[at] = other(store[at], store, rng);
        }
    }
}

/// A small store of nodes that keep their rule but are put together at random, mostly each once, linked in the order in which
/// they are met; and the keys of its pages.
pub fn tangle(rng: &mut Rng) -> (Vec<u32>, Vec<u32>) {
    let (theta, capacity, levels) = (1 + rng.below(2), 1 + rng.below(3), 1 + rng.below(4));
    let (nodes_taken, pages_taken) = (levels + rng.below(12), 1 + rng.below(10));
    let mut store = new_store(theta, capacity, nodes_taken + rng.below(2), pages_taken + rng.below(2));
    store[4..8].copy_from_slice(&[nodes_taken, pages_taken, levels, levels]);
    let node_words = 4 + (2usize << theta);
    let first_page = 16 + store[2] as usize * node_words;

    // Nodes by level, and pages at level 0. Node number `levels` is the only one of the highest level.
    let mut blocks: Vec<Vec<u32>> = vec![Vec::new(); levels as usize + 1];
    blocks[0] = (1..=pages_taken).collect();
    for number in 1..=nodes_taken {
        let level = if number <= levels { number } else { 1 + rng.below((levels - 1).max(1)) };
        blocks[level as usize].push(number);
    }
    let mut unused = blocks.clone();
    unused.iter_mut().for_each(|numbers| rng.shuffle(numbers));
    for level in 1..=levels as usize {
        for &number in &blocks[level] {
            // Runs: each is halved or not, down to theta.
            let mut runs = vec![0];
            for h in 0..theta {
                runs = runs
                    .iter()
                    .flat_map(|&run| if run == h && rng.chance(60) { vec![h + 1; 2] } else { vec![run] })
                    .collect();
            }
            let depth = *runs.iter().max().unwrap();
            let at = 16 + (number as usize - 1) * node_words;
            store[at..at + 2].copy_from_slice(&[depth, level as u32]);
            let mut entry = at + 4;
            for h in runs {
                let below = level - 1;
                let any = if below == 0 && rng.chance(30) { 0 } else { rng.one_of(&blocks[below]) };
                let pointer = if rng.chance(95) { unused[below].pop().unwrap_or(any) } else { any };
                for _ in 0..1 << (depth - h) {
                    store[entry..entry + 2].copy_from_slice(&[h, pointer]);
                    entry += 2;
                }
            }
        }
    }

    // What a walk meets, in key order: block, level, first bits and their number.
    let (mut walk, mut terminals, mut pages) = (vec![(levels, levels, 0, 0)], Vec::new(), Vec::new());
    while let Some((number, level, key, used)) = walk.pop() {
        if level == 0 {
            if number != 0 && !pages.iter().any(|&(page, _, _)| page == number) {
                pages.push((number, key, used));
            }
            continue;
        }
        if level == 1 && !terminals.contains(&number) {
            terminals.push(number);
        }
        let node = &store[16 + (number as usize - 1) * node_words..][..node_words];
        let mut entry = 0;
        let mut parts = Vec::new();
        while entry < 1 << node[0] {
            let [h, pointer] = [node[4 + 2 * entry], node[5 + 2 * entry]];
            parts.push((pointer, level - 1, key | ((entry as u64) << (32 - used - node[0])) as u32, used + h));
            entry += 1 << (node[0] - h);
        }
        walk.extend(parts.into_iter().rev());
    }
    for (at, &number) in terminals.iter().enumerate() {
        let node = 16 + (number as usize - 1) * node_words;
        store[node + 2] = if at == 0 { 0 } else { terminals[at - 1] };
        store[node + 3] = terminals.get(at + 1).copied().unwrap_or(0);
    }
    let mut keys = Vec::new();
    for (number, key, used) in pages {
        let mut held: Vec<u32> = (0..1 + rng.below(capacity)).map(|_| key | (rng.word() >> used).max(1)).collect();
        held.sort();
        held.dedup();
        let page = first_page + (number as usize - 1) * (1 + 4 * capacity as usize);
        store[page] = held.len() as u32;
        for (row, &key) in store[page + 1..].chunks_mut(4).zip(&held) {
            row.copy_from_slice(&record(key, rng).words());
        }
        keys.extend(held);
    }
    (store, keys)
}

/// Terminal nodes 1, .., taken in a circle; the run of keys below 2^31 leads to a page of the key `high` above, or is null.
pub fn circle(taken: u32, found: bool, high: u32) -> Vec<u32> {
    let mut store = new_store(1, 1, 5, 1);
    store[4] = taken;
    store[5] = 1;
    for number in 1..=taken {
        let before = if number == 1 { taken } else { number - 1 };
        let after = if number == taken { 1 } else { number + 1 };
        let at = 16 + 8 * (number as usize - 1);
        store[at..at + 8].copy_from_slice(&[0, 1, before, after, 0, 0, 0, 0]);
    }
    store[16] = 1;
    store[20..24].copy_from_slice(&[1, u32::from(found), 1, 0]);
    store[16 + 5 * 8..].copy_from_slice(&[1, high, 9, 0, 0]);
    store
}

/// Two neighbouring keys, one record a page; the level-1 nodes are linked in a circle.
pub fn joined_circle(theta: u32, keys: [u32; 2]) -> Vec<u32> {
    let mut store = new_store(theta, 1, 600, 2);
    for key in keys {
        assert_eq!(plain::enter(&mut store, Record { key, price: 1, lease: 0, last: 0 }).number, 0);
    }
    let node = |number: u32| 16 + (number as usize - 1) * (4 + (2 << theta));
    let end = |link| (1..=store[4]).find(|&n| store[node(n) + 1] == 1 && store[node(n) + link] == 0).unwrap();
    let (first, last) = (end(2), end(3));
    store[node(first) + 2] = last;
    store[node(last) + 3] = first;
    store
}

/// A node whose lower run is null; the upper one leads to a page of the lower key 77.
pub fn elsewhere() -> Vec<u32> {
    let mut store = new_store(1, 1, 1, 1);
    store[5] = 1;
    store[16] = 1;
    store[20..24].copy_from_slice(&[1, 0, 1, 1]);
    store[24..].copy_from_slice(&[1, 77, 9, 0, 0]);
    store
}

/// The two highest keys at theta 6 and one record a page, the root doubled with every local depth one higher: each node below
/// has one bit less.
pub fn too_deep() -> Vec<u32> {
    let mut store = new_store(6, 1, 76, 2);
    for key in [u32::MAX - 1, u32::MAX] {
        assert_eq!(plain::enter(&mut store, Record { key, price: 1, lease: 0, last: 0 }).number, 0);
    }
    let root = 16 + 132 * (store[6] as usize - 1);
    let size = 1 << store[root];
    store[root] += 1;
    for entry in (0..2 * size).rev() {
        let [h, pointer] = [store[root + 4 + entry / 2 * 2], store[root + 5 + entry / 2 * 2]];
        store[root + 4 + 2 * entry] = h + 1;
        store[root + 5 + 2 * entry] = pointer;
    }
    store
}

/// A key at theta 3 where ten levels use up 30 bits; the node beside the one with its page has this depth. And the key.
pub fn too_deep_beside(depth: u32) -> (Vec<u32>, u32) {
    let mut store = new_store(3, 1, 12, 1);
    let key = 5 << 29 | 2;
    store[4..8].copy_from_slice(&[12, 1, 11, 11]);
    let node = |number: u32| 16 + (number as usize - 1) * 20;
    // All entries lead to the one node of the level below; but beside node 1 stands node 12.
    for level in 2..=11 {
        store[node(level)..][..2].copy_from_slice(&[3, level]);
        for entry in store[node(level) + 4..][..16].chunks_mut(2) {
            entry.copy_from_slice(&[3, level - 1]);
        }
    }
    store[node(2) + 7] = 12;
    store[node(1)..][..6].copy_from_slice(&[0, 1, 0, 12, 0, 1]);
    store[node(12)..][..4].copy_from_slice(&[depth, 1, 1, 0]);
    for entry in store[node(12) + 4..][..2 << depth].chunks_mut(2) {
        entry.copy_from_slice(&[depth, 0]);
    }
    store[16 + 12 * 20..].copy_from_slice(&[1, key, 1, 0, 0]);
    (store, key)
}
