//! A plain checker of whole stores, written apart from the operations: rules by the words, the tree of a set from its
//! records, and two stores compared block numbers apart.

use crate::head::CAPACITY_MOST;

/// A stretch: all keys with one prefix.
#[derive(Clone, Copy, Debug, PartialEq, Eq)]
pub struct Stretch {
    /// The prefix, followed by zeros.
    pub prefix: u32,
    pub bits: u32,
}

impl Stretch {
    pub const ALL: Stretch = Stretch { prefix: 0, bits: 0 };

    /// The part with these further bits.
    fn part(self, number: u32, bits: u32) -> Stretch {
        let bits = self.bits + bits;
        let number = if bits == 0 { 0 } else { (u64::from(number) << (32 - bits)) as u32 };
        Stretch { prefix: self.prefix | number, bits }
    }

    fn holds(self, key: u32) -> bool {
        u64::from(self.prefix ^ key) >> (32 - self.bits) == 0
    }
}

/// The tree of a set: the stretches of each level from 0 up, left to right, and at level 0 how many records each holds.
#[derive(Clone, Debug, PartialEq, Eq)]
pub struct Tree {
    pub stretches: Vec<Vec<Stretch>>,
    pub counts: Vec<usize>,
}

impl Tree {
    /// The tree of ascending keys.
    pub fn of(keys: &[u32], theta: u32, capacity: u32) -> Tree {
        let (mut lowest, mut counts) = (Vec::new(), Vec::new());
        halve_keys(keys, Stretch::ALL, capacity as usize, &mut lowest, &mut counts);
        let mut stretches = vec![lowest];
        loop {
            let mut level = Vec::new();
            halve_stretches(&stretches[stretches.len() - 1], Stretch::ALL, theta, &mut level);
            let whole = level.len() == 1;
            stretches.push(level);
            if whole {
                return Tree { stretches, counts };
            }
        }
    }

    pub fn levels(&self) -> u32 {
        self.stretches.len() as u32 - 1
    }

    pub fn nodes(&self) -> u32 {
        self.stretches[1..].iter().map(Vec::len).sum::<usize>() as u32
    }

    pub fn pages(&self) -> u32 {
        self.counts.iter().filter(|&&count| count > 0).count() as u32
    }
}

/// Level 0: every stretch with more than C records is halved.
fn halve_keys(keys: &[u32], whole: Stretch, capacity: usize, out: &mut Vec<Stretch>, counts: &mut Vec<usize>) {
    if keys.len() <= capacity {
        out.push(whole);
        counts.push(keys.len());
        return;
    }
    let (low, high) = (whole.part(0, 1), whole.part(1, 1));
    let middle = keys.partition_point(|&key| low.holds(key));
    halve_keys(&keys[..middle], low, capacity, out, counts);
    halve_keys(&keys[middle..], high, capacity, out, counts);
}

/// Level k: every stretch with a stretch below whose prefix is over theta bits longer is halved.
fn halve_stretches(below: &[Stretch], whole: Stretch, theta: u32, out: &mut Vec<Stretch>) {
    if below.iter().all(|part| part.bits <= whole.bits + theta) {
        out.push(whole);
        return;
    }
    let (low, high) = (whole.part(0, 1), whole.part(1, 1));
    let middle = below.partition_point(|part| low.holds(part.prefix));
    halve_stretches(&below[..middle], low, theta, out);
    halve_stretches(&below[middle..], high, theta, out);
}

/// The words of a store by name.
struct Store<'a> {
    words: &'a [u32],
}

impl<'a> Store<'a> {
    fn theta(&self) -> u32 {
        self.words[0]
    }
    fn capacity(&self) -> usize {
        self.words[1] as usize
    }
    fn taken(&self) -> (usize, usize) {
        (self.words[4] as usize, self.words[5] as usize)
    }
    /// The last released node and page, and how many are released of each.
    fn released(&self) -> ([usize; 2], [usize; 2]) {
        let [node, page, nodes, pages] = [8, 9, 10, 11].map(|at| self.words[at] as usize);
        ([node, nodes], [page, pages])
    }
    fn levels(&self) -> u32 {
        self.words[7]
    }
    fn node(&self, number: usize) -> &'a [u32] {
        let length = 4 + 2 * 2usize.pow(self.theta());
        &self.words[16 + (number - 1) * length..][..length]
    }
    fn page(&self, number: usize) -> &'a [u32] {
        let nodes = self.words[2] as usize * (4 + 2 * 2usize.pow(self.theta()));
        let length = 1 + 4 * self.capacity();
        &self.words[16 + nodes + (number - 1) * length..][..length]
    }
}

/// What a walk from the root meets: the blocks of each level with their stretches, left to right; at level 0 pages, 0 for
/// null.
struct Walk {
    levels: Vec<Vec<(usize, Stretch)>>,
    keys: Vec<u32>,
    nodes_met: Vec<bool>,
    pages_met: Vec<bool>,
}

macro_rules! ensure {
    ($holds:expr, $($text:tt)*) => {
        if !$holds {
            return Err(format!($($text)*));
        }
    };
}

/// The head rule.
fn head_rule(words: &[u32]) -> Result<(), String> {
    ensure!(words.len() >= 16, "no head");
    let [theta, capacity, nodes, pages, nodes_taken, pages_taken, root, levels] = *words.first_chunk().unwrap();
    ensure!((1..=6).contains(&theta), "theta {theta}");
    ensure!((1..=CAPACITY_MOST).contains(&capacity), "capacity {capacity}");
    ensure!((1..=4096).contains(&nodes) && (1..=4096).contains(&pages), "blocks {nodes}, {pages}");
    let size = 16 + nodes as usize * (4 + 2 * 2usize.pow(theta)) + pages as usize * (1 + 4 * capacity as usize);
    ensure!(words.len() >= size, "{} words of {size}", words.len());
    ensure!(1 <= nodes_taken && nodes_taken <= nodes, "nodes taken {nodes_taken}");
    ensure!(pages_taken <= pages, "pages taken {pages_taken}");
    ensure!(1 <= root && root <= nodes_taken, "root {root}");
    let f = (0..7).filter(|&f| 2u32.pow(f) <= capacity).max().unwrap();
    let most = (32 - f).div_ceil(theta);
    ensure!(1 <= levels && levels <= most, "levels {levels} of {most}");
    let [node, page, released_nodes, released_pages] = *words[8..].first_chunk().unwrap();
    ensure!(released_nodes < nodes_taken, "{released_nodes} released nodes of {nodes_taken}");
    ensure!(released_pages <= pages_taken, "{released_pages} released pages of {pages_taken}");
    ensure!(if released_nodes == 0 { node == 0 } else { 1 <= node && node <= nodes_taken }, "released node {node}");
    ensure!(if released_pages == 0 { page == 0 } else { 1 <= page && page <= pages_taken }, "released page {page}");
    ensure!(words[12..16].iter().all(|&word| word == 0), "head's zeros");
    Ok(())
}

/// Follows a chain of released blocks, which are not among those met; `next` is the word that names the next one.
fn follow<'a>(
    kind: &str,
    [mut number, count]: [usize; 2],
    met: &mut [bool],
    block: impl Fn(usize) -> &'a [u32],
    next: usize,
) -> Result<(), String> {
    for left in (0..count).rev() {
        ensure!(1 <= number && number < met.len(), "released {kind} {number}, {left} left");
        ensure!(!std::mem::replace(&mut met[number], true), "{kind} {number} is released and met before");
        let words = block(number);
        let zero = words.iter().enumerate().all(|(at, &word)| at == next || word == 0);
        ensure!(zero, "{kind} {number} is released and not zero");
        number = words[next] as usize;
    }
    ensure!(number == 0, "{kind} {number} behind the last released one");
    Ok(())
}

/// Visits every block under a node, and judges each.
fn visit(store: &Store, number: usize, level: u32, whole: Stretch, walk: &mut Walk) -> Result<(), String> {
    let node = store.node(number);
    let (nodes_taken, pages_taken) = store.taken();
    let depth = node[0];
    ensure!(depth <= store.theta(), "node {number}: depth {depth}");
    ensure!(node[1] == level, "node {number}: level {} at {level}", node[1]);
    ensure!(whole.bits + depth <= 32, "node {number}: {} bits and depth {depth}", whole.bits);
    ensure!(level == 1 || node[2] == 0 && node[3] == 0, "node {number}: links above level 1");
    walk.levels[level as usize].push((number, whole));
    let size = 2usize.pow(depth);
    ensure!(node[4 + 2 * size..].iter().all(|&word| word == 0), "node {number}: words after its entries");
    let (mut at, mut largest) = (0, 0);
    while at < size {
        let (h, pointer) = (node[4 + 2 * at], node[5 + 2 * at] as usize);
        ensure!(h <= depth, "node {number}: entry {at} of local depth {h}");
        largest = largest.max(h);
        let length = 2usize.pow(depth - h);
        ensure!(at % length == 0, "node {number}: entry {at} begins no run of {length}");
        for other in at..at + length {
            let same = node[4 + 2 * other] == h && node[5 + 2 * other] as usize == pointer;
            ensure!(same, "node {number}: entry {other} differs in its run");
        }
        let part = whole.part((at / length) as u32, h);
        if level > 1 {
            ensure!(1 <= pointer && pointer <= nodes_taken, "node {number}: pointer {pointer}");
            let met = std::mem::replace(&mut walk.nodes_met[pointer], true);
            ensure!(!met, "node {pointer} is reached twice");
            visit(store, pointer, level - 1, part, walk)?;
        } else {
            ensure!(pointer <= pages_taken, "node {number}: page {pointer}");
            walk.levels[0].push((pointer, part));
            if pointer > 0 {
                let met = std::mem::replace(&mut walk.pages_met[pointer], true);
                ensure!(!met, "page {pointer} is reached twice");
                visit_page(store, pointer, part, walk)?;
            }
        }
        at += length;
    }
    ensure!(largest == depth, "node {number}: depth {depth}, largest local depth {largest}");
    Ok(())
}

/// Judges a page and notes its keys.
fn visit_page(store: &Store, number: usize, whole: Stretch, walk: &mut Walk) -> Result<(), String> {
    let page = store.page(number);
    let count = page[0] as usize;
    ensure!(1 <= count && count <= store.capacity(), "page {number}: count {count}");
    ensure!(page[1 + 4 * count..].iter().all(|&word| word == 0), "page {number}: words after its records");
    for record in page[1..=4 * count].chunks(4) {
        let (key, lease, last) = (record[0], record[2], record[3]);
        ensure!(key > walk.keys.last().copied().unwrap_or(0), "page {number}: key {key} out of order");
        ensure!(whole.holds(key), "page {number}: key {key} outside its stretch");
        let lawful = if lease == 0 { last == 0 } else { lease <= 36_525 && last <= 99_999 };
        ensure!(lawful, "page {number}: lease {lease}, last day {last}");
        walk.keys.push(key);
    }
    Ok(())
}

/// Walks a whole store and judges every word of it.
fn walk(words: &[u32]) -> Result<Walk, String> {
    head_rule(words)?;
    let store = Store { words };
    let levels = store.levels();
    let (nodes_taken, pages_taken) = store.taken();
    let mut walk = Walk {
        levels: vec![Vec::new(); levels as usize + 1],
        keys: Vec::new(),
        nodes_met: vec![false; nodes_taken + 1],
        pages_met: vec![false; pages_taken + 1],
    };
    walk.nodes_met[words[6] as usize] = true;
    visit(&store, words[6] as usize, levels, Stretch::ALL, &mut walk)?;

    // Every taken block is reached once or released once.
    let (released_nodes, released_pages) = store.released();
    follow("node", released_nodes, &mut walk.nodes_met, |number| store.node(number), 2)?;
    follow("page", released_pages, &mut walk.pages_met, |number| store.page(number), 1)?;
    let count = |met: &[bool]| met.iter().filter(|&&met| met).count();
    let (nodes, pages) = (count(&walk.nodes_met), count(&walk.pages_met));
    ensure!(nodes == nodes_taken, "{nodes} nodes of {nodes_taken} taken are reached or released");
    ensure!(pages == pages_taken, "{pages} pages of {pages_taken} taken are reached or released");
    for number in nodes_taken + 1..=words[2] as usize {
        ensure!(store.node(number).iter().all(|&word| word == 0), "node {number} is free and not zero");
    }
    for number in pages_taken + 1..=words[3] as usize {
        ensure!(store.page(number).iter().all(|&word| word == 0), "page {number} is free and not zero");
    }
    let terminals = &walk.levels[1];
    for (at, &(number, _)) in terminals.iter().enumerate() {
        let back = if at == 0 { 0 } else { terminals[at - 1].0 };
        let forward = terminals.get(at + 1).map_or(0, |&(next, _)| next);
        let node = store.node(number);
        let linked = node[2] as usize == back && node[3] as usize == forward;
        ensure!(linked, "node {number}: links {} and {} for {back} and {forward}", node[2], node[3]);
    }
    Ok(walk)
}

/// Whether the store keeps every rule: the head rule, the report's five clauses, every taken block reached once or released
/// once, links in key order both ways, each page's keys in their stretch, words not in use zero.
pub fn check(store: &[u32]) -> Result<(), String> {
    walk(store).map(|_| ())
}

/// Whether the store holds the tree of its records.
pub fn canonical(store: &[u32]) -> Result<(), String> {
    let walk = walk(store)?;
    let tree = Tree::of(&walk.keys, store[0], store[1]);
    ensure!(store[7] == tree.levels(), "levels {} for {}", store[7], tree.levels());
    let in_use = (store[4] - store[10], store[5] - store[11]);
    ensure!(in_use == (tree.nodes(), tree.pages()), "{in_use:?} blocks for {} and {}", tree.nodes(), tree.pages());
    for (level, (met, stretches)) in walk.levels.iter().zip(&tree.stretches).enumerate() {
        let same = met.iter().map(|(_, stretch)| stretch).eq(stretches);
        ensure!(same, "level {level}: {met:?} for {stretches:?}");
    }
    for (&(page, stretch), &count) in walk.levels[0].iter().zip(&tree.counts) {
        let held = if page == 0 { 0 } else { Store { words: store }.page(page)[0] as usize };
        ensure!(held == count, "page {page} at {stretch:?}: {held} records for {count}");
    }
    Ok(())
}

/// The keys of a sound store, ascending.
pub fn keys(store: &[u32]) -> Result<Vec<u32>, String> {
    walk(store).map(|walk| walk.keys)
}

/// Whether two stores hold the same tree, block numbers apart.
pub fn same_tree(a: &[u32], b: &[u32]) -> bool {
    let ok = |store: &[u32]| head_rule(store).is_ok();
    let in_use = |store: &[u32]| [store[4] - store[10], store[5] - store[11]];
    if !ok(a) || !ok(b) || a[..2] != b[..2] || in_use(a) != in_use(b) || a[7] != b[7] {
        return false;
    }
    let (mut terminals_a, mut terminals_b) = (Vec::new(), Vec::new());
    let (a, b) = (Store { words: a }, Store { words: b });
    if !same_nodes(&a, &b, a.words[6], b.words[6], a.levels(), &mut terminals_a, &mut terminals_b) {
        return false;
    }
    // A link leads to the same place among the terminal nodes.
    let places = |store: &Store, terminals: &[u32]| -> Vec<[Option<usize>; 2]> {
        let place = |link: u32| terminals.iter().position(|&number| number == link && link != 0);
        terminals
            .iter()
            .map(|&number| store.node(number as usize))
            .map(|node| [place(node[2]), place(node[3])])
            .collect()
    };
    places(&a, &terminals_a) == places(&b, &terminals_b)
}

fn same_nodes(
    a: &Store,
    b: &Store,
    node_a: u32,
    node_b: u32,
    level: u32,
    terminals_a: &mut Vec<u32>,
    terminals_b: &mut Vec<u32>,
) -> bool {
    let inside = |store: &Store, number: u32| 1 <= number && number as usize <= store.taken().0;
    if !inside(a, node_a) || !inside(b, node_b) {
        return false;
    }
    let (first, second) = (a.node(node_a as usize), b.node(node_b as usize));
    if first[0] > a.theta() || first[..2] != second[..2] || first[1] != level {
        return false;
    }
    if level == 1 {
        terminals_a.push(node_a);
        terminals_b.push(node_b);
    }
    let size = 2usize.pow(first[0]);
    let (mut at, mut same) = (0, first[4 + 2 * size..] == second[4 + 2 * size..]);
    while at < size && same {
        let [h, pointer_a, other_h, pointer_b] =
            [first[4 + 2 * at], first[5 + 2 * at], second[4 + 2 * at], second[5 + 2 * at]];
        if h != other_h || h > first[0] {
            return false;
        }
        let length = 2usize.pow(first[0] - h);
        if at % length != 0 {
            return false;
        }
        // Both have the same runs.
        same = (at..at + length)
            .all(|i| first[4 + 2 * i..6 + 2 * i] == [h, pointer_a] && second[4 + 2 * i..6 + 2 * i] == [h, pointer_b]);
        same &= if level > 1 {
            same_nodes(a, b, pointer_a, pointer_b, level - 1, terminals_a, terminals_b)
        } else if pointer_a == 0 || pointer_b == 0 {
            pointer_a == pointer_b
        } else {
            let inside = |store: &Store, number: u32| number as usize <= store.taken().1;
            inside(a, pointer_a) && inside(b, pointer_b) && a.page(pointer_a as usize) == b.page(pointer_b as usize)
        };
        at += length;
    }
    same
}
