//! Remove, sentence by sentence: stretches by their prefixes, nodes as lists of stretches, each sibling sought from the root.

use super::{Damaged, Literal, Node};
use plain::Record;

/// The first bits of a key, and zeros after.
#[derive(Clone, Copy, PartialEq, Eq)]
struct Prefix {
    key: u32,
    bits: u32,
}

impl Prefix {
    fn of(key: u32, bits: u32) -> Prefix {
        Prefix { key: (0..bits).filter(|&at| super::bit(key, at)).map(|at| 1 << (31 - at)).sum(), bits }
    }

    fn sibling(self) -> Prefix {
        Prefix { key: self.key ^ 1 << (32 - self.bits), bits: self.bits }
    }

    fn shorter(self) -> Prefix {
        Prefix::of(self.key, self.bits - 1)
    }

    /// Whether its keys are keys of the other.
    fn within(self, other: Prefix) -> bool {
        self.bits >= other.bits && Prefix::of(self.key, other.bits) == other
    }
}

/// A node on the key's path: its prefix, its number, and the stretches in it with their blocks, in key order.
struct Stretch {
    prefix: Prefix,
    number: u32,
    parts: Vec<(Prefix, u32)>,
}

impl Stretch {
    fn depth(&self) -> u32 {
        self.parts.iter().map(|(part, _)| part.bits).max().unwrap() - self.prefix.bits
    }

    /// The stretch below has joined: it stands for all parts in it.
    fn cover(&mut self, below: Prefix, number: u32) {
        if self.prefix.within(below) {
            self.parts = vec![(self.prefix, number)];
            return;
        }
        let at = self.parts.iter().position(|(part, _)| part.within(below)).expect("a part of the stretch below");
        self.parts.retain(|(part, _)| !part.within(below));
        self.parts.insert(at, (below, number));
    }
}

/// A removal under way: the tree as found, the words so far, and each node and page reached, with its prefix.
struct Removal<'a> {
    found: &'a Literal,
    words: Literal,
    nodes: Vec<(u32, Prefix)>,
    pages: Vec<(u32, Prefix)>,
}

impl Literal {
    /// "It gives the removed record, or answer 1 if absent, and the checks run as for find."
    pub fn remove(&mut self, key: u32) -> (u32, Record) {
        let (number, record) = self.find(key);
        if number != 0 {
            return (number, record);
        }
        match Removal::run(self, key) {
            Ok(words) => {
                *self = words;
                (0, record)
            }
            Err(Damaged) => (9, Record::default()),
        }
    }

    fn release_node(&mut self, number: u32) {
        let at = self.node_at(number);
        let length = 4 + (2 << self.theta());
        self.words[at..at + length].fill(0);
        self.words[at + 2] = self.words[8];
        self.words[8] = number;
        self.words[10] += 1;
    }

    fn release_page(&mut self, number: u32) {
        self.write_page(number, &[]);
        let at = self.page_at(number);
        self.words[at + 1] = self.words[9];
        self.words[9] = number;
        self.words[11] += 1;
    }

    /// A node with its stretches.
    fn stretch(&self, number: u32, prefix: Prefix) -> Stretch {
        let node = self.read_node(number);
        let mut parts: Vec<(Prefix, u32)> = Vec::new();
        for (at, &(h, pointer)) in node.entries.iter().enumerate() {
            let place = (at as u64) << (32 - prefix.bits - node.depth());
            let part = Prefix::of(prefix.key | place as u32, prefix.bits + h);
            if parts.last().is_none_or(|&(last, _)| last != part) {
                parts.push((part, pointer));
            }
        }
        Stretch { prefix, number, parts }
    }

    fn write_stretch(&mut self, stretch: &Stretch) {
        let node = self.read_node(stretch.number);
        let mut entries = Vec::new();
        for &(part, pointer) in &stretch.parts {
            let h = part.bits - stretch.prefix.bits;
            entries.extend(vec![(h, pointer); 1 << (stretch.depth() - h)]);
        }
        self.write_node(stretch.number, &Node { entries, ..node });
    }
}

impl<'a> Removal<'a> {
    fn run(found: &'a Literal, key: u32) -> Result<Literal, Damaged> {
        let mut removal = Removal { found, words: found.clone(), nodes: Vec::new(), pages: Vec::new() };
        let descent = found.descend(key).ok_or(Damaged)?;
        for &(number, used) in &descent.path {
            removal.reach_node(number, Prefix::of(key, used))?;
        }

        // "An emptied page is released." "Sibling stretches then join ..: pages first"
        let own = Prefix::of(key, descent.used);
        let (mut below, mut number) = removal.join_pages(own, descent.pointer, key)?;
        let mut joined = below.bits < own.bits;

        // "then each level upward if the one below joined"
        let mut levels: Vec<u32> = descent.path.iter().rev().map(|&(number, _)| number).collect();
        for (level, &(node, used)) in (1..).zip(descent.path.iter().rev()) {
            let mut stretch = found.stretch(node, Prefix::of(key, used));
            stretch.cover(below, number);
            if joined {
                removal.join_nodes(&mut stretch, level, below, number)?;
            }
            removal.words.write_stretch(&stretch);
            levels[level as usize - 1] = stretch.number;
            (below, number) = (stretch.prefix, stretch.number);
            joined = below.bits < used;
            if !joined {
                break;
            }
        }

        // "Last, from the top down, each root above level 1 with one entry is released."
        let mut words = removal.words;
        while levels.len() > 1 && words.read_node(levels[levels.len() - 1]).entries.len() == 1 {
            words.release_node(levels.pop().unwrap());
        }
        words.words[6] = levels[levels.len() - 1];
        words.words[7] = levels.len() as u32;
        Ok(words)
    }

    /// "A block that one remove reaches under two prefixes .. is damaged."
    fn reach_node(&mut self, number: u32, prefix: Prefix) -> Result<(), Damaged> {
        reach(&mut self.nodes, number, prefix)
    }

    fn visit_node(&mut self, number: u32, level: u32, prefix: Prefix) -> Result<(), Damaged> {
        if !self.found.node_ok(number, level) || prefix.bits + self.found.read_node(number).depth() > 32 {
            return Err(Damaged);
        }
        self.reach_node(number, prefix)
    }

    /// "The sibling is read each time in the tree as found, by a descent with its prefix and zeros after. That ends at the
    /// sibling, or at the first entry with a longer prefix, whose block is not visited: that pair stays apart."
    fn sibling(&mut self, sibling: Prefix, level: u32) -> Result<Option<u32>, Damaged> {
        let (mut number, mut used) = (self.found.words[6], 0);
        for at in (level + 1..=self.found.words[7]).rev() {
            self.visit_node(number, at, Prefix::of(sibling.key, used))?;
            let node = self.found.read_node(number);
            let (h, pointer) = node.entries[super::bits(sibling.key, used, node.depth())];
            used += h;
            if used > sibling.bits {
                return Ok(None);
            }
            number = pointer;
        }
        assert_eq!(used, sibling.bits);
        Ok(Some(number))
    }

    /// Joins the key's page: the stretch and its page at last.
    fn join_pages(&mut self, own: Prefix, page: u32, key: u32) -> Result<(Prefix, u32), Damaged> {
        reach(&mut self.pages, page, own)?;
        let (mut prefix, mut number) = (own, page);
        let mut records = self.found.records(page);
        records.retain(|record| record.key != key);
        if records.is_empty() {
            self.words.release_page(page);
            number = 0;
        }
        while prefix.bits > 0 {
            let Some(beside) = self.sibling(prefix.sibling(), 0)? else { break };
            let mut others = Vec::new();
            if beside != 0 {
                reach(&mut self.pages, beside, prefix.sibling())?;
                if !self.found.page_ok(beside) {
                    return Err(Damaged);
                }
                others = self.found.records(beside);
                if !others.iter().all(|record| Prefix::of(record.key, 32).within(prefix.sibling())) {
                    return Err(Damaged);
                }
            }
            // Of a stretch of more than C records the halves stay apart.
            if records.len() + others.len() > self.found.words[1] as usize {
                break;
            }
            records.extend(others);
            records.sort_by_key(|record| record.key);
            // "The left number stays and the right is released; where the left page is null the right one's number serves."
            let pair = if prefix.key < prefix.sibling().key { [number, beside] } else { [beside, number] };
            match pair {
                [0, right] => number = right,
                [left, 0] => number = left,
                [left, right] => {
                    number = left;
                    self.words.release_page(right);
                }
            }
            prefix = prefix.shorter();
        }
        if number != 0 {
            self.words.write_page(number, &records);
        }
        Ok((prefix, number))
    }

    /// Joins a node over the stretch below.
    fn join_nodes(&mut self, own: &mut Stretch, level: u32, below: Prefix, number: u32) -> Result<(), Damaged> {
        while own.prefix.bits > 0 {
            let prefix = own.prefix.sibling();
            let Some(beside) = self.sibling(prefix, level)? else { break };
            self.visit_node(beside, level, prefix)?;
            let other = self.found.stretch(beside, prefix);
            // A stretch with one below it that has over theta bits more is halved.
            let whole = own.prefix.shorter();
            let longest = own.parts.iter().chain(&other.parts).map(|(part, _)| part.bits).max().unwrap();
            if longest > whole.bits + self.found.theta() {
                break;
            }
            let (left, right) = if own.prefix.key < prefix.key { (&*own, &other) } else { (&other, &*own) };
            if level == 1 {
                self.join_links(left.number, right.number)?;
            }
            self.words.release_node(right.number);
            let parts = [left.parts.as_slice(), &right.parts].concat();
            *own = Stretch { prefix: whole, number: left.number, parts };
            own.cover(below, number);
        }
        Ok(())
    }

    /// "Every level-1 node to be joined is looked at on both sides, as enter looks forward, and the pair must link to each
    /// other, in key order only." Links are as the joins before leave them.
    fn join_links(&mut self, left: u32, right: u32) -> Result<(), Damaged> {
        let words = &self.words;
        let [level, back, forward] = [1, 2, 3].map(|word| move |number: u32| words.words[words.node_at(number) + word]);
        let apart = |a: u32, b: u32| forward(a) != b && back(b) != a;
        let linked = |a: u32, b: u32| forward(a) == b && back(b) == a;
        let before = back(left);
        if before != 0 && (before == left || level(before) != 1 || forward(before) != left) {
            return Err(Damaged);
        }
        let behind = forward(right);
        if behind != 0 && (behind == right || behind == left || level(behind) != 1 || back(behind) != right) {
            return Err(Damaged);
        }
        if !linked(left, right) || !apart(right, left) {
            return Err(Damaged);
        }
        let at = self.words.node_at(left);
        self.words.words[at + 3] = behind;
        if behind != 0 {
            let at = self.words.node_at(behind);
            self.words.words[at + 2] = left;
        }
        Ok(())
    }
}

fn reach(reached: &mut Vec<(u32, Prefix)>, number: u32, prefix: Prefix) -> Result<(), Damaged> {
    if reached.iter().any(|&(other, under)| other == number && under != prefix) {
        return Err(Damaged);
    }
    reached.push((number, prefix));
    Ok(())
}
