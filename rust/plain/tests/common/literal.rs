//! The operations once more, as the paper says them word by word and with no thought of speed: each next starts from the
//! root, nodes are lists of entries, an entry tries again after each halving, and the blocks that it takes are counted by
//! entering the record in a larger store.

mod remove;

use plain::Record;
use std::cmp::Reverse;

pub struct Damaged;

/// A node by value.
#[derive(Clone)]
pub struct Node {
    level: u32,
    back: u32,
    forward: u32,
    entries: Vec<(u32, u32)>,
}

pub struct Descent {
    /// Each node with the bits used before it, the root first.
    pub path: Vec<(u32, u32)>,
    pub entry: usize,
    pub used: u32,
    pub pointer: u32,
}

#[derive(Clone)]
pub struct Literal {
    pub words: Vec<u32>,
}

impl Literal {
    pub fn new(words: &[u32]) -> Literal {
        Literal { words: words.to_vec() }
    }

    fn theta(&self) -> u32 {
        self.words[0]
    }

    fn node_at(&self, number: u32) -> usize {
        16 + (number as usize - 1) * (4 + (2 << self.theta()))
    }

    fn page_at(&self, number: u32) -> usize {
        16 + self.words[2] as usize * (4 + (2 << self.theta()))
            + (number as usize - 1) * (1 + 4 * self.words[1] as usize)
    }

    pub fn head_ok(&self) -> bool {
        if self.words.len() < 16 {
            return false;
        }
        let [theta, capacity, nodes, pages, nodes_taken, pages_taken, root, levels] =
            *self.words.first_chunk().unwrap();
        if !(1..=6).contains(&theta) || !(1..=24).contains(&capacity) {
            return false;
        }
        if !(1..=4096).contains(&nodes) || !(1..=4096).contains(&pages) {
            return false;
        }
        let mut f = 0;
        while 2u32.pow(f + 1) <= capacity {
            f += 1;
        }
        let most = (32 - f) / theta + u32::from((32 - f) % theta != 0);
        self.words.len() >= super::size(theta, capacity, nodes, pages)
            && nodes_taken >= 1
            && nodes_taken <= nodes
            && pages_taken <= pages
            && root >= 1
            && root <= nodes_taken
            && levels >= 1
            && levels <= most
            && self.words[10] < nodes_taken
            && self.words[11] <= pages_taken
            && self.name_ok(self.words[8], self.words[10], nodes_taken)
            && self.name_ok(self.words[9], self.words[11], pages_taken)
            && self.words[12..16] == [0; 4]
    }

    /// A taken number, or 0 just when the count is 0.
    fn name_ok(&self, name: u32, count: u32, taken: u32) -> bool {
        if count == 0 {
            name == 0
        } else {
            name >= 1 && name <= taken
        }
    }

    fn node_ok(&self, number: u32, level: u32) -> bool {
        let block = &self.words[self.node_at(number)..][..4 + (2 << self.theta())];
        let (nodes_taken, pages_taken) = (self.words[4], self.words[5]);
        let depth = block[0];
        if depth > self.theta() || block[1] != level {
            return false;
        }
        if level == 1 {
            if block[2] > nodes_taken || block[3] > nodes_taken {
                return false;
            }
        } else if block[2] != 0 || block[3] != 0 {
            return false;
        }
        let size = 1usize << depth;
        let mut largest = 0;
        let mut at = 0;
        while at < size {
            let (h, pointer) = (block[4 + 2 * at], block[5 + 2 * at]);
            if h > depth {
                return false;
            }
            let length = 1usize << (depth - h);
            if at % length != 0 {
                return false;
            }
            for i in at..at + length {
                if block[4 + 2 * i] != h || block[5 + 2 * i] != pointer {
                    return false;
                }
            }
            if level == 1 && pointer > pages_taken {
                return false;
            }
            if level > 1 && (pointer < 1 || pointer > nodes_taken) {
                return false;
            }
            largest = largest.max(h);
            at += length;
        }
        largest == depth && block[4 + 2 * size..].iter().all(|&word| word == 0)
    }

    fn records(&self, number: u32) -> Vec<Record> {
        let at = self.page_at(number);
        let count = self.words[at] as usize;
        let words = &self.words[at + 1..][..4 * count];
        words.chunks(4).map(|r| Record { key: r[0], price: r[1], lease: r[2], last: r[3] }).collect()
    }

    fn page_ok(&self, number: u32) -> bool {
        let at = self.page_at(number);
        let (count, capacity) = (self.words[at], self.words[1]);
        if count < 1 || count > capacity {
            return false;
        }
        let records = self.records(number);
        let after = &self.words[at + 1 + 4 * count as usize..at + 1 + 4 * capacity as usize];
        records.iter().all(lawful)
            && records.windows(2).all(|two| two[0].key < two[1].key)
            && after.iter().all(|&word| word == 0)
    }

    /// The descent; None where a node is damaged.
    pub fn descend(&self, key: u32) -> Option<Descent> {
        let (mut number, mut used, mut path) = (self.words[6], 0, Vec::new());
        for level in (1..=self.words[7]).rev() {
            if !self.node_ok(number, level) {
                return None;
            }
            let at = self.node_at(number);
            let depth = self.words[at];
            if used + depth > 32 {
                return None;
            }
            path.push((number, used));
            let entry = bits(key, used, depth);
            used += self.words[at + 4 + 2 * entry];
            number = self.words[at + 5 + 2 * entry];
            if level == 1 {
                return Some(Descent { path, entry, used, pointer: number });
            }
        }
        unreachable!()
    }

    /// The records of the key's own page, none if null.
    fn own(&self, descent: &Descent, key: u32) -> Result<Vec<Record>, Damaged> {
        if descent.pointer == 0 {
            return Ok(Vec::new());
        }
        if !self.page_ok(descent.pointer) {
            return Err(Damaged);
        }
        let records = self.records(descent.pointer);
        let agree = records.iter().all(|record| (0..descent.used).all(|i| bit(record.key, i) == bit(key, i)));
        if agree {
            Ok(records)
        } else {
            Err(Damaged)
        }
    }

    pub fn find(&self, key: u32) -> (u32, Record) {
        if !self.head_ok() {
            return (3, Record::default());
        }
        let Some(descent) = self.descend(key) else { return (9, Record::default()) };
        match self.own(&descent, key) {
            Err(Damaged) => (9, Record::default()),
            Ok(records) => match records.into_iter().find(|record| record.key == key) {
                Some(record) => (0, record),
                None => (1, Record::default()),
            },
        }
    }

    /// The first record above the key, or at it too.
    fn seek(&self, key: u32, above: bool) -> Result<Option<Record>, Damaged> {
        let asked = |other: u32| if above { other > key } else { other >= key };
        let descent = self.descend(key).ok_or(Damaged)?;
        if let Some(record) = self.own(&descent, key)?.into_iter().find(|record| asked(record.key)) {
            return Ok(Some(record));
        }
        let mut number = descent.path.last().unwrap().0;
        let (depth, h) = {
            let at = self.node_at(number);
            (self.words[at], self.words[at + 4 + 2 * descent.entry])
        };
        let length = 1 << (depth - h);
        let mut from = descent.entry - descent.entry % length + length;
        let mut links = 0;
        loop {
            let at = self.node_at(number);
            for entry in from..1 << self.words[at] {
                let page = self.words[at + 5 + 2 * entry];
                if page != 0 {
                    if !self.page_ok(page) {
                        return Err(Damaged);
                    }
                    let records = self.records(page);
                    return if records.iter().all(|record| asked(record.key)) {
                        Ok(Some(records[0]))
                    } else {
                        Err(Damaged)
                    };
                }
            }
            let forward = self.words[at + 3];
            if forward == 0 {
                return Ok(None);
            }
            links += 1;
            if links > self.words[4] || !self.node_ok(forward, 1) || self.words[self.node_at(forward) + 2] != number {
                return Err(Damaged);
            }
            number = forward;
            from = 0;
        }
    }

    pub fn next(&self, key: u32) -> (u32, Record) {
        if !self.head_ok() {
            return (3, Record::default());
        }
        match self.seek(key, true) {
            Err(Damaged) => (9, Record::default()),
            Ok(None) => (1, Record::default()),
            Ok(Some(record)) => (0, record),
        }
    }

    /// Number, count, first key not written, and the output after it.
    pub fn range(&self, low: u32, high: u32, out: &[u32]) -> (u32, u64, u32, Vec<u32>) {
        let mut after = out.to_vec();
        if !self.head_ok() {
            return (3, 0, 0, after);
        }
        if low > high {
            return (7, 0, 0, after);
        }
        let (mut count, mut more) = (0, 0);
        let mut sought = self.seek(low, false);
        loop {
            match sought {
                Err(Damaged) => return (9, 0, 0, out.to_vec()),
                Ok(Some(record)) if record.key <= high => {
                    if 4 * (count + 1) > out.len() {
                        more = record.key;
                        break;
                    }
                    after[4 * count..][..4].copy_from_slice(&[record.key, record.price, record.lease, record.last]);
                    count += 1;
                    if record.key == high {
                        break;
                    }
                    sought = self.seek(record.key, true);
                }
                _ => break,
            }
        }
        (0, count as u64, more, after)
    }

    /// Number, count, total and earliest key.
    pub fn summary(&self, low: u32, high: u32, today: u32) -> (u32, u64, u64, u32) {
        if !self.head_ok() {
            return (3, 0, 0, 0);
        }
        if low > high {
            return (7, 0, 0, 0);
        }
        if today > 99_999 {
            return (6, 0, 0, 0);
        }
        let mut records = Vec::new();
        let mut sought = self.seek(low, false);
        loop {
            match sought {
                Err(Damaged) => return (9, 0, 0, 0),
                Ok(Some(record)) if record.key <= high => {
                    records.push(record);
                    if record.key == high {
                        break;
                    }
                    sought = self.seek(record.key, true);
                }
                _ => break,
            }
        }
        let (total, key) = sheet(&records, today);
        (0, records.len() as u64, total, key)
    }

    /// Number, key, levels, nodes and pages.
    pub fn enter(&mut self, record: Record) -> (u32, u32, u32, u32, u32) {
        let refused = |number| (number, 0, 0, 0, 0);
        if !self.head_ok() {
            return refused(3);
        }
        if record.key == 0 || !lawful(&record) {
            return refused(6);
        }
        let key = record.key;
        let Some(descent) = self.descend(key) else { return refused(9) };
        let Ok(records) = self.own(&descent, key) else { return refused(9) };
        let terminal = descent.path.last().unwrap().0;
        let forward = self.words[self.node_at(terminal) + 3];
        if forward != 0 {
            let at = self.node_at(forward);
            if forward == terminal || self.words[at + 1] != 1 || self.words[at + 2] != terminal {
                return refused(9);
            }
        }
        if records.iter().any(|held| held.key == key) {
            return refused(8);
        }
        let mut trial = self.larger();
        while !trial.attempt(record) {}
        let (nodes, pages) = (trial.words[4] - self.words[4], trial.words[5] - self.words[5]);
        let nodes_left = self.words[10] + self.words[2] - self.words[4];
        let pages_left = self.words[11] + self.words[3] - self.words[5];
        if nodes > nodes_left || pages > pages_left {
            return refused(10);
        }
        if !self.may_take_nodes(nodes) || !self.may_take_pages(pages) {
            return refused(9);
        }
        while !self.attempt(record) {}
        (0, key, self.words[7], self.words[4] - self.words[10], self.words[5] - self.words[11])
    }

    /// The same tree in a store with room for any entry and no released blocks.
    fn larger(&self) -> Literal {
        let more = 33 * (1 + 32 / self.theta());
        let mut words = self.words[..self.page_at(1)].to_vec();
        words.resize(words.len() + (more * (4 + (2 << self.theta()))) as usize, 0);
        let pages = self.words[3] + 1;
        words.extend(&self.words[self.page_at(1)..self.page_at(pages)]);
        words.resize(words.len() + 1 + 4 * self.words[1] as usize, 0);
        words[2] += more;
        words[3] += 1;
        words[8..12].fill(0);
        Literal { words }
    }

    /// A released node has level 0 and the next one in its third word; other words are zero.
    fn may_take_nodes(&self, nodes: u32) -> bool {
        let block = |number| &self.words[self.node_at(number)..self.node_at(number + 1)];
        self.may_take(nodes, [self.words[8], self.words[10], self.words[4]], block, 2)
    }

    /// A released page has count 0 and the next one in its second word; other words are zero.
    fn may_take_pages(&self, pages: u32) -> bool {
        let block = |number| &self.words[self.page_at(number)..self.page_at(number + 1)];
        self.may_take(pages, [self.words[9], self.words[11], self.words[5]], block, 1)
    }

    /// Whether an entry may take so many blocks: those of the chain have their form, and none stands in it twice.
    fn may_take<'a>(
        &self,
        blocks: u32,
        [name, count, taken]: [u32; 3],
        block: impl Fn(u32) -> &'a [u32],
        next: usize,
    ) -> bool {
        let mut met = Vec::new();
        let (mut number, mut left) = (name, count);
        while left > 0 && met.len() < blocks as usize {
            left -= 1;
            let words = block(number);
            let zero = (0..words.len()).all(|at| at == next || words[at] == 0);
            if met.contains(&number) || !zero || !self.name_ok(words[next], left, taken) {
                return false;
            }
            met.push(number);
            number = words[next];
        }
        true
    }

    /// Puts the record if there is room, else halves once: whether it was put.
    fn attempt(&mut self, record: Record) -> bool {
        let descent = self.descend(record.key).expect("sound path");
        let (terminal, before) = *descent.path.last().unwrap();
        if descent.pointer == 0 {
            let page = self.take_page();
            self.write_page(page, &[record]);
            let mut node = self.read_node(terminal);
            let depth = node.depth();
            let entry = bits(record.key, before, depth);
            let length = 1 << (depth - node.entries[entry].0);
            let first = entry / length * length;
            for entry in &mut node.entries[first..first + length] {
                entry.1 = page;
            }
            self.write_node(terminal, &node);
            return true;
        }
        let mut records = self.records(descent.pointer);
        if records.len() < self.words[1] as usize {
            records.push(record);
            records.sort_by_key(|record| record.key);
            self.write_page(descent.pointer, &records);
            return true;
        }
        let (ones, zeros): (Vec<Record>, Vec<Record>) = records.iter().partition(|held| bit(held.key, descent.used));
        let (low, high) = if zeros.is_empty() {
            (0, descent.pointer)
        } else if ones.is_empty() {
            (descent.pointer, 0)
        } else {
            let page = self.take_page();
            self.write_page(descent.pointer, &zeros);
            self.write_page(page, &ones);
            (descent.pointer, page)
        };
        self.halve_run(&descent.path, record.key, low, high);
        false
    }

    /// Halves the key's run in the last node of a path.
    fn halve_run(&mut self, path: &[(u32, u32)], key: u32, low: u32, high: u32) {
        let theta = self.theta();
        let (&(number, used), above) = path.split_last().unwrap();
        let mut node = self.read_node(number);
        let entry = bits(key, used, node.depth());
        if node.entries[entry].0 < theta {
            node.halve(entry, low, high);
            self.write_node(number, &node);
            return;
        }
        let new = self.take_node();
        let (mut left, mut right) = node.split();
        if node.level == 1 {
            left.forward = new;
            right.back = number;
            right.forward = node.forward;
            if node.forward != 0 {
                let at = self.node_at(node.forward);
                self.words[at + 2] = new;
            }
        }
        let half = if bit(key, used) { &mut right } else { &mut left };
        half.halve(bits(key, used + 1, half.depth()), low, high);
        self.write_node(number, &left);
        self.write_node(new, &right);
        if !above.is_empty() {
            return self.halve_run(above, key, number, new);
        }
        let root = self.take_node();
        self.words[6] = root;
        self.words[7] += 1;
        let level = self.words[7];
        self.write_node(root, &Node { level, back: 0, forward: 0, entries: vec![(1, number), (1, new)] });
    }

    fn take_node(&mut self) -> u32 {
        if self.words[10] == 0 {
            self.words[4] += 1;
            return self.words[4];
        }
        let number = self.words[8];
        self.words[8] = self.words[self.node_at(number) + 2];
        self.words[10] -= 1;
        number
    }

    fn take_page(&mut self) -> u32 {
        if self.words[11] == 0 {
            self.words[5] += 1;
            return self.words[5];
        }
        let number = self.words[9];
        self.words[9] = self.words[self.page_at(number) + 1];
        self.words[11] -= 1;
        number
    }

    fn read_node(&self, number: u32) -> Node {
        let block = &self.words[self.node_at(number)..];
        let entries = block[4..].chunks(2).take(1 << block[0]).map(|two| (two[0], two[1])).collect();
        Node { level: block[1], back: block[2], forward: block[3], entries }
    }

    fn write_node(&mut self, number: u32, node: &Node) {
        let at = self.node_at(number);
        let length = 4 + (2 << self.theta());
        let mut block = vec![node.depth(), node.level, node.back, node.forward];
        block.extend(node.entries.iter().flat_map(|&(h, pointer)| [h, pointer]));
        block.resize(length, 0);
        self.words[at..at + length].copy_from_slice(&block);
    }

    fn write_page(&mut self, number: u32, records: &[Record]) {
        let at = self.page_at(number);
        let length = 1 + 4 * self.words[1] as usize;
        let mut block = vec![records.len() as u32];
        block.extend(records.iter().flat_map(|r| [r.key, r.price, r.lease, r.last]));
        block.resize(length, 0);
        self.words[at..at + length].copy_from_slice(&block);
    }
}

impl Node {
    fn depth(&self) -> u32 {
        self.entries.len().ilog2()
    }

    /// Halves the run around an entry; doubles the node first if the run is that entry alone.
    fn halve(&mut self, mut entry: usize, low: u32, high: u32) {
        let h = self.entries[entry].0;
        if h == self.depth() {
            self.entries = self.entries.iter().flat_map(|&entry| [entry, entry]).collect();
            entry *= 2;
        }
        let length = 1 << (self.depth() - h);
        let first = entry / length * length;
        for i in 0..length {
            self.entries[first + i] = (h + 1, if i < length / 2 { low } else { high });
        }
    }

    /// Two halves on the first bit, local depths one lower, each shrunk to its largest.
    fn split(&self) -> (Node, Node) {
        let part = |entries: &[(u32, u32)]| {
            let mut entries: Vec<(u32, u32)> = entries.iter().map(|&(h, pointer)| (h - 1, pointer)).collect();
            let largest = entries.iter().map(|entry| entry.0).max().unwrap();
            while entries.len() > 1 << largest {
                entries = entries.into_iter().step_by(2).collect();
            }
            entries
        };
        let (left, right) = self.entries.split_at(self.entries.len() / 2);
        (
            Node { entries: part(left), ..self.clone() },
            Node { entries: part(right), level: self.level, back: 0, forward: 0 },
        )
    }
}

fn lawful(record: &Record) -> bool {
    record.key != 0
        && if record.lease == 0 { record.last == 0 } else { record.lease <= 36_525 && record.last <= 99_999 }
}

fn bit(key: u32, at: u32) -> bool {
    key & 1 << (31 - at) != 0
}

/// The number that some bits of a key make.
fn bits(key: u32, from: u32, count: u32) -> usize {
    (from..from + count).fold(0, |number, at| 2 * number + usize::from(bit(key, at)))
}

/// Total balance and earliest key of records in key order.
pub fn sheet(records: &[Record], today: u32) -> (u64, u32) {
    let mut total = 0;
    for record in records {
        if record.lease > 0 && today <= record.last {
            let days = (record.last - today + 1).min(record.lease);
            total += u64::from(record.price) * u64::from(days) / u64::from(record.lease);
        }
    }
    let leased = records.iter().filter(|record| record.lease > 0);
    let earliest =
        leased.min_by_key(|record| (record.last, Reverse(record.price), record.key)).map_or(0, |record| record.key);
    (total, earliest)
}
