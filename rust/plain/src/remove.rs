//! Remove: every test and every join is decided before the first write; then the record goes, stretches join level by level
//! from below, and roots with one entry go.

use crate::answer;
use crate::descent::{Damaged, Path};
use crate::head::Head;
use crate::money::Record;
use crate::node::{self, bit, BACK, DEPTH, FORWARD, LEVEL};
use crate::page;
use crate::read::{own_page, Found};
use crate::released::Numbers;

/// Takes the record with a key out and gives it, or none (1). Refused with 3 or 9.
pub fn remove(store: &mut [u32], key: u32) -> Found {
    match removed(store, key) {
        Ok(record) => Found { number: answer::DONE, record },
        Err(number) => Found::refused(number),
    }
}

#[inline]
fn removed(store: &mut [u32], key: u32) -> Result<Record, u32> {
    let damaged = |_: Damaged| answer::DAMAGED;
    let mut head = Head::read(store).ok_or(answer::HEAD)?;
    let mut path = Path::new();
    let place = path.descend(store, &head, key).map_err(damaged)?;
    if place.pointer == 0 {
        return Err(answer::NONE);
    }
    let (rows, at) = own_page(store, &head, &place, key).map_err(damaged)?;
    let row = rows.get(at).copied().filter(|row| row[0] == key).ok_or(answer::NONE)?;
    let bits = Joins { store, head: &head, path: &path, key, met: None }.decide(rows.len() - 1).map_err(damaged)?;

    let page = take_out(store, &mut head, &path, key, at, bits[0]);
    if page != path.node[0] || bits[0] < path.used[0] {
        join_nodes(store, &mut head, &mut path, key, page, &bits);
    }
    // From the top down, each root above level 1 with one entry is released.
    while head.levels > 1 && head.node(store, head.root)[DEPTH] == 0 {
        head.release_node(store, head.root);
        head.levels -= 1;
        head.root = path.node[head.levels as usize];
    }
    head.write(store);
    Ok(Record::of(row))
}

/// At each level, 0 for pages, the bits of the stretch at the key.
type Bits = [u32; 33];

/// The first so many bits of the key with the last of them turned round, and zeros after.
#[inline]
fn sibling_key(key: u32, bits: u32) -> u32 {
    let last = 1 << (32 - bits);
    (key ^ last) & last.wrapping_neg()
}

/// A pair in key order: the key's own block, and that of the sibling of its first so many bits.
#[inline]
fn in_order(key: u32, bits: u32, own: u32, beside: u32) -> (u32, u32) {
    if bit(key, bits - 1) {
        (beside, own)
    } else {
        (own, beside)
    }
}

/// The descent to the sibling of the key's first so many bits: its block at a level, or none at the first entry with a longer
/// prefix. Nodes on the way with fewer bits are on the key's path; the others are told to `visit`.
#[inline]
fn seek<E>(
    store: &[u32],
    head: &Head,
    path: &Path,
    key: u32,
    level: usize,
    bits: u32,
    mut visit: impl FnMut(usize, u32) -> Result<(), E>,
) -> Result<Option<u32>, E> {
    let sibling = sibling_key(key, bits);
    let mut at = level + 1;
    while path.used[at] >= bits {
        at += 1;
    }
    let (mut number, mut used) = (path.node[at], path.used[at]);
    loop {
        let node = head.node(store, number);
        let [h, pointer] = node::entries(node)[node::entry_number(sibling, used, node[DEPTH])];
        used += h;
        if used > bits {
            return Ok(None);
        }
        number = pointer;
        at -= 1;
        if at == level {
            return Ok(Some(number));
        }
        visit(at, number)?;
    }
}

/// The nodes that were reached: their numbers, and at each level which siblings' prefixes were visited.
struct Met {
    nodes: Numbers,
    prefixes: [u64; 33],
}

impl Met {
    fn path(head: &Head, path: &Path) -> Met {
        let mut met = Met { nodes: Numbers::default(), prefixes: [0; 33] };
        for &number in &path.node[1..=head.levels as usize] {
            met.nodes.add(number);
        }
        met
    }
}

/// Level-1 nodes in a row that are to be joined: the first and the last, and the links out of the row.
struct Row {
    first: u32,
    last: u32,
    back: u32,
    forward: u32,
}

/// Decides on a removal, in the tree as found.
struct Joins<'a> {
    store: &'a [u32],
    head: &'a Head,
    path: &'a Path,
    key: u32,
    /// Made with the first node that is not on the key's path.
    met: Option<Met>,
}

impl<'a> Joins<'a> {
    /// The bits of the key's stretch at each level after the joins: pages first, then each level upward if the one below
    /// joined.
    #[inline]
    fn decide(&mut self, records: usize) -> Result<Bits, Damaged> {
        let mut bits = self.path.used;
        bits[0] = self.join_pages(records)?;
        let mut level = 0;
        while bits[level] < self.path.used[level] && level < self.head.levels as usize {
            level += 1;
            bits[level] = self.join_nodes(level, bits[level - 1])?;
        }
        Ok(bits)
    }

    /// Joins the key's page, with so many records, while the pair has at most C.
    #[inline]
    fn join_pages(&mut self, mut records: usize) -> Result<u32, Damaged> {
        let mut bits = self.path.used[0];
        while bits > 0 {
            let Some(number) = self.sibling(0, bits)? else { break };
            if number != 0 {
                let (rows, _) = page::visit(self.head.page(self.store, number), 0).ok_or(Damaged)?;
                if !page::all_agree(rows, sibling_key(self.key, bits), bits) {
                    return Err(Damaged);
                }
                records += rows.len();
                if records > self.head.capacity as usize {
                    break;
                }
            }
            bits -= 1;
        }
        Ok(bits)
    }

    /// Joins the key's node at a level, where the stretch below has so many bits, while no depth passes theta.
    fn join_nodes(&mut self, level: usize, below: u32) -> Result<u32, Damaged> {
        let (number, mut bits) = (self.path.node[level], self.path.used[level]);
        let own = self.head.node(self.store, number);
        let mut depth = node::covered_depth(own, self.key, bits, below);
        let mut row = Row { first: number, last: number, back: own[BACK], forward: own[FORWARD] };
        while bits > 0 {
            let Some(number) = self.sibling(level, bits)? else { break };
            self.visit(level, bits, number)?;
            let beside = self.head.node(self.store, number);
            let both = 1 + depth.max(beside[DEPTH]);
            if both > self.head.theta {
                break;
            }
            if level == 1 {
                row = self.link(row, number, bit(self.key, bits - 1)).ok_or(Damaged)?;
            }
            // A stretch below with fewer bits than the node covers all of it.
            depth = if below < bits { 0 } else { both };
            bits -= 1;
        }
        Ok(bits)
    }

    #[inline]
    fn sibling(&mut self, level: usize, bits: u32) -> Result<Option<u32>, Damaged> {
        let (store, head, path, key) = (self.store, self.head, self.path, self.key);
        seek(store, head, path, key, level, bits, |at, number| self.visit(at, bits, number))
    }

    /// Visits a node under the sibling's prefix of so many bits; one that is reached under two prefixes is damaged.
    fn visit(&mut self, level: usize, bits: u32, number: u32) -> Result<(), Damaged> {
        let met = self.met.get_or_insert_with(|| Met::path(self.head, self.path));
        let prefix = 1 << bits;
        if met.prefixes[level] & prefix != 0 {
            return Ok(());
        }
        met.prefixes[level] |= prefix;
        let node = self.head.node(self.store, number);
        if node::rule(node, level as u32, self.head) && bits + node[DEPTH] <= 32 && met.nodes.add(number) {
            Ok(())
        } else {
            Err(Damaged)
        }
    }

    /// Adds a node to the row, on its left or on its right. The two link to each other, in key order only, and each is looked
    /// at on its other side.
    fn link(&self, row: Row, number: u32, on_left: bool) -> Option<Row> {
        let node = self.head.node(self.store, number);
        let (back, forward) = (node[BACK], node[FORWARD]);
        let linked = if on_left {
            forward == row.first
                && row.back == number
                && row.forward != number
                && back != row.first
                && self.beside(back, number, FORWARD, number)
                && self.beside(row.forward, row.first, BACK, row.last)
        } else {
            row.forward == number
                && back == row.last
                && forward != row.first
                && row.back != number
                && self.beside(row.back, row.first, FORWARD, row.first)
                && self.beside(forward, number, BACK, number)
        };
        linked.then_some(match on_left {
            true => Row { first: number, back, ..row },
            false => Row { last: number, forward, ..row },
        })
    }

    /// Looks at a neighbour, if any: another level-1 node that links back.
    fn beside(&self, neighbour: u32, number: u32, link: usize, linked: u32) -> bool {
        if neighbour == 0 {
            return true;
        }
        let node = self.head.node(self.store, neighbour);
        neighbour != number && node[LEVEL] == 1 && node[link] == linked
    }
}

/// The sibling's block, which is known to be there.
fn joining(store: &[u32], head: &Head, path: &Path, key: u32, level: usize, bits: u32) -> u32 {
    let Ok(found) = seek::<std::convert::Infallible>(store, head, path, key, level, bits, |_, _| Ok(()));
    found.expect("a pair that joins")
}

/// Takes the record out and joins the pages. The left number stays and the right one is released; where the left page is null
/// the right one's number serves.
#[inline]
fn take_out(store: &mut [u32], head: &mut Head, path: &Path, key: u32, at: usize, bits: u32) -> u32 {
    let mut number = path.node[0];
    let page = head.page_mut(store, number);
    page::take_out(page, at);
    if page[0] == 0 {
        head.release_page(store, number);
        number = 0;
    }
    for bits in (bits + 1..=path.used[0]).rev() {
        let (left, right) = in_order(key, bits, number, joining(store, head, path, key, 0, bits));
        if left != 0 && right != 0 {
            let [page, other] = head.two_pages(store, left, right);
            page::append(page, other);
            head.release_page(store, right);
        }
        number = if left == 0 { right } else { left };
    }
    number
}

/// Joins the nodes level by level, each over the stretch below, as far as that has changed; the path has their numbers then.
fn join_nodes(store: &mut [u32], head: &mut Head, path: &mut Path, key: u32, page: u32, bits: &Bits) {
    path.node[0] = page;
    for level in 1..=head.levels as usize {
        let (below, pointer) = (bits[level - 1], path.node[level - 1]);
        let (mut number, used) = (path.node[level], path.used[level]);
        node::cover(head.node_mut(store, number), key, used, below, pointer);
        if bits[level] == used {
            return;
        }
        for bits in (bits[level] + 1..=used).rev() {
            let (left, right) = in_order(key, bits, number, joining(store, head, path, key, level, bits));
            let [node, other] = head.two_nodes(store, left, right);
            node::join(node, other);
            if below < bits {
                node::cover(node, key, bits - 1, below, pointer);
            }
            head.release_node(store, right);
            number = left;
        }
        let forward = head.node(store, number)[FORWARD];
        if forward != 0 {
            head.node_mut(store, forward)[BACK] = number;
        }
        path.node[level] = number;
    }
}
