//! Node blocks: the rule of a visited node, its entries, and the ways in which enter and remove change it.

use crate::head::{all_zero, Head};

pub const DEPTH: usize = 0;
pub const LEVEL: usize = 1;
pub const BACK: usize = 2;
pub const FORWARD: usize = 3;
const ENTRIES: usize = 4;

/// An entry: local depth and pointer.
type Entry = [u32; 2];

/// Trailing zeros of each entry number: entries i - 1 and i are in one aligned run of 2^s just when s is above those of i.
const ALIGNED: [u32; 64] = {
    let mut table = [0; 64];
    let mut i = 0;
    while i < 64 {
        table[i] = (i as u32).trailing_zeros();
        i += 1;
    }
    table
};

/// The 2^H entries of a node that keeps the rule.
#[inline]
pub fn entries(node: &[u32]) -> &[Entry] {
    &node[ENTRIES..].as_chunks().0[..1 << node[DEPTH]]
}

fn entries_mut(node: &mut [u32]) -> &mut [Entry] {
    node[ENTRIES..].as_chunks_mut().0
}

/// The rule of a node visited at a level.
#[inline]
pub fn rule(node: &[u32], level: u32, head: &Head) -> bool {
    if node[DEPTH] > head.theta || node[LEVEL] != level {
        return false;
    }
    let (back, forward) = (node[BACK], node[FORWARD]);
    if level == 1 {
        back <= head.nodes_taken && forward <= head.nodes_taken && body_ok(node, 0, head.pages_taken)
    } else {
        back | forward == 0 && body_ok(node, 1, head.nodes_taken)
    }
}

/// Aligned runs of equal entries, the largest local depth H, pointers from least to most, zeros after; of a node whose
/// links are lawful.
///
/// Comparisons are differences whose top bit is set where they fail, gathered without a branch.
#[inline]
fn body_ok(node: &[u32], least: u32, most: u32) -> bool {
    let depth = node[DEPTH];
    // The links stand where an entry before the first one would; no run holds both.
    let (used, rest) = node[BACK..].split_at(2 + (2 << depth));
    let pairs: &[Entry] = used.as_chunks().0;
    let (mut outside, mut smaller, mut torn) = (0, u32::MAX, 0);
    for ((before, &[h, pointer]), aligned) in pairs.iter().zip(&pairs[1..]).zip(&ALIGNED) {
        outside |= h | depth.wrapping_sub(h) | pointer.wrapping_sub(least) | most.wrapping_sub(pointer);
        smaller &= h.wrapping_sub(depth);
        // Two neighbours that are in one run of either of them are equal; so every run is.
        let apart = depth.wrapping_sub(*aligned);
        let together = (h.wrapping_sub(apart) | before[0].wrapping_sub(apart)) as i32 >> 31;
        torn |= together as u32 & ((h ^ before[0]) | (pointer ^ before[1]));
    }
    (outside | smaller) as i32 >= 0 && torn == 0 && all_zero(rest)
}

/// The next `depth` bits of the key after `used` ones; used + depth is at most 32.
#[inline]
pub fn entry_number(key: u32, used: u32, depth: u32) -> usize {
    (u64::from(key) >> (32 - used - depth)) as usize & ((1 << depth) - 1)
}

/// Whether two keys agree in the first `used` bits.
#[inline]
pub fn agree(a: u32, b: u32, used: u32) -> bool {
    u64::from(a ^ b) >> (32 - used) == 0
}

/// The bit of the key after `used` ones; used is below 32.
#[inline]
pub fn bit(key: u32, used: u32) -> bool {
    key >> (31 - used) & 1 == 1
}

/// The first pointer from an entry on that is not null, or 0.
#[inline]
pub fn pointer_from(node: &[u32], entry: usize) -> u32 {
    entries(node)[entry..].iter().map(|entry| entry[1]).find(|&pointer| pointer != 0).unwrap_or(0)
}

/// The run around an entry with local depth h: its first entry and the one behind it.
#[inline]
pub fn run(entry: usize, depth: u32, h: u32) -> (usize, usize) {
    let length = 1 << (depth - h);
    let first = entry & !(length - 1);
    (first, first + length)
}

/// Lets the key's run point to a block.
pub fn aim(node: &mut [u32], key: u32, used: u32, pointer: u32) {
    let depth = node[DEPTH];
    let entry = entry_number(key, used, depth);
    let entries = entries_mut(node);
    let (first, end) = run(entry, depth, entries[entry][0]);
    for entry in &mut entries[first..end] {
        entry[1] = pointer;
    }
}

/// Halves the key's run, whose local depth is below theta; the node doubles if the run is a single entry.
pub fn halve(node: &mut [u32], key: u32, used: u32, low: u32, high: u32) {
    let mut depth = node[DEPTH];
    let h = entries(node)[entry_number(key, used, depth)][0];
    if h == depth {
        depth += 1;
        node[DEPTH] = depth;
        let entries = entries_mut(node);
        for i in (0..1 << depth).rev() {
            entries[i] = entries[i / 2];
        }
    }
    let (first, end) = run(entry_number(key, used, depth), depth, h);
    let middle = (first + end) / 2;
    let entries = entries_mut(node);
    entries[first..middle].fill([h + 1, low]);
    entries[middle..end].fill([h + 1, high]);
}

/// Splits a node of depth theta on its first bit into itself and a new block without links.
pub fn split(left: &mut [u32], right: &mut [u32]) {
    let depth = left[DEPTH] - 1;
    let half = 2 << depth;
    right.fill(0);
    right[..ENTRIES].copy_from_slice(&[depth, left[LEVEL], 0, 0]);
    right[ENTRIES..][..half].copy_from_slice(&left[ENTRIES + half..]);
    left[DEPTH] = depth;
    left[ENTRIES + half..].fill(0);
    lower(left);
    lower(right);
}

/// Lowers every local depth by one and shrinks the node to the largest.
fn lower(node: &mut [u32]) {
    let mut largest = 0;
    let old = node[DEPTH];
    for entry in &mut entries_mut(node)[..1 << old] {
        entry[0] -= 1;
        largest = largest.max(entry[0]);
    }
    shrink(node, largest);
}

/// Shrinks a node to its largest local depth.
fn shrink(node: &mut [u32], depth: u32) {
    let old = std::mem::replace(&mut node[DEPTH], depth);
    if depth < old {
        let entries = entries_mut(node);
        for i in 0..1 << depth {
            entries[i] = entries[i << (old - depth)];
        }
        entries[1 << depth..1 << old].fill([0, 0]);
    }
}

/// The run of a stretch with so many bits in all, in a node on the key's path: its local depth, its first entry and the one
/// behind it. A stretch that has outgrown the node covers all of it.
fn stretch_run(node: &[u32], key: u32, used: u32, bits: u32) -> (u32, usize, usize) {
    let h = bits.saturating_sub(used);
    let (first, end) = run(entry_number(key, used, node[DEPTH]), node[DEPTH], h);
    (h, first, end)
}

/// The depth of a node once a stretch below it has so many bits.
pub fn covered_depth(node: &[u32], key: u32, used: u32, bits: u32) -> u32 {
    let (h, first, end) = stretch_run(node, key, used, bits);
    let entries = entries(node);
    entries[..first].iter().chain(&entries[end..]).map(|entry| entry[0]).fold(h, u32::max)
}

/// Lets one run with this pointer stand for a stretch with so many bits, and shrinks the node to its largest local depth.
pub fn cover(node: &mut [u32], key: u32, used: u32, bits: u32, pointer: u32) {
    let depth = covered_depth(node, key, used, bits);
    let (h, first, end) = stretch_run(node, key, used, bits);
    entries_mut(node)[first..end].fill([h, pointer]);
    shrink(node, depth);
}

/// Joins the right one of a pair to the left one: every local depth rises by one, and the right one's forward link stays.
pub fn join(left: &mut [u32], right: &[u32]) {
    let raised = |[h, pointer]: Entry| [h + 1, pointer];
    let depth = left[DEPTH].max(right[DEPTH]);
    let (stretched, other) = (depth - left[DEPTH], depth - right[DEPTH]);
    let (low, high) = entries_mut(left)[..2 << depth].split_at_mut(1 << depth);
    for i in (0..1 << depth).rev() {
        low[i] = raised(low[i >> stretched]);
    }
    for (i, entry) in high.iter_mut().enumerate() {
        *entry = raised(entries(right)[i >> other]);
    }
    left[DEPTH] = depth + 1;
    left[FORWARD] = right[FORWARD];
}

/// A root over two nodes.
pub fn write_root(node: &mut [u32], level: u32, low: u32, high: u32) {
    node.fill(0);
    node[..8].copy_from_slice(&[1, level, 0, 0, 1, low, 1, high]);
}
