//! Enter: every test and the count of blocks before the first write, then rounds of halving, then the record.

use crate::answer;
use crate::descent::{Path, Place};
use crate::head::Head;
use crate::money::Record;
use crate::node::{self, bit, BACK, FORWARD, LEVEL};
use crate::page;
use crate::read::own_page;

/// Enter's answer: the key, and the levels and the nodes and pages in use after it.
#[derive(Clone, Copy, Debug, Default, PartialEq, Eq)]
pub struct Entered {
    pub number: u32,
    pub key: u32,
    pub levels: u32,
    pub nodes: u32,
    pub pages: u32,
}

/// Enters a record. Refused with 3, 6, 9, 8 or 10, and with 9 for a released block that it would take.
pub fn enter(store: &mut [u32], record: Record) -> Entered {
    let refused = |number| Entered { number, ..Entered::default() };
    let Some(mut head) = Head::read(store) else {
        return refused(answer::HEAD);
    };
    match enter_under(store, &mut head, record) {
        Ok(()) => {
            let (nodes, pages) = head.in_use();
            Entered { number: answer::DONE, key: record.key, levels: head.levels, nodes, pages }
        }
        Err(number) => refused(number),
    }
}

#[inline]
fn enter_under(store: &mut [u32], head: &mut Head, record: Record) -> Result<(), u32> {
    if !record.lawful() {
        return Err(answer::OUTSIDE);
    }
    let key = record.key;
    let mut path = Path::new();
    let place = path.descend(store, head, key).map_err(|_| answer::DAMAGED)?;
    let (rows, at) = match place.pointer {
        0 => (&[][..], 0),
        _ => own_page(store, head, &place, key).map_err(|_| answer::DAMAGED)?,
    };
    if !neighbour_ok(store, head, &place) {
        return Err(answer::DAMAGED);
    }
    if rows.get(at).is_some_and(|row| row[0] == key) {
        return Err(answer::HELD);
    }

    if !rows.is_empty() && rows.len() < head.capacity as usize {
        page::put(head.page_mut(store, place.pointer), at, record.words());
        return Ok(());
    }
    enter_in_new(store, head, &mut path, record, at)
}

/// Enters a record for which a page is taken: its run is null, or its page is full.
fn enter_in_new(store: &mut [u32], head: &mut Head, path: &mut Path, record: Record, at: usize) -> Result<(), u32> {
    let (key, old) = (record.key, path.node[0]);
    // A full page is halved down to the first bit in which its keys and the new one differ.
    let (mut rounds, mut low) = (0, 0);
    if old != 0 {
        let rows = page::rows(head.page(store, old));
        let shared = ((rows[0][0] ^ key) | (rows[rows.len() - 1][0] ^ key)).leading_zeros();
        rounds = shared + 1 - path.used[0];
        low = page::low_count(rows, shared);
    }
    let nodes = nodes_for(head, path, rounds);
    if !head.has(nodes, 1) {
        return Err(answer::FULL);
    }
    if !head.lends(store, nodes, 1) {
        return Err(answer::DAMAGED);
    }

    let new = head.take_page(store);
    if rounds == 0 {
        page::write_first(head.page_mut(store, new), record.words());
        node::aim(head.node_mut(store, path.node[1]), key, path.used[1], new);
    } else {
        for _ in 1..rounds {
            let (zero, one) = if bit(key, path.used[0]) { (0, old) } else { (old, 0) };
            round(store, head, path, key, zero, one);
        }
        let upper = bit(key, path.used[0]);
        if low == 0 || low == head.capacity as usize {
            // The key is alone in its half.
            page::write_first(head.page_mut(store, new), record.words());
            let (zero, one) = if upper { (old, new) } else { (new, old) };
            round(store, head, path, key, zero, one);
        } else {
            let [zero, one] = head.two_pages(store, old, new);
            page::halve(zero, one, low);
            if upper {
                page::put(one, at - low, record.words());
            } else {
                page::put(zero, at, record.words());
            }
            round(store, head, path, key, old, new);
        }
    }
    head.write(store);
    Ok(())
}

/// Looks at the terminal's forward neighbour, if any: another level-1 node that links back.
#[inline]
fn neighbour_ok(store: &[u32], head: &Head, place: &Place) -> bool {
    let forward = place.node[FORWARD];
    if forward == 0 {
        return true;
    }
    let neighbour = head.node(store, forward);
    forward != place.number && neighbour[LEVEL] == 1 && neighbour[BACK] == place.number
}

/// The nodes that some rounds take. At each level a run takes halvings up to theta; each further one splits its node
/// and goes on to the level above. Above the root the first one makes a new root.
fn nodes_for(head: &Head, path: &Path, rounds: u32) -> u32 {
    let mut carried = rounds;
    let mut nodes = 0;
    for level in 1..=head.levels as usize {
        carried = carried.saturating_sub(head.theta - path.h(level));
        nodes += carried;
    }
    while carried > 0 {
        carried = carried.saturating_sub(head.theta);
        nodes += 1 + carried;
    }
    nodes
}

/// One round: the key's run at level 1 is halved between two pages or nulls. A node with no room splits first, and its
/// two parts halve the run above.
fn round(store: &mut [u32], head: &mut Head, path: &mut Path, key: u32, mut low: u32, mut high: u32) {
    path.used[0] += 1;
    for level in 1..=head.levels as usize {
        let (number, used) = (path.node[level], path.used[level]);
        if path.h(level) <= head.theta {
            return node::halve(head.node_mut(store, number), key, used, low, high);
        }
        let new = head.take_node(store);
        let [left, right] = head.two_nodes(store, number, new);
        node::split(left, right);
        let half = if bit(key, used) { &mut *right } else { &mut *left };
        node::halve(half, key, used + 1, low, high);
        if level == 1 {
            let forward = left[FORWARD];
            left[FORWARD] = new;
            right[BACK] = number;
            right[FORWARD] = forward;
            if forward != 0 {
                head.node_mut(store, forward)[BACK] = new;
            }
        }
        if bit(key, used) {
            path.node[level] = new;
        }
        path.used[level] = used + 1;
        (low, high) = (number, new);
    }
    head.levels += 1;
    head.root = head.take_node(store);
    path.node[head.levels as usize] = head.root;
    node::write_root(head.node_mut(store, head.root), head.levels, low, high);
}
