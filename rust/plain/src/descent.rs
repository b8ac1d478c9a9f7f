//! The descent of a key from the root to its entry in a terminal node.

use crate::head::Head;
use crate::node::{self, DEPTH};

/// A damaged block was visited.
pub struct Damaged;

/// Where a descent ends: an entry of a terminal node.
#[derive(Clone, Copy)]
pub struct Place<'a> {
    pub number: u32,
    pub node: &'a [u32],
    /// The bits used before the node.
    pub before: u32,
    pub entry: usize,
    /// The entry's local depth and pointer.
    pub h: u32,
    pub pointer: u32,
}

impl<'a> Place<'a> {
    /// The key's place in a terminal node that its descent reaches.
    #[inline]
    pub fn at(number: u32, node: &'a [u32], before: u32, key: u32) -> Place<'a> {
        let entry = node::entry_number(key, before, node[DEPTH]);
        let [h, pointer] = node::entries(node)[entry];
        Place { number, node, before, entry, h, pointer }
    }

    /// The bits used up to the page.
    #[inline]
    pub fn used(&self) -> u32 {
        self.before + self.h
    }

    /// The entry behind the key's run.
    #[inline]
    pub fn run_end(&self) -> usize {
        node::run(self.entry, self.node[DEPTH], self.h).1
    }
}

/// A key's path: at each level the node, and the bits used before it. At level 0 stands the page.
pub struct Path {
    pub node: [u32; 33],
    pub used: [u32; 33],
}

impl Path {
    #[inline]
    pub fn new() -> Path {
        Path { node: [0; 33], used: [0; 33] }
    }

    /// Descends with a key and notes its path.
    #[inline]
    pub fn descend<'a>(&mut self, store: &'a [u32], head: &Head, key: u32) -> Result<Place<'a>, Damaged> {
        let place = descend::<true>(store, head, key, |level, number, used| {
            self.node[level as usize] = number;
            self.used[level as usize] = used;
        })?;
        self.node[0] = place.pointer;
        self.used[0] = place.used();
        Ok(place)
    }

    /// The local depth of the key's entry at a level.
    pub fn h(&self, level: usize) -> u32 {
        self.used[level - 1] - self.used[level]
    }
}

/// Descends with a key. Each node of the path is told to `step`, with its level and the bits used before it. Where
/// CHECKED is false the same path has been checked before.
#[inline(always)]
pub fn descend<'a, const CHECKED: bool>(
    store: &'a [u32],
    head: &Head,
    key: u32,
    mut step: impl FnMut(u32, u32, u32),
) -> Result<Place<'a>, Damaged> {
    let mut number = head.root;
    let mut level = head.levels;
    let mut used = 0;
    loop {
        let node = head.node(store, number);
        if CHECKED && !(node::rule(node, level, head) && used + node[DEPTH] <= 32) {
            return Err(Damaged);
        }
        step(level, number, used);
        if level == 1 {
            return Ok(Place::at(number, node, used, key));
        }
        let [h, pointer] = node::entries(node)[node::entry_number(key, used, node[DEPTH])];
        used += h;
        number = pointer;
        level -= 1;
    }
}
