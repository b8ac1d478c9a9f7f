//! Released blocks: their form, the chains of them, and how blocks are taken and released.

use crate::head::{all_zero, Head};
use crate::node::BACK;

/// The released blocks of one kind: the last one, and how many there are. Each names the one released before it.
#[derive(Clone, Copy, Default)]
pub struct Chain {
    pub last: u32,
    pub count: u32,
}

impl Chain {
    /// Whether the name is a taken number, or 0 just when the count is 0.
    #[inline]
    pub fn named(self, taken: u32) -> bool {
        (self.last <= taken) & ((self.last == 0) == (self.count == 0))
    }

    /// Takes the last one, which names the next.
    #[inline]
    fn take(&mut self, next: u32) -> u32 {
        self.count -= 1;
        std::mem::replace(&mut self.last, next)
    }

    /// Adds a released one; gives the next, which it is to name.
    #[inline]
    fn release(&mut self, number: u32) -> u32 {
        self.count += 1;
        std::mem::replace(&mut self.last, number)
    }

    /// Whether a call may take so many blocks, released ones first: each has its form, which tells its next, a taken number,
    /// or 0 just for the last counted; and none stands twice in the chain.
    fn lends(mut self, blocks: u32, taken: u32, next: impl Fn(u32) -> Option<u32>) -> bool {
        let blocks = blocks.min(self.count);
        if blocks == 0 {
            return true;
        }
        let mut met = Numbers::default();
        for _ in 0..blocks {
            let Some(next) = next(self.last) else { return false };
            if !met.add(self.take(next)) || !self.named(taken) {
                return false;
            }
        }
        true
    }
}

/// A set of block numbers.
#[derive(Clone, Copy)]
pub struct Numbers([u64; 64]);

impl Default for Numbers {
    fn default() -> Numbers {
        Numbers([0; 64])
    }
}

impl Numbers {
    /// Adds a number: whether it is new.
    #[inline]
    pub fn add(&mut self, number: u32) -> bool {
        let (word, bit) = (&mut self.0[(number as usize - 1) / 64], 1 << ((number - 1) % 64));
        let new = *word & bit == 0;
        *word |= bit;
        new
    }
}

/// The next one in a released page: count 0, the next one in its second word, other words zero.
#[inline]
fn page_next(page: &[u32]) -> Option<u32> {
    (page[0] == 0 && all_zero(&page[2..])).then_some(page[1])
}

/// The next one in a released node: level 0, the next one in its third word, other words zero.
#[inline]
fn node_next(node: &[u32]) -> Option<u32> {
    (node[0] | node[1] == 0 && all_zero(&node[3..])).then_some(node[BACK])
}

impl Head {
    /// Blocks in use.
    #[inline]
    pub fn in_use(&self) -> (u32, u32) {
        (self.nodes_taken - self.released_nodes.count, self.pages_taken - self.released_pages.count)
    }

    /// Whether released and unused blocks together are enough.
    #[inline]
    pub fn has(&self, nodes: u32, pages: u32) -> bool {
        let (nodes_used, pages_used) = self.in_use();
        nodes <= self.nodes - nodes_used && pages <= self.pages - pages_used
    }

    /// Whether the released blocks among these may be taken.
    pub fn lends(&self, store: &[u32], nodes: u32, pages: u32) -> bool {
        self.released_nodes.lends(nodes, self.nodes_taken, |number| node_next(self.node(store, number)))
            && self.released_pages.lends(pages, self.pages_taken, |number| page_next(self.page(store, number)))
    }

    /// Takes the last released node before an unused one.
    #[inline]
    pub fn take_node(&mut self, store: &[u32]) -> u32 {
        if self.released_nodes.count > 0 {
            let next = self.node(store, self.released_nodes.last)[BACK];
            return self.released_nodes.take(next);
        }
        self.nodes_taken += 1;
        self.nodes_taken
    }

    /// Takes the last released page before an unused one.
    #[inline]
    pub fn take_page(&mut self, store: &[u32]) -> u32 {
        if self.released_pages.count > 0 {
            let next = self.page(store, self.released_pages.last)[1];
            return self.released_pages.take(next);
        }
        self.pages_taken += 1;
        self.pages_taken
    }

    pub fn release_node(&mut self, store: &mut [u32], number: u32) {
        let next = self.released_nodes.release(number);
        let node = self.node_mut(store, number);
        node.fill(0);
        node[BACK] = next;
    }

    pub fn release_page(&mut self, store: &mut [u32], number: u32) {
        let next = self.released_pages.release(number);
        let page = self.page_mut(store, number);
        page.fill(0);
        page[1] = next;
    }
}
