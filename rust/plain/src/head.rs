//! The head of a store, where its blocks stand, and set-up.

use crate::answer;
use crate::released::Chain;

pub const HEAD_WORDS: usize = 16;

/// The most records that a page may have room for.
pub const CAPACITY_MOST: u32 = 24;

/// The head's twelve words in use. One that `read` gives keeps the head rule, so its taken blocks are inside the slice.
#[derive(Clone, Copy)]
pub struct Head {
    pub theta: u32,
    pub capacity: u32,
    pub nodes: u32,
    pub pages: u32,
    pub nodes_taken: u32,
    pub pages_taken: u32,
    pub root: u32,
    pub levels: u32,
    pub released_nodes: Chain,
    pub released_pages: Chain,
}

/// Set-up's answer: the size of the store.
#[derive(Clone, Copy, Debug, Default, PartialEq, Eq)]
pub struct SetUp {
    pub number: u32,
    pub size: u32,
}

impl Head {
    /// The head of a store, if the head rule holds.
    #[inline(always)]
    pub fn read(store: &[u32]) -> Option<Head> {
        let words: &[u32; HEAD_WORDS] = store.first_chunk()?;
        let head = Head {
            theta: words[0],
            capacity: words[1],
            nodes: words[2],
            pages: words[3],
            nodes_taken: words[4],
            pages_taken: words[5],
            root: words[6],
            levels: words[7],
            released_nodes: Chain { last: words[8], count: words[10] },
            released_pages: Chain { last: words[9], count: words[11] },
        };
        let lawful = head.sizes_ok()
            && all_zero(&words[12..])
            && (1..=head.nodes).contains(&head.nodes_taken)
            && head.pages_taken <= head.pages
            && (1..=head.nodes_taken).contains(&head.root)
            && head.levels_ok()
            && head.released_ok()
            && store.len() >= head.size();
        lawful.then_some(head)
    }

    /// Writes the counts, the root, the levels and the released blocks back.
    #[inline]
    pub fn write(&self, store: &mut [u32]) {
        let (nodes, pages) = (self.released_nodes, self.released_pages);
        store[4..8].copy_from_slice(&[self.nodes_taken, self.pages_taken, self.root, self.levels]);
        store[8..12].copy_from_slice(&[nodes.last, pages.last, nodes.count, pages.count]);
    }

    fn sizes_ok(&self) -> bool {
        (1..=6).contains(&self.theta)
            && (1..=CAPACITY_MOST).contains(&self.capacity)
            && (1..=4096).contains(&self.nodes)
            && (1..=4096).contains(&self.pages)
    }

    /// Levels is 1 to L, L the quotient (32 - f) / theta rounded up: below L levels use fewer than 32 - f bits.
    fn levels_ok(&self) -> bool {
        (1..=32).contains(&self.levels) && (self.levels - 1) * self.theta < 32 - self.capacity.ilog2()
    }

    /// Each count is below nodes taken or at most pages taken, and each name lawful.
    #[inline]
    fn released_ok(&self) -> bool {
        let (nodes, pages) = (self.released_nodes, self.released_pages);
        (nodes.count < self.nodes_taken)
            & (pages.count <= self.pages_taken)
            & nodes.named(self.nodes_taken)
            & pages.named(self.pages_taken)
    }

    pub fn size(&self) -> usize {
        HEAD_WORDS + self.nodes as usize * self.node_words() + self.pages as usize * self.page_words()
    }

    #[inline]
    fn node_words(&self) -> usize {
        4 + (2 << self.theta)
    }

    #[inline]
    fn page_words(&self) -> usize {
        1 + 4 * self.capacity as usize
    }

    #[inline]
    pub fn node_start(&self, number: u32) -> usize {
        HEAD_WORDS + (number as usize - 1) * self.node_words()
    }

    #[inline]
    fn page_start(&self, number: u32) -> usize {
        HEAD_WORDS + self.nodes as usize * self.node_words() + (number as usize - 1) * self.page_words()
    }

    #[inline]
    pub fn node<'a>(&self, store: &'a [u32], number: u32) -> &'a [u32] {
        &store[self.node_start(number)..][..self.node_words()]
    }

    #[inline]
    pub fn node_mut<'a>(&self, store: &'a mut [u32], number: u32) -> &'a mut [u32] {
        &mut store[self.node_start(number)..][..self.node_words()]
    }

    #[inline]
    pub fn page<'a>(&self, store: &'a [u32], number: u32) -> &'a [u32] {
        &store[self.page_start(number)..][..self.page_words()]
    }

    #[inline]
    pub fn page_mut<'a>(&self, store: &'a mut [u32], number: u32) -> &'a mut [u32] {
        &mut store[self.page_start(number)..][..self.page_words()]
    }

    /// Two node blocks at once.
    pub fn two_nodes<'a>(&self, store: &'a mut [u32], one: u32, other: u32) -> [&'a mut [u32]; 2] {
        two(store, self.node_start(one), self.node_start(other), self.node_words())
    }

    /// Two page blocks at once.
    pub fn two_pages<'a>(&self, store: &'a mut [u32], one: u32, other: u32) -> [&'a mut [u32]; 2] {
        two(store, self.page_start(one), self.page_start(other), self.page_words())
    }
}

fn two(words: &mut [u32], one: usize, other: usize, length: usize) -> [&mut [u32]; 2] {
    words.get_disjoint_mut([one..one + length, other..other + length]).expect("two blocks of the store")
}

/// Whether words that are not in use are zero: an or-fold of eight words at a time.
#[inline]
pub fn all_zero(words: &[u32]) -> bool {
    let (eights, rest) = words.as_chunks::<8>();
    let mut lanes = [0; 8];
    for eight in eights {
        for (lane, word) in lanes.iter_mut().zip(eight) {
            *lane |= word;
        }
    }
    let fold = |words: &[u32]| words.iter().fold(0, |all, word| all | word);
    fold(&lanes) | fold(rest) == 0
}

/// Clears the store's size and takes node 1 as root, with one null entry. Refused with 4 or 5.
pub fn set_up(store: &mut [u32], theta: u32, capacity: u32, nodes: u32, pages: u32) -> SetUp {
    let head = Head {
        theta,
        capacity,
        nodes,
        pages,
        nodes_taken: 1,
        pages_taken: 0,
        root: 1,
        levels: 1,
        released_nodes: Chain::default(),
        released_pages: Chain::default(),
    };
    if !head.sizes_ok() {
        return SetUp { number: answer::SIZES, size: 0 };
    }
    let size = head.size();
    if store.len() < size {
        return SetUp { number: answer::SHORT, size: 0 };
    }
    store[..size].fill(0);
    store[..4].copy_from_slice(&[theta, capacity, nodes, pages]);
    head.write(store);
    head.node_mut(store, 1)[crate::node::LEVEL] = 1;
    SetUp { number: answer::DONE, size: size as u32 }
}
