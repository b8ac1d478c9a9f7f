//! Find, next, range and summary.

use crate::answer;
use crate::descent::{descend, Damaged, Place};
use crate::head::Head;
use crate::money::{amount, day_ok, Record};
use crate::node::{self, agree, BACK, FORWARD};
use crate::page::{self, Row};

/// The answer of find, next and remove.
#[derive(Clone, Copy, Debug, Default, PartialEq, Eq)]
pub struct Found {
    pub number: u32,
    pub record: Record,
}

/// Range's answer: the records written, and the first key not written or 0.
#[derive(Clone, Copy, Debug, Default, PartialEq, Eq)]
pub struct Ranged {
    pub number: u32,
    pub count: u64,
    pub more: u32,
}

/// Summary's answer: count, total balance, and the key of the earliest last day or 0.
#[derive(Clone, Copy, Debug, Default, PartialEq, Eq)]
pub struct Summary {
    pub number: u32,
    pub count: u64,
    pub total: u64,
    pub key: u32,
}

impl Found {
    pub(crate) fn refused(number: u32) -> Found {
        Found { number, ..Found::default() }
    }

    #[inline]
    fn of(sought: Result<Option<&Row>, Damaged>) -> Found {
        match sought {
            Ok(Some(&row)) => Found { number: answer::DONE, record: Record::of(row) },
            Ok(None) => Found::refused(answer::NONE),
            Err(Damaged) => Found::refused(answer::DAMAGED),
        }
    }
}

/// Which keys a next asks for: those above the key, or those at it too.
#[derive(Clone, Copy)]
enum Bound {
    Above(u32),
    From(u32),
}

impl Bound {
    #[inline]
    fn key(self) -> u32 {
        match self {
            Bound::Above(key) | Bound::From(key) => key,
        }
    }

    /// How many of a page's records are not asked for, where so many are below the key.
    #[inline]
    fn passed(self, rows: &[Row], below: usize) -> usize {
        match self {
            Bound::Above(key) => below + usize::from(rows.get(below).is_some_and(|row| row[0] == key)),
            Bound::From(_) => below,
        }
    }

    #[inline]
    fn admits(self, other: u32) -> bool {
        match self {
            Bound::Above(key) => other > key,
            Bound::From(key) => other >= key,
        }
    }
}

/// The record with a key, or none (1). Refused with 3 or 9.
pub fn find(store: &[u32], key: u32) -> Found {
    match Head::read(store) {
        Some(head) => Found::of(find_under(store, &head, key)),
        None => Found::refused(answer::HEAD),
    }
}

#[inline]
fn find_under<'a>(store: &'a [u32], head: &Head, key: u32) -> Result<Option<&'a Row>, Damaged> {
    let place = descend::<true>(store, head, key, |_, _, _| ())?;
    if place.pointer == 0 {
        return Ok(None);
    }
    let (rows, at) = own_page(store, head, &place, key)?;
    Ok(rows.get(at).filter(|row| row[0] == key))
}

/// The record with the smallest key above the given one, or none (1). Refused with 3 or 9.
pub fn next(store: &[u32], key: u32) -> Found {
    match Head::read(store) {
        Some(head) => Found::of(next_under(store, &head, key)),
        None => Found::refused(answer::HEAD),
    }
}

#[inline]
fn next_under<'a>(store: &'a [u32], head: &Head, key: u32) -> Result<Option<&'a Row>, Damaged> {
    let bound = Bound::Above(key);
    let place = descend::<true>(store, head, key, |_, _, _| ())?;
    if place.pointer != 0 {
        let (rows, below) = own_page(store, head, &place, key)?;
        if let Some(row) = rows.get(bound.passed(rows, below)) {
            return Ok(Some(row));
        }
    }
    Ok(onward::<true>(store, head, &place, bound)?.map(|(_, rows)| &rows[0]))
}

/// Visits the key's own page.
#[inline]
pub fn own_page<'a>(store: &'a [u32], head: &Head, place: &Place, key: u32) -> Result<(&'a [Row], usize), Damaged> {
    let (rows, below) = page::visit(head.page(store, place.pointer), key).ok_or(Damaged)?;
    if page::all_agree(rows, key, place.used()) {
        Ok((rows, below))
    } else {
        Err(Damaged)
    }
}

/// The number and the records of the first page behind the place's run, over runs and forward links.
#[inline]
fn onward<'a, const CHECKED: bool>(
    store: &'a [u32],
    head: &Head,
    place: &Place<'a>,
    bound: Bound,
) -> Result<Option<(u32, &'a [Row])>, Damaged> {
    let (mut number, mut node) = (place.number, place.node);
    let mut links = head.nodes_taken;
    let mut pointer = node::pointer_from(node, place.run_end());
    while pointer == 0 {
        let forward = node[FORWARD];
        if forward == 0 {
            return Ok(None);
        }
        if links == 0 {
            return Err(Damaged);
        }
        links -= 1;
        node = head.node(store, forward);
        if CHECKED && !(node::rule(node, 1, head) && node[BACK] == number) {
            return Err(Damaged);
        }
        number = forward;
        pointer = node::pointer_from(node, 0);
    }
    let page = head.page(store, pointer);
    if !CHECKED {
        return Ok(Some((pointer, page::rows(page))));
    }
    match page::visit(page, 0) {
        Some((rows, _)) if bound.admits(rows[0][0]) => Ok(Some((pointer, rows))),
        _ => Err(Damaged),
    }
}

/// Goes through the records from low to high: the first at or above low, then next repeated. `take` gets them in key
/// order, some records of one page at a time, and says whether to read on; nothing is read once a key reaches high or
/// passes it.
///
/// Each next starts from the root. Here it stays where that visits the same blocks again: keys of one page agree in the
/// bits that led to it, and keys that agree in the bits used before a terminal node lead to that node, since equal
/// entries fill every run.
#[inline]
fn walk<const CHECKED: bool>(
    store: &[u32],
    head: &Head,
    low: u32,
    high: u32,
    mut take: impl FnMut(&[Row]) -> bool,
) -> Result<(), Damaged> {
    let mut bound = Bound::From(low);
    let mut place = descend::<CHECKED>(store, head, low, |_, _, _| ())?;
    // The page where the last next ended, and its records.
    let (mut number, mut rows): (u32, &[Row]) = (0, &[]);
    loop {
        if place.pointer != 0 {
            let asked = if place.pointer == number {
                // Its first record is the one that was reached.
                if CHECKED && !page::all_agree(rows, bound.key(), place.used()) {
                    return Err(Damaged);
                }
                &rows[1..]
            } else {
                let (own, below) = if CHECKED {
                    own_page(store, head, &place, bound.key())?
                } else {
                    let own = page::rows(head.page(store, place.pointer));
                    (own, page::below(own, bound.key()))
                };
                &own[bound.passed(own, below)..]
            };
            if let Some(&[last, ..]) = asked.last() {
                let within = if last <= high { asked } else { &asked[..page::up_to(asked, high)] };
                if !within.is_empty() && !take(within) || last >= high {
                    return Ok(());
                }
                bound = Bound::Above(last);
            }
        }
        match onward::<CHECKED>(store, head, &place, bound)? {
            Some(reached) => (number, rows) = reached,
            None => return Ok(()),
        }
        let key = rows[0][0];
        if key > high || !take(&rows[..1]) || key == high {
            return Ok(());
        }
        place = if agree(key, bound.key(), place.before) {
            Place::at(place.number, place.node, place.before, key)
        } else {
            descend::<CHECKED>(store, head, key, |_, _, _| ())?
        };
        bound = Bound::Above(key);
    }
}

/// Lists the records from low to high in the output: as many whole ones as fit. Refused with 3, 7 or 9; so the first
/// pass only counts, and the second one writes.
pub fn range(store: &[u32], low: u32, high: u32, out: &mut [u32]) -> Ranged {
    let refused = |number| Ranged { number, ..Ranged::default() };
    let Some(head) = Head::read(store) else {
        return refused(answer::HEAD);
    };
    if low > high {
        return refused(answer::ORDER);
    }
    let (out, _) = out.as_chunks_mut::<4>();
    let (mut count, mut more) = (0, 0);
    let counted = walk::<true>(store, &head, low, high, |rows| {
        let room = out.len() - count;
        if rows.len() > room {
            more = rows[room][0];
            count = out.len();
            return false;
        }
        count += rows.len();
        true
    });
    if counted.is_err() {
        return refused(answer::DAMAGED);
    }
    let mut rest = &mut out[..count];
    if !rest.is_empty() {
        let _ = walk::<false>(store, &head, low, high, |rows| {
            let written = rows.len().min(rest.len());
            let (part, behind) = std::mem::take(&mut rest).split_at_mut(written);
            part.copy_from_slice(&rows[..written]);
            rest = behind;
            !rest.is_empty()
        });
    }
    Ranged { number: answer::DONE, count: count as u64, more }
}

/// Counts the records from low to high, adds up their balances, and names the earliest last day among leased ones.
/// Refused with 3, 7, 6 or 9.
pub fn summary(store: &[u32], low: u32, high: u32, today: u32) -> Summary {
    let refused = |number| Summary { number, ..Summary::default() };
    let Some(head) = Head::read(store) else {
        return refused(answer::HEAD);
    };
    if low > high {
        return refused(answer::ORDER);
    }
    if !day_ok(today) {
        return refused(answer::OUTSIDE);
    }
    let mut sheet = Summary::default();
    // The earliest last day and, turned round, the price below it in one number: of equal days the highest price is less. Keys ascend.
    let mut earliest = u64::MAX;
    let summed = walk::<true>(store, &head, low, high, |rows| {
        sheet.count += rows.len() as u64;
        for &[key, price, lease, last] in rows {
            sheet.total += amount(price, lease, last, today);
            let ended = if lease == 0 { u64::MAX } else { u64::from(last) << 32 | u64::from(!price) };
            if ended < earliest {
                (earliest, sheet.key) = (ended, key);
            }
        }
        true
    });
    if summed.is_ok() {
        sheet
    } else {
        refused(answer::DAMAGED)
    }
}
