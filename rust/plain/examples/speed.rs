//! Nanoseconds per call: find, next, enter and remove, and per record of a range and a summary, at several sizes. `again` is a
//! removal and an entry of the same record, `remove` empties the store.
//! Run with `cargo run --profile bench --example speed`.

use plain::{enter, find, next, range, remove, set_up, summary, Record};
use std::hint::black_box;
use std::time::Instant;

fn random(state: &mut u64) -> u32 {
    *state = state.wrapping_add(0x9e37_79b9_7f4a_7c15);
    let mut z = *state;
    z = (z ^ z >> 30).wrapping_mul(0xbf58_476d_1ce4_e5b9);
    z = (z ^ z >> 27).wrapping_mul(0x94d0_49bb_1331_11eb);
    ((z ^ z >> 31) >> 32) as u32
}

/// The least of several times of some work, in nanoseconds per piece.
fn least(times: u32, pieces: usize, mut work: impl FnMut()) -> f64 {
    let mut best = f64::MAX;
    for _ in 0..times {
        let start = Instant::now();
        work();
        best = best.min(start.elapsed().as_nanos() as f64 / pieces as f64);
    }
    best
}

fn main() {
    println!("theta  C   keys   levels nodes pages |   find   next  enter  again remove | range100 sum100 | range-all sum-all (ns; per record for range and sum)");
    for (theta, capacity) in [(6, 24)] {
        for count in [1_000, 10_000, 50_000] {
            let mut state = 77;
            let mut keys: Vec<u32> = Vec::new();
            while keys.len() < count {
                keys.push(random(&mut state).max(1));
                if keys.len() == count {
                    let mut sorted = keys.clone();
                    sorted.sort();
                    sorted.dedup();
                    if sorted.len() < count {
                        keys.clear();
                    }
                }
            }
            let records: Vec<Record> = keys
                .iter()
                .map(|&key| {
                    let lease = if random(&mut state).is_multiple_of(4) { 0 } else { 1 + random(&mut state) % 36_525 };
                    let last = if lease == 0 { 0 } else { random(&mut state) % 100_000 };
                    Record { key, price: random(&mut state), lease, last }
                })
                .collect();
            let size = 16 + 4096 * (4 + (2 << theta)) + 4096 * (1 + 4 * capacity as usize);
            let mut store = vec![0; size];

            let times = (400_000 / count).clamp(5, 100) as u32;
            let mut enters = f64::MAX;
            for _ in 0..times {
                set_up(&mut store, theta, capacity, 4096, 4096);
                let start = Instant::now();
                for &record in &records {
                    if black_box(enter(&mut store, record)).number != 0 {
                        panic!("no room");
                    }
                }
                enters = enters.min(start.elapsed().as_nanos() as f64 / count as f64);
            }
            let mut shuffled = keys.clone();
            for i in (1..shuffled.len()).rev() {
                shuffled.swap(i, random(&mut state) as usize % (i + 1));
            }
            let finds = least(times, count, || {
                for &key in &shuffled {
                    black_box(find(black_box(&store), key));
                }
            });
            let nexts = least(times, count, || {
                for &key in &shuffled {
                    black_box(next(black_box(&store), key));
                }
            });
            let mut sorted = keys.clone();
            sorted.sort();
            let windows: Vec<(u32, u32)> = shuffled
                .iter()
                .take(count / 100)
                .map(|key| {
                    let at = sorted.binary_search(key).unwrap().min(count - 100);
                    (sorted[at], sorted[at + 99])
                })
                .collect();
            let mut out = vec![0; 4 * count];
            let pieces = 100 * windows.len();
            let range_some = least(times, pieces, || {
                for &(low, high) in &windows {
                    let listed = range(black_box(&store), low, high, &mut out);
                    assert_eq!(listed.count, 100);
                }
            });
            let sum_some = least(times, pieces, || {
                for &(low, high) in &windows {
                    assert_eq!(summary(black_box(&store), low, high, 46_000).count, 100);
                }
            });
            let range_all = least(times, count, || {
                assert_eq!(range(black_box(&store), 0, u32::MAX, &mut out).count as usize, count);
            });
            let sum_all = least(times, count, || {
                assert_eq!(summary(black_box(&store), 0, u32::MAX, 46_000).count as usize, count);
            });
            let agains = least(times, count, || {
                for &key in &shuffled {
                    let record = black_box(remove(black_box(&mut store), key)).record;
                    assert_eq!(enter(&mut store, record).number, 0);
                }
            });
            let tree = (store[7], store[4] - store[10], store[5] - store[11]);
            let mut removes = f64::MAX;
            for _ in 0..times {
                set_up(&mut store, theta, capacity, 4096, 4096);
                records.iter().for_each(|&record| _ = enter(&mut store, record));
                let start = Instant::now();
                for &key in &shuffled {
                    assert_eq!(black_box(remove(black_box(&mut store), key)).number, 0);
                }
                removes = removes.min(start.elapsed().as_nanos() as f64 / count as f64);
            }
            println!(
                "{theta:5} {capacity:3} {count:6} {:7} {:5} {:5} | {finds:6.1} {nexts:6.1} {enters:6.1} {agains:6.1} {removes:6.1} | {range_some:8.2} {sum_some:6.2} | {range_all:9.2} {sum_all:7.2}",
                tree.0, tree.1, tree.2
            );
        }
    }
}
