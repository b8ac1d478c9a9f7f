//! Nanoseconds per operation of the proved library, plain Rust, a sorted map and SQLite, side by side.
//!
//!     bench [--quick] [--csv FILE]     prints the tables, and writes the figures to a file
//!     bench --profile OPERATION [bursts]   one operation of the proved library over and over, for a profiler

mod index;
#[cfg(sqlite)]
mod sqlite;
mod work;

use index::{Index, Map, Plain, Proved, THETA};
use plots::Record;
use std::fmt::Write;
use std::hint::black_box;
use std::time::Instant;
use std::{env, fs, process};
use work::{Pattern, Work};

#[cfg(sqlite)]
type Sqlite = sqlite::Sqlite;
/// Never made: the library is not installed.
#[cfg(not(sqlite))]
type Sqlite = Map;

#[cfg(sqlite)]
fn open_sqlite() -> Option<Sqlite> {
    Some(Sqlite::new())
}
#[cfg(not(sqlite))]
fn open_sqlite() -> Option<Sqlite> {
    None
}

/// Records a page: the most that there may be.
const CAPACITY: u32 = 24;
/// "remove no join" takes out records after which nothing joins, "enter no split" enters them again; "remove all" empties
/// the index.
const OPERATIONS: [&str; 9] =
    ["enter", "find held", "find absent", "next", "range", "summary", "enter no split", "remove no join", "remove all"];
const ENTER: usize = 0;
const ENTER_AGAIN: usize = 6;
const REMOVE_APART: usize = 7;
const REMOVE_ALL: usize = 8;
const COLUMNS: [&str; 4] = ["proved", "plain", "BTreeMap", "SQLite"];

/// Nanoseconds by operation; per record for range and summary.
type Times = [f64; 9];

/// What the tree of a set takes.
struct Shape {
    levels: u32,
    nodes: u32,
    pages: u32,
    directory: u64,
    load: f64,
}

/// One set of keys at one capacity. Without a shape it does not fit.
struct Row {
    pattern: Pattern,
    capacity: u32,
    count: usize,
    shape: Option<Shape>,
    times: [Option<Times>; 4],
}

/// Enters all records: whether they fit.
fn fill(index: &mut impl Index, work: &Work) -> bool {
    index.clear();
    work.records.iter().all(|&record| index.enter(record))
}

/// A checksum of all answers on a filled index.
fn answers(index: &mut impl Index, work: &Work) -> u64 {
    let mut sum = 0u64;
    let mut add = |word: u32| sum = (sum ^ u64::from(word)).wrapping_mul(0x100_0000_01b3).rotate_left(29);
    for &key in work.held.iter().chain(&work.absent) {
        let found = [index.find(key), index.next(key)];
        found.map(|record| record.map_or([1; 4], Into::into)).as_flattened().iter().copied().for_each(&mut add);
    }
    let mut out = vec![0; 4 * work.records.len()];
    add(index.range(0, u32::MAX, &mut out) as u32);
    out.into_iter().for_each(&mut add);
    let sheet = index.summary(0, u32::MAX, work.today);
    for word in [sheet.count, sheet.total, sheet.total >> 32, sheet.earliest.map_or(0, u64::from)] {
        add(word as u32);
    }
    sum
}

/// Records that may go in this order with no join, an eighth of all at most: of a filled index the head and the nodes stay
/// as they are.
fn apart(index: &mut Proved, work: &Work) -> Vec<Record> {
    let directory = |index: &Proved| {
        let words = index.words();
        words[..16 + words[4] as usize * (4 + (2 << THETA))].to_vec()
    };
    let mut records = Vec::new();
    let mut before = directory(index);
    for &key in work.held.iter().take(work.held.len() / 8) {
        let record = index.remove(key).expect("a held key");
        if directory(index) == before {
            records.push(record);
        } else {
            assert!(index.enter(record));
            before = directory(index);
        }
    }
    records
}

/// Times each operation some passes and keeps the least.
fn measure(index: &mut impl Index, work: &Work, apart: &[Record], passes: usize, best: &mut Times) {
    let mut out = vec![0; 4 * work.records.len()];
    for (operation, best) in best.iter_mut().enumerate() {
        let count = if matches!(operation, ENTER_AGAIN | REMOVE_APART) { apart.len() } else { work.records.len() };
        for _ in 0..passes {
            prepare(index, work, apart, operation);
            let start = Instant::now();
            perform(index, work, apart, operation, &mut out);
            *best = best.min(start.elapsed().as_nanos() as f64 / count as f64);
        }
    }
}

/// Removes each record and enters it again.
fn replace(index: &mut impl Index, work: &Work) {
    for &key in &work.held {
        let record = index.remove(key).expect("a held key");
        assert!(index.enter(record));
    }
}

/// Makes an index ready for one pass of an operation.
fn prepare(index: &mut impl Index, work: &Work, apart: &[Record], operation: usize) {
    match operation {
        ENTER => index.clear(),
        ENTER_AGAIN => {
            assert!(fill(index, work));
            perform(index, work, apart, REMOVE_APART, &mut []);
        }
        REMOVE_APART | REMOVE_ALL => assert!(fill(index, work)),
        _ => (),
    }
}

/// One pass of an operation over all keys.
#[inline]
fn perform(index: &mut impl Index, work: &Work, apart: &[Record], operation: usize, out: &mut [u32]) {
    match operation {
        ENTER => work.records.iter().for_each(|&record| assert!(index.enter(black_box(record)))),
        1 => work.held.iter().for_each(|&key| _ = black_box(index.find(black_box(key)))),
        2 => work.absent.iter().for_each(|&key| _ = black_box(index.find(black_box(key)))),
        3 => work.held.iter().for_each(|&key| _ = black_box(index.next(black_box(key)))),
        4 => assert_eq!(index.range(black_box(0), u32::MAX, black_box(out)), work.records.len()),
        5 => _ = black_box(index.summary(black_box(0), u32::MAX, work.today)),
        ENTER_AGAIN => apart.iter().for_each(|&record| assert!(index.enter(black_box(record)))),
        REMOVE_APART => apart.iter().for_each(|record| assert!(index.remove(black_box(record.key)).is_some())),
        _ => work.held.iter().for_each(|&key| assert!(index.remove(black_box(key)).is_some())),
    }
}

fn shape(words: &[u32], records: usize) -> Shape {
    let [_, capacity, _, _, nodes, pages, _, levels] = *words.first_chunk().expect("a head");
    let directory = words[16..].chunks(4 + (2 << THETA)).take(nodes as usize).map(|node| 1u64 << node[0]).sum();
    Shape { levels, nodes, pages, directory, load: records as f64 / f64::from(pages * capacity) }
}

/// Fills all four, compares their answers, and measures them in alternating rounds.
fn run(pattern: Pattern, capacity: u32, count: usize, rounds: usize) -> Row {
    let work = &Work::new(pattern, count);
    let (mut proved, mut plain, mut map) = (Proved::new(capacity), Plain::new(capacity), Map::default());
    let mut sqlite = open_sqlite();

    let fits = fill(&mut proved, work);
    assert_eq!(fits, fill(&mut plain, work));
    fill(&mut map, work);
    let expected = answers(&mut map, work);
    if fits {
        assert_eq!(answers(&mut proved, work), expected, "the proved library's answers differ");
        assert_eq!(answers(&mut plain, work), expected, "plain Rust's answers differ");
        replace(&mut proved, work);
        assert_eq!(answers(&mut proved, work), expected, "the proved library's answers differ after removals");
        replace(&mut plain, work);
        assert_eq!(answers(&mut plain, work), expected, "plain Rust's answers differ after removals");
    }
    if let Some(sqlite) = &mut sqlite {
        fill(sqlite, work);
        assert_eq!(answers(sqlite, work), expected, "SQLite's answers differ");
    }
    let shape = fits.then(|| shape(proved.words(), count));
    let apart = if fits { apart(&mut proved, work) } else { work.records[..count / 8].to_vec() };

    let passes = (20_000 / count).max(1);
    let mut times = [[f64::MAX; 9]; 4];
    for _ in 0..rounds {
        if fits {
            measure(&mut proved, work, &apart, passes, &mut times[0]);
            measure(&mut plain, work, &apart, passes, &mut times[1]);
        }
        measure(&mut map, work, &apart, passes, &mut times[2]);
        if let Some(sqlite) = &mut sqlite {
            measure(sqlite, work, &apart, passes, &mut times[3]);
        }
    }
    let times = times.map(|times| (times[0] < f64::MAX).then_some(times));
    Row { pattern, capacity, count, shape, times }
}

/// A number with commas.
fn commas(number: usize) -> String {
    let digits = number.to_string();
    let mut text = String::new();
    for (at, digit) in digits.chars().enumerate() {
        if at > 0 && (digits.len() - at).is_multiple_of(3) {
            text.push(',');
        }
        text.push(digit);
    }
    text
}

/// The time of one column, if it was measured.
fn measured(row: &Row, column: usize, operation: usize) -> Option<f64> {
    row.times[column].map(|times| times[operation])
}

fn print_tables(rows: &[Row]) {
    let Some(Row { pattern, capacity, .. }) = rows.first() else { return };
    println!("\n{}, theta {THETA}, C {capacity}\n", pattern.title());
    println!("|    keys | levels | nodes | pages | directory entries | load factor |");
    println!("|--------:|-------:|------:|------:|------------------:|------------:|");
    for row in rows {
        print!("| {:>7} ", commas(row.count));
        match &row.shape {
            Some(Shape { levels, nodes, pages, directory, load }) => {
                println!("| {levels:6} | {nodes:5} | {pages:5} | {directory:17} | {load:11.3} |");
            }
            None => println!("|        |       |       |      does not fit |             |"),
        }
    }
    println!("\nns, and in brackets the ratio to plain Rust; range and summary: all records, ns per record\n");
    println!("| operation      |    keys |          proved |  plain |        BTreeMap |          SQLite |");
    println!("|----------------|--------:|----------------:|-------:|----------------:|----------------:|");
    for (operation, name) in OPERATIONS.iter().enumerate() {
        for row in rows {
            print!("| {name:14} | {:>7} |", commas(row.count));
            let plain = measured(row, 1, operation);
            for column in 0..COLUMNS.len() {
                let cell = match measured(row, column, operation) {
                    Some(time) => match plain {
                        Some(plain) if column != 1 => format!("{time:.1} ({:.2})", time / plain),
                        _ => format!("{time:.1}"),
                    },
                    None if column == 3 => "not installed".into(),
                    None if column == 0 => "does not fit".into(),
                    None => String::new(),
                };
                print!(" {cell:>width$} |", width = if column == 1 { 6 } else { 15 });
            }
            println!();
        }
    }
}

fn csv(rows: &[Row]) -> String {
    let mut text =
        String::from("pattern,theta,capacity,keys,levels,nodes,pages,directory_entries,load_factor,operation");
    for column in COLUMNS {
        write!(text, ",{}_ns", column.to_lowercase()).unwrap();
    }
    text.push_str(",note\n");
    for row in rows {
        for (operation, name) in OPERATIONS.iter().enumerate() {
            write!(text, "{},{THETA},{},{}", row.pattern.name(), row.capacity, row.count).unwrap();
            match &row.shape {
                Some(Shape { levels, nodes, pages, directory, load }) => {
                    write!(text, ",{levels},{nodes},{pages},{directory},{load:.4}").unwrap();
                }
                None => text.push_str(",,,,,"),
            }
            write!(text, ",{name}").unwrap();
            for column in 0..COLUMNS.len() {
                text.push(',');
                if let Some(time) = measured(row, column, operation) {
                    write!(text, "{time:.2}").unwrap();
                }
            }
            text.push(',');
            text.push_str(if row.shape.is_none() { "does not fit" } else { "" });
            text.push('\n');
        }
    }
    text
}

/// One operation of the proved library over and over, on 10,000 random keys or 1,000 in bursts, 24 to a page.
fn profile(name: &str, bursts: bool) {
    let Some(operation) = OPERATIONS.iter().position(|&operation| operation == name) else {
        eprintln!("bench: operations are {OPERATIONS:?}");
        process::exit(2);
    };
    let work = if bursts { Work::new(Pattern::Bursts, 1_000) } else { Work::new(Pattern::Random, 10_000) };
    let mut proved = Proved::new(CAPACITY);
    assert!(fill(&mut proved, &work));
    let mut out = vec![0; 4 * work.records.len()];
    let apart = apart(&mut proved, &work);
    for _ in 0..20 {
        prepare(&mut proved, &work, &apart, operation);
        perform(&mut proved, &work, &apart, operation, &mut out);
    }
}

fn main() {
    let (mut quick, mut file) = (false, None);
    let mut arguments = env::args().skip(1);
    while let Some(argument) = arguments.next() {
        match argument.as_str() {
            "--quick" => quick = true,
            "--csv" => file = arguments.next(),
            "--profile" => {
                return profile(&arguments.next().unwrap_or_default(), arguments.next().as_deref() == Some("bursts"));
            }
            _ => {
                eprintln!("bench: [--quick] [--csv FILE], or --profile OPERATION [bursts]");
                process::exit(2);
            }
        }
    }
    let (sizes, rounds): (&[usize], usize) =
        if quick { (&[1_000, 10_000], 3) } else { (&[1_000, 10_000, 50_000, 100_000], 7) };
    #[cfg(sqlite)]
    println!("SQLite {} in memory; best of {rounds} alternating rounds", sqlite::version());
    #[cfg(not(sqlite))]
    println!("SQLite is not installed; best of {rounds} alternating rounds");

    let mut rows = Vec::new();
    for pattern in [Pattern::Random, Pattern::Bursts] {
        let first = rows.len();
        for &count in sizes {
            rows.push(run(pattern, CAPACITY, count, rounds));
        }
        print_tables(&rows[first..]);
    }
    if let Some(file) = file {
        fs::write(&file, csv(&rows)).unwrap_or_else(|error| {
            eprintln!("bench: {file}: {error}");
            process::exit(1);
        });
    }
}
