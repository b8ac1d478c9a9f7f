//! SQLite in memory through its C library: a table with an integer primary key, prepared statements, one transaction.

use crate::index::Index;
use plots::{Record, Summary};
use std::ffi::{c_char, c_int, c_void, CStr};
use std::ptr;

#[link(name = "sqlite3")]
extern "C" {
    fn sqlite3_open_v2(name: *const c_char, db: *mut *mut c_void, flags: c_int, vfs: *const c_char) -> c_int;
    fn sqlite3_close(db: *mut c_void) -> c_int;
    fn sqlite3_prepare_v2(
        db: *mut c_void,
        text: *const c_char,
        length: c_int,
        statement: *mut *mut c_void,
        rest: *mut *const c_char,
    ) -> c_int;
    fn sqlite3_finalize(statement: *mut c_void) -> c_int;
    fn sqlite3_bind_int64(statement: *mut c_void, at: c_int, value: i64) -> c_int;
    fn sqlite3_step(statement: *mut c_void) -> c_int;
    fn sqlite3_reset(statement: *mut c_void) -> c_int;
    fn sqlite3_column_int64(statement: *mut c_void, at: c_int) -> i64;
    fn sqlite3_libversion() -> *const c_char;
}

const ROW: c_int = 100;
const DONE: c_int = 101;
/// Read and write, create, no mutex.
const FLAGS: c_int = 0x2 | 0x4 | 0x8000;

/// The version of the library.
pub fn version() -> String {
    // SAFETY: it returns a constant string that ends in a zero.
    unsafe { CStr::from_ptr(sqlite3_libversion()) }.to_string_lossy().into_owned()
}

/// An open database that is closed at last.
struct Database(*mut c_void);

impl Database {
    fn open() -> Database {
        let mut db = ptr::null_mut();
        // SAFETY: the name ends in a zero, and db is valid for the write of a pointer.
        let code = unsafe { sqlite3_open_v2(c":memory:".as_ptr(), &mut db, FLAGS, ptr::null()) };
        assert_eq!(code, 0);
        Database(db)
    }

    fn prepare(&self, text: &CStr) -> Statement {
        let mut statement = ptr::null_mut();
        // SAFETY: the database is open, the text ends in a zero, and statement is valid for the write of a pointer.
        let code = unsafe { sqlite3_prepare_v2(self.0, text.as_ptr(), -1, &mut statement, ptr::null_mut()) };
        assert_eq!(code, 0, "{text:?}");
        Statement(statement)
    }

    fn run(&self, text: &CStr) {
        self.prepare(text).run(&[]);
    }
}

impl Drop for Database {
    fn drop(&mut self) {
        // SAFETY: the database is open, and its statements are finalized: they are dropped before it.
        unsafe { sqlite3_close(self.0) };
    }
}

/// A prepared statement that is finalized at last.
struct Statement(*mut c_void);

impl Statement {
    #[inline]
    fn bind(&self, values: &[u32]) {
        for (&value, at) in values.iter().zip(1..) {
            // SAFETY: the statement is prepared and not finalized.
            let code = unsafe { sqlite3_bind_int64(self.0, at, value.into()) };
            assert_eq!(code, 0);
        }
    }

    /// Steps to the next row, if there is one.
    #[inline]
    fn row(&self) -> bool {
        // SAFETY: the statement is prepared and not finalized.
        let code = unsafe { sqlite3_step(self.0) };
        assert!(code == ROW || code == DONE, "SQLite's code {code}");
        code == ROW
    }

    /// A column of the row; null is 0.
    #[inline]
    fn column(&self, at: c_int) -> u64 {
        // SAFETY: the statement stands at a row.
        unsafe { sqlite3_column_int64(self.0, at) as u64 }
    }

    #[inline]
    fn record(&self) -> Record {
        Record::from([0, 1, 2, 3].map(|at| self.column(at) as u32))
    }

    #[inline]
    fn reset(&self) {
        // SAFETY: the statement is prepared and not finalized.
        unsafe { sqlite3_reset(self.0) };
    }

    #[inline]
    fn run(&self, values: &[u32]) {
        self.bind(values);
        while self.row() {}
        self.reset();
    }

    /// The record of the first row.
    #[inline]
    fn first(&self, key: u32) -> Option<Record> {
        self.bind(&[key]);
        let record = self.row().then(|| self.record());
        self.reset();
        record
    }
}

impl Drop for Statement {
    fn drop(&mut self) {
        // SAFETY: the statement is prepared, and this is its end.
        unsafe { sqlite3_finalize(self.0) };
    }
}

/// The table with its statements. Fields are dropped in this order: the database last.
pub struct Sqlite {
    insert: Statement,
    delete: Statement,
    find: Statement,
    next: Statement,
    range: Statement,
    summary: Statement,
    database: Database,
}

impl Sqlite {
    pub fn new() -> Sqlite {
        let database = Database::open();
        database.run(c"CREATE TABLE plots (key INTEGER PRIMARY KEY, price INTEGER, lease INTEGER, last INTEGER)");
        database.run(c"BEGIN");
        Sqlite {
            insert: database.prepare(c"INSERT INTO plots VALUES (?1, ?2, ?3, ?4)"),
            delete: database.prepare(c"DELETE FROM plots WHERE key = ?1 RETURNING key, price, lease, last"),
            find: database.prepare(c"SELECT key, price, lease, last FROM plots WHERE key = ?1"),
            next: database.prepare(c"SELECT key, price, lease, last FROM plots WHERE key > ?1 ORDER BY key LIMIT 1"),
            range: database
                .prepare(c"SELECT key, price, lease, last FROM plots WHERE key BETWEEN ?1 AND ?2 ORDER BY key"),
            // The bare column is that of the row with the minimum, which the scan in key order meets first.
            summary: database.prepare(
                c"SELECT count(*),
                         sum(CASE WHEN lease > 0 AND last >= ?3 THEN price * min(last - ?3 + 1, lease) / lease ELSE 0 END),
                         iif(min(CASE WHEN lease > 0 THEN last << 32 | (4294967295 - price) END) IS NULL, 0, key)
                  FROM plots WHERE key BETWEEN ?1 AND ?2",
            ),
            database,
        }
    }
}

impl Index for Sqlite {
    fn clear(&mut self) {
        self.database.run(c"DELETE FROM plots");
        self.database.run(c"COMMIT");
        self.database.run(c"BEGIN");
    }

    fn enter(&mut self, record: Record) -> bool {
        self.insert.run(&<[u32; 4]>::from(record));
        true
    }

    fn remove(&mut self, key: u32) -> Option<Record> {
        self.delete.first(key)
    }

    fn find(&mut self, key: u32) -> Option<Record> {
        self.find.first(key)
    }

    fn next(&mut self, key: u32) -> Option<Record> {
        self.next.first(key)
    }

    fn range(&mut self, low: u32, high: u32, out: &mut [u32]) -> usize {
        self.range.bind(&[low, high]);
        let mut count = 0;
        for room in out.as_chunks_mut::<4>().0 {
            if !self.range.row() {
                break;
            }
            *room = self.range.record().into();
            count += 1;
        }
        self.range.reset();
        count
    }

    fn summary(&mut self, low: u32, high: u32, today: u32) -> Summary {
        self.summary.bind(&[low, high, today]);
        assert!(self.summary.row());
        let [count, total, key] = [0, 1, 2].map(|at| self.summary.column(at));
        self.summary.reset();
        Summary { count, total, earliest: (key != 0).then_some(key as u32) }
    }
}
