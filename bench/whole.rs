//! Times `mrep replay` against `replay.c`, a plain C program that reads the same stream, makes the same tests and gives
//! statements to the C library of SQLite that read a count before it is changed, and against the same program with the
//! statements of `mrep`.
//!
//! The databases are in memory, under /dev/shm, if there is such a folder, so that the times do not include the syncs
//! of a disk.

use super::{BEGIN, FORMAT, Goal, MAP, OPENING, RUNS_OF_ONE, TEXT, compare_from, event, gtid, remove_store, run};
use std::fs::{self, File};
use std::io::{self, BufWriter, Write};
use std::path::Path;

/// The goal: at most this many times the time of the C program, and no goal for that with the statements of `mrep`.
const TIMES: (f64, f64) = (1.7, f64::INFINITY);

/// The same for transactions of one row.
const TIMES_OF_ONE: (f64, f64) = (1.35, 1.6);

/// How many bytes of rows an event has, about.
const EVENT: usize = 8192;

/// A stream of a source.
pub struct Stream {
    out: BufWriter<File>,
    sequence: u8,
    /// Of the next transaction.
    pub number: u64,
}

impl Stream {
    /// The login, and the format description. The next transaction has this number.
    pub fn begin(path: &Path, number: u64) -> io::Result<Stream> {
        let mut out = BufWriter::new(File::create(path)?);
        out.write_all(OPENING)?;
        let mut stream = Stream { out, sequence: 1, number };
        stream.event(15, FORMAT)?;
        Ok(stream)
    }

    pub fn event(&mut self, code: u8, body: &[u8]) -> io::Result<()> {
        event(&mut self.out, &mut self.sequence, code, body)
    }

    /// The events that a transaction begins with.
    pub fn open(&mut self) -> io::Result<()> {
        gtid(&mut self.out, &mut self.sequence, self.number)?;
        self.event(2, BEGIN)
    }

    /// The event that a transaction ends with.
    pub fn commit(&mut self) -> io::Result<()> {
        self.event(16, &self.number.to_le_bytes())?;
        self.number += 1;
        Ok(())
    }

    /// A transaction over a table of this map, with rows of each kind, in events of this type and head.
    pub fn transaction(&mut self, map: &[u8], kinds: &[(u8, &[u8], &[Vec<u8>])]) -> io::Result<()> {
        self.open()?;
        self.event(19, map)?;
        for (code, head, rows) in kinds {
            let mut body = head.to_vec();
            for row in *rows {
                body.extend_from_slice(row);
                if body.len() > EVENT {
                    self.event(*code, &body)?;
                    body.truncate(head.len());
                }
            }
            if body.len() > head.len() {
                self.event(*code, &body)?;
            }
        }
        self.commit()
    }

    /// The EOF at the end of the log.
    pub fn end(mut self) -> io::Result<()> {
        self.out.write_all(&[5, 0, 0, self.sequence, 0xfe, 0, 0, 2, 0])?;
        self.out.flush()
    }
}

pub const ROWS_HEAD: &[u8] = &[1, 0, 0, 0, 0, 0, 1, 0, 2, 0, 2, 3];
const UPDATE_HEAD: &[u8] = &[1, 0, 0, 0, 0, 0, 1, 0, 2, 0, 2, 3, 3];

pub fn row(number: u64) -> Vec<u8> {
    [&[0][..], &number.to_le_bytes(), TEXT].concat()
}

/// Transactions of this many inserts each.
pub fn make_inserts(path: &Path, transactions: u64, rows: u64) -> io::Result<()> {
    let mut stream = Stream::begin(path, 1)?;
    for at in 0..transactions {
        let rows: Vec<_> = (at * rows..(at + 1) * rows).map(row).collect();
        stream.transaction(MAP, &[(30, ROWS_HEAD, &rows)])?;
    }
    stream.end()
}

/// Rows of a BIGINT and 49 INTs.
fn make_wide(path: &Path, transactions: u32, rows: u32) -> io::Result<()> {
    let mut map = b"\x01\0\0\0\0\0\0\0\x04shop\0\x04wide\0\x32\x08".to_vec();
    map.extend_from_slice(&[3; 49]);
    map.extend_from_slice(&[0; 8]);
    let mut head = vec![1, 0, 0, 0, 0, 0, 1, 0, 2, 0, 50];
    head.extend_from_slice(&[0xff; 7]);
    let mut stream = Stream::begin(path, 1)?;
    for at in 0..transactions {
        let wide = |number: u32| {
            let mut row = vec![0; 7];
            row.extend_from_slice(&u64::from(number).to_le_bytes());
            (0..49).for_each(|column| row.extend_from_slice(&(number ^ column).to_le_bytes()));
            row
        };
        let rows: Vec<_> = (at * rows..(at + 1) * rows).map(wide).collect();
        stream.transaction(&map, &[(30, &head, &rows)])?;
    }
    stream.end()
}

/// Transactions of one row of a BLOB of 1 MB.
fn make_large(path: &Path, transactions: u64) -> io::Result<()> {
    let map = b"\x01\0\0\0\0\0\0\0\x04shop\0\x05large\0\x02\x08\xfc\x01\x04\0";
    let mut stream = Stream::begin(path, 1)?;
    for number in 0..transactions {
        let mut large = vec![0];
        large.extend_from_slice(&number.to_le_bytes());
        large.extend_from_slice(&1_000_000u32.to_le_bytes());
        large.resize(large.len() + 1_000_000, number as u8);
        stream.transaction(map, &[(30, ROWS_HEAD, &[large])])?;
    }
    stream.end()
}

/// Transactions of fifty updates and fifty deletes each, of rows anywhere among a million.
fn make_changes(path: &Path, first: u64, transactions: u64) -> io::Result<()> {
    let mut stream = Stream::begin(path, first)?;
    for at in 0..transactions {
        let place = |n: u64| n * 7919 % 1_000_000;
        let updates: Vec<_> = (0..50).map(|n| place(100 * at + n)).map(|n| [row(n), row(n + 1_000_000)].concat()).collect();
        let deletes: Vec<_> = (50..100).map(|n| row(place(100 * at + n))).collect();
        stream.transaction(MAP, &[(31, UPDATE_HEAD, &updates), (32, ROWS_HEAD, &deletes)])?;
    }
    stream.end()
}

/// Whether `mrep replay` meets its goal beside the C program, for each job. Without the C program nothing is compared.
pub fn compare_with_c(mrep: &str, folder: &Path) -> io::Result<bool> {
    let (plain, fewest) = (folder.join("replay"), folder.join("replay_fewest"));
    if !plain.exists() {
        println!("the whole job beside C: skipped, since there is no C compiler with the library of SQLite");
        return Ok(true);
    }
    let memory = Path::new("/dev/shm");
    let base = if memory.is_dir() { memory } else { folder };
    let (database, filled, stream) = (base.join("mrep-bench.db"), base.join("mrep-filled.db"), base.join("mrep-stream"));
    let name = |path: &Path| path.to_str().map(str::to_string).ok_or(io::ErrorKind::InvalidInput);
    let (file, full, bytes) = (name(&database)?, name(&filled)?, name(&stream)?);
    let (plain, fewest) = (name(&plain)?, name(&fewest)?);
    let mut met = true;
    let mut compare = |job: &str, is_filled: bool, runs: usize, times: (f64, f64)| -> io::Result<()> {
        let before = || {
            remove_store(&file)?;
            if is_filled {
                fs::copy(&full, &file)?;
            }
            Ok(())
        };
        let ours = [mrep, "replay", "--db", &file, &bytes];
        let goal = Goal { other: "C", runs, times: times.0, bound: usize::MAX };
        met &= compare_from(job, &ours, &[&plain, &file, &bytes], folder, &goal, before)?;
        let goal = Goal { other: "C with the same statements", runs, times: times.1, bound: usize::MAX };
        met &= compare_from(job, &ours, &[&fewest, &file, &bytes], folder, &goal, before)?;
        Ok(())
    };
    make_inserts(&stream, 100_000, 1)?;
    compare("100,000 transactions of one row", false, 2, TIMES_OF_ONE)?;
    make_inserts(&stream, 100, 10_000)?;
    compare("100 transactions of 10,000 rows", false, 2, TIMES)?;
    make_wide(&stream, 100, 1_000)?;
    compare("100,000 rows of 50 columns", false, 2, TIMES)?;
    make_large(&stream, 200)?;
    compare("200 rows of 1 MB", false, 2, TIMES)?;
    make_inserts(&stream, 1, 1_000_000)?;
    compare("a transaction of 1,000,000 rows", false, RUNS_OF_ONE, TIMES)?;
    remove_store(&full)?;
    if run(&[mrep, "replay", "--db", &full, &bytes], &folder.join("made"))?.status != 0 {
        return Err(io::Error::other("a replay fails"));
    }
    make_changes(&stream, 2, 1_000)?;
    compare("100,000 updates and deletes over 1,000,000 rows, with the open", true, RUNS_OF_ONE, TIMES)?;
    remove_store(&file)?;
    remove_store(&full)?;
    fs::remove_file(&stream)?;
    fs::remove_file(folder.join("made"))?;
    Ok(met)
}
