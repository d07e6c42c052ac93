//! Runs `mrep` over n, 2n and 4n of what can grow, and compares what each takes of the processor: twice as much of the
//! input is to take at most 2.2 times as long, and a transaction takes no longer for the rows that the database has.
//!
//! A job misses its goal if a ratio is above it by more than a tenth in each of three tries, each with the least that was
//! taken so far.

use super::whole::{ROWS_HEAD, Stream, make_inserts, row};
use super::{MAP, SLACK, TRIES, remove_store, run};
use std::fs;
use std::io;
use std::path::{Path, PathBuf};

/// The goal for twice as much of the input.
const TIMES: f64 = 2.2;
/// The goal for a transaction over twice as many rows.
const HELD_TIMES: f64 = 1.2;
const RUNS: usize = 2;

/// How many transactions are applied to a database that has rows.
const APPLIED: u64 = 20_000;

/// Where the files are.
struct Files<'a> {
    mrep: &'a str,
    out: PathBuf,
    stream: String,
    database: String,
    filled: String,
}

/// The least of the processor's seconds.
fn least(runs: &[f64]) -> f64 {
    runs.iter().copied().fold(f64::MAX, f64::min)
}

impl Files<'_> {
    /// What a command takes of the processor, in seconds.
    fn run(&self, words: &[&str]) -> io::Result<f64> {
        let run = run(&[&[self.mrep], words].concat(), &self.out)?;
        if run.status != 0 {
            return Err(io::Error::other(format!("{:?} fails", words.first())));
        }
        Ok(run.processor)
    }

    /// The least of some runs of a command, each over a new database.
    fn anew(&self, words: &[&str]) -> io::Result<f64> {
        let mut found = Vec::new();
        for _ in 0..RUNS {
            remove_store(&self.database)?;
            found.push(self.run(words)?);
        }
        Ok(least(&found))
    }

    /// A replay of the stream into a new database.
    fn replay(&self) -> io::Result<f64> {
        self.anew(&["replay", "--db", &self.database, &self.stream])
    }

    /// A replay of the stream into a copy of the database that has rows, without the opening of this.
    fn apply(&self) -> io::Result<f64> {
        let (mut opened, mut applied) = (Vec::new(), Vec::new());
        for _ in 0..RUNS {
            remove_store(&self.database)?;
            fs::copy(&self.filled, &self.database)?;
            opened.push(self.run(&["gtids", "--db", &self.database])?);
            applied.push(self.run(&["replay", "--db", &self.database, &self.stream])?);
        }
        Ok(least(&applied) - least(&opened))
    }
}

/// Numbers without neighbours: the odd ones, from the lowest or from anywhere.
fn make_gaps(path: &Path, count: u64, step: u64) -> io::Result<()> {
    let mut stream = Stream::begin(path, 1)?;
    for n in 0..count {
        stream.number = 2 * (n * step % count) + 1;
        stream.transaction(MAP, &[(30, ROWS_HEAD, &[row(n)])])?;
    }
    stream.end()
}

/// The map of the table with this id, and the head of an event of its rows. The last one ends the statement.
fn table(id: u32, is_last: bool) -> (Vec<u8>, Vec<u8>) {
    let [a, b, c, d] = id.to_le_bytes();
    let name = format!("t{id:07}");
    let map = [&[a, b, c, d, 0, 0, 0, 0, 4][..], b"shop\0\x08", name.as_bytes(), b"\0\x02\x08\x0f\x02\xff\0\x03"].concat();
    (map, vec![a, b, c, d, 0, 0, u8::from(is_last), 0, 2, 0, 2, 3])
}

/// One transaction with a row of each of some tables: each in a statement of its own, or all in one.
fn make_tables(path: &Path, count: u32, is_one: bool) -> io::Result<()> {
    let mut stream = Stream::begin(path, 1)?;
    stream.open()?;
    if is_one {
        for id in 1..=count {
            stream.event(19, &table(id, true).0)?;
        }
    }
    for id in 1..=count {
        let (map, mut body) = table(id, !is_one || id == count);
        if !is_one {
            stream.event(19, &map)?;
        }
        body.extend_from_slice(&row(id.into()));
        stream.event(30, &body)?;
    }
    stream.commit()?;
    stream.end()
}

/// Transactions of rows of so many INTs.
fn make_columns(path: &Path, columns: u16) -> io::Result<()> {
    let [low, high] = columns.to_le_bytes();
    let bits = vec![0; usize::from(columns).div_ceil(8)];
    let kinds = vec![3; usize::from(columns)];
    let map = [&b"\x01\0\0\0\0\0\0\0\x04shop\0\x04wide\0\xfc"[..], &[low, high], &kinds, b"\0", &bits].concat();
    let present = vec![0xff; bits.len()];
    let head = [&[1, 0, 0, 0, 0, 0, 1, 0, 2, 0, 0xfc, low, high][..], &present].concat();
    let mut stream = Stream::begin(path, 1)?;
    for at in 0..20u32 {
        let rows = (0..50).map(|n| {
            let cells = (0..u32::from(columns)).flat_map(|column| (1000 * column + 50 * at + n).to_le_bytes());
            bits.iter().copied().chain(cells).collect()
        });
        stream.transaction(&map, &[(30, &head, &rows.collect::<Vec<_>>())])?;
    }
    stream.end()
}

/// The text of a set with so many intervals.
fn gaps_text(count: u64) -> String {
    let mut text = "3e11fa47-71ca-11e1-9e33-c80aa9429562".to_string();
    (0..count).for_each(|n| text.push_str(&format!(":{}", 2 * n + 1)));
    text
}

/// Whether a job meets its goal over n, 2n and 4n. Each try may lower what each of them takes.
fn grows(job: &str, first: u64, goal: f64, measure: impl Fn(u64) -> io::Result<f64>) -> io::Result<bool> {
    let mut taken = [f64::MAX; 3];
    for _ in 0..TRIES {
        for (least, size) in taken.iter_mut().zip([first, 2 * first, 4 * first]) {
            *least = least.min(measure(size)?);
        }
        let [one, two, four] = taken;
        let (twice, again) = (two / one, four / two);
        println!(
            "| {job}: {first}, twice and four times as many | {one:.3}, {two:.3}, {four:.3} s | | {twice:.2}, {again:.2} | {goal} | |"
        );
        if twice.max(again) <= SLACK * goal {
            return Ok(true);
        }
    }
    Ok(false)
}

/// Whether each job over more of its input takes as long as its goal says.
pub fn check(mrep: &str, folder: &Path) -> io::Result<bool> {
    let memory = Path::new("/dev/shm");
    let base = if memory.is_dir() { memory } else { folder };
    let name = |file: &str| base.join(file).to_str().map(str::to_string).ok_or(io::ErrorKind::InvalidInput);
    let files = Files {
        mrep,
        out: folder.join("grown"),
        stream: name("mrep-growth")?,
        database: name("mrep-grown.db")?,
        filled: name("mrep-filled.db")?,
    };
    let stream = Path::new(&files.stream);
    let mut met = grows("rows of a transaction", 25_000, TIMES, |n| {
        make_inserts(stream, 1, n)?;
        files.replay()
    })?;
    met &= grows("transactions", 10_000, TIMES, |n| {
        make_inserts(stream, n, 1)?;
        files.replay()
    })?;
    met &= grows("intervals, a transaction each, in order", 10_000, TIMES, |n| {
        make_gaps(stream, n, 1)?;
        files.replay()
    })?;
    met &= grows("the same in any order", 10_000, TIMES, |n| {
        make_gaps(stream, n, 7919)?;
        files.replay()
    })?;
    met &= grows("intervals adopted", 4_000, TIMES, |n| {
        files.anew(&["adopt", "--db", &files.database, &gaps_text(n)])
    })?;
    met &= grows("tables of a transaction, a statement each", 16_000, TIMES, |n| {
        make_tables(stream, n as u32, false)?;
        files.replay()
    })?;
    met &= grows("tables of a statement", 16_000, TIMES, |n| {
        make_tables(stream, n as u32, true)?;
        files.replay()
    })?;
    met &= grows("columns of 1,000 rows", 1_000, TIMES, |n| {
        make_columns(stream, n as u16)?;
        files.replay()
    })?;
    met &= grows("names of --only", 4_000, TIMES, |n| {
        make_inserts(stream, 1, 1_000)?;
        let names: Vec<_> = (1..n).map(|n| format!("shop.t{n:07}")).chain(["shop.items".to_string()]).collect();
        let only = names.iter().flat_map(|name| ["--only", name]);
        let words: Vec<_> = ["replay", "--db", &files.database].into_iter().chain(only).chain([&*files.stream]).collect();
        files.anew(&words)
    })?;
    met &= grows("rows of a database that is opened", 50_000, TIMES, |n| {
        remove_store(&files.filled)?;
        make_inserts(stream, n / 1_000, 1_000)?;
        files.run(&["replay", "--db", &files.filled, &files.stream])?;
        Ok(least(&[files.run(&["gtids", "--db", &files.filled])?, files.run(&["gtids", "--db", &files.filled])?]))
    })?;
    met &= grows("20,000 transactions over the rows of a database", 50_000, HELD_TIMES, |n| {
        remove_store(&files.filled)?;
        make_inserts(stream, n / 1_000, 1_000)?;
        files.run(&["replay", "--db", &files.filled, &files.stream])?;
        let mut more = Stream::begin(stream, n + 1)?;
        for at in 0..APPLIED {
            more.transaction(MAP, &[(30, ROWS_HEAD, &[row(1_000_000 + at)])])?;
        }
        more.end()?;
        files.apply()
    })?;
    remove_store(&files.database)?;
    remove_store(&files.filled)?;
    fs::remove_file(stream)?;
    fs::remove_file(&files.out)?;
    Ok(met)
}
