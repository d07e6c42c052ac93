//! Times `mrep packets` and `mrep events`, and the jobs of `ours` over the crates, against `packets.rs`, `events.rs`,
//! `gtid.rs` and `typed.rs`, plain Rust programs that do the same; stores against `store.py`, which gives the same statements to the C
//! library of SQLite; `mrep replay` and `mrep follow` against a store and one another; `mrep replay` against
//! `replay.c`, which does the whole job in C; and `mrep` over inputs of which each has twice as much as the one before.
//!
//!     bench MREP JOBS PACKETS GTID EVENTS TYPED STORE FOLDER
//!     bench growth MREP FOLDER
//!
//! It makes each input from files in the folder. Both programs of a job run in turn, five times each (for stores three
//! times), and must print the same; the row has their best times, the ratio of these and the greatest resident size of
//! each. The status is 1 if a ratio is above its goal by more than a tenth in each of three tries, or another goal is
//! missed. If there is no `python3`, the stores are skipped.

mod growth;
mod replay;
mod whole;

use std::fs::{self, File};
use std::io::{self, BufReader, BufWriter, Read, Write};
use std::path::Path;
use std::process::{Command, ExitCode, Stdio};
use std::time::Instant;

const MIB: usize = 1 << 20;
const RUNS: usize = 5;
const STORE_RUNS: usize = 3;
/// Of a job that takes long.
const RUNS_OF_ONE: usize = 1;
/// A ratio may be above its goal by this much,
const SLACK: f64 = 1.1;
/// and is tried so often.
const TRIES: usize = 3;

/// The goal of `mrep packets`: at most this many times the time of the Rust program,
const PACKETS_TIMES: f64 = 1.3;
/// and at most twice the largest payload and this much memory more.
const MORE: usize = 16 * MIB;

/// The goal of the list of events.
const EVENTS_TIMES: f64 = 1.5;

/// The goal of their rows, to the last cell: the end of a row is found before its cells are read.
const ROWS_TIMES: f64 = 1.1;

/// The goal of gathering transactions.
const GATHER_TIMES: f64 = 1.2;

/// The goal of printing rows with names and types.
const TYPED_TIMES: f64 = 3.0;

/// The goal of each operation on sets.
const GTID_TIMES: f64 = 1.5;

/// The goal for a store in a file.
const STORE_TIMES: f64 = 3.0;

/// The goal for opening one of 1,000,000 rows: at most this many times the C library's test and a read of all rows,
const OPEN_TIMES: f64 = 2.0;
/// and at most this much memory.
const OPEN_MEMORY: usize = 160 * MIB;

/// What a store is given: transactions with a number of rows each, or rows that are removed and inserted again.
const STORES: [(&str, &[&str]); 3] = [
    ("a store of 20,000 transactions of one row", &["add", "20000", "1"]),
    ("a store of 200 transactions of 1,000 rows", &["add", "200", "1000"]),
    ("10,000 rows put in, taken out and put in again", &["again", "10000"]),
];

const OPERATIONS: [&str; 8] =
    ["contains", "ascending", "scattered", "union", "subtract", "print", "parse", "parse_scattered"];

const FORMAT: &[u8] =
    b"\x04\08.0.36\0\0\0\0\0\0\0\0\0\0\0\0\0\0\0\0\0\0\0\0\0\0\0\0\0\0\0\0\0\0\0\0\0\0\0\0\0\0\0\0\0\0\0\0\0\0\0\0\x13\0\x0d\0\x08\0\0\0\0\0\0\0\0\0\0\0\0\0\0\x08\0\0\0\0\0\0\0\0\0\0\x0a\x0a\x0a\0\0\0\0\0\0\0\0";
/// A greeting, and the OKs to the login and to the query.
const OPENING: &[u8] = b"\x4a\0\0\0\x0a8.0.36\0\x08\0\0\0\x01\x02\x03\x04\x05\x06\x07\x08\0\x05\xa2\x21\x02\0\x08\0\x15\0\0\0\0\0\0\0\0\0\0\x09\x0a\x0b\x0c\x0d\x0e\x0f\x10\x11\x12\x13\x14\0mysql_native_password\0\x07\0\0\x02\0\0\0\x02\0\0\0\x07\0\0\x01\0\0\0\x02\0\0\0";
const BEGIN: &[u8] = b"\0\0\0\0\0\0\0\0\0\0\0\0\0\0BEGIN";
/// A table map of (BIGINT, VARCHAR), and the text of each of its rows.
const MAP: &[u8] = b"\x01\0\0\0\0\0\0\0\x04shop\0\x05items\0\x02\x08\x0f\x02\xff\0\x03";
const TEXT: &[u8] = b"\x10sixteen bytes...";

struct Input {
    name: &'static str,
    payload: usize,
    count: usize,
}

const INPUTS: [Input; 3] = [
    Input {
        name: "256 MiB in payloads of 1 KiB",
        payload: 1024,
        count: 256 * 1024,
    },
    Input {
        name: "256 MiB in payloads of 4 MiB",
        payload: 4 * MIB,
        count: 64,
    },
    Input {
        name: "8 MiB in packets of one byte",
        payload: 1,
        count: 8 * MIB,
    },
];

/// `struct rusage` of Linux on a 64-bit processor.
#[repr(C)]
#[derive(Default)]
struct Usage {
    times: [i64; 4],
    max_resident_kib: i64,
    others: [i64; 13],
}

unsafe extern "C" {
    fn wait4(pid: i32, status: *mut i32, options: i32, usage: *mut Usage) -> i32;
}

struct Run {
    seconds: f64,
    /// Of the processor, of the program and of the system for it.
    processor: f64,
    resident: usize,
    status: i32,
}

/// Each payload in a packet of its own, with the sequence ids from 0 on.
fn make(input: &Input, path: &Path) -> io::Result<()> {
    let mut out = BufWriter::new(File::create(path)?);
    let payload: Vec<u8> = (0..input.payload).map(|n| (n % 251) as u8).collect();
    let [a, b, c, _] = (input.payload as u32).to_le_bytes();
    for n in 0..input.count {
        out.write_all(&[a, b, c, n as u8])?;
        out.write_all(&payload)?;
    }
    out.flush()
}

/// An event with the header of server 1, in a packet of its own.
fn event(out: &mut impl Write, sequence: &mut u8, code: u8, body: &[u8]) -> io::Result<()> {
    let size = 19 + body.len() as u32;
    let [a, b, c, _] = (size + 1).to_le_bytes();
    out.write_all(&[a, b, c, *sequence, 0, 0, 0, 0, 0, code, 1, 0, 0, 0])?;
    out.write_all(&size.to_le_bytes())?;
    out.write_all(&[0; 6])?;
    out.write_all(body)?;
    *sequence = sequence.wrapping_add(1);
    Ok(())
}

/// The event of a transaction's GTID.
fn gtid(out: &mut impl Write, sequence: &mut u8, number: u64) -> io::Result<()> {
    let mut gtid = vec![0];
    gtid.extend_from_slice(b"\x3e\x11\xfaGq\xca\x11\xe1\x9e3\xc8\x0a\xa9B\x95b");
    gtid.extend_from_slice(&number.to_le_bytes());
    event(out, sequence, 33, &gtid)
}

/// A transaction over a table of eight columns, with writes of 80 rows of 100 bytes each.
fn make_rows(path: &Path, rows: usize) -> io::Result<()> {
    let mut out = BufWriter::new(File::create(path)?);
    let mut sequence = 0;
    event(&mut out, &mut sequence, 15, FORMAT)?;
    gtid(&mut out, &mut sequence, 1)?;
    event(&mut out, &mut sequence, 2, BEGIN)?;
    let mut map = b"\x01\0\0\0\0\0\0\0\x04shop\0\x05items\0\x08".to_vec();
    map.extend_from_slice(&[8, 3, 15, 18, 246, 15, 1, 5, 8, 50, 0, 0, 10, 2, 255, 0, 8, 255]);
    event(&mut out, &mut sequence, 19, &map)?;
    let mut row = vec![0];
    row.extend_from_slice(&[1, 2, 3, 4, 5, 6, 7, 8, 1, 2, 3, 4, 28]);
    row.extend_from_slice(&[b'a'; 28]);
    row.extend_from_slice(&[0x99, 0xb1, 0x2c, 0, 0, 0x80, 0, 0, 1, 50, 38]);
    row.extend_from_slice(&[b'b'; 38]);
    row.extend_from_slice(&[7, 0, 0, 0, 0, 0, 0, 0xf0, 0x3f]);
    let mut body = vec![1, 0, 0, 0, 0, 0, 1, 0, 2, 0, 8, 255];
    for n in 0..80 {
        row[1] = n;
        body.extend_from_slice(&row);
    }
    for _ in 0..rows / 80 {
        event(&mut out, &mut sequence, 30, &body)?;
    }
    event(&mut out, &mut sequence, 16, &1u64.to_le_bytes())?;
    out.flush()
}

/// A million events of empty transactions.
fn make_small(path: &Path) -> io::Result<()> {
    let mut out = BufWriter::new(File::create(path)?);
    let mut sequence = 0;
    for number in 1..=333_333 {
        gtid(&mut out, &mut sequence, number)?;
        event(&mut out, &mut sequence, 2, BEGIN)?;
        event(&mut out, &mut sequence, 16, &u64::to_le_bytes(number))?;
    }
    event(&mut out, &mut sequence, 27, &[])?;
    out.flush()
}

/// The columns of the rows of `make_images`.
const COLUMNS: [&str; 10] = [
    "id\tbigint\tNULL\tPRI",
    "qty\tint unsigned\tNULL\t",
    "price\tdecimal(12,2)\tNULL\t",
    "name\tvarchar(30)\tutf8mb4\t",
    "at\tdatetime(3)\tNULL\t",
    "day\tdate\tNULL\t",
    "ratio\tdouble\tNULL\t",
    "state\tenum('new','paid','sent')\tutf8mb4\t",
    "stamp\ttimestamp\tNULL\t",
    "code\tvarbinary(8)\tNULL\t",
];

/// A number as a cell of an image.
fn number_cell(out: &mut Vec<u8>, value: u64, width: usize) {
    out.extend_from_slice(&[1, width as u8]);
    out.extend_from_slice(&value.to_le_bytes()[..width]);
}

/// Bytes as a cell of an image.
fn bytes_cell(out: &mut Vec<u8>, bytes: &[u8]) {
    out.push(2);
    out.extend_from_slice(&(bytes.len() as u32).to_le_bytes());
    out.extend_from_slice(bytes);
}

/// Images of rows of ten columns, each with its length before it, and the description of the columns.
fn make_images(path: &Path, description: &Path, rows: u64) -> io::Result<()> {
    let lines = COLUMNS.map(|column| format!("shop\torders\t{column}\n"));
    fs::write(description, lines.concat())?;
    let mut out = BufWriter::new(File::create(path)?);
    let mut image = Vec::new();
    for n in 0..rows {
        image.clear();
        image.extend_from_slice(&10u16.to_le_bytes());
        number_cell(&mut image, if n % 7 == 0 { n.wrapping_neg() } else { n }, 8);
        number_cell(&mut image, n * 7919 % (1 << 32), 4);
        let mut price = [&[(n % 10) as u8 | 0x80][..], &((n * 31) as u32 % 1_000_000_000).to_be_bytes(), &[(n % 100) as u8]].concat();
        if n % 5 == 0 && n > 0 {
            price.iter_mut().for_each(|byte| *byte = !*byte);
        }
        bytes_cell(&mut image, &price);
        match n % 9 {
            0 => image.push(0),
            1 => bytes_cell(&mut image, format!("tab\there {n}").as_bytes()),
            _ => bytes_cell(&mut image, format!("n\u{e4}me of {n}").as_bytes()),
        }
        let day = 1 + n % 28;
        let month = 1 + n % 12;
        let date = (((2024 * 13 + month) << 5) + day) << 17;
        let moment = (1 << 39) + date + ((n % 24) << 12) + ((n % 60) << 6) + n % 59;
        bytes_cell(&mut image, &[&moment.to_be_bytes()[3..], &((n % 1000 * 10) as u16).to_be_bytes()].concat());
        bytes_cell(&mut image, &(2024 * 512 + month * 32 + day).to_le_bytes()[..3]);
        bytes_cell(&mut image, &(n as f64 / 8.0 + 0.1).to_le_bytes());
        number_cell(&mut image, 1 + n % 3, 1);
        bytes_cell(&mut image, &(1_700_000_000 + n as u32 * 61 % 100_000_000).to_be_bytes());
        bytes_cell(&mut image, &n.to_be_bytes());
        out.write_all(&(image.len() as u32).to_le_bytes())?;
        out.write_all(&image)?;
    }
    out.flush()
}

fn run(program: &[&str], output: &Path) -> io::Result<Run> {
    let out = File::create(output)?;
    let start = Instant::now();
    let child = Command::new(program[0]).args(&program[1..]).stdout(out).spawn()?;
    let mut status = 0;
    let mut usage = Usage::default();
    // Sound: both pointers are to live values of the types that the call fills in.
    if unsafe { wait4(child.id() as i32, &mut status, 0, &mut usage) } < 0 {
        return Err(io::Error::last_os_error());
    }
    let [user, user_micros, system, system_micros] = usage.times;
    Ok(Run {
        seconds: start.elapsed().as_secs_f64(),
        processor: (user + system) as f64 + (user_micros + system_micros) as f64 / 1e6,
        resident: usage.max_resident_kib as usize * 1024,
        status,
    })
}

fn same(a: &Path, b: &Path) -> io::Result<bool> {
    if fs::metadata(a)?.len() != fs::metadata(b)?.len() {
        return Ok(false);
    }
    let a = BufReader::new(File::open(a)?).bytes();
    let b = BufReader::new(File::open(b)?).bytes();
    for (x, y) in a.zip(b) {
        if x? != y? {
            return Ok(false);
        }
    }
    Ok(true)
}

fn best(runs: &[Run]) -> f64 {
    runs.iter().map(|run| run.seconds).fold(f64::MAX, f64::min)
}

fn most(runs: &[Run]) -> usize {
    runs.iter().map(|run| run.resident).max().unwrap_or(0)
}

fn mib(bytes: usize) -> f64 {
    bytes as f64 / MIB as f64
}

/// What the first of two programs must achieve.
struct Goal {
    /// What the second one is.
    other: &'static str,
    runs: usize,
    /// At most this many times the time of the second one,
    times: f64,
    /// and at most this resident size.
    bound: usize,
}

impl Goal {
    fn of(times: f64, bound: usize) -> Goal {
        Goal { other: "Rust", runs: RUNS, times, bound }
    }
}

/// A row of the table: a job, its two times, their ratio, its goal, and the memory of both.
fn print_row(job: &str, other: &str, goal: f64, ours: &[Run], theirs: &[Run]) {
    let goal = if goal.is_finite() { goal.to_string() } else { String::new() };
    println!(
        "| {job} | {:.3} s | {other}: {:.3} s | {:.2} | {goal} | {:.0} / {:.0} MiB |",
        best(ours),
        best(theirs),
        best(ours) / best(theirs),
        mib(most(ours)),
        mib(most(theirs)),
    );
}

/// Whether a job meets its goal in one of some tries. `attempt` runs both programs, and returns whether all but the ratio
/// is as it should be, and the runs.
fn meets(
    job: &str,
    other: &str,
    times: f64,
    attempt: impl Fn() -> io::Result<(bool, Vec<Run>, Vec<Run>)>,
) -> io::Result<(bool, Vec<Run>)> {
    let mut tries = 1;
    loop {
        let (is_right, ours, theirs) = attempt()?;
        print_row(job, other, times, &ours, &theirs);
        let is_fast = best(&ours) <= SLACK * times * best(&theirs);
        if !is_right || is_fast || tries == TRIES {
            return Ok((is_right && is_fast, ours));
        }
        tries += 1;
    }
}

/// Whether the goal is met by the first of two programs that do the same job. `before` is called before each run.
fn compare_from(
    job: &str,
    ours: &[&str],
    theirs: &[&str],
    folder: &Path,
    goal: &Goal,
    before: impl Fn() -> io::Result<()>,
) -> io::Result<bool> {
    let (ours_out, theirs_out) = (folder.join("ours"), folder.join("theirs"));
    let attempt = || {
        let (mut our_runs, mut their_runs) = (Vec::new(), Vec::new());
        for _ in 0..goal.runs {
            before()?;
            our_runs.push(run(ours, &ours_out)?);
            before()?;
            their_runs.push(run(theirs, &theirs_out)?);
        }
        let agree =
            our_runs.iter().zip(&their_runs).all(|(a, b)| a.status == b.status) && same(&ours_out, &theirs_out)?;
        fs::remove_file(&ours_out)?;
        fs::remove_file(&theirs_out)?;
        if !agree {
            println!("the two programs do not print the same");
        }
        let is_small = most(&our_runs) <= goal.bound;
        if !is_small {
            println!("more than {:.1} MiB", mib(goal.bound));
        }
        Ok((agree && is_small, our_runs, their_runs))
    };
    Ok(meets(job, goal.other, goal.times, attempt)?.0)
}

/// As `compare_from`, for plain Rust programs, which use their input as it is.
fn compare(job: &str, ours: &[&str], theirs: &[&str], folder: &Path, times: f64, bound: usize) -> io::Result<bool> {
    compare_from(job, ours, theirs, folder, &Goal::of(times, bound), || Ok(()))
}

/// Removes a database and the files next to it.
fn remove_store(file: &str) -> io::Result<()> {
    for path in [file.to_string(), format!("{file}-wal"), format!("{file}-shm")] {
        match fs::remove_file(path) {
            Err(error) if error.kind() != io::ErrorKind::NotFound => return Err(error),
            _ => {}
        }
    }
    Ok(())
}

/// Whether the goals are met for stores in a file, compared with the C library. Both open the same database.
fn compare_stores(jobs: &str, store: &str, folder: &Path) -> io::Result<bool> {
    let python = Command::new("python3").args(["-c", "import sqlite3"]).stderr(Stdio::null()).status();
    if !python.is_ok_and(|status| status.success()) {
        println!("stores: skipped, since there is no python3 with sqlite3");
        return Ok(true);
    }
    let goal = Goal { other: "C", runs: STORE_RUNS, times: STORE_TIMES, bound: usize::MAX };
    let path = folder.join("store.db");
    let file = path.to_str().ok_or(io::ErrorKind::InvalidInput)?;
    let mut met = true;
    for (job, words) in STORES {
        let ours = [&[jobs, "store"], words, &[file]].concat();
        let theirs = [&["python3", store], words, &[file]].concat();
        met &= compare_from(job, &ours, &theirs, folder, &goal, || remove_store(file))?;
    }
    remove_store(file)?;
    let million = run(&["python3", store, "add", "1000", "1000", file], &folder.join("made"))?;
    fs::remove_file(folder.join("made"))?;
    if million.status != 0 {
        return Err(io::Error::other("store.py fails"));
    }
    let goal = Goal { other: "C", runs: STORE_RUNS, times: OPEN_TIMES, bound: OPEN_MEMORY };
    let (ours, theirs) = ([jobs, "store", "open", file], ["python3", store, "open", file]);
    met &= compare_from("a store of 1,000,000 rows opened", &ours, &theirs, folder, &goal, || Ok(()))?;
    remove_store(file)?;
    Ok(met)
}

fn usage() -> ExitCode {
    eprintln!("usage: bench MREP JOBS PACKETS GTID EVENTS TYPED STORE FOLDER, or bench growth|whole MREP FOLDER");
    ExitCode::from(2)
}

fn main() -> io::Result<ExitCode> {
    let words: Vec<String> = std::env::args().collect();
    if let [_, part, mrep, folder] = words.as_slice() {
        let folder = Path::new(folder);
        let met = match part.as_str() {
            "growth" => growth::check(mrep, folder)?,
            "whole" => whole::compare_with_c(mrep, folder)?,
            _ => return Ok(usage()),
        };
        return Ok(if met { ExitCode::SUCCESS } else { ExitCode::FAILURE });
    }
    let [_, mrep, jobs, packets, gtid, events, typed, store, folder] = words.as_slice() else {
        return Ok(usage());
    };
    let folder = Path::new(folder);
    let mut met = true;
    println!("| Job | This | Plain or C | Ratio | Goal | Memory, this / other |\n|---|---|---|---|---|---|");
    let path = folder.join("input");
    let name = path.to_str().ok_or(io::ErrorKind::InvalidInput)?;
    for input in &INPUTS {
        make(input, &path)?;
        let bound = 2 * input.payload + MORE;
        met &= compare(input.name, &[mrep, "packets", name], &[packets, name], folder, PACKETS_TIMES, bound)?;
    }
    make_rows(&path, 200 * MIB / 100)?;
    let rows = "200 MiB of rows to the last cell";
    met &= compare(rows, &[jobs, "rows", name], &[events, "sum", name], folder, ROWS_TIMES, usize::MAX)?;
    for count in [250_000, 500_000, 1_000_000] {
        make_rows(&path, count)?;
        let job = format!("a transaction of {count} rows, gathered");
        met &= compare(&job, &[jobs, "gather", name], &[events, "gather", name], folder, GATHER_TIMES, usize::MAX)?;
    }
    let described = folder.join("description");
    let description = described.to_str().ok_or(io::ErrorKind::InvalidInput)?;
    make_images(&path, &described, 1_000_000)?;
    let job = "1,000,000 rows of ten columns, printed as the client prints them";
    met &= compare(job, &[jobs, "typed", name, description], &[typed, name], folder, TYPED_TIMES, usize::MAX)?;
    fs::remove_file(&described)?;
    make_small(&path)?;
    let small = "a list of a million small events";
    met &= compare(small, &[mrep, "events", name], &[events, "list", name], folder, EVENTS_TIMES, MORE)?;
    fs::remove_file(&path)?;
    for operation in OPERATIONS {
        met &= compare(operation, &[jobs, "gtid", operation], &[gtid, operation], folder, GTID_TIMES, usize::MAX)?;
    }
    met &= compare_stores(jobs, store, folder)?;
    met &= replay::compare_connections(mrep, jobs, folder)?;
    met &= whole::compare_with_c(mrep, folder)?;
    met &= growth::check(mrep, folder)?;
    Ok(if met { ExitCode::SUCCESS } else { ExitCode::FAILURE })
}
