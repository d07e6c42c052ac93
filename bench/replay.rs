//! Times `mrep replay` against a store that is given the same transactions (`ours store add`); a stream in pieces of one byte
//! against one in pieces of 64 KiB; and `mrep follow` over the loopback interface against `mrep replay` of the same
//! bytes.
//!
//! The databases are in memory, under /dev/shm, if there is such a folder, so that the times do not include the syncs
//! of a disk.

use super::{BEGIN, FORMAT, MAP, OPENING, Run, TEXT, best, event, gtid, meets, mib, most, remove_store, run};
use std::fs::{self, File, OpenOptions, Permissions};
use std::io::{self, BufReader, BufWriter, Read, Write};
use std::net::{Shutdown, TcpListener};
use std::os::fd::AsRawFd;
use std::os::unix::fs::PermissionsExt;
use std::path::{Path, PathBuf};
use std::process::Command;
use std::thread;

const RUNS: usize = 3;

/// The goals: at most these many times the time of a store that is given the same transactions,
const REPLAY_TIMES: f64 = 1.1;
/// of a stream in pieces of 64 KiB, for one in pieces of one byte,
const BYTES_TIMES: f64 = 20.0;
/// and of a replay of the bytes, for the same bytes over the loopback interface.
const FOLLOW_TIMES: f64 = 1.1;
/// A stream of five times the length takes at most this many times the memory.
const MEMORY_TIMES: f64 = 1.25;

/// Linux: makes each read of a pipe return what one write has put in.
const F_SETFL: i32 = 4;
const O_DIRECT: i32 = 0o40000;

unsafe extern "C" {
    fn fcntl(file: i32, command: i32, flags: i32) -> i32;
}

/// How many rows an event has at most.
const ROWS: u64 = 300;

/// A connection with transactions of this many inserts each, of the rows of `ours store add`, and the EOF at the end
/// of the log.
fn make(path: &Path, transactions: u64, changes: u64) -> io::Result<()> {
    let mut out = BufWriter::new(File::create(path)?);
    out.write_all(OPENING)?;
    let mut sequence = 1;
    event(&mut out, &mut sequence, 15, FORMAT)?;
    let mut row = 0u64;
    for number in 1..=transactions {
        gtid(&mut out, &mut sequence, number)?;
        event(&mut out, &mut sequence, 2, BEGIN)?;
        event(&mut out, &mut sequence, 19, MAP)?;
        let end = row + changes;
        while row < end {
            let mut body = vec![1, 0, 0, 0, 0, 0, 1, 0, 2, 0, 2, 3];
            for _ in 0..ROWS.min(end - row) {
                body.push(0);
                body.extend_from_slice(&row.to_le_bytes());
                body.extend_from_slice(TEXT);
                row += 1;
            }
            event(&mut out, &mut sequence, 30, &body)?;
        }
        event(&mut out, &mut sequence, 16, &number.to_le_bytes())?;
    }
    out.write_all(&[5, 0, 0, sequence, 0xfe, 0, 0, 2, 0])?;
    out.flush()
}

/// Where the files are.
struct Files<'a> {
    mrep: &'a str,
    out: PathBuf,
    stream: PathBuf,
    database: String,
    password: PathBuf,
    pipe: PathBuf,
}

impl Files<'_> {
    /// Runs a program on a database that does not exist yet, and fails if the program does.
    fn run(&self, program: &[&str]) -> io::Result<Run> {
        remove_store(&self.database)?;
        let run = run(program, &self.out)?;
        if run.status != 0 {
            return Err(io::Error::other(format!("{program:?} fails")));
        }
        Ok(run)
    }

    /// Checks the line of a connection with this many transactions.
    fn check(&self, applied: u64) -> io::Result<()> {
        let end = format!("1 SourceEof at {} applied {applied}\n", fs::metadata(&self.stream)?.len());
        if fs::read_to_string(&self.out)? == end {
            return Ok(());
        }
        Err(io::Error::other(format!("a line that is not {end}")))
    }

    fn replay(&self, stream: &Path, applied: u64) -> io::Result<Run> {
        let stream = stream.to_str().ok_or(io::ErrorKind::InvalidInput)?;
        let run = self.run(&[self.mrep, "replay", "--db", &self.database, stream])?;
        self.check(applied)?;
        Ok(run)
    }

    /// As above, from a pipe whose reads give one byte each.
    fn replay_bytes(&self, applied: u64) -> io::Result<Run> {
        let (stream, pipe) = (self.stream.clone(), self.pipe.clone());
        let writer = thread::spawn(move || -> io::Result<()> {
            let mut pipe = OpenOptions::new().write(true).open(pipe)?;
            // Sound: no memory is shared with the call.
            if unsafe { fcntl(pipe.as_raw_fd(), F_SETFL, O_DIRECT) } < 0 {
                return Err(io::Error::last_os_error());
            }
            for byte in BufReader::new(File::open(stream)?).bytes() {
                pipe.write_all(&[byte?])?;
            }
            Ok(())
        });
        let run = self.replay(&self.pipe, applied)?;
        writer.join().map_err(|_| io::Error::other("the writer of a pipe panics"))??;
        Ok(run)
    }

    /// Follows a program that sends the stream as it is, and reads what it gets to its end.
    fn follow(&self, applied: u64) -> io::Result<Run> {
        let listener = TcpListener::bind(("127.0.0.1", 0))?;
        let port = listener.local_addr()?.port().to_string();
        let stream = self.stream.clone();
        let source = thread::spawn(move || -> io::Result<()> {
            let (mut peer, _) = listener.accept()?;
            io::copy(&mut File::open(stream)?, &mut peer)?;
            peer.shutdown(Shutdown::Write)?;
            io::copy(&mut peer, &mut io::sink())?;
            Ok(())
        });
        let password = self.password.to_str().ok_or(io::ErrorKind::InvalidInput)?;
        let words = [
            &[self.mrep, "follow", "--host", "127.0.0.1", "--port", &port, "--user", "repl"][..],
            &["--password-file", password, "--server-id", "7", "--db", &self.database, "--once"],
        ];
        let run = self.run(&words.concat())?;
        self.check(applied)?;
        source.join().map_err(|_| io::Error::other("the source panics"))??;
        Ok(run)
    }
}

/// Runs two jobs in turn, and returns whether the first meets the goal, and its time and memory.
fn compare(
    job: &str,
    other: &str,
    goal: f64,
    runs: usize,
    ours: impl Fn() -> io::Result<Run>,
    theirs: impl Fn() -> io::Result<Run>,
) -> io::Result<(bool, f64, usize)> {
    let attempt = || {
        let (mut our_runs, mut their_runs) = (Vec::new(), Vec::new());
        for _ in 0..runs {
            our_runs.push(ours()?);
            their_runs.push(theirs()?);
        }
        Ok((true, our_runs, their_runs))
    };
    let (met, runs) = meets(job, other, goal, attempt)?;
    Ok((met, best(&runs), most(&runs)))
}

/// How many megabytes and transactions a second these are.
fn print_rate(path: &Path, transactions: u64, seconds: f64) -> io::Result<()> {
    let megabytes = fs::metadata(path)?.len() as f64 / 1e6;
    println!("| | {:.1} MB/s, {:.0} transactions/s | | | | |", megabytes / seconds, transactions as f64 / seconds);
    Ok(())
}

/// Whether the goals are met for connections that are replayed and followed.
pub fn compare_connections(mrep: &str, jobs: &str, folder: &Path) -> io::Result<bool> {
    let memory = Path::new("/dev/shm");
    let store = if memory.is_dir() { memory.join("mrep-bench.db") } else { folder.join("replay.db") };
    let files = Files {
        mrep,
        out: folder.join("line"),
        stream: folder.join("stream"),
        database: store.to_str().ok_or(io::ErrorKind::InvalidInput)?.to_string(),
        password: folder.join("password"),
        pipe: folder.join("pipe"),
    };
    fs::write(&files.password, "\n")?;
    fs::set_permissions(&files.password, Permissions::from_mode(0o600))?;
    let _ = fs::remove_file(&files.pipe);
    if !Command::new("mkfifo").arg(&files.pipe).status()?.success() {
        return Err(io::Error::other("mkfifo fails"));
    }
    let mut met = true;
    let stored = |transactions: &str, changes: &str| files.run(&[jobs, "store", "add", transactions, changes, &files.database]);

    make(&files.stream, 1, 100_000)?;
    let job = "a transaction of 100,000 rows replayed";
    let (ok, seconds, _) =
        compare(job, "store", REPLAY_TIMES, RUNS, || files.replay(&files.stream, 1), || stored("1", "100000"))?;
    met &= ok;
    print_rate(&files.stream, 1, seconds)?;
    let job = "the same in pieces of one byte";
    met &= compare(job, "64 KiB", BYTES_TIMES, 1, || files.replay_bytes(1), || files.replay(&files.stream, 1))?.0;

    make(&files.stream, 20_000, 1)?;
    let fifth = files.replay(&files.stream, 20_000)?.resident;
    make(&files.stream, 100_000, 1)?;
    let job = "100,000 transactions of one row replayed";
    let (ok, seconds, resident) =
        compare(job, "store", REPLAY_TIMES, RUNS, || files.replay(&files.stream, 100_000), || stored("100000", "1"))?;
    let flat = resident as f64 <= MEMORY_TIMES * fifth as f64;
    met &= ok && flat;
    print_rate(&files.stream, 100_000, seconds)?;
    let times = resident as f64 / fifth as f64;
    println!("| its memory, beside 20,000 of them | | | {times:.2} | {MEMORY_TIMES} | {:.0} / {:.0} MiB |", mib(resident), mib(fifth));
    let job = "the same followed over loopback";
    let (ok, seconds, _) =
        compare(job, "replay", FOLLOW_TIMES, RUNS, || files.follow(100_000), || files.replay(&files.stream, 100_000))?;
    met &= ok;
    print_rate(&files.stream, 100_000, seconds)?;

    remove_store(&files.database)?;
    for path in [&files.out, &files.stream, &files.password, &files.pipe] {
        fs::remove_file(path)?;
    }
    Ok(met)
}
