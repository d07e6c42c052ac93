//! The job of `mrep packets` in plain Rust with only the standard library: the reference of `make bench`.
//!
//! It assembles each payload in a vector of its own, checks the sequence ids inside a payload and the
//! limit, and reads and writes with the same buffers.

use std::fs::File;
use std::io::{self, BufWriter, Read, Write};
use std::process::ExitCode;

const PIECE: usize = 65_536;
const LIMIT: usize = 1_073_741_824;

enum Fault {
    Sequence,
    TooLarge,
}

#[derive(Default)]
struct Listing {
    header: [u8; 4],
    filled: usize,
    left: usize,
    /// The expected id inside a payload.
    due: Option<u8>,
    /// The id of the payload's first packet.
    first: u8,
    payload: Vec<u8>,
    begin: u64,
    seen: u64,
}

impl Listing {
    fn feed(&mut self, mut rest: &[u8], out: &mut impl Write) -> io::Result<Result<(), Fault>> {
        while !rest.is_empty() {
            if self.filled < 4 {
                let count = rest.len().min(4 - self.filled);
                self.header[self.filled..self.filled + count].copy_from_slice(&rest[..count]);
                self.filled += count;
                self.seen += count as u64;
                rest = &rest[count..];
                if self.filled < 4 {
                    break;
                }
                let [a, b, c, id] = self.header;
                match self.due {
                    None => self.first = id,
                    Some(due) if due == id => {}
                    Some(_) => return Ok(Err(Fault::Sequence)),
                }
                self.left = u32::from_le_bytes([a, b, c, 0]) as usize;
                if self.left > LIMIT - self.payload.len() {
                    return Ok(Err(Fault::TooLarge));
                }
                self.payload.reserve(self.left);
                self.due = Some(id.wrapping_add(1));
            }
            let count = rest.len().min(self.left);
            self.payload.extend_from_slice(&rest[..count]);
            self.left -= count;
            self.seen += count as u64;
            rest = &rest[count..];
            if self.left > 0 {
                break;
            }
            self.filled = 0;
            if self.header[..3] != [0xff; 3] {
                let payload = std::mem::take(&mut self.payload);
                writeln!(out, "{} {} {}", self.begin, self.first, payload.len())?;
                self.begin = self.seen;
                self.due = None;
            }
        }
        Ok(Ok(()))
    }
}

fn run(name: &str) -> io::Result<bool> {
    let mut file = File::open(name)?;
    let mut out = BufWriter::new(io::stdout().lock());
    let mut listing = Listing::default();
    let mut piece = vec![0; PIECE];
    loop {
        let count = match file.read(&mut piece) {
            Ok(0) => break,
            Ok(count) => count,
            Err(error) if error.kind() == io::ErrorKind::Interrupted => continue,
            Err(error) => return Err(error),
        };
        if let Err(fault) = listing.feed(&piece[..count], &mut out)? {
            let reason = match fault {
                Fault::Sequence => "Wire.Sequence",
                Fault::TooLarge => "Wire.TooLarge",
            };
            writeln!(out, "fault {reason} at {}", listing.begin)?;
            out.flush()?;
            return Ok(false);
        }
    }
    let rest = listing.seen - listing.begin;
    writeln!(out, "rest {rest}")?;
    out.flush()?;
    Ok(rest == 0)
}

fn main() -> ExitCode {
    let name = std::env::args().nth(1).expect("a file");
    match run(&name) {
        Ok(true) => ExitCode::SUCCESS,
        Ok(false) => ExitCode::from(1),
        Err(error) => {
            eprintln!("{name}: {error}");
            ExitCode::from(3)
        }
    }
}
