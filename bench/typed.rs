//! What `ours typed` does, in plain Rust, for `make bench`: images of rows printed as the `mysql` client prints them.
//!
//!     typed FILE
//!
//! FILE has images, each with its length in four bytes before it. It relies on the ten columns that `bench.rs` makes, and
//! trusts its input.

use std::fs;
use std::io::{self, BufWriter, Write};

/// A cell of an image.
enum Cell<'a> {
    Null,
    Number(u64),
    Bytes(&'a [u8]),
}

/// The cell in front, and what follows it.
fn cell(bytes: &[u8]) -> (Cell<'_>, &[u8]) {
    match bytes[0] {
        0 => (Cell::Null, &bytes[1..]),
        1 => {
            let width = usize::from(bytes[1]);
            let mut all = [0; 8];
            all[..width].copy_from_slice(&bytes[2..2 + width]);
            (Cell::Number(u64::from_le_bytes(all)), &bytes[2 + width..])
        }
        _ => {
            let length = u32::from_le_bytes(bytes[1..5].try_into().unwrap()) as usize;
            (Cell::Bytes(&bytes[5..5 + length]), &bytes[5 + length..])
        }
    }
}

fn big(bytes: &[u8]) -> u64 {
    bytes.iter().fold(0, |value, byte| value << 8 | u64::from(*byte))
}

/// A DECIMAL(12,2).
fn decimal(bytes: &[u8], out: &mut impl Write) -> io::Result<()> {
    let is_negative = bytes[0] & 0x80 == 0;
    let mut all = [0; 6];
    for (to, from) in all.iter_mut().zip(bytes) {
        *to = if is_negative { !from } else { *from };
    }
    all[0] ^= 0x80;
    let whole = u64::from(all[0]) * 1_000_000_000 + big(&all[1..5]);
    let sign = if is_negative { "-" } else { "" };
    write!(out, "{sign}{whole}.{:02}", all[5])
}

/// A DATE.
fn date(bytes: &[u8], out: &mut impl Write) -> io::Result<()> {
    let value = u32::from(bytes[0]) | u32::from(bytes[1]) << 8 | u32::from(bytes[2]) << 16;
    write!(out, "{:04}-{:02}-{:02}", value >> 9, value >> 5 & 15, value & 31)
}

/// A DATETIME(3).
fn datetime(bytes: &[u8], out: &mut impl Write) -> io::Result<()> {
    let value = big(&bytes[..5]) - (1 << 39);
    let (date, time) = (value >> 17, value & 0x1ffff);
    let (month, day) = (date >> 5, date & 31);
    write!(
        out,
        "{:04}-{:02}-{:02} {:02}:{:02}:{:02}.{:03}",
        month / 13,
        month % 13,
        day,
        time >> 12,
        time >> 6 & 63,
        time & 63,
        big(&bytes[5..7]) / 10,
    )
}

/// A TIMESTAMP, in UTC.
fn timestamp(bytes: &[u8], out: &mut impl Write) -> io::Result<()> {
    let seconds = big(bytes);
    let (days, time) = (seconds / 86_400 + 719_468, seconds % 86_400);
    let era = days / 146_097;
    let of_era = days % 146_097;
    let year = (of_era - of_era / 1460 + of_era / 36_524 - of_era / 146_096) / 365;
    let of_year = of_era - (365 * year + year / 4 - year / 100);
    let shifted = (5 * of_year + 2) / 153;
    let day = of_year - (153 * shifted + 2) / 5 + 1;
    let month = if shifted < 10 { shifted + 3 } else { shifted - 9 };
    let year = year + era * 400 + u64::from(month <= 2);
    write!(out, "{year:04}-{month:02}-{day:02} {:02}:{:02}:{:02}", time / 3600, time / 60 % 60, time % 60)
}

/// A text, with the client's escapes.
fn text(bytes: &[u8], out: &mut impl Write) -> io::Result<()> {
    let mut rest = bytes;
    while let Some(at) = rest.iter().position(|byte| matches!(byte, b'\t' | b'\n' | b'\\' | 0)) {
        out.write_all(&rest[..at])?;
        out.write_all(match rest[at] {
            b'\t' => b"\\t",
            b'\n' => b"\\n",
            0 => b"\\0",
            _ => b"\\\\",
        })?;
        rest = &rest[at + 1..];
    }
    out.write_all(rest)
}

fn hex(bytes: &[u8], out: &mut impl Write) -> io::Result<()> {
    out.write_all(b"0x")?;
    for byte in bytes {
        out.write_all(&[b"0123456789ABCDEF"[usize::from(byte >> 4)], b"0123456789ABCDEF"[usize::from(byte & 15)]])?;
    }
    Ok(())
}

/// The members of the ENUM.
const STATES: [&str; 4] = ["", "new", "paid", "sent"];

fn column(place: usize, cell: Cell<'_>, out: &mut impl Write) -> io::Result<()> {
    match (place, cell) {
        (_, Cell::Null) => out.write_all(b"NULL"),
        (0, Cell::Number(value)) => write!(out, "{}", value as i64),
        (7, Cell::Number(value)) => out.write_all(STATES[value as usize].as_bytes()),
        (_, Cell::Number(value)) => write!(out, "{value}"),
        (2, Cell::Bytes(bytes)) => decimal(bytes, out),
        (3, Cell::Bytes(bytes)) => text(bytes, out),
        (4, Cell::Bytes(bytes)) => datetime(bytes, out),
        (5, Cell::Bytes(bytes)) => date(bytes, out),
        (6, Cell::Bytes(bytes)) => write!(out, "{}", f64::from_le_bytes(bytes.try_into().unwrap())),
        (8, Cell::Bytes(bytes)) => timestamp(bytes, out),
        (_, Cell::Bytes(bytes)) => hex(bytes, out),
    }
}

fn main() -> io::Result<()> {
    let file = std::env::args().nth(1).ok_or(io::ErrorKind::InvalidInput)?;
    let all = fs::read(file)?;
    let mut out = BufWriter::new(io::stdout().lock());
    let mut rest = all.as_slice();
    while !rest.is_empty() {
        let length = u32::from_le_bytes(rest[..4].try_into().unwrap()) as usize;
        let mut image = &rest[6..4 + length];
        for place in 0..10 {
            let (value, after) = cell(image);
            if place > 0 {
                out.write_all(b"\t")?;
            }
            column(place, value, &mut out)?;
            image = after;
        }
        out.write_all(b"\n")?;
        rest = &rest[4 + length..];
    }
    out.flush()
}
