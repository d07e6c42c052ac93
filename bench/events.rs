//! What `ours rows`, `ours gather` and `mrep events` do, in plain Rust, for `make bench`.
//!
//!     events sum FILE      the rows of a file of events, and a sum over their cells
//!     events gather FILE   the changes of its transactions, and the bytes of their images
//!     events list FILE     a line for each event
//!
//! It relies on the layouts and trusts its input: only what is needed is read.

use std::fs;
use std::io::{self, BufWriter, Write};

/// How the values of a column are stored in a row.
enum Shape {
    Number(usize),
    Fixed(usize),
    Prefixed(usize),
}

fn number(bytes: &[u8]) -> u64 {
    let mut all = [0; 8];
    all[..bytes.len()].copy_from_slice(bytes);
    u64::from_le_bytes(all)
}

fn digits(count: usize) -> usize {
    4 * (count / 9) + (count % 9 + 1) / 2
}

/// The columns of a table map, from its body.
fn shapes(body: &[u8]) -> Vec<Shape> {
    let table = 10 + usize::from(body[8]);
    let count = table + 2 + usize::from(body[table]);
    let columns = usize::from(body[count]);
    let codes = &body[count + 1..][..columns];
    let mut metadata = &body[count + 1 + columns + 1..];
    let mut shapes = Vec::new();
    for code in codes {
        let (shape, size) = match code {
            1 => (Shape::Number(1), 0),
            2 => (Shape::Number(2), 0),
            3 => (Shape::Number(4), 0),
            8 => (Shape::Number(8), 0),
            9 => (Shape::Number(3), 0),
            5 => (Shape::Fixed(8), 1),
            15 => (Shape::Prefixed(if metadata[1] == 0 { 1 } else { 2 }), 2),
            18 => (Shape::Fixed(5 + usize::from(metadata[0] + 1) / 2), 1),
            246 => {
                let (precision, scale) = (usize::from(metadata[0]), usize::from(metadata[1]));
                (Shape::Fixed(digits(precision - scale) + digits(scale)), 2)
            }
            other => panic!("column type {other}"),
        };
        shapes.push(shape);
        metadata = &metadata[size..];
    }
    shapes
}

/// The rows of a write, from its body: how many there are, and the sum of their cells.
fn rows(shapes: &[Shape], body: &[u8], found: &mut (u64, u64)) {
    let bitmap = shapes.len().div_ceil(8);
    let mut rest = &body[8 + usize::from(body[8]) + 1 + bitmap..];
    while !rest.is_empty() {
        let (nulls, mut values) = rest.split_at(bitmap);
        found.0 += 1;
        for (i, shape) in shapes.iter().enumerate() {
            if nulls[i / 8] >> (i % 8) & 1 == 1 {
                found.1 = found.1.wrapping_add(1);
                continue;
            }
            let bytes = match *shape {
                Shape::Number(size) => {
                    found.1 = found.1.wrapping_add(number(&values[..size]));
                    values = &values[size..];
                    continue;
                }
                Shape::Fixed(size) => {
                    let bytes = &values[..size];
                    values = &values[size..];
                    bytes
                }
                Shape::Prefixed(size) => {
                    let length = number(&values[..size]) as usize;
                    let bytes = &values[size..][..length];
                    values = &values[size + length..];
                    bytes
                }
            };
            let value = match bytes {
                [first, rest @ ..] => u64::from(*first) + rest.len() as u64,
                [] => 2,
            };
            found.1 = found.1.wrapping_add(value);
        }
        rest = values;
    }
}

/// The changes of a transaction: their images one after another, and for each change its table and the sizes of its two
/// images.
#[derive(Default)]
struct Changes {
    images: Vec<u8>,
    entries: Vec<(usize, u32, u32)>,
}

/// Appends the rows of a write to a table, from its body.
fn images(table: usize, shapes: &[Shape], body: &[u8], changes: &mut Changes) {
    let bitmap = shapes.len().div_ceil(8);
    let mut rest = &body[8 + usize::from(body[8]) + 1 + bitmap..];
    let images = &mut changes.images;
    while !rest.is_empty() {
        let (nulls, mut values) = rest.split_at(bitmap);
        let start = images.len();
        images.extend_from_slice(&(shapes.len() as u16).to_le_bytes());
        for (i, shape) in shapes.iter().enumerate() {
            if nulls[i / 8] >> (i % 8) & 1 == 1 {
                images.push(0);
                continue;
            }
            let (size, length) = match *shape {
                Shape::Number(size) => {
                    images.extend_from_slice(&[1, size as u8]);
                    images.extend_from_slice(&values[..size]);
                    values = &values[size..];
                    continue;
                }
                Shape::Fixed(length) => (0, length),
                Shape::Prefixed(size) => (size, number(&values[..size]) as usize),
            };
            images.push(2);
            images.extend_from_slice(&(length as u32).to_le_bytes());
            images.extend_from_slice(&values[size..][..length]);
            values = &values[size + length..];
        }
        changes.entries.push((table, 0, (images.len() - start) as u32));
        rest = values;
    }
}

/// The line of an event without its offset.
fn list(event: &[u8], out: &mut impl Write) -> io::Result<()> {
    let body = &event[19..];
    write!(out, "{} {} ", event[4], number(&event[9..13]))?;
    match event[4] {
        2 if body.ends_with(b"BEGIN") => writeln!(out, "Begin"),
        2 => writeln!(out, "Commit"),
        15 => writeln!(out, "Format"),
        16 => writeln!(out, "Xid"),
        33 => {
            write!(out, "Gtid ")?;
            for (i, byte) in body[1..17].iter().enumerate() {
                if matches!(i, 4 | 6 | 8 | 10) {
                    write!(out, "-")?;
                }
                write!(out, "{byte:02x}")?;
            }
            writeln!(out, ":{}", number(&body[17..25]))
        }
        _ => writeln!(out, "Neutral"),
    }
}

fn main() -> io::Result<()> {
    let words: Vec<String> = std::env::args().collect();
    let stream = fs::read(&words[2])?;
    let mut out = BufWriter::new(io::stdout());
    let mut table = Vec::new();
    let mut found = (0, 0);
    let mut changes = Changes::default();
    let mut place = 0;
    while place < stream.len() {
        let header = &stream[place..place + 4];
        let length = number(&header[..3]) as usize;
        let event = &stream[place + 5..place + 4 + length];
        match words[1].as_str() {
            "list" => {
                write!(out, "{place} {} ", header[3])?;
                list(event, &mut out)?;
            }
            "gather" => match event[4] {
                16 => {
                    let sizes = |&(_, before, after): &(usize, u32, u32)| u64::from(before) + u64::from(after);
                    found.0 += changes.entries.len() as u64;
                    found.1 += changes.entries.iter().map(sizes).sum::<u64>();
                    changes = Changes::default();
                }
                19 => table = shapes(&event[19..]),
                30 => images(0, &table, &event[19..], &mut changes),
                _ => {}
            },
            _ => match event[4] {
                19 => table = shapes(&event[19..]),
                30 => rows(&table, &event[19..], &mut found),
                _ => {}
            },
        }
        place += 4 + length;
    }
    match words[1].as_str() {
        "list" => writeln!(out, "rest 0")?,
        _ => writeln!(out, "{} {}", found.0, found.1)?,
    }
    out.flush()
}
