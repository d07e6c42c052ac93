//! The jobs of `bench/ours/gtid.rt.in` in plain Rust with only the standard library, by the same algorithms over `Vec<(u64,
//! u64)>`: the reference of `make bench`. A text is read in one pass, with the same faults.

use std::fmt::Write;
use std::process::ExitCode;

const INTERVALS: u64 = 1_000_000;
const SOURCE: &str = "3e11fa47-71ca-11e1-9e33-c80aa9429562";

/// How many items the scattered text has.
const ITEMS: u64 = 200_000;

/// Their sources but for the last digit.
const HEAD: &str = "3e11fa47-71ca-11e1-9e33-c80aa942956";

fn next(seed: &mut u64) -> u64 {
    *seed = seed.wrapping_mul(6_364_136_223_846_793_005).wrapping_add(1_442_695_040_888_963_407);
    *seed >> 33
}

/// Least intervals, each from its first number up to but not including its end.
type Set = Vec<(u64, u64)>;

fn has(set: &Set, number: u64) -> bool {
    let at = set.partition_point(|&(_, hi)| hi <= number);
    set.get(at).is_some_and(|&(lo, _)| lo <= number)
}

fn insert(set: &mut Set, number: u64) -> bool {
    let at = match set.last() {
        Some(&(lo, hi)) if number <= hi => {
            if lo <= number {
                set.len() - 1
            } else {
                set.partition_point(|&(_, hi)| hi < number)
            }
        }
        _ => set.len(),
    };
    match set.get(at).copied() {
        Some((_, hi)) if hi == number => {
            set[at].1 = match set.get(at + 1).copied() {
                Some((lo, hi)) if lo == number + 1 => {
                    set.remove(at + 1);
                    hi
                }
                _ => number + 1,
            };
            true
        }
        Some((lo, _)) if lo <= number => false,
        Some((lo, _)) if lo == number + 1 => {
            set[at].0 = number;
            true
        }
        _ => {
            set.insert(at, (number, number + 1));
            true
        }
    }
}

fn join(left: &Set, right: &Set) -> Set {
    let (mut left, mut right) = (left.as_slice(), right.as_slice());
    let mut joined = Vec::with_capacity(left.len() + right.len());
    let mut first = || match (left, right) {
        ([], []) => None,
        ([a, rest @ ..], []) => {
            left = rest;
            Some(*a)
        }
        ([a, rest @ ..], [b, ..]) if a.0 <= b.0 => {
            left = rest;
            Some(*a)
        }
        (_, [b, rest @ ..]) => {
            right = rest;
            Some(*b)
        }
    };
    let Some(mut last) = first() else {
        return joined;
    };
    while let Some(next) = first() {
        if next.0 <= last.1 {
            last.1 = last.1.max(next.1);
        } else {
            joined.push(last);
            last = next;
        }
    }
    joined.push(last);
    joined
}

fn without(left: &Set, right: &Set) -> Set {
    let mut kept = Vec::with_capacity(left.len() + right.len());
    let (mut pieces, mut cuts, mut done) = (left.as_slice(), right.as_slice(), 0);
    let mut push = |lo, hi| {
        if lo < hi {
            kept.push((lo, hi));
        }
    };
    while let [piece, rest @ ..] = pieces {
        let lo = piece.0.max(done);
        match cuts {
            [cut, others @ ..] if cut.0 < piece.1 => {
                push(lo, cut.0);
                done = cut.1;
                cuts = others;
            }
            _ => {
                push(lo, piece.1);
                pieces = rest;
            }
        }
    }
    kept
}

fn intervals(seed: &mut u64) -> Set {
    let mut set = Vec::new();
    let mut number = 1;
    for _ in 0..INTERVALS {
        let draw = next(seed);
        number += draw % 8;
        for _ in 0..draw / 8 % 4 + 1 {
            insert(&mut set, number);
            number += 1;
        }
        number += 1;
    }
    set
}

fn contains() -> u64 {
    let mut seed = 1;
    let set = intervals(&mut seed);
    (0..10_000_000).filter(|_| has(&set, next(&mut seed) % (8 * INTERVALS) + 1)).count() as u64
}

fn ascending() -> u64 {
    let mut set = Vec::new();
    (0..10_000_000).filter(|number| insert(&mut set, 2 * number + 1)).count() as u64
}

fn scattered() -> u64 {
    let mut set = Vec::new();
    for number in 0..INTERVALS {
        insert(&mut set, 4 * number + 1);
    }
    let mut seed = 1;
    (0..1000).filter(|_| insert(&mut set, 4 * (next(&mut seed) % INTERVALS) + 3)).count() as u64
}

/// Twenty times: a copy of the first set, and its combination with the second.
fn combined(combine: fn(&Set, &Set) -> Set) -> u64 {
    let mut seed = 1;
    let left = intervals(&mut seed);
    let right = intervals(&mut seed);
    (0..20).map(|_| combine(&left.clone(), &right).len() as u64).sum()
}

fn print_into(set: &Set, text: &mut String) {
    text.push_str(SOURCE);
    for (lo, hi) in set {
        let written = if *hi == lo + 1 { write!(text, ":{lo}") } else { write!(text, ":{lo}-{}", hi - 1) };
        written.expect("a string takes all");
    }
}

fn print() -> u64 {
    let mut seed = 1;
    let set = intervals(&mut seed);
    let mut found = 0;
    for _ in 0..20 {
        let mut text = String::new();
        print_into(&set, &mut text);
        found += text.len() as u64;
    }
    found
}

/// Why a text is refused.
enum Fault {
    Text,
    Number,
    Interval,
}

/// An interval of a source, from its first number up to but not including its end.
struct Span {
    source: [u8; 16],
    lo: u64,
    hi: u64,
}

/// The text of a set, and how much of it was read.
struct Reader<'a> {
    text: &'a [u8],
    at: usize,
}

impl Reader<'_> {
    fn peek(&self) -> Option<u8> {
        self.text.get(self.at).copied()
    }

    fn take(&mut self, byte: u8) -> bool {
        let there = self.peek() == Some(byte);
        self.at += usize::from(there);
        there
    }

    fn skip_blanks(&mut self) {
        while let Some(b' ' | b'\n' | b'\r') = self.peek() {
            self.at += 1;
        }
    }

    /// The sixteen bytes of a hyphenated UUID.
    fn source(&mut self) -> Result<[u8; 16], Fault> {
        let mut source = [0; 16];
        let mut digits = 0;
        for place in 0..36 {
            let Some(byte) = self.peek() else {
                return Err(Fault::Text);
            };
            if let 8 | 13 | 18 | 23 = place {
                if byte != b'-' {
                    return Err(Fault::Text);
                }
            } else {
                let Some(value) = char::from(byte).to_digit(16) else {
                    return Err(Fault::Text);
                };
                source[digits / 2] = source[digits / 2] << 4 | value as u8;
                digits += 1;
            }
            self.at += 1;
        }
        Ok(source)
    }

    /// A number of at least one digit, or the greatest one.
    fn number(&mut self) -> Result<u64, Fault> {
        let start = self.at;
        let mut number = 0u64;
        while let Some(byte @ b'0'..=b'9') = self.peek() {
            number = number.saturating_mul(10).saturating_add(u64::from(byte - b'0'));
            self.at += 1;
        }
        if self.at == start { Err(Fault::Text) } else { Ok(number) }
    }
}

/// The intervals as they are written. A text that is not a set is reported before a number that is wrong.
fn read(text: &str) -> Result<Vec<Span>, Fault> {
    let mut reader = Reader { text: text.as_bytes(), at: 0 };
    let mut spans = Vec::new();
    let mut wrong = None;
    let numbers = 1..i64::MAX as u64;
    reader.skip_blanks();
    if reader.peek().is_none() {
        return Ok(spans);
    }
    loop {
        let source = reader.source()?;
        if !reader.take(b':') {
            return Err(Fault::Text);
        }
        loop {
            let lo = reader.number()?;
            let last = if reader.take(b'-') { reader.number()? } else { lo };
            if !numbers.contains(&lo) || !numbers.contains(&last) {
                wrong = wrong.or(Some(Fault::Number));
            } else if last < lo {
                wrong = wrong.or(Some(Fault::Interval));
            } else {
                spans.push(Span { source, lo, hi: last + 1 });
            }
            if !reader.take(b':') {
                break;
            }
        }
        reader.skip_blanks();
        if reader.peek().is_none() {
            break;
        }
        if !reader.take(b',') {
            return Err(Fault::Text);
        }
        reader.skip_blanks();
    }
    match wrong {
        Some(fault) => Err(fault),
        None => Ok(spans),
    }
}

/// The least intervals of each source, in the order of the sources' bytes.
fn gather(mut spans: Vec<Span>) -> Vec<([u8; 16], Set)> {
    if !spans.is_sorted_by_key(|span| (span.source, span.lo)) {
        spans.sort_unstable_by_key(|span| (span.source, span.lo));
    }
    let mut groups: Vec<([u8; 16], Set)> = Vec::new();
    for Span { source, lo, hi } in spans {
        match groups.last_mut() {
            Some((last, set)) if *last == source => match set.last_mut() {
                Some((_, end)) if lo <= *end => *end = hi.max(*end),
                _ => set.push((lo, hi)),
            },
            _ => groups.push((source, vec![(lo, hi)])),
        }
    }
    groups
}

/// How many intervals the set of a text has, or 0 if the text is not a set.
fn read_count(text: &str) -> u64 {
    match read(text) {
        Ok(spans) => gather(spans).iter().map(|(_, set)| set.len() as u64).sum(),
        Err(_) => 0,
    }
}

/// Reads the text of a set five times.
fn parse() -> u64 {
    let mut seed = 1;
    let set = intervals(&mut seed);
    let mut text = String::new();
    print_into(&set, &mut text);
    (0..5).map(|_| read_count(&text)).sum()
}

/// Reads five times a text of 10 MB with one interval in each item, of sixteen sources, in any order.
fn parse_scattered() -> u64 {
    let mut seed = 1;
    let mut text = String::new();
    for _ in 0..ITEMS {
        let draw = next(&mut seed);
        let lo = draw / 128 % (8 * INTERVALS) + 1;
        let comma = if text.is_empty() { "" } else { "," };
        write!(text, "{comma}{HEAD}{:x}:{lo}-{}", draw % 16, lo + draw / 16 % 8).expect("a string takes all");
    }
    (0..5).map(|_| read_count(&text)).sum()
}

fn main() -> ExitCode {
    let found = match std::env::args().nth(1).as_deref() {
        Some("contains") => contains(),
        Some("ascending") => ascending(),
        Some("scattered") => scattered(),
        Some("union") => combined(join),
        Some("subtract") => combined(without),
        Some("print") => print(),
        Some("parse") => parse(),
        Some("parse_scattered") => parse_scattered(),
        _ => return ExitCode::FAILURE,
    };
    println!("{found}");
    ExitCode::SUCCESS
}
