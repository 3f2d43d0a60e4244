//! Traces: one line an operation.

use crate::packets::LONGEST_VALUE;
use std::fmt;

#[derive(Clone, Copy)]
pub enum Line<'a> {
    Put { key: &'a [u8], value: &'a [u8] },
    Del { key: &'a [u8] },
    Get { key: &'a [u8] },
    Sync,
}

#[derive(Debug, PartialEq, Eq)]
pub enum TraceFault {
    BadLine(usize),
    LongLine(usize),
    TooManyLines,
    TooManyRounds,
}

impl fmt::Display for TraceFault {
    fn fmt(&self, f: &mut fmt::Formatter<'_>) -> fmt::Result {
        match self {
            TraceFault::BadLine(n) => write!(f, "bad line {n}"),
            TraceFault::LongLine(n) => write!(f, "long line {n}"),
            TraceFault::TooManyLines => f.write_str("too many lines"),
            TraceFault::TooManyRounds => f.write_str("too many rounds"),
        }
    }
}

const MAX_LINES: usize = 100_000;
const MAX_SYNCS: usize = 4_095;
const MAX_KEY: usize = 255;
const MAX_VALUE: usize = LONGEST_VALUE;
const MAX_LINE: usize = 4 + MAX_KEY + 1 + MAX_VALUE;

pub fn is_key(text: &[u8]) -> bool {
    (1..=MAX_KEY).contains(&text.len()) && text.iter().all(|b| (0x21..=0x7e).contains(b))
}

pub fn is_value(text: &[u8]) -> bool {
    text.len() <= MAX_VALUE && text.iter().all(|b| (0x20..=0x7e).contains(b))
}

fn read_line(line: &[u8]) -> Option<Line<'_>> {
    if line == b"sync" {
        return Some(Line::Sync);
    }
    let (word, rest) = line.split_at_checked(4)?;
    match word {
        b"put " => {
            let space = rest.iter().position(|&b| b == b' ')?;
            let (key, value) = (&rest[..space], &rest[space + 1..]);
            (is_key(key) && is_value(value)).then_some(Line::Put { key, value })
        }
        b"del " => is_key(rest).then_some(Line::Del { key: rest }),
        b"get " => is_key(rest).then_some(Line::Get { key: rest }),
        _ => None,
    }
}

pub fn read_trace(text: &[u8]) -> Result<Vec<Line<'_>>, TraceFault> {
    let mut lines = Vec::new();
    let mut syncs = 0;
    for (at, line) in text.split_inclusive(|&b| b == b'\n').enumerate() {
        if at == MAX_LINES {
            return Err(TraceFault::TooManyLines);
        }
        let line = line.strip_suffix(b"\n").unwrap_or(line);
        if line.len() > MAX_LINE {
            return Err(TraceFault::LongLine(at + 1));
        }
        let line = read_line(line).ok_or(TraceFault::BadLine(at + 1))?;
        if matches!(line, Line::Sync) {
            syncs += 1;
            if syncs > MAX_SYNCS {
                return Err(TraceFault::TooManyRounds);
            }
        }
        lines.push(line);
    }
    Ok(lines)
}
