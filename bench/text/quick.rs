//! The same with a quick way in front: a get of one key and a set, as most clients spell them, are read in one pass. Eight bytes at a time are looked
//! at for the end of a key, and numbers are read where they stand, as fast parsers of HTTP do.
use crate::plain::{self, Command, Lifetime, MAX_KEY, MAX_TEXT, Next, Wants, Words};

const ONES: u64 = 0x0101_0101_0101_0101;
const HIGH: u64 = 0x8080_8080_8080_8080;

/// The high bit of each byte that is 0, up to the first one.
#[inline]
fn zeros(word: u64) -> u64 {
    word.wrapping_sub(ONES) & !word & HIGH
}

/// Where the first space or line feed stands.
#[inline]
fn key_end(text: &[u8]) -> Option<usize> {
    let text = &text[..text.len().min(MAX_KEY + 2)];
    let mut chunks = text.chunks_exact(8);
    let mut at = 0;
    for chunk in &mut chunks {
        let word = u64::from_le_bytes(chunk.try_into().unwrap());
        let found = zeros(word ^ (ONES * 0x20)) | zeros(word ^ (ONES * 0x0a));
        if found != 0 {
            return Some(at + found.trailing_zeros() as usize / 8);
        }
        at += 8;
    }
    let rest = chunks.remainder().iter().position(|byte| matches!(byte, b' ' | b'\n'))?;
    Some(at + rest)
}

#[inline]
fn get(from: &[u8]) -> Option<(&[u8], usize)> {
    let text = from.strip_prefix(b"get ")?;
    let (line, end) = text.split_at(key_end(text)?);
    let key = line.strip_suffix(b"\r")?;
    (end[0] == b'\n' && (1..=MAX_KEY).contains(&key.len())).then_some((key, line.len() + 5))
}

/// A number as it is spelled, and what stands behind it.
#[inline]
fn number(text: &[u8]) -> Option<(u32, &[u8])> {
    let mut number = 0u64;
    let mut len = 0;
    while let Some(digit) = text.get(len).map(|byte| byte.wrapping_sub(b'0')).filter(|digit| *digit < 10) {
        number = number * 10 + u64::from(digit);
        if number > u64::from(u32::MAX) {
            return None;
        }
        len += 1;
    }
    (len == 1 || len > 1 && text[0] != b'0').then(|| (number as u32, &text[len..]))
}

#[inline]
fn word(text: &[u8]) -> Option<(u32, &[u8])> {
    let (number, rest) = number(text)?;
    Some((number, rest.strip_prefix(b" ")?))
}

#[inline]
fn set(from: &[u8]) -> Option<(Command<'_>, usize)> {
    let text = from.strip_prefix(b"set ")?;
    let (key, numbers) = text.split_at(key_end(text)?);
    let (flags, numbers) = word(numbers.strip_prefix(b" ")?)?;
    let (expiry, numbers) = word(numbers)?;
    let (len, end) = number(numbers)?;
    let (quiet, block) = match end.strip_prefix(b"\r\n") {
        Some(block) => (false, block),
        None => (true, end.strip_prefix(b" noreply\r\n")?),
    };
    let len = len as usize;
    if !(1..=MAX_KEY).contains(&key.len()) || len > MAX_TEXT {
        return None;
    }
    let value = block.get(..len)?;
    let more = block[len..].strip_prefix(b"\r\n")?;
    let lifetime = match expiry {
        0 => Lifetime::Forever,
        seconds @ 1..=2_592_000 => Lifetime::For(seconds),
        second => Lifetime::Until(second),
    };
    Some((Command::Store { wants: Wants::Whatever, key, flags, lifetime, value, quiet }, from.len() - more.len()))
}

#[inline]
pub fn next_command(from: &[u8]) -> Next<'_> {
    if let Some((key, len)) = get(from) {
        return Next::Command { command: Command::Get { keys: Words(key), unique: false, lifetime: None }, len };
    }
    match set(from) {
        Some((command, len)) => Next::Command { command, len },
        None => plain::next_command(from),
    }
}
