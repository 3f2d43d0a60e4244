//! The commands of memcached's protocol that plain Rust knows: `get`, `gets`, `set` without `noreply`, and `stats`.

use crate::hash::key_hash;
use crate::packets::LONGEST_VALUE;

/// What stands before the data of a value: its flags, the second of its end, and its unique number.
pub const HEADER: usize = 16;
/// Times up to this, 30 days, are seconds from now, and later ones are seconds of the clock.
const LONGEST_TIME: u64 = 60 * 60 * 24 * 30;

pub enum Command<'a> {
    /// One key of a get.
    Get { key: &'a [u8], hash: u64, tells_unique: bool },
    /// That a get has no more keys.
    End,
    Set { key: &'a [u8], hash: u64, flags: u32, time: &'a [u8], data: &'a [u8] },
    Stats,
    Wrong,
}

/// A command, or a key of one, and where its line begins.
pub struct Asked<'a> {
    pub command: Command<'a>,
    pub at: usize,
}

unsafe extern "C" {
    fn memchr(bytes: *const u8, byte: i32, count: usize) -> *const u8;
}

/// Where the first line ends.
fn newline(bytes: &[u8]) -> Option<usize> {
    // SAFETY: it reads so many bytes, and gives a place among them or null.
    let found = unsafe { memchr(bytes.as_ptr(), i32::from(b'\n'), bytes.len()) };
    (!found.is_null()).then(|| found as usize - bytes.as_ptr() as usize)
}

fn words_of(line: &[u8]) -> impl Iterator<Item = &[u8]> {
    line.split(|&byte| byte == b' ').filter(|word| !word.is_empty())
}

fn number(word: &[u8]) -> Option<u64> {
    if word.is_empty() || word.len() > 10 {
        return None;
    }
    word.iter().try_fold(0u64, |number, &byte| byte.is_ascii_digit().then(|| 10 * number + u64::from(byte - b'0')))
}

/// The second of the end that a set asks for: 0 is no end, and what is below it an end that is over.
pub fn end_of(time: &[u8], now: u64) -> Option<u32> {
    if let Some(below) = time.strip_prefix(b"-") {
        return number(below).map(|_| 1);
    }
    let second = match number(time)? {
        0 => 0,
        time if time <= LONGEST_TIME => now + time,
        time => time,
    };
    u32::try_from(second).ok()
}

/// What a line of `set` tells behind its first word, with the length of its data.
fn read_set(line: &[u8]) -> Option<(&[u8], u32, &[u8], usize)> {
    let mut words = words_of(line);
    let (key, flags, time, len) = (words.next()?, number(words.next()?)?, words.next()?, number(words.next()?)?);
    (len <= (LONGEST_VALUE - HEADER) as u64).then_some((key, u32::try_from(flags).ok()?, time, len as usize))
}

/// Reads the command that begins there, and says where the next one does; None where not all of it has come.
fn read_command<'a>(bytes: &'a [u8], at: usize, all: &mut Vec<Asked<'a>>) -> Option<usize> {
    let next = at + newline(&bytes[at..])? + 1;
    let line = bytes[at..next - 1].strip_suffix(b"\r").unwrap_or(&bytes[at..next - 1]);
    let mut read_get = |keys, tells_unique| {
        all.extend(words_of(keys).map(|key| Asked { command: Command::Get { key, hash: key_hash(key), tells_unique }, at }));
        all.push(Asked { command: Command::End, at });
        Some(next)
    };
    if let Some(keys) = line.strip_prefix(b"get ") {
        return read_get(keys, false);
    }
    if let Some(keys) = line.strip_prefix(b"gets ") {
        return read_get(keys, true);
    }
    if let Some((key, flags, time, len)) = line.strip_prefix(b"set ").and_then(read_set) {
        let data = bytes.get(next..next + len + 2)?;
        all.push(Asked { command: Command::Set { key, hash: key_hash(key), flags, time, data: &data[..len] }, at });
        return Some(next + len + 2);
    }
    all.push(Asked { command: if line == b"stats" { Command::Stats } else { Command::Wrong }, at });
    Some(next)
}

/// The commands that have come whole, and where the rest begins.
pub fn read_commands(bytes: &[u8]) -> (Vec<Asked<'_>>, usize) {
    let (mut all, mut at) = (Vec::new(), 0);
    while let Some(next) = read_command(bytes, at, &mut all) {
        at = next;
    }
    (all, at)
}
