//! Plain Rust of the rules of memcached's text protocol, by memchr and without memory.

pub const MAX_KEY: usize = 250;
pub const MAX_TEXT: usize = 1_048_576;
const MAX_LINE: usize = 65_536;
const MAX_GET_LINE: usize = 1_048_576;

unsafe extern "C" {
    fn memchr(bytes: *const u8, byte: i32, len: usize) -> *const u8;
}

/// Where the first such byte stands.
#[inline]
fn find(bytes: &[u8], byte: u8) -> Option<usize> {
    let at = unsafe { memchr(bytes.as_ptr(), i32::from(byte), bytes.len()) };
    if at.is_null() { None } else { Some(at as usize - bytes.as_ptr() as usize) }
}

#[derive(Clone, Copy, PartialEq)]
pub enum Lifetime {
    Forever,
    Over,
    For(u32),
    Until(u32),
}

#[derive(Clone, Copy)]
#[allow(dead_code)]
pub enum Wants {
    Whatever,
    Absent,
    Present,
    Numbered(u64),
}

#[derive(Clone, Copy)]
#[allow(dead_code)]
pub enum Fault {
    Unknown,
    Format,
    DeleteUsage,
    Expiry,
    Delta,
    BadBlock,
    TooLarge,
    NotSupported,
}

#[allow(dead_code)]
pub enum Command<'a> {
    Get { keys: Words<'a>, unique: bool, lifetime: Option<Lifetime> },
    Store { wants: Wants, key: &'a [u8], flags: u32, lifetime: Lifetime, value: &'a [u8], quiet: bool },
    Join { back: bool, key: &'a [u8], value: &'a [u8], quiet: bool },
    Count { up: bool, key: &'a [u8], delta: u64, quiet: bool },
    Delete { key: &'a [u8], quiet: bool },
    Touch { key: &'a [u8], lifetime: Lifetime, quiet: bool },
    Flush { due: Lifetime, quiet: bool },
    Stats { server: bool },
    Version,
    Verbosity { quiet: bool },
    Noop,
    Quit,
}

#[allow(dead_code)]
pub enum Next<'a> {
    Command { command: Command<'a>, len: usize },
    Refused { fault: Fault, stale: Option<&'a [u8]>, quiet: bool, len: usize },
    More,
    LongLine,
}

/// The words of a line.
#[derive(Clone)]
pub struct Words<'a>(pub &'a [u8]);

impl<'a> Iterator for Words<'a> {
    type Item = &'a [u8];

    #[inline]
    fn next(&mut self) -> Option<&'a [u8]> {
        let start = self.0.iter().position(|byte| *byte != b' ')?;
        let rest = &self.0[start..];
        let end = find(rest, b' ').unwrap_or(rest.len());
        self.0 = &rest[end..];
        Some(&rest[..end])
    }
}

fn number_of(most: u64, word: &[u8]) -> Option<u64> {
    if word.is_empty() {
        return None;
    }
    let mut number = 0u64;
    for byte in word {
        if !byte.is_ascii_digit() {
            return None;
        }
        number = number.checked_mul(10)?.checked_add(u64::from(byte - b'0'))?;
    }
    (number <= most).then_some(number)
}

fn short(word: &[u8]) -> Option<u32> {
    number_of(u64::from(u32::MAX), word).map(|number| number as u32)
}

fn lifetime_of(word: &[u8]) -> Option<Lifetime> {
    if let [b'-', digits @ ..] = word {
        return Some(if number_of(1 << 63, digits)? == 0 { Lifetime::Forever } else { Lifetime::Over });
    }
    Some(match short(word)? {
        0 => Lifetime::Forever,
        seconds @ 1..=2_592_000 => Lifetime::For(seconds),
        second => Lifetime::Until(second),
    })
}

enum Verb {
    Store(Wants),
    Join(bool),
}

enum Line<'a> {
    Whole(Command<'a>),
    Item { verb: Verb, key: &'a [u8], flags: u32, lifetime: Lifetime, len: usize, quiet: bool },
    Refused { fault: Fault, quiet: bool, block: Option<usize> },
}

fn refused<'a>(fault: Fault, quiet: bool) -> Line<'a> {
    Line::Refused { fault, quiet, block: None }
}

fn is_noreply(word: &[u8]) -> bool {
    word == b"noreply"
}

fn tail(word: &[u8], mut words: Words) -> Option<bool> {
    let last = words.next().unwrap_or(word);
    if words.next().is_some() { None } else { Some(is_noreply(last)) }
}

fn got(unique: bool, lifetime: Option<Lifetime>, keys: Words) -> Line {
    if keys.clone().any(|key| key.len() > MAX_KEY) {
        return refused(Fault::Format, false);
    }
    Line::Whole(Command::Get { keys, unique, lifetime })
}

fn item_line<'a>(verb: Option<Verb>, mut words: Words<'a>) -> Option<Line<'a>> {
    let key = words.next()?;
    let flags = words.next()?;
    let expiry = words.next()?;
    let len_word = words.next()?;
    let (last, verb) = match verb {
        Some(verb) => (len_word, Some(verb)),
        None => {
            let unique = words.next()?;
            (unique, number_of(u64::MAX, unique).map(|unique| Verb::Store(Wants::Numbered(unique))))
        }
    };
    let quiet = tail(last, words)?;
    let Some(len) = number_of(2_147_483_645, len_word).map(|len| len as usize) else {
        return Some(refused(Fault::Format, quiet));
    };
    let item = || {
        let verb = verb?;
        if key.len() > MAX_KEY {
            return None;
        }
        Some(Line::Item { verb, key, flags: short(flags)?, lifetime: lifetime_of(expiry)?, len, quiet })
    };
    Some(item().unwrap_or(Line::Refused { fault: Fault::Format, quiet, block: Some(len) }))
}

fn delete_line(mut words: Words) -> Option<Line> {
    let key = words.next()?;
    let deleted = |quiet| {
        if key.len() > MAX_KEY { refused(Fault::Format, quiet) } else { Line::Whole(Command::Delete { key, quiet }) }
    };
    let Some(second) = words.next() else {
        return Some(deleted(false));
    };
    let Some(third) = words.next() else {
        let quiet = is_noreply(second);
        return Some(if second == b"0" || quiet { deleted(quiet) } else { refused(Fault::DeleteUsage, false) });
    };
    if words.next().is_some() {
        return None;
    }
    let quiet = is_noreply(third);
    Some(if second == b"0" && quiet { deleted(true) } else { refused(Fault::DeleteUsage, quiet) })
}

fn keyed<'a>(mut words: Words<'a>, line: impl FnOnce(&'a [u8], &'a [u8], bool) -> Line<'a>) -> Option<Line<'a>> {
    let key = words.next()?;
    let second = words.next()?;
    let quiet = tail(second, words)?;
    Some(if key.len() > MAX_KEY { refused(Fault::Format, quiet) } else { line(key, second, quiet) })
}

fn count_line(up: bool, words: Words) -> Option<Line> {
    keyed(words, |key, delta, quiet| match number_of(u64::MAX, delta) {
        Some(delta) => Line::Whole(Command::Count { up, key, delta, quiet }),
        None => refused(Fault::Delta, quiet),
    })
}

fn flush_line<'a>(mut words: Words<'a>) -> Option<Line<'a>> {
    let at = |due, quiet| Line::Whole(Command::Flush { due, quiet });
    let by = |word: &[u8], quiet| match lifetime_of(word) {
        Some(Lifetime::Forever) => at(Lifetime::Over, quiet),
        Some(due) => at(due, quiet),
        None => refused(Fault::Expiry, quiet),
    };
    let Some(first) = words.next() else {
        return Some(at(Lifetime::Over, false));
    };
    let Some(last) = words.next() else {
        return Some(if is_noreply(first) { at(Lifetime::Over, true) } else { by(first, false) });
    };
    if words.next().is_some() { None } else { Some(by(first, is_noreply(last))) }
}

fn named<'a>(name: &[u8], mut words: Words<'a>) -> Option<Line<'a>> {
    match name {
        b"get" | b"gets" => {
            words.clone().next()?;
            Some(got(name.len() == 4, None, words))
        }
        b"gat" | b"gats" => {
            let expiry = words.next()?;
            Some(match lifetime_of(expiry) {
                Some(lifetime) => got(name.len() == 4, Some(lifetime), words),
                None => refused(Fault::Expiry, false),
            })
        }
        b"set" => item_line(Some(Verb::Store(Wants::Whatever)), words),
        b"add" => item_line(Some(Verb::Store(Wants::Absent)), words),
        b"replace" => item_line(Some(Verb::Store(Wants::Present)), words),
        b"append" => item_line(Some(Verb::Join(true)), words),
        b"prepend" => item_line(Some(Verb::Join(false)), words),
        b"cas" => item_line(None, words),
        b"incr" => count_line(true, words),
        b"decr" => count_line(false, words),
        b"delete" => delete_line(words),
        b"touch" => keyed(words, |key, expiry, quiet| match lifetime_of(expiry) {
            Some(lifetime) => Line::Whole(Command::Touch { key, lifetime, quiet }),
            None => refused(Fault::Expiry, quiet),
        }),
        b"flush_all" => flush_line(words),
        b"stats" => match words.next() {
            None => Some(Line::Whole(Command::Stats { server: true })),
            Some(b"items" | b"slabs" | b"settings" | b"sizes" | b"conns") => Some(Line::Whole(Command::Stats { server: false })),
            Some(_) => None,
        },
        b"version" => Some(Line::Whole(Command::Version)),
        b"verbosity" => {
            let level = words.next()?;
            let quiet = tail(level, words)?;
            Some(match short(level) {
                Some(_) => Line::Whole(Command::Verbosity { quiet }),
                None => refused(Fault::Format, quiet),
            })
        }
        b"mn" => Some(Line::Whole(Command::Noop)),
        b"quit" => Some(Line::Whole(Command::Quit)),
        b"ms" => Some(match words.nth(1).and_then(|len| number_of(2_147_483_645, len)) {
            Some(len) => Line::Refused { fault: Fault::NotSupported, quiet: false, block: Some(len as usize) },
            None => refused(Fault::Format, false),
        }),
        _ => None,
    }
}

fn line_of(text: &[u8]) -> Line<'_> {
    let mut words = Words(text);
    let all = words.clone();
    let Some(name) = words.next() else {
        return refused(Fault::Unknown, false);
    };
    named(name, words).unwrap_or_else(|| {
        if all.last().is_some_and(|word| word.starts_with(b"HTTP/")) {
            Line::Whole(Command::Quit)
        } else {
            refused(Fault::Unknown, false)
        }
    })
}

pub fn next_command(from: &[u8]) -> Next<'_> {
    if let [128, ..] = from {
        return Next::Command { command: Command::Quit, len: 1 };
    }
    let most = if from.starts_with(b"get ") || from.starts_with(b"gets ") { MAX_GET_LINE } else { MAX_LINE };
    let Some(end) = find(&from[..from.len().min(most + 1)], b'\n') else {
        return if from.len() > most { Next::LongLine } else { Next::More };
    };
    let text = from[..end].strip_suffix(b"\r").unwrap_or(&from[..end]);
    let len = end + 1;
    match line_of(text) {
        Line::Whole(command) => Next::Command { command, len },
        Line::Refused { fault, quiet, block } => {
            Next::Refused { fault, stale: None, quiet, len: len + block.map_or(0, |block| block + 2) }
        }
        Line::Item { verb, key, flags, lifetime, len: value_len, quiet } => {
            let whole = len + value_len + 2;
            if value_len > MAX_TEXT {
                let stale = if let Verb::Store(Wants::Whatever) = verb { Some(key) } else { None };
                return Next::Refused { fault: Fault::TooLarge, stale, quiet, len: whole };
            }
            if from.len() < whole {
                return Next::More;
            }
            let value = &from[len..len + value_len];
            if &from[len + value_len..whole] != b"\r\n" {
                return Next::Refused { fault: Fault::BadBlock, stale: None, quiet, len: whole };
            }
            let command = match verb {
                Verb::Store(wants) => Command::Store { wants, key, flags, lifetime, value, quiet },
                Verb::Join(back) => Command::Join { back, key, value, quiet },
            };
            Next::Command { command, len: whole }
        }
    }
}
