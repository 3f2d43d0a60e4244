//! A client that loads a server of memcached's protocol, or redis, over many connections, each with so many commands in a write.

use crate::epoll::Poll;
use crate::generate::Pcg;
use crate::number_of;
use std::collections::HashMap;
use std::error::Error;
use std::io::{self, ErrorKind, Read, Write};
use std::net::TcpStream;
use std::thread;
use std::time::{Duration, Instant};

/// What every command of a load is drawn by.
#[derive(Clone, Copy)]
pub struct Mix {
    is_redis: bool,
    keys: u64,
    value: usize,
    /// How many of 100 commands are gets.
    gets: u64,
    /// How many of 100 commands count one key up, or a drawn key where `keys` are many.
    counts: u64,
    /// Whether sets have a time at which they end.
    ends: bool,
    /// Whether writes of `gets` and of `cas` with the numbers that came take turns.
    swaps: bool,
    per: usize,
}

impl Mix {
    pub fn of(words: &HashMap<&str, &str>) -> Result<Mix, String> {
        let number = |name, default| number_of(words, name, default);
        Ok(Mix {
            is_redis: words.get("peer") == Some(&"redis"),
            keys: number("keys", 10_000)?,
            value: number("value-len", 64)? as usize,
            gets: number("gets", 100)?,
            counts: number("counts", 0)?,
            ends: number("ends", 0)? > 0,
            swaps: number("swaps", 0)? > 0,
            per: number("size", 1)? as usize,
        })
    }

    fn put_key(number: u64, out: &mut Vec<u8>) {
        let start = out.len();
        out.extend_from_slice(b"key0000000000000");
        let mut rest = number;
        let mut at = start + 15;
        while rest > 0 {
            out[at] = b'0' + (rest % 10) as u8;
            rest /= 10;
            at -= 1;
        }
    }

    fn put_get(&self, key: u64, out: &mut Vec<u8>) {
        let (head, tail): (&[u8], &[u8]) = if self.is_redis { (b"*2\r\n$3\r\nGET\r\n$16\r\n", b"\r\n") } else { (b"get ", b"\r\n") };
        out.extend_from_slice(head);
        Mix::put_key(key, out);
        out.extend_from_slice(tail);
    }

    fn put_set(&self, key: u64, out: &mut Vec<u8>) {
        if self.is_redis {
            out.extend_from_slice(if self.ends { b"*5\r\n$3\r\nSET\r\n$16\r\n" } else { b"*3\r\n$3\r\nSET\r\n$16\r\n" });
            Mix::put_key(key, out);
            write!(out, "\r\n${}\r\n", self.value).unwrap_or_default();
        } else {
            out.extend_from_slice(b"set ");
            Mix::put_key(key, out);
            write!(out, " 0 {} {}\r\n", if self.ends { 1_000 } else { 0 }, self.value).unwrap_or_default();
        }
        out.resize(out.len() + self.value, b'v');
        out.extend_from_slice(if self.is_redis && self.ends { b"\r\n$2\r\nEX\r\n$4\r\n1000\r\n" } else { b"\r\n" });
    }

    fn put_swap(&self, seen: &Seen, out: &mut Vec<u8>) {
        out.extend_from_slice(b"cas ");
        out.extend_from_slice(&seen.key);
        write!(out, " 0 0 {} {}\r\n", self.value, seen.unique).unwrap_or_default();
        out.resize(out.len() + self.value, b'w');
        out.extend_from_slice(b"\r\n");
    }

    fn put_count(&self, key: u64, out: &mut Vec<u8>) {
        let (head, tail): (&[u8], &[u8]) = if self.is_redis { (b"*2\r\n$4\r\nINCR\r\n$16\r\n", b"\r\n") } else { (b"incr ", b" 1\r\n") };
        out.extend_from_slice(head);
        Mix::put_key(key, out);
        out.extend_from_slice(tail);
    }

    /// A get or a set; whether it is a get.
    pub fn put_command(&self, draws: &mut Pcg, out: &mut Vec<u8>) -> bool {
        let (key, kind) = (draws.next() % self.keys, draws.next() % 100);
        let is_get = kind < self.gets;
        if is_get { self.put_get(key, out) } else { self.put_set(key, out) }
        is_get
    }

    fn batch(&self, draws: &mut Pcg, out: &mut Vec<u8>) {
        out.clear();
        for _ in 0..self.per {
            let (key, kind) = (draws.next() % self.keys, draws.next() % 100);
            if self.swaps {
                out.extend_from_slice(b"gets ");
                Mix::put_key(key, out);
                out.extend_from_slice(b"\r\n");
            } else if kind < self.counts {
                self.put_count(key, out);
            } else if kind < self.counts + self.gets {
                self.put_get(key, out);
            } else {
                self.put_set(key, out);
            }
        }
    }

    /// How many bytes the first reply takes, and whether it is a hit; None where not all of it has come.
    pub fn reply(&self, bytes: &[u8]) -> Option<(usize, bool)> {
        let line = bytes.iter().position(|&byte| byte == b'\n')? + 1;
        let is_value = if self.is_redis { bytes[0] == b'$' && bytes[1] != b'-' } else { bytes.starts_with(b"VALUE ") };
        if !is_value {
            return Some((line, false));
        }
        let whole = line + self.value + 2 + if self.is_redis { 0 } else { 5 };
        (bytes.len() >= whole).then_some((whole, true))
    }
}

/// A key of 16 bytes, and the unique number that `gets` told of it.
struct Seen {
    key: Vec<u8>,
    unique: u64,
}

impl Seen {
    /// What the first line of a hit tells.
    fn of(bytes: &[u8]) -> Option<Seen> {
        let line = bytes.split(|&byte| byte == b'\r').next()?;
        let key = line.split(|&byte| byte == b' ').nth(1)?.to_vec();
        let unique = std::str::from_utf8(line.rsplit(|&byte| byte == b' ').next()?).ok()?.parse().ok()?;
        Some(Seen { key, unique })
    }
}

struct Connection {
    stream: TcpStream,
    unsent: Vec<u8>,
    sent: usize,
    kept: Vec<u8>,
    due: usize,
    seen: Vec<Seen>,
}

#[derive(Default)]
struct Done {
    replies: u64,
    hits: u64,
}

impl Connection {
    fn open(port: u16) -> io::Result<Connection> {
        let stream = TcpStream::connect(("127.0.0.1", port))?;
        stream.set_nodelay(true)?;
        stream.set_nonblocking(true)?;
        Ok(Connection { stream, unsent: Vec::new(), sent: 0, kept: Vec::new(), due: 0, seen: Vec::new() })
    }

    fn ask(&mut self, mix: &Mix, draws: &mut Pcg) -> io::Result<()> {
        self.sent = 0;
        self.due = mix.per;
        if self.seen.is_empty() {
            mix.batch(draws, &mut self.unsent);
        } else {
            self.due = self.seen.len();
            self.unsent.clear();
            self.seen.drain(..).for_each(|seen| mix.put_swap(&seen, &mut self.unsent));
        }
        self.send()
    }

    fn send(&mut self) -> io::Result<()> {
        while self.sent < self.unsent.len() {
            match self.stream.write(&self.unsent[self.sent..]) {
                Ok(count) => self.sent += count,
                Err(error) if error.kind() == ErrorKind::WouldBlock => break,
                Err(error) => return Err(error),
            }
        }
        Ok(())
    }

    fn take(&mut self, mix: &Mix, draws: &mut Pcg, room: &mut [u8], done: &mut Done) -> io::Result<()> {
        self.send()?;
        loop {
            let count = match self.stream.read(room) {
                Ok(0) => return Err(ErrorKind::UnexpectedEof.into()),
                Ok(count) => count,
                Err(error) if error.kind() == ErrorKind::WouldBlock => return Ok(()),
                Err(error) => return Err(error),
            };
            self.kept.extend_from_slice(&room[..count]);
            let mut at = 0;
            while self.due > 0
                && let Some((len, is_hit)) = mix.reply(&self.kept[at..])
            {
                if is_hit && mix.swaps {
                    self.seen.extend(Seen::of(&self.kept[at..at + len]));
                }
                at += len;
                self.due -= 1;
                done.replies += 1;
                done.hits += u64::from(is_hit);
            }
            self.kept.drain(..at);
            if self.due == 0 {
                self.ask(mix, draws)?;
            }
            if count < room.len() {
                return Ok(());
            }
        }
    }
}

/// How many keys are stored by one write.
const FILLED: usize = 128;

/// Stores all keys: zeros, where they are to be counted up.
pub fn fill(port: u16, mix: &Mix) -> io::Result<()> {
    let mut stream = TcpStream::connect(("127.0.0.1", port))?;
    let (mut text, mut room) = (Vec::new(), [0; 4096]);
    for first in (0..mix.keys).step_by(FILLED) {
        let last = mix.keys.min(first + FILLED as u64);
        text.clear();
        for key in first..last {
            if mix.counts == 0 {
                mix.put_set(key, &mut text);
            } else if mix.is_redis {
                mix.put_count(key, &mut text);
            } else {
                text.extend_from_slice(b"set ");
                Mix::put_key(key, &mut text);
                text.extend_from_slice(b" 0 0 1\r\n0\r\n");
            }
        }
        stream.write_all(&text)?;
        let mut due = (last - first) as usize;
        while due > 0 {
            let count = stream.read(&mut room)?;
            if count == 0 {
                return Err(ErrorKind::UnexpectedEof.into());
            }
            due -= room[..count].iter().filter(|&&byte| byte == b'\n').count();
        }
    }
    Ok(())
}

fn run(mut all: Vec<Connection>, mix: &Mix, seed: u64, end: Instant) -> io::Result<Done> {
    let mut poll = Poll::new()?;
    let mut draws = Pcg::new(seed);
    for (number, connection) in (0..).zip(&all) {
        poll.add(&connection.stream, number)?;
    }
    let mut done = Done::default();
    let mut room = vec![0; 1 << 16];
    for connection in &mut all {
        connection.ask(mix, &mut draws)?;
    }
    while Instant::now() < end {
        for number in poll.wait(50) {
            all[number as usize].take(mix, &mut draws, &mut room, &mut done)?;
        }
    }
    Ok(done)
}

/// Prints how many replies came a second, how many came, and how many were hits.
pub fn load(words: &HashMap<&str, &str>) -> Result<Vec<u8>, Box<dyn Error>> {
    let number = |name, default| number_of(words, name, default);
    let (port, fronts) = (number("port", 11_211)? as u16, number("fronts", 1)? as u16);
    let ports: Vec<u16> = (port..port + fronts).collect();
    let mix = Mix::of(words)?;
    let (connections, threads) = (number("connections", 1)? as usize, number("threads", 1)? as usize);
    if number("fill", 1)? > 0 {
        fill(port, &mix)?;
    }
    let open = |thread: usize| -> io::Result<Vec<Connection>> {
        let many = (connections + threads - 1 - thread) / threads;
        (0..many).map(|number| Connection::open(ports[number % ports.len()])).collect()
    };
    let opened: Vec<Vec<Connection>> = (0..threads).map(open).collect::<io::Result<_>>()?;
    let begin = Instant::now();
    let end = begin + Duration::from_millis(number("milliseconds", 1_000)?);
    let parts: Vec<io::Result<Done>> = thread::scope(|scope| {
        let mix = &mix;
        let start = |(seed, all)| scope.spawn(move || run(all, mix, seed, end));
        let running: Vec<_> = (1..).zip(opened).map(start).collect();
        let ended = running.into_iter().map(|one| one.join().unwrap_or_else(|_| Err(ErrorKind::Other.into())));
        ended.collect()
    });
    let seconds = begin.elapsed().as_secs_f64();
    let mut all = Done::default();
    for part in parts {
        let part = part?;
        all.replies += part.replies;
        all.hits += part.hits;
    }
    Ok(format!("{} {} {}\n", all.replies as f64 / seconds, all.replies, all.hits).into_bytes())
}
