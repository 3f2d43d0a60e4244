//! A client that loads one port of a server: of `mica`, of memcached over UDP or TCP, or of redis.

use crate::generate::Pcg;
use crate::number_of;
use crate::packets::{LONGEST, batch_of};
use std::collections::{HashMap, VecDeque};
use std::error::Error;
use std::io::{self, Read, Write};
use std::net::{TcpStream, UdpSocket};
use std::thread;
use std::time::{Duration, Instant};

type Words<'a> = HashMap<&'a str, &'a str>;

const GET: u8 = 0;
const PUT: u8 = 1;
const BAD_BATCH: u8 = 9;

struct Request {
    op: u8,
    key: Vec<u8>,
    value: Vec<u8>,
}

/// What a server understands, and how it is reached.
#[derive(Clone, Copy)]
enum Peer {
    Mica { version: u8 },
    MemcachedUdp,
    MemcachedTcp,
    Redis,
}

impl Peer {
    fn of(words: &Words<'_>) -> Result<Peer, String> {
        let version = number_of(words, "version", 1)? as u8;
        match words.get("peer").copied().unwrap_or("mica") {
            "mica" => Ok(Peer::Mica { version }),
            "memcached-udp" => Ok(Peer::MemcachedUdp),
            "memcached-tcp" => Ok(Peer::MemcachedTcp),
            "redis" => Ok(Peer::Redis),
            _ => Err("--peer is mica, memcached-udp, memcached-tcp or redis".to_owned()),
        }
    }

    /// What is sent for a batch: one text, or for memcached over UDP a datagram for each request.
    fn texts(self, number: u64, requests: &[Request]) -> Vec<Vec<u8>> {
        match self {
            Peer::Mica { version } => {
                let list: Vec<_> = requests.iter().map(|r| (r.op, r.key.as_slice(), r.value.as_slice())).collect();
                vec![batch_of(version, number as u32, &list)]
            }
            Peer::MemcachedUdp => {
                let framed = |request| [b"\0\0\0\0\0\x01\0\0".as_slice(), &memcached_text(request)].concat();
                requests.iter().map(framed).collect()
            }
            Peer::MemcachedTcp => vec![requests.iter().flat_map(memcached_text).collect()],
            Peer::Redis => vec![requests.iter().flat_map(redis_text).collect()],
        }
    }
}

fn memcached_text(request: &Request) -> Vec<u8> {
    let Request { op, key, value } = request;
    if *op == GET {
        return [b"get ", key.as_slice(), b"\r\n"].concat();
    }
    let len = format!(" 0 0 {}\r\n", value.len());
    [b"set ", key.as_slice(), len.as_bytes(), value, b"\r\n"].concat()
}

fn redis_text(request: &Request) -> Vec<u8> {
    let Request { op, key, value } = request;
    let words: &[&[u8]] = if *op == GET { &[b"GET", key] } else { &[b"SET", key, value] };
    let mut text = format!("*{}\r\n", words.len()).into_bytes();
    for word in words {
        text.extend_from_slice(format!("${}\r\n", word.len()).as_bytes());
        text.extend_from_slice(word);
        text.extend_from_slice(b"\r\n");
    }
    text
}

/// The place behind the line at the front of the bytes.
fn line_end(bytes: &[u8]) -> Option<usize> {
    Some(bytes.windows(2).position(|pair| pair == b"\r\n")? + 2)
}

/// How many bytes the answer at the front has, where it is whole, and whether it is a hit.
fn answer_at(peer: Peer, bytes: &[u8]) -> Option<(usize, bool)> {
    let line = line_end(bytes)?;
    let length = |from: usize| std::str::from_utf8(&bytes[from..line - 2]).ok()?.parse::<usize>().ok();
    let (len, is_hit) = match peer {
        Peer::Redis if bytes.starts_with(b"$-1") => (line, false),
        Peer::Redis if bytes.starts_with(b"$") => (line + length(1)? + 2, true),
        _ if bytes.starts_with(b"VALUE ") => {
            let space = bytes[..line].iter().rposition(|byte| *byte == b' ')?;
            (line + length(space + 1)? + 2 + 5, true)
        }
        _ => (line, false),
    };
    (len <= bytes.len()).then_some((len, is_hit))
}

/// The hits among the replies of a datagram of `mica`.
fn hits_in(datagram: &[u8]) -> u64 {
    let (mut at, mut hits) = (10, 0);
    while let Some(head) = datagram.get(at..at + 16) {
        hits += u64::from(head[0] == 0);
        at += 16 + usize::from(u16::from_le_bytes([head[2], head[3]]));
    }
    hits
}

/// What came back so far. Where nothing comes for a while over UDP, what is on its way counts as lost.
#[derive(Default)]
struct Answered {
    requests: u64,
    hits: u64,
    lost: u64,
}

impl Answered {
    fn settled(&self) -> u64 {
        self.requests + self.lost
    }
}

fn is_silence(error: &io::Error) -> bool {
    matches!(error.kind(), io::ErrorKind::WouldBlock | io::ErrorKind::TimedOut)
}

trait Line {
    fn send(&mut self, text: &[u8]) -> Result<(), Box<dyn Error>>;

    /// Waits for some answers to so many requests that were sent.
    fn receive(&mut self, sent: u64, answered: &mut Answered) -> Result<(), Box<dyn Error>>;
}

struct Datagrams {
    socket: UdpSocket,
    peer: Peer,
    room: Vec<u8>,
}

impl Line for Datagrams {
    fn send(&mut self, text: &[u8]) -> Result<(), Box<dyn Error>> {
        self.socket.send(text)?;
        Ok(())
    }

    fn receive(&mut self, sent: u64, answered: &mut Answered) -> Result<(), Box<dyn Error>> {
        let len = match self.socket.recv(&mut self.room) {
            Err(error) if is_silence(&error) => {
                answered.lost = sent - answered.requests;
                return Ok(());
            }
            received => received?,
        };
        let datagram = &self.room[..len];
        if let Peer::Mica { .. } = self.peer {
            if datagram[10] == BAD_BATCH {
                return Err("a batch was refused".into());
            }
            answered.requests += u64::from(datagram[5]);
            answered.hits += hits_in(datagram);
        } else if datagram[2..4] == [0, 0] {
            // a long value has further datagrams, which count as nothing
            answered.requests += 1;
            answered.hits += u64::from(datagram[8..].starts_with(b"VALUE "));
        }
        Ok(())
    }
}

struct Stream {
    stream: TcpStream,
    peer: Peer,
    room: Vec<u8>,
    rest: Vec<u8>,
}

impl Line for Stream {
    fn send(&mut self, text: &[u8]) -> Result<(), Box<dyn Error>> {
        self.stream.write_all(text)?;
        Ok(())
    }

    fn receive(&mut self, _sent: u64, answered: &mut Answered) -> Result<(), Box<dyn Error>> {
        let len = self.stream.read(&mut self.room)?;
        if len == 0 {
            return Err("the server closed the stream".into());
        }
        self.rest.extend_from_slice(&self.room[..len]);
        let mut at = 0;
        while let Some((len, is_hit)) = answer_at(self.peer, &self.rest[at..]) {
            answered.requests += 1;
            answered.hits += u64::from(is_hit);
            at += len;
        }
        self.rest.drain(..at);
        Ok(())
    }
}

fn connect(peer: Peer, port: u16) -> Result<Box<dyn Line>, Box<dyn Error>> {
    let room = vec![0; LONGEST.max(65_536)];
    match peer {
        Peer::Mica { .. } | Peer::MemcachedUdp => {
            let socket = UdpSocket::bind(("127.0.0.1", 0))?;
            socket.connect(("127.0.0.1", port))?;
            socket.set_read_timeout(Some(Duration::from_secs(2)))?;
            Ok(Box::new(Datagrams { socket, peer, room }))
        }
        Peer::MemcachedTcp | Peer::Redis => {
            let stream = TcpStream::connect(("127.0.0.1", port))?;
            stream.set_nodelay(true)?;
            stream.set_read_timeout(Some(Duration::from_secs(60)))?;
            Ok(Box::new(Stream { stream, peer, room, rest: Vec::new() }))
        }
    }
}

/// When each batch was sent that is not answered, and how many microseconds the answered ones took.
#[derive(Default)]
struct Waits {
    sent: VecDeque<Instant>,
    micros: Vec<u64>,
}

impl Waits {
    /// Takes note of what is answered now, where so many batches are.
    fn settle(&mut self, batches: u64) {
        let left = (self.micros.len() + self.sent.len()).saturating_sub(batches as usize);
        for begin in self.sent.drain(..self.sent.len() - left.min(self.sent.len())) {
            self.micros.push(begin.elapsed().as_micros() as u64);
        }
    }

    fn median(mut self) -> u64 {
        self.micros.sort_unstable();
        self.micros.get(self.micros.len() / 2).copied().unwrap_or(0)
    }
}

/// The most batches that are made before the first is sent. Then they come again, but for those that fill: each is made as it is sent.
const MADE: u64 = 20_000;

struct Load {
    size: u64,
    gets: u64,
    keys: u64,
    value_len: usize,
    fills: bool,
}

impl Load {
    fn request(&self, number: u64, draws: &mut Pcg) -> Request {
        let (kind, drawn) = (draws.next() % 100, draws.next() % self.keys);
        let key = format!("k{:015}", if self.fills { number % self.keys } else { drawn }).into_bytes();
        if !self.fills && kind < self.gets {
            return Request { op: GET, key, value: Vec::new() };
        }
        Request { op: PUT, key, value: vec![b'v'; self.value_len] }
    }

    fn batch(&self, peer: Peer, number: u64, draws: &mut Pcg) -> Vec<Vec<u8>> {
        let requests: Vec<_> = (0..self.size).map(|at| self.request(number * self.size + at, draws)).collect();
        peer.texts(number, &requests)
    }
}

/// Sends so many batches to a port, for `--seconds` at most, with `--window` of them on their way at a time and no more than `--rate`
/// in a second where it is given. Says how many requests were answered in a second, how many in all, how many of them were hits, how
/// many were lost, and the median of the microseconds from a batch to all its answers. With `--fill 1` it puts the keys in turn.
pub fn load(words: &Words<'_>) -> Result<Vec<u8>, Box<dyn Error>> {
    let number = |name, default| number_of(words, name, default);
    let (port, batches) = (number("port", 9_000)? as u16, number("batches", 10_000)?);
    let (window, rate) = (number("window", 8)?, number("rate", 0)?);
    let most = Duration::from_secs(number("seconds", 20)?);
    let load = Load {
        size: number("size", 32)?,
        gets: number("gets", 95)?,
        keys: number("keys", 1_000)?,
        value_len: number("value-len", 8)? as usize,
        fills: number("fill", 0)? == 1,
    };
    let peer = Peer::of(words)?;
    let mut draws = Pcg::new(number("seed", 1)?);
    let first = if load.fills { 1 } else { batches.min(MADE) };
    let made: Vec<_> = (0..first).map(|number| load.batch(peer, number, &mut draws)).collect();
    let mut line = connect(peer, port)?;
    let (mut answered, mut waits) = (Answered::default(), Waits::default());
    let begin = Instant::now();
    let mut sent = 0;
    for texts in made.iter().cycle() {
        let fresh = (load.fills && sent > 0).then(|| load.batch(peer, sent, &mut draws));
        if sent == batches || begin.elapsed() > most {
            break;
        }
        if let Some(due) = (1_000_000 * sent).checked_div(rate) {
            thread::sleep(Duration::from_micros(due).saturating_sub(begin.elapsed()));
        }
        while sent * load.size >= answered.settled() + window * load.size {
            line.receive(sent * load.size, &mut answered)?;
            waits.settle(answered.settled() / load.size);
        }
        waits.sent.push_back(Instant::now());
        for text in fresh.as_ref().unwrap_or(texts) {
            line.send(text)?;
        }
        sent += 1;
    }
    while answered.settled() < sent * load.size {
        line.receive(sent * load.size, &mut answered)?;
        waits.settle(answered.settled() / load.size);
    }
    let rate = answered.requests as f64 / begin.elapsed().as_secs_f64();
    let Answered { requests, hits, lost } = answered;
    Ok(format!("{rate:.0} {requests} {hits} {lost} {}\n", waits.median()).into_bytes())
}
