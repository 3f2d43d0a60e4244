//! A server of memcached's protocol over connections, in plain Rust: fronts over epoll that take turns at owning a partition, by a lock.
//! It keeps of an item what `micad` keeps, reads the clock for each key, answers what is over as absent, and counts hits, misses and
//! sets. It takes away nothing that is over.

use crate::commands::{Asked, Command, HEADER, end_of, read_commands};
use crate::epoll::Poll;
use crate::hash::partition_of;
use crate::locked::{CACHED_WORDS, load_ahead};
use crate::machine::{Options, Outcome};
use crate::number_of;
use crate::put_number;
use crate::table::{Owner, Table};
use std::collections::HashMap;
use std::error::Error;
use std::io::{self, ErrorKind, Read, Write};
use std::net::{TcpListener, TcpStream};
use std::sync::Mutex;
use std::sync::atomic::{AtomicU64, Ordering::Relaxed};
use std::thread;
use std::time::{SystemTime, UNIX_EPOCH};

const LISTENER: u64 = u64::MAX;
/// How many bytes of replies may wait.
const MOST_UNSENT: usize = 1 << 16;

/// What stands before the data of a value.
struct Head {
    flags: u32,
    end: u32,
    unique: u64,
}

impl Head {
    fn of(bytes: [u8; HEADER]) -> Head {
        let word = u128::from_le_bytes(bytes);
        Head { flags: word as u32, end: (word >> 32) as u32, unique: (word >> 64) as u64 }
    }

    fn bytes(&self) -> [u8; HEADER] {
        (u128::from(self.flags) | u128::from(self.end) << 32 | u128::from(self.unique) << 64).to_le_bytes()
    }

    fn is_over(&self, now: u64) -> bool {
        self.end > 0 && u64::from(self.end) <= now
    }
}

/// The owner of a partition, and the last unique number that it drew.
struct Numbered<'a> {
    owner: Owner<'a>,
    unique: u64,
}

struct Part<'a> {
    table: &'a Table,
    owner: &'a Mutex<Numbered<'a>>,
}

/// What a front counts. Its own thread alone raises it, and each front shows all.
#[derive(Default)]
#[repr(align(64))]
struct Counts {
    hits: AtomicU64,
    misses: AtomicU64,
    sets: AtomicU64,
}

fn raise(count: &AtomicU64) {
    count.store(count.load(Relaxed) + 1, Relaxed);
}

fn put_stats(all: &[Counts], out: &mut Vec<u8>) {
    let sum = |count: fn(&Counts) -> &AtomicU64| all.iter().map(|counts| count(counts).load(Relaxed)).sum::<u64>();
    let (hits, misses, sets) = (sum(|counts| &counts.hits), sum(|counts| &counts.misses), sum(|counts| &counts.sets));
    for (name, number) in [("cmd_get", hits + misses), ("cmd_set", sets), ("get_hits", hits), ("get_misses", misses)] {
        out.extend_from_slice(format!("STAT {name} {number}\r\n").as_bytes());
    }
    out.extend_from_slice(b"END\r\n");
}

fn second() -> u64 {
    SystemTime::now().duration_since(UNIX_EPOCH).map_or(0, |past| past.as_secs())
}

struct Client {
    stream: TcpStream,
    kept: Vec<u8>,
    unsent: Vec<u8>,
}

impl Client {
    /// Whether all was sent; None where the connection broke.
    fn send(&mut self) -> Option<bool> {
        while !self.unsent.is_empty() {
            match self.stream.write(&self.unsent) {
                Ok(count) => drop(self.unsent.drain(..count)),
                Err(error) => return (error.kind() == ErrorKind::WouldBlock).then_some(false),
            }
        }
        Some(true)
    }
}

struct Front<'a> {
    parts: Vec<Part<'a>>,
    counts: &'a [Counts],
    number: usize,
    is_ahead: bool,
    value: Vec<u8>,
    hashes: Vec<u64>,
}

impl Front<'_> {
    fn get(&mut self, key: &[u8], hash: u64, tells_unique: bool, out: &mut Vec<u8>) {
        let part = &self.parts[partition_of(hash, self.parts.len())];
        let now = second();
        self.value.clear();
        part.table.get(hash, key, &mut self.value);
        let found = self.value.split_first_chunk().map(|(head, data)| (Head::of(*head), data));
        let Some((head, data)) = found.filter(|(head, _)| !head.is_over(now)) else {
            raise(&self.counts[self.number].misses);
            return;
        };
        raise(&self.counts[self.number].hits);
        out.extend_from_slice(b"VALUE ");
        out.extend_from_slice(key);
        out.push(b' ');
        put_number(u64::from(head.flags), out);
        out.push(b' ');
        put_number(data.len() as u64, out);
        if tells_unique {
            out.push(b' ');
            put_number(head.unique, out);
        }
        out.extend_from_slice(b"\r\n");
        out.extend_from_slice(data);
        out.extend_from_slice(b"\r\n");
    }

    fn set(&mut self, key: &[u8], hash: u64, flags: u32, end: u32, data: &[u8], out: &mut Vec<u8>) {
        let part = &self.parts[partition_of(hash, self.parts.len())];
        let mut held = part.owner.lock().unwrap_or_else(|poisoned| poisoned.into_inner());
        held.unique += 1;
        self.value.clear();
        self.value.extend_from_slice(&Head { flags, end, unique: held.unique }.bytes());
        self.value.extend_from_slice(data);
        let outcome = held.owner.put(hash, key, &self.value);
        drop(held);
        raise(&self.counts[self.number].sets);
        out.extend_from_slice(if outcome == Outcome::Stored { b"STORED\r\n" } else { b"SERVER_ERROR out of memory storing object\r\n" });
    }

    fn answer(&mut self, command: &Command<'_>, out: &mut Vec<u8>) {
        match *command {
            Command::Get { key, hash, tells_unique } => self.get(key, hash, tells_unique, out),
            Command::End => out.extend_from_slice(b"END\r\n"),
            Command::Set { key, hash, flags, time, data } => match end_of(time, second()) {
                Some(end) => self.set(key, hash, flags, end, data, out),
                None => out.extend_from_slice(b"CLIENT_ERROR bad command line format\r\n"),
            },
            Command::Stats => put_stats(self.counts, out),
            Command::Wrong => out.extend_from_slice(b"ERROR\r\n"),
        }
    }

    /// Answers what has come whole, as long as the peer takes the replies. How many bytes were answered, and whether all replies were
    /// taken; None where the connection broke.
    fn answer_all(&mut self, client: &mut Client, bytes: &[u8]) -> Option<(usize, bool)> {
        let (all, len) = read_commands(bytes);
        if self.is_ahead {
            self.hashes.clear();
            self.hashes.extend(all.iter().filter_map(|asked| match asked.command {
                Command::Get { hash, .. } | Command::Set { hash, .. } => Some(hash),
                _ => None,
            }));
            load_ahead(|hash| self.parts[partition_of(hash, self.parts.len())].table, &self.hashes);
        }
        let mut begun = None;
        for Asked { command, at } in &all {
            if begun != Some(at) && client.unsent.len() >= MOST_UNSENT && !client.send()? {
                return Some((*at, false));
            }
            begun = Some(at);
            self.answer(command, &mut client.unsent);
        }
        Some((len, client.send()?))
    }

    /// Reads and answers until a read leaves nothing, or the peer takes no more. None where the connection is over.
    fn visit(&mut self, client: &mut Client, room: &mut [u8]) -> Option<()> {
        let mut len = client.kept.len();
        room[..len].copy_from_slice(&client.kept);
        client.kept.clear();
        let mut is_drained = false;
        loop {
            let (at, is_sent) = self.answer_all(client, &room[..len])?;
            room.copy_within(at..len, 0);
            len -= at;
            if is_drained || !is_sent {
                client.kept.extend_from_slice(&room[..len]);
                return Some(());
            }
            match client.stream.read(&mut room[len..]) {
                Ok(0) => return None,
                Ok(count) => {
                    len += count;
                    is_drained = len < room.len();
                }
                Err(error) if error.kind() == ErrorKind::WouldBlock => is_drained = true,
                Err(_) => return None,
            }
        }
    }
}

fn run_front(mut front: Front<'_>, listener: &TcpListener) -> io::Result<()> {
    let mut poll = Poll::new()?;
    poll.add(listener, LISTENER)?;
    let mut clients: Vec<Option<Client>> = Vec::new();
    let mut room = vec![0; 1 << 16];
    loop {
        for number in poll.wait_awake() {
            if number == LISTENER {
                while let Ok((stream, _)) = listener.accept() {
                    stream.set_nonblocking(true)?;
                    stream.set_nodelay(true)?;
                    poll.add(&stream, clients.len() as u64)?;
                    clients.push(Some(Client { stream, kept: Vec::new(), unsent: Vec::new() }));
                }
                continue;
            }
            let place = &mut clients[number as usize];
            if let Some(client) = place
                && front.visit(client, &mut room).is_none()
            {
                *place = None;
            }
        }
    }
}

/// Serves at each of some ports until it is killed.
pub fn serve(words: &HashMap<&str, &str>, options: &Options) -> Result<Vec<u8>, Box<dyn Error>> {
    let (port, fronts) = (number_of(words, "port", 11_211)? as u16, number_of(words, "fronts", 1)? as u16);
    let listen = |front| -> io::Result<TcpListener> {
        let listener = TcpListener::bind(("127.0.0.1", port + front))?;
        listener.set_nonblocking(true)?;
        Ok(listener)
    };
    let tables: Vec<Table> = (0..options.partitions).map(|_| Table::new(options)).collect();
    let owners: Vec<Mutex<Numbered<'_>>> =
        tables.iter().map(|table| Mutex::new(Numbered { owner: Owner::new(table, options), unique: 0 })).collect();
    let counts: Vec<Counts> = (0..fronts).map(|_| Counts::default()).collect();
    let is_ahead = tables.iter().map(Table::size).sum::<usize>() > CACHED_WORDS;
    let listeners: Vec<TcpListener> = (0..fronts).map(listen).collect::<io::Result<_>>()?;
    let served: io::Result<Vec<()>> = thread::scope(|scope| {
        let start = |(number, listener)| {
            let parts = tables.iter().zip(&owners).map(|(table, owner)| Part { table, owner }).collect();
            let front = Front { parts, counts: &counts, number, is_ahead, value: Vec::new(), hashes: Vec::new() };
            scope.spawn(move || run_front(front, listener))
        };
        let running: Vec<_> = listeners.iter().enumerate().map(start).collect();
        running.into_iter().map(|one| one.join().unwrap_or_else(|_| Err(ErrorKind::Other.into()))).collect()
    });
    served?;
    Ok(Vec::new())
}
