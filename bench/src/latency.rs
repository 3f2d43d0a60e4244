//! A client that asks a server at a rate that it is told, whatever the server does, and says how long answers took.
//!
//! Each command has a moment at which it is due. It is sent then by a connection that waits for nothing, or as soon as one is free; it took from its due moment to its last byte. So what waits behind
//! a slow answer counts as slow too.

use crate::connections::{Mix, fill};
use crate::epoll::Poll;
use crate::generate::Pcg;
use crate::number_of;
use std::collections::{HashMap, VecDeque};
use std::error::Error;
use std::io::{self, ErrorKind, Read, Write};
use std::net::TcpStream;
use std::thread;
use std::time::{Duration, Instant};

struct Asked {
    due: Instant,
    is_get: bool,
}

struct Asker {
    stream: TcpStream,
    kept: Vec<u8>,
    asked: Option<Asked>,
}

/// Nanoseconds that gets took, and sets.
#[derive(Default)]
struct Took {
    gets: Vec<u64>,
    sets: Vec<u64>,
}

impl Asker {
    fn open(port: u16) -> io::Result<Asker> {
        let stream = TcpStream::connect(("127.0.0.1", port))?;
        stream.set_nodelay(true)?;
        stream.set_nonblocking(true)?;
        Ok(Asker { stream, kept: Vec::new(), asked: None })
    }

    fn ask(&mut self, mix: &Mix, due: Instant, draws: &mut Pcg, text: &mut Vec<u8>) -> io::Result<()> {
        text.clear();
        let is_get = mix.put_command(draws, text);
        self.asked = Some(Asked { due, is_get });
        let mut sent = 0;
        while sent < text.len() {
            match self.stream.write(&text[sent..]) {
                Ok(count) => sent += count,
                Err(error) if error.kind() == ErrorKind::WouldBlock => {}
                Err(error) => return Err(error),
            }
        }
        Ok(())
    }

    /// Takes what has come; whether the answer is whole.
    fn take(&mut self, mix: &Mix, room: &mut [u8], took: &mut Took) -> io::Result<bool> {
        loop {
            match self.stream.read(room) {
                Ok(0) => return Err(ErrorKind::UnexpectedEof.into()),
                Ok(count) => self.kept.extend_from_slice(&room[..count]),
                Err(error) if error.kind() == ErrorKind::WouldBlock => break,
                Err(error) => return Err(error),
            }
        }
        let (Some((len, _)), Some(asked)) = (mix.reply(&self.kept), &self.asked) else { return Ok(false) };
        let nanos = asked.due.elapsed().as_nanos() as u64;
        if asked.is_get { &mut took.gets } else { &mut took.sets }.push(nanos);
        self.kept.drain(..len);
        self.asked = None;
        Ok(true)
    }
}

/// The time from one due moment to the next: as of arrivals that know nothing of each other.
fn pause(rate: f64, draws: &mut Pcg) -> Duration {
    let drawn = (draws.next() as f64 + 1.0) / (u32::MAX as f64 + 2.0);
    Duration::from_secs_f64(-drawn.ln() / rate)
}

/// Asks at this rate from the beginning to the end. What is due before `counted` warms the server and does not count.
fn run(mut all: Vec<Asker>, mix: &Mix, seed: u64, rate: f64, counted: Instant, end: Instant) -> io::Result<Took> {
    let mut poll = Poll::new()?;
    for (number, asker) in (0..).zip(&all) {
        poll.add(&asker.stream, number)?;
    }
    let (mut draws, mut took, mut warm) = (Pcg::new(seed), Took::default(), Took::default());
    let (mut room, mut text) = (vec![0; 1 << 16], Vec::new());
    let mut free: VecDeque<usize> = (0..all.len()).collect();
    let mut due = Instant::now() + pause(rate, &mut draws);
    while due < end || free.len() < all.len() {
        while due < end
            && due <= Instant::now()
            && let Some(number) = free.pop_front()
        {
            all[number].ask(mix, due, &mut draws, &mut text)?;
            due += pause(rate, &mut draws);
        }
        for number in poll.wait(0) {
            let asker = &mut all[number as usize];
            let is_warm = asker.asked.as_ref().is_some_and(|asked| asked.due < counted);
            if asker.asked.is_some() && asker.take(mix, &mut room, if is_warm { &mut warm } else { &mut took })? {
                free.push_back(number as usize);
            }
        }
        if Instant::now() > end + Duration::from_secs(20) {
            return Err(ErrorKind::TimedOut.into());
        }
    }
    Ok(took)
}

fn percentiles(mut nanos: Vec<u64>) -> String {
    nanos.sort_unstable();
    let at = |of_thousand: usize| nanos.get((nanos.len() * of_thousand / 1_000).min(nanos.len().saturating_sub(1))).copied().unwrap_or(0);
    format!("{} {:.1} {:.1} {:.1}", nanos.len(), at(500) as f64 / 1e3, at(990) as f64 / 1e3, at(999) as f64 / 1e3)
}

/// Prints of the gets, and on a second line of the sets, how many there were, and the microseconds in which 50, 99 and 99.9 of 100 were answered.
pub fn latency(words: &HashMap<&str, &str>) -> Result<Vec<u8>, Box<dyn Error>> {
    let number = |name, default| number_of(words, name, default);
    let (port, fronts) = (number("port", 11_211)? as u16, number("fronts", 1)? as u16);
    let mix = Mix::of(words)?;
    let (connections, threads) = (number("connections", 50)? as usize, number("threads", 1)? as usize);
    let rate = number("rate", 1_000)? as f64 / threads as f64;
    if number("fill", 1)? > 0 {
        fill(port, &mix)?;
    }
    let open = |thread: usize| -> io::Result<Vec<Asker>> {
        (thread..connections).step_by(threads).map(|at| Asker::open(port + (at / threads % usize::from(fronts)) as u16)).collect()
    };
    let opened: Vec<Vec<Asker>> = (0..threads).map(open).collect::<io::Result<_>>()?;
    let length = Duration::from_millis(number("milliseconds", 1_000)?);
    let begin = Instant::now();
    let (counted, end) = (begin + length / 5, begin + length);
    let parts: Vec<io::Result<Took>> = thread::scope(|scope| {
        let mix = &mix;
        let start = |(seed, all)| scope.spawn(move || run(all, mix, seed, rate, counted, end));
        let running: Vec<_> = (1..).zip(opened).map(start).collect();
        running.into_iter().map(|one| one.join().unwrap_or_else(|_| Err(ErrorKind::Other.into()))).collect()
    });
    let mut all = Took::default();
    for part in parts {
        let part = part?;
        all.gets.extend(part.gets);
        all.sets.extend(part.sets);
    }
    Ok(format!("{}\n{}\n", percentiles(all.gets), percentiles(all.sets)).into_bytes())
}
