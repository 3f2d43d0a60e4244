//! Asks a server of memcached's protocol for keys as a workload draws them, stores what was missed, and prints how many gets found their key.
//!
//! `hits PORT [WORD NUMBER ..]`: the words and what they are where they lack stand in `Workload::read`. The same words draw the same requests. Gets go in lines of 32
//! keys, each behind the sets of what the line before it missed.

use std::env;
use std::io::{BufRead, BufReader, Read, Write};
use std::net::TcpStream;

/// Mixes the bits of a number (splitmix64).
fn mixed(number: u64) -> u64 {
    let number = (number ^ number >> 30).wrapping_mul(0xBF58476D1CE4E5B9);
    let number = (number ^ number >> 27).wrapping_mul(0x94D049BB133111EB);
    number ^ number >> 31
}

struct Draws(u64);

impl Draws {
    fn number(&mut self) -> u64 {
        self.0 = self.0.wrapping_add(0x9E3779B97F4A7C15);
        mixed(self.0)
    }

    /// From 0 on, below 1.
    fn unit(&mut self) -> f64 {
        (self.number() >> 11) as f64 / (1u64 << 53) as f64
    }
}

/// Ranks from 1 on by Zipf's law, by rejection and inversion (Hörmann and Derflinger), so that no table is kept.
struct Zipf {
    ranks: f64,
    power: f64,
    low: f64,
    high: f64,
    surely: f64,
}

fn over_log(x: f64) -> f64 {
    if x.abs() > 1e-8 { x.ln_1p() / x } else { 1.0 - x * (0.5 - x / 3.0) }
}

fn over_exp(x: f64) -> f64 {
    if x.abs() > 1e-8 { x.exp_m1() / x } else { 1.0 + x * 0.5 * (1.0 + x / 3.0) }
}

impl Zipf {
    fn new(ranks: u64, power: f64) -> Zipf {
        let mut zipf = Zipf { ranks: ranks as f64, power, low: 0.0, high: 0.0, surely: 0.0 };
        zipf.low = zipf.integral(1.5) - 1.0;
        zipf.high = zipf.integral(zipf.ranks + 0.5);
        zipf.surely = 2.0 - zipf.inverse(zipf.integral(2.5) - zipf.weight(2.0));
        zipf
    }

    fn weight(&self, rank: f64) -> f64 {
        (-self.power * rank.ln()).exp()
    }

    fn integral(&self, x: f64) -> f64 {
        over_exp((1.0 - self.power) * x.ln()) * x.ln()
    }

    fn inverse(&self, x: f64) -> f64 {
        (over_log((x * (1.0 - self.power)).max(-1.0)) * x).exp()
    }

    fn draw(&self, draws: &mut Draws) -> u64 {
        loop {
            let at = self.high + draws.unit() * (self.low - self.high);
            let x = self.inverse(at);
            let rank = x.round().clamp(1.0, self.ranks);
            if rank - x <= self.surely || at >= self.integral(rank + 0.5) - self.weight(rank) {
                return rank as u64;
            }
        }
    }
}

struct Workload {
    port: u16,
    /// So many keys are asked for, in turn where `loops` is 1, else by Zipf's law with the power `alpha` in hundredths.
    keys: u64,
    alpha: u64,
    loops: u64,
    /// So many of 100 requests ask for a key that never comes again.
    scan: u64,
    /// Behind so many requests another key becomes the one that is asked for most; 0: never.
    drift: u64,
    /// The bytes of a value. With 0 their number is lognormal: the median 400, sigma 1.2, from 50 to 8,000.
    value: u64,
    /// So many keys are set first, then so many gets are not counted, then so many are.
    fill: u64,
    warm: u64,
    run: u64,
}

impl Workload {
    fn read() -> Workload {
        let mut words = env::args().skip(1);
        let port = words.next().and_then(|word| word.parse().ok()).expect("a port");
        let mut work = Workload {
            port,
            keys: 3_500_000,
            alpha: 99,
            loops: 0,
            scan: 0,
            drift: 0,
            value: 64,
            fill: 800_000,
            warm: 2_000_000,
            run: 2_000_000,
        };
        while let Some(word) = words.next() {
            let number = words.next().and_then(|word| word.parse().ok()).expect("a number");
            match word.as_str() {
                "keys" => work.keys = number,
                "alpha" => work.alpha = number,
                "loops" => work.loops = number,
                "scan" => work.scan = number,
                "drift" => work.drift = number,
                "value" => work.value = number,
                "fill" => work.fill = number,
                "warm" => work.warm = number,
                "run" => work.run = number,
                _ => panic!("no such word: {word}"),
            }
        }
        work
    }

    fn value_len(&self, id: u64) -> usize {
        if self.value > 0 {
            return self.value as usize;
        }
        let mut draws = Draws(mixed(id ^ 0x5151));
        let far = (-2.0 * draws.unit().max(1e-300).ln()).sqrt();
        let normal = far * (std::f64::consts::TAU * draws.unit()).cos();
        (400f64.ln() + 1.2 * normal).exp().clamp(50.0, 8000.0) as usize
    }
}

/// The keys of a workload, one after another.
struct Keys {
    zipf: Zipf,
    draws: Draws,
    asked: u64,
    fresh: u64,
}

impl Keys {
    fn next(&mut self, work: &Workload) -> u64 {
        self.asked += 1;
        if work.loops > 0 {
            return self.asked % work.keys;
        }
        if work.scan > 0 && self.draws.unit() * 100.0 < work.scan as f64 {
            self.fresh += 1;
            return self.fresh;
        }
        let rank = self.zipf.draw(&mut self.draws);
        if work.drift > 0 { (1 << 40) + self.asked / work.drift - rank } else { rank }
    }
}

fn key_of(id: u64) -> String {
    format!("{:016x}", mixed(id.wrapping_mul(0x9E3779B97F4A7C15).wrapping_add(77)))
}

struct Server {
    from: BufReader<TcpStream>,
    to: TcpStream,
    out: Vec<u8>,
}

impl Server {
    fn set(&mut self, id: u64, len: usize) {
        write!(self.out, "set {} 0 0 {len} noreply\r\n", key_of(id)).expect("memory");
        self.out.resize(self.out.len() + len, b'x');
        self.out.extend_from_slice(b"\r\n");
    }

    fn send(&mut self) {
        self.to.write_all(&self.out).expect("the server takes what is sent");
        self.out.clear();
    }

    fn line(&mut self) -> String {
        let mut line = String::new();
        self.from.read_line(&mut line).expect("a line");
        line.trim_end().to_string()
    }

    /// Which of these keys are there.
    fn get(&mut self, ids: &[u64]) -> Vec<bool> {
        self.out.extend_from_slice(b"get");
        for id in ids {
            write!(self.out, " {}", key_of(*id)).expect("memory");
        }
        self.out.extend_from_slice(b"\r\n");
        self.send();
        let mut found = vec![false; ids.len()];
        let mut at = 0;
        loop {
            let line = self.line();
            let Some(rest) = line.strip_prefix("VALUE ") else {
                assert_eq!(line, "END");
                return found;
            };
            let (key, len) = (&rest[..16], rest.rsplit(' ').next().expect("a length"));
            let mut value = vec![0; len.parse::<usize>().expect("a length") + 2];
            self.from.read_exact(&mut value).expect("a value");
            while key_of(ids[at]) != key {
                at += 1;
            }
            found[at] = true;
            at += 1;
        }
    }
}

fn main() {
    let work = Workload::read();
    let to = TcpStream::connect(("127.0.0.1", work.port)).expect("a server");
    to.set_nodelay(true).expect("a socket");
    let from = BufReader::new(to.try_clone().expect("a socket"));
    let mut server = Server { from, to, out: Vec::new() };
    let mut fills = Draws(7);
    for number in 0..work.fill.min(work.keys) {
        let id = if work.loops > 0 { number } else { 1 + fills.number() % work.keys };
        let id = if work.drift > 0 { (1 << 40) - id } else { id };
        server.set(id, work.value_len(id));
        if number % 256 == 255 {
            server.out.extend_from_slice(b"mn\r\n");
            server.send();
            assert_eq!(server.line(), "MN");
        }
    }
    let mut keys = Keys {
        zipf: Zipf::new(work.keys, work.alpha as f64 / 100.0),
        draws: Draws(1),
        asked: 0,
        fresh: 1 << 50,
    };
    let (mut hits, mut gets) = (0u64, 0u64);
    for batch in 0..(work.warm + work.run) / 32 {
        let mut ids: Vec<u64> = Vec::new();
        let mut again = 0;
        for _ in 0..32 {
            let id = keys.next(&work);
            if ids.contains(&id) { again += 1 } else { ids.push(id) }
        }
        let found = server.get(&ids);
        for (id, there) in ids.iter().zip(&found) {
            if !there {
                server.set(*id, work.value_len(*id));
            }
        }
        if batch * 32 >= work.warm {
            gets += 32;
            hits += again + found.iter().filter(|there| **there).count() as u64;
        }
    }
    println!("{:.2} of 100 gets: {hits} of {gets}", 100.0 * hits as f64 / gets as f64);
}
