//! Parses pipelined commands of memcached's text protocol by the proved grammar, and by plain Rust of the same rules beside it: by lines, and with a quick way
//! for what most clients send.
//! Prints nanoseconds a command, the least of the turns.
use std::hint::black_box;
use std::time::Instant;

mod plain;
mod quick;

unsafe extern "C" {
    fn text_walk(bytes: *const u8, len: usize) -> u64;
}

fn proved_walk(bytes: &[u8]) -> u64 {
    unsafe { text_walk(bytes.as_ptr(), bytes.len()) }
}

/// The bytes of keys and values in a command.
fn weight(command: &plain::Command) -> u64 {
    match command {
        plain::Command::Get { keys, .. } => keys.clone().map(|key| key.len() as u64).sum(),
        plain::Command::Store { key, value, .. } => (key.len() + value.len()) as u64,
        _ => 1,
    }
}

/// The sum of what is found, by one reading of the next command.
#[inline(always)]
fn walk(bytes: &[u8], next: impl Fn(&[u8]) -> plain::Next<'_>) -> u64 {
    let mut rest = bytes;
    let mut sum = 0;
    while let plain::Next::Command { command, len } = next(rest) {
        sum += weight(&command);
        rest = &rest[len..];
    }
    sum
}

#[inline(never)]
fn plain_walk(bytes: &[u8]) -> u64 {
    walk(bytes, plain::next_command)
}

#[inline(never)]
fn quick_walk(bytes: &[u8]) -> u64 {
    walk(bytes, quick::next_command)
}

/// The least nanoseconds of a call, of many turns.
fn least(turns: u32, bytes: &[u8], walk: fn(&[u8]) -> u64) -> f64 {
    let mut best = f64::MAX;
    for _ in 0..turns {
        let start = Instant::now();
        for _ in 0..200 {
            black_box(walk(black_box(bytes)));
        }
        best = best.min(start.elapsed().as_nanos() as f64 / 200.0);
    }
    best
}

fn rows() -> Vec<(&'static str, usize, Vec<u8>)> {
    let key = |n: usize| format!("key:{n:012}");
    let gets = (0..32).map(|n| format!("get {}\r\n", key(n))).collect::<String>();
    let value = "v".repeat(64);
    let set = format!("set {} 5 0 64\r\n{value}\r\n", key(7));
    let sets = set.repeat(32);
    let many = format!("get {}\r\n", (0..32).map(key).collect::<Vec<_>>().join(" "));
    vec![
        ("get of one key", 1, format!("get {}\r\n", key(7)).into_bytes()),
        ("32 gets in one piece", 32, gets.into_bytes()),
        ("get of 32 keys", 1, many.into_bytes()),
        ("set of 64 bytes", 1, set.into_bytes()),
        ("32 sets of 64 bytes", 32, sets.into_bytes()),
        ("incr", 1, format!("incr {} 17\r\n", key(7)).into_bytes()),
        ("cas of 64 bytes", 1, format!("cas {} 5 100 64 123456789\r\n{value}\r\n", key(7)).into_bytes()),
    ]
}

fn main() {
    println!("| input | proved, ns a command | plain Rust | with a quick way | plain / proved | quick / proved |");
    println!("|---|---|---|---|---|---|");
    for (name, commands, bytes) in rows() {
        assert_eq!(proved_walk(&bytes), plain_walk(&bytes), "{name}");
        assert_eq!(proved_walk(&bytes), quick_walk(&bytes), "{name}");
        let proved = least(2_000, &bytes, proved_walk) / commands as f64;
        let plain = least(2_000, &bytes, plain_walk) / commands as f64;
        let quick = least(2_000, &bytes, quick_walk) / commands as f64;
        println!("| {name} | {proved:.1} | {plain:.1} | {quick:.1} | {:.2} | {:.2} |", plain / proved, quick / proved);
    }
}
