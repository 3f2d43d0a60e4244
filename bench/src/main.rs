//! Plain Rust of the same rules as `mica`, to measure beside it: `replay` answers each line at its place on one
//! thread, `rounds` and `queues` run owners and readers in threads over tables of atomic words, `kept` starts these threads
//! once, `values` does as `queues` over lines that own their bytes, `gen` prints a trace, `image` and `unpack` write and read an
//! image, `serve` answers datagrams on one thread, `fronts` at many ports with owners in threads, `locked` at many ports whose fronts own
//! partitions in turn by a lock, `load` sends them, `streams` serves memcached's protocol over connections, `connect` loads such a server,
//! and `latency` asks one at a rate.

mod cache;
mod commands;
mod connections;
mod epoll;
mod fronts;
mod generate;
mod hash;
mod image;
mod kept;
mod latency;
mod load;
mod locked;
mod machine;
mod packets;
mod queue;
mod rounds;
mod server;
mod streams;
mod store;
mod table;
mod trace;
mod values;

use cache::Cache;
use hash::{key_hash, partition_of};
use machine::{Machine, Mode, Options, Outcome};
use rounds::Feed;
use std::collections::HashMap;
use std::env;
use std::error::Error;
use std::io::{self, Read, Write};
use std::process::ExitCode;
use store::Store;
use trace::{Line, read_trace};

pub fn put_number(number: u64, out: &mut Vec<u8>) {
    let mut digits = [0; 20];
    let mut at = digits.len();
    let mut rest = number;
    loop {
        at -= 1;
        digits[at] = b'0' + (rest % 10) as u8;
        rest /= 10;
        if rest == 0 {
            break;
        }
    }
    out.extend_from_slice(&digits[at..]);
}

pub fn put_write(word: &[u8], outcome: Outcome, stamp: u64, out: &mut Vec<u8>) {
    out.extend_from_slice(word);
    put_number(stamp, out);
    out.push(b' ');
    out.extend_from_slice(outcome.text());
    out.push(b'\n');
}

pub fn put_get(stamp: u64, out: &mut Vec<u8>, get: impl FnOnce(&mut Vec<u8>) -> bool) {
    out.extend_from_slice(b"get ");
    put_number(stamp, out);
    let before = out.len();
    out.extend_from_slice(b" hit ");
    if !get(out) {
        out.truncate(before);
        out.extend_from_slice(b" miss");
    }
    out.push(b'\n');
}

fn replay<M: Machine>(machines: &mut [M], lines: &[Line<'_>]) -> Vec<u8> {
    let mut out = Vec::with_capacity(32 * lines.len());
    for line in lines {
        match *line {
            Line::Put { key, value } => {
                let hash = key_hash(key);
                let count = machines.len();
                let machine = &mut machines[partition_of(hash, count)];
                let outcome = machine.put(hash, key, value);
                put_write(b"put ", outcome, machine.stamp(), &mut out);
            }
            Line::Del { key } => {
                let hash = key_hash(key);
                let count = machines.len();
                let machine = &mut machines[partition_of(hash, count)];
                let outcome = machine.del(hash, key);
                put_write(b"del ", outcome, machine.stamp(), &mut out);
            }
            Line::Get { key } => {
                let hash = key_hash(key);
                let machine = &machines[partition_of(hash, machines.len())];
                put_get(machine.stamp(), &mut out, |out| machine.get(hash, key, out));
            }
            Line::Sync => out.extend_from_slice(b"sync\n"),
        }
    }
    out
}

fn read_options(words: &[String]) -> Result<HashMap<&str, &str>, String> {
    words
        .chunks(2)
        .map(|pair| match pair {
            [name, value] => match name.strip_prefix("--") {
                Some(name) => Ok((name, value.as_str())),
                None => Err(format!("no option: {name}")),
            },
            _ => Err("an option has no value".to_owned()),
        })
        .collect()
}

pub fn number_of(options: &HashMap<&str, &str>, name: &str, default: u64) -> Result<u64, String> {
    match options.get(name) {
        Some(text) => text.parse().map_err(|_| format!("--{name} wants a number")),
        None => Ok(default),
    }
}

fn options_of(options: &HashMap<&str, &str>) -> Result<Options, String> {
    let mode = match options.get("mode") {
        Some(&"cache") => Mode::Cache,
        Some(&"store") => Mode::Store,
        _ => return Err("--mode is cache or store".to_owned()),
    };
    let number = |name, default| number_of(options, name, default);
    Ok(Options {
        mode,
        partitions: number("partitions", 4)? as usize,
        buckets: number("buckets", 1_024)? as usize,
        spares: number("spares", 1_024)? as usize,
        words: number("words", 65_536)? as usize,
        readers: number("readers", 4)? as usize,
        wear: number("wear", 1 << 36)?,
        yields: number("yields", 0)? as u32,
    })
}

fn make<M>(options: &Options, machine: fn(&Options) -> M) -> Vec<M> {
    (0..options.partitions).map(|_| machine(options)).collect()
}

fn input() -> io::Result<Vec<u8>> {
    let mut text = Vec::new();
    io::stdin().lock().read_to_end(&mut text)?;
    Ok(text)
}

/// The report of the trace on standard input.
fn report(command: &str, options: &Options) -> Result<Vec<u8>, Box<dyn Error>> {
    let text = input()?;
    let lines = read_trace(&text).map_err(|fault| fault.to_string())?;
    Ok(match (command, options.mode) {
        ("rounds", _) => rounds::run(options, &lines, Feed::Lists),
        ("queues", _) => rounds::run(options, &lines, Feed::Queues),
        ("kept", _) => kept::run(options, &lines),
        ("values", _) => values::run(options, &lines),
        (_, Mode::Cache) => replay(&mut make(options, Cache::new), &lines),
        (_, Mode::Store) => replay(&mut make(options, Store::new), &lines),
    })
}

fn run(words: &[String]) -> Result<(), Box<dyn Error>> {
    const COMMANDS: &str = "replay, rounds, queues, kept, values, gen, image, unpack, serve, fronts, locked, streams, load, connect or latency";
    let (command, rest) = words.split_first().ok_or(COMMANDS)?;
    let words = read_options(rest)?;
    let out = match command.as_str() {
        "gen" => generate::trace_of(&words)?,
        "image" => {
            let text = input()?;
            let lines = read_trace(&text).map_err(|fault| fault.to_string())?;
            image::image_of(&mut make(&options_of(&words)?, Store::new), &lines)
        }
        "unpack" => image::unpacked(&input()?).ok_or("no image")?,
        "load" => load::load(&words)?,
        "connect" => connections::load(&words)?,
        "latency" => latency::latency(&words)?,
        "replay" | "rounds" | "queues" | "kept" | "values" => report(command, &options_of(&words)?)?,
        "fronts" => fronts::serve(&words, &options_of(&words)?)?,
        "streams" => streams::serve(&words, &options_of(&words)?)?,
        "locked" => locked::serve(&words, &options_of(&words)?)?,
        "serve" => {
            let options = options_of(&words)?;
            match options.mode {
                Mode::Cache => server::serve(&words, &mut make(&options, Cache::new))?,
                Mode::Store => server::serve(&words, &mut make(&options, Store::new))?,
            }
        }
        _ => return Err(COMMANDS.into()),
    };
    io::stdout().lock().write_all(&out)?;
    Ok(())
}

fn main() -> ExitCode {
    let words: Vec<String> = env::args().skip(1).collect();
    match run(&words) {
        Ok(()) => ExitCode::SUCCESS,
        Err(error) => {
            eprintln!("{error}");
            ExitCode::FAILURE
        }
    }
}
