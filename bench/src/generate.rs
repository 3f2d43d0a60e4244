//! Traces drawn from a seed, by the rules of `mica gen`.

use crate::number_of;
use std::collections::HashMap;

const MULTIPLIER: u64 = 6_364_136_223_846_793_005;
const INCREMENT: u64 = 109;

pub struct Pcg(u64);

impl Pcg {
    pub fn new(seed: u64) -> Pcg {
        Pcg(seed.wrapping_add(INCREMENT).wrapping_mul(MULTIPLIER).wrapping_add(INCREMENT))
    }

    pub fn next(&mut self) -> u64 {
        let state = self.0;
        self.0 = state.wrapping_mul(MULTIPLIER).wrapping_add(INCREMENT);
        let word = (((state >> 18) ^ state) >> 27) as u32;
        u64::from(word.rotate_right((state >> 59) as u32))
    }
}

pub fn trace_of(options: &HashMap<&str, &str>) -> Result<Vec<u8>, String> {
    let number = |name, default| number_of(options, name, default);
    let (ops, keys) = (number("ops", 20_000)?, number("keys", 1_000)?);
    let key_len = number("key-len", 16)? as usize;
    let value_len = number("value-len", 64)? as usize;
    let (gets, dels, hot) = (number("gets", 95)?, number("dels", 0)?, number("hot", 0)?);
    let every = number("every", 1_000)?;
    let mut words = Pcg::new(number("seed", 1)?);
    let mut out = Vec::new();
    for at in 0..ops {
        let (kind, warm, key) = (words.next() % 100, words.next() % 100, words.next());
        let key = if warm < hot { key % (keys / 100).max(1) } else { key % keys };
        let key = format!("k{key:0width$}", width = key_len - 1);
        let line = if kind < gets {
            format!("get {key}\n")
        } else if kind < gets + dels {
            format!("del {key}\n")
        } else {
            format!("put {key} {at:0value_len$}\n")
        };
        out.extend_from_slice(line.as_bytes());
        if (at + 1) % every == 0 && at + 1 < ops {
            out.extend_from_slice(b"sync\n");
        }
    }
    Ok(out)
}
