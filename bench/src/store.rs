//! A partition in store mode: a map from keys to values and rooms, with counts.

use crate::hash::{bucket_of, item_size};
use crate::machine::{Machine, Options, Outcome};
use std::collections::HashMap;
use std::hash::{BuildHasherDefault, Hasher};

#[derive(Default)]
struct Fnv(u64);

impl Hasher for Fnv {
    fn finish(&self) -> u64 {
        self.0
    }

    fn write(&mut self, bytes: &[u8]) {
        for &byte in bytes {
            self.0 = (self.0 ^ u64::from(byte)).wrapping_mul(0x100_0000_01b3);
        }
    }

    fn write_usize(&mut self, _len: usize) {}
}

struct Cell {
    value: Vec<u8>,
    room: usize,
}

pub struct Store {
    options: Options,
    cells: HashMap<Box<[u8]>, Cell, BuildHasherDefault<Fnv>>,
    keys: Vec<usize>,
    spares_in_use: usize,
    rooms: usize,
    stamp: u64,
}

impl Store {
    pub fn new(options: &Options) -> Store {
        Store {
            options: *options,
            cells: HashMap::default(),
            keys: vec![0; options.buckets],
            spares_in_use: 0,
            rooms: 0,
            stamp: 0,
        }
    }

    fn is_chain_full(&self, bucket: usize) -> bool {
        self.keys[bucket] > 0 && self.keys[bucket].is_multiple_of(15)
    }

    pub fn pairs(&self) -> impl Iterator<Item = (&[u8], &[u8])> {
        self.cells.iter().map(|(key, cell)| (&**key, &*cell.value))
    }
}

impl Machine for Store {
    fn put(&mut self, hash: u64, key: &[u8], value: &[u8]) -> Outcome {
        if self.stamp == self.options.wear {
            return Outcome::Worn;
        }
        let size = item_size(key, value);
        let bucket = bucket_of(hash, self.options.buckets);
        if let Some(cell) = self.cells.get_mut(key) {
            if cell.room < size {
                if self.rooms + size > self.options.words {
                    return Outcome::FullBlock;
                }
                self.rooms = self.rooms - cell.room + size;
                cell.room = size;
            }
            cell.value.clear();
            cell.value.extend_from_slice(value);
        } else {
            let takes_spare = self.is_chain_full(bucket);
            if takes_spare && self.spares_in_use == self.options.spares {
                return Outcome::FullSpare;
            }
            if self.rooms + size > self.options.words {
                return Outcome::FullBlock;
            }
            let cell = Cell { value: value.to_vec(), room: size };
            self.cells.insert(key.into(), cell);
            self.keys[bucket] += 1;
            self.spares_in_use += usize::from(takes_spare);
            self.rooms += size;
        }
        self.stamp += 1;
        Outcome::Stored
    }

    fn del(&mut self, hash: u64, key: &[u8]) -> Outcome {
        if self.stamp == self.options.wear {
            return Outcome::Worn;
        }
        self.stamp += 1;
        let Some(cell) = self.cells.remove(key) else {
            return Outcome::Absent;
        };
        let bucket = bucket_of(hash, self.options.buckets);
        self.keys[bucket] -= 1;
        self.spares_in_use -= usize::from(self.is_chain_full(bucket));
        self.rooms -= cell.room;
        Outcome::Deleted
    }

    fn get(&self, _hash: u64, key: &[u8], out: &mut Vec<u8>) -> bool {
        match self.cells.get(key) {
            Some(cell) => {
                out.extend_from_slice(&cell.value);
                true
            }
            None => false,
        }
    }

    fn stamp(&self) -> u64 {
        self.stamp
    }
}
