//! A partition in cache mode: a circular log of words under an index of buckets with fifteen entries.

use crate::hash::{bucket_of, item_size, tag_of};
use crate::machine::{Machine, Options, Outcome};

const SLOTS: usize = 15;
const OFFSET: u64 = (1 << 48) - 1;

pub struct Cache {
    options: Options,
    index: Vec<[u64; SLOTS]>,
    log: Vec<u64>,
    stamp: u64,
    accepted: u64,
}

fn word_of(bytes: &[u8]) -> u64 {
    let mut word = [0; 8];
    word[..bytes.len()].copy_from_slice(bytes);
    u64::from_le_bytes(word)
}

impl Cache {
    pub fn new(options: &Options) -> Cache {
        Cache {
            options: *options,
            index: vec![[0; SLOTS]; options.buckets],
            log: vec![0; options.words],
            stamp: 0,
            accepted: 0,
        }
    }

    fn tail(&self) -> u64 {
        self.stamp >> 16
    }

    fn is_live(&self, offset: u64) -> bool {
        self.tail() <= offset + self.options.words as u64
    }

    fn at(&self, offset: u64) -> usize {
        (offset % self.options.words as u64) as usize
    }

    /// The words from an offset on, in order.
    fn words(&self, offset: u64, count: usize) -> impl Iterator<Item = u64> {
        let at = self.at(offset);
        let first = count.min(self.log.len() - at);
        self.log[at..at + first].iter().chain(&self.log[..count - first]).copied()
    }

    fn word(&self, offset: u64) -> u64 {
        self.log[self.at(offset)]
    }

    fn has_key(&self, offset: u64, hash: u64, key: &[u8]) -> bool {
        (self.word(offset) >> 16) as usize & 0xffff == key.len()
            && self.word(offset + 1) == hash
            && self.words(offset + 2, key.len().div_ceil(8)).eq(key.chunks(8).map(word_of))
    }

    fn find(&self, hash: u64, key: &[u8]) -> Option<usize> {
        let tag = tag_of(hash);
        let bucket = &self.index[bucket_of(hash, self.options.buckets)];
        bucket.iter().position(|&entry| {
            entry >> 48 == tag && self.is_live(entry & OFFSET) && self.has_key(entry & OFFSET, hash, key)
        })
    }

    fn write(&mut self, offset: u64, words: impl Iterator<Item = u64>) {
        let mut at = self.at(offset);
        for word in words {
            self.log[at] = word;
            at += 1;
            if at == self.log.len() {
                at = 0;
            }
        }
    }

    fn slot_for(&self, bucket: usize) -> usize {
        let entries = &self.index[bucket];
        entries
            .iter()
            .position(|&entry| entry == 0)
            .or_else(|| entries.iter().position(|&entry| !self.is_live(entry & OFFSET)))
            .unwrap_or_else(|| (0..SLOTS).min_by_key(|&slot| entries[slot] & OFFSET).unwrap_or(0))
    }
}

fn header_of(room: usize, key: &[u8], value: &[u8]) -> u64 {
    room as u64 | (key.len() as u64) << 16 | (value.len() as u64) << 32
}

impl Machine for Cache {
    fn put(&mut self, hash: u64, key: &[u8], value: &[u8]) -> Outcome {
        if self.accepted == self.options.wear {
            return Outcome::Worn;
        }
        self.accepted += 1;
        let size = item_size(key, value);
        let bucket = bucket_of(hash, self.options.buckets);
        let old = self.find(hash, key);
        if let Some(slot) = old {
            let offset = self.index[bucket][slot] & OFFSET;
            let room = self.word(offset) as usize & 0xffff;
            if size <= room && (self.stamp + 1) >> 16 <= offset + self.options.words as u64 {
                self.stamp += 1;
                self.write(offset, std::iter::once(header_of(room, key, value)));
                self.write(offset + 2 + key.len().div_ceil(8) as u64, value.chunks(8).map(word_of));
                return Outcome::Stored;
            }
        }
        let tail = self.tail();
        self.stamp += 65_536 * size as u64;
        let item = [header_of(size, key, value), hash].into_iter();
        self.write(tail, item.chain(key.chunks(8).map(word_of)).chain(value.chunks(8).map(word_of)));
        let slot = old.unwrap_or_else(|| self.slot_for(bucket));
        self.index[bucket][slot] = tag_of(hash) << 48 | tail;
        Outcome::Stored
    }

    fn del(&mut self, hash: u64, key: &[u8]) -> Outcome {
        if self.accepted == self.options.wear {
            return Outcome::Worn;
        }
        self.accepted += 1;
        let old = self.find(hash, key);
        self.stamp += 1;
        match old {
            Some(slot) => {
                self.index[bucket_of(hash, self.options.buckets)][slot] = 0;
                Outcome::Deleted
            }
            None => Outcome::Absent,
        }
    }

    fn get(&self, hash: u64, key: &[u8], out: &mut Vec<u8>) -> bool {
        let Some(slot) = self.find(hash, key) else {
            return false;
        };
        let offset = self.index[bucket_of(hash, self.options.buckets)][slot] & OFFSET;
        let len = (self.word(offset) >> 32) as usize;
        let end = out.len() + len;
        let words = self.words(offset + 2 + key.len().div_ceil(8) as u64, len.div_ceil(8));
        out.extend(words.flat_map(u64::to_le_bytes));
        out.truncate(end);
        true
    }

    fn stamp(&self) -> u64 {
        self.stamp
    }
}
