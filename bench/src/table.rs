//! A partition's words as atomics: one owner writes, any thread reads by the epochs of buckets.

use crate::hash::{bucket_of, item_size, tag_of};
use crate::machine::{Mode, Options, Outcome};
use crate::packets::LONGEST_VALUE;
use std::sync::atomic::{AtomicU64, Ordering::SeqCst};

const SLOTS: usize = 15;
const OFFSET: u64 = (1 << 48) - 1;

pub struct Table {
    mode: Mode,
    buckets: usize,
    words: u64,
    items: usize,
    table: Vec<AtomicU64>,
}

/// Bytes as words, of which the last one is filled up by zeros.
fn words_of(bytes: &[u8]) -> impl Iterator<Item = u64> {
    let (whole, rest) = bytes.as_chunks();
    let last = (!rest.is_empty()).then(|| rest.iter().rev().fold(0, |word, &byte| word << 8 | u64::from(byte)));
    whole.iter().map(|bytes| u64::from_le_bytes(*bytes)).chain(last)
}

impl Table {
    pub fn new(options: &Options) -> Table {
        let spares = if options.mode == Mode::Store { options.spares } else { 0 };
        let items = 1 + 17 * options.buckets + 16 * spares;
        Table {
            mode: options.mode,
            buckets: options.buckets,
            words: options.words as u64,
            items,
            table: (0..items + options.words).map(|_| AtomicU64::new(0)).collect(),
        }
    }

    /// How many words it has.
    pub fn size(&self) -> usize {
        self.table.len()
    }

    fn load(&self, at: usize) -> u64 {
        self.table[at].load(SeqCst)
    }

    fn store(&self, at: usize, value: u64) {
        self.table[at].store(value, SeqCst);
    }

    fn epoch_at(&self, bucket: usize) -> usize {
        1 + 17 * bucket
    }

    fn entry_at(&self, bucket: usize, slot: usize) -> usize {
        match bucket.checked_sub(self.buckets) {
            None => 2 + 17 * bucket + slot,
            Some(spare) => 1 + 17 * self.buckets + 16 * spare + slot,
        }
    }

    fn link_at(&self, bucket: usize) -> usize {
        self.entry_at(bucket, SLOTS)
    }

    /// The place of an offset among the words of items.
    fn place_of(&self, offset: u64) -> usize {
        if offset < self.words { offset as usize } else { (offset % self.words) as usize }
    }

    /// So many words from an offset on, in two parts: a log goes on at its begin.
    fn parts(&self, offset: u64, count: usize) -> [&[AtomicU64]; 2] {
        let (begin, from) = self.table[self.items..].split_at(self.place_of(offset));
        let first = count.min(from.len());
        [&from[..first], &begin[..(count - first).min(begin.len())]]
    }

    fn item_words(&self, offset: u64, count: usize) -> impl Iterator<Item = &AtomicU64> {
        let [first, second] = self.parts(offset, count);
        first.iter().chain(second)
    }

    fn item_word(&self, offset: u64) -> u64 {
        self.load(self.items + self.place_of(offset))
    }

    /// The entries of a bucket.
    fn entries(&self, bucket: usize) -> impl Iterator<Item = u64> {
        let at = self.entry_at(bucket, 0);
        self.table[at..at + SLOTS].iter().map(|entry| entry.load(SeqCst))
    }

    pub fn stamp(&self) -> u64 {
        self.load(0)
    }

    fn is_live(&self, offset: u64, stamp: u64) -> bool {
        self.mode == Mode::Store || stamp >> 16 <= offset + self.words
    }

    /// A word that a get of the hash will look at: of its bucket, so that misses of several gets lie beside each other.
    pub fn bucket_ahead(&self, hash: u64) -> u64 {
        let main = bucket_of(hash, self.buckets);
        self.load(self.epoch_at(main)) ^ self.load(self.entry_at(main, 7)) ^ self.load(self.entry_at(main, 14))
    }

    /// The same of the first item whose entry has the tag of the hash.
    pub fn item_ahead(&self, hash: u64) -> u64 {
        let (main, tag) = (bucket_of(hash, self.buckets), tag_of(hash));
        match self.entries(main).find(|entry| entry >> 48 == tag) {
            Some(entry) => self.item_word(entry & OFFSET) ^ self.item_word((entry & OFFSET) + 8),
            None => 0,
        }
    }

    /// The length of the value, where the item at the offset has this key.
    fn value_len(&self, offset: u64, hash: u64, key: &[u8]) -> Option<usize> {
        if self.mode == Mode::Store && offset >= self.words {
            return None;
        }
        let mut words = self.item_words(offset, 2 + key.len().div_ceil(8)).map(|word| word.load(SeqCst));
        let header = words.next()?;
        let len = (header >> 32) as usize;
        let is_key = (header >> 16) as usize & 0xffff == key.len() && len <= LONGEST_VALUE && words.next() == Some(hash) && words.eq(words_of(key));
        is_key.then_some(len)
    }

    /// Puts the value behind `out`.
    fn put_value(&self, offset: u64, len: usize, out: &mut Vec<u8>) {
        let end = out.len() + len;
        for part in self.parts(offset, len.div_ceil(8)) {
            let begin = out.len();
            out.resize(begin + 8 * part.len(), 0);
            for (bytes, word) in out[begin..].as_chunks_mut().0.iter_mut().zip(part) {
                *bytes = word.load(SeqCst).to_le_bytes();
            }
        }
        out.truncate(end);
    }

    /// One try: the stamp and whether the value was put behind `out`, or `None` where a write came between.
    fn try_get(&self, hash: u64, key: &[u8], out: &mut Vec<u8>) -> Option<(u64, bool)> {
        let main = bucket_of(hash, self.buckets);
        let first = self.load(self.epoch_at(main));
        if first % 2 == 1 {
            return None;
        }
        let (tag, begin) = (tag_of(hash), out.len());
        let mut best: Option<u64> = None;
        let mut bucket = main;
        for _ in 0..=(self.items - 1 - 17 * self.buckets) / 16 {
            for entry in self.entries(bucket) {
                let offset = entry & OFFSET;
                if entry >> 48 == tag
                    && best.is_none_or(|best| best < offset)
                    && let Some(len) = self.value_len(offset, hash, key)
                {
                    out.truncate(begin);
                    self.put_value(offset + 2 + key.len().div_ceil(8) as u64, len, out);
                    best = Some(offset);
                }
            }
            bucket = if self.mode == Mode::Store { self.load(self.link_at(bucket)) as usize } else { 0 };
            if bucket == 0 {
                break;
            }
        }
        let stamp = self.stamp();
        (self.load(self.epoch_at(main)) == first)
            .then(|| (stamp, best.is_some_and(|offset| self.is_live(offset, stamp))))
    }

    pub fn get(&self, hash: u64, key: &[u8], out: &mut Vec<u8>) -> (u64, bool) {
        let begin = out.len();
        for failed in 0.. {
            if let Some((stamp, is_hit)) = self.try_get(hash, key, out) {
                if !is_hit {
                    out.truncate(begin);
                }
                return (stamp, is_hit);
            }
            out.truncate(begin);
            if failed % 100 == 99 {
                std::thread::yield_now();
            } else {
                std::hint::spin_loop();
            }
        }
        unreachable!("the loop has no end")
    }
}

/// The owner of a table, with what it alone keeps: the free spares and the free blocks.
pub struct Owner<'a> {
    table: &'a Table,
    options: Options,
    accepted: u64,
    spares: Vec<usize>,
    blocks: Blocks,
}

/// The free blocks of a heap, first fit.
struct Blocks(Vec<(usize, usize)>);

impl Blocks {
    fn take(&mut self, need: usize) -> Option<usize> {
        let at = self.0.iter().position(|&(_, size)| size >= need)?;
        let (place, size) = self.0[at];
        if size == need {
            self.0.remove(at);
        } else {
            self.0[at] = (place + need, size - need);
        }
        Some(place)
    }

    fn give(&mut self, place: usize, size: usize) {
        let at = self.0.partition_point(|&(other, _)| other < place);
        self.0.insert(at, (place, size));
        if at + 1 < self.0.len() && place + size == self.0[at + 1].0 {
            self.0[at].1 += self.0.remove(at + 1).1;
        }
        if at > 0 && self.0[at - 1].0 + self.0[at - 1].1 == place {
            self.0[at - 1].1 += self.0.remove(at).1;
        }
    }
}

impl<'a> Owner<'a> {
    pub fn new(table: &'a Table, options: &Options) -> Owner<'a> {
        let spares = if options.mode == Mode::Store { options.spares } else { 0 };
        Owner {
            table,
            options: *options,
            accepted: 0,
            spares: (options.buckets..options.buckets + spares).rev().collect(),
            blocks: Blocks(vec![(0, options.words)]),
        }
    }

    pub fn stamp(&self) -> u64 {
        self.table.stamp()
    }

    /// The key's place in the chain of its bucket, with the offset of its item.
    fn find(&self, hash: u64, key: &[u8]) -> Option<(usize, u64)> {
        let (tag, stamp) = (tag_of(hash), self.table.stamp());
        let mut bucket = bucket_of(hash, self.options.buckets);
        loop {
            for (slot, entry) in self.table.entries(bucket).enumerate() {
                let offset = entry & OFFSET;
                if entry >> 48 == tag
                    && self.table.is_live(offset, stamp)
                    && self.table.value_len(offset, hash, key).is_some()
                {
                    return Some((self.table.entry_at(bucket, slot), offset));
                }
            }
            if self.options.mode == Mode::Cache {
                return None;
            }
            match self.table.load(self.table.link_at(bucket)) {
                0 => return None,
                next => bucket = next as usize,
            }
        }
    }

    /// The chain's buckets, and how many entries its last one has.
    fn chain(&self, bucket: usize) -> (Vec<usize>, usize) {
        let mut chain = vec![bucket];
        let mut last = bucket;
        loop {
            match self.table.load(self.table.link_at(last)) {
                0 => break,
                next => last = next as usize,
            }
            chain.push(last);
        }
        let used = (0..SLOTS).take_while(|&slot| self.table.load(self.table.entry_at(last, slot)) != 0).count();
        (chain, used)
    }

    fn write_item(&self, offset: u64, room: usize, hash: u64, key: &[u8], value: &[u8]) {
        let header = room as u64 | (key.len() as u64) << 16 | (value.len() as u64) << 32;
        let item = [header, hash].into_iter().chain(words_of(key)).chain(words_of(value));
        for (place, word) in self.table.item_words(offset, item_size(key, value)).zip(item) {
            place.store(word, SeqCst);
        }
    }

    fn room_of(&self, offset: u64) -> usize {
        self.table.item_word(offset) as usize & 0xffff
    }

    /// A write: begin, mark, the stores of `change`, end.
    fn write(&mut self, bucket: usize, stamp: u64, change: impl FnOnce(&mut Self)) {
        let epoch = &self.table.table[self.table.epoch_at(bucket)];
        epoch.fetch_add(1, SeqCst);
        self.table.store(0, stamp);
        change(self);
        self.table.table[self.table.epoch_at(bucket)].fetch_add(1, SeqCst);
        self.accepted += 1;
    }

    pub fn put(&mut self, hash: u64, key: &[u8], value: &[u8]) -> Outcome {
        if self.accepted == self.options.wear {
            return Outcome::Worn;
        }
        match self.options.mode {
            Mode::Cache => self.put_cached(hash, key, value),
            Mode::Store => self.put_stored(hash, key, value),
        }
    }

    fn put_cached(&mut self, hash: u64, key: &[u8], value: &[u8]) -> Outcome {
        let (size, stamp) = (item_size(key, value), self.stamp());
        let bucket = bucket_of(hash, self.options.buckets);
        let old = self.find(hash, key);
        if let Some((_, offset)) = old {
            let room = self.room_of(offset);
            if size <= room && (stamp + 1) >> 16 <= offset + self.options.words as u64 {
                self.write(bucket, stamp + 1, |owner| owner.write_item(offset, room, hash, key, value));
                return Outcome::Stored;
            }
        }
        let tail = stamp >> 16;
        self.write(bucket, stamp + 65_536 * size as u64, |owner| {
            owner.write_item(tail, size, hash, key, value);
            let at = old.map_or_else(|| owner.slot_for(bucket), |(at, _)| at);
            owner.table.store(at, tag_of(hash) << 48 | tail);
        });
        Outcome::Stored
    }

    fn slot_for(&self, bucket: usize) -> usize {
        let stamp = self.stamp();
        let entry = |slot| self.table.load(self.table.entry_at(bucket, slot));
        let slot = (0..SLOTS)
            .find(|&slot| entry(slot) == 0)
            .or_else(|| (0..SLOTS).find(|&slot| !self.table.is_live(entry(slot) & OFFSET, stamp)))
            .unwrap_or_else(|| (0..SLOTS).min_by_key(|&slot| entry(slot) & OFFSET).unwrap_or(0));
        self.table.entry_at(bucket, slot)
    }

    fn put_stored(&mut self, hash: u64, key: &[u8], value: &[u8]) -> Outcome {
        let (size, stamp) = (item_size(key, value), self.stamp());
        let bucket = bucket_of(hash, self.options.buckets);
        let old = self.find(hash, key).map(|(at, offset)| (at, offset, self.room_of(offset)));
        if let Some((_, offset, room)) = old
            && size <= room
        {
            self.write(bucket, stamp + 1, |owner| owner.write_item(offset, room, hash, key, value));
            return Outcome::Stored;
        }
        let (chain, used) = self.chain(bucket);
        if old.is_none() && used == SLOTS && self.spares.is_empty() {
            return Outcome::FullSpare;
        }
        let Some(place) = self.blocks.take(size) else {
            return Outcome::FullBlock;
        };
        self.write(bucket, stamp + 1, |owner| {
            owner.write_item(place as u64, size, hash, key, value);
            let entry = tag_of(hash) << 48 | place as u64;
            match old {
                Some((at, _, _)) => owner.table.store(at, entry),
                None => owner.add_entry(&chain, used, entry),
            }
        });
        if let Some((_, offset, room)) = old {
            self.blocks.give(offset as usize, room);
        }
        Outcome::Stored
    }

    fn add_entry(&mut self, chain: &[usize], used: usize, entry: u64) {
        let last = chain[chain.len() - 1];
        match self.spares.pop_if(|_| used == SLOTS) {
            Some(spare) => {
                self.table.store(self.table.entry_at(spare, 0), entry);
                self.table.store(self.table.link_at(last), spare as u64);
            }
            None => self.table.store(self.table.entry_at(last, used), entry),
        }
    }

    pub fn del(&mut self, hash: u64, key: &[u8]) -> Outcome {
        if self.accepted == self.options.wear {
            return Outcome::Worn;
        }
        let stamp = self.stamp() + 1;
        let bucket = bucket_of(hash, self.options.buckets);
        let Some((at, offset)) = self.find(hash, key) else {
            self.write(bucket, stamp, |_| ());
            return Outcome::Absent;
        };
        let room = self.room_of(offset);
        self.write(bucket, stamp, |owner| match owner.options.mode {
            Mode::Cache => owner.table.store(at, 0),
            Mode::Store => owner.remove_entry(bucket, at),
        });
        if self.options.mode == Mode::Store {
            self.blocks.give(offset as usize, room);
        }
        Outcome::Deleted
    }

    fn remove_entry(&mut self, bucket: usize, at: usize) {
        let (chain, used) = self.chain(bucket);
        let last = chain[chain.len() - 1];
        let end = self.table.entry_at(last, used - 1);
        self.table.store(at, self.table.load(end));
        self.table.store(end, 0);
        if used == 1 && chain.len() > 1 {
            self.table.store(self.table.link_at(chain[chain.len() - 2]), 0);
            self.spares.push(last);
        }
    }
}
