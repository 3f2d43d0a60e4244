//! What both machines answer, and the options of one partition.

#[derive(Clone, Copy, PartialEq, Eq)]
pub enum Outcome {
    Stored,
    Deleted,
    Absent,
    FullSpare,
    FullBlock,
    Worn,
}

impl Outcome {
    pub fn text(self) -> &'static [u8] {
        match self {
            Outcome::Stored => b"stored",
            Outcome::Deleted => b"deleted",
            Outcome::Absent => b"absent",
            Outcome::FullSpare => b"full spare",
            Outcome::FullBlock => b"full block",
            Outcome::Worn => b"worn",
        }
    }
}

#[derive(Clone, Copy, PartialEq, Eq)]
pub enum Mode {
    Cache,
    Store,
}

#[derive(Clone, Copy)]
pub struct Options {
    pub mode: Mode,
    pub partitions: usize,
    pub buckets: usize,
    pub spares: usize,
    pub words: usize,
    pub readers: usize,
    pub wear: u64,
    /// How often an end of a queue that waits lets other threads run before it sleeps.
    pub yields: u32,
}

pub trait Machine {
    fn put(&mut self, hash: u64, key: &[u8], value: &[u8]) -> Outcome;
    fn del(&mut self, hash: u64, key: &[u8]) -> Outcome;
    /// Puts the value behind `out`, where there is one.
    fn get(&self, hash: u64, key: &[u8], out: &mut Vec<u8>) -> bool;
    fn stamp(&self) -> u64;
}
