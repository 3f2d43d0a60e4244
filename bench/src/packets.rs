//! Datagrams: batches of requests and replies to them, as the servers here read them in both versions, of gets, puts and deletes.

use crate::machine::Outcome;

/// The most bytes of a datagram of any version.
pub const LONGEST: usize = 9_000;
/// The most bytes of a value.
pub const LONGEST_VALUE: usize = 8_192;
const HEADER: usize = 10;

pub enum Request<'a> {
    Get { key: &'a [u8] },
    Put { key: &'a [u8], value: &'a [u8] },
    Del { key: &'a [u8] },
}

impl Request<'_> {
    pub fn key(&self) -> &[u8] {
        let (Request::Get { key } | Request::Put { key, .. } | Request::Del { key }) = self;
        key
    }
}

fn number_at(bytes: &[u8], at: usize) -> Option<u32> {
    Some(u32::from_le_bytes(bytes.get(at..at + 4)?.try_into().ok()?))
}

/// The most bytes of a datagram and of a value.
fn limits(version: u8) -> (usize, usize) {
    if version == 1 { (1_472, 1_024) } else { (LONGEST, LONGEST_VALUE) }
}

/// The version and the number of a batch.
pub struct Head {
    pub version: u8,
    pub number: u32,
}

/// What a batch begins with, and its requests with their tickets.
pub fn read_batch(bytes: &[u8]) -> Option<(Head, Vec<(u32, Request<'_>)>)> {
    let (version, count) = (*bytes.get(4)?, *bytes.get(5)?);
    let (most, longest) = limits(version);
    if bytes.len() > most || &bytes[..4] != b"MICA" || !matches!(version, 1 | 2) || count == 0 {
        return None;
    }
    let number = number_at(bytes, 6)?;
    let mut rest = &bytes[HEADER..];
    let mut requests = Vec::with_capacity(count as usize);
    for _ in 0..count {
        let key_len = *rest.get(1)? as usize;
        let value_len = u16::from_le_bytes([*rest.get(2)?, *rest.get(3)?]) as usize;
        let ticket = number_at(rest, 4)?;
        let (key, value) = rest.get(8..8 + key_len + value_len)?.split_at(key_len);
        let request = match rest[0] {
            0 if value_len == 0 => Request::Get { key },
            1 if value_len <= longest => Request::Put { key, value },
            2 if value_len == 0 => Request::Del { key },
            _ => return None,
        };
        if key_len == 0 {
            return None;
        }
        requests.push((ticket, request));
        rest = &rest[8 + key_len + value_len..];
    }
    rest.is_empty().then_some((Head { version, number }, requests))
}

/// Replies in datagrams, each filled before the next one begins.
#[derive(Default)]
pub struct Replies {
    pub datagrams: Vec<Vec<u8>>,
}

impl Replies {
    pub fn push(&mut self, head: &Head, status: u8, ticket: u32, stamp: u64, value: &[u8]) {
        let (most, longest) = limits(head.version);
        let (status, value) = if value.len() > longest { (10, b"".as_slice()) } else { (status, value) };
        let has_room = |datagram: &Vec<u8>| datagram.len() + 16 + value.len() <= most && datagram[5] < 255;
        if !self.datagrams.last().is_some_and(has_room) {
            let mut datagram = Vec::with_capacity(most);
            datagram.extend_from_slice(b"MICR");
            datagram.extend_from_slice(&[head.version, 0]);
            datagram.extend_from_slice(&head.number.to_le_bytes());
            self.datagrams.push(datagram);
        }
        let Some(datagram) = self.datagrams.last_mut() else {
            return;
        };
        datagram[5] += 1;
        datagram.extend_from_slice(&[status, 0]);
        datagram.extend_from_slice(&(value.len() as u16).to_le_bytes());
        datagram.extend_from_slice(&ticket.to_le_bytes());
        datagram.extend_from_slice(&stamp.to_le_bytes());
        datagram.extend_from_slice(value);
    }
}

pub fn status_of(outcome: Outcome) -> u8 {
    match outcome {
        Outcome::Stored => 2,
        Outcome::Deleted => 3,
        Outcome::Absent => 4,
        Outcome::FullSpare => 5,
        Outcome::FullBlock => 6,
        Outcome::Worn => 7,
    }
}

/// A batch of requests, each an operation, a key and a value.
pub fn batch_of(version: u8, number: u32, requests: &[(u8, &[u8], &[u8])]) -> Vec<u8> {
    let mut bytes = Vec::with_capacity(limits(version).0);
    bytes.extend_from_slice(b"MICA");
    bytes.extend_from_slice(&[version, requests.len() as u8]);
    bytes.extend_from_slice(&number.to_le_bytes());
    for (ticket, (op, key, value)) in requests.iter().enumerate() {
        bytes.extend_from_slice(&[*op, key.len() as u8]);
        bytes.extend_from_slice(&(value.len() as u16).to_le_bytes());
        bytes.extend_from_slice(&(ticket as u32).to_le_bytes());
        bytes.extend_from_slice(key);
        bytes.extend_from_slice(value);
    }
    bytes
}
