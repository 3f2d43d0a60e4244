//! Images in plain Rust: the pairs that a trace leaves in store mode, sorted, as one text, and the same text as `put` lines.

use crate::hash::{key_hash, partition_of};
use crate::machine::Machine;
use crate::store::Store;
use crate::trace::{Line, is_key, is_value};

const MAGIC: &[u8] = b"MIMG\x01";
const HEADER_LEN: usize = 9;

fn run(machines: &mut [Store], lines: &[Line<'_>]) {
    let count = machines.len();
    for line in lines {
        match *line {
            Line::Put { key, value } => {
                let hash = key_hash(key);
                machines[partition_of(hash, count)].put(hash, key, value);
            }
            Line::Del { key } => {
                let hash = key_hash(key);
                machines[partition_of(hash, count)].del(hash, key);
            }
            Line::Get { .. } | Line::Sync => {}
        }
    }
}

pub fn image_of(machines: &mut [Store], lines: &[Line<'_>]) -> Vec<u8> {
    run(machines, lines);
    let mut pairs: Vec<(&[u8], &[u8])> = machines.iter().flat_map(Store::pairs).collect();
    pairs.sort_unstable();
    let bytes: usize = pairs.iter().map(|(key, value)| 3 + key.len() + value.len()).sum();
    let mut out = Vec::with_capacity(HEADER_LEN + bytes);
    out.extend_from_slice(MAGIC);
    out.extend_from_slice(&(pairs.len() as u32).to_le_bytes());
    for (key, value) in pairs {
        out.push(key.len() as u8);
        out.extend_from_slice(&(value.len() as u16).to_le_bytes());
        out.extend_from_slice(key);
        out.extend_from_slice(value);
    }
    out
}

/// The `put` lines of an image, or none where the bytes are no image.
pub fn unpacked(image: &[u8]) -> Option<Vec<u8>> {
    let (header, mut rest) = image.split_at_checked(HEADER_LEN)?;
    let count = u32::from_le_bytes(header.strip_prefix(MAGIC)?.try_into().ok()?);
    let mut out = Vec::with_capacity(2 * image.len());
    let mut last: &[u8] = b"";
    for _ in 0..count {
        let (lens, after) = rest.split_at_checked(3)?;
        let (key, after) = after.split_at_checked(usize::from(lens[0]))?;
        let (value, after) = after.split_at_checked(usize::from(u16::from_le_bytes([lens[1], lens[2]])))?;
        if key.is_empty() || key <= last || !is_key(key) || !is_value(value) {
            return None;
        }
        out.extend_from_slice(b"put ");
        out.extend_from_slice(key);
        out.push(b' ');
        out.extend_from_slice(value);
        out.push(b'\n');
        (last, rest) = (key, after);
    }
    rest.is_empty().then_some(out)
}
