//! FNV-1a, and what a key's hash chooses.

pub fn key_hash(key: &[u8]) -> u64 {
    key.iter().fold(0xcbf2_9ce4_8422_2325, |hash, &byte| {
        (hash ^ u64::from(byte)).wrapping_mul(0x100_0000_01b3)
    })
}

pub fn partition_of(hash: u64, partitions: usize) -> usize {
    (hash >> 48) as usize % partitions
}

pub fn bucket_of(hash: u64, buckets: usize) -> usize {
    hash as usize & (buckets - 1)
}

pub fn tag_of(hash: u64) -> u64 {
    match hash >> 32 & 0xffff {
        0 => 1,
        tag => tag,
    }
}

/// The words of an item: header, hash, key and value.
pub fn item_size(key: &[u8], value: &[u8]) -> usize {
    2 + key.len().div_ceil(8) + value.len().div_ceil(8)
}
