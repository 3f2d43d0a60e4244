//! A server of many ports whose fronts take turns at owning a partition, by a lock.

use crate::hash::{key_hash, partition_of};
use crate::machine::Options;
use crate::number_of;
use crate::packets::{Head, LONGEST, LONGEST_VALUE, Replies, Request, read_batch, status_of};
use crate::table::{Owner, Table};
use std::collections::HashMap;
use std::error::Error;
use std::io;
use std::net::UdpSocket;
use std::sync::Mutex;
use std::thread;

/// Tables of more words than this, 16 MiB, are larger than the caches.
pub const CACHED_WORDS: usize = 1 << 21;

/// What a front has of each partition.
struct Part<'a> {
    table: &'a Table,
    owner: &'a Mutex<Owner<'a>>,
}

/// Loads what is found by these hashes, so that the misses of the caches lie beside each other.
pub fn load_ahead<'a>(table_of: impl Fn(u64) -> &'a Table, hashes: &[u64]) {
    let loaded = hashes.iter().fold(0, |all, &hash| all ^ table_of(hash).bucket_ahead(hash));
    std::hint::black_box(hashes.iter().fold(loaded, |all, &hash| all ^ table_of(hash).item_ahead(hash)));
}

fn replies_to(parts: &[Part<'_>], is_ahead: bool, datagram: &[u8], value: &mut Vec<u8>) -> Replies {
    let mut replies = Replies::default();
    let Some((head, requests)) = read_batch(datagram) else {
        replies.push(&Head { version: 1, number: 0 }, 9, 0, 0, b"");
        return replies;
    };
    if is_ahead {
        let hashes: Vec<u64> = requests.iter().map(|(_, request)| key_hash(request.key())).collect();
        load_ahead(|hash| parts[partition_of(hash, parts.len())].table, &hashes);
    }
    for (ticket, request) in requests {
        let (Request::Get { key } | Request::Put { key, .. } | Request::Del { key }) = request;
        let hash = key_hash(key);
        let part = &parts[partition_of(hash, parts.len())];
        let written = match request {
            Request::Get { .. } => {
                value.clear();
                let (stamp, is_hit) = part.table.get(hash, key, value);
                replies.push(&head, u8::from(!is_hit), ticket, stamp, if is_hit { value } else { b"" });
                continue;
            }
            Request::Put { value, .. } => Some(value),
            Request::Del { .. } => None,
        };
        let mut owner = part.owner.lock().unwrap();
        let outcome = match written {
            Some(value) => owner.put(hash, key, value),
            None => owner.del(hash, key),
        };
        let stamp = owner.stamp();
        drop(owner);
        replies.push(&head, status_of(outcome), ticket, stamp, b"");
    }
    replies
}

fn run_front(parts: &[Part<'_>], socket: &UdpSocket, batches: u64) -> io::Result<()> {
    let mut room = [0; LONGEST + 1];
    let mut value = Vec::with_capacity(LONGEST_VALUE);
    let is_ahead = parts.iter().map(|part| part.table.size()).sum::<usize>() > CACHED_WORDS;
    for _ in 0..batches {
        let (len, peer) = socket.recv_from(&mut room)?;
        for reply in replies_to(parts, is_ahead, &room[..len], &mut value).datagrams {
            socket.send_to(&reply, peer)?;
        }
    }
    Ok(())
}

/// Answers so many datagrams at each of some ports.
pub fn serve(words: &HashMap<&str, &str>, options: &Options) -> Result<Vec<u8>, Box<dyn Error>> {
    let port = number_of(words, "port", 9_000)? as u16;
    let (batches, fronts) = (number_of(words, "batches", 1)?, number_of(words, "fronts", 2)? as usize);
    let sockets: Vec<UdpSocket> =
        (0..fronts).map(|front| UdpSocket::bind(("127.0.0.1", port + front as u16))).collect::<io::Result<_>>()?;
    let tables: Vec<Table> = (0..options.partitions).map(|_| Table::new(options)).collect();
    let owners: Vec<Mutex<Owner<'_>>> = tables.iter().map(|table| Mutex::new(Owner::new(table, options))).collect();
    let served: io::Result<Vec<()>> = thread::scope(|scope| {
        let fronts: Vec<_> = sockets
            .iter()
            .map(|socket| {
                let parts: Vec<Part<'_>> = tables.iter().zip(&owners).map(|(table, owner)| Part { table, owner }).collect();
                scope.spawn(move || run_front(&parts, socket, batches))
            })
            .collect();
        fronts.into_iter().map(|front| front.join().expect("a front")).collect()
    });
    served?;
    Ok(format!("batches {}\n", batches * fronts as u64).into_bytes())
}
