//! A server of one thread and one port.

use crate::hash::{key_hash, partition_of};
use crate::machine::Machine;
use crate::number_of;
use crate::packets::{Head, LONGEST, LONGEST_VALUE, Replies, Request, read_batch, status_of};
use std::collections::HashMap;
use std::error::Error;
use std::net::UdpSocket;

type Words<'a> = HashMap<&'a str, &'a str>;

fn replies_to<M: Machine>(machines: &mut [M], datagram: &[u8], value: &mut Vec<u8>) -> Replies {
    let mut replies = Replies::default();
    let Some((head, requests)) = read_batch(datagram) else {
        replies.push(&Head { version: 1, number: 0 }, 9, 0, 0, b"");
        return replies;
    };
    let count = machines.len();
    for (ticket, request) in requests {
        let (Request::Get { key } | Request::Put { key, .. } | Request::Del { key }) = request;
        let hash = key_hash(key);
        let machine = &mut machines[partition_of(hash, count)];
        let status = match request {
            Request::Put { key, value } => status_of(machine.put(hash, key, value)),
            Request::Del { key } => status_of(machine.del(hash, key)),
            Request::Get { key } => {
                value.clear();
                u8::from(!machine.get(hash, key, value))
            }
        };
        let value: &[u8] = if status == 0 { value } else { b"" };
        replies.push(&head, status, ticket, machine.stamp(), value);
    }
    replies
}

/// Answers so many datagrams.
pub fn serve<M: Machine>(words: &Words<'_>, machines: &mut [M]) -> Result<Vec<u8>, Box<dyn Error>> {
    let port = number_of(words, "port", 9_000)? as u16;
    let batches = number_of(words, "batches", 1)?;
    let socket = UdpSocket::bind(("127.0.0.1", port))?;
    let mut room = [0; LONGEST + 1];
    let mut value = Vec::with_capacity(LONGEST_VALUE);
    for _ in 0..batches {
        let (len, peer) = socket.recv_from(&mut room)?;
        for reply in replies_to(machines, &room[..len], &mut value).datagrams {
            socket.send_to(&reply, peer)?;
        }
    }
    Ok(format!("batches {batches}\n").into_bytes())
}
