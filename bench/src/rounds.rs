//! A trace in rounds: in each, every partition's owner and every reader is a thread of its own.

use crate::hash::{key_hash, partition_of};
use crate::machine::{Options, Outcome};
use crate::packets::LONGEST_VALUE;
use crate::queue::{Sender, queue};
use crate::table::{Owner, Table};
use crate::trace::Line;
use crate::{put_get, put_write};
use std::thread;

/// How the owners get their writes.
#[derive(Clone, Copy, PartialEq, Eq)]
pub enum Feed {
    /// Each as a list, made before the round.
    Lists,
    /// Each by a bounded queue, which one thread more fills.
    Queues,
}

pub type Write<'a> = (u64, Line<'a>);

/// A line's text lies in its worker's buffer, one after another.
#[derive(Default)]
pub struct Printed {
    text: Vec<u8>,
    ends: Vec<usize>,
}

impl Printed {
    fn end_line(&mut self) {
        self.ends.push(self.text.len());
    }
}

pub fn run_owner<'a>(owner: &mut Owner<'_>, count: usize, writes: impl Iterator<Item = Write<'a>>) -> Vec<(Outcome, u64)> {
    let mut replies = Vec::with_capacity(count);
    for (hash, line) in writes {
        let outcome = match line {
            Line::Put { key, value } => owner.put(hash, key, value),
            Line::Del { key } => owner.del(hash, key),
            Line::Get { .. } | Line::Sync => continue,
        };
        replies.push((outcome, owner.stamp()));
    }
    replies
}

pub fn run_reader(tables: &[Table], gets: &[(u64, &[u8])]) -> Printed {
    let mut printed = Printed::default();
    let mut value = Vec::with_capacity(LONGEST_VALUE);
    for &(hash, key) in gets {
        value.clear();
        let (stamp, is_hit) = tables[partition_of(hash, tables.len())].get(hash, key, &mut value);
        put_get(stamp, &mut printed.text, |text| {
            text.extend_from_slice(&value);
            is_hit
        });
        printed.end_line();
    }
    printed
}

/// Sends each write to the queue of its partition, in order.
pub fn feed<'a>(jobs: Vec<Write<'a>>, queues: Vec<Sender<Write<'a>>>) {
    for job in jobs {
        queues[partition_of(job.0, queues.len())].send(job);
    }
}

/// The lines of a round, shared out: how many writes each partition has, the writes in order, and the gets of each reader.
pub struct Shares<'a> {
    pub counts: Vec<usize>,
    pub writes: Vec<Write<'a>>,
    pub gets: Vec<Vec<(u64, &'a [u8])>>,
}

impl<'a> Shares<'a> {
    /// The gets go to the readers in turn, from this number on, which is raised by each.
    pub fn of(options: &Options, round: &[Line<'a>], next_get: &mut usize) -> Shares<'a> {
        let mut shares = Shares {
            counts: vec![0; options.partitions],
            writes: Vec::new(),
            gets: vec![Vec::new(); options.readers],
        };
        for &line in round {
            match line {
                Line::Put { key, .. } | Line::Del { key } => {
                    let hash = key_hash(key);
                    shares.counts[partition_of(hash, options.partitions)] += 1;
                    shares.writes.push((hash, line));
                }
                Line::Get { key } => {
                    shares.gets[*next_get % options.readers].push((key_hash(key), key));
                    *next_get += 1;
                }
                Line::Sync => (),
            }
        }
        shares
    }
}

pub fn run(options: &Options, lines: &[Line<'_>], fed: Feed) -> Vec<u8> {
    let tables: Vec<Table> = (0..options.partitions).map(|_| Table::new(options)).collect();
    let mut owners: Vec<Owner<'_>> = tables.iter().map(|table| Owner::new(table, options)).collect();
    let mut out = Vec::with_capacity(32 * lines.len());
    let mut next_get = 0;
    for round in lines.split_inclusive(|line| matches!(line, Line::Sync)) {
        let first_get = next_get;
        let Shares { counts, writes, gets } = Shares::of(options, round, &mut next_get);
        let mut lists = vec![Vec::new(); options.partitions];
        if fed == Feed::Lists {
            writes.iter().for_each(|write| lists[partition_of(write.0, options.partitions)].push(*write));
        }
        let (tables, lists, gets) = (&tables, &lists, &gets);
        let (replies, printed): (Vec<_>, Vec<_>) = thread::scope(|scope| {
            let mut queues = Vec::new();
            let owners: Vec<_> = owners
                .iter_mut()
                .zip(lists)
                .zip(counts)
                .map(|((owner, list), count)| match fed {
                    Feed::Lists => scope.spawn(move || run_owner(owner, count, list.iter().copied())),
                    Feed::Queues => {
                        let (sender, receiver) = queue(options.yields);
                        queues.push(sender);
                        scope.spawn(move || run_owner(owner, count, receiver))
                    }
                })
                .collect();
            if fed == Feed::Queues {
                scope.spawn(move || feed(writes, queues));
            }
            let readers: Vec<_> = gets.iter().map(|gets| scope.spawn(move || run_reader(tables, gets))).collect();
            (
                owners.into_iter().map(|owner| owner.join().expect("an owner")).collect(),
                readers.into_iter().map(|reader| reader.join().expect("a reader")).collect(),
            )
        });
        merge(round, first_get, &replies, &printed, &mut out);
    }
    out
}

pub fn merge(
    round: &[Line<'_>],
    first_get: usize,
    replies: &[Vec<(Outcome, u64)>],
    printed: &[Printed],
    out: &mut Vec<u8>,
) {
    let mut next_write = vec![0; replies.len()];
    let mut next_line = vec![0; printed.len()];
    let mut get = first_get;
    for line in round {
        match line {
            Line::Put { key, .. } | Line::Del { key } => {
                let partition = partition_of(key_hash(key), replies.len());
                let (outcome, stamp) = replies[partition][next_write[partition]];
                next_write[partition] += 1;
                let word: &[u8] = if matches!(line, Line::Put { .. }) { b"put " } else { b"del " };
                put_write(word, outcome, stamp, out);
            }
            Line::Get { .. } => {
                let reader = get % printed.len();
                get += 1;
                let (lines, at) = (&printed[reader], next_line[reader]);
                let begin = if at == 0 { 0 } else { lines.ends[at - 1] };
                out.extend_from_slice(&lines.text[begin..lines.ends[at]]);
                next_line[reader] += 1;
            }
            Line::Sync => out.extend_from_slice(b"sync\n"),
        }
    }
}
