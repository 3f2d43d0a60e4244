//! A trace in rounds with queues, over values: lines and jobs that own their bytes, a report of lines, and then its text.

use crate::hash::{key_hash, partition_of};
use crate::machine::{Options, Outcome};
use crate::packets::LONGEST_VALUE;
use crate::queue::{Receiver, Sender, queue};
use crate::table::{Owner, Table};
use crate::trace;
use crate::{put_get, put_write};
use std::thread;

#[derive(Clone, Copy, PartialEq, Eq)]
enum Op {
    Put,
    Del,
    Get,
    Sync,
}

/// A line of a trace, with key and value empty where the operation has none.
pub struct TraceLine {
    op: Op,
    key: Vec<u8>,
    value: Vec<u8>,
}

impl From<&trace::Line<'_>> for TraceLine {
    fn from(line: &trace::Line<'_>) -> Self {
        let (op, key, value): (_, &[u8], &[u8]) = match *line {
            trace::Line::Put { key, value } => (Op::Put, key, value),
            trace::Line::Del { key } => (Op::Del, key, b""),
            trace::Line::Get { key } => (Op::Get, key, b""),
            trace::Line::Sync => (Op::Sync, b"", b""),
        };
        TraceLine { op, key: key.to_vec(), value: value.to_vec() }
    }
}

/// A line of a report.
enum Line {
    Wrote { op: Op, outcome: Outcome, stamp: u64 },
    Hit { stamp: u64, value: Vec<u8> },
    Miss { stamp: u64 },
    Sync,
}

struct Write {
    op: Op,
    key: Vec<u8>,
    value: Vec<u8>,
}

fn run_owner(owner: &mut Owner<'_>, count: usize, writes: Receiver<Write>) -> Vec<(Outcome, u64)> {
    let mut replies = Vec::with_capacity(count);
    for Write { op, key, value } in writes {
        let hash = key_hash(&key);
        let outcome = if op == Op::Put { owner.put(hash, &key, &value) } else { owner.del(hash, &key) };
        replies.push((outcome, owner.stamp()));
    }
    replies
}

fn run_reader(tables: &[Table], trace: &[TraceLine], gets: &[usize]) -> Vec<Line> {
    let mut lines = Vec::with_capacity(gets.len());
    let mut value = Vec::with_capacity(LONGEST_VALUE);
    for &number in gets {
        let key = &trace[number].key;
        let hash = key_hash(key);
        value.clear();
        let (stamp, is_hit) = tables[partition_of(hash, tables.len())].get(hash, key, &mut value);
        lines.push(if is_hit { Line::Hit { stamp, value: value.clone() } } else { Line::Miss { stamp } });
    }
    lines
}

/// Sends each write to the queue of its partition, in order.
fn feed(jobs: Vec<(usize, Write)>, queues: Vec<Sender<Write>>) {
    for (partition, write) in jobs {
        queues[partition].send(write);
    }
}

/// The report of a trace.
fn run_trace(options: &Options, trace: &[TraceLine]) -> Vec<Line> {
    let tables: Vec<Table> = (0..options.partitions).map(|_| Table::new(options)).collect();
    let mut owners: Vec<Owner<'_>> = tables.iter().map(|table| Owner::new(table, options)).collect();
    let mut report = Vec::with_capacity(trace.len());
    let (mut from, mut next_get) = (0, 0);
    for round in trace.split_inclusive(|line| line.op == Op::Sync) {
        let first_get = next_get;
        let mut counts = vec![0; options.partitions];
        let mut jobs = Vec::new();
        let mut gets = vec![Vec::new(); options.readers];
        for (number, line) in (from..).zip(round) {
            match line.op {
                Op::Put | Op::Del => {
                    let partition = partition_of(key_hash(&line.key), options.partitions);
                    counts[partition] += 1;
                    jobs.push((partition, Write { op: line.op, key: line.key.clone(), value: line.value.clone() }));
                }
                Op::Get => {
                    gets[next_get % options.readers].push(number);
                    next_get += 1;
                }
                Op::Sync => (),
            }
        }
        let (tables, gets) = (&tables, &gets);
        let (replies, found): (Vec<_>, Vec<_>) = thread::scope(|scope| {
            let (queues, ends): (Vec<_>, Vec<_>) = owners.iter().map(|_| queue(options.yields)).unzip();
            let owners: Vec<_> = owners
                .iter_mut()
                .zip(ends)
                .zip(counts)
                .map(|((owner, writes), count)| scope.spawn(move || run_owner(owner, count, writes)))
                .collect();
            scope.spawn(move || feed(jobs, queues));
            let readers: Vec<_> =
                gets.iter().map(|gets| scope.spawn(move || run_reader(tables, trace, gets))).collect();
            (
                owners.into_iter().map(|owner| owner.join().expect("an owner")).collect(),
                readers.into_iter().map(|reader| reader.join().expect("a reader")).collect(),
            )
        });
        merge(options, round, first_get, replies, found, &mut report);
        from += round.len();
    }
    report
}

fn merge(
    options: &Options,
    round: &[TraceLine],
    first_get: usize,
    replies: Vec<Vec<(Outcome, u64)>>,
    found: Vec<Vec<Line>>,
    report: &mut Vec<Line>,
) {
    let mut replies: Vec<_> = replies.into_iter().map(Vec::into_iter).collect();
    let mut found: Vec<_> = found.into_iter().map(Vec::into_iter).collect();
    let mut get = first_get;
    for line in round {
        report.push(match line.op {
            Op::Put | Op::Del => {
                let partition = partition_of(key_hash(&line.key), options.partitions);
                let (outcome, stamp) = replies[partition].next().expect("a reply");
                Line::Wrote { op: line.op, outcome, stamp }
            }
            Op::Get => {
                let reader = get % options.readers;
                get += 1;
                found[reader].next().expect("a line")
            }
            Op::Sync => Line::Sync,
        });
    }
}

fn text_of(report: &[Line]) -> Vec<u8> {
    let mut text = Vec::with_capacity(32 * report.len());
    for line in report {
        match line {
            Line::Wrote { op, outcome, stamp } => {
                put_write(if *op == Op::Put { b"put " } else { b"del " }, *outcome, *stamp, &mut text);
            }
            Line::Hit { stamp, value } => put_get(*stamp, &mut text, |text| {
                text.extend_from_slice(value);
                true
            }),
            Line::Miss { stamp } => put_get(*stamp, &mut text, |_| false),
            Line::Sync => text.extend_from_slice(b"sync\n"),
        }
    }
    text
}

pub fn run(options: &Options, lines: &[trace::Line<'_>]) -> Vec<u8> {
    let trace: Vec<_> = lines.iter().map(TraceLine::from).collect();
    text_of(&run_trace(options, &trace))
}
