//! A trace in rounds whose workers stay: owners, readers and the feeder are started once, and get their part of each round
//! over a channel.

use crate::machine::{Options, Outcome};
use crate::queue;
use crate::rounds::{Printed, Shares, Write, feed, merge, run_owner, run_reader};
use crate::table::{Owner, Table};
use crate::trace::Line;
use std::sync::mpsc::{Receiver, SyncSender, sync_channel};
use std::thread::{self, Scope};

/// A worker: what it is given, and what it gives back.
struct Kept<W, R> {
    work: SyncSender<W>,
    done: Receiver<R>,
}

impl<W, R> Kept<W, R> {
    fn start<'scope>(scope: &'scope Scope<'scope, '_>, mut run: impl FnMut(W) -> R + Send + 'scope) -> Kept<W, R>
    where
        W: Send + 'scope,
        R: Send + 'scope,
    {
        let (work, works) = sync_channel::<W>(1);
        let (ended, done) = sync_channel(1);
        scope.spawn(move || works.into_iter().for_each(|part| ended.send(run(part)).expect("the run")));
        Kept { work, done }
    }

    fn give(&self, part: W) {
        self.work.send(part).expect("a worker");
    }

    fn take(&self) -> R {
        self.done.recv().expect("a worker")
    }
}

type Queue<'a> = (usize, queue::Receiver<Write<'a>>);

pub fn run(options: &Options, lines: &[Line<'_>]) -> Vec<u8> {
    let tables: Vec<Table> = (0..options.partitions).map(|_| Table::new(options)).collect();
    let tables = &tables;
    let mut out = Vec::with_capacity(32 * lines.len());
    thread::scope(|scope| {
        let owners: Vec<Kept<Queue<'_>, Vec<(Outcome, u64)>>> = tables
            .iter()
            .map(|table| {
                let mut owner = Owner::new(table, options);
                Kept::start(scope, move |(count, queue): Queue<'_>| run_owner(&mut owner, count, queue))
            })
            .collect();
        let readers: Vec<Kept<Vec<(u64, &[u8])>, Printed>> =
            (0..options.readers).map(|_| Kept::start(scope, |gets: Vec<_>| run_reader(tables, &gets))).collect();
        let feeder = Kept::start(scope, |(writes, queues)| feed(writes, queues));
        let mut next_get = 0;
        for round in lines.split_inclusive(|line| matches!(line, Line::Sync)) {
            let first_get = next_get;
            let Shares { counts, writes, gets } = Shares::of(options, round, &mut next_get);
            let mut queues = Vec::with_capacity(owners.len());
            for (owner, count) in owners.iter().zip(counts) {
                let (sender, receiver) = queue::queue(options.yields);
                queues.push(sender);
                owner.give((count, receiver));
            }
            readers.iter().zip(gets).for_each(|(reader, gets)| reader.give(gets));
            feeder.give((writes, queues));
            let replies: Vec<_> = owners.iter().map(Kept::take).collect();
            let printed: Vec<_> = readers.iter().map(Kept::take).collect();
            feeder.take();
            merge(round, first_get, &replies, &printed, &mut out);
        }
    });
    out
}
