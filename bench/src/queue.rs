//! A bounded queue. An end that has to wait lets other threads run so many times before it sleeps.

use std::sync::mpsc::{self, SyncSender, TryRecvError, TrySendError, sync_channel};
use std::thread;

/// How many messages may wait in a queue.
const WAITING: usize = 64;

pub struct Sender<T> {
    sender: SyncSender<T>,
    yields: u32,
}

pub struct Receiver<T> {
    receiver: mpsc::Receiver<T>,
    yields: u32,
}

pub fn queue<T>(yields: u32) -> (Sender<T>, Receiver<T>) {
    let (sender, receiver) = sync_channel(WAITING);
    (Sender { sender, yields }, Receiver { receiver, yields })
}

impl<T> Clone for Sender<T> {
    fn clone(&self) -> Sender<T> {
        Sender { sender: self.sender.clone(), yields: self.yields }
    }
}

impl<T> Sender<T> {
    pub fn send(&self, mut message: T) {
        for _ in 0..self.yields {
            match self.sender.try_send(message) {
                Ok(()) => return,
                Err(TrySendError::Full(back) | TrySendError::Disconnected(back)) => message = back,
            }
            thread::yield_now();
        }
        self.sender.send(message).ok().expect("the other end");
    }
}

impl<T> Receiver<T> {
    /// The next message, until all senders are gone.
    pub fn recv(&self) -> Option<T> {
        for _ in 0..self.yields {
            match self.receiver.try_recv() {
                Ok(message) => return Some(message),
                Err(TryRecvError::Disconnected) => return None,
                Err(TryRecvError::Empty) => thread::yield_now(),
            }
        }
        self.receiver.recv().ok()
    }
}

impl<T> Iterator for Receiver<T> {
    type Item = T;

    fn next(&mut self) -> Option<T> {
        self.recv()
    }
}
