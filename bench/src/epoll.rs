//! What this machine's epoll tells of sockets, by its own calls.

use std::io;
use std::os::fd::{AsRawFd, FromRawFd, OwnedFd};

const IN: u32 = 1;
const OUT: u32 = 4;
const EDGE: u32 = 1 << 31;
const ADD: i32 = 1;
const MOST: usize = 256;

/// How often a server looks for more before it sleeps, at most, and one sleep of how many begins with all looks. micad's ports have the same numbers.
const LOOKS: u32 = 128;
const SLEEPS: u32 = 64;

#[repr(C, packed)]
#[derive(Clone, Copy)]
struct Event {
    events: u32,
    data: u64,
}

unsafe extern "C" {
    fn epoll_create1(flags: i32) -> i32;
    fn epoll_ctl(epoll: i32, what: i32, socket: i32, event: *mut Event) -> i32;
    fn epoll_wait(epoll: i32, events: *mut Event, most: i32, milliseconds: i32) -> i32;
}

pub struct Poll {
    epoll: OwnedFd,
    events: [Event; MOST],
    looks: u32,
    sleeps: u32,
}

impl Poll {
    pub fn new() -> io::Result<Poll> {
        // SAFETY: the call takes no memory of ours, and gives a descriptor that nobody else has.
        let epoll = unsafe { epoll_create1(0) };
        if epoll < 0 {
            return Err(io::Error::last_os_error());
        }
        // SAFETY: as above.
        let epoll = unsafe { OwnedFd::from_raw_fd(epoll) };
        Ok(Poll { epoll, events: [Event { events: 0, data: 0 }; MOST], looks: LOOKS, sleeps: 0 })
    }

    /// Has each change of a socket told once, under this number.
    pub fn add(&self, socket: &impl AsRawFd, number: u64) -> io::Result<()> {
        let mut event = Event { events: IN | OUT | EDGE, data: number };
        // SAFETY: the event lives as long as the call.
        match unsafe { epoll_ctl(self.epoll.as_raw_fd(), ADD, socket.as_raw_fd(), &raw mut event) } {
            0 => Ok(()),
            _ => Err(io::Error::last_os_error()),
        }
    }

    fn ask(&mut self, milliseconds: i32) -> usize {
        // SAFETY: there is room for so many events.
        let count = unsafe { epoll_wait(self.epoll.as_raw_fd(), self.events.as_mut_ptr(), MOST as i32, milliseconds) };
        count.max(0) as usize
    }

    fn numbers(&self, count: usize) -> impl Iterator<Item = u64> + use<> {
        let numbers: Vec<u64> = self.events[..count].iter().map(|event| event.data).collect();
        numbers.into_iter()
    }

    /// The numbers of what changed, after at most so many milliseconds.
    pub fn wait(&mut self, milliseconds: i32) -> impl Iterator<Item = u64> + use<> {
        let count = self.ask(milliseconds);
        self.numbers(count)
    }

    /// The numbers of what changed, in their order, for which it looks a few times over before it sleeps, where that has paid.
    pub fn wait_awake(&mut self) -> impl Iterator<Item = u64> + use<> {
        let found = (0..self.looks).map(|_| self.ask(0)).find(|count| *count > 0);
        let count = found.unwrap_or_else(|| self.sleep());
        if found.is_some() {
            self.looks = LOOKS;
        }
        self.events[..count].sort_unstable_by_key(|event| event.data);
        self.numbers(count)
    }

    fn sleep(&mut self) -> usize {
        self.sleeps = (self.sleeps + 1) % SLEEPS;
        self.looks = if self.sleeps == 0 { LOOKS } else { self.looks / 2 };
        self.ask(-1)
    }
}
