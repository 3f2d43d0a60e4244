//! Writes so many bytes of zeros into memory, and then says `ready`: what a server has to do at least that makes its tables at its start.

use std::env;
use std::hint::black_box;

fn main() {
    let count = env::args().nth(1).and_then(|word| word.parse().ok()).expect("a number of bytes");
    let mut zeros = Vec::with_capacity(count);
    // a byte that the compiler does not know, so that it can't ask the system for pages of zeros instead
    zeros.resize(count, black_box(0_u8));
    black_box(&zeros);
    println!("ready");
}
