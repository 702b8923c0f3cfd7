//! The programs of docs/FROM_RUST.md. bench/from_rust puts the blocks of Rust of that page where a line names them.
#![allow(dead_code)]
use async_once_cell::{Lazy, LazyFuturePin, OnceCell};
use std::future::{Future, Ready, poll_fn, ready};
use std::mem::{size_of, size_of_val};
use std::pin::pin;
use std::sync::atomic::{AtomicU64, Ordering};
use std::task::{Context, Poll, Waker};
use std::thread;

fn block_on<F: Future>(future: F) -> F::Output {
    let mut future = pin!(future);
    loop {
        if let Poll::Ready(output) = future.as_mut().poll(&mut Context::from_waker(Waker::noop())) {
            return output;
        }
        thread::yield_now();
    }
}

async fn yield_now() {
    let mut has_waited = false;
    poll_fn(|_| if std::mem::replace(&mut has_waited, true) { Poll::Ready(()) } else { Poll::Pending }).await
}

#[derive(Debug)]
enum Fault {
    Down(u64),
}

struct Down(u64);

impl From<Down> for Fault {
    fn from(Down(number): Down) -> Self {
        Fault::Down(number)
    }
}

// BLOCK_1
// BLOCK_2
// BLOCK_3
async fn lazy(end: u64) -> (u64, u64) {
// BLOCK_4
    (first, second)
}

async fn graph() -> (u64, u64) {
// BLOCK_5
    (doubled, *base.get().await)
}

async fn token() -> (u64, u64) {
    let cell = OnceCell::new();
// BLOCK_6
    (first, second)
}

fn main() {
    println!("{:?}", ask_twice());
    let (cell, fetches) = (OnceCell::new(), AtomicU64::new(0));
    let (first, second) = (block_on(value(&cell, &fetches)), block_on(value(&cell, &fetches)));
    println!("{first} {second} {fetches:?}");
    let (cell, tries) = (OnceCell::new(), AtomicU64::new(0));
    let told: Vec<_> = (0..3).map(|_| block_on(connect(&cell, &tries))).collect();
    println!("{told:?}");
    println!("{:?}", block_on(lazy(5)));
    println!("{:?}", block_on(graph()));
    println!("{:?}", block_on(token()));
    println!("OnceCell {}", size_of::<OnceCell<u64>>());
    println!("Lazy {}", size_of::<Lazy<u64, Ready<u64>>>());
    println!("get_or_init {}", size_of_val(&OnceCell::<u64>::new().get_or_init(ready(4))));
    println!("LazyFuturePin {}", size_of::<LazyFuturePin<'_, u64, Ready<u64>>>());
}
