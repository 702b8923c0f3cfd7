//! Writes down what is seen of a cell of the Rust crate async-once-cell from outside: the like of what
//! `judge_record --seen` reads. Between two texts stands a line `--`.
//!
//!     others one SEED TEXTS CALLS             texts of one thread, whose calls come one after another
//!     others threads SEED TEXTS THREADS CALLS texts of threads, whose calls overlap
//!     others lost SEED ROUNDS                 the first text in which a wake is lost, of so many rounds of two threads
//!
//! A future of the cell is a task. The wrapper writes a line before and after each of its polls and its drop; its init
//! writes one when it is polled, and its waker one when it is woken, with the task in whose call that is.

use async_once_cell::OnceCell;
use std::cell::Cell;
use std::env;
use std::future::Future;
use std::pin::Pin;
use std::sync::atomic::{AtomicU64, Ordering};
use std::sync::{Arc, Mutex};
use std::task::{Context, Poll, Wake, Waker};
use std::thread;

/// The lines that were written, by any thread.
type Log = Arc<Mutex<Vec<String>>>;

thread_local! {
    /// The task whose call is under way in this thread.
    static CALLER: Cell<u64> = const { Cell::new(0) };
}

fn write(log: &Log, line: String) {
    log.lock().unwrap().push(line);
}

/// What an init answers.
#[derive(Clone, Copy, PartialEq)]
enum Answer {
    Pending,
    Value(u64),
    Error(u64),
}

impl std::fmt::Display for Answer {
    fn fmt(&self, f: &mut std::fmt::Formatter<'_>) -> std::fmt::Result {
        match self {
            Answer::Pending => write!(f, "p"),
            Answer::Value(value) => write!(f, "v{value}"),
            Answer::Error(error) => write!(f, "e{error}"),
        }
    }
}

/// A waker that writes a line when it is woken.
struct Watched {
    task: u64,
    log: Log,
}

impl Wake for Watched {
    fn wake(self: Arc<Self>) {
        write(&self.log, format!("woke {} {}", CALLER.get(), waker_of(self.task)));
    }
}

fn waker_of(task: u64) -> u64 {
    task + 100
}

/// An init that writes a line when it is polled, and answers what it was told to.
struct Init {
    task: u64,
    answer: Arc<Mutex<Answer>>,
    log: Log,
}

impl Future for Init {
    type Output = Result<u64, u64>;

    fn poll(self: Pin<&mut Self>, _: &mut Context<'_>) -> Poll<Self::Output> {
        let answer = *self.answer.lock().unwrap();
        write(&self.log, format!("ran {} {answer}", self.task));
        match answer {
            Answer::Pending => Poll::Pending,
            Answer::Value(value) => Poll::Ready(Ok(value)),
            Answer::Error(error) => Poll::Ready(Err(error)),
        }
    }
}

/// A future of the cell, with its init and its waker.
struct Task<'a> {
    number: u64,
    future: Pin<Box<dyn Future<Output = Result<u64, u64>> + Send + 'a>>,
    answer: Arc<Mutex<Answer>>,
    waker: Waker,
    log: Log,
}

impl<'a> Task<'a> {
    fn new(number: u64, cell: &'a OnceCell<u64>, log: &Log) -> Self {
        let answer = Arc::new(Mutex::new(Answer::Pending));
        let init = Init { task: number, answer: answer.clone(), log: log.clone() };
        let waker = Arc::new(Watched { task: number, log: log.clone() });
        write(log, format!("made {number}"));
        Task {
            number,
            future: Box::pin(async move { cell.get_or_try_init(init).await.map(|value| *value) }),
            answer,
            waker: waker.into(),
            log: log.clone(),
        }
    }

    /// Polls it once, with an init that answers so; and says whether it is Pending.
    fn poll(&mut self, answer: Answer) -> bool {
        *self.answer.lock().unwrap() = answer;
        CALLER.set(self.number);
        write(&self.log, format!("begin {} {}", self.number, waker_of(self.number)));
        let reply = match self.future.as_mut().poll(&mut Context::from_waker(&self.waker)) {
            Poll::Pending => Answer::Pending,
            Poll::Ready(Ok(value)) => Answer::Value(value),
            Poll::Ready(Err(error)) => Answer::Error(error),
        };
        write(&self.log, format!("end {} {reply}", self.number));
        reply == Answer::Pending
    }

    /// Drops it.
    fn leave(self) {
        let Task { number, future, log, .. } = self;
        CALLER.set(number);
        write(&log, format!("dropbegin {number}"));
        drop(future);
        write(&log, format!("dropend {number}"));
    }
}

/// Numbers at random, by a xorshift.
struct Random(u64);

impl Random {
    fn new(seed: u64) -> Self {
        let mut random = Random(seed.wrapping_mul(0x9E37_79B9_7F4A_7C15) | 1);
        (0..8).for_each(|_| _ = random.below(2));
        random
    }

    fn below(&mut self, bound: u64) -> u64 {
        self.0 ^= self.0 << 13;
        self.0 ^= self.0 >> 7;
        self.0 ^= self.0 << 17;
        (self.0 >> 11) % bound
    }

    /// What an init answers: mostly nothing yet, or an error, and seldom a value.
    fn answer(&mut self) -> Answer {
        match self.below(40) {
            0..=21 => Answer::Pending,
            22..=38 => Answer::Error(self.below(5)),
            _ => Answer::Value(self.below(5)),
        }
    }
}

fn print(log: &Log) {
    println!("once 1000000");
    log.lock().unwrap().iter().for_each(|line| println!("{line}"));
    println!("--");
}

/// Calls at random of up to `most` tasks, whose numbers begin with `first`; before each of them `meet` is called. What
/// is left of the tasks is forgotten, so no call of them is made, and none is seen.
fn calls<'a>(cell: &'a OnceCell<u64>, log: &Log, random: &mut Random, (first, most): (u64, usize), steps: u64, meet: impl Fn(u64)) {
    let (mut tasks, mut next): (Vec<Task<'a>>, u64) = (Vec::new(), first);
    for step in 0..steps {
        meet(step);
        (0..random.below(200)).for_each(|_| std::hint::spin_loop());
        if tasks.len() < most && (tasks.is_empty() || random.below(4) == 0) {
            tasks.push(Task::new(next, cell, log));
            next += 1;
        }
        let index = random.below(tasks.len() as u64) as usize;
        if random.below(6) == 0 {
            tasks.remove(index).leave();
        } else if !tasks[index].poll(random.answer()) {
            std::mem::forget(tasks.remove(index));
        }
    }
    std::mem::forget(tasks);
}

/// A text of one thread.
fn one(seed: u64, count: u64) {
    let (log, cell, mut random) = (Log::default(), OnceCell::new(), Random::new(seed));
    let most = 1 + random.below(4) as usize;
    calls(&cell, &log, &mut random, (1, most), count, |_| ());
    print(&log);
    std::mem::forget(cell);
}

/// A text of threads, which meet before each call, so that their calls overlap.
fn threads(seed: u64, threads: u64, count: u64) {
    let (log, cell, arrived) = (Log::default(), OnceCell::new(), AtomicU64::new(0));
    thread::scope(|scope| {
        for thread in 0..threads {
            let (log, cell, arrived) = (&log, &cell, &arrived);
            scope.spawn(move || {
                let mut random = Random::new(seed * 64 + thread);
                calls(cell, log, &mut random, (thread * 1000 + 1, 2), count, |step| {
                    arrived.fetch_add(1, Ordering::SeqCst);
                    while arrived.load(Ordering::SeqCst) < (step + 1) * threads {
                        std::hint::spin_loop();
                    }
                });
            });
        }
    });
    print(&log);
    std::mem::forget(cell);
}

/// One round in which a wake may be lost: a holder fails while a task comes, after one that waited has left. Whether
/// the task that came waits, and was not woken.
fn round(log: &Log, delay: u64) -> bool {
    let cell = OnceCell::new();
    let (mut holder, mut left) = (Task::new(1, &cell, log), Task::new(2, &cell, log));
    holder.poll(Answer::Pending);
    left.poll(Answer::Value(2));
    left.leave();
    let (mut waiter, arrived) = (Task::new(3, &cell, log), AtomicU64::new(0));
    let meet = |delay: u64| {
        arrived.fetch_add(1, Ordering::SeqCst);
        while arrived.load(Ordering::SeqCst) < 2 {
            std::hint::spin_loop();
        }
        (0..delay).for_each(|_| std::hint::spin_loop());
    };
    let waits = thread::scope(|scope| {
        let other = scope.spawn(|| {
            meet(0);
            waiter.poll(Answer::Value(3))
        });
        meet(delay);
        holder.poll(Answer::Error(1));
        other.join().unwrap()
    });
    let is_woken = log.lock().unwrap().iter().any(|line| line.ends_with(&format!(" {}", waker_of(3))) && line.starts_with("woke"));
    std::mem::forget((holder, waiter));
    std::mem::forget(cell);
    waits && !is_woken
}

fn main() {
    let words: Vec<String> = env::args().skip(1).collect();
    let number = |place: usize| words[place].parse::<u64>().unwrap();
    match words[0].as_str() {
        "one" => (0..number(2)).for_each(|text| one(number(1) + text, number(3))),
        "threads" => (0..number(2)).for_each(|text| threads(number(1) + text, number(3), number(4))),
        "lost" => {
            let lost = (0..number(2)).find_map(|round_number| {
                let log = Log::default();
                round(&log, (number(1) + round_number) % 64).then_some(log)
            });
            lost.iter().for_each(print);
        }
        _ => panic!("one, threads or lost"),
    }
}
