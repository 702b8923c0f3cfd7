//! Makes operations of a cell, each as often as it is told to: the like of crates/cell_bench.
//!
//! Built with `--cfg async_cells` it uses the crate async_once_cell, and without it std::sync::OnceLock, which knows
//! `get` and `init` alone, of one thread and of several. The lines of standard input and of standard output are those
//! of crates/cell_bench, but that `lost_wake` prints two numbers. The status is 3 at an operation that is not there.

use std::hint::black_box;
use std::io;
use std::process::ExitCode;

/// The sum of what so many operations give.
#[inline(always)]
fn sum(count: u64, mut one: impl FnMut() -> u64) -> u64 {
    (0..count).fold(0, |sum: u64, _| sum.wrapping_add(one()))
}

/// The sum of what so many threads give, of which this is one.
fn sum_of(threads: usize, work: impl Fn() -> u64 + Sync) -> u64 {
    std::thread::scope(|scope| {
        let others: Vec<_> = (1..threads).map(|_| scope.spawn(&work)).collect();
        let mine = work();
        others.into_iter().fold(mine, |sum, it| sum.wrapping_add(it.join().unwrap()))
    })
}

#[cfg(not(async_cells))]
mod rounds {
    use super::{black_box, sum, sum_of};
    use std::sync::OnceLock;

    pub fn perform(operation: &str, number: usize, count: u64) -> Option<u64> {
        Some(match operation {
            "get" => get(black_box(&OnceLock::from(1)), count),
            "init" => init(count),
            "get_threads" => {
                let cell = OnceLock::from(1);
                sum_of(number, || get(black_box(&cell), count))
            }
            "init_threads" => {
                let cells: Vec<OnceLock<u64>> = (0..count).map(|_| OnceLock::new()).collect();
                sum_of(number, || cells.iter().map(|cell| *cell.get_or_init(|| 1)).sum())
            }
            _ => return None,
        })
    }

    #[inline(never)]
    fn get(cell: &OnceLock<u64>, count: u64) -> u64 {
        sum(count, || cell.get().copied().unwrap_or(0))
    }

    #[inline(never)]
    fn init(count: u64) -> u64 {
        sum(count, || *black_box(&OnceLock::new()).get_or_init(|| 1))
    }
}

#[cfg(async_cells)]
mod rounds {
    use super::{black_box, sum, sum_of};
    use async_once_cell::{Lazy, OnceCell};
    use std::cell::Cell;
    use std::future::{Future, Ready, ready};
    use std::hint::spin_loop;
    use std::ops::Deref;
    use std::pin::{Pin, pin};
    use std::sync::Arc;
    use std::sync::atomic::{AtomicU64, AtomicUsize, Ordering::SeqCst};
    use std::task::{Context, Poll, Wake, Waker};
    use std::thread::{self, Thread};

    /// Counts how often it was woken.
    #[derive(Default)]
    struct Calls(AtomicU64);

    impl Calls {
        /// Whether it was woken since this was last asked.
        fn were_made(&self) -> bool {
            self.0.swap(0, SeqCst) > 0
        }
    }

    impl Wake for Calls {
        fn wake(self: Arc<Self>) {
            self.0.fetch_add(1, SeqCst);
        }
    }

    fn waker() -> Waker {
        Waker::from(Arc::new(Calls::default()))
    }

    /// Is pending while its switch is off, and gives 1 once it is on.
    struct Switched<'a>(&'a Cell<bool>);

    impl Future for Switched<'_> {
        type Output = u64;

        fn poll(self: Pin<&mut Self>, _cx: &mut Context<'_>) -> Poll<u64> {
            if self.0.get() { Poll::Ready(1) } else { Poll::Pending }
        }
    }

    /// Is pending once, and then fails with 1.
    struct Failing(bool);

    impl Future for Failing {
        type Output = Result<u64, u64>;

        fn poll(mut self: Pin<&mut Self>, cx: &mut Context<'_>) -> Poll<Result<u64, u64>> {
            if std::mem::replace(&mut self.0, true) {
                return Poll::Ready(Err(1));
            }
            cx.waker().wake_by_ref();
            Poll::Pending
        }
    }

    pub fn perform(operation: &str, number: usize, count: u64) -> Option<u64> {
        let wakers: Vec<_> = (0..=number).map(|_| waker()).collect();
        let cx = &mut Context::from_waker(&wakers[number]);
        Some(match operation {
            "get" => get(black_box(&OnceCell::new_with(1)), count),
            "init" => init(count, cx),
            "late" => late(black_box(&OnceCell::new_with(1)), count, cx),
            "listed" => listed(count, cx),
            "waiters" => waiters(&wakers[..number], count, cx),
            "drops" => drops(&wakers[..number], count, cx),
            "failure" => failures(number, count, cx),
            "turns" => turns(number, count),
            "get_threads" => {
                let cell = OnceCell::new_with(1);
                sum_of(number, || get(black_box(&cell), count))
            }
            "init_threads" => {
                let cells: Vec<OnceCell<u64>> = (0..count).map(|_| OnceCell::new()).collect();
                sum_of(number, || cells.iter().map(|cell| *block_on(cell.get_or_init(ready(1)))).sum())
            }
            "lazy_first" => lazy_first(count, cx),
            "lazy_later" => lazy_later(black_box(&Lazy::with_value(1)), count, cx),
            _ => return None,
        })
    }

    /// Wakes a thread that parked.
    struct Parked(Thread);

    impl Wake for Parked {
        fn wake(self: Arc<Self>) {
            self.0.unpark();
        }
    }

    fn block_on<F: Future>(future: F) -> F::Output {
        let waker = Waker::from(Arc::new(Parked(thread::current())));
        let mut future = pin!(future);
        loop {
            match future.as_mut().poll(&mut Context::from_waker(&waker)) {
                Poll::Ready(output) => return output,
                Poll::Pending => thread::park(),
            }
        }
    }

    #[inline(never)]
    fn get(cell: &OnceCell<u64>, count: u64) -> u64 {
        sum(count, || cell.get().copied().unwrap_or(0))
    }

    #[inline(never)]
    fn init(count: u64, cx: &mut Context<'_>) -> u64 {
        sum(count, || {
            let cell = OnceCell::new();
            value_of(pin!(black_box(&cell).get_or_init(ready(1))), cx)
        })
    }

    #[inline(never)]
    fn late(cell: &OnceCell<u64>, count: u64, cx: &mut Context<'_>) -> u64 {
        sum(count, || value_of(pin!(cell.get_or_init(ready(1))), cx))
    }

    #[inline(never)]
    fn listed(count: u64, holding: &mut Context<'_>) -> u64 {
        let (cell, switch, waker) = (OnceCell::new(), Cell::new(false), waker());
        let cx = &mut Context::from_waker(&waker);
        let mut holder = pin!(cell.get_or_init(Switched(&switch)));
        let mut waiter = pin!(cell.get_or_init(Switched(&switch)));
        let pending = value_of(holder.as_mut(), holding) + sum(count + 1, || value_of(waiter.as_mut(), cx));
        switch.set(true);
        pending + value_of(holder, holding) + value_of(waiter, cx)
    }

    // The crate knows a waker that is listed already, so each future has one of its own.
    #[inline(never)]
    fn waiters(wakers: &[Waker], count: u64, holding: &mut Context<'_>) -> u64 {
        sum(count, || {
            let (cell, switch) = (OnceCell::new(), Cell::new(false));
            let mut holder = pin!(cell.get_or_init(Switched(&switch)));
            let mut sum = value_of(holder.as_mut(), holding);
            let mut waiters: Vec<_> = wakers.iter().map(|_| cell.get_or_init(Switched(&switch))).collect();
            sum = sum.wrapping_add(value_of_each(&mut waiters, wakers));
            switch.set(true);
            sum = sum.wrapping_add(value_of(holder, holding));
            sum.wrapping_add(value_of_each(&mut waiters, wakers))
        })
    }

    // Nobody gets a value, so the sum is 0. Those who wait are dropped first, the oldest first.
    #[inline(never)]
    fn drops(wakers: &[Waker], count: u64, holding: &mut Context<'_>) -> u64 {
        sum(count, || {
            let (cell, switch) = (OnceCell::new(), Cell::new(false));
            let holder = pin!(cell.get_or_init(Switched(&switch)));
            let sum = value_of(holder, holding);
            let mut waiters: Vec<_> = wakers.iter().map(|_| cell.get_or_init(Switched(&switch))).collect();
            sum.wrapping_add(value_of_each(&mut waiters, wakers))
        })
    }

    /// A future that waits, and the waker of its task.
    struct Waiter<F> {
        future: Pin<Box<F>>,
        calls: Arc<Calls>,
        waker: Waker,
        has_ended: bool,
    }

    impl<'a, F: Future<Output = Result<&'a u64, u64>>> Waiter<F> {
        fn new(future: F) -> Self {
            let calls = Arc::new(Calls::default());
            Waiter { future: Box::pin(future), waker: calls.clone().into(), calls, has_ended: false }
        }

        /// Polls it: the value or the error, and 0 where it is pending.
        fn poll(&mut self) -> u64 {
            let answer = self.future.as_mut().poll(&mut Context::from_waker(&self.waker));
            self.has_ended = answer.is_ready();
            number_of(answer)
        }

        /// The same if it was woken since.
        fn poll_if_called(&mut self) -> u64 {
            if self.calls.were_made() && !self.has_ended { self.poll() } else { 0 }
        }
    }

    // A new holder gets the right, whoever was woken waits again, and the holder fails.
    #[inline(never)]
    fn failures(waiting: usize, count: u64, cx: &mut Context<'_>) -> u64 {
        let cell = OnceCell::new();
        let new = || black_box(&cell).get_or_try_init(Failing(false));
        let mut first = Waiter::new(new());
        let pending = first.poll();
        let mut waiters: Vec<_> = (0..waiting).map(|_| Waiter::new(new())).collect();
        let pending = waiters.iter_mut().fold(pending, |sum, waiter| sum.wrapping_add(waiter.poll()));
        drop(first);
        pending.wrapping_add(sum(count, || {
            let mut holder = pin!(new());
            let held = number_of(holder.as_mut().poll(cx));
            let called = waiters.iter_mut().fold(held, |sum, waiter| sum.wrapping_add(waiter.poll_if_called()));
            called.wrapping_add(number_of(holder.as_mut().poll(cx)))
        }))
    }

    // A holder fails, and then each who waits. Whoever was woken is polled, in turn, until all ended.
    #[inline(never)]
    fn turns(waiting: usize, count: u64) -> u64 {
        sum(count, || {
            let cell = OnceCell::new();
            let new = || Waiter::new(black_box(&cell).get_or_try_init(Failing(false)));
            let mut holder = new();
            let mut sum = holder.poll();
            let mut waiters: Vec<_> = (0..waiting).map(|_| new()).collect();
            sum = waiters.iter_mut().fold(sum, |sum, waiter| sum.wrapping_add(waiter.poll()));
            sum = sum.wrapping_add(holder.poll());
            while waiters.iter().any(|waiter| !waiter.has_ended) {
                sum = waiters.iter_mut().fold(sum, |sum, waiter| sum.wrapping_add(waiter.poll_if_called()));
            }
            sum
        })
    }

    #[inline(never)]
    fn lazy_first(count: u64, cx: &mut Context<'_>) -> u64 {
        sum(count, || {
            let lazy = pin!(Lazy::new(ready(1)));
            value_of(pin!(black_box(lazy.as_ref()).get()), cx)
        })
    }

    #[inline(never)]
    fn lazy_later(lazy: &Lazy<u64, Ready<u64>>, count: u64, cx: &mut Context<'_>) -> u64 {
        sum(count, || value_of(pin!(Pin::new(lazy).get()), cx))
    }

    /// Waits until two threads are here, and a little longer.
    fn meet(arrived: &AtomicUsize, delay: u64) {
        arrived.fetch_add(1, SeqCst);
        while arrived.load(SeqCst) < 2 {
            spin_loop();
        }
        (0..delay).for_each(|_| spin_loop());
    }

    /// In how many rounds a waiter is pending and was not woken while nobody holds, and in how many of these a later
    /// caller waits as well.
    pub fn lost_wake(count: u64) -> (u64, u64) {
        let both = (0..count).map(|number| lost_and_stuck(number % 64));
        both.fold((0, 0), |sum, (is_lost, is_stuck)| (sum.0 + u64::from(is_lost), sum.1 + u64::from(is_stuck)))
    }

    fn lost_and_stuck(delay: u64) -> (bool, bool) {
        let (cell, arrived) = (OnceCell::new(), AtomicUsize::new(0));
        let ready = |value| cell.get_or_try_init(ready(Ok::<u64, u64>(value)));
        let mut holder = Waiter::new(cell.get_or_try_init(Failing(false)));
        holder.poll();
        let holds = !holder.has_ended;
        Waiter::new(ready(2)).poll();
        let mut waiter = Waiter::new(ready(3));
        std::thread::scope(|scope| {
            let other = scope.spawn(|| {
                meet(&arrived, 0);
                waiter.poll();
            });
            meet(&arrived, delay);
            holder.poll();
            other.join().unwrap();
        });
        let is_lost = holds && holder.has_ended && !waiter.has_ended && !waiter.calls.were_made();
        let mut later = Waiter::new(ready(4));
        (is_lost, is_lost && later.poll() == 0 && !later.calls.were_made())
    }

    /// The value or the error of a poll, and 0 where it is pending.
    fn number_of(polled: Poll<Result<&u64, u64>>) -> u64 {
        match polled {
            Poll::Ready(Ok(value)) => *value,
            Poll::Ready(Err(error)) => error,
            Poll::Pending => 0,
        }
    }

    /// The value that a poll gives, and 0 where it is pending.
    fn value_of<F: Future<Output: Deref<Target = u64>>>(future: Pin<&mut F>, cx: &mut Context<'_>) -> u64 {
        match future.poll(cx) {
            Poll::Ready(value) => *value,
            Poll::Pending => 0,
        }
    }

    /// The sum of the values that a poll of each gives.
    fn value_of_each<F: Future<Output: Deref<Target = u64>>>(futures: &mut [F], wakers: &[Waker]) -> u64 {
        futures.iter_mut().zip(wakers).fold(0, |sum: u64, (future, waker)| {
            // Safety: each stays where it lies until it is dropped there.
            let future = unsafe { Pin::new_unchecked(future) };
            sum.wrapping_add(value_of(future, &mut Context::from_waker(waker)))
        })
    }
}

fn main() -> ExitCode {
    for line in io::stdin().lines() {
        let Ok(line) = line else { return ExitCode::from(2) };
        let Some((name, Ok(count))) = line.split_once(' ').map(|(name, count)| (name, count.parse())) else {
            return ExitCode::from(2);
        };
        #[cfg(async_cells)]
        if name == "lost_wake" {
            let (lost, stuck) = rounds::lost_wake(count);
            println!("{line} {lost} {stuck}");
            continue;
        }
        let operation = name.trim_end_matches(|it: char| it.is_ascii_digit());
        let number = name[operation.len()..].parse().unwrap_or(0);
        let Some(sum) = rounds::perform(operation, number, black_box(count)) else { return ExitCode::from(3) };
        println!("{line} {sum}");
    }
    ExitCode::SUCCESS
}
