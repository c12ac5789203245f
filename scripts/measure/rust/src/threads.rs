//! Calls of threads: the lines of `bench-threads`.
//!
//! Each caller is a thread of the system, which blocks on one call after another. The workers of buffers are tasks of one tokio runtime, with a
//! thread for each buffer.
use crate::rounds::{paying, Echo, Paying};
use futures::executor::block_on;
use std::sync::{Arc, Mutex};
use std::time::Instant;
use tower::{buffer::Buffer, limit::ConcurrencyLimit, retry::budget::Budget, Service, ServiceExt};

/// Runs a caller in each thread, and prints their sum and the time.
fn line<F: FnOnce() -> u64 + Send>(name: &str, callers: Vec<F>) {
    let start = Instant::now();
    let sum = std::thread::scope(|scope| {
        let handles: Vec<_> = callers.into_iter().map(|caller| scope.spawn(caller)).collect();
        handles.into_iter().fold(0u64, |sum, handle| sum.wrapping_add(handle.join().expect("a caller")))
    });
    println!("{name}: sum {sum}, {} us", start.elapsed().as_micros());
}

/// So many calls of one service, one after another.
fn calls<S: Service<u64, Response = u64>>(mut service: S, each: u64) -> u64 {
    let mut sum = 0u64;
    for number in 0..each {
        if let Ok(response) = block_on(async { service.ready().await?.call(number ^ sum).await }) {
            sum = sum.wrapping_add(response);
        }
    }
    sum
}

/// Lets each thread make its calls through a clone of the service.
fn cloned<S: Service<u64, Response = u64> + Clone + Send>(name: &str, service: S, threads: u64, each: u64) {
    line(name, (0..threads).map(|_| service.clone()).map(|service| move || calls(service, each)).collect());
}

pub fn all(count: u64, threads: u64) {
    let each = count / threads;
    let lock = Mutex::new(0u64);
    let added = || {
        (0..each).for_each(|number| {
            let mut held = lock.lock().expect("a lock");
            *held = held.wrapping_add(number);
        });
        *lock.lock().expect("a lock")
    };
    line("lock", (0..threads).map(|_| added).collect());
    for buffers in [1u64, 2, 4].into_iter().filter(|buffers| *buffers <= threads) {
        let runtime = tokio::runtime::Builder::new_multi_thread().worker_threads(buffers as usize).build().expect("a runtime");
        let _inside = runtime.enter();
        let made: Vec<_> = (0..buffers).map(|_| Buffer::new(Echo, 64)).collect();
        let clones: Vec<_> = (0..threads).map(|at| made[(at % buffers) as usize].clone()).collect();
        drop(made);
        line(&format!("{buffers} of 64"), clones.into_iter().map(|buffer| move || calls(buffer, each)).collect());
    }
    cloned("no limit", Echo, threads, each);
    for max in [1, 2, 8] {
        cloned(&format!("a limit of {max}"), ConcurrencyLimit::new(Echo, max), threads, each);
    }
    let Paying(budget) = paying(0.2);
    let paid = || (0..each).filter(|_| (budget.deposit(), budget.withdraw()).1).count() as u64;
    line("a budget", (0..threads).map(|_| paid).collect());
    let semaphore = Arc::new(tokio::sync::Semaphore::new(1));
    let storm = || (0..each).filter(|_| block_on(semaphore.clone().acquire_owned()).is_ok()).count() as u64;
    line("a semaphore of 1", (0..threads).map(|_| storm).collect());
}
