//! Crowds of N, whose polls are counted, in a tokio runtime of one thread: the kinds of scripts/measure/speed.py.
use crate::rounds::{in_flight, Echo, Late, Lost};
use futures::channel::oneshot::{channel, Receiver, Sender};
use futures::stream::{iter, FuturesUnordered, Stream, StreamExt};
use std::future::{poll_fn, Future};
use std::pin::{pin, Pin};
use std::sync::atomic::{AtomicU64, Ordering::Relaxed};
use std::task::{Context, Poll};
use tokio::task::{spawn, yield_now};
use tower::balance::p2c::Balance;
use tower::buffer::Buffer;
use tower::discover::ServiceList;
use tower::limit::ConcurrencyLimit;
use tower::load::{CompleteOnResponse, PendingRequests};
use tower::{service_fn, Service, ServiceExt};

/// The polls of the tasks that call or collect, of workers and those that answer, and of responses; and how many answers came.
static CALLERS: AtomicU64 = AtomicU64::new(0);
static WORKERS: AtomicU64 = AtomicU64::new(0);
static RESPONSES: AtomicU64 = AtomicU64::new(0);
static ANSWERS: AtomicU64 = AtomicU64::new(0);

/// Counts the polls of a future.
async fn counted<F: Future>(polls: &'static AtomicU64, future: F) -> F::Output {
    let mut future = pin!(future);
    poll_fn(|cx| {
        polls.fetch_add(1, Relaxed);
        future.as_mut().poll(cx)
    })
    .await
}

/// A response that another task sends.
struct Told(Receiver<u64>);
impl Future for Told {
    type Output = Result<u64, Lost>;
    fn poll(mut self: Pin<&mut Self>, cx: &mut Context<'_>) -> Poll<Self::Output> {
        RESPONSES.fetch_add(1, Relaxed);
        Pin::new(&mut self.0).poll(cx).map(|told| Ok(told.unwrap_or(0)))
    }
}

/// Each of N tasks makes one call of a clone of the service.
async fn crowd<S>(service: S, count: u64)
where
    S: Service<u64, Response = u64, Future: Send> + Clone + Send + 'static,
    S::Error: Send,
{
    let tasks: Vec<_> = (0..count).map(|number| spawn(counted(&CALLERS, service.clone().oneshot(number)))).collect();
    drop(service);
    for task in tasks {
        ANSWERS.fetch_add(task.await.expect("a task").is_ok() as u64, Relaxed);
    }
}

async fn buffered<S>(service: S, bound: u64, count: u64)
where
    S: Service<u64, Response = u64, Future: Send, Error: Into<tower::BoxError> + Send + Sync> + Send + 'static,
{
    let (buffer, worker) = Buffer::pair(service, bound as usize);
    let worker = spawn(counted(&WORKERS, worker));
    crowd(buffer, count).await;
    worker.await.expect("a worker");
}

/// One task sends the answers, one in each of its polls; another one collects them.
async fn collected<C: Stream + Send + 'static>(senders: Vec<Sender<u64>>, calls: C) {
    let answering = spawn(counted(&WORKERS, async {
        for (number, sender) in senders.into_iter().enumerate() {
            yield_now().await;
            let _ = sender.send(number as u64);
        }
    }));
    spawn(counted(&CALLERS, async {
        let mut calls = pin!(calls);
        while calls.next().await.is_some() {
            ANSWERS.fetch_add(1, Relaxed);
        }
    }))
    .await
    .expect("a collector");
    answering.await.expect("an answerer");
}

async fn once(kind: &str, count: u64) {
    let channels = || -> (Vec<_>, Vec<_>) { (0..count).map(|_| channel()).unzip() };
    let service = service_fn(|receiver| Told(receiver));
    match kind {
        "limit" => crowd(ConcurrencyLimit::new(Late, 1), count).await,
        "buffer" => buffered(Echo, 64, count).await,
        "in_flight" => buffered(Late, count, count).await,
        "call_all" => {
            let (senders, receivers) = channels();
            collected(senders, service.call_all(iter(receivers))).await
        }
        "call_all_unordered" => {
            let (senders, receivers) = channels();
            collected(senders, service.call_all(iter(receivers)).unordered()).await
        }
        "futures_unordered" => {
            let (senders, receivers) = channels();
            collected(senders, receivers.into_iter().map(Told).collect::<FuturesUnordered<_>>()).await
        }
        _ => panic!("no such kind"),
    }
}

pub fn all(kind: &str, count: u64, times: u64) {
    let pending = |service| PendingRequests::new(service, CompleteOnResponse::default());
    match kind {
        // Rounds of one task, with N endpoints that are always ready, or with N calls in flight through as many endpoints of one call each.
        "endpoints" => println!("sum {}", in_flight(Balance::new(ServiceList::new((0..count).map(|_| pending(Late)).collect::<Vec<_>>())), 64, count * times)),
        "endpoints_of_one" => {
            let one = || PendingRequests::new(ConcurrencyLimit::new(Late, 1), CompleteOnResponse::default());
            println!("sum {}", in_flight(Balance::new(ServiceList::new((0..count).map(|_| one()).collect::<Vec<_>>())), count, count * times))
        }
        _ => {
            let runtime = tokio::runtime::Builder::new_current_thread().build().expect("a runtime");
            for _ in 0..times {
                runtime.block_on(once(kind, count));
            }
            let [callers, workers, responses, answers] = [&CALLERS, &WORKERS, &RESPONSES, &ANSWERS].map(|polls| polls.load(Relaxed) / times);
            println!("{callers} polls of callers, {workers} of workers, {responses} of responses, {answers} answered");
        }
    }
}
