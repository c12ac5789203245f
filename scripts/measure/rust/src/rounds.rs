//! Rounds of the stacks of `tower-bench`, over services that are always ready.
use futures::future::{ready, Ready};
use std::fmt::Debug;
use std::future::Future;
use std::mem::{size_of, size_of_val};
use std::pin::{pin, Pin};
use std::sync::atomic::{AtomicBool, Ordering};
use std::sync::Arc;
use std::task::{Context, Poll};
use std::time::Duration;
use tower::balance::p2c::Balance;
use tower::discover::ServiceList;
use tower::load::{CompleteOnResponse, Constant, PendingRequests};
use tower::retry::budget::{Budget, TpsBudget};
use tower::retry::{Policy, Retry};
use tower::{filter::Filter, limit::rate::Rate, limit::ConcurrencyLimit, limit::RateLimit, load_shed::LoadShed};
use tower::{reconnect::Reconnect, spawn_ready::SpawnReady, steer::Steer, timeout::Timeout};
use tower::{Service, ServiceBuilder, ServiceExt};

#[derive(Debug)]
pub struct Lost(#[allow(dead_code)] u64);
impl std::fmt::Display for Lost {
    fn fmt(&self, f: &mut std::fmt::Formatter<'_>) -> std::fmt::Result {
        f.write_str("lost")
    }
}
impl std::error::Error for Lost {}

/// Answers at once (`Echo`), or at the second poll (`Late`), which its first poll wakes.
#[derive(Clone)]
pub struct Echo;
#[derive(Clone)]
pub struct Late;
pub struct LateFuture {
    request: u64,
    is_polled: bool,
}
impl Future for LateFuture {
    type Output = Result<u64, Lost>;
    fn poll(mut self: Pin<&mut Self>, cx: &mut Context<'_>) -> Poll<Self::Output> {
        if self.is_polled {
            return Poll::Ready(Ok(self.request));
        }
        self.is_polled = true;
        cx.waker().wake_by_ref();
        Poll::Pending
    }
}
/// Makes a service anew, for `Reconnect`.
struct Maker<S>(S);
/// Fails every other call.
#[derive(Clone)]
struct Failing(Arc<AtomicBool>);
macro_rules! service {
    ([$($s:ident)?] $name:ty, $request:ty, $response:ty, $future:ty, |$this:ident, $number:ident| $called:expr) => {
        impl<$($s: Clone)?> Service<$request> for $name {
            type Response = $response;
            type Error = Lost;
            type Future = $future;
            fn poll_ready(&mut self, _: &mut Context<'_>) -> Poll<Result<(), Lost>> {
                Poll::Ready(Ok(()))
            }
            fn call(&mut self, $number: $request) -> Self::Future {
                let $this = self;
                $called
            }
        }
    };
}
service!([] Echo, u64, u64, Ready<Result<u64, Lost>>, |_this, number| ready(Ok(number)));
service!([] Late, u64, u64, LateFuture, |_this, request| LateFuture { request, is_polled: false });
service!([S] Maker<S>, u64, S, Ready<Result<S, Lost>>, |this, _number| ready(Ok(this.0.clone())));
service!([] Failing, u64, u64, Ready<Result<u64, Lost>>, |this, number| ready(if this.0.fetch_xor(true, Ordering::Relaxed) { Err(Lost(number)) } else { Ok(number) }));

/// Pays for retries by a budget.
#[derive(Clone)]
pub struct Paying(pub Arc<TpsBudget>);
impl<E> Policy<u64, u64, E> for Paying {
    type Future = Ready<()>;
    fn retry(&mut self, _: &mut u64, outcome: &mut Result<u64, E>) -> Option<Ready<()>> {
        if outcome.is_ok() {
            self.0.deposit();
            return None;
        }
        self.0.withdraw().then(|| ready(()))
    }
    fn clone_request(&mut self, request: &u64) -> Option<u64> {
        Some(*request)
    }
}
pub fn paying(part: f32) -> Paying {
    Paying(Arc::new(TpsBudget::new(Duration::from_secs(10), 10, part)))
}

/// How a service is driven: by rounds, in flight, or once for its sizes.
trait Course {
    fn run<S: Service<u64, Response = u64>>(&self, service: S) -> u64
    where
        S::Error: Debug;
}
struct AtOnce(u64);
impl Course for AtOnce {
    fn run<S: Service<u64, Response = u64>>(&self, mut service: S) -> u64
    where
        S::Error: Debug,
    {
        let cx = &mut Context::from_waker(futures::task::noop_waker_ref());
        let mut sum = 0u64;
        for number in 0..self.0 {
            if service.poll_ready(cx).is_ready() {
                if let Poll::Ready(Ok(response)) = pin!(service.call(number ^ sum)).poll(cx) {
                    sum = sum.wrapping_add(response);
                }
            }
        }
        sum
    }
}
struct InFlight(u64);
impl Course for InFlight {
    fn run<S: Service<u64, Response = u64>>(&self, service: S) -> u64
    where
        S::Error: Debug,
    {
        in_flight(service, 64, self.0)
    }
}
/// Rounds over a table of responses under way: each takes the answer of the oldest, and puts a new one into its place.
pub fn in_flight<S: Service<u64, Response = u64>>(mut service: S, places: u64, count: u64) -> u64 {
    let cx = &mut Context::from_waker(futures::task::noop_waker_ref());
    let mut table: Vec<Pin<Box<Option<S::Future>>>> = (0..places).map(|_| Box::pin(None)).collect();
    let mut sum = 0u64;
    for number in 0..count {
        let place = &mut table[(number % places) as usize];
        if let Some(future) = place.as_mut().as_pin_mut() {
            let Poll::Ready(answer) = future.poll(cx) else { continue };
            place.set(None);
            sum = sum.wrapping_add(answer.unwrap_or(0));
        }
        if !service.poll_ready(cx).is_ready() {
            continue;
        }
        place.set(Some(service.call(number ^ sum)));
        if let Some(Poll::Ready(answer)) = place.as_mut().as_pin_mut().map(|future| future.poll(cx)) {
            place.set(None);
            sum = sum.wrapping_add(answer.unwrap_or(0));
        }
    }
    sum
}
struct Sizes(&'static str);
impl Course for Sizes {
    fn run<S: Service<u64, Response = u64>>(&self, service: S) -> u64
    where
        S::Error: Debug,
    {
        println!("{}: service {}, place {}", self.0, size_of_val(&service), size_of::<Option<S::Future>>());
        0
    }
}

/// The stack of a name over `inner`, with so many calls in flight, driven by the course.
fn stack<S, C>(name: &str, inner: S, most: usize, course: &C) -> u64
where
    S: Service<u64, Response = u64, Error = Lost, Future: Unpin + Send> + Clone + Send + 'static,
    C: Course,
{
    let (ten, wide) = (Duration::from_secs(10), Rate::new(65536, Duration::from_nanos(1 << 60)));
    match name {
        "direct" => course.run(inner),
        "timeout" => course.run(Timeout::new(inner, ten)),
        "rate_limit" => course.run(RateLimit::new(inner, wide)),
        "concurrency_limit" => course.run(ConcurrencyLimit::new(inner, most)),
        "load_shed" => course.run(LoadShed::new(inner)),
        "all" => course.run(ServiceBuilder::new().timeout(ten).load_shed().concurrency_limit(most).rate_limit(65536, Duration::from_nanos(1 << 60)).service(inner)),
        "retry_budget" => course.run(Retry::new(paying(0.2), inner)),
        "steer_8" => course.run(Steer::new(vec![inner; 8], |request: &u64, _: &[S]| (*request % 8) as usize)),
        "filter" => course.run(Filter::new(inner, |request: u64| Ok::<u64, Lost>(request))),
        "reconnect" => course.run(Reconnect::with_connection(inner.clone(), Maker(inner), 0u64)),
        "maps_5" => course.run(
            inner
                .map_request(|request: u64| request.wrapping_add(1))
                .map_response(|response: u64| response.wrapping_add(2))
                .map_err(|error: Lost| Lost(error.0.wrapping_add(3)))
                .then(|answer: Result<u64, Lost>| ready(answer))
                .and_then(|response: u64| ready(Ok::<u64, Lost>(response.wrapping_add(4)))),
        ),
        "balance_p2c_64_constant" => course.run(Balance::new(ServiceList::new((0..64).map(|_| Constant::new(inner.clone(), 0u64)).collect::<Vec<_>>()))),
        "balance_p2c_64_pending_requests" => {
            course.run(Balance::new(ServiceList::new((0..64).map(|_| PendingRequests::new(inner.clone(), CompleteOnResponse::default())).collect::<Vec<_>>())))
        }
        "spawn_ready" => course.run(SpawnReady::new(inner)),
        _ => panic!("no such line"),
    }
}

/// The rounds of a line, and the sum of their responses.
pub fn sum(name: &str, count: u64) -> u64 {
    match (name, name.strip_prefix("flight_64_")) {
        (_, Some(name)) => stack(name, Late, 64, &InFlight(count)),
        ("retry_budget_one_retry", _) => AtOnce(count).run(Retry::new(paying(1.0), Failing(Arc::new(AtomicBool::new(true))))),
        ("buffer_64", _) => buffered(count),
        ("semaphore_take_give", _) => permits(count),
        _ => stack(name, Echo, 1, &AtOnce(count)),
    }
}

fn buffered(count: u64) -> u64 {
    let cx = &mut Context::from_waker(futures::task::noop_waker_ref());
    let (mut buffer, worker) = tower::buffer::Buffer::pair(Echo, 64);
    let (mut worker, mut sum) = (pin!(worker), 0u64);
    for number in 0..count {
        if buffer.poll_ready(cx).is_ready() {
            let future = pin!(buffer.call(number ^ sum));
            let _ = worker.as_mut().poll(cx);
            if let Poll::Ready(Ok(response)) = future.poll(cx) {
                sum = sum.wrapping_add(response);
            }
        }
    }
    sum
}

fn permits(count: u64) -> u64 {
    let cx = &mut Context::from_waker(futures::task::noop_waker_ref());
    let mut asking = tokio_util::sync::PollSemaphore::new(Arc::new(tokio::sync::Semaphore::new(1)));
    (0..count).filter(|_| matches!(asking.poll_acquire(cx), Poll::Ready(Some(_)))).sum()
}

pub fn sizes() {
    for name in ["direct", "timeout", "rate_limit", "concurrency_limit", "load_shed", "all", "retry_budget", "steer_8", "filter", "reconnect", "maps_5",
        "balance_p2c_64_pending_requests", "spawn_ready"]
    {
        stack(name, Late, 64, &Sizes(name));
    }
}
