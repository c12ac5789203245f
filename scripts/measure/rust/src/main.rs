//! What docs/SPEED.md measures beside this library: the Rust's tower 0.5.3 over tokio. Built by scripts/measure/rust/build.sh.
//!
//!     rust-tower rounds NAME N               N rounds of a line of `tower-bench`, by its name there
//!     rust-tower sizes                       bytes of each middleware's service and response, as `tower-bench sizes` prints them
//!     rust-tower threads CALLS THREADS       the lines of `bench-threads CALLS THREADS`
//!     rust-tower growth KIND N TIMES         the polls of a crowd of N, made TIMES times, as scripts/measure/speed.py counts them
mod growth;
mod rounds;
mod threads;

fn main() {
    let words: Vec<String> = std::env::args().skip(1).collect();
    let number = |at: usize| words[at].parse::<u64>().expect("a number");
    // The clock stands still in counted rounds, so that no timer comes due.
    let still = || tokio::runtime::Builder::new_current_thread().enable_time().start_paused(true).build().expect("a runtime");
    match words.iter().map(String::as_str).collect::<Vec<_>>()[..] {
        ["rounds", name, _] => {
            let clock = still();
            let _inside = clock.enter();
            println!("{name} {} sum {}", words[2], rounds::sum(name, number(2)));
        }
        ["sizes"] => {
            let clock = still();
            let _inside = clock.enter();
            rounds::sizes();
        }
        ["threads", _, _] => threads::all(number(1), number(2)),
        ["growth", kind, _, _] => growth::all(kind, number(2), number(3)),
        _ => eprintln!("usage: rust-tower rounds NAME N | sizes | threads CALLS THREADS | growth KIND N TIMES"),
    }
}
