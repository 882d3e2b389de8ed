//! What a lock's waiters wait, in plain Rust, for comparison alone (tools/lock-bench --longest).
//!
//! As many threads as the first word says make as many steps, in all, as the second says, through one mutex: each appends
//! an entry of 24 octets to a history under the lock, and one to a list of its own. Printed are the nanoseconds that the
//! longest step took, its wait for the lock with it.
use std::sync::Mutex;
use std::time::Instant;

/// An entry, as wide as those that a set keeps.
type Entry = [u8; 24];

/// One thread's steps: the nanoseconds of the longest.
fn longest(history: &Mutex<Vec<Entry>>, steps: u64) -> u128 {
    let mut receipts = Vec::new();
    let mut most = 0;
    for step in 0..steps {
        let since = Instant::now();
        let entry = [step as u8; 24];
        receipts.reserve(1);
        history.lock().unwrap().push(entry);
        receipts.push(entry);
        most = most.max(since.elapsed().as_nanos());
    }
    most
}

fn main() {
    let words: Vec<u64> = std::env::args().skip(1).map(|it| it.parse().unwrap()).collect();
    let [threads, steps] = words[..] else { panic!("lock THREADS STEPS") };
    let history = Mutex::new(Vec::new());
    let most = std::thread::scope(|scope| {
        let started: Vec<_> = (0..threads).map(|_| scope.spawn(|| longest(&history, steps / threads))).collect();
        started.into_iter().map(|it| it.join().unwrap()).max()
    });
    println!("{}", most.unwrap_or(0));
}
