//! Locks std's `Mutex` in several threads: `mutex_turns <threads> <turns> <microseconds>`, as `lock_bench` does with
//! `turn_lock`. Each thread locks it so often, counts one more, and sleeps so long within. Prints the count.
use std::sync::Mutex;
use std::thread::{scope, sleep};
use std::time::Duration;

fn main() {
    let numbers: Vec<u64> = std::env::args().skip(1).filter_map(|word| word.parse().ok()).collect();
    let &[threads, turns, pause] = numbers.as_slice() else {
        println!("usage");
        return;
    };
    let count = Mutex::new(0u64);
    scope(|scope| {
        for _ in 0..threads {
            scope.spawn(|| {
                for _ in 0..turns {
                    let mut guard = count.lock().unwrap();
                    *guard = guard.wrapping_add(1);
                    if pause > 0 {
                        sleep(Duration::from_micros(pause));
                    }
                }
            });
        }
    });
    println!("{}", count.into_inner().unwrap());
}
