// Threads that step an adding state under a mutex of the standard library, with the same history pushed under it.
// Usage: plain THREADS STEPS. Writes the steps made, and the nanoseconds of the fastest of several turns.
use std::sync::Mutex;
use std::thread;
use std::time::Instant;

const TURNS: u32 = 7;
const MOST_ENTRIES: usize = 400_000;

struct Added {
    amount: u32,
    total: u64,
}

struct Held {
    total: u64,
    history: Vec<(u32, Added)>,
}

enum Refused {
    Full(u32),
    Refused(u32),
}

struct Receipt {
    place: u64,
    reply: u64,
}

fn step(lock: &Mutex<Held>, number: u32, amount: u32) -> Result<Receipt, Refused> {
    let mut held = lock.lock().unwrap();
    let place = held.history.len();
    if place >= MOST_ENTRIES {
        return Err(Refused::Full(amount));
    }
    let Some(total) = held.total.checked_add(u64::from(amount)) else {
        return Err(Refused::Refused(amount));
    };
    held.total = total;
    held.history.push((number, Added { amount, total }));
    Ok(Receipt { place: place as u64, reply: total })
}

fn step_times(lock: &Mutex<Held>, number: u32, steps: u32) -> u64 {
    let mut made = 0;
    for _ in 0..steps {
        match step(lock, number, 1) {
            Ok(receipt) => made += u64::from(receipt.reply > receipt.place),
            Err(Refused::Full(amount) | Refused::Refused(amount)) => assert!(amount == 1),
        }
    }
    made
}

fn main() {
    let words: Vec<String> = std::env::args().collect();
    let threads: u32 = words[1].parse().unwrap();
    let steps: u32 = words[2].parse().unwrap();
    let mut least = u128::MAX;
    let mut made = 0;
    for _ in 0..TURNS {
        let lock = Mutex::new(Held { total: 0, history: Vec::with_capacity(MOST_ENTRIES) });
        let start = Instant::now();
        made = thread::scope(|scope| {
            let lock = &lock;
            let all: Vec<_> = (0..threads).map(|n| scope.spawn(move || step_times(lock, n, steps))).collect();
            all.into_iter().map(|one| one.join().unwrap()).sum()
        });
        least = least.min(start.elapsed().as_nanos());
        let held = lock.into_inner().unwrap();
        let sum: u64 = held.history.iter().map(|(_, added)| u64::from(added.amount)).sum();
        assert!(sum == held.total && held.history.last().map_or(0, |(_, added)| added.total) == sum);
        assert!(held.history.iter().all(|(number, _)| *number < threads));
    }
    println!("{made} steps by {threads} threads");
    println!("nanoseconds {least}");
}
