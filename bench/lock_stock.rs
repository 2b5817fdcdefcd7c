//! The work of the program crates/lock_bench in stock Rust: under a `std::sync::Mutex`, or under a ticket lock that
//! loads so often before it yields the processor between loads.
use std::cell::UnsafeCell;
use std::env;
use std::hint;
use std::sync::Mutex;
use std::sync::atomic::{AtomicU64, Ordering::SeqCst};
use std::thread;

fn work(seed: u64, rounds: u32) -> u64 {
    let mut state = seed;
    for _ in 0..rounds {
        state ^= state << 13;
        state ^= state >> 7;
        state ^= state << 17;
    }
    state
}

#[derive(Default)]
struct Busy {
    entries: Vec<(u64, u64)>,
    sum: u64,
    mixed: u64,
}

impl Busy {
    fn apply(&mut self, caller: u64, amount: u64, rounds: u32) -> u64 {
        self.mixed ^= work(amount, rounds);
        self.entries.push((caller, amount));
        self.sum += amount;
        self.sum
    }
}

struct Ticket {
    drawn: AtomicU64,
    served: AtomicU64,
    looks: u32,
    busy: UnsafeCell<Busy>,
}

unsafe impl Sync for Ticket {}

impl Ticket {
    fn apply(&self, caller: u64, amount: u64, rounds: u32) -> u64 {
        let ticket = self.drawn.fetch_add(1, SeqCst);
        let mut looks = 0;
        while self.served.load(SeqCst) != ticket {
            if looks < self.looks {
                looks += 1;
                hint::spin_loop();
            } else {
                thread::yield_now();
            }
        }
        let sum = unsafe { &mut *self.busy.get() }.apply(caller, amount, rounds);
        self.served.fetch_add(1, SeqCst);
        sum
    }
}

fn run(threads: u64, acts: u32, outside: u32, act: impl Fn(u64, u64) -> u64 + Sync) -> u64 {
    thread::scope(|scope| {
        let act = &act;
        let workers: Vec<_> = (0..threads)
            .map(|caller| {
                scope.spawn(move || {
                    let mut mixed = 0;
                    for at in 0..acts as u64 {
                        let amount = at + 1;
                        mixed ^= work(amount, outside);
                        act(caller, amount);
                    }
                    mixed
                })
            })
            .collect();
        workers.into_iter().fold(0, |all, worker| all ^ worker.join().unwrap())
    })
}

fn main() {
    let words: Vec<String> = env::args().skip(1).collect();
    let number = |i: usize| words[i].parse::<u32>().unwrap();
    let (threads, acts, outside, inside) = (number(1) as u64, number(2), number(3), number(4));
    let (mixed, busy) = if words[0] == "mutex" {
        let busy = Mutex::new(Busy::default());
        let mixed = run(threads, acts, outside, |caller, amount| {
            busy.lock().unwrap().apply(caller, amount, inside)
        });
        (mixed, busy.into_inner().unwrap())
    } else {
        let ticket = Ticket {
            drawn: AtomicU64::new(0),
            served: AtomicU64::new(0),
            looks: words[0].parse().unwrap(),
            busy: UnsafeCell::default(),
        };
        let mixed = run(threads, acts, outside, |caller, amount| {
            ticket.apply(caller, amount, inside)
        });
        (mixed, ticket.busy.into_inner())
    };
    println!("{} acts, all entered: true, {mixed}, {}", busy.entries.len(), busy.mixed);
}
