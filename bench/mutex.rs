// Takes turns at a mutex of Rust's std by so many threads, so many by each, as `ipam_bench` does at a turn lock.
use std::sync::Mutex;
use std::thread;
use std::time::Instant;

fn main() {
    let mut numbers = std::env::args().skip(1).map(|word| word.parse::<u64>().unwrap());
    let (threads, turns) = (numbers.next().unwrap(), numbers.next().unwrap());
    let tally = Mutex::new(0u64);
    let start = Instant::now();
    thread::scope(|scope| {
        for _ in 0..threads {
            scope.spawn(|| {
                for _ in 0..turns {
                    let mut made = tally.lock().unwrap();
                    *made = std::hint::black_box(made.wrapping_add(1));
                }
            });
        }
    });
    eprintln!("{} ns", start.elapsed().as_nanos());
    println!("{}", tally.into_inner().unwrap());
}
