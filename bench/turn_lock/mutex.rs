//! The same as `bench turns` with a plain mutex: `mutex THREADS TURNS`.
use std::sync::Mutex;
use std::{env, thread};

struct Counter {
    turns: u64,
}

fn main() {
    let words: Vec<usize> = env::args().skip(1).map(|word| word.parse().expect("a number")).collect();
    let (threads, turns) = (words[0], words[1]);
    let counter = Mutex::new(Counter { turns: 0 });
    thread::scope(|scope| {
        for _ in 0..threads {
            scope.spawn(|| {
                for _ in 0..turns {
                    let mut counter = counter.lock().expect("no panic");
                    counter.turns = counter.turns.wrapping_add(1);
                }
            });
        }
    });
    println!("{}", counter.lock().expect("no panic").turns);
}
