// What threads.rattle times, in plain Rust: steps on atomic words, tokens that are moved through a channel of std, and
// words that several threads step on, side by side and 8 apart. A line for each of ten runs: what was done, how often,
// the nanoseconds it took.
use std::hint::black_box;
use std::sync::atomic::{AtomicU64, Ordering::SeqCst};
use std::sync::mpsc::sync_channel;
use std::thread;
use std::time::Instant;

const CALLS: u64 = 4_000_000;
const TOKENS: u64 = 1_000_000;
const RAISES: u64 = 1_000_000;

struct Token {
    channel: u32,
    cycle: u64,
    values: Vec<(u32, u128)>,
}

fn tell(name: &str, count: u64, start: Instant) {
    println!("{name} {count} {}", start.elapsed().as_nanos());
}

fn token(values: usize) -> Token {
    Token { channel: 0, cycle: 0, values: vec![(32, 0); values] }
}

fn take_and_give() {
    let (give, take) = sync_channel(2);
    give.send(token(16)).unwrap();
    let start = Instant::now();
    for cycle in 0..TOKENS {
        let mut token = black_box(take.recv().unwrap());
        token.cycle = cycle + 1;
        give.send(token).unwrap();
    }
    tell("take_and_give", TOKENS, start);
}

fn between_threads() {
    let (give, take) = sync_channel(4);
    let (hand_back, blanks) = sync_channel(4);
    for _ in 0..3 {
        hand_back.send(token(0)).unwrap();
    }
    let start = Instant::now();
    thread::scope(|scope| {
        scope.spawn(move || {
            for cycle in 0..TOKENS {
                let mut token: Token = blanks.recv().unwrap();
                token.cycle = cycle;
                give.send(token).unwrap();
            }
        });
        for cycle in 0..TOKENS {
            let token = take.recv().unwrap();
            assert!(token.cycle == cycle && token.channel == 0 && token.values.is_empty());
            let _ = hand_back.send(token);
        }
    });
    tell("between_threads", TOKENS, start);
}

fn steps(name: &str, step: impl Fn(&AtomicU64) -> u64) {
    let word = AtomicU64::new(0);
    let start = Instant::now();
    for _ in 0..CALLS {
        black_box(step(black_box(&word)));
    }
    tell(name, CALLS, start);
}

// Each of so many leaders raises a word of its own on a thread of its own, and looks at the fire word each time.
fn leaders(name: &str, count: usize, stride: usize) {
    let words: Vec<AtomicU64> = (0..(count + 1) * stride).map(|_| AtomicU64::new(0)).collect();
    let start = Instant::now();
    thread::scope(|scope| {
        for number in 1..=count {
            let words = &words;
            scope.spawn(move || {
                for _ in 0..RAISES {
                    black_box(words[0].load(SeqCst));
                    words[number * stride].fetch_add(2, SeqCst);
                }
            });
        }
    });
    tell(name, RAISES, start);
}

fn main() {
    for _ in 0..10 {
        take_and_give();
        between_threads();
        steps("fetch_add", |word| word.fetch_add(2, SeqCst));
        steps("load", |word| word.load(SeqCst));
        for count in [2, 4] {
            leaders(&format!("{count}_leaders_side_by_side"), count, 1);
            leaders(&format!("{count}_leaders_8_apart"), count, 8);
        }
    }
}
