//! The search for set bytes by itself: the library's, the same in plain Rust, and the one that plain Rust has,
//! which looks at each byte. All go from set byte to set byte to the end; the time is for one byte.

use crate::{best_times_of, plain, LEAST_ROUNDS};
use against::{independent, next_set};
use std::hint::black_box;
use std::iter;
use std::time::{Duration, Instant};

const LENGTH: usize = 64 << 10;

type Search = fn(&[u8], usize) -> usize;

pub fn measure_all() {
    println!("In plain Rust is the library's own search, by words; `position` looks at each byte.");
    println!("The ratios are those of the library's time to the other two, in their order.");
    print!("{:<27} {:>9} {:>5}", "bytes", "length", "set");
    print!(" {:>13} {:>13} {:>13}", "library", "plain Rust", "position");
    println!(" {:>6} {:>6}", "ratio", "ratio");
    measure("zeros", &[0; LENGTH]);
    measure("one byte in 4096 set", &sparse());
}

/// Bytes of which one in 4096 is set.
fn sparse() -> [u8; LENGTH] {
    let mut bytes = [0; LENGTH];
    for byte in bytes.iter_mut().skip(1003).step_by(4096) {
        *byte = 1;
    }
    bytes
}

fn by_position(bytes: &[u8], start: usize) -> usize {
    let ahead = bytes[start..].iter().position(|&byte| byte != 0);
    ahead.map_or(bytes.len(), |ahead| start + ahead)
}

/// The places of set bytes, each found from behind the last one.
fn set_places(search: Search, bytes: &[u8]) -> impl Iterator<Item = usize> + '_ {
    let found = move |start| Some(search(bytes, start)).filter(|&place| place < bytes.len());
    iter::successors(found(0), move |place| found(place + 1))
}

/// Prints a line, after a look at whether all find what the independent program does.
fn measure(name: &str, bytes: &[u8]) {
    let set: Vec<usize> = set_places(independent::next_set, bytes).collect();
    let searches: [Search; 3] = [next_set, plain::next_set, by_position];
    for search in searches {
        assert!(set_places(search, bytes).eq(set.iter().copied()), "{name}");
    }
    let [library, plain, position] = best_times_of(
        LEAST_ROUNDS,
        [
            &mut |calls| time(searches[0], bytes, calls),
            &mut |calls| time(searches[1], bytes, calls),
            &mut |calls| time(searches[2], bytes, calls),
        ],
    )
    .map(|call| call / bytes.len() as f64);
    let ratios = [library / plain, library / position];
    print!("{name:<27} {:>9} {:>5}", bytes.len(), set.len());
    print!(" {library:>8.4} ns/B {plain:>8.4} ns/B {position:>8.4} ns/B");
    println!(" {:>6.2} {:>6.2}", ratios[0], ratios[1]);
}

/// Goes over the bytes so many times.
fn time(search: Search, bytes: &[u8], calls: usize) -> Duration {
    let start = Instant::now();
    for _ in 0..calls {
        black_box(set_places(search, black_box(bytes)).last());
    }
    start.elapsed()
}
