//! The bench: the published Rust and the port in one process, asked the same on the same states. bench/run counts its
//! instructions from outside; then the program times both itself.
//!
//! bench check                          both give the same answers on every state, or what differs
//! bench plan SEEDS                     the cases to count, a line each: side call state seed calls
//! bench run SIDE CALL STATE SEED CALLS a warm-up and so many calls
//! bench tables < FILE                  the tables, from the plan's lines with two counts each
//! bench seconds                        both timed, turn by turn: the table
//! bench states                         the images, a line each: name, food due, words
#![no_main]

mod books;
mod calls;
mod plan;
mod port;
mod rust;
mod same;
mod seconds;
#[allow(dead_code)]
#[path = "../../target/oracle/published/crates/reinfors-games/src/snake.rs"]
mod snake;
mod states;
mod tables;

use std::io::Read;
use std::sync::atomic::{AtomicU64, Ordering};

static SEED: AtomicU64 = AtomicU64::new(1);

/// The keys of the Rust's hash tables come from here and not from the system, so that a count can be taken again.
#[no_mangle]
pub extern "C" fn getrandom(into: *mut u8, len: usize, _flags: u32) -> isize {
    let mut x = SEED.load(Ordering::Relaxed);
    for i in 0..len {
        // Knuth's multiplier; the high bits are the good ones.
        x = x.wrapping_mul(6364136223846793005).wrapping_add(1442695040888963407);
        unsafe { *into.add(i) = (x >> 56) as u8 };
    }
    len as isize
}

fn asked(words: &[&str]) -> i32 {
    match words {
        ["check"] => i32::from(!same::check()),
        ["plan", seeds] => {
            let Ok(seeds) = seeds.parse() else { return 2 };
            println!("{}", plan::plan(seeds).join("\n"));
            0
        }
        ["run", case @ ..] => {
            let Some((case, seed, times)) = plan::parse(case) else { return 2 };
            SEED.store(seed, Ordering::Relaxed);
            calls::run(&case, times);
            0
        }
        ["tables"] => {
            let mut text = String::new();
            if std::io::stdin().read_to_string(&mut text).is_err() {
                return 2;
            }
            tables::print(&tables::Counts::read(&text));
            0
        }
        ["seconds"] => {
            seconds::print();
            0
        }
        ["states"] => {
            for s in states::five().iter().chain(&states::growth()) {
                for due in [0, 1, s.most()] {
                    let words: Vec<String> = s.image(due).iter().map(u16::to_string).collect();
                    println!("{} {due} {}", s.name, words.join(" "));
                }
            }
            0
        }
        _ => 2,
    }
}

/// C's own main: the emulator starts no other.
#[no_mangle]
pub extern "C" fn main(count: i32, words: *const *const std::ffi::c_char) -> i32 {
    let word = |i: i32| unsafe { std::ffi::CStr::from_ptr(*words.add(i as usize)) }.to_str().unwrap_or("");
    let all: Vec<&str> = (1..count).map(word).collect();
    asked(&all)
}
