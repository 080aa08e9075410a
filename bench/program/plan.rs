//! Which cases are counted, how many calls each takes, and with which hash seeds.

use crate::calls::{state_named, Case};
use crate::{books, states};

pub const PORT: [&str; 13] = [
    "well", "validate", "initial", "step", "step2", "count1", "countk", "draw1", "drawk", "rank1", "rankk", "see0",
    "seeall",
];
/// What the Rust has no call for: the check of an image, and ranking.
pub const PORT_ALONE: [&str; 3] = ["well", "rank1", "rankk"];
/// The Rust's calls that neither build nor read a hash table's order.
const SEEDLESS: [&str; 4] = ["initial", "see0", "seeall", "clone"];
pub const FLOORS: [&str; 3] = ["copy", "pass", "words"];
pub const GROWTH_PORT: [&str; 6] = ["well", "step", "count1", "draw1", "rank1", "see0"];
pub const GROWTH_RUST: [&str; 4] = ["step", "count1", "draw1", "see0"];
pub const SETTINGS: [&str; 2] = ["longest", "endless"];
pub const BOOKS: [&str; 2] = ["bind", "page"];

/// How many calls: more of the cheap ones.
fn times(state: &str) -> u64 {
    if let Some(book) = books::named(state) {
        return (1_000_000 / book.words() as u64).clamp(2, 100);
    }
    let words = match state {
        "overlong" | "longest" | "endless" => 300,
        _ => state_named(state).words() as u64,
    };
    (60_000 / words).clamp(10, 1000)
}

fn line(side: &str, call: &str, state: &str, seeds: u64) -> Vec<String> {
    let seeds = if side == "rust" && !SEEDLESS.contains(&call) { seeds } else { 1 };
    (1..=seeds).map(|seed| format!("{side} {call} {state} {seed} {}", times(state))).collect()
}

/// One line a run: side, call, state, seed, calls.
pub fn plan(seeds: u64) -> Vec<String> {
    let mut all = Vec::new();
    for s in &states::five() {
        for call in PORT {
            all.extend(line("port", call, &s.name, seeds));
            if !PORT_ALONE.contains(&call) {
                all.extend(line("rust", call, &s.name, seeds));
            }
        }
        all.extend(line("rust", "clone", &s.name, seeds));
        for call in FLOORS {
            all.extend(line("floor", call, &s.name, seeds));
        }
    }
    for s in &states::growth() {
        for call in GROWTH_PORT {
            all.extend(line("port", call, &s.name, 1));
        }
        for call in GROWTH_RUST {
            all.extend(line("rust", call, &s.name, 1));
        }
        for call in FLOORS {
            all.extend(line("floor", call, &s.name, 1));
        }
    }
    for state in ["w30", "overlong"] {
        all.extend(line("port", "well", state, 1));
    }
    for state in SETTINGS {
        all.extend(line("port", "validate", state, 1));
        all.extend(line("rust", "validate", state, 1));
    }
    for book in &books::three() {
        for call in BOOKS {
            all.extend(line("port", call, book.name, 1));
        }
        all.extend(line("floor", "copy", book.name, 1));
    }
    all
}

/// A line of the plan taken apart: the case, its seed, its calls.
pub fn parse(words: &[&str]) -> Option<(Case, u64, u64)> {
    let [side, call, state, seed, times] = words else { return None };
    let case = Case { side: side.to_string(), call: call.to_string(), state: state.to_string() };
    Some((case, seed.parse().ok()?, times.parse().ok()?))
}
