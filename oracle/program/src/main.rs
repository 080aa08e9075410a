//! The oracle: the published rules of the arena behind the probe's lines and the replay's.

mod books;
mod calls;
mod differ;
mod differences;
mod fields;
mod gen;
mod images;
mod match_stats;
mod matches;
mod paper;
mod paper_books;
mod paper_faults;
mod paper_rules;
mod paper_struck;
mod probe;
mod random;
mod replay;
mod rust;
#[allow(dead_code)]
#[path = "../../../target/oracle/published/crates/reinfors-games/src/snake.rs"]
mod snake;
mod stats;

use std::fs;
use std::io::{self, BufRead, Read, Write};
use std::path::Path;

/// Answers the calls on standard input, line by line.
fn answer_calls() -> io::Result<()> {
    let mut input = io::stdin().lock();
    let mut out = io::BufWriter::new(io::stdout().lock());
    let mut line = Vec::new();
    while input.read_until(b'\n', &mut line)? > 0 {
        writeln!(out, "{}", probe::answer(line.strip_suffix(b"\n").unwrap_or(&line)))?;
        line.clear();
    }
    out.flush()
}

fn whole_input() -> io::Result<Vec<u8>> {
    let mut bytes = Vec::new();
    io::stdin().read_to_end(&mut bytes)?;
    Ok(bytes)
}

fn number(text: &str) -> u64 {
    text.parse().unwrap_or_else(|_| usage())
}

fn usage() -> ! {
    eprintln!(
        "usage: oracle                            answer the calls on standard input
       oracle gen N SEED [OPS [SIZE]]    N calls; OPS is their letters, or all, or 01 for those of document 01,
                                         or faults for calls on damaged images alone;
                                         SIZE is the longest line in bytes, or full for the largest image and
                                         for books of more than 65,535 words alone
       oracle stats                      how often each answer comes to the calls on standard input
       oracle replay                     what the replay program prints for standard input
       oracle genreplay N SEED           N replay inputs, as a file of matches
       oracle genmatches SEED            a match for each side and number of snakes, and long ones
       oracle answers                    what the program matches prints for a file of matches
       oracle matchstats                 what a file of matches reaches
       oracle replays                    a file of matches on standard input, with its answers
       oracle split DIR                  the same, each match as DIR/NAME.in and DIR/NAME.out
       oracle differ CALLS WANT GOT      two files of answers held against each other
       oracle differences                refused calls made on the Rust itself"
    );
    std::process::exit(2)
}

fn generate(count: u64, seed: u64, ops: &str, size: gen::Size) -> io::Result<()> {
    let all = [gen::BASE, gen::LATER].concat();
    let letters = match ops {
        "all" => &all,
        "01" => gen::BASE,
        "faults" => gen::FAULTS,
        letters => letters,
    };
    if letters.is_empty() || !letters.chars().all(|letter| all.contains(letter)) {
        usage();
    }
    let mut generator = gen::Generator::new(seed, letters, size);
    let mut out = io::BufWriter::new(io::stdout().lock());
    for _ in 0..count {
        out.write_all(&generator.line())?;
        out.write_all(b"\n")?;
    }
    out.flush()
}

fn count_answers() -> io::Result<()> {
    let input = whole_input()?;
    let mut stats = stats::Stats::default();
    for line in fields::lines(&input) {
        stats.add(line, &probe::answer(line));
    }
    io::stdout().write_all(stats.print().as_bytes())
}

fn generate_wide_and_long(seed: u64) -> io::Result<()> {
    let mut out = io::BufWriter::new(io::stdout().lock());
    for entry in matches::wide_and_long(seed) {
        out.write_all(&matches::print_entry(&entry))?;
    }
    out.flush()
}

/// Each match's name and its replay.
fn answer_stored() -> io::Result<()> {
    let mut out = io::BufWriter::new(io::stdout().lock());
    for entry in matches::read_entries(&whole_input()?) {
        write!(out, "= {}\n{}", entry.name, replay::replay(&entry.input))?;
    }
    out.flush()
}

fn count_matches() -> io::Result<()> {
    let mut stats = match_stats::MatchStats::default();
    for entry in matches::read_entries(&whole_input()?) {
        stats.add(&entry);
    }
    io::stdout().write_all(stats.print().as_bytes())
}

fn generate_matches(count: u64, seed: u64) -> io::Result<()> {
    let mut inputs = matches::Inputs::new(seed);
    let mut out = io::BufWriter::new(io::stdout().lock());
    for i in 0..count {
        let entry = matches::Entry { name: i.to_string(), input: inputs.next() };
        out.write_all(&matches::print_entry(&entry))?;
    }
    out.flush()
}

fn answer_matches() -> io::Result<()> {
    let mut out = io::BufWriter::new(io::stdout().lock());
    for entry in matches::read_entries(&whole_input()?) {
        out.write_all(&matches::print_entry(&entry))?;
        out.write_all(matches::print_answer(&replay::replay(&entry.input)).as_bytes())?;
    }
    out.flush()
}

fn split_matches(dir: &Path) -> io::Result<()> {
    for entry in matches::read_entries(&whole_input()?) {
        fs::write(dir.join(format!("{}.in", entry.name)), &entry.input)?;
        fs::write(dir.join(format!("{}.out", entry.name)), replay::replay(&entry.input))?;
    }
    Ok(())
}

/// Exits with status 1 where an answer differs.
fn differ_files(calls: &str, want: &str, got: &str) -> io::Result<()> {
    let (text, same, differing) = differ::differ(&fs::read(calls)?, &fs::read(want)?, &fs::read(got)?);
    print!("{text}");
    println!("{same} same, {differing} differ");
    std::process::exit(i32::from(differing > 0))
}

fn main() -> io::Result<()> {
    let words: Vec<String> = std::env::args().skip(1).collect();
    let words: Vec<&str> = words.iter().map(String::as_str).collect();
    match words.as_slice() {
        [] => answer_calls(),
        ["gen", n, seed] => generate(number(n), number(seed), "all", gen::Size::Any),
        ["gen", n, seed, ops] => generate(number(n), number(seed), ops, gen::Size::Any),
        ["gen", n, seed, ops, "full"] => generate(number(n), number(seed), ops, gen::Size::Full),
        ["gen", n, seed, ops, most] => {
            generate(number(n), number(seed), ops, gen::Size::UpTo(number(most) as usize))
        }
        ["stats"] => count_answers(),
        ["replay"] => io::stdout().write_all(replay::replay(&whole_input()?).as_bytes()),
        ["genreplay", n, seed] => generate_matches(number(n), number(seed)),
        ["genmatches", seed] => generate_wide_and_long(number(seed)),
        ["answers"] => answer_stored(),
        ["matchstats"] => count_matches(),
        ["replays"] => answer_matches(),
        ["split", dir] => split_matches(Path::new(dir)),
        ["differ", calls, want, got] => differ_files(calls, want, got),
        ["differences"] => io::stdout().write_all(differences::print().as_bytes()),
        _ => usage(),
    }
}
