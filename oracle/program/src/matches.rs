//! Replay inputs made from a seed, and the file format that holds many of them.
//!
//! A file of matches is lines, each with a mark and a space before its text:
//! `= NAME` begins a match, `> TEXT` is a line of its input, `~ TEXT` is a last line of input whose
//! newline is missing, and `< TEXT` is a line of the answer. Text is any bytes but a newline.

use crate::fields::lines;
use crate::gen::{Generator, Size};
use crate::images;
use crate::paper::{self, Setting, State};
use crate::random::Random;
use crate::replay::Match;

// ---- the file format

pub struct Entry {
    pub name: String,
    pub input: Vec<u8>,
}

/// The matches of a file; answers in it are passed over.
pub fn read_entries(file: &[u8]) -> Vec<Entry> {
    let mut entries: Vec<Entry> = Vec::new();
    for line in lines(file) {
        let (mark, text) = line.split_at(line.len().min(2));
        if mark == b"= " {
            let name = String::from_utf8_lossy(text).into_owned();
            entries.push(Entry { name, input: Vec::new() });
            continue;
        }
        let input = &mut entries.last_mut().expect("a file of matches begins with '= NAME'").input;
        match mark {
            b"> " => {
                input.extend(text);
                input.push(b'\n');
            }
            b"~ " => input.extend(text),
            b"< " => {}
            _ => panic!("a line with no mark: {}", String::from_utf8_lossy(line)),
        }
    }
    entries
}

pub fn print_entry(entry: &Entry) -> Vec<u8> {
    let mut out = format!("= {}\n", entry.name).into_bytes();
    let mut rest = entry.input.as_slice();
    while !rest.is_empty() {
        let end = rest.iter().position(|&b| b == b'\n');
        let text = &rest[..end.unwrap_or(rest.len())];
        out.extend(if end.is_some() { b"> " } else { b"~ " });
        out.extend(text);
        out.push(b'\n');
        rest = &rest[end.map_or(rest.len(), |at| at + 1)..];
    }
    out
}

/// An answer as the file has it.
pub fn print_answer(answer: &str) -> String {
    answer.lines().map(|line| format!("< {line}\n")).collect()
}

// ---- inputs from a seed

pub struct Inputs {
    rng: Random,
    settings: Generator,
}

impl Inputs {
    pub fn new(seed: u64) -> Self {
        Inputs { rng: Random::new(seed), settings: Generator::new(seed, "v", Size::Any) }
    }

    /// One input: two in five are matches that the lead ends, one in eight of them with something wrong; the others are matches
    /// played for a while or to their end, half of them with something wrong.
    pub fn next(&mut self) -> Vec<u8> {
        let led = self.rng.below(5) < 2;
        let mut lines = if led {
            self.led()
        } else if self.rng.once_in(8) {
            let setting = self.settings.any_setting();
            vec![setting.print().into_bytes()]
        } else {
            self.played()
        };
        if self.rng.once_in(if led { 8 } else { 2 }) {
            self.spoil(&mut lines);
        }
        let mut input = lines.join(&b'\n');
        if !lines.is_empty() && !self.rng.once_in(4) {
            input.push(b'\n');
        }
        input
    }

    fn played(&mut self) -> Vec<Vec<u8>> {
        let rng = &mut self.rng;
        let setting = images::accepted(rng);
        let most = if rng.once_in(3) { rng.below(12) } else { 80 };
        played(rng, setting, most, images::sensible).0
    }

    /// A match that the lead ends.
    fn led(&mut self) -> Vec<Vec<u8>> {
        let rng = &mut self.rng;
        loop {
            let side = rng.between(3, 12) as u16;
            let setting = images::setting_for(rng, 2, side).filter(|s| s.win_food_lead.is_some());
            let Some(setting) = setting else { continue };
            let (lines, game) = played(rng, setting, 200, images::sensible);
            if game.led() {
                return lines;
            }
        }
    }

    fn spoil(&mut self, lines: &mut Vec<Vec<u8>>) {
        let rng = &mut self.rng;
        let at = rng.below(lines.len() as u64) as usize;
        let odd: &[&[u8]] = &[
            b"",
            b" ",
            b"d",
            b"m",
            b"d ",
            b"d 0 0",
            b"d -1",
            b"d 00",
            b"d 18446744073709551616",
            b"d 18446744073709551615",
            b"d 1000000",
            b"d 0",
            b"m 0 0",
            b"m 0 0 0",
            b"m 3 0",
            b"m 0 3",
            b"m 0 18446744073709551616",
            b"m 0",
            b"m  0 0",
            b"M 0 0",
            b"p",
            b"d 0\r",
            b"m 0\t0",
            b"\xff",
        ];
        match rng.below(12) {
            0 | 1 => lines.push(rng.pick(odd).to_vec()),
            2 => lines.insert(at, rng.pick(odd).to_vec()),
            3 => lines[at] = rng.pick(odd).to_vec(),
            4 => drop(lines.remove(at)),
            5 => {
                let again = lines[at].clone();
                lines.insert(at, again);
            }
            6 => change_byte(rng, &mut lines[at]),
            7 => {
                // as long as a line may be, and one byte more
                let length = rng.between(199, 202) as usize;
                let mut long = b"d 1".to_vec();
                long.resize(length, b'0');
                lines.insert(at.max(1), long);
            }
            8 => lines[0] = spoiled_setting(rng, &lines[0]),
            9 => lines[at].extend(*rng.pick(&[b" ", b"\r", b"\t"])),
            10 => lines[at].extend(b" 0"),
            _ => {
                let last = rng.below(lines.len() as u64 + 1) as usize;
                lines.truncate(last);
            }
        }
    }
}

/// The lines of a match, its draws and moves as they come, at most so many after the first; and the match.
fn played(
    rng: &mut Random,
    setting: Setting,
    most: u64,
    choose: fn(&mut Random, &State) -> Vec<u64>,
) -> (Vec<Vec<u8>>, Match) {
    let mut lines = vec![setting.print().into_bytes()];
    let (mut game, _) = Match::start(setting).expect("accepted");
    for _ in 0..most {
        if game.over {
            break;
        }
        lines.push(if game.state.due > 0 {
            let count = paper::count(&game.state).expect("bounded by the setting");
            let index = rng.below(count);
            game.draw(index).expect("an index below the count");
            format!("d {index}").into_bytes()
        } else {
            let actions = choose(rng, &game.state);
            game.play(&actions).expect("a legal move");
            move_line(&actions)
        });
    }
    (lines, game)
}

fn whole(name: String, lines: &[Vec<u8>]) -> Entry {
    let mut input = lines.join(&b'\n');
    input.push(b'\n');
    Entry { name, input }
}

/// A match for each side from 3 to 32 with each number of snakes that some setting accepts there; then long ones.
pub fn wide_and_long(seed: u64) -> Vec<Entry> {
    let mut rng = Random::new(seed);
    let mut entries = Vec::new();
    for side in 3..=32 {
        for n in 2..=8 {
            if let Some(setting) = images::setting_for(&mut rng, n, side) {
                let (lines, _) = played(&mut rng, setting, 24, images::sensible);
                entries.push(whole(format!("side-{side}-snakes-{n}"), &lines));
            }
        }
    }
    // num_snakes, grid_size, initial_length, play_to_last, initial_food_count, max_ticks, lines
    let long = [
        (2, 32, 1, false, 0, None, 6000),
        (2, 12, 3, false, 2, None, 4000),
        (3, 16, 4, true, 2, Some(3000), 4000),
        (4, 20, 2, true, 3, None, 3000),
        (5, 24, 3, false, 1, Some(1500), 3000),
        (6, 28, 2, true, 0, None, 2000),
        (7, 30, 4, false, 2, None, 2000),
        (8, 32, 5, true, 1, Some(2000), 3000),
    ];
    for (num_snakes, grid_size, initial_length, play_to_last, initial_food_count, max_ticks, most) in long {
        let setting = Setting {
            num_snakes,
            grid_size,
            initial_length,
            play_to_last,
            win_food_lead: None,
            initial_food_count,
            max_ticks,
        };
        let (lines, _) = played(&mut rng, setting, most, images::careful);
        entries.push(whole(format!("long-snakes-{num_snakes}"), &lines));
    }
    entries
}

fn move_line(actions: &[u64]) -> Vec<u8> {
    let text: String = actions.iter().map(|a| format!(" {a}")).collect();
    format!("m{text}").into_bytes()
}

fn change_byte(rng: &mut Random, line: &mut Vec<u8>) {
    let byte = *rng.pick(b" 0123456789-+dmp\t\r\x00\xff");
    let at = rng.below(line.len() as u64 + 1) as usize;
    match rng.below(3) {
        0 => line.insert(at, byte),
        1 if at < line.len() => line[at] = byte,
        _ if at < line.len() => drop(line.remove(at)),
        _ => {}
    }
}

/// A first line with one field replaced, mostly by one that is unreadable.
fn spoiled_setting(rng: &mut Random, line: &[u8]) -> Vec<u8> {
    let odd: &[&[u8]] = &[
        b"-0",
        b"-01",
        b"+1",
        b"00",
        b"2",
        b"-",
        b"",
        b"2147483647",
        b"2147483648",
        b"-2147483648",
        b"-2147483649",
        b"18446744073709551615",
        b"18446744073709551616",
        b"-1",
        b"1 1",
        b"x",
        b"01",
    ];
    let mut fields: Vec<Vec<u8>> = line.split(|&b| b == b' ').map(<[u8]>::to_vec).collect();
    let at = rng.below(fields.len() as u64) as usize;
    fields[at] = rng.pick(odd).to_vec();
    fields.join(&b' ')
}
