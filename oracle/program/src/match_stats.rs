//! What a file of matches reaches: refusals, ends, snakes, sides, lengths, and what is wrong with lines.

use std::collections::{BTreeMap, BTreeSet};

use crate::fields::lines;
use crate::matches::Entry;
use crate::replay;

#[derive(Default)]
pub struct MatchStats {
    counts: BTreeMap<String, u64>,
    sides: BTreeSet<i32>,
    longest: usize,
}

impl MatchStats {
    fn add_if(&mut self, is_so: bool, name: &str) {
        if is_so {
            *self.counts.entry(name.to_string()).or_default() += 1;
        }
    }

    pub fn add(&mut self, entry: &Entry) {
        let input = &entry.input;
        let answer = replay::replay(input);
        self.add_if(true, "matches");
        *self.counts.entry("input lines".to_string()).or_default() += lines(input).count() as u64;
        *self.counts.entry("printed lines".to_string()).or_default() += answer.lines().count() as u64;
        self.add_if(input.is_empty(), "empty input");
        self.add_if(!input.is_empty() && !input.ends_with(b"\n"), "last newline missing");
        self.add_if(lines(input).any(|line| line.len() > 200), "line above 200 bytes");
        self.add_if(lines(input).any(<[u8]>::is_empty), "blank line");
        self.add_if(input.contains(&0), "NUL byte");
        self.add_if(input.contains(&b'\r'), "carriage return");
        self.add_if(input.iter().any(|&b| b > 127), "byte above 127");
        for line in answer.lines() {
            if let Some(number) = line.strip_prefix("r ") {
                self.add_if(true, &format!("refusal {number:>2}"));
            }
        }
        let Some(setting) = lines(input).next().and_then(replay::read_setting) else { return };
        if !answer.starts_with("i ") {
            return;
        }
        self.add_if(true, &format!("snakes {}", setting.num_snakes));
        self.add_if(setting.play_to_last, "play_to_last");
        self.sides.insert(setting.grid_size);
        let moves: Vec<&str> = answer.lines().filter(|line| line.starts_with('m')).collect();
        self.longest = self.longest.max(moves.len());
        self.add_if(moves.len() >= 1000, "1,000 moves or more");
        let is_over = |line: &str| line.starts_with("m 1");
        let living = |line: &str| line.split(' ').skip(4).filter(|snake| snake.starts_with('1')).count();
        self.add_if(moves.iter().any(|line| is_over(line)), "terminal move");
        let led = setting.win_food_lead.is_some() && moves.iter().any(|m| is_over(m) && living(m) == 2);
        self.add_if(led, "won by the lead");
        self.add_if(moves.iter().any(|line| line.contains('y')), "truncation");
        self.add_if(moves.iter().any(|line| !is_over(line) && line.contains('w')), "won and played on");
    }

    pub fn print(&self) -> String {
        let mut text: String = self.counts.iter().map(|(name, count)| format!("{name}: {count}\n")).collect();
        let (low, high) = (self.sides.iter().min().unwrap_or(&0), self.sides.iter().max().unwrap_or(&0));
        text += &format!("sides: {}, from {low} to {high}\n", self.sides.len());
        text + &format!("moves of the longest match: {}\n", self.longest)
    }
}
