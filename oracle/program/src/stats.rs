//! How often each answer comes: by call, by refusal, by cause, flag and count of the dead; hits by whom and where; for books also by the
//! paper's words for each refusal, by the number of pages, and how far from the front.

use std::collections::BTreeMap;

use crate::probe;

#[derive(Default)]
pub struct Stats {
    calls: u64,
    kinds: BTreeMap<String, u64>,
    refusals: BTreeMap<u64, u64>,
    events: BTreeMap<&'static str, u64>,
    books: BTreeMap<String, u64>,
    hits: BTreeMap<String, u64>,
}

const FLAGS: [&str; 8] = ["ate", "died", "", "kill", "won", "lost", "drew", "survived"];
const CAUSES: [&str; 5] = ["", "Wall", "SelfBody", "OppBody", "HeadOn"];

/// A number of pages as it is counted.
fn pages_counted(pages: usize) -> &'static str {
    match pages {
        0 => "0 pages",
        1 => "1 page",
        2..=9 => "2 to 9 pages",
        10..=99 => "10 to 99 pages",
        100..=999 => "100 to 999 pages",
        1000..=65_534 => "1,000 pages or more",
        _ => "65,535 pages",
    }
}

impl Stats {
    pub fn add(&mut self, line: &[u8], answer: &str) {
        self.calls += 1;
        let letter = line.first().map_or('?', |&b| char::from(b));
        let kind = answer.split(' ').next().unwrap_or("");
        if kind == "e" {
            *self.kinds.entry("e".to_string()).or_default() += 1;
            return;
        }
        *self.kinds.entry(format!("{letter} {kind}")).or_default() += 1;
        if let Some(refusal) = answer.strip_prefix("r ") {
            let number = refusal.split(' ').next().expect("a number");
            *self.refusals.entry(number.parse().expect("a number")).or_default() += 1;
        } else if letter == 's' {
            self.add_step(answer);
        }
        if letter == 'H' && kind == "a" {
            self.add_hits(line, answer);
        }
        if "BP".contains(letter) {
            self.add_book(letter, line, answer);
        }
    }

    fn add_hits(&mut self, line: &[u8], answer: &str) {
        let numbers: Vec<usize> = answer.split(' ').skip(1).map(|t| t.parse().expect("a number")).collect();
        for (i, hit) in numbers.chunks(2).enumerate().filter(|(_, hit)| hit[0] < 8) {
            let whom = if hit[0] == i { "itself" } else { "another" };
            let at = match hit[1] {
                1 => "at 1",
                2..=9 => "at 2 to 9",
                _ => "at 10 or more",
            };
            *self.hits.entry(format!("{whom} {at}:")).or_default() += 1;
        }
        for held in probe::holders(line) {
            *self.hits.entry(format!("another, its cell held by {held}:")).or_default() += 1;
        }
    }

    fn add_book(&mut self, letter: char, line: &[u8], answer: &str) {
        if let Some((refusal, why)) = probe::book_refusal(line) {
            *self.books.entry(format!("{letter} r {:>2}, {why}:", refusal.number)).or_default() += 1;
            return;
        }
        let number = |text: &str, field: usize| -> usize {
            text.split(' ').nth(field).expect("a field").parse().expect("a number")
        };
        // a book's 17th word: in the answer after `a` and the count, in the line after `P`, the page and the count
        let (pages, far) = if letter == 'B' {
            let is_far = number(answer, 1) > 65_536;
            (number(answer, 18), is_far.then_some("more than 65,536 words"))
        } else {
            let is_far = number(answer, 1) > 65_535;
            (number(&String::from_utf8_lossy(line), 19), is_far.then_some("a start above 65,535"))
        };
        for what in [Some(pages_counted(pages)), far].into_iter().flatten() {
            *self.books.entry(format!("{letter} a, {what}:")).or_default() += 1;
        }
    }

    fn add_step(&mut self, answer: &str) {
        let numbers: Vec<usize> =
            answer.split(' ').skip(1).take(65).map(|t| t.parse().expect("a number")).collect();
        if numbers[0] == 1 {
            *self.events.entry("terminal").or_default() += 1;
        }
        for event in numbers[1..].chunks(8) {
            for (i, &value) in event.iter().enumerate().filter(|(_, &value)| value > 0) {
                let name = if i == 2 { CAUSES[value] } else { FLAGS[i] };
                *self.events.entry(name).or_default() += 1;
            }
        }
    }

    pub fn print(&self) -> String {
        let mut text = format!("calls {}\n", self.calls);
        for (kind, count) in &self.kinds {
            text += &format!("call {kind} {count}\n");
        }
        for (number, count) in &self.refusals {
            text += &format!("refusal {number} {count}\n");
        }
        for (event, count) in &self.events {
            text += &format!("step {event} {count}\n");
        }
        for (what, count) in &self.hits {
            text += &format!("hit {what} {count}\n");
        }
        for (what, count) in &self.books {
            text += &format!("book {what} {count}\n");
        }
        text
    }
}
