//! The probe's line protocol: one call a line, one answer a line.

use std::fmt::Display;

use crate::calls;
use crate::fields::{self, Fields};
use crate::paper::{self, Setting};
use crate::paper_books::Refused;
use crate::paper_faults::{self, Refusal};
use crate::rust;
use crate::snake::StepEvent;

const MOST_WORDS: u64 = 16_384;
const MOST_NUMBERS: u64 = 8_192;
const MOST_ACTIONS: u64 = 64;
const MOST_RANKED: u64 = 2_048;
const MOST_BOOK_WORDS: u64 = 262_144;

/// An answer's text after `a`, or a refusal.
type Answer = Result<String, Refusal>;

fn put(text: &mut String, number: impl Display) {
    use std::fmt::Write;
    write!(text, " {number}").expect("a string takes all");
}

fn put_all<T: Display>(text: &mut String, numbers: impl IntoIterator<Item = T>) {
    for number in numbers {
        put(text, number);
    }
}

/// A list with its count before it.
fn put_list<T: Display>(text: &mut String, list: &[T]) {
    put(text, list.len());
    put_all(text, list);
}

fn texted(numbers: &[u64]) -> String {
    let mut text = String::new();
    put_all(&mut text, numbers);
    text
}

/// **W**: a count and so many words, at the end of every call that has it.
fn words(fields: &mut Fields) -> Option<Vec<u16>> {
    words_up_to(fields, MOST_WORDS)
}

/// **W** of at most `most` words.
fn words_up_to(fields: &mut Fields, most: u64) -> Option<Vec<u16>> {
    let list = counted(fields, most, u64::from(u16::MAX))?;
    fields.end()?;
    Some(list.into_iter().map(|w| w as u16).collect())
}

/// A count of at most `most` and so many numbers, each at most `top`.
fn counted(fields: &mut Fields, most: u64, top: u64) -> Option<Vec<u64>> {
    let count = fields.up_to(most)?;
    (0..count).map(|_| fields.up_to(top)).collect()
}

/// **E**: seven flags and, third, a cause.
fn event(fields: &mut Fields) -> Option<StepEvent> {
    let mut numbers = [0; 8];
    for (i, number) in numbers.iter_mut().enumerate() {
        *number = fields.up_to(if i == 2 { 4 } else { 1 })?;
    }
    Some(rust::event_of(numbers))
}

fn setting_check(f: &mut Fields) -> Option<Answer> {
    let s = Setting::read(f)?;
    f.end()?;
    Some(calls::check_setting(&s).map(|()| String::new()).map_err(Refusal::from))
}

fn initial(f: &mut Fields) -> Option<Answer> {
    let s = Setting::read(f)?;
    let room = f.up_to(MOST_WORDS)?;
    f.end()?;
    Some(calls::initial_image(&s, room).map_err(Refusal::from).map(|image| {
        let mut text = String::new();
        put_list(&mut text, &image);
        text
    }))
}

fn step(f: &mut Fields) -> Option<Answer> {
    let s = Setting::read(f)?;
    let room = f.up_to(MOST_WORDS)?;
    let actions = counted(f, MOST_ACTIONS, u64::MAX)?;
    let image = words(f)?;
    Some(calls::step_image(&s, &image, &actions, room).map(|(terminal, events, next)| {
        let mut text = String::new();
        put(&mut text, u8::from(terminal));
        for i in 0..8 {
            put_all(&mut text, events.get(i).map_or([0; 8], rust::event_numbers));
        }
        put_list(&mut text, &next);
        text
    }))
}

/// `H`: the setting, the image and the actions.
fn acting(f: &mut Fields) -> Option<(Setting, Vec<u16>, Vec<u64>)> {
    let s = Setting::read(f)?;
    let actions = counted(f, MOST_ACTIONS, u64::MAX)?;
    Some((s, words(f)?, actions))
}

fn struck(f: &mut Fields) -> Option<Answer> {
    let (s, image, actions) = acting(f)?;
    Some(calls::struck(&s, &image, &actions).map(|hits| {
        let mut text = String::new();
        put_all(&mut text, hits.into_iter().flat_map(|(snake, position)| [snake, position]));
        text
    }))
}

/// Of each hit on another snake that a call `H` tells, how many moved bodies held the cell.
pub fn holders(line: &[u8]) -> Vec<usize> {
    let mut f = Fields::of(line);
    let (Some(b"H"), Some((s, image, actions))) = (f.next(), acting(&mut f)) else { return Vec::new() };
    calls::holders(&s, &image, &actions)
}

fn count(f: &mut Fields) -> Option<Answer> {
    let image = words(f)?;
    Some(calls::count(&image).map(|n| texted(&[n])))
}

fn draw(f: &mut Fields) -> Option<Answer> {
    let room = f.up_to(MOST_WORDS)?;
    let list_room = f.up_to(MOST_WORDS)?;
    let index = f.number()?;
    let image = words(f)?;
    Some(calls::draw_image(&image, index, room, list_room).map(|(next, list)| {
        let mut text = String::new();
        put_list(&mut text, &next);
        put_list(&mut text, &list);
        text
    }))
}

fn rank(f: &mut Fields) -> Option<Answer> {
    let list = counted(f, MOST_RANKED, u64::from(u16::MAX))?;
    let list: Vec<u16> = list.into_iter().map(|c| c as u16).collect();
    let image = words(f)?;
    Some(calls::rank(&image, &list).map(|index| texted(&[index])))
}

fn observation(f: &mut Fields) -> Option<Answer> {
    let agent = f.number()?;
    let room = f.up_to(MOST_NUMBERS)?;
    let image = words(f)?;
    Some(calls::observation(&image, agent, room).map(|planes| {
        let mut text = String::new();
        put_list(&mut text, &planes);
        text
    }))
}

fn body(f: &mut Fields) -> Option<Answer> {
    let snake = f.number()?;
    let image = words(f)?;
    let (start, length) = paper::body_part(&image, snake);
    let mut text = texted(&[start as u64, length as u64]);
    put_all(&mut text, &image[start..start + length]);
    Some(Ok(text))
}

fn actor(f: &mut Fields) -> Option<Answer> {
    let image = words(f)?;
    Some(calls::actor(&image).map(|chance| texted(&[u64::from(chance)])))
}

fn legal(f: &mut Fields) -> Option<Answer> {
    let agent = f.number()?;
    let image = words(f)?;
    Some(calls::legal_actions(&image, agent).map(|actions| {
        let mut text = String::new();
        put_list(&mut text, &actions);
        text
    }))
}

fn length_cell(f: &mut Fields) -> Option<Answer> {
    let image = words(f)?;
    Some(calls::length_cell(&image).map(|cell| match cell {
        None => texted(&[0]),
        Some(value) => texted(&[1, value]),
    }))
}

fn truncation(f: &mut Fields) -> Option<Answer> {
    let agent = f.number()?;
    let event = event(f)?;
    let image = words(f)?;
    Some(calls::truncation(&image, agent, event).map(|e| texted(&rust::event_numbers(&e))))
}

fn reward(f: &mut Fields) -> Option<Answer> {
    let mut weights = [0.0; 7];
    for weight in &mut weights {
        *weight = f64::from_bits(f.number()?);
    }
    let event = event(f)?;
    f.end()?;
    Some(calls::reward(&weights, &event).map_err(Refusal::from).map(|sum| texted(&[sum.to_bits()])))
}

fn outcome_of(f: &mut Fields) -> Option<Answer> {
    let count = f.number()?;
    let u = f64::from_bits(f.number()?);
    f.end()?;
    Some(calls::outcome_of(count, u).map_err(Refusal::from).map(|index| texted(&[index])))
}

fn observation_space(f: &mut Fields) -> Option<Answer> {
    let grid = fields::grid(f.next()?)?;
    f.end()?;
    Some(calls::observation_space(grid).map_err(Refusal::from).map(|sizes| {
        let mut text = String::new();
        put_all(&mut text, sizes);
        text
    }))
}

fn action_space(f: &mut Fields) -> Option<Answer> {
    f.end()?;
    Some(Ok(texted(&[calls::action_space() as u64])))
}

fn turn(f: &mut Fields) -> Option<Answer> {
    let heading = f.up_to(3)?;
    let action = f.up_to(2)?;
    f.end()?;
    Some(Ok(texted(&[u64::from(calls::turn(heading as u16, action as usize))])))
}

fn check_image(f: &mut Fields) -> Option<Answer> {
    let image = words(f)?;
    Some(paper_faults::state(&image).map(|_| String::new()))
}

/// `B`: the book.
fn written(f: &mut Fields) -> Option<Result<Vec<u16>, Refused>> {
    let s = Setting::read(f)?;
    let room = f.up_to(MOST_BOOK_WORDS)?;
    let pages = f.number()?;
    let row = words_up_to(f, MOST_BOOK_WORDS)?;
    Some(calls::write_book(&s, pages, &row, room))
}

fn write_book(f: &mut Fields) -> Option<Answer> {
    let answer = written(f)?;
    Some(answer.map_err(|(refusal, _)| refusal).map(|book| {
        let mut text = String::new();
        put_list(&mut text, &book);
        text
    }))
}

/// `P`: the page's start, and its words.
fn page(f: &mut Fields) -> Option<Result<(usize, Vec<u16>), Refused>> {
    let page = f.number()?;
    let book = words_up_to(f, MOST_BOOK_WORDS)?;
    let place = calls::read_page(&book, page);
    Some(place.map(|(start, length)| (start, book[start..start + length].to_vec())))
}

fn read_page(f: &mut Fields) -> Option<Answer> {
    let answer = page(f)?;
    Some(answer.map_err(|(refusal, _)| refusal).map(|(start, words)| {
        let mut text = texted(&[start as u64]);
        put_list(&mut text, &words);
        text
    }))
}

/// The refusal of a book's call with the paper's words for it; none for any other line.
pub fn book_refusal(line: &[u8]) -> Option<Refused> {
    let mut f = Fields::of(line);
    match f.next()? {
        b"B" => written(&mut f)?.err(),
        b"P" => page(&mut f)?.err(),
        _ => None,
    }
}

/// The answer to a call; none for a line that is no call.
fn call(line: &[u8]) -> Option<Answer> {
    let mut f = Fields::of(line);
    match f.next()? {
        b"v" => setting_check(&mut f),
        b"i" => initial(&mut f),
        b"s" => step(&mut f),
        b"c" => count(&mut f),
        b"d" => draw(&mut f),
        b"k" => rank(&mut f),
        b"o" => observation(&mut f),
        b"b" => body(&mut f),
        b"t" => actor(&mut f),
        b"l" => legal(&mut f),
        b"z" => length_cell(&mut f),
        b"u" => truncation(&mut f),
        b"w" => reward(&mut f),
        b"n" => outcome_of(&mut f),
        b"p" => observation_space(&mut f),
        b"q" => action_space(&mut f),
        b"h" => turn(&mut f),
        b"x" => check_image(&mut f),
        b"B" => write_book(&mut f),
        b"P" => read_page(&mut f),
        b"H" => struck(&mut f),
        _ => None,
    }
}

/// The answer line of a call's line, without its newline.
pub fn answer(line: &[u8]) -> String {
    match call(line) {
        None => "e".to_string(),
        Some(Err(Refusal { number, word: Some(word) })) => format!("r {number} {word}"),
        Some(Err(Refusal { number, word: None })) => format!("r {number}"),
        Some(Ok(text)) => format!("a{text}"),
    }
}
