//! Every public call: refused as the paper says, else answered by the published Rust. Where both know
//! the answer they are held against each other, and a difference is a panic. Books, which the Rust has not, are
//! the paper's, and what is written is held against what is read.

use reinfors_core::game::{Actor, ChanceDist, Game, Rng};
use reinfors_core::{Reward, Space, StateEncoder};

use crate::paper::{self, Number, Setting, State};
use crate::paper_books::{self, Refused};
use crate::paper_faults::{self, Refusal};
use crate::paper_rules;
use crate::paper_struck::{self, Hit};
use crate::rust;
use crate::snake::{self, EgocentricSnake, StepEvent};

/// Whether `Snake::validate` computes a setting without overflow: its rows are 32-bit products.
fn rows_fit(s: &Setting) -> bool {
    let factor = if (3..=8).contains(&s.num_snakes) { s.num_snakes as i64 } else { 1 };
    i32::try_from(factor * i64::from(s.grid_size)).is_ok()
}

/// Setting check: 1 to 12 without 7. On the domain the Rust's own message must mean the paper's number.
pub fn check_setting(s: &Setting) -> Result<(), Number> {
    let answer = paper::check_setting(s);
    if s.grid_size <= 32 && rows_fit(s) {
        let ruled = rust::game(s).validate().map_err(|message| rust::number_of_message(&message));
        assert_eq!(answer, ruled, "the paper and validate differ on {s:?}");
    }
    answer
}

/// The image of an answer, which must be well-formed and read back as the same state.
fn image(state: &State) -> Vec<u16> {
    let words = paper::write_image(state);
    assert_eq!(paper::read_image(&words).as_ref(), Some(state), "an answer is well-formed");
    words
}

pub fn initial(s: &Setting) -> Result<State, Number> {
    check_setting(s)?;
    Ok(rust::from_rust(&rust::game(s).initial_state(), s.grid_size as u16))
}

pub fn initial_image(s: &Setting, room: u64) -> Result<Vec<u16>, Number> {
    let words = image(&initial(s)?);
    paper::check_room(room, words.len())?;
    Ok(words)
}

pub struct Stepped {
    pub terminal: bool,
    pub events: Vec<StepEvent>,
    pub next: State,
}

/// The step, for actions and an image that the paper lets through.
fn step_state(s: &Setting, state: &State, actions: &[u64]) -> Stepped {
    let usizes: Vec<usize> = actions.iter().map(|&a| a as usize).collect();
    let ruled = rust::game(s).step(&rust::to_rust(state), &usizes);
    let events: Vec<StepEvent> =
        ruled.events.into_iter().map(|e| e.expect("a step tells each snake's event")).collect();
    let next = rust::from_rust(&ruled.next_state, state.side);
    let numbers = events.iter().map(rust::event_numbers).collect();
    let read = paper_rules::step(s, state, actions);
    assert_eq!(read, (ruled.terminal, numbers, next.clone()), "the paper and step differ");
    Stepped { terminal: ruled.terminal, events, next }
}

pub fn step(s: &Setting, words: &[u16], actions: &[u64]) -> Result<Stepped, Refusal> {
    check_setting(s)?;
    let state = paper::check_step(s, words, actions)?;
    Ok(step_state(s, &state, actions))
}

/// The step into a lent buffer: terminal, events and the words written.
pub fn step_image(
    s: &Setting,
    words: &[u16],
    actions: &[u64],
    room: u64,
) -> Result<(bool, Vec<StepEvent>, Vec<u16>), Refusal> {
    let stepped = step(s, words, actions)?;
    let next = image(&stepped.next);
    paper::check_room(room, next.len())?;
    Ok((stepped.terminal, stepped.events, next))
}

/// Who was hit where: the causes are the Rust's, the rest is the paper's. A moved head is hit by nobody: two heads that
/// meet are another cause.
pub fn struck(s: &Setting, words: &[u16], actions: &[u64]) -> Result<[Hit; 8], Refusal> {
    let stepped = step(s, words, actions)?;
    let state = paper::check_step(s, words, actions)?;
    let causes: Vec<u64> = stepped.events.iter().map(|e| rust::event_numbers(e)[2]).collect();
    let hits = paper_struck::struck(&state, actions, &causes);
    assert!(hits.iter().all(|&(snake, position)| (snake == 8) == (position == 0)), "a position is at least 1");
    Ok(hits)
}

/// Of each hit on another snake, how many moved bodies held the cell.
pub fn holders(s: &Setting, words: &[u16], actions: &[u64]) -> Vec<usize> {
    let (Ok(hits), Ok(state)) = (struck(s, words, actions), paper::check_step(s, words, actions)) else { return Vec::new() };
    let on_others = (0..8).filter(|&i| hits[i].0 < 8 && hits[i].0 != i);
    on_others.map(|i| paper_struck::holders(&state, actions, i)).collect()
}

/// The Rust's count of a state with food due; it panics above 2^64 - 1.
fn rust_count(state: &State) -> u64 {
    match rust::game_of(state).chance_node(&rust::to_rust(state)) {
        ChanceDist::Uniform(n) => n as u64,
        other => panic!("a distribution that is not uniform: {other:?}"),
    }
}

pub fn count(words: &[u16]) -> Result<u64, Refusal> {
    let state = paper_faults::state(words)?;
    let answer = paper::count(&state);
    match answer {
        Ok(n) => assert_eq!(n, rust_count(&state), "the paper and chance_node differ"),
        Err(28) => assert!(rust::caught(|| rust_count(&state)).is_err(), "the Rust counts beyond 28"),
        Err(_) => {}
    }
    Ok(answer?)
}

/// The draw of an index: the Rust's next state, and the paper's ordered list, which must lead to it.
pub fn draw(words: &[u16], index: u64) -> Result<(State, Vec<u16>), Refusal> {
    let state = paper::check_draw(words, index)?;
    let ruled = rust::game_of(&state).apply_chance_node(&rust::to_rust(&state), index as usize);
    assert!(!ruled.terminal && ruled.events.iter().all(Option::is_none), "a draw is silent");
    let next = rust::from_rust(&ruled.next_state, state.side);
    let list = paper::drawn(&state, index);
    assert_eq!(paper::after_draw(&state, &list), next, "the paper and apply_chance_node differ");
    Ok((next, list))
}

/// The draw into two lent buffers.
pub fn draw_image(words: &[u16], index: u64, room: u64, list_room: u64) -> Result<(Vec<u16>, Vec<u16>), Refusal> {
    let (state, list) = draw(words, index)?;
    let next = image(&state);
    paper::check_room(room, next.len())?;
    paper::check_room(list_room, list.len())?;
    Ok((next, list))
}

/// Rank, by the paper; the draw of the answer must give the list.
pub fn rank(words: &[u16], list: &[u16]) -> Result<u64, Refusal> {
    let state = paper_faults::state(words)?;
    let index = paper::rank(&state, list)?;
    assert_eq!(draw(words, index).expect("a rank is an index").1, list, "the rank's draw is another list");
    Ok(index)
}

/// Observation: 5g² numbers, each 0.0 or 1.0.
pub fn observation(words: &[u16], agent: u64, room: u64) -> Result<Vec<u8>, Refusal> {
    let state = paper::check_agent(words, agent)?;
    let ruled = rust::to_rust(&state);
    let planes = snake::egocentric_parts(&ruled.snakes, &ruled.food, i32::from(state.side), agent as usize);
    paper::check_room(room, planes.len())?;
    let bit = |x: f32| match x.to_bits() {
        0 => 0,
        0x3f80_0000 => 1,
        _ => panic!("an observation holds {x}"),
    };
    let planes: Vec<u8> = planes.into_iter().map(bit).collect();
    let read = paper_rules::observation(&state, agent as usize);
    assert_eq!(planes, read, "the paper and egocentric_parts differ");
    Ok(planes)
}

/// Whether chance acts.
pub fn actor(words: &[u16]) -> Result<bool, Refusal> {
    let state = paper_faults::state(words)?;
    let chance = match rust::game_of(&state).actor(&rust::to_rust(&state)) {
        Actor::Chance => true,
        Actor::Simultaneous => false,
        Actor::Agent(_) => panic!("snakes never move alone"),
    };
    assert_eq!(chance, state.due > 0, "the paper and actor differ");
    Ok(chance)
}

pub fn legal_actions(words: &[u16], agent: u64) -> Result<Vec<usize>, Refusal> {
    let state = paper::check_agent(words, agent)?;
    let actions = rust::game_of(&state).legal_actions(&rust::to_rust(&state), agent as usize);
    let read = paper_rules::legal_actions(&state, agent as usize);
    assert_eq!(actions, read, "the paper and legal_actions differ");
    Ok(actions)
}

pub fn length_cell(words: &[u16]) -> Result<Option<u64>, Refusal> {
    let state = paper_faults::state(words)?;
    let cell = snake::snake_length_cell(&rust::to_rust(&state));
    assert_eq!(cell, paper_rules::length_cell(&state), "the paper and snake_length_cell differ");
    Ok(cell)
}

pub fn truncation(words: &[u16], agent: u64, event: StepEvent) -> Result<StepEvent, Refusal> {
    let state = paper::check_agent(words, agent)?;
    let read = paper_rules::truncation(&state, agent as usize, rust::event_numbers(&event));
    let mut trace = vec![(agent as usize, event)];
    rust::game_of(&state).mark_truncation(&rust::to_rust(&state), &mut trace);
    let marked = trace.remove(0).1;
    assert_eq!(rust::event_numbers(&marked), read, "the paper and mark_truncation differ");
    Ok(marked)
}

pub fn reward(weights: &[f64], event: &StepEvent) -> Result<f64, Number> {
    paper::check_weights(weights)?;
    let sum = rust::reward_of(weights).step_reward(event, 0);
    let read = paper_rules::reward(weights, &rust::event_numbers(event));
    assert_eq!(sum.to_bits(), read.to_bits(), "the paper and step_reward differ");
    Ok(sum)
}

/// A source that has one unit number.
pub struct OneUnit(pub Option<f64>);

impl Rng for OneUnit {
    fn below(&mut self, _n: usize) -> usize {
        unreachable!("a uniform draw asks for a unit number alone")
    }

    fn unit(&mut self) -> f64 {
        self.0.take().expect("a uniform draw asks for one unit number")
    }
}

/// The outcome that the Rust's uniform draw makes of a unit number: the whole part of the exact product or one more, below the count.
pub fn outcome_of(count: u64, u: f64) -> Result<u64, Number> {
    paper::check_unit(count, u)?;
    let index = ChanceDist::Uniform(count as usize).draw(&mut OneUnit(Some(u))) as u64;
    let whole = paper::whole_part(count, u);
    assert!(index < count && (index == whole || index == whole + 1), "{index} of {count} and {u:e}, whole part {whole}");
    Ok(index)
}

/// The three sizes of the observation space, whose bounds must be 0.0 and 1.0.
pub fn observation_space(grid: i32) -> Result<Vec<usize>, Refusal> {
    paper::check_space(grid)?;
    match (EgocentricSnake { grid_size: grid }).observation_space() {
        Space::Box { shape, low, high } => {
            assert!(low.to_bits() == 0 && high == 1.0, "bounds {low} and {high}");
            Ok(shape)
        }
        Space::Discrete { .. } => panic!("an observation is a box"),
    }
}

pub fn action_space() -> usize {
    let any = Setting {
        num_snakes: 2,
        grid_size: 3,
        initial_length: 1,
        play_to_last: false,
        win_food_lead: None,
        initial_food_count: 0,
        max_ticks: None,
    };
    match rust::game(&any).action_space() {
        Space::Discrete { n } => n,
        Space::Box { .. } => panic!("actions are discrete"),
    }
}

pub fn turn(heading: u16, action: usize) -> u16 {
    let relative = snake::RELATIVE_ACTIONS[action];
    let turned = rust::heading_number(snake::relative_to_absolute(rust::heading(heading), relative));
    assert_eq!(turned, paper_rules::turn(heading, action as u64), "the paper and relative_to_absolute differ");
    turned
}

// ---- books

/// The image at each place of a short row is the first part there that is well-formed.
fn hold_row(row: &[u16]) {
    let mut rest = row;
    loop {
        let length = paper_books::first_image(rest).map(|(_, length)| length).ok();
        let is_image = |&length: &usize| paper::read_image(&rest[..length]).is_some();
        assert_eq!(length, (0..=rest.len()).find(is_image), "an image's own contents tell its length");
        match length {
            Some(length) => rest = &rest[length..],
            None => break,
        }
    }
}

/// "Reading what was written gives the same pages": the setting, the images of the row one after another, and no more.
fn hold_written(s: &Setting, pages: u64, row: &[u16], book: &[u16]) {
    let contents = paper_books::read_contents(book).expect("written contents are accepted");
    assert_eq!(contents.setting, *s, "a book says its setting");
    let mut rest = row;
    for i in 0..pages {
        let (start, length) = paper_books::page(&contents, book, i).expect("a written page is accepted");
        assert_eq!(book[start..start + length], rest[..length], "page {i} is image {i} of the row");
        rest = &rest[length..];
    }
    assert!(rest.is_empty(), "the pages are the whole row");
    assert_eq!(paper_books::read(book, pages), Err((41.into(), "no such page")));
}

/// The book of the images in a row, in a lent buffer.
pub fn write_book(s: &Setting, pages: u64, row: &[u16], room: u64) -> Result<Vec<u16>, Refused> {
    let answer = paper_books::write(s, pages, row, room);
    let refused = check_setting(s).map_err(|number| (Refusal::from(number), "the setting's"));
    assert!(refused.is_ok() || answer.as_ref().err() == refused.as_ref().err(), "a refused setting comes first");
    if row.len() <= 100 {
        hold_row(row);
    }
    if let Ok(book) = &answer {
        hold_written(s, pages, row, book);
    }
    answer
}

/// Whether the writer gives these words for any setting and row. It could only be for those that they say, which are
/// taken here without a test.
fn is_written(book: &[u16]) -> bool {
    let Some(fixed) = book.get(..paper_books::contents_length(0)) else { return false };
    let limit = |at: usize| {
        let four = fixed[at + 1..at + 5].iter().enumerate().map(|(i, &word)| u64::from(word) << (16 * i)).sum();
        if fixed[at] == 0 {
            None
        } else {
            Some(four)
        }
    };
    let said = Setting {
        num_snakes: u64::from(fixed[1]),
        grid_size: i32::from(fixed[2]),
        initial_length: u64::from(fixed[3]),
        play_to_last: fixed[4] != 0,
        win_food_lead: limit(5),
        initial_food_count: u64::from(fixed[10]),
        max_ticks: limit(11),
    };
    let pages = fixed[16];
    let Some(row) = book.get(paper_books::contents_length(usize::from(pages))..) else { return false };
    paper_books::write(&said, u64::from(pages), row, u64::MAX).as_deref() == Ok(book)
}

/// Start and length of a page in the lent book.
pub fn read_page(book: &[u16], page: u64) -> Result<(usize, usize), Refused> {
    let is_accepted = paper_books::read_contents(book).map_or(false, |contents| {
        (0..contents.starts.len()).all(|i| paper_books::page(&contents, book, i as u64).is_ok())
    });
    assert_eq!(is_accepted, is_written(book), "a book has one form only");
    paper_books::read(book, page)
}
