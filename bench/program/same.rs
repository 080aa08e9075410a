//! Before anything is counted: the port and the Rust give the same answers on every state that is measured.

use crate::snake::{egocentric_parts, Snake, SnakeState};
use crate::states::{self, Setting, State};
use crate::{books, port, rust};
use reinfors_core::game::Game;
use reinfors_core::ChanceDist;

pub struct Tally {
    answers: usize,
    differing: usize,
}

impl Tally {
    fn same<T: PartialEq + std::fmt::Debug>(&mut self, what: &str, port: T, rust: T) {
        self.answers += 1;
        if port != rust {
            self.differing += 1;
            let (p, r) = (format!("{port:?}"), format!("{rust:?}"));
            let cut = |s: &str| s.chars().take(200).collect::<String>();
            println!("differs: {what}\n  port {}\n  Rust {}", cut(&p), cut(&r));
        }
    }
}

fn settings(t: &mut Tally, name: &str, s: &Setting) {
    let accepted = rust::game(s).validate().is_ok();
    t.same(&format!("validate, {name}"), port::validate(&port::setting(s)) == 0, accepted);
    if !accepted {
        return;
    }
    let mut out = vec![0; port::IMAGE_WORDS];
    let words = port::initial_state(&port::setting(s), &mut out);
    let wanted = rust::image(&rust::game(s).initial_state(), s.grid_size as u16);
    t.same(&format!("initial_state, {name}"), &out[..words], &wanted[..]);
}

fn steps(t: &mut Tally, s: &State, actions: &[u64], dead: usize) {
    let (mut out, mut events) = (vec![0; port::IMAGE_WORDS], [[9; 8]; 8]);
    let [words, terminal] = port::step(&port::setting(&s.setting), &s.image(0), actions, &mut out, &mut events);
    let numbers: Vec<usize> = actions.iter().map(|&a| a as usize).collect();
    let moved = rust::game(&s.setting).step(&rust::state(s, 0), &numbers);
    let mut wanted: Vec<[u8; 8]> = moved.events.iter().map(|e| rust::event(e.as_ref().expect("an event each"))).collect();
    wanted.resize(8, [0; 8]);
    let what = format!("step {actions:?}, {}", s.name);
    t.same(&what, &out[..words as usize], &rust::image(&moved.next_state, s.side)[..]);
    t.same(&what, terminal, u64::from(moved.terminal));
    t.same(&what, &events[..], &wanted[..]);
    let died = events.iter().filter(|e| e[1] == 1).count();
    t.same(&format!("{what}: deaths, and what the table says"), died, dead);
}

/// The cells in the order drawn, by draws of one apple each with the index's digits: the Rust keeps no such list.
fn drawn_cells(game: &Snake, s: &State, due: u16) -> Vec<u16> {
    let n = s.free();
    let k = u64::from(due).min(n);
    let mut digits: Vec<u64> = Vec::new();
    let mut rest = s.outcome(due);
    for i in (0..k).rev() {
        digits.insert(0, rest % (n - i));
        rest /= n - i;
    }
    let mut state: SnakeState = rust::state(s, 0);
    let mut cells = Vec::new();
    for d in digits {
        state.pending_food = 1;
        let next = game.apply_chance_node(&state, d as usize).next_state;
        let (r, c) = *next.food.difference(&state.food).next().expect("one apple more");
        cells.push(r as u16 * s.side + c as u16);
        state = next;
    }
    cells
}

fn draws(t: &mut Tally, s: &State, due: u16) {
    let (game, image, index) = (rust::game(&s.setting), s.image(due), s.outcome(due));
    let state = rust::state(s, due);
    let what = format!("{due} due, {}", s.name);
    let ChanceDist::Uniform(count) = game.chance_node(&state) else { panic!("a count") };
    t.same(&format!("count, {what}"), port::count(&image), count as u64);
    let (mut out, mut list) = (vec![0; port::IMAGE_WORDS], vec![0; port::LIST_WORDS]);
    let [words, cells] = port::draw(&image, index, &mut out, &mut list);
    let wanted = rust::image(&game.apply_chance_node(&state, index as usize).next_state, s.side);
    t.same(&format!("draw, {what}"), &out[..words], &wanted[..]);
    t.same(&format!("cells drawn, {what}"), &list[..cells], &drawn_cells(&game, s, due)[..]);
    t.same(&format!("rank, {what}"), port::rank(&image, &list[..cells]), index);
}

fn views(t: &mut Tally, s: &State) {
    let (image, state) = (s.image(0), rust::state(s, 0));
    for agent in 0..s.snakes.len() {
        let mut obs = vec![0.5; port::PLANE_NUMBERS];
        let numbers = port::observe(&image, agent as u64, &mut obs);
        let wanted = egocentric_parts(&state.snakes, &state.food, i32::from(s.side), agent);
        t.same(&format!("observation of {agent}, {}", s.name), &obs[..numbers], &wanted[..]);
    }
}

fn all_of(t: &mut Tally, s: &State) {
    t.same(&format!("well_formed, {}", s.name), port::well_formed(&s.image(0)), true);
    settings(t, &s.name, &s.setting);
    draws(t, s, 1);
    views(t, s);
}

/// A book is held against one that the bench makes itself.
fn book(t: &mut Tally, b: &books::Book) {
    let mut out = vec![0; b.words() + 1];
    let words = port::write_book(&port::setting(&b.setting), b.pages as u64, &b.row(), &mut out);
    let made = b.made();
    t.same(&format!("write_book, {}", b.name), &out[..words], &made[..]);
    for page in [0, b.middle(), b.pages as u64 - 1] {
        let found = port::page(&made, page);
        let what = format!("page {page}, {}", b.name);
        t.same(&what, found, [b.start(page), b.image.len()]);
    }
}

/// False where an answer differs.
pub fn check() -> bool {
    let mut t = Tally { answers: 0, differing: 0 };
    for s in &states::five() {
        all_of(&mut t, s);
        draws(&mut t, s, s.most());
        steps(&mut t, s, &vec![0; s.snakes.len()], 0);
        steps(&mut t, s, &s.fatal, 2);
    }
    for s in &states::growth() {
        all_of(&mut t, s);
        let all_die = s.free() < 2;
        steps(&mut t, s, &s.fatal, if all_die { 8 } else { 0 });
    }
    all_of(&mut t, &states::thirty());
    settings(&mut t, "the longest bodies", &states::LONGEST);
    settings(&mut t, "a length without end", &states::ENDLESS);
    let (states, books) = (states::five().len() + states::growth().len() + 1, books::three());
    for b in &books {
        book(&mut t, b);
    }
    println!("{} answers on {states} states and {} books compared, {} differ", t.answers, books.len(), t.differing);
    t.differing == 0
}
