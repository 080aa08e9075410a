//! The published Rust: settings and states carried over to it, and its states and events carried back.

use crate::snake::{Action, Cell, DeathCause, Snake, SnakeBody, SnakeState, StepEvent};
use crate::states::{Setting, State};

pub fn game(s: &Setting) -> Snake {
    Snake {
        num_snakes: s.num_snakes as usize,
        grid_size: s.grid_size,
        initial_length: s.initial_length as usize,
        play_to_last: false,
        win_food_lead: None,
        initial_food_count: s.initial_food_count as usize,
        max_ticks: None,
    }
}

const HEADINGS: [Action; 4] = [Action::Up, Action::Right, Action::Down, Action::Left];

fn place(side: u16, cell: u16) -> Cell {
    (i32::from(cell / side), i32::from(cell % side))
}

pub fn state(s: &State, due: u16) -> SnakeState {
    let body = |b: &crate::states::Snake| SnakeBody {
        body: b.cells.iter().map(|&c| place(s.side, c)).collect(),
        direction: HEADINGS[usize::from(b.heading)],
        alive: b.alive,
    };
    SnakeState {
        snakes: s.snakes.iter().map(body).collect(),
        food: s.food.iter().map(|&c| place(s.side, c)).collect(),
        pending_food: u32::from(due),
        birth: false,
    }
}

/// The image of a state of the Rust.
pub fn image(s: &SnakeState, side: u16) -> Vec<u16> {
    let cell = |&(r, c): &Cell| r as u16 * side + c as u16;
    let mut food: Vec<u16> = s.food.iter().map(cell).collect();
    food.sort_unstable();
    let n = s.snakes.len();
    let mut words = vec![n as u16, side, s.pending_food as u16, u16::from(s.birth), food.len() as u16];
    let mut start = 5 + 4 * n;
    for b in &s.snakes {
        let heading = HEADINGS.iter().position(|&h| h == b.direction).expect("one of four");
        words.extend([start as u16, b.body.len() as u16, heading as u16, u16::from(b.alive)]);
        start += b.body.len();
    }
    for b in &s.snakes {
        words.extend(b.body.iter().map(cell));
    }
    words.extend(food);
    words
}

/// An event as the header's bytes.
pub fn event(e: &StepEvent) -> [u8; 8] {
    let cause = match e.death_cause {
        None => 0,
        Some(DeathCause::Wall) => 1,
        Some(DeathCause::SelfBody) => 2,
        Some(DeathCause::OppBody) => 3,
        Some(DeathCause::HeadOn) => 4,
    };
    let [ate, died, killed, won, lost, drew, survived] =
        [e.ate_food, e.died, e.killed_opponent, e.won, e.lost, e.drew, e.survived_to_max_ticks].map(u8::from);
    [ate, died, cause, killed, won, lost, drew, survived]
}
