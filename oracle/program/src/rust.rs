//! The published Rust asked: states and events carried over and back, and no rule of its own.

use std::collections::HashSet;

use crate::paper::{Setting, Snake, State};
use crate::snake::{Action, Cell, DeathCause, SnakeBody, SnakeReward, SnakeState, StepEvent};

/// The published game of a setting.
pub fn game(s: &Setting) -> crate::snake::Snake {
    crate::snake::Snake {
        num_snakes: s.num_snakes as usize,
        grid_size: s.grid_size,
        initial_length: s.initial_length as usize,
        play_to_last: s.play_to_last,
        win_food_lead: s.win_food_lead.map(|n| n as usize),
        initial_food_count: s.initial_food_count as usize,
        max_ticks: s.max_ticks.map(|n| n as usize),
    }
}

/// A game for the calls that look at the state alone.
pub fn game_of(state: &State) -> crate::snake::Snake {
    crate::snake::Snake {
        num_snakes: state.snakes.len(),
        grid_size: i32::from(state.side),
        initial_length: 1,
        play_to_last: false,
        win_food_lead: None,
        initial_food_count: 0,
        max_ticks: None,
    }
}

/// The setting number that a message of `Snake::validate` stands for.
pub fn number_of_message(message: &str) -> u8 {
    let starts = [
        ("num_snakes must be in", 1),
        ("initial_length must be", 2),
        ("win_food_lead must be", 3),
        ("win_food_lead is a two-snake rule", 4),
        ("worst-case respawn index space", 8),
    ];
    if let Some(&(_, number)) = starts.iter().find(|(start, _)| message.starts_with(start)) {
        return number;
    }
    let parts = [
        ("-cell grid", 6),
        ("-edge chance-chain limit", 7),
        ("does not fit grid_size", 9),
        ("outside the grid", 10),
        ("initial snakes overlap", 11),
        ("free cells left by the initial snakes", 12),
    ];
    let found = parts.iter().find(|(part, _)| message.contains(part));
    found.unwrap_or_else(|| panic!("a message of validate that the oracle does not know: {message}")).1
}

const HEADINGS: [Action; 4] = [Action::Up, Action::Right, Action::Down, Action::Left];

pub fn heading(number: u16) -> Action {
    HEADINGS[usize::from(number)]
}

pub fn heading_number(heading: Action) -> u16 {
    HEADINGS.iter().position(|&h| h == heading).expect("one of four") as u16
}

fn place(side: u16, cell: u16) -> Cell {
    (i32::from(cell / side), i32::from(cell % side))
}

/// Row-major number of a cell that must be on the grid.
fn cell(side: u16, (r, c): Cell) -> u16 {
    let g = i32::from(side);
    assert!(0 <= r && r < g && 0 <= c && c < g, "the Rust left cell ({r}, {c}) in a state of side {g}");
    (r * g + c) as u16
}

pub fn to_rust(state: &State) -> SnakeState {
    let body = |snake: &Snake| SnakeBody {
        body: snake.body.iter().map(|&c| place(state.side, c)).collect(),
        direction: heading(snake.heading),
        alive: snake.alive,
    };
    SnakeState {
        snakes: state.snakes.iter().map(body).collect(),
        food: state.food.iter().map(|&c| place(state.side, c)).collect::<HashSet<Cell>>(),
        pending_food: u32::from(state.due),
        birth: state.birth,
    }
}

pub fn from_rust(state: &SnakeState, side: u16) -> State {
    let snake = |s: &SnakeBody| Snake {
        heading: heading_number(s.direction),
        alive: s.alive,
        body: s.body.iter().map(|&p| cell(side, p)).collect(),
    };
    let mut food: Vec<u16> = state.food.iter().map(|&p| cell(side, p)).collect();
    food.sort_unstable();
    State {
        side,
        due: u16::try_from(state.pending_food).expect("food due fits a word"),
        birth: state.birth,
        snakes: state.snakes.iter().map(snake).collect(),
        food,
    }
}

const CAUSES: [Option<DeathCause>; 5] =
    [None, Some(DeathCause::Wall), Some(DeathCause::SelfBody), Some(DeathCause::OppBody), Some(DeathCause::HeadOn)];

/// An event's eight numbers: ate, died, cause, kill, won, lost, drew, survived.
pub fn event_numbers(e: &StepEvent) -> [u64; 8] {
    let cause = CAUSES.iter().position(|&c| c == e.death_cause).expect("one of five");
    [
        u64::from(e.ate_food),
        u64::from(e.died),
        cause as u64,
        u64::from(e.killed_opponent),
        u64::from(e.won),
        u64::from(e.lost),
        u64::from(e.drew),
        u64::from(e.survived_to_max_ticks),
    ]
}

pub fn event_of(numbers: [u64; 8]) -> StepEvent {
    StepEvent {
        ate_food: numbers[0] == 1,
        died: numbers[1] == 1,
        death_cause: CAUSES[numbers[2] as usize],
        killed_opponent: numbers[3] == 1,
        won: numbers[4] == 1,
        lost: numbers[5] == 1,
        drew: numbers[6] == 1,
        survived_to_max_ticks: numbers[7] == 1,
    }
}

/// Weights in the record's order: step, food, loss, draw, kill, win, survival.
pub fn reward_of(w: &[f64]) -> SnakeReward {
    SnakeReward { step: w[0], food: w[1], loss: w[2], draw: w[3], kill: w[4], win: w[5], survival: w[6] }
}

/// What a call of the Rust gives, or none where it panics; the panic says nothing aloud.
pub fn caught<T>(call: impl FnOnce() -> T) -> Result<T, String> {
    let hook = std::panic::take_hook();
    std::panic::set_hook(Box::new(|_| {}));
    let result = std::panic::catch_unwind(std::panic::AssertUnwindSafe(call));
    std::panic::set_hook(hook);
    result.map_err(|why| {
        let text = why.downcast_ref::<String>().cloned();
        text.or_else(|| why.downcast_ref::<&str>().map(|s| s.to_string())).unwrap_or_default()
    })
}
