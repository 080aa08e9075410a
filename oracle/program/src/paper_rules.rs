//! The rest of document 01, read a second time: step, observation, reward, turns, truncation, length cell.
//! The published Rust answers these calls; this reading is only held against it, so that a place where the
//! paper and the Rust part would be seen.

use crate::paper::{Setting, Snake, State};

/// ate, died, cause, kill, won, lost, drew, survived.
pub type Event = [u64; 8];
const ATE: usize = 0;
const DIED: usize = 1;
const CAUSE: usize = 2;
const KILL: usize = 3;
const WON: usize = 4;
const LOST: usize = 5;
const DREW: usize = 6;
const SURVIVED: usize = 7;

const WALL: u64 = 1;
const SELF_BODY: u64 = 2;
const OPP_BODY: u64 = 3;
const HEAD_ON: u64 = 4;

/// Actions 0 forward, 1 left, 2 right; headings clockwise from Up.
pub fn turn(heading: u16, action: u64) -> u16 {
    (heading + [0, 3, 1][action as usize]) % 4
}

/// A living snake after its move and before any judgement.
pub struct Moved {
    heading: u16,
    /// A signed pair: it may be off the grid.
    pub head: (i32, i32),
    pub rest: Vec<u16>,
    on_food: bool,
}

fn moved(state: &State, snake: &Snake, action: u64) -> Moved {
    let heading = turn(snake.heading, action);
    let side = i32::from(state.side);
    let (dr, dc) = [(-1, 0), (0, 1), (1, 0), (0, -1)][usize::from(heading)];
    let first = i32::from(snake.body[0]);
    let head = (first / side + dr, first % side + dc);
    let on_food = cell(state, head).map_or(false, |c| state.food.contains(&c));
    let mut rest = snake.body.clone();
    if !on_food {
        rest.pop();
    }
    Moved { heading, head, rest, on_food }
}

/// Every living snake moved; none for a corpse.
pub fn world(state: &State, actions: &[u64]) -> Vec<Option<Moved>> {
    let snakes = state.snakes.iter().zip(actions);
    snakes.map(|(snake, &action)| snake.alive.then(|| moved(state, snake, action))).collect()
}

/// The cell of a place on the grid.
fn cell(state: &State, (r, c): (i32, i32)) -> Option<u16> {
    let on_grid = |x: i32| 0 <= x && x < i32::from(state.side);
    if on_grid(r) && on_grid(c) {
        Some(r as u16 * state.side + c as u16)
    } else {
        None
    }
}

/// Why snake `i` dies, or 0; all are judged on one world.
fn cause(state: &State, world: &[Option<Moved>], i: usize) -> u64 {
    let me = match &world[i] {
        None => return 0,
        Some(me) => me,
    };
    let others = || world.iter().enumerate().filter(|(j, _)| *j != i).filter_map(|(_, m)| m.as_ref());
    if others().any(|other| other.head == me.head) {
        return HEAD_ON;
    }
    match cell(state, me.head) {
        None => WALL,
        Some(at) if me.rest.contains(&at) => SELF_BODY,
        Some(at) if others().any(|other| other.rest.contains(&at)) => OPP_BODY,
        Some(_) => 0,
    }
}

fn snake_after(state: &State, old: &Snake, world: &Option<Moved>, cause: u64) -> Snake {
    match world {
        None => old.clone(),
        Some(m) if cause > 0 => Snake { heading: m.heading, alive: false, body: m.rest.clone() },
        Some(m) => {
            let mut body = vec![cell(state, m.head).expect("a survivor is on the grid")];
            body.extend(&m.rest);
            Snake { heading: m.heading, alive: true, body }
        }
    }
}

/// Terminal, events and the next state.
pub fn step(s: &Setting, state: &State, actions: &[u64]) -> (bool, Vec<Event>, State) {
    let n = state.snakes.len();
    let world = world(state, actions);
    let causes: Vec<u64> = (0..n).map(|i| cause(state, &world, i)).collect();
    let snakes: Vec<Snake> = (0..n).map(|i| snake_after(state, &state.snakes[i], &world[i], causes[i])).collect();
    let mut events = vec![[0; 8]; n];
    let mut food = state.food.clone();
    for i in 0..n {
        if causes[i] > 0 {
            events[i][DIED] = 1;
            events[i][CAUSE] = causes[i];
        } else if world[i].as_ref().map_or(false, |m| m.on_food) {
            events[i][ATE] = 1;
            food.retain(|&c| c != snakes[i].body[0]);
        }
    }
    for i in (0..n).filter(|&i| causes[i] == OPP_BODY) {
        let fatal = cell(state, world[i].as_ref().expect("moved").head).expect("on the grid");
        let killer = (0..n).find(|&j| snakes[j].alive && snakes[j].body.contains(&fatal));
        if let Some(killer) = killer {
            events[killer][KILL] = 1;
        }
    }
    let living: Vec<usize> = (0..n).filter(|&i| snakes[i].alive).collect();
    let deaths = causes.iter().filter(|&&c| c > 0).count();
    if living.len() == 1 && deaths > 0 {
        events[living[0]][WON] = 1;
    }
    for i in (0..n).filter(|&i| causes[i] > 0) {
        if !living.is_empty() {
            events[i][LOST] = 1;
        } else if deaths >= 2 {
            events[i][DREW] = 1;
        }
    }
    let few = if s.play_to_last { 0 } else { 1 };
    let mut terminal = living.len() <= few;
    if let (Some(lead), 2) = (s.win_food_lead, living.len()) {
        let (a, b) = (living[0], living[1]);
        let (long, short) = if snakes[a].body.len() > snakes[b].body.len() { (a, b) } else { (b, a) };
        if (snakes[long].body.len() - snakes[short].body.len()) as u64 >= lead {
            terminal = true;
            events[long][WON] = 1;
            events[short][LOST] = 1;
        }
    }
    let eaten = (state.food.len() - food.len()) as u16;
    let due = if terminal { 0 } else { eaten };
    (terminal, events, State { side: state.side, due, birth: false, snakes, food })
}

/// Five planes: own first cell, own rest, others' first cells, others' rest, food.
pub fn observation(state: &State, agent: usize) -> Vec<u8> {
    let g = usize::from(state.side);
    let mut planes = vec![0; 5 * g * g];
    let heading = state.snakes[agent].heading;
    let mut set = |plane: usize, cell: u16| {
        let (r, c) = (usize::from(cell) / g, usize::from(cell) % g);
        let (row, column) = match heading {
            0 => (r, c),
            1 => (g - 1 - c, r),
            2 => (g - 1 - r, g - 1 - c),
            _ => (c, g - 1 - r),
        };
        planes[plane * g * g + row * g + column] = 1;
    };
    for (i, snake) in state.snakes.iter().enumerate() {
        let first = if i == agent { 0 } else { 2 };
        for (at, &cell) in snake.body.iter().enumerate() {
            set(if at == 0 { first } else { first + 1 }, cell);
        }
    }
    for &cell in &state.food {
        set(4, cell);
    }
    planes
}

pub fn legal_actions(state: &State, agent: usize) -> Vec<usize> {
    if state.due == 0 && state.snakes[agent].alive {
        vec![0, 1, 2]
    } else {
        Vec::new()
    }
}

pub fn truncation(state: &State, agent: usize, mut event: Event) -> Event {
    event[SURVIVED] = u64::from(state.snakes[agent].alive);
    event
}

pub fn length_cell(state: &State) -> Option<u64> {
    if state.snakes.iter().any(|snake| !snake.alive) {
        return None;
    }
    let bucket = |snake: &Snake| match snake.body.len() {
        0..=2 => 0,
        3..=5 => 1,
        6..=8 => 2,
        9..=11 => 3,
        12..=14 => 4,
        15..=17 => 5,
        18..=20 => 6,
        21..=23 => 7,
        24..=26 => 8,
        _ => 9,
    };
    let mut buckets: Vec<u64> = state.snakes.iter().map(bucket).collect();
    buckets.sort_unstable();
    let shift = if buckets.len() <= 4 { 16 } else { 8 };
    Some(buckets.iter().fold(0, |cell, b| (cell << shift) + b))
}

/// Weights in the order step, food, loss, draw, kill, win, survival.
pub fn reward(w: &[f64], e: &Event) -> f64 {
    let (step, food, loss, draw, kill, win, survival) = (w[0], w[1], w[2], w[3], w[4], w[5], w[6]);
    let added = if e[DIED] == 1 {
        vec![(LOST, loss), (DREW, draw)]
    } else {
        vec![(ATE, food), (KILL, kill), (WON, win), (LOST, loss), (SURVIVED, survival)]
    };
    added.iter().filter(|(flag, _)| e[*flag] == 1).fold(step, |sum, (_, weight)| sum + weight)
}
