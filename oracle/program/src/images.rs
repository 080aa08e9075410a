//! States and images for the generator: drawn at will, set up for one rule, met in played matches, and damaged.

use crate::paper::{self, Setting, Snake, State};
use crate::random::Random;
use crate::replay::Match;

pub const STEPS: [(i32, i32); 4] = [(-1, 0), (0, 1), (1, 0), (0, -1)];

/// The neighbour of a cell in a heading, or none off the grid.
pub fn neighbour(side: u16, cell: u16, heading: u16) -> Option<u16> {
    let (dr, dc) = STEPS[usize::from(heading)];
    let g = i32::from(side);
    let (r, c) = (i32::from(cell) / g + dr, i32::from(cell) % g + dc);
    if 0 <= r && r < g && 0 <= c && c < g {
        Some((r * g + c) as u16)
    } else {
        None
    }
}

/// Small sides most of the time, so that heads meet; now and then any side up to 32.
pub fn side(rng: &mut Random) -> u16 {
    match rng.below(40) {
        0 => 1,
        1..=4 => 2,
        5..=14 => 3,
        15..=23 => 4,
        24..=29 => 5,
        30..=33 => 6,
        34..=37 => rng.between(7, 12) as u16,
        38 => rng.between(13, 31) as u16,
        _ => {
            if rng.once_in(3) {
                32
            } else {
                rng.between(3, 9) as u16
            }
        }
    }
}

/// Two to eight snakes, two and three more often.
pub fn snake_count(rng: &mut Random) -> u64 {
    match rng.below(10) {
        0..=3 => 2,
        4..=5 => 3,
        _ => rng.between(2, 8),
    }
}

/// A walk that never crosses itself nor, where asked, a taken cell; empty where no start is found.
fn walk(rng: &mut Random, side: u16, length: usize, taken: &[u16]) -> Vec<u16> {
    let cells = u64::from(side) * u64::from(side);
    for _ in 0..8 {
        let first = rng.below(cells) as u16;
        if !taken.contains(&first) {
            return walk_on(rng, side, &[first], length, taken);
        }
    }
    Vec::new()
}

/// A body walked on from its last cell to a length, as far as there is room.
fn walk_on(rng: &mut Random, side: u16, body: &[u16], length: usize, taken: &[u16]) -> Vec<u16> {
    let mut body = body.to_vec();
    while body.len() < length {
        let at = *body.last().expect("not empty");
        let mut open: Vec<u16> = (0..4).filter_map(|h| neighbour(side, at, h)).collect();
        open.retain(|c| !body.contains(c) && !taken.contains(c));
        if open.is_empty() {
            break;
        }
        body.push(*rng.pick(&open));
    }
    body
}

/// Any cells of the board without repetition, in any order.
fn scattered(rng: &mut Random, side: u16, length: usize) -> Vec<u16> {
    let mut cells: Vec<u16> = (0..side * side).collect();
    rng.shuffle(&mut cells);
    cells.truncate(length);
    cells
}

/// A body's length: short mostly, sometimes around the length cell's buckets, rarely the whole board.
fn body_length(rng: &mut Random, side: u16) -> usize {
    let cells = usize::from(side) * usize::from(side);
    let length = match rng.below(20) {
        0..=11 => rng.between(1, 4) as usize,
        12..=16 => rng.between(1, 10) as usize,
        17..=18 => rng.between(1, 32) as usize,
        _ => {
            if side > 8 {
                rng.between(1, 64) as usize
            } else {
                cells
            }
        }
    };
    length.min(cells)
}

/// The heading that a body suggests: away from its second cell.
fn heading_of(body: &[u16], side: u16) -> Option<u16> {
    let (head, neck) = (*body.first()?, *body.get(1)?);
    (0..4).find(|&h| neighbour(side, neck, h) == Some(head))
}

fn any_snake(rng: &mut Random, side: u16, taken: &[u16]) -> Snake {
    let length = body_length(rng, side);
    let mut body = if rng.once_in(5) { scattered(rng, side, length) } else { walk(rng, side, length, taken) };
    let mut alive = !rng.once_in(5);
    if !alive && rng.once_in(3) {
        body.clear();
    }
    if body.is_empty() {
        // A living snake has a cell; a board with no room left makes a corpse without one.
        alive = false;
    }
    let heading = match heading_of(&body, side) {
        Some(h) if !rng.once_in(4) => h,
        _ => rng.below(4) as u16,
    };
    Snake { heading, alive, body }
}

/// Food: none, little, half, all but one free cell, all free cells, or also under bodies.
fn any_food(rng: &mut Random, state: &State) -> Vec<u16> {
    let free = paper::free_cells(state);
    let cells = state.side * state.side;
    let mut food: Vec<u16> = match rng.below(12) {
        0..=1 => Vec::new(),
        2..=6 => {
            let most = rng.between(1, 4) as usize;
            (0..most).map(|_| rng.below(u64::from(cells)) as u16).collect()
        }
        7..=8 => free.into_iter().filter(|_| rng.once_in(2)).collect(),
        9 => {
            let left = if free.is_empty() { 0 } else { rng.below(free.len() as u64) as usize };
            free.iter().enumerate().filter(|(i, _)| *i != left).map(|(_, &c)| c).collect()
        }
        10 => free,
        _ => (0..cells).filter(|_| rng.once_in(2)).collect(),
    };
    food.sort_unstable();
    food.dedup();
    food
}

/// Food due and birth, for a step (mostly none due) or for a draw (mostly some).
pub fn set_due(rng: &mut Random, state: &mut State, for_draw: bool) {
    let free = paper::free_cells(state).len() as u64;
    let none = if for_draw { rng.once_in(12) } else { !rng.once_in(12) };
    let due = match rng.below(12) {
        _ if none => 0,
        0..=6 => rng.between(1, 4),
        7..=8 => rng.between(1, 9),
        9 => free + rng.below(2),
        10 => rng.between(free.min(1024), 1024),
        _ => *rng.pick(&[1, 1023, 1024]),
    };
    state.due = due.min(1024) as u16;
    state.birth = rng.once_in(if for_draw { 3 } else { 8 });
}

/// A state drawn at will for so many snakes on such a board.
pub fn any_state(rng: &mut Random, n: u64, side: u16) -> State {
    let mut state = State { side, due: 0, birth: false, snakes: Vec::new(), food: Vec::new() };
    let apart = rng.once_in(2);
    let mut taken = Vec::new();
    for _ in 0..n {
        let snake = any_snake(rng, side, if apart { &taken } else { &[] });
        taken.extend(&snake.body);
        state.snakes.push(snake);
    }
    if rng.once_in(3) {
        set_up(rng, &mut state);
    }
    state.food = any_food(rng, &state);
    state
}

/// A body with this head, its second cell behind the heading where there is room.
fn facing(rng: &mut Random, side: u16, head: u16, heading: u16, length: usize) -> Snake {
    let body = match neighbour(side, head, (heading + 2) % 4) {
        Some(neck) if length > 1 => walk_on(rng, side, &[head, neck], length, &[]),
        _ => vec![head],
    };
    Snake { heading, alive: true, body }
}

/// Sets two snakes, anywhere in the order, so that one rule of the step is met.
fn set_up(rng: &mut Random, state: &mut State) {
    let side = state.side;
    let cells = u64::from(side) * u64::from(side);
    let n = state.snakes.len() as u64;
    let i = rng.below(n) as usize;
    let j = ((i as u64 + 1 + rng.below(n - 1)) % n) as usize;
    let head = rng.below(cells) as u16;
    let heading = rng.below(4) as u16;
    let (first, second) = (rng.between(1, 4) as usize, rng.between(1, 4) as usize);
    let back = (heading + 2) % 4;
    match rng.below(7) {
        // facing neighbours
        0 => {
            if let Some(other) = neighbour(side, head, heading) {
                state.snakes[i] = facing(rng, side, head, heading, first);
                state.snakes[j] = facing(rng, side, other, back, second);
            }
        }
        // one free cell between two heads
        1 => {
            let between = neighbour(side, head, heading);
            if let Some(other) = between.and_then(|c| neighbour(side, c, heading)) {
                state.snakes[i] = facing(rng, side, head, heading, first);
                state.snakes[j] = facing(rng, side, other, back, second);
            }
        }
        // two heads on one cell, often at an edge and facing out, so that they meet off the grid
        2 => {
            let edge: Vec<u16> = (0..side * side).filter(|&c| neighbour(side, c, heading).is_none()).collect();
            let at = if rng.once_in(3) { head } else { *rng.pick(&edge) };
            state.snakes[i] = facing(rng, side, at, heading, first);
            state.snakes[j] = facing(rng, side, at, heading, second);
        }
        // a head leaves at the right or left, and a body holds the cell of the same row-major number
        3 => {
            let row = rng.below(u64::from(side)) as u16;
            let (at, alias, heading) = if rng.once_in(2) {
                (row * side + side - 1, (row + 1) * side, 1)
            } else {
                (row * side, (row * side).wrapping_sub(1), 3)
            };
            state.snakes[i] = facing(rng, side, at, heading, first);
            if alias < side * side {
                state.snakes[j] = Snake { heading: rng.below(4) as u16, alive: true, body: vec![alias] };
            }
        }
        // other bodies hold the cell that a head enters, and their own heads move away from it
        4 | 5 => {
            if let Some(target) = neighbour(side, head, heading) {
                state.snakes[i] = facing(rng, side, head, heading, first);
                for k in (0..n as usize).filter(|&k| k != i) {
                    let away = rng.below(4) as u16;
                    if let Some(at) = neighbour(side, target, away) {
                        let length = rng.between(2, 5) as usize;
                        let body = walk_on(rng, side, &[at, target], length, &[]);
                        state.snakes[k] = Snake { heading: away, alive: !rng.once_in(5), body };
                    }
                }
            }
        }
        // a snake that turns into itself while another body holds the same cell
        _ => {
            if let Some(target) = neighbour(side, head, heading) {
                let body = walk_on(rng, side, &[head, target], 4, &[]);
                state.snakes[i] = Snake { heading, alive: true, body };
                let body = walk_on(rng, side, &[target], second + 1, &[]);
                state.snakes[j] = Snake { heading: rng.below(4) as u16, alive: true, body };
            }
        }
    }
}

/// A body with this cell anywhere in it; seldom short of the length, where there is no room.
fn through(rng: &mut Random, side: u16, cell: u16, length: usize) -> Vec<u16> {
    let before = rng.below(length as u64) as usize;
    let mut body = walk_on(rng, side, &[cell], before + 1, &[]);
    body.reverse();
    walk_on(rng, side, &body, length, &[])
}

/// Sets one snake before a cell that lies anywhere in the bodies of the others, corpses and itself among them: its number.
pub fn crowd(rng: &mut Random, state: &mut State) -> usize {
    let side = state.side;
    let i = rng.below(state.snakes.len() as u64) as usize;
    let head = rng.below(u64::from(side) * u64::from(side)) as u16;
    let heading = rng.below(4) as u16;
    let target = match neighbour(side, head, heading) {
        Some(target) => target,
        None => return i,
    };
    let room = u64::from(side) * u64::from(side);
    for k in 0..state.snakes.len() {
        if k == i || rng.once_in(4) {
            continue;
        }
        let length = rng.between(1, room.min(24)) as usize;
        let body = through(rng, side, target, length);
        state.snakes[k] = Snake { heading: rng.below(4) as u16, alive: !rng.once_in(4), body };
    }
    let length = rng.between(1, room.min(24)) as usize;
    let own = through(rng, side, target, length);
    state.snakes[i] = match own.iter().position(|&c| c == head) {
        // its own body leads back to the cell
        Some(0) => Snake { heading, alive: true, body: own },
        _ => facing(rng, side, head, heading, length),
    };
    i
}

/// A lead at, one above or one below the difference of two lengths.
pub fn lead_near(rng: &mut Random, state: &State) -> u64 {
    let lengths: Vec<u64> = state.snakes.iter().map(|s| s.body.len() as u64).collect();
    (lengths[0].abs_diff(lengths[1]) + rng.below(3)).saturating_sub(1).max(1)
}

/// Bodies of all lengths up to 36, around every bucket of the length cell.
pub fn long_state(rng: &mut Random) -> State {
    let snake = |rng: &mut Random| {
        let length = rng.between(1, 36) as usize;
        Snake { heading: rng.below(4) as u16, alive: true, body: scattered(rng, 6, length) }
    };
    let snakes = (0..snake_count(rng)).map(|_| snake(rng)).collect();
    State { side: 6, due: 0, birth: false, snakes, food: Vec::new() }
}

/// The largest image: eight snakes of all 1,024 cells and food on every cell.
pub fn full_state(rng: &mut Random) -> State {
    let snake = |rng: &mut Random| Snake {
        heading: rng.below(4) as u16,
        alive: !rng.once_in(6),
        body: scattered(rng, 32, 1024),
    };
    let snakes = (0..8).map(|_| snake(rng)).collect();
    State { side: 32, due: 0, birth: false, snakes, food: (0..1024).collect() }
}

// ---- settings

/// An accepted setting for so many snakes on such a board, or none where there is none.
pub fn setting_for(rng: &mut Random, n: u64, side: u16) -> Option<Setting> {
    let cells = u64::from(side) * u64::from(side);
    for attempt in 0..4 {
        let simple = attempt == 3;
        let lead = if n == 2 && rng.once_in(2) { Some(rng.between(1, 4)) } else { None };
        let s = Setting {
            num_snakes: n,
            grid_size: i32::from(side),
            initial_length: if simple { 1 } else { rng.between(1, 4) },
            play_to_last: rng.once_in(3),
            win_food_lead: if simple { None } else { lead },
            initial_food_count: if simple { 0 } else { rng.between(0, cells.min(6)) },
            max_ticks: if rng.once_in(3) { Some(rng.between(0, 30)) } else { None },
        };
        if paper::check_setting(&s).is_ok() {
            return Some(s);
        }
    }
    None
}

/// Snakes and a side that some setting accepts, with that setting.
pub fn accepted(rng: &mut Random) -> Setting {
    loop {
        let (n, g) = (snake_count(rng), side(rng));
        if let Some(s) = setting_for(rng, n, g) {
            return s;
        }
    }
}

// ---- played matches

/// Actions that mostly keep a snake on the board and off its neighbours, sometimes anything.
pub fn sensible(rng: &mut Random, state: &State) -> Vec<u64> {
    let blocked: Vec<u16> = state.snakes.iter().flat_map(|s| s.body.iter().copied()).collect();
    let choose = |rng: &mut Random, snake: &Snake| {
        if !snake.alive {
            return if rng.once_in(4) { rng.word() >> rng.below(64) } else { rng.below(3) };
        }
        let turned = [snake.heading, (snake.heading + 3) % 4, (snake.heading + 1) % 4];
        let target = |a: u64| neighbour(state.side, snake.body[0], turned[a as usize]);
        let mut open: Vec<u64> = (0..3).filter(|&a| target(a).map_or(false, |c| !blocked.contains(&c))).collect();
        if let Some(&fed) = open.iter().find(|&&a| state.food.contains(&target(a).expect("open"))) {
            if !rng.once_in(3) {
                open = vec![fed];
            }
        }
        if open.is_empty() || rng.once_in(15) {
            rng.below(3)
        } else {
            *rng.pick(&open)
        }
    };
    state.snakes.iter().map(|snake| choose(rng, snake)).collect()
}

/// Actions of snakes that live long: off the walls, off all bodies, out of reach of the other heads, and seldom to food.
pub fn careful(rng: &mut Random, state: &State) -> Vec<u64> {
    let reach = |snake: &Snake| (0..4).filter_map(|h| neighbour(state.side, snake.body[0], h)).collect::<Vec<u16>>();
    let choose = |rng: &mut Random, i: usize, snake: &Snake| {
        if !snake.alive {
            return if rng.once_in(16) { rng.word() >> rng.below(64) } else { 0 };
        }
        let turned = [snake.heading, (snake.heading + 3) % 4, (snake.heading + 1) % 4];
        let target = |a: u64| neighbour(state.side, snake.body[0], turned[a as usize]);
        let is_free = |c: u16| state.snakes.iter().all(|s| !s.body.contains(&c));
        let is_safe =
            |c: u16| state.snakes.iter().enumerate().all(|(j, s)| j == i || !s.alive || !reach(s).contains(&c));
        let free: Vec<u64> = (0..3).filter(|&a| target(a).map_or(false, is_free)).collect();
        let safe: Vec<u64> = free.iter().copied().filter(|&a| target(a).map_or(false, is_safe)).collect();
        let plain: Vec<u64> =
            safe.iter().copied().filter(|&a| target(a).map_or(false, |c| !state.food.contains(&c))).collect();
        let open = if !plain.is_empty() && !rng.once_in(16) { &plain } else { &safe };
        let open = if open.is_empty() { &free } else { open };
        if open.is_empty() {
            0
        } else {
            *rng.pick(open)
        }
    };
    state.snakes.iter().enumerate().map(|(i, snake)| choose(rng, i, snake)).collect()
}

/// A match that goes on from call to call, so that states of every age come up.
pub struct Player {
    game: Match,
}

impl Player {
    pub fn new(rng: &mut Random) -> Player {
        let (game, _) = Match::start(accepted(rng)).expect("accepted");
        Player { game }
    }

    /// The next state of the match, after one draw or move; a new match begins where one ends.
    pub fn next(&mut self, rng: &mut Random) -> (Setting, State) {
        if self.game.over || rng.once_in(150) {
            *self = Player::new(rng);
        }
        let shown = (self.game.setting.clone(), self.game.state.clone());
        if self.game.state.due > 0 {
            let count = paper::count(&self.game.state).expect("bounded by the setting");
            self.game.draw(rng.below(count)).expect("an index below the count");
        } else {
            let actions = sensible(rng, &self.game.state);
            self.game.play(&actions).expect("a legal move");
        }
        shown
    }
}

// ---- damage

/// One fault of "Well-formed" put into the words of an image. It may undo itself on odd images;
/// the oracle reads the words afresh.
pub fn damage(rng: &mut Random, words: &mut Vec<u16>) {
    let n = usize::from(words.first().copied().unwrap_or(0)).min(8);
    let row = 5 + 4 * if n == 0 { 0 } else { rng.below(n as u64) as usize };
    let side = words.get(1).copied().unwrap_or(0);
    let cells = side.wrapping_mul(side);
    let any = rng.below(words.len().max(1) as u64) as usize;
    let bodies_at = 5 + 4 * n;
    let old = words.clone();
    let was = |at: usize| old.get(at).copied().unwrap_or(0);
    match rng.below(26) {
        0 => drop(words.pop()),
        1 => words.push(rng.below(9) as u16),
        2 => words.truncate(rng.below(13) as usize),
        3 => set(words, 0, *rng.pick(&[0, 1, 9, 65535])),
        4 => set(words, 0, rng.between(2, 8) as u16),
        5 => set(words, 1, *rng.pick(&[0, 33, 255, 256, 65535])),
        6 => set(words, 1, rng.between(1, 32) as u16),
        7 => set(words, 2, *rng.pick(&[1025, 1026, 65535])),
        8 => set(words, 3, *rng.pick(&[2, 3, 65535])),
        9 => set(words, 4, was(4).wrapping_add(1)),
        10 => set(words, 4, was(4).wrapping_sub(1)),
        11 => set(words, 4, *rng.pick(&[cells, cells.wrapping_add(1), 65535])),
        12 => set(words, row, was(row).wrapping_add(1)),
        13 => set(words, row, was(row).wrapping_sub(1)),
        14 => set(words, row + 1, was(row + 1).wrapping_add(1)),
        15 => set(words, row + 1, was(row + 1).wrapping_sub(1)),
        16 => set(words, row + 1, *rng.pick(&[0, cells.wrapping_add(1), 65535, 65534])),
        17 => set(words, row + 2, *rng.pick(&[4, 5, 65535])),
        18 => set(words, row + 3, *rng.pick(&[2, 3, 65535])),
        19 => set(words, row + 3, 1),
        20 => set(words, any, *rng.pick(&[cells, cells.wrapping_add(1), cells.wrapping_sub(1), 65535])),
        // a repeated cell within a body, where the body has two
        21 => {
            let (start, length) = (usize::from(was(row)), was(row + 1));
            if length > 1 {
                let to = start + rng.below(u64::from(length)) as usize;
                let from = start + rng.below(u64::from(length)) as usize;
                let cell = was(from);
                set(words, to, cell);
            }
        }
        // food out of order or repeated
        22 | 23 => {
            let food = usize::from(was(4));
            if food > 1 && food < words.len() {
                let last = words.len() - 1 - rng.below(food as u64 - 1) as usize;
                if rng.once_in(2) {
                    words.swap(last, last - 1);
                } else {
                    words[last] = words[last - 1];
                }
            }
        }
        // a word more in a body or before it, or one less, with nothing else moved
        24 => words.insert(bodies_at.min(words.len()), rng.below(u64::from(cells.max(1))) as u16),
        _ => {
            // starts and lengths that add up only beyond 65,535
            let length = 65535u16.wrapping_sub(was(row)).wrapping_add(1);
            set(words, row + 1, length);
        }
    }
}

fn set(words: &mut [u16], at: usize, value: u16) {
    if let Some(word) = words.get_mut(at) {
        *word = value;
    }
}
