//! Document 01 alone, read a second time: what the published Rust has not. Setting numbers, the state
//! image, free cells, count, ordered draws, ranking, the body query and every refusal with its order.
//! Nothing here calls the Rust; `calls.rs` holds the two against each other where both know the answer.

use crate::fields::{flag, grid, number, optional, Fields};
use crate::paper_faults::{self, Refusal};

/// A refusal's number.
pub type Number = u8;

/// Replay's first line.
#[derive(Clone, Debug, PartialEq)]
pub struct Setting {
    pub num_snakes: u64,
    pub grid_size: i32,
    pub initial_length: u64,
    pub play_to_last: bool,
    pub win_food_lead: Option<u64>,
    pub initial_food_count: u64,
    pub max_ticks: Option<u64>,
}

impl Setting {
    /// The seven fields of a first line; none where a field is unreadable.
    pub fn read(fields: &mut Fields) -> Option<Setting> {
        Some(Setting {
            num_snakes: fields.number()?,
            grid_size: grid(fields.next()?)?,
            initial_length: fields.number()?,
            play_to_last: flag(fields.next()?)?,
            win_food_lead: optional(fields.next()?)?,
            initial_food_count: number(fields.next()?)?,
            max_ticks: optional(fields.next()?)?,
        })
    }

    pub fn print(&self) -> String {
        let or_dash = |n: Option<u64>| n.map_or("-".to_string(), |n| n.to_string());
        format!(
            "{} {} {} {} {} {} {}",
            self.num_snakes,
            self.grid_size,
            self.initial_length,
            u8::from(self.play_to_last),
            or_dash(self.win_food_lead),
            self.initial_food_count,
            or_dash(self.max_ticks)
        )
    }
}

// ---- setting

/// A row and a column, on the grid or off it.
type Place = (i64, i64);

const RIGHT: Place = (0, 1);
const LEFT: Place = (0, -1);
const UP: Place = (-1, 0);
const DOWN: Place = (1, 0);

fn on_grid(g: i64, (r, c): Place) -> bool {
    0 <= r && r < g && 0 <= c && c < g
}

/// The body of snake `i`, or none where it cannot be traced to its length.
fn placed(s: &Setting, i: i64) -> Option<Vec<Place>> {
    let (g, n) = (i64::from(s.grid_size), s.num_snakes as i64);
    let row = if n == 2 { g / 2 } else { (i + 1) * g / (n + 1) };
    let (head, turns) = if i % 2 == 0 {
        ((row, g / 3), [LEFT, DOWN, RIGHT, UP])
    } else {
        ((row, g - g / 3), [RIGHT, UP, LEFT, DOWN])
    };
    let mut body = vec![head];
    let mut at = head;
    for (dr, dc) in turns {
        loop {
            let next = (at.0 + dr, at.1 + dc);
            if body.len() as u64 == s.initial_length || !on_grid(g, next) {
                break;
            }
            body.push(next);
            at = next;
        }
    }
    if body.len() as u64 == s.initial_length {
        Some(body)
    } else {
        None
    }
}

/// The product of `k` factors from `n` downward; none when above 2^64 - 1.
pub fn falling(n: u64, k: u64) -> Option<u64> {
    (0..k).try_fold(1u64, |product, i| product.checked_mul(n - i))
}

/// 1 to 12 as listed, but for 7, which document 02 takes out: on a grid of at most 32 it never comes.
pub fn check_setting(s: &Setting) -> Result<(), Number> {
    if !(2..=8).contains(&s.num_snakes) {
        return Err(1);
    }
    if s.initial_length == 0 {
        return Err(2);
    }
    if s.win_food_lead == Some(0) {
        return Err(3);
    }
    if s.win_food_lead.is_some() && s.num_snakes != 2 {
        return Err(4);
    }
    if s.grid_size > 32 {
        return Err(5);
    }
    let g = i64::from(s.grid_size);
    let cells = if g < 0 { 0 } else { (g * g) as u64 };
    if s.initial_food_count > cells {
        return Err(6);
    }
    match falling(cells, s.num_snakes.min(s.initial_food_count)) {
        Some(product) if product <= 1 << 53 => {}
        _ => return Err(8),
    }
    let mut bodies = Vec::new();
    for i in 0..s.num_snakes as i64 {
        bodies.push(placed(s, i).ok_or(9)?);
    }
    let mut taken = Vec::new();
    for place in bodies.into_iter().flatten() {
        if !on_grid(g, place) {
            return Err(10);
        }
        if taken.contains(&place) {
            return Err(11);
        }
        taken.push(place);
    }
    if s.initial_food_count > cells - taken.len() as u64 {
        return Err(12);
    }
    Ok(())
}

// ---- the state image

#[derive(Clone, Debug, PartialEq)]
pub struct Snake {
    pub heading: u16,
    pub alive: bool,
    pub body: Vec<u16>,
}

#[derive(Clone, Debug, PartialEq)]
pub struct State {
    pub side: u16,
    pub due: u16,
    pub birth: bool,
    pub snakes: Vec<Snake>,
    pub food: Vec<u16>,
}

fn yes_no(word: u16) -> Option<bool> {
    match word {
        0 => Some(false),
        1 => Some(true),
        _ => None,
    }
}

fn repeats(cells: &[u16]) -> bool {
    let mut sorted = cells.to_vec();
    sorted.sort_unstable();
    sorted.windows(2).any(|two| two[0] == two[1])
}

/// The state of a well-formed image; none for any other words.
pub fn read_image(words: &[u16]) -> Option<State> {
    let head = words.get(..5)?;
    let (n, side, due, food_count) = (head[0], head[1], head[2], usize::from(head[4]));
    if !(2..=8).contains(&n) || !(1..=32).contains(&side) || due > 1024 {
        return None;
    }
    let birth = yes_no(head[3])?;
    let cells = side * side;
    if food_count > usize::from(cells) {
        return None;
    }
    let table = words.get(5..5 + 4 * usize::from(n))?;
    let mut start = 5 + table.len();
    let mut snakes = Vec::new();
    for row in table.chunks(4) {
        let (length, heading, alive) = (row[1], row[2], yes_no(row[3])?);
        if usize::from(row[0]) != start || length > cells || heading > 3 || (alive && length == 0) {
            return None;
        }
        let body = words.get(start..start + usize::from(length))?.to_vec();
        if body.iter().any(|&cell| cell >= cells) || repeats(&body) {
            return None;
        }
        start += usize::from(length);
        snakes.push(Snake { heading, alive, body });
    }
    let food = words.get(start..)?.to_vec();
    let ascending = food.windows(2).all(|two| two[0] < two[1]);
    if food.len() != food_count || !ascending || food.iter().any(|&cell| cell >= cells) {
        return None;
    }
    Some(State { side, due, birth, snakes, food })
}

/// The one image of a state.
pub fn write_image(state: &State) -> Vec<u16> {
    let n = state.snakes.len();
    let mut words = vec![n as u16, state.side, state.due, u16::from(state.birth), state.food.len() as u16];
    let mut start = 5 + 4 * n;
    for snake in &state.snakes {
        words.extend([start as u16, snake.body.len() as u16, snake.heading, u16::from(snake.alive)]);
        start += snake.body.len();
    }
    for snake in &state.snakes {
        words.extend(&snake.body);
    }
    words.extend(&state.food);
    words
}

/// Start and length of a snake's body in the image; the empty front where there is none.
pub fn body_part(words: &[u16], snake: u64) -> (usize, usize) {
    match read_image(words) {
        Some(state) if snake < state.snakes.len() as u64 => {
            let row = 5 + 4 * snake as usize;
            (usize::from(words[row]), usize::from(words[row + 1]))
        }
        _ => (0, 0),
    }
}

// ---- chance

/// Cells with neither food nor any body, in row-major order.
pub fn free_cells(state: &State) -> Vec<u16> {
    let mut free = vec![true; usize::from(state.side) * usize::from(state.side)];
    let bodies = state.snakes.iter().flat_map(|snake| &snake.body);
    for &cell in bodies.chain(&state.food) {
        free[usize::from(cell)] = false;
    }
    (0..free.len()).filter(|&cell| free[cell]).map(|cell| cell as u16).collect()
}

/// How many cells one draw takes.
pub fn draws(state: &State) -> u64 {
    let free = free_cells(state).len() as u64;
    if state.birth {
        free.min(1)
    } else {
        free.min(u64::from(state.due))
    }
}

/// Count: the image is the caller's; then 23, 28.
pub fn count(state: &State) -> Result<u64, Number> {
    if state.due == 0 {
        return Err(23);
    }
    falling(free_cells(state).len() as u64, draws(state)).ok_or(28)
}

/// The cells that an index below the count draws, in order.
pub fn drawn(state: &State, index: u64) -> Vec<u16> {
    let mut free = free_cells(state);
    let (n, k) = (free.len() as u64, draws(state));
    let mut digits = Vec::new();
    let mut rest = index;
    for base in n - k + 1..=n {
        digits.push((rest % base) as usize);
        rest /= base;
    }
    assert!(rest == 0, "an index below the count leaves nothing over");
    digits.iter().rev().map(|&digit| free.remove(digit)).collect()
}

/// The state after a draw of these cells.
pub fn after_draw(state: &State, cells: &[u16]) -> State {
    let mut next = state.clone();
    next.food.extend(cells);
    next.food.sort_unstable();
    if state.birth && !cells.is_empty() {
        next.due -= 1;
    } else {
        next.due = 0;
    }
    next.birth = next.due > 0;
    next
}

/// Rank: the image is the caller's; then 23, 28, 30.
pub fn rank(state: &State, list: &[u16]) -> Result<u64, Number> {
    count(state)?;
    if list.len() as u64 != draws(state) {
        return Err(30);
    }
    let mut free = free_cells(state);
    let mut index = 0;
    for cell in list {
        // A repeated cell is no longer free when it comes again.
        let digit = free.iter().position(|c| c == cell).ok_or(30)?;
        index = index * free.len() as u64 + digit as u64;
        free.remove(digit);
    }
    Ok(index)
}

// ---- the order of refusals

/// 21 where n or g differs from the setting.
pub fn check_board(s: &Setting, state: &State) -> Result<(), Number> {
    if state.snakes.len() as u64 == s.num_snakes && i32::from(state.side) == s.grid_size {
        Ok(())
    } else {
        Err(21)
    }
}

/// Step: setting, the image's, 21, 22, 24, 25; 29 needs the answer and is last.
pub fn check_step(s: &Setting, words: &[u16], actions: &[u64]) -> Result<State, Refusal> {
    check_setting(s)?;
    let state = paper_faults::state(words)?;
    check_board(s, &state)?;
    if state.due > 0 {
        return Err(22.into());
    }
    if actions.len() != state.snakes.len() {
        return Err(24.into());
    }
    let beyond = |(snake, &action): (&Snake, &u64)| snake.alive && action > 2;
    if state.snakes.iter().zip(actions).any(beyond) {
        return Err(25.into());
    }
    Ok(state)
}

/// Observation, legal actions, truncation: the image's, 26.
pub fn check_agent(words: &[u16], agent: u64) -> Result<State, Refusal> {
    let state = paper_faults::state(words)?;
    if agent < state.snakes.len() as u64 {
        Ok(state)
    } else {
        Err(26.into())
    }
}

/// Draw: the image's, 23, 28, 27; 29 needs the answer and is last.
pub fn check_draw(words: &[u16], index: u64) -> Result<State, Refusal> {
    let state = paper_faults::state(words)?;
    if index < count(&state)? {
        Ok(state)
    } else {
        Err(27.into())
    }
}

/// 29 where the lent buffer is shorter than its answer.
pub fn check_room(room: u64, needed: usize) -> Result<(), Number> {
    if room < needed as u64 {
        Err(29)
    } else {
        Ok(())
    }
}

/// Space query: 5 for a grid above 32 or below 1.
pub fn check_space(grid: i32) -> Result<(), Number> {
    if (1..=32).contains(&grid) {
        Ok(())
    } else {
        Err(5)
    }
}

/// Outcome of a unit number: 80 count outside 1 to 2^53, then 81 a number that is not at least 0 and below 1.
pub fn check_unit(count: u64, u: f64) -> Result<(), Number> {
    if !(1..=1 << 53).contains(&count) {
        return Err(80);
    }
    if !(0.0..1.0).contains(&u) {
        return Err(81);
    }
    Ok(())
}

/// The whole part of the exact product of a count of at most 2^53 and a number from 0 to below 1.
pub fn whole_part(count: u64, u: f64) -> u64 {
    let (exponent, fraction) = ((u.to_bits() >> 52) & 0x7ff, u.to_bits() & ((1 << 52) - 1));
    // u is `mantissa` times 2^-`shift`
    let (mantissa, shift) = if exponent == 0 { (fraction, 1074) } else { (fraction | 1 << 52, 1075 - exponent) };
    let product = u128::from(count) * u128::from(mantissa);
    if shift < 128 { (product >> shift) as u64 } else { 0 }
}

/// Reward: 31 where a weight is not finite.
pub fn check_weights(weights: &[f64]) -> Result<(), Number> {
    if weights.iter().all(|w| w.is_finite()) {
        Ok(())
    } else {
        Err(31)
    }
}
