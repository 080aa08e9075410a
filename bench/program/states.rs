//! The states that are measured, made here: five kinds of match, and images of 50 to 9,253 words for the growth.
//! A cell is row * side + column; headings as in the image: 0 Up, 1 Right, 2 Down, 3 Left.

pub struct Snake {
    pub cells: Vec<u16>,
    pub heading: u16,
    pub alive: bool,
}

/// A setting without win_food_lead and max_ticks, not played to the last.
#[derive(Clone, Copy)]
pub struct Setting {
    pub num_snakes: u64,
    pub grid_size: i32,
    pub initial_length: u64,
    pub initial_food_count: u64,
}

pub struct State {
    pub name: String,
    pub side: u16,
    pub snakes: Vec<Snake>,
    /// Ascending.
    pub food: Vec<u16>,
    /// Its snakes and grid are the state's.
    pub setting: Setting,
    /// Actions with which exactly two snakes die; with all 0 nobody dies or eats.
    pub fatal: Vec<u64>,
}

pub const BIG: Setting = Setting { num_snakes: 8, grid_size: 32, initial_length: 16, initial_food_count: 5 };

impl State {
    pub fn image(&self, due: u16) -> Vec<u16> {
        let n = self.snakes.len();
        let mut words = vec![n as u16, self.side, due, 0, self.food.len() as u16];
        let mut start = 5 + 4 * n;
        for s in &self.snakes {
            words.extend([start as u16, s.cells.len() as u16, s.heading, u16::from(s.alive)]);
            start += s.cells.len();
        }
        for s in &self.snakes {
            words.extend(&s.cells);
        }
        words.extend(&self.food);
        words
    }

    pub fn words(&self) -> usize {
        5 + 4 * self.snakes.len() + self.snakes.iter().map(|s| s.cells.len()).sum::<usize>() + self.food.len()
    }

    pub fn free(&self) -> u64 {
        let mut taken = vec![false; usize::from(self.side) * usize::from(self.side)];
        for &c in self.snakes.iter().flat_map(|s| &s.cells).chain(&self.food) {
            taken[usize::from(c)] = true;
        }
        taken.iter().filter(|&&t| !t).count() as u64
    }

    /// The most apples, up to 8, whose count of outcomes fits 64 bits; more are refused by 28.
    pub fn most(&self) -> u16 {
        let n = u128::from(self.free());
        let count = |k: u16| (0..u128::from(k)).map(|i| n - i).product::<u128>();
        (1..=8).filter(|&k| u128::from(k) <= n && count(k) < 1 << 64).max().unwrap_or(1)
    }

    /// The outcome drawn with `due` apples: its digits are spread evenly over the free cells.
    pub fn outcome(&self, due: u16) -> u64 {
        let n = u128::from(self.free());
        let k = u128::from(due).min(n);
        let index = (0..k).fold(0, |x, i| x * (n - i) + (n - i) * (2 * i + 1) / (2 * k));
        u64::try_from(index).expect("most() apples at most")
    }
}

fn cell(side: u16, row: i32, column: i32) -> u16 {
    row as u16 * side + column as u16
}

/// The head in row `there`, the body back to the left for `half` cells, then to the right along row `back`.
fn hairpin(side: u16, there: i32, back: i32, column: i32, half: i32) -> Snake {
    let first = (0..half).map(|i| cell(side, there, column - i));
    let second = (0..half).map(|i| cell(side, back, column - half + 1 + i));
    Snake { cells: first.chain(second).collect(), heading: 1, alive: true }
}

/// Hairpins four rows apart, but for snake 1, whose head is just above snake 2's.
fn hairpins(side: u16, n: i32, column: i32, half: i32) -> Vec<Snake> {
    let pin = |i| match i {
        1 => hairpin(side, 7, 6, column, half),
        _ => hairpin(side, 4 * i, 4 * i + 1, column, half),
    };
    (0..n).map(pin).collect()
}

/// To and fro over rows 0 to `last` of 32 columns, the tail at (0, t), the head at (last + 1, 22 + t) and heading Down;
/// mirrored left to right on demand.
fn serpentine(last: i32, t: i32, mirrored: bool) -> Snake {
    let mut cells = Vec::new();
    for row in 0..=last {
        for i in 0..32 {
            let column = if row % 2 == 0 { i } else { 31 - i };
            let cut = (row == 0 && column < t) || (row == last && column > 22 + t);
            if !cut {
                cells.push((row, column));
            }
        }
    }
    cells.push((last + 1, 22 + t));
    let turn = |c: i32| if mirrored { 31 - c } else { c };
    Snake { cells: cells.into_iter().rev().map(|(r, c)| cell(32, r, turn(c))).collect(), heading: 2, alive: true }
}

/// Eight of them, no two heads or next cells in one column.
fn serpentines(last: i32) -> Vec<Snake> {
    let eight = [(0, false), (0, true), (1, false), (3, true), (5, false), (6, true), (9, false), (9, true)];
    eight.iter().map(|&(t, mirrored)| serpentine(last, t, mirrored)).collect()
}

fn line(row: i32, column: i32, along: i32, heading: u16, length: i32) -> Snake {
    let cells = (0..length).map(|i| cell(10, row, column + along * i)).collect();
    Snake { cells, heading, alive: true }
}

fn actions(n: usize, some: &[(usize, u64)]) -> Vec<u64> {
    let mut all = vec![0; n];
    for &(snake, action) in some {
        all[snake] = action;
    }
    all
}

/// small, middle, large, huge, corpses.
pub fn five() -> Vec<State> {
    let column = |side: u16, n: i32, at: i32| (0..n).map(|i| cell(side, 4 * i + 2, at)).collect();
    let mut corpses = hairpins(32, 8, 24, 20);
    for i in [3, 5] {
        corpses[i].alive = false;
        corpses[i].cells.remove(0);
    }
    corpses[6] = Snake { cells: vec![], heading: 3, alive: false };
    let state = |name: &str, side, snakes: Vec<Snake>, food, setting, dying: &[(usize, u64)]| {
        let fatal = actions(snakes.len(), dying);
        State { name: name.to_string(), side, snakes, food, setting, fatal }
    };
    let into_wall_and_body = [(0, 1), (1, 2)];
    vec![
        state(
            "small",
            10,
            vec![line(4, 4, -1, 1, 5), line(5, 5, 1, 3, 5)],
            vec![77],
            Setting { num_snakes: 2, grid_size: 10, initial_length: 5, initial_food_count: 1 },
            &[(0, 2)], // both heads on one cell
        ),
        state(
            "middle",
            16,
            hairpins(16, 4, 10, 10),
            column(16, 4, 14),
            Setting { num_snakes: 4, grid_size: 16, initial_length: 10, initial_food_count: 4 },
            &into_wall_and_body,
        ),
        state("large", 32, hairpins(32, 8, 24, 20), column(32, 8, 28), BIG, &into_wall_and_body),
        state(
            "huge",
            32,
            serpentines(18),
            (0..8).map(|i| cell(32, 22 + i, 5)).collect(),
            BIG,
            &[(0, 1), (6, 1)], // into the body of 2, into the wall
        ),
        state("corpses", 32, corpses, column(32, 8, 28), BIG, &into_wall_and_body),
    ]
}

/// The whole grid to and fro from one of its corners, heading across its own second row: one of the square's eight turns.
fn whole(turn: usize) -> Snake {
    let (transposed, down, right) = (turn & 1 == 1, turn & 2 == 0, turn & 4 == 0);
    let flip = |x: i32, kept: bool| if kept { x } else { 31 - x };
    let mut cells = Vec::new();
    for row in 0..32 {
        for i in 0..32 {
            let column = if row % 2 == 0 { i } else { 31 - i };
            let (r, c) = if transposed { (column, row) } else { (row, column) };
            cells.push(cell(32, flip(r, down), flip(c, right)));
        }
    }
    let heading = match (transposed, down, right) {
        (false, true, _) => 2,
        (false, false, _) => 0,
        (true, _, true) => 1,
        (true, _, false) => 3,
    };
    Snake { cells, heading, alive: true }
}

/// Eight bodies and food on every cell of grid 32, or on every cell but one.
fn full(one_free: bool) -> State {
    let kept = |c: &u16| !(one_free && *c == 528);
    let mut snakes: Vec<Snake> = (0..8).map(whole).collect();
    for s in &mut snakes {
        s.cells.retain(kept);
    }
    let food = (0..1024).filter(kept).collect();
    State { name: String::new(), side: 32, snakes, food, setting: BIG, fatal: vec![0; 8] }
}

/// Eight living snakes of equal length on grid 32 that nobody stops, and 1 to 8 food below them: an image of so many words.
fn living(words: usize) -> State {
    let length = (words - 38) / 8;
    let mut snakes = serpentines(28);
    for s in &mut snakes {
        s.cells.truncate(length);
    }
    let food = (0..(words - 37 - 8 * length) as u16).map(|i| 31 * 32 + i).collect();
    State { name: String::new(), side: 32, snakes, food, setting: BIG, fatal: vec![0; 8] }
}

/// The growth's images. In the last two all snakes die, since no cell (or one) is free.
pub fn growth() -> Vec<State> {
    let mut all: Vec<State> = [50, 100, 200, 500, 1000, 2000, 5000].map(living).into_iter().collect();
    all.push(full(true));
    all.push(full(false));
    for s in &mut all {
        s.name = format!("w{}", s.words());
    }
    all
}

/// Thirty words: two snakes of 8 cells on grid 10 and one apple.
pub fn thirty() -> State {
    State {
        name: "w30".to_string(),
        side: 10,
        snakes: vec![line(2, 8, -1, 1, 8), line(7, 1, 1, 3, 8)],
        food: vec![55],
        setting: Setting { num_snakes: 2, grid_size: 10, initial_length: 5, initial_food_count: 1 },
        fatal: vec![0; 2],
    }
}

/// Settings whose check is measured beside those of the states: the longest bodies accepted, and a length without end.
pub const LONGEST: Setting = Setting { num_snakes: 2, grid_size: 32, initial_length: 71, initial_food_count: 1 };
pub const ENDLESS: Setting = Setting { num_snakes: 2, grid_size: 32, initial_length: u64::MAX, initial_food_count: 1 };
