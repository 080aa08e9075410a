//! A snake arena whose every call is proved, for Rust programs: crate bindings' static library behind safe functions.
//!
//! ```
//! use lundaspro::{Action::*, Refusal, Setting};
//!
//! let setting = Setting { num_snakes: 2, grid_size: 3, initial_length: 1, initial_food_count: 1, ..Setting::default() };
//! let start = setting.initial_state()?;
//! assert_eq!(start.step(&setting, &[Forward, Forward]), Err(Refusal::FoodDue));
//! let drawn = start.draw(2)?.next;
//! let moved = drawn.step(&setting, &[Forward, Forward])?.next;
//! let eaten = moved.step(&setting, &[TurnLeft, Forward])?;
//! assert_eq!(eaten.next.to_string(), "..A\nB.a\n...");
//! assert_eq!((eaten.next.head(0), eaten.next.due(), eaten.terminal), (Some(2), 1, false));
//! assert_eq!(eaten.events[0].to_string(), "a");
//! # Ok::<(), Refusal>(())
//! ```
//!
//! Everything here owns its memory; module [`lend`] has the same calls over the caller's slices.
mod action;
mod board;
mod book;
mod fault;
mod game;
pub mod lend;
mod letters;
mod raw;
mod refusal;

pub use book::{book_words, Book, Pages};
pub use fault::{Fault, FaultKind};
pub use game::{Ending, Match};
pub use refusal::Refusal;

/// An image has at most this many words.
pub const IMAGE_WORDS: usize = 9253;
/// A draw lists at most this many cells.
pub const LIST_WORDS: usize = 20;
/// An observation has at most this many numbers.
pub const PLANE_NUMBERS: usize = 5120;

/// A match's setting, by the names of the Rust's `Snake`. Only [`Match`] and [`Setting::write_book`]
/// read `max_ticks`.
#[derive(Clone, Copy, Debug, Default, PartialEq, Eq, Hash)]
pub struct Setting {
    pub num_snakes: u64,
    pub grid_size: i32,
    pub initial_length: u64,
    pub play_to_last: bool,
    pub win_food_lead: Option<u64>,
    pub initial_food_count: u64,
    pub max_ticks: Option<u64>,
}

impl Setting {
    fn flat(&self) -> raw::Setting {
        [
            self.num_snakes,
            grid_number(self.grid_size),
            self.initial_length,
            u64::from(self.play_to_last),
            u64::from(self.win_food_lead.is_some()),
            self.win_food_lead.unwrap_or(0),
            self.initial_food_count,
            u64::from(self.max_ticks.is_some()),
            self.max_ticks.unwrap_or(0),
        ]
    }

    /// Refusals 1 to 12.
    pub fn validate(&self) -> Result<(), Refusal> {
        Refusal::check(unsafe { raw::lundaspro_flat_validate(&self.flat()) })
    }

    /// Refusals 1 to 12.
    pub fn initial_state(&self) -> Result<Image, Refusal> {
        let mut words = vec![0; IMAGE_WORDS];
        let count = lend::initial_state(self, &mut words)?;
        Ok(Image::cut(words, count))
    }
}

// A grid's 64 bits in two's complement.
fn grid_number(grid_size: i32) -> u64 {
    i64::from(grid_size) as u64
}

/// How a snake died.
#[derive(Clone, Copy, Debug, PartialEq, Eq, Hash)]
pub enum Cause {
    Wall,
    SelfBody,
    OppBody,
    HeadOn,
}

/// What a step brought one snake, by the names of the Rust's `StepEvent`.
#[derive(Clone, Copy, Debug, Default, PartialEq, Eq, Hash)]
pub struct Event {
    pub ate_food: bool,
    pub died: bool,
    pub death_cause: Option<Cause>,
    pub killed_opponent: bool,
    pub won: bool,
    pub lost: bool,
    pub drew: bool,
    pub survived_to_max_ticks: bool,
}

impl Event {
    /// The event of the bytes that the library writes: a flag is set where its byte is not 0, a cause above 4 is none.
    pub fn from_bytes(bytes: [u8; 8]) -> Event {
        Event {
            ate_food: bytes[0] != 0,
            died: bytes[1] != 0,
            death_cause: match bytes[2] {
                1 => Some(Cause::Wall),
                2 => Some(Cause::SelfBody),
                3 => Some(Cause::OppBody),
                4 => Some(Cause::HeadOn),
                _ => None,
            },
            killed_opponent: bytes[3] != 0,
            won: bytes[4] != 0,
            lost: bytes[5] != 0,
            drew: bytes[6] != 0,
            survived_to_max_ticks: bytes[7] != 0,
        }
    }

    pub fn bytes(self) -> [u8; 8] {
        let cause = match self.death_cause {
            None => 0,
            Some(Cause::Wall) => 1,
            Some(Cause::SelfBody) => 2,
            Some(Cause::OppBody) => 3,
            Some(Cause::HeadOn) => 4,
        };
        [
            u8::from(self.ate_food),
            u8::from(self.died),
            cause,
            u8::from(self.killed_opponent),
            u8::from(self.won),
            u8::from(self.lost),
            u8::from(self.drew),
            u8::from(self.survived_to_max_ticks),
        ]
    }
}

/// A step's answer.
#[derive(Clone, Debug, PartialEq, Eq)]
pub struct Step {
    pub next: Image,
    pub terminal: bool,
    /// One for each snake.
    pub events: Vec<Event>,
}

/// Whom a snake hit, and at which position of that snake's moved body, its head being 0.
#[derive(Clone, Copy, Debug, PartialEq, Eq, Hash)]
pub struct Hit {
    pub snake: usize,
    pub position: usize,
}

impl Hit {
    /// The words that the library writes; a snake above 7 is none.
    pub fn from_words(words: [u16; 2]) -> Option<Hit> {
        let [snake, position] = words.map(usize::from);
        (snake < 8).then_some(Hit { snake, position })
    }
}

/// A draw's answer.
#[derive(Clone, Debug, PartialEq, Eq)]
pub struct Draw {
    pub next: Image,
    /// The cells in the order drawn.
    pub cells: Vec<u16>,
}

/// Who acts next.
#[derive(Clone, Copy, Debug, PartialEq, Eq)]
pub enum Actor {
    Chance,
    Simultaneous,
}

/// The words of a state. Each call checks them anew, so that any words may stand here.
#[derive(Clone, Debug, PartialEq, Eq, Hash)]
pub struct Image(Vec<u16>);

impl Image {
    /// A well-formed image, or what is wrong with it: refusals 50 to 56.
    pub fn checked(words: Vec<u16>) -> Result<Image, Refusal> {
        let image = Image(words);
        image.check()?;
        Ok(image)
    }

    /// Any words.
    pub fn unchecked(words: Vec<u16>) -> Image {
        Image(words)
    }

    fn cut(mut words: Vec<u16>, count: usize) -> Image {
        words.truncate(count);
        words.shrink_to_fit();
        Image(words)
    }

    pub fn words(&self) -> &[u16] {
        &self.0
    }

    pub fn into_words(self) -> Vec<u16> {
        self.0
    }

    /// What is wrong with the words: refusals 50 to 56.
    pub fn check(&self) -> Result<(), Refusal> {
        Refusal::check_in(
            unsafe { raw::lundaspro_flat_check_image(self.0.as_ptr(), self.0.len()) },
            &self.0,
        )
    }

    pub fn is_well_formed(&self) -> bool {
        self.check().is_ok()
    }

    /// A snake's body, head first; nothing for a malformed image or no such snake.
    pub fn body(&self, snake: u64) -> &[u16] {
        let mut part = [0; 2];
        unsafe { raw::lundaspro_flat_body(self.0.as_ptr(), self.0.len(), snake, &mut part) };
        let [start, len] = part.map(|n| n as usize);
        &self.0[start..start + len]
    }

    /// An action for each snake, dead ones included: a dead snake's may be any. Refusals 1 to 12, 50 to 56, 21, 22, 24.
    pub fn step(&self, setting: &Setting, actions: &[Action]) -> Result<Step, Refusal> {
        let numbers: Vec<u64> = actions.iter().map(|action| action.number()).collect();
        let mut words = vec![0; IMAGE_WORDS];
        let a = lend::step(setting, &self.0, &numbers, &mut words)?;
        Ok(Step {
            next: Image::cut(words, a.words),
            terminal: a.terminal,
            events: a.events[..actions.len()].to_vec(),
        })
    }

    /// For each snake, whom it hits by that move and where, if it dies by its own or another's body. Refusals 1 to 12, 50 to 56, 21, 22, 24.
    pub fn struck(
        &self,
        setting: &Setting,
        actions: &[Action],
    ) -> Result<Vec<Option<Hit>>, Refusal> {
        let numbers: Vec<u64> = actions.iter().map(|action| action.number()).collect();
        let hits = lend::struck(setting, &self.0, &numbers)?;
        Ok(hits[..actions.len()].to_vec())
    }

    /// Refusals 50 to 56, 23, 28.
    pub fn count(&self) -> Result<u64, Refusal> {
        lend::count(&self.0)
    }

    /// Refusals 50 to 56, 23, 28, 27.
    pub fn draw(&self, index: u64) -> Result<Draw, Refusal> {
        let mut words = vec![0; IMAGE_WORDS];
        let mut list = [0; LIST_WORDS];
        let a = lend::draw(&self.0, index, &mut words, &mut list)?;
        Ok(Draw {
            next: Image::cut(words, a.words),
            cells: list[..a.cells].to_vec(),
        })
    }

    /// The index whose draw gives that list. Refusals 50 to 56, 23, 28, 30.
    pub fn rank(&self, list: &[u16]) -> Result<u64, Refusal> {
        lend::rank(&self.0, list)
    }

    /// Five planes of g² numbers. Refusals 50 to 56, 26.
    pub fn observe(&self, agent: u64) -> Result<Vec<f32>, Refusal> {
        let mut obs = vec![0.0; PLANE_NUMBERS];
        let count = lend::observe(&self.0, agent, &mut obs)?;
        obs.truncate(count);
        Ok(obs)
    }

    /// `None` where a snake is dead. Refusals 50 to 56.
    pub fn length_cell(&self) -> Result<Option<u64>, Refusal> {
        let mut key = [0; 2];
        let returned =
            unsafe { raw::lundaspro_flat_length_cell(self.0.as_ptr(), self.0.len(), &mut key) };
        Refusal::check_in(returned, &self.0)?;
        Ok((key[0] != 0).then_some(key[1]))
    }

    /// Refusals 50 to 56.
    pub fn actor(&self) -> Result<Actor, Refusal> {
        let mut chance = [0];
        let returned =
            unsafe { raw::lundaspro_flat_actor(self.0.as_ptr(), self.0.len(), &mut chance) };
        Refusal::check_in(returned, &self.0)?;
        Ok(if chance[0] != 0 {
            Actor::Chance
        } else {
            Actor::Simultaneous
        })
    }

    /// All three actions, or none. Refusals 50 to 56, 26.
    pub fn legal_actions(&self, agent: u64) -> Result<&'static [Action], Refusal> {
        let mut actions = [0];
        let returned = unsafe {
            raw::lundaspro_flat_legal_actions(self.0.as_ptr(), self.0.len(), agent, &mut actions)
        };
        Refusal::check_in(returned, &self.0)?;
        Ok(&Action::ALL[..actions[0] as usize])
    }

    /// The event with `survived_to_max_ticks` set to whether the agent lives. Refusals 50 to 56, 26.
    pub fn truncation(&self, agent: u64, event: Event) -> Result<Event, Refusal> {
        let mut marked = [0; 8];
        let returned = unsafe {
            raw::lundaspro_flat_truncation(
                self.0.as_ptr(),
                self.0.len(),
                agent,
                &event.bytes(),
                &mut marked,
            )
        };
        Refusal::check_in(returned, &self.0)?;
        Ok(Event::from_bytes(marked))
    }
}

/// What each flag of an event is worth.
#[derive(Clone, Copy, Debug, Default, PartialEq)]
pub struct Weights {
    pub step: f64,
    pub food: f64,
    pub loss: f64,
    pub draw: f64,
    pub kill: f64,
    pub win: f64,
    pub survival: f64,
}

/// Refusal 31, for infinities and NaN.
pub fn reward(weights: &Weights, event: Event) -> Result<f64, Refusal> {
    let w = [
        weights.step,
        weights.food,
        weights.loss,
        weights.draw,
        weights.kill,
        weights.win,
        weights.survival,
    ];
    let mut sum = [0.0];
    Refusal::check(unsafe { raw::lundaspro_flat_reward(&w, &event.bytes(), &mut sum) })?;
    Ok(sum[0])
}

/// The index below that count which a unit number gives, one that is at least 0 and below 1: the rounded product, cut. Refusals 80, 81.
pub fn outcome_of(count: u64, u: f64) -> Result<u64, Refusal> {
    let mut index = [0];
    Refusal::check(unsafe { raw::lundaspro_flat_outcome_of(count, u, &mut index) })?;
    Ok(index[0])
}

/// The shape of what is seen or done.
#[derive(Clone, Copy, Debug, PartialEq)]
pub enum Space {
    Box {
        planes: usize,
        rows: usize,
        cols: usize,
        low: f32,
        high: f32,
    },
    Discrete(usize),
}

fn space(call: impl FnOnce(&mut [u64; 5], &mut [f32; 2]) -> u64) -> Result<Space, Refusal> {
    let (mut sizes, mut bounds) = ([0; 5], [0.0; 2]);
    Refusal::check(call(&mut sizes, &mut bounds))?;
    let [discrete, count, planes, rows, cols] = sizes.map(|n| n as usize);
    if discrete != 0 {
        return Ok(Space::Discrete(count));
    }
    let [low, high] = bounds;
    Ok(Space::Box {
        planes,
        rows,
        cols,
        low,
        high,
    })
}

/// Refusal 5.
pub fn observation_space(grid_size: i32) -> Result<Space, Refusal> {
    space(|sizes, bounds| unsafe {
        raw::lundaspro_flat_observation_space(grid_number(grid_size), sizes, bounds)
    })
}

/// Three actions: never refused.
pub fn action_space() -> Result<Space, Refusal> {
    space(|sizes, bounds| unsafe { raw::lundaspro_flat_action_space(sizes, bounds) })
}

#[derive(Clone, Copy, Debug, PartialEq, Eq, Hash)]
#[repr(u8)]
pub enum Heading {
    Up,
    Right,
    Down,
    Left,
}

#[derive(Clone, Copy, Debug, PartialEq, Eq, Hash)]
#[repr(u8)]
pub enum Action {
    Forward,
    TurnLeft,
    TurnRight,
}

/// The heading after an action.
pub fn relative_to_absolute(heading: Heading, action: Action) -> Heading {
    let mut after = [0];
    unsafe { raw::lundaspro_flat_relative_to_absolute(heading as u64, action as u64, &mut after) };
    match after[0] {
        0 => Heading::Up,
        1 => Heading::Right,
        2 => Heading::Down,
        _ => Heading::Left,
    }
}
