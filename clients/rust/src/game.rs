//! A match as a value: what a server keeps beside the image.
use crate::raw;
use crate::{Event, Image, Refusal, Setting, Step};

/// The moves made, who died when, and the end. A new one is `Match::default()`.
///
/// ```
/// use lundaspro::{Action::*, Ending, Match, Refusal, Setting};
///
/// let setting = Setting { num_snakes: 2, grid_size: 5, initial_length: 1, max_ticks: Some(2), ..Setting::default() };
/// let (mut image, mut game) = (setting.initial_state()?, Match::default());
/// while game.ending().is_none() {
///     let mut step = image.step(&setting, &[Forward, Forward])?;
///     game.take_move(&setting, &mut step)?;
///     image = step.next;
/// }
/// assert_eq!((game.moves, game.ending()), (2, Some(Ending::MaxTicks)));
/// assert_eq!(game.places(&setting), [1, 1]);
/// # Ok::<(), Refusal>(())
/// ```
///
/// Any values may stand here: moves stay at 2^64 - 1, and places go by the deaths as they are.
#[derive(Clone, Copy, Debug, Default, PartialEq, Eq, Hash)]
pub struct Match {
    pub moves: u64,
    pub over: bool,
    /// It is over by max_ticks; else by the rules.
    pub timeout: bool,
    /// The move on which each snake died, counted from 1; 0 while it lives.
    pub deaths: [u64; 8],
    /// A living snake that lost: it is over by the food lead.
    pub behind: [bool; 8],
}

/// What a match is over by.
#[derive(Clone, Copy, Debug, PartialEq, Eq, Hash)]
pub enum Ending {
    /// Too few snakes live.
    Deaths,
    /// One of two living snakes has the food lead.
    Lead,
    MaxTicks,
}

impl Match {
    fn numbers(&self) -> raw::Match {
        let mut numbers = [0; 19];
        numbers[0] = self.moves;
        numbers[1] = u64::from(self.over);
        numbers[2] = u64::from(self.timeout);
        numbers[3..11].copy_from_slice(&self.deaths);
        numbers[11..].copy_from_slice(&self.behind.map(u64::from));
        numbers
    }

    fn from_numbers(numbers: raw::Match) -> Match {
        Match {
            moves: numbers[0],
            over: numbers[1] != 0,
            timeout: numbers[2] != 0,
            deaths: std::array::from_fn(|i| numbers[3 + i]),
            behind: std::array::from_fn(|i| numbers[11 + i] != 0),
        }
    }

    /// `None` while it goes on.
    pub fn ending(&self) -> Option<Ending> {
        match self {
            Match { over: false, .. } => None,
            Match { timeout: true, .. } => Some(Ending::MaxTicks),
            _ if self.behind.contains(&true) => Some(Ending::Lead),
            _ => Some(Ending::Deaths),
        }
    }

    /// The move that a step made. At max_ticks the living are marked in the step's events, and the match is over. Refusal 33 where it was over before.
    pub fn take_move(&mut self, setting: &Setting, step: &mut Step) -> Result<(), Refusal> {
        let mut events = [Event::default(); 8];
        let n = step.events.len().min(8);
        events[..n].copy_from_slice(&step.events[..n]);
        let marked = self.take(setting, step.terminal, &step.next, events)?;
        step.events[..n].copy_from_slice(&marked[..n]);
        Ok(())
    }

    /// The same of a step's answer in parts: whether it was terminal, the image that it wrote, its events; the events as the replay shows them.
    pub fn take(
        &mut self,
        setting: &Setting,
        terminal: bool,
        image: &Image,
        events: [Event; 8],
    ) -> Result<[Event; 8], Refusal> {
        let (mut bytes, mut numbers) = (events.map(Event::bytes), self.numbers());
        let words = image.words();
        Refusal::check(unsafe {
            raw::lundaspro_flat_take_move(
                &setting.flat(),
                u64::from(terminal),
                words.as_ptr(),
                words.len(),
                &mut bytes,
                &mut numbers,
            )
        })?;
        *self = Match::from_numbers(numbers);
        Ok(bytes.map(Event::from_bytes))
    }

    /// The place of each snake. Before the end they count as if it ended here.
    pub fn places(&self, setting: &Setting) -> Vec<u64> {
        let mut places = [0; 8];
        unsafe { raw::lundaspro_flat_places(&setting.flat(), &self.numbers(), &mut places) };
        places[..setting.num_snakes.min(8) as usize].to_vec()
    }
}
