//! The replay of document 01: its lines, order and placings are the papers' (02 for a food lead), each move and draw is the Rust's.

use reinfors_core::game::Game;

use crate::calls::{self, Stepped};
use crate::fields::{lines, Fields};
use crate::paper::{self, Number, Setting, Snake, State};
use crate::rust;
use crate::snake::{DeathCause, StepEvent};

const UNREADABLE: Number = 32;
const OVER: Number = 33;
const LONGEST: usize = 200;

enum Line {
    Draw(u64),
    Move(Vec<u64>),
}

/// A first line, or none.
pub fn read_setting(line: &[u8]) -> Option<Setting> {
    if line.len() > LONGEST {
        return None;
    }
    let mut fields = Fields::of(line);
    let setting = Setting::read(&mut fields)?;
    fields.end()?;
    Some(setting)
}

/// A later line in a match of `n` snakes, or none.
fn read_line(line: &[u8], n: usize) -> Option<Line> {
    if line.len() > LONGEST {
        return None;
    }
    let mut fields = Fields::of(line);
    let read = match fields.next()? {
        b"d" => Line::Draw(fields.number()?),
        b"m" => Line::Move((0..n).map(|_| fields.number()).collect::<Option<_>>()?),
        _ => return None,
    };
    fields.end()?;
    Some(read)
}

/// An event's letters.
pub fn letters(e: &StepEvent) -> String {
    let cause = match e.death_cause {
        None => ' ',
        Some(DeathCause::Wall) => 'W',
        Some(DeathCause::SelfBody) => 'S',
        Some(DeathCause::OppBody) => 'O',
        Some(DeathCause::HeadOn) => 'H',
    };
    let flagged = [
        (e.ate_food, 'a'),
        (e.died, cause),
        (e.killed_opponent, 'k'),
        (e.won, 'w'),
        (e.lost, 'l'),
        (e.drew, 'x'),
        (e.survived_to_max_ticks, 'y'),
    ];
    let text: String = flagged.iter().filter(|(set, _)| *set).map(|&(_, letter)| letter).collect();
    if text.is_empty() {
        "-".to_string()
    } else {
        text
    }
}

/// A match under way.
pub struct Match {
    pub setting: Setting,
    pub state: State,
    pub over: bool,
    /// Whether the last move was terminal: the rules ended the match, and not max_ticks.
    terminal: bool,
    moves: u64,
    /// The move on which each snake died; none for the living.
    died: Vec<Option<u64>>,
}

impl Match {
    pub fn start(setting: Setting) -> Result<(Match, String), Number> {
        let state = calls::initial(&setting)?;
        let died = vec![None; state.snakes.len()];
        let started = Match { setting, state, over: false, terminal: false, moves: 0, died };
        let text = started.line('i', false, &[]);
        Ok((started, text))
    }

    fn line(&self, letter: char, terminal: bool, events: &[StepEvent]) -> String {
        let state = &self.state;
        let mut text = format!("{letter} {} {} {}", u8::from(terminal), state.due, state.food.len());
        for (i, snake) in state.snakes.iter().enumerate() {
            let first = snake.body.first().map_or("-".to_string(), |c| c.to_string());
            let told = events.get(i).map_or("-".to_string(), letters);
            let (alive, length) = (u8::from(snake.alive), snake.body.len());
            text += &format!(" {alive}:{length}:{first}:{told}");
        }
        text + "\n"
    }

    pub fn draw(&mut self, index: u64) -> Result<String, Number> {
        self.state = calls::draw(&paper::write_image(&self.state), index).map_err(|refusal| refusal.number)?.0;
        Ok(self.line('d', false, &[]))
    }

    pub fn play(&mut self, actions: &[u64]) -> Result<String, Number> {
        let words = paper::write_image(&self.state);
        let Stepped { terminal, mut events, next } = calls::step(&self.setting, &words, actions).map_err(|refusal| refusal.number)?;
        self.state = next;
        self.moves += 1;
        for (died, event) in self.died.iter_mut().zip(&events) {
            if event.died {
                *died = Some(self.moves);
            }
        }
        let cut = !terminal && self.setting.max_ticks.map_or(false, |most| self.moves >= most);
        if cut {
            events = self.truncated(events);
        }
        self.over = terminal || cut;
        self.terminal = terminal;
        Ok(self.line('m', terminal, &events))
    }

    /// The last move's events as the Rust marks them.
    fn truncated(&self, events: Vec<StepEvent>) -> Vec<StepEvent> {
        let mut trace = events.into_iter().enumerate().collect();
        rust::game(&self.setting).mark_truncation(&rust::to_rust(&self.state), &mut trace);
        trace.into_iter().map(|(_, event)| event).collect()
    }

    fn take(&mut self, line: &[u8]) -> Result<String, Number> {
        if self.over {
            return Err(OVER);
        }
        match read_line(line, self.state.snakes.len()).ok_or(UNREADABLE)? {
            Line::Draw(index) => self.draw(index),
            Line::Move(actions) => self.play(&actions),
        }
    }

    /// Whether the lead ended the match: a terminal state has two living snakes for no other reason.
    pub fn led(&self) -> bool {
        self.terminal && self.state.snakes.iter().filter(|s| s.alive).count() == 2
    }

    /// Whether a snake lost by the lead: the other living one is longer.
    fn is_behind(&self, i: usize) -> bool {
        let own = &self.state.snakes[i];
        let is_ahead = |other: &Snake| other.alive && other.body.len() > own.body.len();
        self.led() && own.alive && self.state.snakes.iter().any(is_ahead)
    }

    fn placings(&self) -> String {
        let mut text = "p".to_string();
        for (i, own) in self.died.iter().enumerate() {
            if self.is_behind(i) {
                text += " 2";
                continue;
            }
            let later = |other: &&Option<u64>| match (own, other) {
                (None, _) => false,
                (Some(_), None) => true,
                (Some(mine), Some(theirs)) => theirs > mine,
            };
            text += &format!(" {}", 1 + self.died.iter().filter(later).count());
        }
        text + "\n"
    }
}

fn refused(number: Number) -> String {
    format!("r {number}\n")
}

/// All that the replay program prints for one input.
pub fn replay(input: &[u8]) -> String {
    let mut lines = lines(input);
    let setting = match lines.next().and_then(read_setting) {
        Some(setting) => setting,
        None => return refused(UNREADABLE),
    };
    let (mut game, mut out) = match Match::start(setting) {
        Ok(started) => started,
        Err(number) => return refused(number),
    };
    for line in lines {
        match game.take(line) {
            Ok(text) => out += &text,
            Err(number) => return out + &refused(number),
        }
    }
    out + &game.placings()
}
