//! An event as the replay's lines show it.
use crate::{Cause, Event};
use std::fmt;

/// `a` ate; `W` `S` `O` `H` died at the wall, on itself, on another's body, head-on; `k` killed; `w` `l` `x` won, lost, drew; `y` survived to
/// max_ticks; in this order, `-` for none.
impl fmt::Display for Event {
    fn fmt(&self, f: &mut fmt::Formatter<'_>) -> fmt::Result {
        let cause = match self.death_cause {
            None => "",
            Some(Cause::Wall) => "W",
            Some(Cause::SelfBody) => "S",
            Some(Cause::OppBody) => "O",
            Some(Cause::HeadOn) => "H",
        };
        let shown: String = [
            (self.ate_food, "a"),
            (true, cause),
            (self.killed_opponent, "k"),
            (self.won, "w"),
            (self.lost, "l"),
            (self.drew, "x"),
            (self.survived_to_max_ticks, "y"),
        ]
        .into_iter()
        .filter_map(|(is, letter)| is.then_some(letter))
        .collect();
        f.pad(if shown.is_empty() { "-" } else { &shown })
    }
}
