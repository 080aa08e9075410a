//! Actions by their numbers.
use crate::Action;

impl Action {
    /// All three, by their numbers.
    pub const ALL: [Action; 3] = [Action::Forward, Action::TurnLeft, Action::TurnRight];

    /// The action of a number; `None` above 2.
    pub fn from_number(number: u64) -> Option<Action> {
        Action::ALL.get(usize::try_from(number).ok()?).copied()
    }

    pub fn number(self) -> u64 {
        self as u64
    }
}
