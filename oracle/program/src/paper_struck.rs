//! Document 02's wish 7 alone: who was hit where. The Rust tells why each snake dies; this reading lays every moved
//! body out place by place, its head first, and looks for the victim's head in it.

use crate::paper::State;
use crate::paper_rules;

const SELF_BODY: u64 = 2;
const OPP_BODY: u64 = 3;

/// A snake's number and a position, 8 and 0 for nobody.
pub type Hit = (usize, usize);
const NOBODY: Hit = (8, 0);

/// The places of each moved body; none for a corpse.
fn bodies(state: &State, actions: &[u64]) -> Vec<Option<Vec<(i32, i32)>>> {
    let side = i32::from(state.side);
    let place = |&cell: &u16| (i32::from(cell) / side, i32::from(cell) % side);
    let laid = |m: paper_rules::Moved| [m.head].into_iter().chain(m.rest.iter().map(place)).collect();
    paper_rules::world(state, actions).into_iter().map(|m| m.map(laid)).collect()
}

/// How many other moved bodies hold the cell of snake `i`'s head.
pub fn holders(state: &State, actions: &[u64], i: usize) -> usize {
    let bodies = bodies(state, actions);
    let head = bodies[i].as_ref().expect("a casualty moved")[0];
    let others = bodies.iter().enumerate().filter(|(j, _)| *j != i).filter_map(|(_, body)| body.as_ref());
    others.filter(|body| body.contains(&head)).count()
}

/// "which body cell was struck, counted from the head as 0"; "For a self collision the head is left out".
pub fn struck(state: &State, actions: &[u64], causes: &[u64]) -> [Hit; 8] {
    let bodies = bodies(state, actions);
    let mut hits = [NOBODY; 8];
    for (i, &cause) in causes.iter().enumerate() {
        let head = |i: usize| bodies[i].as_ref().expect("a casualty moved")[0];
        let found = |j: usize, from: usize| {
            let body = bodies[j].as_ref()?;
            (from..body.len()).find(|&k| body[k] == head(i)).map(|k| (j, k))
        };
        hits[i] = match cause {
            SELF_BODY => found(i, 1).expect("its own body was hit"),
            OPP_BODY => (0..causes.len()).filter(|&j| j != i).find_map(|j| found(j, 0)).expect("a body was hit"),
            _ => NOBODY,
        };
    }
    hits
}
