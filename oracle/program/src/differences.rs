//! Refused calls made on the published Rust itself. Each row has the paper's number, a smallest call in the
//! probe's protocol, which must be refused by that number, and what the Rust does when nothing stands before it.

use reinfors_core::game::{ChanceDist, Game};
use reinfors_core::{Reward, StateEncoder};

use crate::calls::OneUnit;
use crate::fields::Fields;
use crate::paper::{self, Setting, Snake, State};
use crate::probe;
use crate::replay::letters;
use crate::rust::{self, caught};
use crate::snake::{self, EgocentricSnake, SnakeState, StepEvent};

/// A call: its line, and what the Rust does.
struct Call {
    line: String,
    does: Result<String, String>,
}

fn game(text: &str) -> snake::Snake {
    let setting = Setting::read(&mut Fields::of(text.as_bytes()));
    rust::game(&setting.expect("a readable setting"))
}

// ---- states

const UP: u16 = 0;
const RIGHT: u16 = 1;
const LEFT: u16 = 3;

fn alive(heading: u16, body: &[u16]) -> Snake {
    Snake { heading, alive: true, body: body.to_vec() }
}

fn corpse() -> Snake {
    Snake { heading: UP, alive: false, body: Vec::new() }
}

fn state(side: u16, due: u16, birth: bool, snakes: &[Snake], food: &[u16]) -> State {
    State { side, due, birth, snakes: snakes.to_vec(), food: food.to_vec() }
}

fn image(state: &State) -> String {
    let words = paper::write_image(state);
    let text: String = words.iter().map(|w| format!(" {w}")).collect();
    format!("{}{text}", words.len())
}

/// A state in short: due, birth, each snake's life and cells, food in order.
fn shown(s: &SnakeState) -> String {
    let life = |alive: bool| if alive { "alive" } else { "dead" };
    let snakes: Vec<String> =
        s.snakes.iter().map(|b| format!("{} {:?}", life(b.alive), Vec::from(b.body.clone()))).collect();
    let mut food: Vec<_> = s.food.iter().collect();
    food.sort_unstable();
    let birth = if s.birth { ", birth" } else { "" };
    format!("due {}{birth}, {}, food {food:?}", s.pending_food, snakes.join(", "))
}

/// Each snake's event in the replay's letters.
fn events_shown(events: &[Option<StepEvent>]) -> String {
    events.iter().flatten().map(letters).collect::<Vec<_>>().join(" ")
}

// ---- calls

fn validate(text: &str) -> Call {
    let does = caught(|| match game(text).validate() {
        Ok(()) => "accepted".to_string(),
        Err(message) => format!("\"{message}\""),
    });
    Call { line: format!("v {text}"), does }
}

fn initial(text: &str) -> Call {
    let does = caught(|| shown(&game(text).initial_state()));
    Call { line: format!("i {text} 16384"), does }
}

fn step(text: &str, s: &State, actions: &[usize]) -> Call {
    let does = caught(|| {
        let t = game(text).step(&rust::to_rust(s), actions);
        let over = if t.terminal { ", terminal" } else { "" };
        format!("{}{over}; events {}", shown(&t.next_state), events_shown(&t.events))
    });
    let listed: String = actions.iter().map(|a| format!(" {a}")).collect();
    Call { line: format!("s {text} 16384 {}{listed} {}", actions.len(), image(s)), does }
}

fn count(s: &State) -> Call {
    let does = caught(|| match rust::game_of(s).chance_node(&rust::to_rust(s)) {
        ChanceDist::Uniform(n) => n.to_string(),
        other => format!("{other:?}"),
    });
    Call { line: format!("c {}", image(s)), does }
}

fn draw(s: &State, outcome: usize) -> Call {
    let does = caught(|| shown(&rust::game_of(s).apply_chance_node(&rust::to_rust(s), outcome).next_state));
    Call { line: format!("d 16384 16384 {outcome} {}", image(s)), does }
}

fn legal(s: &State, agent: usize) -> Call {
    let does = caught(|| format!("{:?}", rust::game_of(s).legal_actions(&rust::to_rust(s), agent)));
    Call { line: format!("l {agent} {}", image(s)), does }
}

fn observed(s: &State, agent: usize) -> Call {
    let does = caught(|| {
        let ruled = rust::to_rust(s);
        let planes = snake::egocentric_parts(&ruled.snakes, &ruled.food, i32::from(s.side), agent);
        format!("{} numbers, {} of them 1.0", planes.len(), planes.iter().filter(|&&x| x == 1.0).count())
    });
    Call { line: format!("o {agent} 8192 {}", image(s)), does }
}

fn truncated(s: &State, agent: usize) -> Call {
    let does = caught(|| {
        let mut trace = vec![(agent, StepEvent::default())];
        rust::game_of(s).mark_truncation(&rust::to_rust(s), &mut trace);
        format!("survived {}", trace[0].1.survived_to_max_ticks)
    });
    Call { line: format!("u {agent} 0 0 0 0 0 0 0 0 {}", image(s)), does }
}

fn length_cell(s: &State) -> Call {
    let does = caught(|| format!("{:?}", snake::snake_length_cell(&rust::to_rust(s))));
    Call { line: format!("z {}", image(s)), does }
}

fn reward(step: f64) -> Call {
    let weights = [step, 0.0, 0.0, 0.0, 0.0, 0.0, 0.0];
    let does = caught(|| rust::reward_of(&weights).step_reward(&StepEvent::default(), 0).to_string());
    Call { line: format!("w {} 0 0 0 0 0 0 0 0 0 0 0 0 0 0", step.to_bits()), does }
}

fn outcome(count: u64, u: f64) -> Call {
    let does = caught(|| ChanceDist::Uniform(count as usize).draw(&mut OneUnit(Some(u))).to_string());
    Call { line: format!("n {count} {}", u.to_bits()), does }
}

fn space(grid: i32) -> Call {
    let does = caught(|| format!("{:?}", EgocentricSnake { grid_size: grid }.observation_space()));
    Call { line: format!("p {grid}"), does }
}

// ---- rows

#[derive(Default)]
struct Table {
    text: String,
}

impl Table {
    fn row(&mut self, number: u8, what: &str, call: Call) {
        let refused = probe::answer(call.line.as_bytes());
        let given = refused.strip_prefix("r ").and_then(|text| text.split(' ').next());
        assert_eq!(given, Some(number.to_string().as_str()), "{}", call.line);
        let does = match call.does {
            Ok(text) => format!("answers {text}"),
            Err(why) => format!("panics: {}", why.replace('\n', " ")),
        };
        self.text += &format!("{number} | {what} | `{}` | {does}\n", call.line);
    }

    fn settings(&mut self) {
        let cases = [
            (1, "one snake", "1 3 1 0 - 0 -"),
            (1, "nine snakes", "9 5 1 0 - 0 -"),
            (2, "length 0", "2 3 0 0 - 0 -"),
            (3, "lead 0", "2 3 1 0 0 0 -"),
            (4, "a lead of three snakes", "3 3 1 0 1 0 -"),
            (5, "grid 33", "2 33 1 0 - 0 -"),
            (6, "food above g²", "2 3 1 0 - 10 -"),
            (6, "food above 2^32: the Rust keeps its low 32 bits", "2 3 1 0 - 4294967297 -"),
            (6, "grid 0 with food", "2 0 1 0 - 1 -"),
            (8, "product above 2^53 on the smallest grid", "8 11 1 0 - 8 -"),
            (9, "no room to trace", "2 3 7 0 - 0 -"),
            (10, "a cell outside", "2 1 1 0 - 0 -"),
            (11, "a cell taken twice", "2 3 5 0 - 0 -"),
            (12, "food above the free cells", "2 3 1 0 - 8 -"),
        ];
        for (number, what, text) in cases {
            self.row(number, &format!("`initial_state`, {what}"), initial(text));
        }
        self.row(5, "`validate`, grid 33", validate("2 33 1 0 - 0 -"));
        self.row(10, "`validate`, the lowest grid, two snakes", validate("2 -2147483648 1 0 - 0 -"));
        self.row(10, "`validate`, three snakes, first grid that overflows", validate("3 -715827883 1 0 - 0 -"));
        self.row(10, "`validate`, eight snakes, first grid that overflows", validate("8 -268435457 1 0 - 0 -"));
        for grid in [33, 0, -1] {
            self.row(5, &format!("`observation_space`, grid {grid}"), space(grid));
        }
    }

    /// The Rust's `step` reads the setting's grid, `play_to_last` and lead, and validates nothing. No well-formed
    /// image has the snakes of 1 or the grid of 5: there 21 holds too. In the other rows the setting alone is at fault.
    fn steps_of_refused_settings(&mut self) {
        let pair = state(3, 0, false, &[alive(RIGHT, &[4]), alive(LEFT, &[3])], &[]);
        let three = state(3, 0, false, &[alive(RIGHT, &[4, 3]), alive(LEFT, &[8]), corpse()], &[]);
        let edge = state(3, 0, false, &[alive(RIGHT, &[5]), alive(RIGHT, &[6])], &[]);
        let six: Vec<Snake> = (0..6).map(|row| alive(RIGHT, &[22 * row])).collect();
        let rows = state(22, 0, false, &six, &[]);
        let spot = state(1, 0, false, &[alive(RIGHT, &[0]), alive(LEFT, &[0])], &[]);
        let cases: [(u8, &str, &str, &State, &[usize]); 12] = [
            (1, "a setting of one snake", "1 3 1 0 - 0 -", &pair, &[0, 2]),
            (1, "a setting of nine snakes", "9 5 1 0 - 0 -", &pair, &[0, 2]),
            (2, "length 0", "2 3 0 0 - 0 -", &pair, &[0, 2]),
            (3, "lead 0: over with equal lengths", "2 3 1 0 0 0 -", &pair, &[0, 2]),
            (4, "a lead of three snakes: it decides between the last two", "3 3 1 0 1 0 -", &three, &[0, 0, 0]),
            (5, "grid 33 over an image of side 3: its wall", "2 33 1 0 - 0 -", &edge, &[0, 0]),
            (6, "food above g²", "2 3 1 0 - 10 -", &pair, &[0, 2]),
            (8, "product above 2^53 with the fewest snakes", "6 22 1 0 - 6 -", &rows, &[0; 6]),
            (9, "no room to trace", "2 3 7 0 - 0 -", &pair, &[0, 2]),
            (10, "a cell outside: grid 1", "2 1 1 0 - 0 -", &spot, &[0, 0]),
            (11, "a cell taken twice", "2 3 5 0 - 0 -", &pair, &[0, 2]),
            (12, "food above the free cells", "2 3 1 0 - 8 -", &pair, &[0, 2]),
        ];
        for (number, what, text, state, actions) in cases {
            self.row(number, &format!("`step`, {what}"), step(text, state, actions));
        }
    }

    fn images(&mut self) {
        let any = "2 3 1 0 - 0 -";
        let doubled = state(3, 0, false, &[alive(RIGHT, &[4, 3, 3]), alive(LEFT, &[8])], &[]);
        self.row(55, "`step`, a cell twice in a body", step(any, &doubled, &[0, 0]));
        self.row(55, "`snake_length_cell`, the same", length_cell(&doubled));
        let bodiless = state(3, 0, false, &[alive(RIGHT, &[]), alive(LEFT, &[8])], &[]);
        self.row(51, "`step`, a living snake with no cell", step(any, &bodiless, &[0, 0]));
        self.row(51, "`egocentric_parts`, the same", observed(&bodiless, 0));
        self.row(51, "`legal_actions`, the same", legal(&bodiless, 0));
        self.row(51, "`snake_length_cell`, the same", length_cell(&bodiless));
        let outside = state(3, 0, false, &[alive(RIGHT, &[9]), alive(LEFT, &[8])], &[]);
        self.row(54, "`step`, a body cell g²", step(any, &outside, &[1, 0]));
        self.row(54, "`egocentric_parts`, the same, an agent that heads Left", observed(&outside, 1));
        self.row(54, "`egocentric_parts`, the same, an agent that heads Right: a wrong place", observed(&outside, 0));
        let pair = [alive(RIGHT, &[4]), alive(LEFT, &[5])];
        self.row(54, "`chance_node`, food on cell g²", count(&state(3, 1, false, &pair, &[9])));
        self.row(51, "`chance_node`, food due 1,025", count(&state(3, 1025, true, &pair, &[])));
        let spot = [alive(RIGHT, &[0]), alive(LEFT, &[0])];
        self.row(54, "`chance_node`, more cells taken than g²", count(&state(1, 1, false, &spot, &[1])));
        self.row(51, "`chance_node`, side 33", count(&state(33, 1, false, &pair, &[])));
        self.row(51, "`chance_node`, first side whose square overflows", count(&state(46341, 1, false, &pair, &[])));
        let nine = vec![alive(UP, &[0, 1, 2]); 9];
        self.row(51, "`snake_length_cell`, nine snakes", length_cell(&state(3, 0, false, &nine, &[])));
        self.row(51, "`step`, one snake", step(any, &state(3, 0, false, &[alive(RIGHT, &[4])], &[]), &[0]));
    }

    fn steps(&mut self) {
        let any = "2 3 1 0 - 0 -";
        let pair = [alive(RIGHT, &[4]), alive(LEFT, &[3])];
        let idle = state(3, 0, false, &pair, &[]);
        let edge = state(3, 0, false, &[alive(RIGHT, &[5]), alive(RIGHT, &[6])], &[]);
        self.row(21, "`step`, side 3 under a setting of side 4: its wall", step("2 4 1 0 - 0 -", &edge, &[0, 0]));
        self.row(21, "`step`, two snakes under a setting of three", step("3 3 1 0 - 0 -", &idle, &[0, 0]));
        let due = state(3, 2, false, &pair, &[]);
        self.row(22, "`step`, food due: the apples are forgotten", step(any, &due, &[1, 1]));
        let birth = state(3, 2, true, &pair, &[]);
        self.row(22, "`step`, food due at birth: the same", step(any, &birth, &[1, 1]));
        self.row(24, "`step`, an action too many: passed over", step(any, &idle, &[0, 1, 5]));
        let lone = state(3, 0, false, &[alive(RIGHT, &[4]), corpse()], &[]);
        self.row(24, "`step`, none for a dead snake", step(any, &lone, &[0]));
        self.row(24, "`step`, none for a living snake", step(any, &idle, &[0]));
        self.row(25, "`step`, a living snake's action 3", step(any, &idle, &[3, 0]));
    }

    fn chance(&mut self) {
        let pair = [alive(RIGHT, &[4]), alive(LEFT, &[5])];
        let all: Vec<u16> = (0..9).collect();
        self.row(23, "`chance_node`, none due", count(&state(3, 0, false, &pair, &[])));
        self.row(23, "`apply_chance_node`, none due", draw(&state(3, 0, false, &pair, &[]), 0));
        self.row(23, "`apply_chance_node`, none due at birth", draw(&state(3, 0, true, &pair, &[]), 0));
        self.row(23, "`apply_chance_node`, the same with no free cell", draw(&state(3, 0, true, &pair, &all), 0));
        self.row(27, "`apply_chance_node`, index at the count: folded", draw(&state(3, 1, false, &pair, &[]), 7));
        self.row(
            27,
            "`apply_chance_node`, the same at birth: off the grid",
            draw(&state(3, 1, true, &pair, &[]), 7),
        );
        self.row(27, "`apply_chance_node`, no free cell, index 1", draw(&state(3, 1, false, &pair, &all), 1));
        let wide = state(5, 17, false, &[alive(RIGHT, &[24]), alive(LEFT, &[24])], &[]);
        self.row(28, "`chance_node`, 17 due on 24 free cells", count(&wide));
        self.row(28, "`apply_chance_node`, the same", draw(&wide, 0));
    }

    fn agents(&mut self) {
        let pair = [alive(RIGHT, &[4]), alive(LEFT, &[5])];
        let (idle, due) = (state(3, 0, false, &pair, &[]), state(3, 1, false, &pair, &[]));
        self.row(26, "`legal_actions`, no such agent, food due", legal(&due, 2));
        self.row(26, "`legal_actions`, no such agent, none due", legal(&idle, 2));
        self.row(26, "`egocentric_parts`, no such agent", observed(&idle, 2));
        self.row(26, "`mark_truncation`, no such agent", truncated(&idle, 2));
    }

    fn weights(&mut self) {
        self.row(31, "`step_reward`, infinite", reward(f64::INFINITY));
        self.row(31, "`step_reward`, infinite below", reward(f64::NEG_INFINITY));
        self.row(31, "`step_reward`, no number", reward(f64::from_bits(0x7ff8_0000_0000_0000)));
    }

    fn units(&mut self) {
        self.row(80, "`ChanceDist::draw`, count 0", outcome(0, 0.0));
        self.row(80, "`ChanceDist::draw`, first count that binary64 rounds", outcome((1 << 53) + 1, 0.5));
        self.row(80, "`ChanceDist::draw`, the largest count", outcome(u64::MAX, 0.5));
        self.row(81, "`ChanceDist::draw`, u = 1: the last index", outcome(3, 1.0));
        self.row(81, "`ChanceDist::draw`, u above: the same", outcome(3, f64::INFINITY));
        self.row(81, "`ChanceDist::draw`, u below 0: the first", outcome(3, -0.5));
        self.row(81, "`ChanceDist::draw`, no number: the same", outcome(3, f64::from_bits(0x7ff8_0000_0000_0000)));
    }
}

/// All rows, as a table.
pub fn print() -> String {
    let mut table = Table::default();
    table.settings();
    table.steps_of_refused_settings();
    table.images();
    table.steps();
    table.chance();
    table.agents();
    table.weights();
    table.units();
    format!("No. | call of the Rust | the port's call | the Rust\n--- | --- | --- | ---\n{}", table.text)
}
