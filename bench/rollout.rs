//! rollout SNAKES GRID LENGTH FOOD MAX_TICKS MATCHES MOVES <NUMBERS: many matches of the published Rust at once, in its own loop, as `Matches` of clients/python plays them:
//! every tick all snakes are observed, all matches make a move, its rewards are added, what is due is drawn, what is over begins anew.
//! NUMBERS are MOVES * MATCHES * SNAKES bytes of actions, then unit numbers, eight bytes each. Prints the processor's seconds, the apples eaten, the matches over and the sum of rewards.
#[allow(dead_code)]
#[path = "../target/oracle/published/crates/reinfors-games/src/snake.rs"]
mod snake;

use reinfors_core::game::{Game, Rng};
use reinfors_core::{Reward, StateEncoder};
use snake::{EgocentricSnake, Snake, SnakeReward, SnakeState};
use std::io::Read;

struct Units<'a>(std::slice::ChunksExact<'a, u8>);

impl Rng for Units<'_> {
    fn below(&mut self, _n: usize) -> usize {
        unreachable!("the rules ask for unit numbers alone")
    }
    fn unit(&mut self) -> f64 {
        f64::from_le_bytes(self.0.next().expect("enough unit numbers").try_into().expect("eight bytes"))
    }
}

/// What this thread has had of the processor.
fn processor_seconds() -> f64 {
    let told = std::fs::read_to_string("/proc/self/schedstat").expect("Linux tells it");
    told.split(' ').next().and_then(|nanoseconds| nanoseconds.parse::<f64>().ok()).expect("a number") / 1e9
}

/// One draw of each of these matches in which food is due, until none is.
fn draw(game: &Snake, states: &mut [SnakeState], which: &[bool], units: &mut Units) {
    loop {
        let due: Vec<usize> = (0..states.len()).filter(|&i| which[i] && states[i].pending_food > 0).collect();
        if due.is_empty() {
            return;
        }
        for i in due {
            let outcome = game.chance_node(&states[i]).draw(units);
            states[i] = game.apply_chance_node(&states[i], outcome).next_state;
        }
    }
}

fn main() {
    let words: Vec<usize> = std::env::args().skip(1).map(|word| word.parse().expect("a number")).collect();
    let [snakes, grid, length, food, ticks, matches, moves] = words[..] else { panic!("seven numbers") };
    let game = Snake {
        num_snakes: snakes,
        grid_size: grid as i32,
        initial_length: length,
        play_to_last: false,
        win_food_lead: None,
        initial_food_count: food,
        max_ticks: Some(ticks),
    };
    let weights = SnakeReward { step: -0.25, food: 1.0, loss: -1.0, draw: -0.5, kill: 0.5, win: 2.0, survival: 0.125 };
    let view = EgocentricSnake { grid_size: grid as i32 };
    let mut numbers = Vec::new();
    std::io::stdin().read_to_end(&mut numbers).expect("numbers to play by");
    let (actions, units) = numbers.split_at(moves * matches * snakes);
    let mut units = Units(units.chunks_exact(8));

    let begun = processor_seconds();
    let (mut eaten, mut ended, mut sum, mut seen) = (0u64, 0u64, 0.0, 0.0);
    let mut states = vec![game.initial_state(); matches];
    let mut made = vec![0usize; matches];
    draw(&game, &mut states, &vec![true; matches], &mut units);
    for tick in actions.chunks_exact(matches * snakes) {
        for state in &states {
            for agent in 0..snakes {
                let planes = view.encode(state, agent);
                seen += f64::from(planes[planes.len() / 2]);
            }
        }
        let mut over = vec![false; matches];
        for (i, acts) in tick.chunks_exact(snakes).enumerate() {
            let acts: Vec<usize> = acts.iter().map(|&a| usize::from(a)).collect();
            let moved = game.step(&states[i], &acts);
            made[i] += 1;
            let timeout = !moved.terminal && made[i] >= ticks;
            let mut events: Vec<_> = moved.events.into_iter().flatten().enumerate().collect();
            if timeout {
                game.mark_truncation(&moved.next_state, &mut events);
            }
            for (agent, event) in &events {
                sum += weights.step_reward(event, *agent);
                eaten += u64::from(event.ate_food);
            }
            states[i] = moved.next_state;
            over[i] = moved.terminal || timeout;
        }
        let playing: Vec<bool> = over.iter().map(|over| !over).collect();
        draw(&game, &mut states, &playing, &mut units);
        for i in (0..matches).filter(|&i| over[i]) {
            states[i] = game.initial_state();
            made[i] = 0;
            ended += 1;
        }
        draw(&game, &mut states, &over, &mut units);
    }
    println!("{:.6} {eaten} {ended} {sum} {seen}", processor_seconds() - begun);
}
