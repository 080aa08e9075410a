//! The exported functions as they are (`clients/c/lundaspro.h`): each returns its refusal, 0 for none. A slice crosses as a pointer and a
//! length, an array of fixed size as a reference, which is one pointer.

/// num_snakes, grid_size, initial_length, play_to_last, win_food_lead_set, win_food_lead, initial_food_count, max_ticks_set, max_ticks.
pub type Setting = [u64; 9];
/// step, food, loss, draw, kill, win, survival.
pub type Weights = [f64; 7];
/// ate_food, died, death_cause, killed_opponent, won, lost, drew, survived_to_max_ticks.
pub type Event = [u8; 8];
/// moves, over, timeout, eight deaths, eight behind.
pub type Match = [u64; 19];

extern "C" {
    pub fn lundaspro_flat_check_image(image: *const u16, image_len: usize) -> u64;
    pub fn lundaspro_flat_body(
        image: *const u16,
        image_len: usize,
        snake: u64,
        part: &mut [u64; 2],
    ) -> u64;
    pub fn lundaspro_flat_validate(setting: &Setting) -> u64;
    pub fn lundaspro_flat_initial_state(
        setting: &Setting,
        out: *mut u16,
        out_len: usize,
        written: &mut [u64; 1],
    ) -> u64;
    pub fn lundaspro_flat_step(
        setting: &Setting,
        image: *const u16,
        image_len: usize,
        actions: *const u64,
        actions_len: usize,
        out: *mut u16,
        out_len: usize,
        events: &mut [Event; 8],
        end: &mut [u64; 2],
    ) -> u64;
    pub fn lundaspro_flat_take_move(
        setting: &Setting,
        terminal: u64,
        image: *const u16,
        image_len: usize,
        events: &mut [Event; 8],
        game: &mut Match,
    ) -> u64;
    pub fn lundaspro_flat_places(setting: &Setting, game: &Match, places: &mut [u64; 8]) -> u64;
    pub fn lundaspro_flat_struck(
        setting: &Setting,
        image: *const u16,
        image_len: usize,
        actions: *const u64,
        actions_len: usize,
        hits: &mut [[u16; 2]; 8],
    ) -> u64;
    pub fn lundaspro_flat_count(image: *const u16, image_len: usize, value: &mut [u64; 1]) -> u64;
    pub fn lundaspro_flat_draw(
        image: *const u16,
        image_len: usize,
        index: u64,
        out: *mut u16,
        out_len: usize,
        list: *mut u16,
        list_len: usize,
        drawn: &mut [u64; 2],
    ) -> u64;
    pub fn lundaspro_flat_rank(
        image: *const u16,
        image_len: usize,
        list: *const u16,
        list_len: usize,
        index: &mut [u64; 1],
    ) -> u64;
    pub fn lundaspro_flat_outcome_of(count: u64, u: f64, index: &mut [u64; 1]) -> u64;
    pub fn lundaspro_flat_observe(
        image: *const u16,
        image_len: usize,
        agent: u64,
        obs: *mut f32,
        obs_len: usize,
        written: &mut [u64; 1],
    ) -> u64;
    pub fn lundaspro_flat_observation_space(
        grid: u64,
        sizes: &mut [u64; 5],
        bounds: &mut [f32; 2],
    ) -> u64;
    pub fn lundaspro_flat_action_space(sizes: &mut [u64; 5], bounds: &mut [f32; 2]) -> u64;
    pub fn lundaspro_flat_length_cell(
        image: *const u16,
        image_len: usize,
        key: &mut [u64; 2],
    ) -> u64;
    pub fn lundaspro_flat_actor(image: *const u16, image_len: usize, chance: &mut [u64; 1]) -> u64;
    pub fn lundaspro_flat_legal_actions(
        image: *const u16,
        image_len: usize,
        agent: u64,
        actions: &mut [u64; 1],
    ) -> u64;
    pub fn lundaspro_flat_truncation(
        image: *const u16,
        image_len: usize,
        agent: u64,
        event: &Event,
        marked: &mut Event,
    ) -> u64;
    pub fn lundaspro_flat_reward(weights: &Weights, event: &Event, sum: &mut [f64; 1]) -> u64;
    pub fn lundaspro_flat_relative_to_absolute(
        heading: u64,
        action: u64,
        after: &mut [u64; 1],
    ) -> u64;
    pub fn lundaspro_flat_write_book(
        setting: &Setting,
        pages: u64,
        row: *const u16,
        row_len: usize,
        out: *mut u16,
        out_len: usize,
        written: &mut [u64; 1],
    ) -> u64;
    pub fn lundaspro_flat_page(
        book: *const u16,
        book_len: usize,
        page: u64,
        part: &mut [u64; 2],
    ) -> u64;
}
