//! Calls made from a seed: the probe's lines around every limit, rule and refusal of documents 01 and 02.

use crate::books::{self, Extent};
use crate::calls;
use crate::images::{self, Player};
use crate::paper::{self, Setting, State};
use crate::paper_books;
use crate::random::Random;

/// Letters of document 01; a letter comes as often as it stands here.
pub const BASE: &str = "vvvissssssssccdddddkkkkkooobbtllzzuuwwwpqhxx";

/// Letters of document 02.
pub const LATER: &str = "BBPPPHHHnn";

/// Letters whose images are all damaged: those that take one, the check most often, and books.
pub const FAULTS: &str = "xxxxxxxxsHcdkotlzuBBBPPP";

/// As many words as a line with a book or a row may hold.
const MOST_BOOK_WORDS: u64 = 262_144;

/// How long a line may be and which images are wanted.
#[derive(Clone, Copy, PartialEq)]
pub enum Size {
    Any,
    /// No line of more bytes.
    UpTo(usize),
    /// Only the largest image, of 9,253 words.
    Full,
}

pub struct Generator {
    rng: Random,
    player: Player,
    letters: Vec<u8>,
    size: Size,
    /// Calls with the single faults of one short row, and of one short book, that are still to come.
    row_faults: Vec<String>,
    book_faults: Vec<String>,
    /// Whether all images are damaged, and the single faults of one small image that are still to come.
    damaged: bool,
    image_faults: Vec<Vec<u16>>,
}

fn joined<T: ToString>(numbers: &[T]) -> String {
    numbers.iter().map(|n| format!(" {}", n.to_string())).collect()
}

/// A count and the list after it, each after a space.
fn listed<T: ToString>(list: &[T]) -> String {
    format!(" {}{}", list.len(), joined(list))
}

impl Generator {
    pub fn new(seed: u64, letters: &str, size: Size) -> Self {
        let mut rng = Random::new(seed);
        let player = Player::new(&mut rng);
        let damaged = letters == FAULTS;
        let letters = letters.bytes().collect();
        let (row_faults, book_faults, image_faults) = (Vec::new(), Vec::new(), Vec::new());
        Generator { rng, player, letters, size, row_faults, book_faults, damaged, image_faults }
    }

    /// The next line, without its newline.
    pub fn line(&mut self) -> Vec<u8> {
        loop {
            let letter = *self.rng.pick(&self.letters);
            let mut line = self.call(letter).into_bytes();
            if self.rng.once_in(60) {
                self.spoil(&mut line);
            }
            match self.size {
                Size::UpTo(most) if line.len() > most => continue,
                _ => return line,
            }
        }
    }

    fn call(&mut self, letter: u8) -> String {
        match letter {
            b'v' => format!("v {}", self.any_setting().print()),
            b'i' => self.initial(),
            b's' => self.step(),
            b'c' => format!("c{}", listed(&self.image(true))),
            b'd' => self.draw(),
            b'k' => self.rank(),
            b'o' => self.observation(),
            b'b' => self.with_agent("b"),
            b't' => format!("t{}", listed(&self.image(false))),
            b'l' => self.with_agent("l"),
            b'z' => self.length_cell(),
            b'u' => self.truncation(),
            b'w' => self.reward(),
            b'n' => self.outcome_of(),
            b'p' => format!("p {}", self.any_grid()),
            b'q' => "q".to_string(),
            b'h' => self.turn(),
            b'x' => self.check_image(),
            b'H' => self.struck(),
            b'B' => self.write_book(),
            b'P' => self.read_page(),
            other => panic!("no call has the letter {}", char::from(other)),
        }
    }

    // ---- images

    fn state(&mut self, for_draw: bool) -> State {
        let rng = &mut self.rng;
        if self.size == Size::Full || (self.size == Size::Any && rng.once_in(1500)) {
            let mut state = images::full_state(rng);
            images::set_due(rng, &mut state, for_draw);
            return state;
        }
        if rng.once_in(3) {
            let mut state = self.player.next(rng).1;
            if for_draw && state.due == 0 && !rng.once_in(10) {
                images::set_due(rng, &mut state, true);
            }
            return state;
        }
        let (n, side) = (images::snake_count(rng), images::side(rng));
        let mut state = images::any_state(rng, n, side);
        images::set_due(rng, &mut state, for_draw);
        state
    }

    /// The words of a state, one in eight with one fault or two.
    fn perhaps_damaged(&mut self, state: &State, once_in: u64) -> Vec<u16> {
        if self.damaged {
            return self.damaged_words(state);
        }
        let mut words = paper::write_image(state);
        if self.rng.once_in(once_in) {
            for _ in 0..self.rng.between(1, 2) {
                images::damage(&mut self.rng, &mut words);
            }
        } else if self.rng.once_in(150) {
            let count = self.rng.below(20);
            words = (0..count).map(|_| self.rng.below(40) as u16).collect();
        } else if self.rng.once_in(3000) && self.size == Size::Any {
            // as many words as a line may hold, or one more
            let count = self.rng.between(16_383, 16_385) as usize;
            words.resize(count, 1);
        }
        words
    }

    /// Every single fault of a small image in turn, another small image once they are all given; one in three times the
    /// words of this state with one fault to three.
    fn damaged_words(&mut self, state: &State) -> Vec<u16> {
        if self.rng.once_in(3) {
            let mut words = paper::write_image(state);
            for _ in 0..self.rng.between(1, 3) {
                images::damage(&mut self.rng, &mut words);
            }
            return words;
        }
        if self.image_faults.is_empty() {
            let small = self.small_image();
            self.image_faults = books::single_faults(&small);
            self.rng.shuffle(&mut self.image_faults);
        }
        self.image_faults.pop().expect("an image has faults")
    }

    /// The words of a state of few cells.
    fn small_image(&mut self) -> Vec<u16> {
        loop {
            let (n, side) = (self.rng.between(2, 4), self.rng.between(1, 6) as u16);
            let words = paper::write_image(&images::any_state(&mut self.rng, n, side));
            if words.len() <= 60 {
                return words;
            }
        }
    }

    fn image(&mut self, for_draw: bool) -> Vec<u16> {
        let state = self.state(for_draw);
        self.perhaps_damaged(&state, 8)
    }

    /// A buffer's length around what is needed.
    fn room(&mut self, needed: usize, most: u64) -> u64 {
        let needed = needed as u64;
        match self.rng.below(20) {
            0..=10 => (needed + self.rng.below(20)).min(most),
            11..=14 => needed.min(most),
            15 => needed.saturating_sub(1).min(most),
            16 => self.rng.below(needed + 1).min(most),
            17 => *self.rng.pick(&[0, 1, 5]),
            18 => most - self.rng.below(2),
            _ => {
                if self.rng.once_in(4) {
                    most + 1
                } else {
                    most
                }
            }
        }
    }

    fn agent(&mut self, words: &[u16]) -> u64 {
        let n = u64::from(words.first().copied().unwrap_or(2)).min(8);
        match self.rng.below(12) {
            0 => n,
            1 => *self.rng.pick(&[n + 1, 8, 9, 256, 65_536, 1 << 32, 1 << 63, u64::MAX]),
            _ => self.rng.below(n.max(1)),
        }
    }

    fn with_agent(&mut self, letter: &str) -> String {
        let words = self.image(false);
        let agent = self.agent(&words);
        format!("{letter} {agent}{}", listed(&words))
    }

    fn length_cell(&mut self) -> String {
        let long = self.rng.once_in(2) && self.size == Size::Any;
        let mut state = if long { images::long_state(&mut self.rng) } else { self.state(false) };
        if !self.rng.once_in(3) {
            // all alive, where each has a cell
            state.snakes.iter_mut().for_each(|s| s.alive = !s.body.is_empty());
        }
        let words = self.perhaps_damaged(&state, 10);
        format!("z{}", listed(&words))
    }

    fn check_image(&mut self) -> String {
        let state = self.state(true);
        let words = self.perhaps_damaged(&state, 2);
        format!("x{}", listed(&words))
    }

    // ---- settings

    fn any_grid(&mut self) -> i32 {
        match self.rng.below(8) {
            0 => {
                *self.rng.pick(&[i32::MIN, i32::MIN + 1, -715_827_883, -268_435_457, -268_435_456, -46_341, -1_000])
            }
            1 => *self.rng.pick(&[i32::MAX, 46_340, 46_341, 65_536, 20_725, 1_000, 100]),
            2 => self.rng.below(4) as i32 - 3,
            3 => self.rng.between(30, 35) as i32,
            _ => self.rng.between(1, 33) as i32,
        }
    }

    /// One field put at or around a limit.
    fn unsettle(&mut self, s: &mut Setting) {
        let rng = &mut self.rng;
        let cells = i64::from(s.grid_size).pow(2) as u64;
        let used = s.initial_length.saturating_mul(s.num_snakes);
        match rng.below(12) {
            0 => s.num_snakes = rng.between(0, 10),
            1 => s.num_snakes = *rng.pick(&[0, 1, 9, 10, 258, (1 << 32) + 2, u64::MAX]),
            2 => s.initial_length = *rng.pick(&[0, 0, 1, u64::MAX, 1 << 32, (1 << 32) + 1, 10_000]),
            3 => s.initial_length = rng.between(0, 40),
            4 => s.win_food_lead = *rng.pick(&[None, Some(0), Some(0), Some(1), Some(2), Some(u64::MAX)]),
            5 | 6 => s.grid_size = self.any_grid(),
            7 => s.initial_food_count = (cells + rng.below(3)).saturating_sub(1),
            8 => s.initial_food_count = (cells.saturating_sub(used) + rng.below(5)).saturating_sub(2),
            9 => s.initial_food_count = *rng.pick(&[0, 1, 1_024, 1_025, 9_999, 10_000, 10_001, 1 << 53, u64::MAX]),
            10 => s.initial_food_count = rng.between(0, 9),
            _ => s.max_ticks = *rng.pick(&[None, Some(0), Some(1), Some(u64::MAX)]),
        }
    }

    /// A setting with up to three fields at a limit.
    pub fn any_setting(&mut self) -> Setting {
        let rng = &mut self.rng;
        let n = images::snake_count(rng);
        let mut s = Setting {
            num_snakes: n,
            grid_size: match rng.below(4) {
                0..=1 => i32::from(images::side(rng)),
                // where the product of n factors crosses 2^53
                2 => rng.between(8, 22) as i32,
                _ => rng.between(1, 32) as i32,
            },
            initial_length: rng.between(1, 5),
            play_to_last: rng.once_in(2),
            win_food_lead: if n == 2 && rng.once_in(2) { Some(rng.between(1, 3)) } else { None },
            initial_food_count: rng.between(0, 8),
            max_ticks: if rng.once_in(4) { Some(rng.below(50)) } else { None },
        };
        for _ in 0..self.rng.below(4) {
            self.unsettle(&mut s);
        }
        s
    }

    fn initial(&mut self) -> String {
        let s = if self.rng.once_in(3) { self.any_setting() } else { images::accepted(&mut self.rng) };
        let needed = calls::initial_image(&s, u64::MAX).map_or(30, |words| words.len());
        format!("i {} {}", s.print(), self.room(needed, 16_384))
    }

    // ---- step

    /// A setting and a state that belong together.
    fn position(&mut self) -> (Setting, State) {
        let rng = &mut self.rng;
        if self.size == Size::Full || (self.size == Size::Any && rng.once_in(1500)) {
            let state = images::full_state(rng);
            let s = images::setting_for(rng, 8, 32).expect("a large board has room");
            return (s, state);
        }
        if rng.once_in(3) {
            return self.player.next(rng);
        }
        let mut s = images::accepted(rng);
        let mut state = images::any_state(rng, s.num_snakes, s.grid_size as u16);
        images::set_due(rng, &mut state, false);
        if s.win_food_lead.is_some() {
            s.win_food_lead = Some(images::lead_near(rng, &state));
        }
        (s, state)
    }

    fn actions(&mut self, state: &State) -> Vec<u64> {
        let rng = &mut self.rng;
        let mut actions = if rng.once_in(3) {
            images::sensible(rng, state)
        } else {
            state.snakes.iter().map(|_| if rng.once_in(2) { 0 } else { rng.below(3) }).collect()
        };
        for (action, snake) in actions.iter_mut().zip(&state.snakes) {
            let odd = if snake.alive { rng.once_in(60) } else { rng.once_in(2) };
            if odd {
                *action = *rng.pick(&[3, 4, 255, 256, 65_536, 1 << 32, u64::MAX]);
            }
        }
        if rng.once_in(15) {
            let count = *rng.pick(&[0, 1, 2, 3, 7, 8, 9, 16, 63, 64, 65]);
            actions.resize(count, 0);
        }
        actions
    }

    fn step(&mut self) -> String {
        let (mut s, state) = self.position();
        let words = self.perhaps_damaged(&state, 14);
        let actions = self.actions(&state);
        if self.rng.once_in(16) {
            self.unsettle(&mut s);
        } else if self.rng.once_in(20) {
            // another accepted setting, seldom of the same board
            s = images::accepted(&mut self.rng);
        }
        let needed = calls::step_image(&s, &words, &actions, u64::MAX).map_or(words.len(), |a| a.2.len());
        let room = self.room(needed, 16_384);
        format!("s {} {room}{}{}", s.print(), listed(&actions), listed(&words))
    }

    /// Half of the positions are crowded: a head enters a cell that lies anywhere in the bodies of the others.
    fn struck(&mut self) -> String {
        let (mut s, mut state) = self.position();
        let crowded = self.size != Size::Full && self.rng.once_in(2);
        let mut actions = self.actions(&state);
        if crowded {
            let i = images::crowd(&mut self.rng, &mut state);
            if let Some(action) = actions.get_mut(i) {
                *action = 0;
            }
        }
        let words = self.perhaps_damaged(&state, 20);
        if self.rng.once_in(20) {
            self.unsettle(&mut s);
        }
        format!("H {}{}{}", s.print(), listed(&actions), listed(&words))
    }

    // ---- chance

    fn draw(&mut self) -> String {
        let words = self.image(true);
        let count = calls::count(&words).unwrap_or(100);
        let rng = &mut self.rng;
        let index = match rng.below(12) {
            0 => 0,
            1 => count - 1,
            2 => count,
            3 => *rng.pick(&[count.saturating_add(1), u64::MAX, count.saturating_mul(3)]),
            _ => rng.below(count),
        };
        let drawn = calls::draw(&words, index).map_or(1, |answer| answer.1.len());
        let room = self.room(words.len() + drawn, 16_384);
        let list_room = self.room(drawn, 16_384);
        format!("d {room} {list_room} {index}{}", listed(&words))
    }

    fn rank(&mut self) -> String {
        let mut state = self.state(true);
        if state.due == 0 && !self.rng.once_in(6) {
            images::set_due(&mut self.rng, &mut state, true);
        }
        let mut list = match paper::count(&state) {
            Ok(count) => paper::drawn(&state, self.rng.below(count)),
            Err(_) => {
                let mut free = paper::free_cells(&state);
                self.rng.shuffle(&mut free);
                free.truncate(usize::from(state.due));
                free
            }
        };
        if self.rng.once_in(4) {
            self.spoil_list(&mut list, &state);
        }
        let words = self.perhaps_damaged(&state, 14);
        format!("k{}{}", listed(&list), listed(&words))
    }

    fn spoil_list(&mut self, list: &mut Vec<u16>, state: &State) {
        let rng = &mut self.rng;
        let cells = state.side * state.side;
        let at = rng.below(list.len().max(1) as u64) as usize;
        match rng.below(6) {
            0 => drop(list.pop()),
            1 => list.push(rng.below(u64::from(cells)) as u16),
            2 if !list.is_empty() => list[at] = *rng.pick(&[cells, cells + 1, 65_535]),
            3 if !list.is_empty() => list[at] = rng.below(u64::from(cells)) as u16,
            4 if list.len() > 1 => list[at] = list[(at + 1) % list.len()],
            5 if rng.once_in(40) => list.resize(rng.between(2_047, 2_049) as usize, 0),
            _ => rng.shuffle(list),
        }
    }

    // ---- books

    fn extent(&self) -> Extent {
        match self.size {
            Size::Any => Extent::Any,
            Size::UpTo(_) => Extent::Short,
            Size::Full => Extent::Long,
        }
    }

    /// Half of the calls go on with the single faults of a short row, in any order; a new row begins where one ends.
    fn write_book(&mut self) -> String {
        if self.size == Size::Full || self.rng.once_in(2) {
            return self.any_writing();
        }
        if self.row_faults.is_empty() {
            self.row_faults = self.sweep_row();
        }
        self.row_faults.pop().expect("a row has faults")
    }

    fn read_page(&mut self) -> String {
        if self.size == Size::Full || self.rng.once_in(2) {
            return self.any_reading();
        }
        if self.book_faults.is_empty() {
            self.book_faults = self.sweep_book();
        }
        self.book_faults.pop().expect("a book has faults")
    }

    /// Every single fault of a short row, in a buffer of just the room that the words would need, and the row itself
    /// with one page more and less and with each buffer that is too short by little.
    fn sweep_row(&mut self) -> Vec<String> {
        let pages = books::pages(&mut self.rng, Extent::Short);
        let (setting, row, count) = (pages.setting.print(), pages.row(), pages.parts.len());
        let needed = |words: &[u16]| paper_books::contents_length(count) + words.len();
        let mut calls: Vec<String> = books::single_faults(&row)
            .iter()
            .map(|words| format!("B {setting} {} {count}{}", needed(words), listed(words)))
            .collect();
        for less in 0..4 {
            calls.push(format!("B {setting} {} {count}{}", needed(&row) - less, listed(&row)));
        }
        for other in [count + 1, count.saturating_sub(1)] {
            calls.push(format!("B {setting} {} {other}{}", needed(&row) + 2, listed(&row)));
        }
        self.rng.shuffle(&mut calls);
        calls
    }

    /// Every single fault of a short book, each of its pages and the one after them asked for.
    fn sweep_book(&mut self) -> Vec<String> {
        let pages = books::pages(&mut self.rng, Extent::Short);
        let mut calls = Vec::new();
        for words in books::single_faults(&pages.bound()) {
            for page in 0..=pages.parts.len() {
                calls.push(format!("P {page}{}", listed(&words)));
            }
        }
        self.rng.shuffle(&mut calls);
        calls
    }

    /// Words as many as a line may hold, or one more; or their number alone above the limit.
    fn listed_to_the_limit(&mut self, words: &[u16]) -> String {
        if self.size == Size::Any && self.rng.once_in(4000) {
            let mut words = words.to_vec();
            let count = self.rng.between(MOST_BOOK_WORDS - 1, MOST_BOOK_WORDS + 1);
            words.resize(count as usize, 1);
            return listed(&words);
        }
        if self.rng.once_in(200) {
            let count = *self.rng.pick(&[MOST_BOOK_WORDS, MOST_BOOK_WORDS + 1, u64::MAX]);
            return format!(" {count}{}", joined(words));
        }
        listed(words)
    }

    fn any_writing(&mut self) -> String {
        let extent = self.extent();
        let mut pages = books::pages(&mut self.rng, extent);
        let mut count = pages.parts.len() as u64;
        if self.size != Size::Full && !self.rng.once_in(3) {
            for _ in 0..self.rng.between(1, 3) {
                books::spoil_writing(&mut self.rng, &mut pages, &mut count);
            }
            if self.rng.once_in(6) {
                self.unsettle(&mut pages.setting);
            }
        }
        let row = pages.row();
        let needed = paper_books::contents_length(count.min(65_536) as usize) + row.len();
        let room = self.room(needed, MOST_BOOK_WORDS);
        let words = self.listed_to_the_limit(&row);
        format!("B {} {room} {count}{words}", pages.setting.print())
    }

    fn any_reading(&mut self) -> String {
        if self.size == Size::Any && self.rng.once_in(2000) {
            let (pages, image) = books::most_pages(&mut self.rng);
            let page = if self.rng.once_in(3) { books::page_near(&mut self.rng, 65_535) } else { image };
            return format!("P {page}{}", listed(&pages.bound()));
        }
        let extent = self.extent();
        let mut pages = books::pages(&mut self.rng, extent);
        if self.size == Size::Full {
            return format!("P {}{}", pages.parts.len() - 1, listed(&pages.bound()));
        }
        if self.rng.once_in(3) {
            for _ in 0..self.rng.between(1, 2) {
                books::spoil_part(&mut self.rng, &mut pages);
            }
        }
        let mut book = pages.bound();
        if !self.rng.once_in(3) {
            for _ in 0..self.rng.between(1, 2) {
                books::damage(&mut self.rng, &mut book);
            }
        } else if self.rng.once_in(40) {
            let count = self.rng.below(60);
            book = (0..count).map(|_| self.rng.below(20) as u16).collect();
        }
        let page = books::page_near(&mut self.rng, pages.parts.len() as u64);
        format!("P {page}{}", self.listed_to_the_limit(&book))
    }

    // ---- the rest

    fn observation(&mut self) -> String {
        let words = self.image(false);
        let agent = self.agent(&words);
        let side = usize::from(words.get(1).copied().unwrap_or(1)).min(32);
        let room = self.room(5 * side * side, 8_192);
        format!("o {agent} {room}{}", listed(&words))
    }

    fn event(&mut self) -> Vec<u64> {
        let none = self.rng.once_in(6);
        (0..8)
            .map(|i| match i {
                _ if none => 0,
                2 => self.rng.below(5),
                _ => self.rng.below(2),
            })
            .collect()
    }

    fn truncation(&mut self) -> String {
        let event = self.event();
        let words = self.image(false);
        let agent = self.agent(&words);
        format!("u {agent}{}{}", joined(&event), listed(&words))
    }

    /// The bits of a decimal with three places between -1 and 1.
    fn thousandths(&mut self) -> u64 {
        ((self.rng.below(2001) as f64 - 1000.0) / 1000.0).to_bits()
    }

    fn weight(&mut self) -> u64 {
        let rng = &mut self.rng;
        let plain: [f64; 12] = [0.0, -0.0, 1.0, -1.0, 0.1, -0.01, 0.2, 0.3, 1e16, -1e16, 1e-300, 1e300];
        let edges = [f64::MAX, f64::MIN, f64::MIN_POSITIVE, f64::EPSILON, -f64::MIN_POSITIVE];
        match rng.below(40) {
            0..=14 => rng.pick(&plain).to_bits(),
            15..=21 => rng.pick(&edges).to_bits(),
            // subnormal, either sign
            22..=25 => (rng.below(2) << 63) | (rng.word() >> (12 + rng.below(52))),
            26 => *rng.pick(&[
                0x7ff0_0000_0000_0000,
                0xfff0_0000_0000_0000,
                0x7ff8_0000_0000_0000,
                0xfff8_0000_0000_0000,
                0x7ff0_0000_0000_0001,
                0xffff_ffff_ffff_ffff,
            ]),
            27..=32 => self.thousandths(),
            _ => rng.word(),
        }
    }

    fn reward(&mut self) -> String {
        // thousandths and large opposites show the order of adding; other weights show the limits
        let weights: Vec<u64> = match self.rng.below(4) {
            0 => (0..7).map(|_| self.thousandths()).collect(),
            1 => (0..7).map(|_| self.rng.pick(&[1e16f64, -1e16, 1.0, -1.0, 0.5, 3.0]).to_bits()).collect(),
            _ => (0..7).map(|_| self.weight()).collect(),
        };
        let event = self.event();
        format!("w{}{}", joined(&weights), joined(&event))
    }

    /// A count: small, as a draw has it, or near a power of two up to 2^53; seldom outside the range.
    fn unit_count(&mut self) -> u64 {
        let rng = &mut self.rng;
        let power = rng.below(54);
        match rng.below(24) {
            0..=7 => rng.between(1, 1_100),
            8..=11 => rng.between(1, 1 << power),
            12..=14 => ((1 << power) + rng.below(5)).saturating_sub(2).clamp(1, 1 << 53),
            15..=17 => (1 << 53) - rng.below(1 << power),
            18 => 1,
            19 | 20 => 1 << 53,
            21 => 7_503_063_898_176_000,
            22 => *rng.pick(&[0, (1 << 53) + 1, (1 << 53) + 2, 1 << 54, 1 << 63, u64::MAX]),
            _ => rng.word() >> rng.below(64),
        }
    }

    /// The bits of a unit number: where a product is near a whole number, at both ends of the range, as a source makes it; seldom outside the range.
    fn unit_bits(&mut self, count: u64) -> u64 {
        let rng = &mut self.rng;
        let one = 1.0f64.to_bits();
        match rng.below(24) {
            // near k / count, a step or two of the last bit above or below: products that round up to a whole number
            0..=9 => {
                let bits = (rng.below(count.max(1)) as f64 / count.max(1) as f64).to_bits();
                (bits + rng.below(5)).saturating_sub(2).min(one)
            }
            // the largest numbers below 1, and 1 itself
            10..=12 => one - rng.below(4),
            // subnormal, of either sign
            13 | 14 => (u64::from(rng.once_in(8)) << 63) | (rng.word() >> (12 + rng.below(52))),
            // 53 bits, as the Rust's source makes a unit number
            15..=18 => ((rng.word() >> 11) as f64 / (1u64 << 53) as f64).to_bits(),
            // any number below 1
            19 | 20 => rng.below(one),
            21 => *rng.pick(&[0, 1 << 63, 1, (1 << 63) + 1, 0.5f64.to_bits(), f64::MIN_POSITIVE.to_bits()]),
            22 => self.weight(),
            _ => rng.word(),
        }
    }

    fn outcome_of(&mut self) -> String {
        let count = self.unit_count();
        format!("n {count} {}", self.unit_bits(count))
    }

    fn turn(&mut self) -> String {
        let most = if self.rng.once_in(6) { 6 } else { 3 };
        let heading = self.rng.below(if most == 3 { 4 } else { most });
        format!("h {heading} {}", self.rng.below(most))
    }

    /// Makes a line unreadable, mostly.
    fn spoil(&mut self, line: &mut Vec<u8>) {
        let rng = &mut self.rng;
        let at = rng.below(line.len() as u64) as usize;
        let spaces: Vec<usize> = (0..line.len()).filter(|&i| line[i] == b' ').collect();
        let field = if spaces.is_empty() { 0 } else { *rng.pick(&spaces) + 1 };
        match rng.below(14) {
            0 => drop(line.remove(at)),
            1 => line.insert(at, *rng.pick(b" 0-+9a\t\r.\x00\x7f\xff")),
            2 => line.push(b' '),
            3 => line.insert(0, b' '),
            4 => line.extend(b" 0"),
            5 => line.insert(field, b'0'),
            6 => line.insert(field, b'-'),
            7 => line.insert(field, b' '),
            8 => line.truncate(at),
            9 => line.clear(),
            10 => line[0] = *rng.pick(b"aeyVSr0 "),
            11 => drop(line.splice(field..field, *b"1844674407370955161")),
            12 => {
                let end = spaces.iter().copied().find(|&i| i > field).unwrap_or(line.len());
                let big: &[&[u8]] = &[
                    b"18446744073709551616",
                    b"65536",
                    b"16385",
                    b"99999999999999999999999",
                    b"18446744073709551615",
                ];
                let big = rng.pick(big).to_vec();
                if field > 0 {
                    line.splice(field..end, big);
                }
            }
            _ => line.push(b'\r'),
        }
    }
}
