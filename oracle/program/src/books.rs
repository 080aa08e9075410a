//! Books for the generator: settings with pages met in matches or drawn at will, rows and books with one fault of
//! each kind, and every single fault of short ones.

use crate::fields::Fields;
use crate::images;
use crate::paper::{self, Setting, Snake, State};
use crate::paper_books;
use crate::random::Random;
use crate::replay::Match;

/// A setting and what should be the images of its pages.
pub struct Pages {
    pub setting: Setting,
    pub parts: Vec<Vec<u16>>,
}

impl Pages {
    pub fn row(&self) -> Vec<u16> {
        self.parts.concat()
    }

    /// A book with these parts as its pages, whatever they are.
    pub fn bound(&self) -> Vec<u16> {
        let lengths: Vec<usize> = self.parts.iter().map(Vec::len).collect();
        [paper_books::contents(&self.setting, &lengths), self.row()].concat()
    }
}

/// Which books are wanted.
#[derive(Clone, Copy, PartialEq)]
pub enum Extent {
    /// Of at most 90 words.
    Short,
    Any,
    /// Whose last page starts past word 65,535.
    Long,
}

// ---- settings

/// A limit of one to four words, often at the ends of what these hold.
fn limit(rng: &mut Random) -> u64 {
    let ends = [1, 65_535, 65_536, (1 << 32) - 1, 1 << 32, (1 << 48) - 1, 1 << 48, 1 << 63, u64::MAX];
    match rng.below(6) {
        0..=1 => *rng.pick(&ends),
        2 => (rng.word() >> rng.below(64)).max(1),
        _ => rng.between(1, 30),
    }
}

/// An accepted setting, its limits unset or of any size.
fn accepted(rng: &mut Random) -> Setting {
    let mut s = images::accepted(rng);
    set_limits(rng, &mut s);
    s
}

fn set_limits(rng: &mut Random, s: &mut Setting) {
    s.win_food_lead = if s.num_snakes == 2 && rng.once_in(2) { Some(limit(rng)) } else { None };
    s.max_ticks = match rng.below(8) {
        0..=2 => None,
        3 => Some(0),
        _ => Some(limit(rng)),
    };
}

/// A setting for each number that a setting check gives and that words can hold; 7 is never given, 6 comes before it.
const REFUSED: [&str; 18] = [
    "1 3 1 0 - 0 -",
    "9 16 1 0 - 0 -",
    "0 3 1 0 - 0 -",
    "2 3 0 0 - 0 -",
    "2 3 1 0 0 0 -",
    "3 4 1 0 1 0 -",
    "2 33 1 0 - 0 -",
    "2 65535 1 0 - 0 -",
    "2 3 1 0 - 10 -",
    "2 0 1 0 - 1 -",
    "2 32 1 0 - 10001 -",
    "8 11 1 0 - 8 -",
    "2 3 7 0 - 0 -",
    "2 3 65535 0 - 0 -",
    "2 1 1 0 - 0 -",
    "2 0 1 0 - 0 -",
    "2 3 5 0 - 0 -",
    "2 3 1 0 - 8 -",
];

fn refused(rng: &mut Random) -> Setting {
    let text = rng.pick(&REFUSED);
    Setting::read(&mut Fields::of(text.as_bytes())).expect("a readable setting")
}

// ---- pages

/// The states of a match: its start, then after each draw and move.
fn played(rng: &mut Random, s: &Setting, most: usize) -> Vec<Vec<u16>> {
    let (mut game, _) = Match::start(s.clone()).expect("accepted");
    let mut parts = Vec::new();
    while parts.len() < most {
        parts.push(paper::write_image(&game.state));
        if game.over {
            break;
        }
        if game.state.due > 0 {
            let count = paper::count(&game.state).expect("bounded by the setting");
            game.draw(rng.below(count)).expect("an index below the count");
        } else {
            let actions = images::sensible(rng, &game.state);
            game.play(&actions).expect("a legal move");
        }
    }
    parts
}

fn any_image(rng: &mut Random, n: u64, side: u16) -> Vec<u16> {
    let mut state = images::any_state(rng, n, side);
    let for_draw = rng.once_in(2);
    images::set_due(rng, &mut state, for_draw);
    paper::write_image(&state)
}

/// The shortest image of a board: corpses without a cell.
fn shortest_image(rng: &mut Random, n: u64, side: u16) -> Vec<u16> {
    let corpse = |rng: &mut Random| Snake { heading: rng.below(4) as u16, alive: false, body: Vec::new() };
    let snakes = (0..n).map(|_| corpse(rng)).collect();
    let due = rng.below(3) as u16;
    paper::write_image(&State { side, due, birth: rng.once_in(2), snakes, food: Vec::new() })
}

/// An image that belongs to no setting of this board: another number of snakes, or another side.
fn strange_image(rng: &mut Random, s: &Setting) -> Vec<u16> {
    let (mut n, mut side) = (s.num_snakes, s.grid_size as u16);
    if rng.once_in(2) {
        n = 2 + (n + 6 + rng.below(6)) % 7;
    } else {
        while i32::from(side) == s.grid_size {
            side = images::side(rng);
        }
    }
    any_image(rng, n.clamp(2, 8), side.clamp(1, 32))
}

/// So many pages of a match, or fewer where it ends, or as many at will.
fn some(rng: &mut Random, count: usize) -> Pages {
    let setting = accepted(rng);
    let (n, side) = (setting.num_snakes, setting.grid_size as u16);
    let parts = match rng.below(5) {
        0..=1 => played(rng, &setting, count),
        2 => (0..count).map(|_| shortest_image(rng, n, side)).collect(),
        _ => (0..count).map(|_| any_image(rng, n, side)).collect(),
    };
    Pages { setting, parts }
}

/// Hundreds of pages, a few images over and over.
fn many(rng: &mut Random) -> Pages {
    let count = rng.between(2, 9) as usize;
    let Pages { setting, parts: few } = some(rng, count);
    let count = rng.between(60, 600);
    Pages { setting, parts: (0..count).map(|_| rng.pick(&few).clone()).collect() }
}

/// Thousands of shortest images, for so many snakes: starts go past 65,535, and a book grows to what a line may hold,
/// a word or two more included.
fn thousands(rng: &mut Random, n: u64, extent: Extent) -> Pages {
    let setting = loop {
        let setting = accepted(rng);
        if setting.num_snakes == n {
            break setting;
        }
    };
    // the image's words and the two of its start
    let each = 5 + 4 * n + 2;
    let (least, most) = (65_536 / each + 1, (262_144 - 17) / each);
    let count = match rng.below(3) {
        _ if extent == Extent::Long => least,
        0 => rng.between(most - 1, most + 1),
        _ => rng.between(least, most),
    };
    let side = setting.grid_size as u16;
    Pages { setting, parts: (0..count).map(|_| shortest_image(rng, n, side)).collect() }
}

/// Pages of the largest image.
fn largest(rng: &mut Random) -> Pages {
    let mut setting = images::setting_for(rng, 8, 32).expect("a large board has room");
    set_limits(rng, &mut setting);
    let count = if rng.once_in(8) { 28 } else { rng.between(1, 8) };
    Pages { setting, parts: (0..count).map(|_| paper::write_image(&images::full_state(rng))).collect() }
}

/// A setting with pages of its own: none, one, a few, many.
pub fn pages(rng: &mut Random, extent: Extent) -> Pages {
    if extent == Extent::Long {
        return thousands(rng, 2, extent);
    }
    if extent == Extent::Any {
        if rng.once_in(500) {
            return many(rng);
        }
        if rng.once_in(1000) {
            let n = images::snake_count(rng);
            return thousands(rng, n, extent);
        }
        if rng.once_in(2000) {
            return largest(rng);
        }
    }
    let short = extent == Extent::Short;
    loop {
        let count = match rng.below(24) {
            0..=2 => 0,
            3..=8 => 1,
            9..=16 => rng.between(2, 3),
            _ if short => rng.between(2, 4),
            17..=22 => rng.between(4, 12),
            _ => rng.between(13, 60),
        };
        let pages = some(rng, count as usize);
        if !short || pages.bound().len() <= 90 {
            return pages;
        }
    }
}

/// A book of 65,535 pages, all of one word but for an image somewhere, which a line can hold.
pub fn most_pages(rng: &mut Random) -> (Pages, u64) {
    let mut pages = some(rng, 1);
    let image = pages.parts.pop().unwrap_or_else(|| vec![2; 13]);
    let at = match rng.below(3) {
        0 => 65_534,
        1 => 0,
        _ => rng.below(65_535),
    };
    pages.parts = vec![vec![rng.below(9) as u16]; 65_535];
    pages.parts[at as usize] = image;
    (pages, at)
}

// ---- faults

/// One fault in one of the parts, which then is mostly no image of the setting's board, or in how many there are.
pub fn spoil_part(rng: &mut Random, pages: &mut Pages) {
    let Pages { setting, parts } = pages;
    if parts.is_empty() {
        parts.push(vec![rng.below(9) as u16]);
        return;
    }
    let i = rng.below(parts.len() as u64) as usize;
    let length = parts[i].len() as u64;
    match rng.below(14) {
        0 => drop(parts[i].pop()),
        1 => parts[i].push(rng.below(9) as u16),
        2 => parts[i].truncate(rng.below(length + 1) as usize),
        3 => parts[i] = vec![rng.below(9) as u16],
        4 => parts[i].clear(),
        5..=7 => parts[i] = strange_image(rng, setting),
        8 => drop(parts.remove(i)),
        9 => parts.push(parts[i].clone()),
        10 if i + 1 < parts.len() => {
            let next = parts.remove(i + 1);
            parts[i].extend(next);
        }
        _ => images::damage(rng, &mut parts[i]),
    }
}

/// One fault of a call that writes: in its setting, its page count or its row.
pub fn spoil_writing(rng: &mut Random, pages: &mut Pages, count: &mut u64) {
    match rng.below(10) {
        0 => pages.setting = refused(rng),
        // seldom of the same board
        1 => pages.setting = accepted(rng),
        2..=3 => {
            // beside the true one, at the limit, or the same in its low words
            let right = pages.parts.len() as u64;
            let near = [right + 1, right.saturating_sub(1), 0];
            let limits = [65_535, 65_536, 65_537, (1 << 16) + right, (1 << 32) + right, 1 << 63, u64::MAX];
            *count = if rng.once_in(2) { *rng.pick(&near) } else { *rng.pick(&limits) };
        }
        _ => spoil_part(rng, pages),
    }
}

/// A page of a book of so many, or none of its pages.
pub fn page_near(rng: &mut Random, pages: u64) -> u64 {
    let inside = rng.below(pages.max(1));
    let outside = [pages, pages + 1, 65_535, 65_536, (1 << 16) + inside, (1 << 32) + inside, 1 << 63, u64::MAX];
    match rng.below(8) {
        0 => *rng.pick(&outside),
        1 => pages.saturating_sub(1),
        _ => inside,
    }
}

/// Words put over those at a place, as far as there are any.
fn set_all(words: &mut [u16], at: usize, values: &[u16]) {
    for (word, &value) in words.iter_mut().skip(at).zip(values) {
        *word = value;
    }
}

/// One fault put into a book: its fixed words, its starts or its length. It may undo itself; the oracle reads the
/// words afresh.
pub fn damage(rng: &mut Random, book: &mut Vec<u16>) {
    match rng.below(8) {
        0..=2 => damage_fixed(rng, book),
        3..=5 => damage_starts(rng, book),
        _ => damage_length(rng, book),
    }
}

/// A fault in the first 17 words.
fn damage_fixed(rng: &mut Random, book: &mut [u16]) {
    let was = |at: usize| book.get(at).copied().unwrap_or(0);
    let limit = *rng.pick(&[5, 11]);
    let (flag, pages) = (was(limit), was(16));
    let high = *rng.pick(&[2, 3, 256, 65_535]);
    match rng.below(12) {
        0 => set_all(book, 0, &[*rng.pick(&[0, 2, 3, 256, 65_535])]),
        1 => set_all(book, 4, &[high]),
        2 => set_all(book, limit, &[high]),
        3 => set_all(book, limit, &[1 - flag.min(1)]),
        // words of an unset limit
        4 => {
            set_all(book, limit, &[0]);
            set_all(book, limit + rng.between(1, 4) as usize, &[*rng.pick(&[1, 65_535])]);
        }
        // a limit of 0
        5 => set_all(book, limit, &[1, 0, 0, 0, 0]),
        6..=8 => set_all(book, 1, &paper_books::setting_words(&refused(rng))),
        9 => set_all(book, 1, &paper_books::setting_words(&accepted(rng))),
        _ => {
            let near = [pages.wrapping_add(1), pages.wrapping_sub(1), 0, pages ^ 256, 65_535];
            set_all(book, 16, &[*rng.pick(&near)]);
        }
    }
}

/// A fault in the starts, where there are any.
fn damage_starts(rng: &mut Random, book: &mut [u16]) {
    let pages = usize::from(book.get(16).copied().unwrap_or(0));
    let (after, length) = (paper_books::contents_length(pages), book.len());
    let pairs = book.get(17..after.min(length)).unwrap_or(&[]).chunks_exact(2);
    let mut starts: Vec<usize> = pairs.map(|two| usize::from(two[0]) | usize::from(two[1]) << 16).collect();
    if starts.is_empty() {
        return;
    }
    let last = starts.len() - 1;
    let any = rng.below(starts.len() as u64) as usize;
    // one that has another before it, where one has
    let later = (rng.below(last.max(1) as u64) as usize + 1).min(last);
    let before = starts[later.saturating_sub(1)];
    match rng.below(16) {
        // the same start twice; one below the one before it
        0..=1 => starts[later] = before,
        2 => starts[later] = before.saturating_sub(1),
        3 => starts.swap(later, later.saturating_sub(1)),
        4 => starts[0] = *rng.pick(&[after - 1, after + 1, 0, 16, 17, 2 * pages]),
        // all counted from after the contents, from the starts, from the second word, from before the first
        5 => starts.iter_mut().for_each(|start| *start = start.saturating_sub(after)),
        6 => starts.iter_mut().for_each(|start| *start = start.saturating_sub(17)),
        7 => starts.iter_mut().for_each(|start| *start = start.saturating_sub(1)),
        8 => starts.iter_mut().for_each(|start| *start += 1),
        // at the book's end, past it, inside the contents
        9 => starts[last] = length,
        10 => starts[last] = *rng.pick(&[length + 1, length + 65_536, 0xffff_ffff]),
        11 => starts[any] = *rng.pick(&[length, length + 1, 0xffff_ffff]),
        12 => starts[any] = rng.below(after as u64) as usize,
        // the high word first; the high word set
        13 => starts.iter_mut().for_each(|start| *start = *start >> 16 | (*start & 0xffff) << 16),
        14 => starts[any] += *rng.pick(&[65_536, 0xffff_0000]),
        // pages divided elsewhere
        _ => starts[later] = (starts[later] + rng.below(5) as usize).saturating_sub(2),
    }
    let words: Vec<u16> = starts.iter().flat_map(|&start| [start as u16, (start >> 16) as u16]).collect();
    set_all(book, 17, &words);
}

/// Cut, lengthened, or any word another.
fn damage_length(rng: &mut Random, book: &mut Vec<u16>) {
    let after = paper_books::contents_length(usize::from(book.get(16).copied().unwrap_or(0)));
    let length = book.len();
    let any = rng.below(length as u64 + 1) as usize;
    match rng.below(6) {
        0 => book.truncate(length.saturating_sub(1)),
        1 => book.truncate(*rng.pick(&[0, 1, 16, 17, 18, after - 1, after, after + 1])),
        2 => book.truncate(any),
        3..=4 => {
            let more = *rng.pick(&[1, 1, 2, 13]);
            book.resize(length + more, rng.below(3) as u16);
        }
        _ => set_all(book, any, &[rng.word() as u16]),
    }
}

/// Each word changed to 0, 1, one more, one less and 65,535; cut at every length; lengthened by a word.
pub fn single_faults(words: &[u16]) -> Vec<Vec<u16>> {
    let mut all = Vec::new();
    for (at, &was) in words.iter().enumerate() {
        let mut values = vec![0, 1, was.wrapping_add(1), was.wrapping_sub(1), 65_535];
        values.sort_unstable();
        values.dedup();
        for value in values.into_iter().filter(|&value| value != was) {
            let mut changed = words.to_vec();
            changed[at] = value;
            all.push(changed);
        }
        all.push(words[..at].to_vec());
    }
    for more in [0, 1, 65_535] {
        all.push([words, &[more]].concat());
    }
    all
}
