//! Document 02's first wish, read a second time: a match book, written and read, with every refusal in its order.
//! The published Rust has no books; `calls.rs` holds writer and reader against each other.

use crate::paper::{self, Setting, State};
use crate::paper_faults::{self, Refusal};

/// A refusal, and the paper's words that it was given under, which `oracle stats` counts.
pub type Refused = (Refusal, &'static str);

/// "number of pages up to 65,535"
const MOST_PAGES: u64 = 65_535;

/// The word 1, fifteen words of the setting and the number of pages; then "start word of each page in the book as two
/// words".
pub fn contents_length(pages: usize) -> usize {
    17 + 2 * pages
}

// ---- writing

/// "Lead and max_ticks take five words each, a flag and four words lowest first, all 0 when unset"
fn limit_words(limit: Option<u64>) -> [u16; 5] {
    match limit {
        None => [0; 5],
        Some(n) => [1, n as u16, (n >> 16) as u16, (n >> 32) as u16, (n >> 48) as u16],
    }
}

/// "the setting in the order of replay's first line", "other settings take one"
pub fn setting_words(s: &Setting) -> Vec<u16> {
    let word = |n: u64| u16::try_from(n).expect("an accepted setting's numbers fit a word");
    let mut words = vec![word(s.num_snakes), word(s.grid_size as u64), word(s.initial_length), u16::from(s.play_to_last)];
    words.extend(limit_words(s.win_food_lead));
    words.push(word(s.initial_food_count));
    words.extend(limit_words(s.max_ticks));
    words
}

/// "a table of contents first (the word 1, the setting .., number of pages .., start word of each page in the book as
/// two words, low one first)", for pages of these lengths "one after another"
pub fn contents(s: &Setting, lengths: &[usize]) -> Vec<u16> {
    let mut words = vec![1];
    words.extend(setting_words(s));
    words.push(lengths.len() as u16);
    let mut start = contents_length(lengths.len());
    for length in lengths {
        words.extend([start as u16, (start >> 16) as u16]);
        start += length;
    }
    words
}

/// The image at the front of a row, and its length: all of the row, or up to the first word that is left over.
pub fn first_image(row: &[u16]) -> Result<(State, usize), Refusal> {
    // no image has more than 9,253 words
    let length = match paper_faults::fault(&row[..row.len().min(9_254)]) {
        Some(Refusal { number: 53, word: Some(word) }) => word,
        _ => row.len(),
    };
    Ok((paper_faults::state(&row[..length])?, length))
}

/// "writing, the setting's, then 42 above 65,535 pages, then 20 and 21 page by page, then 29"; "where 20 stood in an
/// order, the whole group stands", and "in a book or a writer's row, words count from the page's own start"
pub fn write(s: &Setting, pages: u64, row: &[u16], room: u64) -> Result<Vec<u16>, Refused> {
    paper::check_setting(s).map_err(|number| (number.into(), "the setting's"))?;
    if pages > MOST_PAGES {
        return Err((42.into(), "above 65,535 pages"));
    }
    let mut lengths = Vec::new();
    let mut rest = row;
    for _ in 0..pages {
        let (state, length) = first_image(rest).map_err(|refusal| (refusal, "page by page"))?;
        paper::check_board(s, &state).map_err(|number| (number.into(), "page by page"))?;
        lengths.push(length);
        rest = &rest[length..];
    }
    // "words after the last, tested after its 21, are 20 too": the first of them, from the last page's own start
    if !rest.is_empty() {
        let word = lengths.last().copied().unwrap_or(0);
        return Err((Refusal { number: 53, word: Some(word) }, "words after the last"));
    }
    // "then the state images one after another, no word left over"
    let book = [contents(s, &lengths).as_slice(), row].concat();
    paper::check_room(room, book.len()).map_err(|number| (number.into(), "the buffer"))?;
    Ok(book)
}

// ---- reading

/// What an accepted table of contents says.
pub struct Contents {
    pub setting: Setting,
    pub starts: Vec<usize>,
}

/// "(yes/no words above 1 too)"
fn yes_no(word: u16) -> Result<bool, &'static str> {
    match word {
        0 => Ok(false),
        1 => Ok(true),
        _ => Err("yes/no words above 1"),
    }
}

/// "a flag and four words lowest first, all 0 when unset"
fn read_limit(words: &[u16]) -> Result<Option<u64>, &'static str> {
    let number = words[1..].iter().rev().fold(0, |high, &word| high << 16 | u64::from(word));
    match (yes_no(words[0])?, number) {
        (true, _) => Ok(Some(number)),
        (false, 0) => Ok(None),
        (false, _) => Err("all 0 when unset"),
    }
}

/// All of 40: "contents cut short, off this layout (yes/no words above 1 too) or with a refused setting, starts not
/// rising from right after the contents, one outside the book, or words left in a book of no pages"
pub fn read_contents(book: &[u16]) -> Result<Contents, &'static str> {
    let fixed = book.get(..contents_length(0)).ok_or("cut short before the starts")?;
    if fixed[0] != 1 {
        return Err("the word 1");
    }
    let setting = Setting {
        num_snakes: u64::from(fixed[1]),
        grid_size: i32::from(fixed[2]),
        initial_length: u64::from(fixed[3]),
        play_to_last: yes_no(fixed[4])?,
        win_food_lead: read_limit(&fixed[5..10])?,
        initial_food_count: u64::from(fixed[10]),
        max_ticks: read_limit(&fixed[11..16])?,
    };
    paper::check_setting(&setting).map_err(|_| "a refused setting")?;
    let after = contents_length(usize::from(fixed[16]));
    let pairs = book.get(fixed.len()..after).ok_or("cut short in the starts")?;
    let starts: Vec<usize> = pairs.chunks(2).map(|two| usize::from(two[0]) | usize::from(two[1]) << 16).collect();
    if starts.first().map_or(false, |&first| first != after) {
        return Err("from right after the contents");
    }
    if starts.windows(2).any(|two| two[1] <= two[0]) {
        return Err("starts not rising");
    }
    // no word of the book stands at its end
    if starts.iter().any(|&start| start >= book.len()) {
        return Err("one outside the book");
    }
    if starts.is_empty() && book.len() > after {
        return Err("words left in a book of no pages");
    }
    Ok(Contents { setting, starts })
}

/// "then 41 no such page, then 20 and 21 for the page, up to the next start or the end": where the page begins, and
/// its length. Other pages may be damaged.
pub fn page(contents: &Contents, book: &[u16], page: u64) -> Result<(usize, usize), Refused> {
    let Contents { setting, starts } = contents;
    if page >= starts.len() as u64 {
        return Err((41.into(), "no such page"));
    }
    let start = starts[page as usize];
    let end = starts.get(page as usize + 1).copied().unwrap_or(book.len());
    let state = paper_faults::state(&book[start..end]).map_err(|refusal| (refusal, "for the page"))?;
    paper::check_board(setting, &state).map_err(|number| (number.into(), "for the page"))?;
    Ok((start, end - start))
}

/// "reading, 40 ..; then 41 .., then 20 and 21 for the page"
pub fn read(book: &[u16], at: u64) -> Result<(usize, usize), Refused> {
    let contents = read_contents(book).map_err(|why| (40.into(), why))?;
    page(&contents, book, at)
}
