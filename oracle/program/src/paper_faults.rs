//! Document 02's fourth wish, read a second time: what is wrong with an image, and the first word that shows it. Each
//! fault is asked of each word in turn, and the first word of the first fault is the answer.

use crate::paper::{self, Number, State};

/// Why a call refuses: its number, and for 50 to 56 the word.
#[derive(Clone, Copy, Debug, PartialEq)]
pub struct Refusal {
    pub number: Number,
    pub word: Option<usize>,
}

impl From<Number> for Refusal {
    fn from(number: Number) -> Refusal {
        Refusal { number, word: None }
    }
}

/// Whether word `k`, which may be the first missing one, shows a fault, where those before it in the order do not hold.
fn shows(fault: Number, words: &[u16], k: usize) -> bool {
    let at = |k: usize| words.get(k).map_or(0, |&word| usize::from(word));
    let (n, cells) = (at(0), at(1) * at(1));
    let counted = (2..=8).contains(&n);
    let bodies = 5 + 4 * n;
    // where the part of snake i ends, by its own start and length; before the first snake the records end
    let end = |i: usize| if i == 0 { bodies } else { at(5 + 4 * (i - 1)) + at(6 + 4 * (i - 1)) };
    let here = at(k);
    match fault {
        // "fewer than 5 words, or fewer than 5 + 4n where n is 2..8 (word: the first missing)"
        50 => k == words.len() && (k < 5 || (counted && k < bodies)),
        // "a content word out of range, a living snake's length 0 included (word: the length)"
        51 => match k {
            0 => !counted,
            1 => !(1..=32).contains(&here),
            2 => here > 1024,
            3 => here > 1,
            4 => here > cells,
            _ if k >= bodies => false,
            _ => match (k - 5) % 4 {
                0 => false,
                1 => here > cells || (here == 0 && at(k + 2) == 1),
                2 => here > 3,
                _ => here > 1,
            },
        },
        // "a start out of line"
        52 => (5..bodies).contains(&k) && (k - 5) % 4 == 0 && here != end((k - 5) / 4),
        // "total length wrong (word: the first missing or left over)"
        53 => {
            let total = end(n) + at(4);
            total != words.len() && k == total.min(words.len())
        }
        // "a cell beyond the grid"
        54 => k >= bodies && k < words.len() && here >= cells,
        // "a cell twice in a body"
        55 => (0..n).any(|i| {
            let (start, after) = (at(5 + 4 * i), end(i + 1));
            (start..after).contains(&k) && words[start..k].contains(&words[k])
        }),
        // "food not ascending"
        _ => k > end(n) && k < words.len() && words[k] <= words[k - 1],
    }
}

/// The first fault of words that are no image, and the first word that shows it.
pub fn fault(words: &[u16]) -> Option<Refusal> {
    for number in 50..=56 {
        // the contents of eight snakes end at word 37
        let last = if number < 53 { words.len().min(37) } else { words.len() };
        if let Some(word) = (0..=last).find(|&k| shows(number, words, k)) {
            return Some(Refusal { number, word: Some(word) });
        }
    }
    None
}

/// The state of a well-formed image, or what is wrong with it.
pub fn state(words: &[u16]) -> Result<State, Refusal> {
    let read = paper::read_image(words);
    let found = if read.is_some() && words.len() > 200 { None } else { fault(words) };
    assert_eq!(read.is_none(), found.is_some(), "no fault exactly where the image is well-formed");
    read.ok_or_else(|| found.expect("a fault"))
}
