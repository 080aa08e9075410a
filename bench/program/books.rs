//! The books that are measured: so many pages of one state. Nothing of the Rust stands beside them, which has no books.

use crate::states::{self, Setting};

pub struct Book {
    pub name: &'static str,
    pub pages: usize,
    pub setting: Setting,
    pub image: Vec<u16>,
}

impl Book {
    /// The word 1, the setting's fifteen, the number of pages, two for each start.
    pub fn contents(&self) -> usize {
        17 + 2 * self.pages
    }

    pub fn row(&self) -> Vec<u16> {
        self.image.repeat(self.pages)
    }

    pub fn words(&self) -> usize {
        self.contents() + self.pages * self.image.len()
    }

    /// The page that is read.
    pub fn middle(&self) -> u64 {
        self.pages as u64 / 2
    }

    /// Where a page starts.
    pub fn start(&self, page: u64) -> usize {
        self.contents() + page as usize * self.image.len()
    }

    /// The book, made here: a setting without limits, all its numbers below 65,536.
    pub fn made(&self) -> Vec<u16> {
        let s = &self.setting;
        let mut words = vec![1, s.num_snakes as u16, s.grid_size as u16, s.initial_length as u16, 0];
        words.extend([0; 5]);
        words.push(s.initial_food_count as u16);
        words.extend([0; 5]);
        words.push(self.pages as u16);
        for page in 0..self.pages as u64 {
            let start = self.start(page);
            words.extend([start as u16, (start >> 16) as u16]);
        }
        words.extend(self.row());
        words
    }
}

/// A hundred pages of the small and of the huge state, and 60,000 of the small.
pub fn three() -> Vec<Book> {
    let book = |name, pages, state: &str| {
        let five = states::five();
        let s = five.iter().find(|s| s.name == state).expect("one of the five");
        Book { name, pages, setting: s.setting, image: s.image(0) }
    };
    vec![book("b100", 100, "small"), book("b100huge", 100, "huge"), book("b60000", 60_000, "small")]
}

pub fn named(name: &str) -> Option<Book> {
    three().into_iter().find(|b| b.name == name)
}
