//! A match book: contents, and a page for each state.
use crate::{lend, Image, Refusal, Setting};
use std::ops::Range;

/// How many words the book of so many pages has, whose images have so many in all.
pub const fn book_words(pages: usize, images: usize) -> usize {
    17 + 2 * pages + images
}

impl Setting {
    /// The book of these images, a page each. Refusals 1 to 12, 42, 50 to 56, 21.
    pub fn write_book(&self, images: &[Image]) -> Result<Book, Refusal> {
        // A malformed image's words say nothing of where the next one stands: what comes before it, and then what is wrong with it.
        let malformed = images.iter().position(|image| !image.is_well_formed());
        if let Some(i) = malformed.filter(|_| images.len() <= 65_535) {
            self.write_book(&images[..i])?;
            images[i].check()?;
        }
        let row: Vec<u16> = images
            .iter()
            .flat_map(|image| image.words())
            .copied()
            .collect();
        let mut words = vec![0; book_words(images.len(), row.len())];
        lend::write_book(self, images.len() as u64, &row, &mut words)?;
        Ok(Book(words))
    }
}

/// The words of a book whose contents are accepted. A page is checked when it is read, so that others may be damaged.
///
/// ```
/// use lundaspro::{Book, Image, Refusal, Setting};
///
/// let setting = Setting { num_snakes: 2, grid_size: 3, initial_length: 1, initial_food_count: 1, ..Setting::default() };
/// let start = setting.initial_state()?;
/// let drawn = start.draw(2)?.next;
/// let words = setting.write_book(&[start, drawn.clone()])?.into_words();
///
/// let book = Book::open(words)?;
/// for page in &book {
///     println!("{}", Image::checked(page?.to_vec())?);
/// }
/// assert_eq!(book.page(1), Ok(drawn.words()));
/// assert_eq!(book.page(2), Err(Refusal::Page));
/// # Ok::<(), Refusal>(())
/// ```
#[derive(Clone, Debug, PartialEq, Eq, Hash)]
pub struct Book(Vec<u16>);

impl Book {
    /// Refusal 40.
    pub fn open(words: Vec<u16>) -> Result<Book, Refusal> {
        // No book has this page: 41 comes where the contents are accepted.
        match lend::page(&words, u64::MAX) {
            Err(Refusal::Contents) => Err(Refusal::Contents),
            _ => Ok(Book(words)),
        }
    }

    pub fn words(&self) -> &[u16] {
        &self.0
    }

    pub fn into_words(self) -> Vec<u16> {
        self.0
    }

    /// How many pages there are.
    pub fn len(&self) -> usize {
        usize::from(self.0[16])
    }

    pub fn is_empty(&self) -> bool {
        self.len() == 0
    }

    /// The image on a page, from page 0 on. Refusals 41, 50 to 56, 21.
    pub fn page(&self, page: u64) -> Result<&[u16], Refusal> {
        lend::page(&self.0, page)
    }

    /// The pages one after the other, from either end.
    pub fn pages(&self) -> Pages<'_> {
        Pages {
            book: self,
            left: 0..self.len() as u64,
        }
    }
}

impl<'a> IntoIterator for &'a Book {
    type Item = Result<&'a [u16], Refusal>;
    type IntoIter = Pages<'a>;

    fn into_iter(self) -> Pages<'a> {
        self.pages()
    }
}

/// The pages of a book that are still to come.
#[derive(Clone, Debug)]
pub struct Pages<'a> {
    book: &'a Book,
    left: Range<u64>,
}

impl<'a> Iterator for Pages<'a> {
    type Item = Result<&'a [u16], Refusal>;

    fn next(&mut self) -> Option<Self::Item> {
        self.left.next().map(|page| self.book.page(page))
    }

    fn size_hint(&self) -> (usize, Option<usize>) {
        let left = (self.left.end - self.left.start) as usize;
        (left, Some(left))
    }

    // Without it the pages before the n-th would be read too.
    fn nth(&mut self, n: usize) -> Option<Self::Item> {
        self.left.nth(n).map(|page| self.book.page(page))
    }
}

impl DoubleEndedIterator for Pages<'_> {
    fn next_back(&mut self) -> Option<Self::Item> {
        self.left.next_back().map(|page| self.book.page(page))
    }
}

impl ExactSizeIterator for Pages<'_> {}
