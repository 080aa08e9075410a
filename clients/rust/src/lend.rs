//! The calls over slices that the caller lends: nothing is allocated. On a refusal every lent word is untouched; after an answer the
//! words past those it wrote keep their values.
use crate::raw;
use crate::{Event, Hit, Refusal, Setting};

/// What a step into lent memory answers; `words` is the length of the next image.
#[derive(Clone, Copy, Debug, PartialEq, Eq)]
pub struct Stepped {
    pub words: usize,
    pub terminal: bool,
    pub events: [Event; 8],
}

/// What a draw into lent memory answers: the length of the next image and of the list.
#[derive(Clone, Copy, Debug, PartialEq, Eq)]
pub struct Drawn {
    pub words: usize,
    pub cells: usize,
}

/// Refusals 1 to 12, 29.
pub fn initial_state(setting: &Setting, out: &mut [u16]) -> Result<usize, Refusal> {
    let mut written = [0];
    Refusal::check(unsafe {
        raw::lundaspro_flat_initial_state(
            &setting.flat(),
            out.as_mut_ptr(),
            out.len(),
            &mut written,
        )
    })?;
    Ok(written[0] as usize)
}

/// Refusals 1 to 12, 50 to 56, 21, 22, 24, 25, 29.
pub fn step(
    setting: &Setting,
    image: &[u16],
    actions: &[u64],
    out: &mut [u16],
) -> Result<Stepped, Refusal> {
    let (mut events, mut end) = ([[0; 8]; 8], [0; 2]);
    let returned = unsafe {
        raw::lundaspro_flat_step(
            &setting.flat(),
            image.as_ptr(),
            image.len(),
            actions.as_ptr(),
            actions.len(),
            out.as_mut_ptr(),
            out.len(),
            &mut events,
            &mut end,
        )
    };
    Refusal::check_in(returned, image)?;
    Ok(Stepped {
        words: end[0] as usize,
        terminal: end[1] != 0,
        events: events.map(Event::from_bytes),
    })
}

/// Whom each snake hits, and where. Refusals 1 to 12, 50 to 56, 21, 22, 24, 25.
pub fn struck(
    setting: &Setting,
    image: &[u16],
    actions: &[u64],
) -> Result<[Option<Hit>; 8], Refusal> {
    let mut hits = [[0; 2]; 8];
    let returned = unsafe {
        raw::lundaspro_flat_struck(
            &setting.flat(),
            image.as_ptr(),
            image.len(),
            actions.as_ptr(),
            actions.len(),
            &mut hits,
        )
    };
    Refusal::check_in(returned, image)?;
    Ok(hits.map(Hit::from_words))
}

/// Refusals 50 to 56, 23, 28.
pub fn count(image: &[u16]) -> Result<u64, Refusal> {
    let mut value = [0];
    let returned = unsafe { raw::lundaspro_flat_count(image.as_ptr(), image.len(), &mut value) };
    Refusal::check_in(returned, image)?;
    Ok(value[0])
}

/// Refusals 50 to 56, 23, 28, 27, 29.
pub fn draw(
    image: &[u16],
    index: u64,
    out: &mut [u16],
    list: &mut [u16],
) -> Result<Drawn, Refusal> {
    let mut drawn = [0; 2];
    let returned = unsafe {
        raw::lundaspro_flat_draw(
            image.as_ptr(),
            image.len(),
            index,
            out.as_mut_ptr(),
            out.len(),
            list.as_mut_ptr(),
            list.len(),
            &mut drawn,
        )
    };
    Refusal::check_in(returned, image)?;
    Ok(Drawn {
        words: drawn[0] as usize,
        cells: drawn[1] as usize,
    })
}

/// Refusals 50 to 56, 23, 28, 30.
pub fn rank(image: &[u16], list: &[u16]) -> Result<u64, Refusal> {
    let mut index = [0];
    let returned = unsafe {
        raw::lundaspro_flat_rank(
            image.as_ptr(),
            image.len(),
            list.as_ptr(),
            list.len(),
            &mut index,
        )
    };
    Refusal::check_in(returned, image)?;
    Ok(index[0])
}

/// Refusals 50 to 56, 26, 29.
pub fn observe(image: &[u16], agent: u64, obs: &mut [f32]) -> Result<usize, Refusal> {
    let mut written = [0];
    let returned = unsafe {
        raw::lundaspro_flat_observe(
            image.as_ptr(),
            image.len(),
            agent,
            obs.as_mut_ptr(),
            obs.len(),
            &mut written,
        )
    };
    Refusal::check_in(returned, image)?;
    Ok(written[0] as usize)
}

/// The book of so many images that stand in a row; [`crate::book_words`] says how long it is. Refusals 1 to 12, 42, 50 to 56, 21, 29.
pub fn write_book(
    setting: &Setting,
    pages: u64,
    row: &[u16],
    out: &mut [u16],
) -> Result<usize, Refusal> {
    let mut written = [0];
    Refusal::check(unsafe {
        raw::lundaspro_flat_write_book(
            &setting.flat(),
            pages,
            row.as_ptr(),
            row.len(),
            out.as_mut_ptr(),
            out.len(),
            &mut written,
        )
    })?;
    Ok(written[0] as usize)
}

/// The words that accepted contents give a page; none where they do not.
fn words_of(book: &[u16], page: u64) -> &[u16] {
    let start = |i: usize| {
        Some(usize::from(*book.get(17 + 2 * i)?) | usize::from(*book.get(18 + 2 * i)?) << 16)
    };
    let pages = book.get(16).map_or(0, |&n| usize::from(n));
    let Some(i) = usize::try_from(page).ok().filter(|&i| i < pages) else {
        return &[];
    };
    let end = if i + 1 < pages {
        start(i + 1)
    } else {
        Some(book.len())
    };
    start(i)
        .zip(end)
        .and_then(|(start, end)| book.get(start..end))
        .unwrap_or(&[])
}

/// A page of a book, from page 0 on: the book's own words. Refusals 40, 41, 50 to 56, 21.
pub fn page(book: &[u16], page: u64) -> Result<&[u16], Refusal> {
    let mut part = [0; 2];
    let returned = unsafe { raw::lundaspro_flat_page(book.as_ptr(), book.len(), page, &mut part) };
    Refusal::check_in(returned, words_of(book, page))?;
    let [start, len] = part.map(|n| n as usize);
    Ok(&book[start..start + len])
}
