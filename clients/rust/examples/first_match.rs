//! The match of `clients/c/example.c` and of examples/first-match.txt: each line as the replay program prints it, with the board below it; then
//! what one agent sees, and the match as a book that is paged through. `cargo run --example first_match`
use lundaspro::Action::{Forward, TurnLeft};
use lundaspro::{reward, Event, Image, Refusal, Setting, Weights};

// What is shown becomes a page.
fn show(pages: &mut Vec<Image>, letter: char, terminal: bool, image: &Image, events: &[Event]) {
    let (due, food) = (image.due(), image.food().len());
    print!("{letter} {} {due} {food}", u8::from(terminal));
    for i in 0..u64::from(image.snakes()) {
        let (alive, length) = (u8::from(image.alive(i)), image.body(i).len());
        let head = image.head(i).map_or("-".into(), |cell| cell.to_string());
        let event = events.get(i as usize).copied().unwrap_or_default();
        print!(" {alive}:{length}:{head}:{event}");
    }
    println!("\n{image}");
    pages.push(image.clone());
}

// A page for each state that was shown, in turn: its words, and its number of food cells.
fn page_through(setting: &Setting, pages: &[Image]) -> Result<(), Refusal> {
    let book = setting.write_book(pages)?;
    print!("book of {} words:", book.words().len());
    for page in &book {
        let image = Image::checked(page?.to_vec())?;
        print!(" {}:{}", image.words().len(), image.food().len());
    }
    println!();
    Ok(())
}

fn main() -> Result<(), Refusal> {
    let setting = Setting {
        num_snakes: 2,
        grid_size: 3,
        initial_length: 1,
        initial_food_count: 1,
        ..Setting::default()
    };
    let mut image = setting.initial_state()?;
    let mut pages = vec![];
    show(&mut pages, 'i', false, &image, &[]);
    image = image.draw(2)?.next;
    show(&mut pages, 'd', false, &image, &[]);
    for actions in [[Forward, Forward], [TurnLeft, Forward]] {
        let step = image.step(&setting, &actions)?;
        show(&mut pages, 'm', step.terminal, &step.next, &step.events);
        image = step.next;
    }
    image = image.draw(0)?.next;
    show(&mut pages, 'd', false, &image, &[]);
    let seen = image.observe(0)?;
    let last = image.step(&setting, &[Forward, Forward])?;
    show(&mut pages, 'm', last.terminal, &last.next, &last.events);
    let weights = Weights {
        step: -0.5,
        food: 1.0,
        loss: -1.0,
        draw: 0.25,
        kill: 2.0,
        win: 4.0,
        survival: 0.5,
    };
    let sum = reward(&weights, last.events[0])?;
    println!("reward {sum}, agent 0 had seen {} numbers", seen.len());
    page_through(&setting, &pages)
}
