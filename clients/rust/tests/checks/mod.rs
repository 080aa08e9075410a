// What the calls answer, as functions that panic where one does not: run by `cargo test` (calls.rs) and by a plain program (plain.rs).
use lundaspro::Action::*;
use lundaspro::*;

pub const ALL: &[(&str, fn())] = &[
    ("sample_match", sample_match),
    ("settings", settings),
    ("draws", draws),
    ("longest_list", longest_list),
    ("turned_picture", turned_picture),
    ("facing_neighbours", facing_neighbours),
    ("length_cells", length_cells),
    ("refused_images", refused_images),
    ("refused_steps", refused_steps),
    ("refused_draws", refused_draws),
    ("short_buffers", short_buffers),
    ("rewards", rewards),
    ("unit_numbers", unit_numbers),
    ("turns", turns),
    ("events_as_bytes", events_as_bytes),
    ("spaces", spaces),
    ("books", books),
    ("refused_books", refused_books),
    ("lent_books", lent_books),
    ("sentences", sentences),
    ("faults", faults),
    ("boards", boards),
    ("what_an_image_shows", what_an_image_shows),
    ("events_as_letters", events_as_letters),
    ("actions_by_number", actions_by_number),
    ("settings_as_keys", settings_as_keys),
    ("match_by_the_lead", match_by_the_lead),
    ("match_at_max_ticks", match_at_max_ticks),
    ("any_match", any_match),
];

struct Snake<'a> {
    heading: u16,
    alive: u16,
    body: &'a [u16],
}

fn alive(heading: u16, body: &[u16]) -> Snake<'_> {
    Snake {
        heading,
        alive: 1,
        body,
    }
}

// Side 3: a living snake on the middle cell, and a dead one without cells.
fn one_dead() -> Image {
    image(
        3,
        0,
        0,
        &[
            alive(0, &[4]),
            Snake {
                heading: 0,
                alive: 0,
                body: &[],
            },
        ],
        &[],
    )
}

fn image(side: u16, due: u16, birth: u16, snakes: &[Snake], food: &[u16]) -> Image {
    let mut words = vec![snakes.len() as u16, side, due, birth, food.len() as u16];
    let mut start = 5 + 4 * snakes.len();
    for snake in snakes {
        words.extend([
            start as u16,
            snake.body.len() as u16,
            snake.heading,
            snake.alive,
        ]);
        start += snake.body.len();
    }
    for snake in snakes {
        words.extend(snake.body);
    }
    words.extend(food);
    Image::checked(words).expect("well-formed")
}

fn number<T: std::fmt::Debug>(answer: Result<T, Refusal>) -> u8 {
    answer.expect_err("a refusal").number()
}

fn setting(
    num_snakes: u64,
    grid_size: i32,
    initial_length: u64,
    initial_food_count: u64,
) -> Setting {
    Setting {
        num_snakes,
        grid_size,
        initial_length,
        initial_food_count,
        ..Setting::default()
    }
}

// A line as the replay prints it.
fn line(letter: char, terminal: bool, image: &Image, events: &[Event]) -> String {
    let (due, food) = (image.due(), image.food().len());
    let mut text = format!("{letter} {} {due} {food}", u8::from(terminal));
    for i in 0..u64::from(image.snakes()) {
        let (alive, length) = (u8::from(image.alive(i)), image.body(i).len());
        let head = image.head(i).map_or("-".into(), |cell| cell.to_string());
        let event = events.get(i as usize).copied().unwrap_or_default();
        text += &format!(" {alive}:{length}:{head}:{event}");
    }
    text
}

fn sample_match() {
    let setting = setting(2, 3, 1, 1);
    let mut image = setting.initial_state().unwrap();
    assert_eq!(line('i', false, &image, &[]), "i 0 1 0 1:1:4:- 1:1:5:-");
    let both = [Forward, Forward];
    let lines: [(Option<u64>, [Action; 2], &str); 5] = [
        (Some(2), both, "d 0 0 1 1:1:4:- 1:1:5:-"),
        (None, both, "m 0 0 1 1:1:5:- 1:1:4:-"),
        (None, [TurnLeft, Forward], "m 0 1 0 1:2:2:a 1:1:3:-"),
        (Some(0), both, "d 0 0 1 1:2:2:- 1:1:3:-"),
        (None, both, "m 1 0 1 0:1:2:Wx 0:0:-:Wx"),
    ];
    for (index, actions, due) in lines {
        let (next, text) = match index {
            Some(index) => {
                let drawn = image.draw(index).unwrap();
                assert_eq!(image.rank(&drawn.cells), Ok(index));
                let text = line('d', false, &drawn.next, &[]);
                (drawn.next, text)
            }
            None => {
                let step = image.step(&setting, &actions).unwrap();
                assert_eq!(step.events.len(), 2);
                let text = line('m', step.terminal, &step.next, &step.events);
                (step.next, text)
            }
        };
        assert_eq!(text, due);
        assert!(next.is_well_formed());
        image = next;
    }
}

fn settings() {
    // the examples on settings
    assert_eq!(setting(8, 10, 1, 8).validate(), Ok(()));
    assert_eq!(number(setting(8, 11, 1, 8).validate()), 8);
    assert_eq!(setting(2, 3, 4, 1).validate(), Ok(()));
    assert_eq!(number(setting(2, 3, 4, 2).validate()), 12);
    assert_eq!(number(setting(2, 3, 5, 1).validate()), 11);
    assert_eq!(number(setting(2, 3, 7, 1).validate()), 9);
    assert_eq!(number(setting(2, 2, 1, 1).validate()), 10);
    // the other numbers
    assert_eq!(number(setting(1, 3, 1, 1).validate()), 1);
    assert_eq!(number(setting(9, 3, 1, 1).validate()), 1);
    assert_eq!(number(setting(2, 3, 0, 1).validate()), 2);
    assert_eq!(
        number(
            Setting {
                win_food_lead: Some(0),
                ..setting(2, 3, 1, 1)
            }
            .validate()
        ),
        3
    );
    assert_eq!(
        number(
            Setting {
                win_food_lead: Some(1),
                ..setting(3, 5, 1, 1)
            }
            .validate()
        ),
        4
    );
    assert_eq!(
        Setting {
            win_food_lead: Some(1),
            max_ticks: Some(0),
            ..setting(2, 3, 1, 1)
        }
        .validate(),
        Ok(())
    );
    assert_eq!(number(setting(2, 33, 1, 1).validate()), 5);
    assert_eq!(number(setting(2, 3, 1, 10).validate()), 6);
    assert_eq!(number(setting(2, i32::MIN, 1, 1).validate()), 6);
    // the same numbers where an image is asked for
    assert_eq!(number(setting(2, 3, 7, 1).initial_state()), 9);
    assert_eq!(
        setting(2, 3, 1, 1).initial_state().unwrap().words(),
        [2, 3, 1, 1, 0, 13, 1, 1, 1, 14, 1, 3, 1, 4, 5]
    );
}

fn draws() {
    let start = image(3, 2, 0, &[alive(0, &[2]), alive(0, &[3, 5])], &[]);
    assert_eq!(start.count(), Ok(30));
    assert_eq!(start.draw(7).unwrap().cells, [1, 6]);
    assert_eq!(start.draw(16).unwrap().cells, [6, 1]);
    let mut seen = std::collections::HashSet::new();
    for index in 0..30 {
        let drawn = start.draw(index).unwrap();
        assert_eq!(start.rank(&drawn.cells), Ok(index));
        assert_eq!(drawn.next.words()[2..5], [0, 0, 2]);
        assert!(seen.insert(drawn.cells));
    }
    assert_eq!(number(start.draw(30)), 27);
    for list in [&[1][..], &[1, 1], &[1, 2], &[1, 6, 7]] {
        assert_eq!(number(start.rank(list)), 30);
    }
}

// 20 cells are the longest list: 21 factorial is above 2^64.
fn longest_list() {
    let body: Vec<u16> = (0..5).collect();
    let full = image(5, 1024, 0, &[alive(0, &body), alive(0, &[0])], &[]);
    let count = full.count().unwrap();
    assert_eq!(count, 2_432_902_008_176_640_000);
    let last = full.draw(count - 1).unwrap();
    assert_eq!(last.cells, (5..25).rev().collect::<Vec<u16>>());
    assert_eq!(
        (last.cells.len(), full.rank(&last.cells)),
        (LIST_WORDS, Ok(count - 1))
    );
    assert_eq!(
        number(image(5, 1024, 0, &[alive(0, &body[1..]), alive(0, &[1])], &[]).count()),
        28
    );
}

fn turned_picture() {
    for (heading, row, column) in [(1, 0, 1), (3, 2, 1)] {
        let seen = image(3, 0, 0, &[alive(heading, &[0]), alive(0, &[1])], &[5])
            .observe(0)
            .unwrap();
        let food: Vec<usize> = (0..9).filter(|&k| seen[36 + k] == 1.0).collect();
        assert_eq!((seen.len(), food), (45, vec![3 * row + column]));
    }
}

fn facing_neighbours() {
    let setting = setting(2, 5, 1, 0);
    let both = image(5, 0, 0, &[alive(1, &[7, 6]), alive(3, &[8, 9])], &[])
        .step(&setting, &[Forward, Forward])
        .unwrap();
    let drew = Event {
        died: true,
        death_cause: Some(Cause::OppBody),
        drew: true,
        ..Event::default()
    };
    assert_eq!((both.terminal, both.events), (true, vec![drew, drew]));
    let one = image(5, 0, 0, &[alive(1, &[7]), alive(3, &[8, 9])], &[])
        .step(&setting, &[Forward, Forward])
        .unwrap();
    let lost = Event {
        died: true,
        death_cause: Some(Cause::OppBody),
        lost: true,
        ..Event::default()
    };
    let won = Event {
        killed_opponent: true,
        won: true,
        ..Event::default()
    };
    assert_eq!((one.terminal, one.events), (true, vec![lost, won]));
    assert_eq!((one.next.body(0), one.next.body(1)), (&[][..], &[7, 8][..]));
    // the victim meets the cell behind the other's moved head
    let struck = image(5, 0, 0, &[alive(1, &[7]), alive(3, &[8, 9])], &[])
        .struck(&setting, &[Forward, Forward])
        .unwrap();
    let hit = Hit {
        snake: 1,
        position: 1,
    };
    assert_eq!(struck, vec![Some(hit), None]);
}

fn length_cells() {
    let long: Vec<u16> = (0..30).collect();
    assert_eq!(
        image(6, 0, 0, &[alive(0, &[0, 1, 2]), alive(0, &long)], &[]).length_cell(),
        Ok(Some(65545))
    );
    let dead = Snake {
        heading: 0,
        alive: 0,
        body: &[3],
    };
    assert_eq!(
        image(6, 0, 0, &[alive(0, &[0, 1, 2]), dead], &[]).length_cell(),
        Ok(None)
    );
}

fn refused_images() {
    let bad = Image::unchecked(vec![2, 3, 0]);
    assert_eq!(number(Image::checked(vec![])), 50);
    assert!(bad.body(0).is_empty());
    assert_eq!(number(bad.step(&setting(2, 3, 1, 1), &[Forward; 2])), 50);
    assert_eq!(number(bad.struck(&setting(2, 3, 1, 1), &[Forward; 2])), 50);
    assert_eq!(number(bad.count()), 50);
    assert_eq!(number(bad.draw(0)), 50);
    assert_eq!(number(bad.rank(&[])), 50);
    assert_eq!(number(bad.observe(9)), 50);
    assert_eq!(number(bad.length_cell()), 50);
    assert_eq!(number(bad.actor()), 50);
    assert_eq!(number(bad.legal_actions(9)), 50);
    assert_eq!(number(bad.truncation(9, Event::default())), 50);
    let good = image(3, 0, 0, &[alive(0, &[2]), alive(0, &[3])], &[]);
    assert!(good.body(2).is_empty());
    assert_eq!(number(good.observe(2)), 26);
    assert_eq!(number(good.legal_actions(2)), 26);
    assert_eq!(number(good.truncation(2, Event::default())), 26);
}

fn refused_steps() {
    let set = setting(2, 3, 1, 0);
    let good = one_dead();
    let due = image(3, 1, 0, &[alive(0, &[4]), alive(0, &[3])], &[]);
    assert_eq!(number(good.step(&setting(2, 3, 0, 0), &[])), 2);
    assert_eq!(number(good.step(&setting(2, 4, 1, 0), &[])), 21);
    assert_eq!(number(due.step(&set, &[])), 22);
    assert_eq!(number(good.step(&set, &[Forward])), 24);
    // a dead snake's action may be any number
    let mut out = [0; 20];
    let step = |actions: &[u64], out: &mut [u16]| lend::step(&set, good.words(), actions, out);
    assert_eq!(number(step(&[3, 0], &mut out)), 25);
    let stepped = step(&[0, u64::MAX], &mut out).unwrap();
    assert_eq!(
        good.step(&set, &[Forward, TurnRight]).unwrap().next.words(),
        &out[..stepped.words]
    );
}

fn refused_draws() {
    let none = image(3, 0, 0, &[alive(0, &[2]), alive(0, &[3])], &[]);
    assert_eq!(number(none.count()), 23);
    assert_eq!(number(none.draw(0)), 23);
    assert_eq!(number(none.rank(&[])), 23);
    let many = image(32, 8, 0, &[alive(0, &[2]), alive(0, &[3])], &[]);
    assert_eq!(number(many.count()), 28);
    assert_eq!(number(many.draw(0)), 28);
    assert_eq!(number(many.rank(&[])), 28);
}

// 29 one word short of the answer; nothing is written, and words past an answer stay.
fn short_buffers() {
    let set = setting(2, 3, 1, 1);
    let mut out = [9u16; 20];
    assert_eq!(number(lend::initial_state(&set, &mut out[..14])), 29);
    assert_eq!(out, [9; 20]);
    assert_eq!(lend::initial_state(&set, &mut out), Ok(15));
    assert_eq!(out[15..], [9; 5]);
    let start = set.initial_state().unwrap();
    let mut list = [9u16; 3];
    out = [9; 20];
    assert_eq!(
        number(lend::draw(start.words(), 0, &mut out[..15], &mut list)),
        29
    );
    assert_eq!(
        number(lend::draw(start.words(), 0, &mut out, &mut list[..0])),
        29
    );
    assert_eq!((out, list), ([9; 20], [9; 3]));
    assert_eq!(
        lend::draw(start.words(), 0, &mut out, &mut list),
        Ok(lend::Drawn {
            words: 16,
            cells: 1
        })
    );
    assert_eq!((&out[16..], list), (&[9; 4][..], [0, 9, 9]));
    let next = start.draw(0).unwrap().next;
    out = [9; 20];
    assert_eq!(
        number(lend::step(&set, next.words(), &[0, 0], &mut out[..15])),
        29
    );
    assert_eq!(out, [9; 20]);
    assert_eq!(
        lend::step(&set, next.words(), &[0, 0], &mut out)
            .unwrap()
            .words,
        16
    );
    assert_eq!(out[16..], [9; 4]);
    let mut obs = [9f32; 50];
    assert_eq!(number(lend::observe(next.words(), 0, &mut obs[..44])), 29);
    assert_eq!(obs, [9.0; 50]);
    assert_eq!(lend::observe(next.words(), 0, &mut obs), Ok(45));
    assert_eq!(obs[45..], [9.0; 5]);
}

fn rewards() {
    let w = Weights {
        step: -0.5,
        food: 1.0,
        loss: -8.0,
        draw: 0.25,
        kill: 2.0,
        win: 4.0,
        survival: 16.0,
    };
    let e = Event::default();
    assert_eq!(reward(&w, e), Ok(-0.5));
    assert_eq!(
        reward(
            &w,
            Event {
                ate_food: true,
                killed_opponent: true,
                won: true,
                survived_to_max_ticks: true,
                ..e
            }
        ),
        Ok(22.5)
    );
    assert_eq!(
        reward(
            &w,
            Event {
                died: true,
                lost: true,
                ate_food: true,
                ..e
            }
        ),
        Ok(-8.5)
    );
    assert_eq!(
        reward(
            &w,
            Event {
                died: true,
                drew: true,
                ..e
            }
        ),
        Ok(-0.25)
    );
    for bad in [f64::NAN, -f64::NAN, f64::INFINITY, f64::NEG_INFINITY] {
        assert_eq!(number(reward(&Weights { survival: bad, ..w }, e)), 31);
    }
}

// Unit numbers: -0.0 counts as 0, a third of 3 rounds up to 1; 80 comes before 81.
fn unit_numbers() {
    let below_one = f64::from_bits(1.0f64.to_bits() - 1);
    for (count, u, index) in [
        (3, 0.0, 0),
        (3, -0.0, 0),
        (3, 1.0 / 3.0, 1),
        (1, below_one, 0),
        (1 << 53, below_one, (1 << 53) - 1),
        (1 << 53, f64::from_bits(1), 0),
    ] {
        assert_eq!(outcome_of(count, u), Ok(index));
    }
    for u in [
        1.0,
        -0.5,
        -f64::from_bits(1),
        f64::NAN,
        f64::INFINITY,
        f64::NEG_INFINITY,
    ] {
        assert_eq!(outcome_of(3, u), Err(Refusal::UnitNumber));
        assert_eq!(outcome_of(0, u), Err(Refusal::UnitCount));
        assert_eq!(outcome_of((1 << 53) + 1, u), Err(Refusal::UnitCount));
    }
    let due = setting(2, 3, 1, 1).initial_state().unwrap();
    let index = outcome_of(due.count().unwrap(), 0.9).unwrap();
    assert!(due.draw(index).is_ok());
}

fn turns() {
    use Heading::*;
    let ring = [Up, Right, Down, Left];
    for (i, &heading) in ring.iter().enumerate() {
        assert_eq!(relative_to_absolute(heading, Forward), heading);
        assert_eq!(relative_to_absolute(heading, TurnRight), ring[(i + 1) % 4]);
        assert_eq!(relative_to_absolute(heading, TurnLeft), ring[(i + 3) % 4]);
    }
    let due = setting(2, 3, 1, 1).initial_state().unwrap();
    assert_eq!(due.actor(), Ok(Actor::Chance));
    assert_eq!(due.legal_actions(0), Ok(&[][..]));
    let next = due.draw(0).unwrap().next;
    assert_eq!(next.actor(), Ok(Actor::Simultaneous));
    assert_eq!(
        next.legal_actions(0),
        Ok(&[Forward, TurnLeft, TurnRight][..])
    );
}

// Every event goes out as bytes and comes back with the survival flag of a living and of a dead agent.
fn events_as_bytes() {
    let image = one_dead();
    for (cause, flags) in (0..5).flat_map(|cause| (0..128).map(move |flags| (cause, flags))) {
        let bit = |i: u32| (flags >> i & 1) as u8;
        let bytes = [
            bit(0),
            bit(1),
            cause,
            bit(2),
            bit(3),
            bit(4),
            bit(5),
            bit(6),
        ];
        let event = Event::from_bytes(bytes);
        assert_eq!(event.bytes(), bytes);
        assert_eq!(
            image.truncation(0, event),
            Ok(Event {
                survived_to_max_ticks: true,
                ..event
            })
        );
        assert_eq!(
            image.truncation(1, event),
            Ok(Event {
                survived_to_max_ticks: false,
                ..event
            })
        );
    }
}

fn spaces() {
    assert_eq!(
        observation_space(7),
        Ok(Space::Box {
            planes: 5,
            rows: 7,
            cols: 7,
            low: 0.0,
            high: 1.0
        })
    );
    assert_eq!(number(observation_space(0)), 5);
    assert_eq!(number(observation_space(33)), 5);
    assert_eq!(action_space(), Ok(Space::Discrete(3)));
}

// A match's setting and the images of its states.
fn played() -> (Setting, Vec<Image>) {
    let set = Setting {
        max_ticks: Some(u64::MAX - 1),
        ..setting(2, 3, 1, 1)
    };
    let start = set.initial_state().unwrap();
    let drawn = start.draw(2).unwrap().next;
    let moved = drawn.step(&set, &[Forward, Forward]).unwrap().next;
    (set, vec![start, drawn, moved])
}

fn books() {
    let (set, images) = played();
    let book = set.write_book(&images).unwrap();
    let all: usize = images.iter().map(|image| image.words().len()).sum();
    assert_eq!((book.len(), book.words().len()), (3, book_words(3, all)));
    // max_ticks: a flag and four words, lowest first; three pages, the first right after the contents
    assert_eq!(
        book.words()[11..19],
        [1, 65534, 65535, 65535, 65535, 3, 23, 0]
    );
    for (i, image) in images.iter().enumerate() {
        assert_eq!(book.page(i as u64), Ok(image.words()));
    }
    let there: Vec<&[u16]> = book.pages().map(Result::unwrap).collect();
    let words: Vec<&[u16]> = images.iter().map(Image::words).collect();
    assert_eq!(there, words);
    let mut pages = book.pages();
    assert_eq!((pages.len(), pages.next_back()), (3, Some(Ok(words[2]))));
    assert_eq!((pages.nth(1), pages.next()), (Some(Ok(words[1])), None));
    let opened = Book::open(book.words().to_vec()).unwrap();
    assert_eq!((opened.page(2), opened == book), (Ok(words[2]), true));
    let mut steps = 0;
    for page in &opened {
        steps += usize::from(lend::step(&set, page.unwrap(), &[0, 0], &mut [0; 30]).is_ok());
    }
    assert_eq!(steps, 2);
    let none = set.write_book(&[]).unwrap();
    assert_eq!((none.is_empty(), none.words().len()), (true, 17));
    assert_eq!((none.pages().count(), number(none.page(0))), (0, 41));
}

fn refused_books() {
    let (set, images) = played();
    let other = image(4, 0, 0, &[alive(0, &[2]), alive(0, &[3])], &[]);
    let bad = Image::unchecked(vec![2, 3, 0]);
    let with = |more: &[&Image]| -> Vec<Image> {
        images.iter().chain(more.iter().copied()).cloned().collect()
    };
    assert_eq!(number(setting(2, 3, 0, 1).write_book(&with(&[&bad]))), 2);
    assert_eq!(number(set.write_book(&vec![bad.clone(); 65536])), 42);
    assert_eq!(number(set.write_book(&with(&[&other, &bad]))), 21);
    assert_eq!(number(set.write_book(&with(&[&bad, &other]))), 50);
    // two parts that only together are an image
    let (front, back) = images[0].words().split_at(7);
    let parts = [front, back].map(|words| Image::unchecked(words.to_vec()));
    assert_eq!(number(set.write_book(&parts)), 50);
    let book = set.write_book(&images).unwrap();
    assert_eq!(number(book.page(3)), 41);
    assert_eq!(number(book.page(u64::MAX)), 41);
    // every word of the contents at its limit, and every length that cuts them or the last page's start
    for i in 0..23 {
        let mut words = book.words().to_vec();
        words[i] = 65535;
        // a set limit's own words may be any
        assert_eq!(Book::open(words).is_ok(), (12..16).contains(&i), "word {i}");
    }
    let last = book.words().len() - images[2].words().len();
    for cut in 0..book.words().len() {
        let opened = Book::open(book.words()[..cut].to_vec());
        assert_eq!(opened.as_ref().is_ok(), last < cut, "cut at {cut}");
        // a page that is cut is short of its contents' words, or of its own
        let due = if last >= cut {
            40
        } else if cut < last + 13 {
            50
        } else {
            53
        };
        assert_eq!(opened.map_or(40, |book| number(book.page(2))), due);
    }
    // a damaged page is refused alone
    let mut words = book.words().to_vec();
    words[last - 1] = 9;
    let pages: Vec<u8> = Book::open(words)
        .unwrap()
        .pages()
        .map(|page| page.map_or_else(Refusal::number, |_| 0))
        .collect();
    assert_eq!(pages, [0, 54, 0]);
    let mut words = book.words().to_vec();
    words[2] = 4;
    assert_eq!(number(Book::open(words).unwrap().page(0)), 21);
}

// 29 one word short of the book; nothing is written, and words past it stay. A page is the lent book's own words.
fn lent_books() {
    let (set, images) = played();
    let row: Vec<u16> = images.iter().flat_map(Image::words).copied().collect();
    let need = book_words(3, row.len());
    let mut out = vec![9; need + 2];
    assert_eq!(
        number(lend::write_book(&set, 3, &row, &mut out[..need - 1])),
        29
    );
    assert!(out.iter().all(|&word| word == 9));
    assert_eq!(lend::write_book(&set, 3, &row, &mut out), Ok(need));
    assert_eq!(out[need..], [9; 2]);
    assert_eq!(&out[..need], set.write_book(&images).unwrap().words());
    let page = lend::page(&out[..need], 1).unwrap();
    let start = 23 + images[0].words().len();
    assert_eq!(page.as_ptr(), out[start..].as_ptr());
    assert_eq!(page, images[1].words());
    assert_eq!(number(lend::write_book(&set, 2, &row, &mut out)), 53);
    assert_eq!(number(lend::write_book(&set, 4, &row, &mut out)), 50);
    // of a row no word is at hand, so the sentence tells no more than the fault
    let says = |pages, row: &[u16]| {
        let refusal = lend::write_book(&set, pages, row, &mut [0; 99]).unwrap_err();
        refusal.to_string()
    };
    assert_eq!(says(0, &row), "refusal 53: word 0: total length wrong");
    let nine: Vec<u16> = [9].iter().chain(&row[1..]).copied().collect();
    assert_eq!(
        says(3, &nine),
        "refusal 51: word 0: a content word out of range, or a living snake's length 0"
    );
    assert_eq!(number(lend::page(&[], 0)), 40);
}

fn sentences() {
    let refusal = setting(2, 3, 4, 2).validate().unwrap_err();
    assert_eq!(refusal, Refusal::FoodFree);
    assert_eq!(refusal.to_string(), "refusal 12: food above the free cells");
    let _: &dyn std::error::Error = &refusal;
    for number in 1..=u8::MAX {
        let refusal = Refusal::from_number(number).expect("not 0");
        let named = [1..=6, 8..=12, 21..=31, 33..=33, 40..=42, 80..=81]
            .iter()
            .any(|numbers| numbers.contains(&number));
        let fault = (50..=56).contains(&number);
        assert_eq!(refusal.number(), number);
        assert_eq!(Refusal::ALL.contains(&refusal), named);
        assert_eq!(refusal.word().is_some(), fault);
        assert_eq!(refusal == Refusal::Unnamed(number), !named && !fault);
    }
    assert_eq!((Refusal::from_number(0), Refusal::ALL.len()), (None, 28));
    assert_eq!(FaultKind::ALL.len(), 7);
}

// Each fault in an image of its own: the number, the word, and what was expected there.
fn faults() {
    let good = image(4, 0, 0, &[alive(0, &[2, 6]), alive(0, &[3])], &[8, 9]);
    let cases: [(usize, u16, &str); 12] = [
        (
            0,
            9,
            "refusal 51: word 0: the number of snakes is 9, 2 to 8 is due",
        ),
        (1, 0, "refusal 51: word 1: the side is 0, 1 to 32 is due"),
        (
            4,
            17,
            "refusal 51: word 4: the food count is 17, 0 to 16 is due",
        ),
        (
            6,
            0,
            "refusal 51: word 6: snake 0's length, while it lives, is 0, 1 to 16 is due",
        ),
        (
            11,
            4,
            "refusal 51: word 11: snake 1's heading is 4, 0 to 3 is due",
        ),
        (
            12,
            2,
            "refusal 51: word 12: snake 1's alive flag is 2, 0 to 1 is due",
        ),
        (
            9,
            40,
            "refusal 52: word 9: snake 1's start is 40, its body is due at 15",
        ),
        (
            10,
            3,
            "refusal 53: word 18: it is missing, 20 words are due",
        ),
        (
            4,
            1,
            "refusal 53: word 17: it is left over, 17 words are due",
        ),
        (
            13,
            16,
            "refusal 54: word 13: the cell is 16, a cell below 16 is due",
        ),
        (
            14,
            2,
            "refusal 55: word 14: snake 0's cell is 2, which stands in its body at word 13 already",
        ),
        (
            17,
            8,
            "refusal 56: word 17: the food is 8, food above 8 is due",
        ),
    ];
    for (word, value, sentence) in cases {
        let mut words = good.words().to_vec();
        words[word] = value;
        let refusal = Image::checked(words).unwrap_err();
        assert_eq!(refusal.to_string(), sentence);
        assert!(matches!(refusal, Refusal::Fault(fault) if Some(fault.word) == refusal.word()));
    }
    for cut in 0..good.words().len() {
        let refusal = Image::checked(good.words()[..cut].to_vec()).unwrap_err();
        let due = if cut < 5 {
            (50, 5)
        } else if cut < 13 {
            (50, 13)
        } else {
            (53, 18)
        };
        assert_eq!(
            (refusal.number(), refusal.word()),
            (due.0, Some(cut as u16))
        );
        let told = format!(
            "refusal {}: word {cut}: it is missing, {} words are due",
            due.0, due.1
        );
        assert_eq!(refusal.to_string(), told);
    }
}

fn boards() {
    let start = setting(2, 3, 1, 1).initial_state().unwrap();
    assert_eq!(start.to_string(), "...\n.AB\n...");
    let drawn = start.draw(2).unwrap().next;
    assert_eq!(drawn.to_string(), "..*\n.AB\n...");
    // several on a cell: D's head over C's body, C's head over a corpse and food, a corpse over food and over the next
    let corpse = |body| Snake {
        heading: 0,
        alive: 0,
        body,
    };
    let heap = [
        corpse(&[4, 5, 8]),
        corpse(&[3, 4]),
        alive(0, &[8, 7]),
        alive(0, &[7]),
    ];
    let heap = image(3, 0, 0, &heap, &[0, 5, 8]);
    assert_eq!(heap.to_string(), "*..\n100\n.DC");
    let eight: Vec<Snake> = [[0], [1], [2], [3], [4], [5], [6], [7]]
        .iter()
        .map(|body| alive(0, body))
        .collect();
    assert_eq!(image(3, 0, 0, &eight, &[]).to_string(), "ABC\nDEF\nGH.");
}

fn what_an_image_shows() {
    let shown = image(4, 2, 0, &[alive(1, &[6, 5]), alive(0, &[9])], &[0, 15]);
    assert_eq!((shown.grid(), shown.snakes(), shown.due()), (4, 2, 2));
    assert_eq!(shown.food(), [0, 15]);
    assert!(shown.alive(0) && shown.alive(1));
    assert!(!shown.alive(2) && !shown.alive(u64::MAX));
    assert_eq!([0, 1, 2].map(|i| shown.head(i)), [Some(6), Some(9), None]);
    let dead = one_dead();
    assert!(dead.alive(0) && !dead.alive(1));
    assert_eq!((dead.head(1), dead.food()), (None, &[][..]));
    // of words that are no image they show nothing
    for words in [vec![], vec![2, 3, 0], vec![u16::MAX; 40]] {
        let bad = Image::unchecked(words);
        assert_eq!((bad.grid(), bad.snakes(), bad.due()), (0, 0, 0));
        assert_eq!((bad.food(), bad.head(0)), (&[][..], None));
        assert!(!bad.alive(0));
        assert_eq!(bad.to_string(), "no board: image not well-formed");
    }
}

fn events_as_letters() {
    let blank = Event::default();
    let all = Event {
        ate_food: true,
        died: true,
        death_cause: Some(Cause::Wall),
        killed_opponent: true,
        won: true,
        lost: true,
        drew: true,
        survived_to_max_ticks: true,
    };
    assert_eq!(
        (blank.to_string(), all.to_string()),
        ("-".into(), "aWkwlxy".into())
    );
    assert_eq!(format!("{blank:>3}|"), "  -|");
    let died = |cause| Event {
        died: true,
        death_cause: Some(cause),
        ..blank
    };
    let causes = [Cause::Wall, Cause::SelfBody, Cause::OppBody, Cause::HeadOn];
    assert_eq!(
        causes.map(|cause| died(cause).to_string()),
        ["W", "S", "O", "H"]
    );
}

fn actions_by_number() {
    for (number, action) in (0..).zip(Action::ALL) {
        assert_eq!(action.number(), number);
        assert_eq!(Action::from_number(number), Some(action));
    }
    assert_eq!(Action::from_number(3), None);
    assert_eq!(Action::from_number(u64::MAX), None);
}

fn settings_as_keys() {
    let mut matches = std::collections::HashMap::new();
    for (place, length) in [1, 2, 1].into_iter().enumerate() {
        matches.insert(setting(2, 5, length, 0), place);
    }
    assert_eq!(matches.len(), 2);
    assert_eq!(matches[&setting(2, 5, 1, 0)], 2);
}

// The second snake is longer by the lead.
fn match_by_the_lead() {
    let led = Setting {
        win_food_lead: Some(2),
        ..setting(2, 5, 1, 0)
    };
    let before = image(5, 0, 0, &[alive(1, &[6]), alive(1, &[18, 17, 16])], &[]);
    let mut game = Match::default();
    let mut step = before.step(&led, &[Forward, Forward]).expect("a step");
    assert_eq!(game.take_move(&led, &mut step), Ok(()));
    assert_eq!((game.moves, game.ending()), (1, Some(Ending::Lead)));
    assert_eq!(game.behind[..3], [true, false, false]);
    assert_eq!(game.places(&led), [2, 1]);
}

fn match_at_max_ticks() {
    let short = Setting {
        max_ticks: Some(2),
        ..setting(2, 5, 1, 0)
    };
    let (mut now, mut game) = (short.initial_state().expect("a start"), Match::default());
    for last in [false, true] {
        let mut step = now.step(&short, &[Forward, Forward]).expect("a step");
        assert_eq!(
            (game.take_move(&short, &mut step), step.terminal),
            (Ok(()), false)
        );
        assert!(step.events.iter().all(|e| e.survived_to_max_ticks == last));
        now = step.next;
    }
    assert_eq!((game.moves, game.ending()), (2, Some(Ending::MaxTicks)));
    assert_eq!((game.places(&short), game.deaths), (vec![1, 1], [0; 8]));
    let mut past = now.step(&short, &[Forward, Forward]).expect("a step");
    let kept = (game, past.clone());
    assert_eq!(game.take_move(&short, &mut past), Err(Refusal::Over));
    assert_eq!((game, past), kept);
}

// Any value is read.
fn any_match() {
    let three = setting(3, 5, 1, 0);
    let mut game = Match {
        moves: u64::MAX,
        ..Match::default()
    };
    game.deaths[..2].copy_from_slice(&[u64::MAX, 3]);
    assert_eq!(game.places(&three), [2, 3, 1]);
    let no_image = Image::unchecked(vec![9; 3]);
    let marked = game.take(&three, false, &no_image, [Event::default(); 8]);
    assert_eq!((marked, game.moves), (Ok([Event::default(); 8]), u64::MAX));
    assert_eq!(
        game.places(&setting(u64::MAX, 5, 1, 0)),
        [7, 8, 1, 1, 1, 1, 1, 1]
    );
    assert_eq!(Match::default().places(&setting(0, 5, 1, 0)), []);
}
