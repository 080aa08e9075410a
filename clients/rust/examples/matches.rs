//! Stored matches (oracle/replays.txt, crates/matches/stdin) on standard input, replayed through the library as a server plays them: the setting, the image and
//! the match are all that is kept from line to line. Prints what the program `matches` prints. A line `= NAME` begins a match, `> TEXT` is a line of it,
//! `~ TEXT` its last one, whose newline is missing. `cargo run --example matches <../../oracle/replays.txt`
use lundaspro::{lend, Event, Image, Match, Refusal, Setting, IMAGE_WORDS};
use std::io::{self, Read, Write};

/// The replay's own number, or the library's.
enum Stop {
    Unreadable,
    Refused(Refusal),
}

impl From<Refusal> for Stop {
    fn from(refusal: Refusal) -> Stop {
        Stop::Refused(refusal)
    }
}

// ---- a line's fields

// A decimal below 2^64 without leading zeros.
fn number(text: &str) -> Option<u64> {
    let plain = text.bytes().all(|b| b.is_ascii_digit()) && (text == "0" || !text.starts_with('0'));
    if plain {
        text.parse().ok()
    } else {
        None
    }
}

fn side(text: &str) -> Option<i32> {
    let digits = text.strip_prefix('-').unwrap_or(text);
    number(digits)?;
    if text == "-0" {
        None
    } else {
        text.parse().ok()
    }
}

fn limit(text: &str) -> Option<Option<u64>> {
    if text == "-" {
        Some(None)
    } else {
        number(text).map(Some)
    }
}

fn setting_in(line: &str) -> Option<Setting> {
    let fields: Vec<&str> = line.split(' ').collect();
    let [snakes, grid, length, last, lead, food, ticks] = fields[..] else {
        return None;
    };
    Some(Setting {
        num_snakes: number(snakes)?,
        grid_size: side(grid)?,
        initial_length: number(length)?,
        play_to_last: number(last).filter(|&n| n < 2)? == 1,
        win_food_lead: limit(lead)?,
        initial_food_count: number(food)?,
        max_ticks: limit(ticks)?,
    })
}

// ---- a match: what is kept from line to line

struct Game {
    setting: Setting,
    image: Image,
    game: Match,
}

impl Game {
    fn begin(line: &str, out: &mut Vec<u8>) -> Result<Game, Stop> {
        let setting = setting_in(line).ok_or(Stop::Unreadable)?;
        let image = setting.initial_state()?;
        let begun = Game {
            setting,
            image,
            game: Match::default(),
        };
        begun.show('i', false, &[Event::default(); 8], out);
        Ok(begun)
    }

    fn take(&mut self, line: &str, out: &mut Vec<u8>) -> Result<(), Stop> {
        if self.game.over {
            return Err(Refusal::Over.into());
        }
        let mut fields = line.split(' ');
        let letter = fields.next();
        let numbers: Option<Vec<u64>> = fields.map(number).collect();
        match (letter, numbers.ok_or(Stop::Unreadable)?.as_slice()) {
            (Some("d"), &[index]) => self.draw(index, out),
            (Some("m"), actions) if actions.len() as u64 == self.setting.num_snakes => {
                self.step(actions, out)
            }
            _ => Err(Stop::Unreadable),
        }
    }

    fn draw(&mut self, index: u64, out: &mut Vec<u8>) -> Result<(), Stop> {
        self.image = self.image.draw(index)?.next;
        self.show('d', false, &[Event::default(); 8], out);
        Ok(())
    }

    // By numbers, since a line may have any.
    fn step(&mut self, actions: &[u64], out: &mut Vec<u8>) -> Result<(), Stop> {
        let mut words = vec![0; IMAGE_WORDS];
        let step = lend::step(&self.setting, self.image.words(), actions, &mut words)?;
        words.truncate(step.words);
        self.image = Image::unchecked(words);
        let events = self
            .game
            .take(&self.setting, step.terminal, &self.image, step.events)?;
        self.show('m', step.terminal, &events, out);
        Ok(())
    }

    fn show(&self, letter: char, terminal: bool, events: &[Event; 8], out: &mut Vec<u8>) {
        let image = &self.image;
        let mut line = format!(
            "{letter} {} {} {}",
            u8::from(terminal),
            image.due(),
            image.food().len()
        );
        for i in 0..u64::from(image.snakes()) {
            let head = image.head(i).map_or("-".into(), |cell| cell.to_string());
            line += &format!(
                " {}:{}:{head}:{}",
                u8::from(image.alive(i)),
                image.body(i).len(),
                events[i as usize]
            );
        }
        out.extend(line.bytes().chain([b'\n']));
    }
}

// A match's lines; a refusal is the last one.
fn replay(lines: &[&[u8]], out: &mut Vec<u8>) {
    if let Err(stop) = play(lines, out) {
        let number = match stop {
            Stop::Unreadable => 32,
            Stop::Refused(refusal) => refusal.number(),
        };
        out.extend(format!("r {number}\n").bytes());
    }
}

fn play(lines: &[&[u8]], out: &mut Vec<u8>) -> Result<(), Stop> {
    // what is longer than 200 bytes, or no text, is no line either
    let text = |line: &&[u8]| {
        String::from_utf8(line[..line.len().min(201)].to_vec())
            .ok()
            .filter(|s| s.len() <= 200)
    };
    let mut lines = lines.iter().map(|line| text(line).unwrap_or_default());
    let mut game = Game::begin(&lines.next().unwrap_or_default(), out)?;
    for line in lines {
        game.take(&line, out)?;
    }
    let places: Vec<String> = game
        .game
        .places(&game.setting)
        .iter()
        .map(u64::to_string)
        .collect();
    out.extend(format!("p {}\n", places.join(" ")).bytes());
    Ok(())
}

fn main() -> io::Result<()> {
    let mut input = vec![];
    io::stdin().read_to_end(&mut input)?;
    let mut out = vec![];
    let mut rows = input.split(|&b| b == b'\n').peekable();
    while let Some(name) = rows.next() {
        if !name.starts_with(b"=") {
            continue;
        }
        let mut lines = vec![];
        while let Some(row) = rows.next_if(|row| !row.starts_with(b"=")) {
            if row.len() > 2 || row.starts_with(b">") {
                lines.push(&row[2..]);
            }
        }
        out.extend(name.iter().chain(b"\n"));
        replay(&lines, &mut out);
    }
    io::stdout().write_all(&out)
}
