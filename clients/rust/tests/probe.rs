// The lines of docs/PROBE.md on the Rust client, read from standard input: so a library for any machine is held against the Rust as the program `probe` is. Lent
// buffers are filled with a pattern before a call and looked through after it; `!` ends a line where one has changed beyond the answer.
use lundaspro::{
    lend, Action, Actor, Cause, Event, Heading, Hit, Image, Refusal, Setting, Space, Weights,
};
use std::io::{self, BufRead, Write};

const MOST_WORDS: u64 = 16_384;
const MOST_NUMBERS: u64 = 8_192;
const MOST_ACTIONS: u64 = 64;
const MOST_RANKED: u64 = 2_048;
const MOST_BOOK_WORDS: u64 = 262_144;
const PATTERN: u16 = 42_406;

/// An answer's numbers and whether the lent buffers kept the rest; or a refusal and whether they kept all.
type Answer = Result<(Vec<u64>, bool), (Refusal, bool)>;

struct Fields<'a>(std::str::Split<'a, char>);

fn number(text: &str) -> Option<u64> {
    let plain = text.bytes().all(|b| b.is_ascii_digit()) && (text == "0" || !text.starts_with('0'));
    if plain {
        text.parse().ok()
    } else {
        None
    }
}

impl Fields<'_> {
    fn number(&mut self) -> Option<u64> {
        number(self.0.next()?)
    }

    fn up_to(&mut self, most: u64) -> Option<u64> {
        self.number().filter(|&n| n <= most)
    }

    fn flag(&mut self) -> Option<bool> {
        self.up_to(1).map(|n| n == 1)
    }

    fn optional(&mut self) -> Option<Option<u64>> {
        match self.0.next()? {
            "-" => Some(None),
            text => number(text).map(Some),
        }
    }

    fn grid(&mut self) -> Option<i32> {
        let text = self.0.next()?;
        let size = match text.strip_prefix('-') {
            None => i128::from(number(text)?),
            Some(digits) => -i128::from(number(digits).filter(|&n| n > 0)?),
        };
        i32::try_from(size).ok()
    }

    fn end(&mut self) -> Option<()> {
        self.0.next().is_none().then_some(())
    }

    fn counted(&mut self, most: u64, top: u64) -> Option<Vec<u64>> {
        let count = self.up_to(most)?;
        (0..count).map(|_| self.up_to(top)).collect()
    }

    fn cells(&mut self, most: u64) -> Option<Vec<u16>> {
        let list = self.counted(most, u64::from(u16::MAX))?;
        Some(list.into_iter().map(|n| n as u16).collect())
    }

    fn words_up_to(&mut self, most: u64) -> Option<Vec<u16>> {
        let words = self.cells(most)?;
        self.end()?;
        Some(words)
    }

    fn words(&mut self) -> Option<Vec<u16>> {
        self.words_up_to(MOST_WORDS)
    }

    fn image(&mut self) -> Option<Image> {
        self.words().map(Image::unchecked)
    }

    fn buffer_up_to(&mut self, most: u64) -> Option<Vec<u16>> {
        let room = self.up_to(most)?;
        Some(vec![PATTERN; room as usize])
    }

    fn buffer(&mut self) -> Option<Vec<u16>> {
        self.buffer_up_to(MOST_WORDS)
    }

    fn setting(&mut self) -> Option<Setting> {
        Some(Setting {
            num_snakes: self.number()?,
            grid_size: self.grid()?,
            initial_length: self.number()?,
            play_to_last: self.flag()?,
            win_food_lead: self.optional()?,
            initial_food_count: self.number()?,
            max_ticks: self.optional()?,
        })
    }

    fn event(&mut self) -> Option<Event> {
        Some(Event {
            ate_food: self.flag()?,
            died: self.flag()?,
            death_cause: [
                None,
                Some(Cause::Wall),
                Some(Cause::SelfBody),
                Some(Cause::OppBody),
                Some(Cause::HeadOn),
            ][self.up_to(4)? as usize],
            killed_opponent: self.flag()?,
            won: self.flag()?,
            lost: self.flag()?,
            drew: self.flag()?,
            survived_to_max_ticks: self.flag()?,
        })
    }

    fn weight(&mut self) -> Option<f64> {
        self.number().map(f64::from_bits)
    }
}

fn kept(buffer: &[u16], from: usize) -> bool {
    buffer[from..].iter().all(|&word| word == PATTERN)
}

/// A count and what it counts.
fn counted(list: &[u16]) -> Vec<u64> {
    let count = [list.len() as u64];
    count
        .into_iter()
        .chain(list.iter().map(|&n| u64::from(n)))
        .collect()
}

/// Where a part of the words begins, and what it holds.
fn placed(part: &[u16], words: &[u16]) -> Vec<u64> {
    let start = (part.as_ptr() as usize - words.as_ptr() as usize) / 2;
    [start as u64].into_iter().chain(counted(part)).collect()
}

fn bytes(event: Event) -> impl Iterator<Item = u64> {
    event.bytes().into_iter().map(u64::from)
}

/// A call that is lent nothing.
fn plain(answer: Result<Vec<u64>, Refusal>) -> Answer {
    answer
        .map(|numbers| (numbers, true))
        .map_err(|refusal| (refusal, true))
}

fn initial(f: &mut Fields) -> Option<Answer> {
    let setting = f.setting()?;
    let mut out = f.buffer()?;
    f.end()?;
    Some(match lend::initial_state(&setting, &mut out) {
        Ok(n) => Ok((counted(&out[..n]), kept(&out, n))),
        Err(refusal) => Err((refusal, kept(&out, 0))),
    })
}

fn step(f: &mut Fields) -> Option<Answer> {
    let setting = f.setting()?;
    let mut out = f.buffer()?;
    let actions = f.counted(MOST_ACTIONS, u64::MAX)?;
    let words = f.words()?;
    Some(match lend::step(&setting, &words, &actions, &mut out) {
        Ok(a) => {
            let told = [u64::from(a.terminal)]
                .into_iter()
                .chain(a.events.into_iter().flat_map(bytes));
            Ok((
                told.chain(counted(&out[..a.words])).collect(),
                kept(&out, a.words),
            ))
        }
        Err(refusal) => Err((refusal, kept(&out, 0))),
    })
}

fn struck(f: &mut Fields) -> Option<Answer> {
    let setting = f.setting()?;
    let actions = f.counted(MOST_ACTIONS, u64::MAX)?;
    let words = f.words()?;
    let told = |hit: Option<Hit>| {
        let numbers = hit.map_or([8, 0], |hit| [hit.snake, hit.position]);
        numbers.map(|n| n as u64)
    };
    let hits = lend::struck(&setting, &words, &actions);
    Some(plain(
        hits.map(|hits| hits.into_iter().flat_map(told).collect()),
    ))
}

fn draw(f: &mut Fields) -> Option<Answer> {
    let (mut out, mut list) = (f.buffer()?, f.buffer()?);
    let index = f.number()?;
    let words = f.words()?;
    Some(match lend::draw(&words, index, &mut out, &mut list) {
        Ok(a) => {
            let told = counted(&out[..a.words])
                .into_iter()
                .chain(counted(&list[..a.cells]));
            Ok((told.collect(), kept(&out, a.words) && kept(&list, a.cells)))
        }
        Err(refusal) => Err((refusal, kept(&out, 0) && kept(&list, 0))),
    })
}

fn observe(f: &mut Fields) -> Option<Answer> {
    let agent = f.number()?;
    let mut obs = vec![0.5; f.up_to(MOST_NUMBERS)? as usize];
    let words = f.words()?;
    let answer = lend::observe(&words, agent, &mut obs);
    let kept = |from: usize| obs[from..].iter().all(|&x| x == 0.5);
    Some(match answer {
        Ok(n) => Ok((
            [n as u64]
                .into_iter()
                .chain(obs[..n].iter().map(|&x| x as u64))
                .collect(),
            kept(n),
        )),
        Err(refusal) => Err((refusal, kept(0))),
    })
}

fn body(f: &mut Fields) -> Option<Answer> {
    let snake = f.number()?;
    let image = f.image()?;
    Some(plain(Ok(placed(image.body(snake), image.words()))))
}

fn write_book(f: &mut Fields) -> Option<Answer> {
    let setting = f.setting()?;
    let mut out = f.buffer_up_to(MOST_BOOK_WORDS)?;
    let pages = f.number()?;
    let row = f.words_up_to(MOST_BOOK_WORDS)?;
    Some(match lend::write_book(&setting, pages, &row, &mut out) {
        Ok(n) => Ok((counted(&out[..n]), kept(&out, n))),
        Err(refusal) => Err((refusal, kept(&out, 0))),
    })
}

fn page(f: &mut Fields) -> Option<Answer> {
    let page = f.number()?;
    let book = f.words_up_to(MOST_BOOK_WORDS)?;
    Some(plain(
        lend::page(&book, page).map(|words| placed(words, &book)),
    ))
}

fn reward(f: &mut Fields) -> Option<Answer> {
    let weights = Weights {
        step: f.weight()?,
        food: f.weight()?,
        loss: f.weight()?,
        draw: f.weight()?,
        kill: f.weight()?,
        win: f.weight()?,
        survival: f.weight()?,
    };
    let event = f.event()?;
    f.end()?;
    Some(plain(
        lundaspro::reward(&weights, event).map(|sum| vec![sum.to_bits()]),
    ))
}

fn outcome_of(f: &mut Fields) -> Option<Answer> {
    let count = f.number()?;
    let u = f.weight()?;
    f.end()?;
    Some(plain(lundaspro::outcome_of(count, u).map(|n| vec![n])))
}

fn turn(f: &mut Fields) -> Option<Answer> {
    let heading = [Heading::Up, Heading::Right, Heading::Down, Heading::Left][f.up_to(3)? as usize];
    let action = [Action::Forward, Action::TurnLeft, Action::TurnRight][f.up_to(2)? as usize];
    f.end()?;
    Some(Ok((
        vec![lundaspro::relative_to_absolute(heading, action) as u64],
        true,
    )))
}

fn space(answer: Result<Space, Refusal>) -> Answer {
    plain(answer.map(|space| match space {
        Space::Box {
            planes, rows, cols, ..
        } => vec![planes as u64, rows as u64, cols as u64],
        Space::Discrete(count) => vec![count as u64],
    }))
}

fn call(line: &str) -> Option<Answer> {
    let mut fields = Fields(line.split(' '));
    let f = &mut fields;
    match f.0.next()? {
        "v" => {
            let setting = f.setting()?;
            f.end()?;
            Some(plain(setting.validate().map(|()| vec![])))
        }
        "i" => initial(f),
        "s" => step(f),
        "H" => struck(f),
        "c" => Some(plain(f.image()?.count().map(|n| vec![n]))),
        "d" => draw(f),
        "k" => {
            let list = f.cells(MOST_RANKED)?;
            Some(plain(f.image()?.rank(&list).map(|n| vec![n])))
        }
        "o" => observe(f),
        "b" => body(f),
        "t" => Some(plain(
            f.image()?
                .actor()
                .map(|actor| vec![u64::from(actor == Actor::Chance)]),
        )),
        "l" => {
            let agent = f.number()?;
            let actions = f.image()?.legal_actions(agent);
            Some(plain(actions.map(|list| {
                let numbers = list.iter().map(|action| action.number());
                [list.len() as u64].into_iter().chain(numbers).collect()
            })))
        }
        "z" => Some(plain(
            f.image()?
                .length_cell()
                .map(|key| key.map_or(vec![0], |n| vec![1, n])),
        )),
        "u" => {
            let agent = f.number()?;
            let event = f.event()?;
            Some(plain(
                f.image()?
                    .truncation(agent, event)
                    .map(|e| bytes(e).collect()),
            ))
        }
        "w" => reward(f),
        "n" => outcome_of(f),
        "p" => {
            let side = f.grid()?;
            f.end()?;
            Some(space(lundaspro::observation_space(side)))
        }
        "q" => {
            f.end()?;
            Some(space(lundaspro::action_space()))
        }
        "h" => turn(f),
        "B" => write_book(f),
        "P" => page(f),
        "x" => Some(plain(Image::checked(f.words()?).map(|_| vec![]))),
        _ => None,
    }
}

fn answer(line: &str) -> String {
    let (mut text, kept) = match call(line) {
        None => ("e".to_string(), true),
        Some(Err((refusal, kept))) => {
            let word = refusal
                .word()
                .map_or(String::new(), |word| format!(" {word}"));
            (format!("r {}{word}", refusal.number()), kept)
        }
        Some(Ok((numbers, kept))) => (
            numbers
                .iter()
                .fold("a".to_string(), |text, n| text + " " + &n.to_string()),
            kept,
        ),
    };
    if !kept {
        text += " !";
    }
    text
}

fn main() -> io::Result<()> {
    let mut out = io::BufWriter::new(io::stdout().lock());
    for line in io::stdin().lock().split(b'\n') {
        // A byte is a letter, whatever it is.
        let line: String = line?.into_iter().map(char::from).collect();
        writeln!(out, "{}", answer(&line))?;
    }
    out.flush()
}
